"""The rule by which a page of the checkout becomes a page of an installation."""
import posixpath
import re
from typing import Collection, Dict, Iterator, List, Sequence, Tuple

# The pages for users, each with the headings of its sections for people who have the source code.
PAGES: Dict[str, Sequence[str]] = {
    "README.md": ["Build"],
    "CHANGELOG.md": [],
    "docs/FAQ.md": [],
    "docs/FORMATS.md": [],
    "docs/GLOSSARY.md": [],
    "docs/HOSTILE_USE.md": [],
    "docs/MESSAGES.md": ["Status 125: the script"],
    "docs/PROVED.md": [],
    "docs/RULES.md": [],
    "tools/README.md": ["In the source code"],
}
# Where an installation has the documents and the Python modules. The commands of pages run in the folder of documents.
DOCUMENTS = "share/doc/committees"
MODULES = "share/committees"
BUILT = "crates/committees/out/committees"
LINK = re.compile(r"!?\[([^\]]*)\]\(([^)\s]*)\)")
OTHER_PLACE = re.compile("[a-z]+:")  # https: and the like
HEADING = re.compile("(#+) (.*)")


class Rule:
    """Commands become those of an installed program and of the `tools`. A link to a file that is not `installed` is
    said in words, and the sections for people who have the source code are left out."""

    def __init__(self, tools: Sequence[str], installed: Collection[str]):
        self.tools = "|".join(tools)
        self.installed = installed

    def turned(self, page: str, text: str) -> str:
        for heading in PAGES.get(page, []):
            text = without_section(page, text, heading)
        return self._with_links(page, self._with_commands(text))

    def _with_commands(self, text: str) -> str:
        text = re.sub(rf"(sha256sum\b[^\n`]*) {BUILT}\b", r'\1 "$(command -v committees)"', text)
        text = re.sub(r"(\./|\bcrates/committees/out/)committees\b", "committees", text)
        text = re.sub(rf"\btools/({self.tools})\b", r"\1", text)
        return text.replace("PYTHONPATH=tools ", f"PYTHONPATH={posixpath.relpath(MODULES, DOCUMENTS)} ")

    def _with_links(self, page: str, text: str) -> str:
        def linked(link: "re.Match[str]") -> str:
            target = link[2].partition("#")[0]
            place = posixpath.normpath(posixpath.join(posixpath.dirname(page), target)) if target else page
            kept = OTHER_PLACE.match(target) or place in self.installed
            words = link[1] if link[0].startswith("!") else f"{link[1]} of the source code"
            return link[0] if kept else words

        return LINK.sub(linked, text)


def without_section(page: str, text: str, heading: str) -> str:
    kept: List[str] = []
    left_out = 0  # the level of the section that is left out
    found = False
    for line, level, title in headings(text):
        if level and level <= left_out:
            left_out = 0
        if level and title == heading:
            left_out, found = level, True
        if not left_out:
            kept.append(line)
    if not found:
        raise ValueError(f"{page} has no section '{heading}'")
    return "\n".join(kept).rstrip("\n") + "\n"


def headings(text: str) -> Iterator[Tuple[str, int, str]]:
    """Each line with the level and the title of the heading that it is, or 0 and nothing."""
    is_code = False
    for line in text.split("\n"):
        is_code ^= line.startswith("```")
        heading = None if is_code else HEADING.fullmatch(line)
        yield (line, len(heading[1]), heading[2]) if heading else (line, 0, "")
