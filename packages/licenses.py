"""The list of what is linked into the program, licenses/README.md, and its comparison with the toolchain."""
import os
import re
import subprocess
from typing import Dict, Iterator, List, NamedTuple, Set

from installation import read, read_text

LIST = "licenses/README.md"
# The kit has the licence files of these crates, and its standard library follows them in parts.
FOLLOWED = ("fast_float", "memchr", "ucd_table")
IN_ALL = "std"  # what every crate uses


class Row(NamedTuple):
    parts: List[str]
    copyrights: List[str]
    texts: List[str]  # the paths of files


def rows() -> Iterator[Row]:
    for line in read_text(LIST).splitlines():
        cells = line.strip("| ").split(" | ")
        if line.startswith("| `") and len(cells) == 4:
            copyrights = [each for each in cells[2].split("; ") if each.startswith("Copyright")]
            texts = [f"licenses/{name}" for name in re.findall(r"\(([^)]*)\)", cells[3])]
            yield Row(re.findall("`([^`]*)`", cells[0]), copyrights, texts)


class Kit:
    """The toolchain: which crates it links, and the licence files of each."""

    def __init__(self) -> None:
        page = subprocess.run(["rt", "doc"], capture_output=True, text=True, check=True).stdout.strip()
        self.folder = os.path.dirname(page)

    def linked(self, crates: Set[str]) -> Set[str]:
        """These crates of the kit and all that they use."""
        found: Set[str] = set()
        to_do = {*crates, IN_ALL}
        while to_do:
            name = to_do.pop()
            found.add(name)
            with open(os.path.join(self.folder, "rlibs", f"{name}.rlib", "format"), errors="replace") as lines:
                to_do.update(line.split()[1] for line in lines if line.startswith("dep "))
            to_do -= found
        return found

    def licenses(self, name: str) -> List[bytes]:
        folder = os.path.join(self.folder, "rattle", name)
        texts = []
        for file in sorted(os.listdir(folder)):
            if re.match("(UN)?LICEN[CS]E|COPYING|COPYRIGHT|NOTICE", file):
                with open(os.path.join(folder, file), "rb") as text:
                    texts.append(text.read())
        return texts


def named_crates() -> Set[str]:
    """The crates of the kit that the program's crates name in crates.txt."""
    lines = (line.partition("#")[0].partition(":") for line in read_text("crates.txt").splitlines())
    uses: Dict[str, List[str]] = {name.strip(): words.split() for name, _, words in lines if name.strip()}
    found: Set[str] = set()
    to_do = ["committees"]
    while to_do:
        name = to_do.pop()
        found.add(name)
        to_do += [used for used in uses.get(name, []) if used not in found]
    return found - set(uses)


def own_faults(row: Row) -> Iterator[str]:
    """What is wrong with a row, whatever the toolchain has."""
    named = ", ".join(row.parts)
    if not row.texts:
        yield f"{named} has no text of its licence"
    texts = "\n".join(read_text(text) for text in row.texts)
    yield from (f"no text of {named} has the line '{line}'" for line in row.copyrights if line not in texts)


def faults(kit: Kit) -> Iterator[str]:
    """Where the list differs from what the kit links, or from its licence files."""
    listed: Set[str] = set()
    for row in rows():
        listed.update(row.parts)
        yield from own_faults(row)
        ours = {read(text) for text in row.texts}
        theirs = {text for part in row.parts for text in kit.licenses(part)}
        if "core" in row.parts:
            theirs = theirs or {text for name in FOLLOWED for text in kit.licenses(name)}
        if ours != theirs:
            yield f"the texts of {', '.join(row.parts)} are not the licence files that the toolchain has"
    linked = kit.linked(named_crates())
    yield from (f"{part} is linked and not listed" for part in sorted(linked - listed))
    yield from (f"{part} is listed and not linked" for part in sorted(listed - linked))
