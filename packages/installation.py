"""What an installation consists of: `./install` and `make dist` copy the files that this module lists."""
import ast
import hashlib
import os
import re
import shutil
import subprocess
from typing import Dict, Iterator, List, NamedTuple, Optional

from pages import BUILT, DOCUMENTS, MODULES, PAGES, Rule

TOP = os.path.dirname(os.path.dirname(os.path.realpath(__file__)))
COMPLETIONS = "share/bash-completion/completions"
MANUALS = "share/man/man1"
# The paths of all files, so that a later version can remove those that it no longer has.
LIST = f"{MODULES}/FILES"
# What versions without that list installed.
FORMER = ["bin/committees", f"{MANUALS}/committees.1", f"{COMPLETIONS}/committees", DOCUMENTS, MODULES]


class File(NamedTuple):
    content: bytes
    is_executable: bool = False


def read(path: str) -> bytes:
    with open(os.path.join(TOP, path), "rb") as file:
        return file.read()


def read_text(path: str) -> str:
    return read(path).decode()


def listed(setting: str) -> List[str]:
    """The tools (`script-files`) or their modules (`py-modules`), which tools/pyproject.toml lists."""
    found = re.search(rf"^{setting} = (\[.*?\])", read_text("tools/pyproject.toml"), re.MULTILINE | re.DOTALL)
    if not found:
        raise ValueError(f"tools/pyproject.toml has no list {setting}")
    return [str(name) for name in ast.literal_eval(found[1])]


def cited_version() -> str:
    found = re.search("^version: (.*)$", read_text("CITATION.cff"), re.MULTILINE)
    if not found:
        raise ValueError("CITATION.cff has no version")
    return found[1]


def is_checkout() -> bool:
    return os.path.exists(os.path.join(TOP, ".git"))


def git(*words: str) -> Optional[str]:
    """What git prints of this checkout; None if this is not one, or if git is missing or fails."""
    if not is_checkout() or not shutil.which("git"):
        return None
    done = subprocess.run(["git", "-C", TOP, *words], capture_output=True, text=True)
    return None if done.returncode else done.stdout.strip()


def origin() -> str:
    """Where the program comes from: its version, its commit if this is a checkout, its kit, and checksums."""
    commit = git("describe", "--always", "--dirty", "--abbrev=40", "--exclude", "*")
    folder = os.path.dirname(BUILT)
    kit = read_text(f"{folder}/kit").strip() if os.path.exists(os.path.join(TOP, folder, "kit")) else ""
    sources = read_text(f"{folder}/sources").strip()
    lines = [f"committees {cited_version()}", f"commit {commit or 'unknown'}", f"kit {kit or 'unknown'}"]
    return "\n".join([*lines, f"sources {sources}", f"program {hashlib.sha256(read(BUILT)).hexdigest()}", ""])


class Installation:
    """The files by their paths below the prefix. Man pages name the documents as lying in `documents`."""

    def __init__(self, documents: str):
        self.tools = listed("script-files")
        self.modules = [f"{name}.py" for name in listed("py-modules")]
        self.files = {
            **self._programs(),
            **self._manuals(documents),
            **self._completions(),
            **self._documents(),
        }
        self.files[LIST] = File("".join(f"{path}\n" for path in sorted([*self.files, LIST])).encode())

    def _programs(self) -> Dict[str, File]:
        files = {"bin/committees": File(read(BUILT), True)}
        files.update((f"bin/{tool}", File(read(f"tools/{tool}"), True)) for tool in self.tools)
        files.update((f"{MODULES}/{name}", File(read(f"tools/{name}"))) for name in self.modules)
        return files

    def _manuals(self, documents: str) -> Dict[str, File]:
        pages = {f"{name}.1": read_text(f"docs/{name}.1") for name in ["committees", *self.tools]}
        return {f"{MANUALS}/{name}": File(manual(text, documents).encode()) for name, text in pages.items()}

    def _completions(self) -> Dict[str, File]:
        files = {f"{COMPLETIONS}/committees": File(read("docs/committees.bash"))}
        for tool in self.tools:
            text = f'. "${{BASH_SOURCE[0]%/*}}/committees"\ncomplete -o filenames -F _committees_tool {tool}\n'
            files[f"{COMPLETIONS}/{tool}"] = File(text.encode())
        return files

    def _documents(self) -> Dict[str, File]:
        files = {path: File(read(path)) for path in others()}
        rule = Rule(self.tools, {*files, *PAGES})
        files.update((page, File(rule.turned(page, read_text(page)).encode())) for page in PAGES)
        files["VERSION"] = File(origin().encode())
        files["copyright"] = File(read("packages/debian/copyright"))
        return {f"{DOCUMENTS}/{path}": file for path, file in files.items()}


def others() -> Iterator[str]:
    """The documents that an installation has as they are here."""
    yield "CITATION.cff"
    for folder, endings in [("docs", (".svg", ".png")), ("examples", ("",)), ("licenses", ("",))]:
        names = sorted(os.listdir(os.path.join(TOP, folder)))
        yield from (f"{folder}/{name}" for name in names if name.endswith(endings))


def manual(text: str, documents: str) -> str:
    """A man page that names the documents by their full paths."""
    folder = documents.replace("-", r"\-")
    before, title, last = text.rpartition(".SH SEE ALSO\n")
    last = re.sub(r"\b((?:docs/|tools/)?[A-Z]+\.md)", lambda page: f"{folder}/{page[1]}", last)
    return before + title + last.replace(" of the project.", ".")


def write(files: Dict[str, File], prefix: str) -> None:
    """Writes the files below the prefix. What stands there may be a link to a checkout, so each is a new file."""
    for path, file in sorted(files.items()):
        place = os.path.join(prefix, path)
        os.makedirs(os.path.dirname(place), exist_ok=True)
        if os.path.lexists(place):
            os.unlink(place)
        with open(place, "wb") as out:
            out.write(file.content)
        os.chmod(place, 0o755 if file.is_executable else 0o644)
