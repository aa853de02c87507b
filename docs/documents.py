"""The program and the documents, by what they say of each name."""
import random
import re
import subprocess
import unicodedata
from collections.abc import Iterable
from functools import lru_cache
from pathlib import Path

TOP = Path(__file__).resolve().parent.parent
PROGRAM = TOP / "crates/committees/out/committees"
# Each option with a list of values, a command line that lacks it, and what documents head them with.
LISTS = {
    "--rule": ("elect --size 1", "RULES", "Rules."),
    "--property": ("check --committee 1", "PROPERTIES", "Properties."),
    "--method": ("share --seats 1", "METHODS", "Methods."),
}


@lru_cache(maxsize=None)
def ran(words: str, ballots: str = "") -> "subprocess.CompletedProcess[str]":
    return subprocess.run([PROGRAM, *words.split()], input=ballots, capture_output=True, text=True, cwd=TOP)


def answered(words: str, ballots: str = "") -> list[str]:
    """The lines of an answer."""
    return ran(words, ballots).stdout.splitlines()


def committees_of(rule: str, size: int, ballots: str) -> set[frozenset[int]]:
    lines = answered(f"elect --rule {rule} --size {size}", ballots)
    return {frozenset(map(int, line.split(","))) for line in lines if line[0].isdigit()}


def file_of(candidates: int, ballots: Iterable[Iterable[int]]) -> str:
    """A ballot file with one voter for each set of approved candidates."""
    rows = "".join("1: {" + list_of(ballot) + "}\n" for ballot in ballots)
    return f"# DATA TYPE: cat\n# NUMBER ALTERNATIVES: {candidates}\n{rows}"


def list_of(numbers: Iterable[int]) -> str:
    return ",".join(map(str, sorted(numbers)))


def ballots_at_random(seed: int) -> list[set[int]]:
    """Eight random ballots for six candidates."""
    draw = random.Random(seed)
    return [{candidate for candidate in range(1, 7) if draw.random() < 0.4} for _ in range(8)]


def value_of(number: str) -> int:
    return 1 << int(number[2:]) if number.startswith("2^") else int(number.replace(",", ""))


def quoted(text: str) -> list[str]:
    """The names in backquotes, apart from options."""
    return [name for name in re.findall(r"`([^`]+)`", text) if not name.startswith("-")]


def plain(name: str) -> str:
    """A name without accents and in small letters."""
    letters = unicodedata.normalize("NFD", name.strip().lower())
    return "".join(letter for letter in letters if not unicodedata.combining(letter))


class Page:
    """A document, by what it says of each name."""

    def __init__(self, name: str, text: str) -> None:
        self.name = name
        self.text = text

    def rows(self, heading: str = "") -> list[list[str]]:
        """The cells of the tables below this heading, or of all."""
        rows = re.findall(r"^\| (.*) \|$", self.below(heading), re.M)
        return [[cell.strip() for cell in row.split(" | ")] for row in rows if not row.startswith("--")]

    def below(self, heading: str) -> str:
        """The text below a heading that begins so, to the next one of its level."""
        if not heading:
            return self.text
        found = re.search(rf"^(##+) {re.escape(heading)}.*\n((?:.*\n)*?)(?=^\1 |^# |\Z)", self.text, re.M)
        return found[2] if found else ""

    def entries(self, heading: str) -> dict[str, str]:
        """What is said of each name below a heading: the cells after that of the name, joined by ' | '."""
        return {name: " | ".join(cells[1:]) for cells in self.rows(heading) for name in quoted(cells[0])}


class Manual(Page):
    """A man page, with its entries `.TP`."""

    def below(self, heading: str) -> str:
        found = re.search(rf"^\.SH {re.escape(heading)}\n((?:.*\n)*?)(?=^\.SH|\Z)", self.text, re.M)
        return found[1] if found else ""

    def entries(self, heading: str) -> dict[str, str]:
        entries = {}
        for part in re.split(r"^\.TP\n", self.below(heading), flags=re.M)[1:]:
            tag, _, text = part.partition("\n")
            text = re.split(r"^\.(?:PP|SS|TP)", text, flags=re.M)[0].replace("\n.B ", " ")
            for name in re.findall(r"--\w+|\w+", re.sub(r"^\.BR? |\\f.", "", tag)):
                entries[name] = " ".join(text.split())
        return entries


class Help(Page):
    """The help of a command, with a list of names below a sentence."""

    def below(self, heading: str) -> str:
        return self.text.partition(heading)[2]

    def entries(self, heading: str) -> dict[str, str]:
        found = re.findall(r"^  (\w+)  +(\S.*(?:\n   .*)*)", self.below(heading), re.M)
        return {name: " ".join(text.split()) for name, text in found}


class Documents:
    """The documents in a folder, and the help of the program."""

    def __init__(self, folder: Path) -> None:
        self.folder = folder
        self.helps = {
            word: Help(f"{word} --help", ran(f"{word} --help").stdout) for word in ("elect", "check", "share")
        }
        self.main_help = Help("--help", ran("--help").stdout)

    def text(self, name: str) -> str:
        return (self.folder / name).read_text(encoding="utf-8")

    def page(self, name: str) -> Page:
        text = self.text(name)
        return Manual(name, text.replace("\\-", "-")) if name.endswith(".1") else Page(name, text)

    def tables(self, option: str) -> list[tuple[str, dict[str, str]]]:
        """What RULES, the man page and help say of each value of an option."""
        words, section, sentence = LISTS[option]
        help_page = self.helps[words.split()[0]]
        rules, manual = self.page("docs/RULES.md"), self.page("docs/committees.1")
        return [
            (rules.name, rules.entries(f"`{option}`")),
            (manual.name, manual.entries(section)),
            (help_page.name, help_page.entries(sentence)),
        ]
