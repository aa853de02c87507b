"""What the program answers about a ballot file, checked against the ballots as the tools read them, and in words."""
from __future__ import annotations

import argparse
import os
import re
import time
from collections import Counter
from fractions import Fraction
from typing import Any, Callable, Iterable, List, NamedTuple, Optional, Tuple

import committees

MOST_FIRST = 20  # tied committees that are kept

Election = committees.Election
Name = Callable[[int], str]


class Misread(Exception):
    """The program answers otherwise for the file than for the ballots that were read from it."""


class NoWinner(Exception):
    """A committee that was asked for does not win."""

    def __init__(self, committee: Iterable[int], seats: int):
        super().__init__(f"{','.join(map(str, committee))} is not a winning committee of {seats}")


# ---- words


def plural(count: int, word: str) -> str:
    return f"{count:,} {word}" if count == 1 else f"{count:,} {word}s"


def listed(names: Iterable[str]) -> str:
    *others, name = names
    return f"{', '.join(others)} and {name}" if others else name


def violation(report: committees.Check[Any], seats: int, name: Name) -> List[str]:
    """The group of voters that a committee leaves out, in sentences."""
    assert report.candidates and report.level and report.voters
    names = listed(map(name, sorted(report.candidates)))
    deserved = f"{report.level} of {plural(seats, 'seat')}"
    first = f"{report.group:,} of {plural(report.voters, 'voter')} approve {names}: they deserve {deserved}."
    if report.within is not None:
        within = listed(map(name, sorted(report.within))) if report.within else "nobody"
        return [first, f"Of the committee they approve only {within}."]
    if report.level == 1:
        return [first, "None of them approves a member of the committee."]
    return [first, f"None of them approves {report.level} members of the committee."]


# ---- the command line


def numbers(text: str) -> List[int]:
    if not re.fullmatch("[0-9]+(,[0-9]+)*", text):
        raise argparse.ArgumentTypeError(f"{text!r} is not a list of numbers such as 1,4,6")
    return [int(number) for number in text.split(",")]


def members(text: str) -> List[int]:
    return sorted(numbers(text))


def add_reading(add: Callable[..., Any]) -> None:
    """Adds the options that say how a ballot file is read."""
    add("--kind", metavar="KIND", help="the type of the file: cat, soc, soi, toc or toi")
    for option in ("category", "setsize", "classes"):
        add(f"--{option}", type=int, metavar="N", help="as for `committees`")
    program = "the program [default: the variable COMMITTEES, the one beside this tool, or the one on the PATH]"
    add("--program", metavar="PATH", help=program)


def reading_of(words: argparse.Namespace, timeout: Optional[float] = None) -> committees.Reading:
    """How a file is read, from the options of `add_reading`."""
    return {
        "kind": words.kind,
        "category": words.category,
        "setsize": words.setsize,
        "classes": words.classes,
        "program": words.program,
        "timeout": timeout,
    }


def bytes_of(path: Optional[str]) -> bytes:
    try:
        with open(0 if path is None else path, "rb", closefd=path is not None) as file:
            return file.read()
    except OSError as error:
        error.filename = path or "standard input"
        raise


def send(text: str) -> None:
    """Writes the text to standard output. What fails raises an OSError, and leaves nothing for later."""
    with os.fdopen(os.dup(1), "wb") as output:
        output.write(text.encode())


# ---- answers


class Winners(NamedTuple):
    """The winning committees of a rule: their score or distance, how many tie (at most the limit, and whether there are
    `more`), the first of them, and in how many each candidate sits."""

    score: Optional[Fraction]
    distance: Optional[int]
    ties: int
    more: bool
    first: List[List[int]]
    seats: Counter[int]


def before(committee: List[int], candidates: int) -> Optional[List[int]]:
    """The committee that comes just before this one in lexicographic order."""
    for position in reversed(range(len(committee))):
        if committee[position] - 1 > (committee[position - 1] if position else 0):
            later = len(committee) - 1 - position
            return [*committee[:position], committee[position] - 1, *range(candidates - later + 1, candidates + 1)]
    return None


class BallotFile:
    """The text of a ballot file, and how it is read. Each call asks the program twice, for the file and for the ballots
    that were read from it, and raises `Misread` if the answers differ. If the reading has a `timeout`, it is for all
    calls together."""

    def __init__(self, text: bytes, path: Optional[str], reading: committees.Reading):
        option, self.kind = committees.kind_of(text, path, reading.get("kind"))
        self.text = text
        self.reading = reading.copy()
        self.reading["kind"] = option
        timeout = reading.get("timeout")
        self.deadline = None if timeout is None else time.monotonic() + timeout
        self._election: Optional[Election] = None
        self._own_text = b""

    def _now(self) -> committees.Reading:
        """How the file is read, in the time that is left."""
        reading = self.reading.copy()
        if self.deadline is not None:
            reading["timeout"] = max(0.0, self.deadline - time.monotonic())
        return reading

    def _own(self) -> committees.Reading:
        """How the text of the ballots that were read is read."""
        now = self._now()
        return {"program": now.get("program"), "timeout": now.get("timeout")}

    @property
    def election(self) -> Election:
        """The ballots. The program has to have taken the file before."""
        if self._election is None:
            self._election = committees.read_election(self.text, self.reading, self.kind)
        return self._election

    @property
    def own_text(self) -> bytes:
        """The ballots that were read, as a file."""
        if not self._own_text:
            election = self.election
            self._own_text = committees.ballot_text(len(election.names), election.ballots.items())
        return self._own_text

    def winners(self, rule: str, size: int, limit: int) -> Winners:
        answers = committees.elect(self.text, rule, size, limit=limit, **self._now())
        first: List[List[int]] = []
        seats: Counter[int] = Counter()
        ties = 0
        for ties, committee in enumerate(answers, 1):
            seats.update(committee)
            if ties <= MOST_FIRST:
                first.append(sorted(committee))
        again = committees.elect(self.own_text, rule, size, limit=1, **self._own())
        assert_same((answers.score, answers.distance, first[0]), (again.score, again.distance, sorted(next(again))))
        again.close()
        return Winners(answers.score, answers.distance, ties, bool(answers.more), first, seats)

    def is_winner(self, rule: str, size: int, committee: List[int]) -> bool:
        candidates = len(self.election.names)
        is_committee = (
            len(set(committee)) == len(committee) == size and 1 <= committee[0] <= committee[-1] <= candidates
        )
        if not is_committee:
            return False
        after = before(committee, candidates)
        found = committees.elect(self.text, rule, size, limit=1, after=after, **self._now())
        return [sorted(winner) for winner in found] == [committee]

    def check(self, property: str, committee: List[int]) -> committees.Check[Any]:
        report = committees.check(self.text, property, committee, **self._now())
        again = committees.check(self.own_text, property, committee, **self._own())
        assert_same(report, again)
        assert_same(report.voters or self.election.voters, self.election.voters)
        return report

    def allocations(self, method: str, seats: int, limit: int) -> Tuple[List[Tuple[int, ...]], bool]:
        """Fair allocations, and whether there are more."""
        answers = committees.share(self.text, method, seats, limit=limit, **self._now())
        found = answers.all()
        again = committees.share(self.own_text, method, seats, limit=1, **self._own())
        assert_same(found[:1], again.all())
        return found, bool(answers.more)


def assert_same(one: object, other: object) -> None:
    if one != other:
        raise Misread("the ballots were not read as the program reads them; this is a fault of the tool")
