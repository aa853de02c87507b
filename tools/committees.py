# mypy: enable-incomplete-feature=Unpack
"""Runs the program `committees` from Python: elections with every tied committee, checks, and shares of seats.

    >>> from committees import analyze, approvals, check, elect, score, share
    >>> board = [({"Ada", "Ben", "Cleo"}, 7), ({"Dan", "Eve"}, 2), ({"Finn"}, 1)]
    >>> answers = elect(board, "pav", 3)
    >>> answers.score
    Fraction(77, 6)
    >>> [sorted(committee) for committee in answers]
    [['Ada', 'Ben', 'Cleo']]
    >>> bool(check(board, "pjr", {"Ada", "Dan", "Finn"}))
    False
    >>> list(share({"Greens": 53, "Blues": 24, "Greys": 23}, "dhondt", 7))
    [{'Greens': 4, 'Blues': 2, 'Greys': 1}]

Candidates and parties may have numbers in the place of names:

    >>> [sorted(committee) for committee in elect([({1, 2, 3}, 7), ({4, 5}, 2), ({6}, 1)], "pav", 3)]
    [[1, 2, 3]]
    >>> list(share([53, 24, 23], "dhondt", 7))
    [(4, 2, 1)]

This module starts the program and reads its output. Only `score` and `approvals` compute anything themselves. A profile
is

- the path of a PrefLib file, as `str` or `os.PathLike`;
- the text of a PrefLib file, as `bytes` or as an open file;
- a list of approval sets, or of pairs of an approval set and the number of its voters;
- a mapping of approval sets to numbers of voters, such as a `Counter`, or what `value_counts()` of pandas returns;
- a `Profile` of abcvoting, or anything like it: iterated, it gives voters with `approved` and `weight`, and it has
  `num_cand`. Its candidates are numbered from 0, and so are those of the answers.

An approval set has numbers of candidates, from 1, or names. Names are numbered in the order of `candidates=`, and
otherwise in the order of first appearance; those of one `set` are taken in alphabetical order. If ballots have names,
so have the answers, and `after` and committees are given by names.

The keywords of `Reading` say how a profile is read, and how long the program may run. Python 3.9 and its standard
library are enough. `python3 -m committees elect --rule pav --size 3 FILE` prints one JSON object: it takes the
arguments of the program, and ends with the status of the program.
"""
from __future__ import annotations

import _thread
import contextlib
import errno
import html
import io
import json
import os
import re
import reprlib
import select
import shutil
import signal
import subprocess
import sys
import weakref
from dataclasses import dataclass
from fractions import Fraction
from itertools import accumulate
from numbers import Number
from typing import TYPE_CHECKING, AbstractSet, Any, Callable, Collection, Dict, FrozenSet, Generic, Iterable, Iterator
from typing import List, Literal, Mapping, NamedTuple, NoReturn, Optional, Sequence, Tuple, TypedDict, TypeVar, Union
from typing import overload

if TYPE_CHECKING:
    from typing_extensions import Unpack
elif sys.version_info >= (3, 11):
    from typing import Unpack
else:
    # It stands in annotations only, which nothing but `typing.get_type_hints` evaluates.
    from typing import Optional as Unpack

__version__ = "0.1.0"

__all__ = [
    "AlreadyRead",
    "Answers",
    "Check",
    "CommitteesError",
    "CutOff",
    "DeviceFailed",
    "FileMissing",
    "InputRefused",
    "NoMemory",
    "NoProgram",
    "OutOfTime",
    "Paging",
    "Reading",
    "RequestRefused",
    "UsageRefused",
    "analyze",
    "approvals",
    "check",
    "compute",
    "elect",
    "metadata",
    "score",
    "share",
]

# What the program has, by its own names.
OWN_NAMES = {
    "rule": ("av", "pav", "cc", "geom2", "geom3", "geom4", "sav", "minimax", "seqpav", "seqcc", "revseqpav"),
    "property": ("jr", "pjr", "ejr", "ejrplus"),
    "method": ("hamilton", "dhondt", "saintelague", "huntington", "adams", "dean"),
}
# The names of other libraries for it: abcvoting's rules and properties, apportionment's methods.
RULES = {"minimaxav": "minimax"}
PROPERTIES = {"ejr+": "ejrplus"}
METHODS = {
    "jefferson": "dhondt",
    "greatestdivisors": "dhondt",
    "webster": "saintelague",
    "majorfractions": "saintelague",
    "hill": "huntington",
    "equalproportions": "huntington",
    "smallestdivisors": "adams",
    "harmonicmean": "dean",
    "largest_remainder": "hamilton",
    "hare": "hamilton",
    "lrm": "hamilton",
}
OTHER_NAMES: Dict[str, Dict[str, str]] = {"rule": RULES, "property": PROPERTIES, "method": METHODS}
SEQUENTIAL = ("seqpav", "seqcc", "revseqpav")
LONGEST_TIMEOUT = 1_000_000
NO_STATUS = 125  # of `python3 -m committees` if the program has no status, as that of ./committees after a failed build
MOST_SHOWN = 5  # answers in a `repr`

Path = Union[str, "os.PathLike[str]"]
Answer = TypeVar("Answer")
Members = TypeVar("Members")
Result = TypeVar("Result")
_Names = Union[AbstractSet[str], List[str], Tuple[str, ...]]
NamedProfile = Union[
    Mapping[FrozenSet[str], int],
    Mapping[Tuple[str, ...], int],
    Iterable[Union[_Names, Tuple[AbstractSet[str], int], Tuple[List[str], int], Tuple[Tuple[str, ...], int]]],
]


class CommitteesError(Exception):
    """What the program refused, or why it has no answer. `status` is its exit status, and `fault` the name of the
    fault, if it has one. `line` is the number of the faulty line of a file; `ballot` is that of the faulty ballot of
    a list. Both count from 1."""

    ballot: Optional[int] = None

    def __init__(
        self, text: str, status: Optional[int] = None, fault: Optional[str] = None, line: Optional[int] = None
    ):
        super().__init__(text)
        self.status = status
        self.fault = fault
        self.line = line


class NoProgram(CommitteesError):
    """The program is not there, could not be built, or could not be started, as on a processor that lacks a feature of
    x86-64-v2."""


class UsageRefused(CommitteesError):
    """Status 2: the command line was refused."""


class InputRefused(CommitteesError):
    """Status 3: the ballots were refused."""


class RequestRefused(CommitteesError):
    """Status 4: the request does not fit the ballots."""


class NoMemory(CommitteesError):
    """Status 5: out of memory."""


class DeviceFailed(CommitteesError):
    """Status 6: an open, a read or a write failed."""


class FileMissing(DeviceFailed, FileNotFoundError):
    """Status 6, as no file has this path."""

    def __str__(self) -> str:
        return str(self.args[0])


class CutOff(CommitteesError):
    """The output ended before its last line, or is not what the program prints."""


class AlreadyRead(CommitteesError):
    """Answers were asked for again."""


class OutOfTime(CommitteesError, TimeoutError):
    """The program still ran at the end of its `timeout`, and was ended."""


REFUSALS = {2: UsageRefused, 3: InputRefused, 4: RequestRefused, 5: NoMemory, 6: DeviceFailed}


@dataclass(frozen=True)
class Check(Generic[Members]):
    """The answer to a check. It is true if the property holds; otherwise the other fields describe a group of voters
    that the committee leaves out: the level, the candidates that they share, for PJR their members of the committee
    (`within`), their number out of all voters, and their ballots, each with its number of voters."""

    holds: bool
    level: Optional[int] = None
    candidates: Optional[Members] = None
    within: Optional[Members] = None
    group: Optional[int] = None
    voters: Optional[int] = None
    rows: Tuple[Tuple[Members, int], ...] = ()

    def __bool__(self) -> bool:
        return self.holds


class Reading(TypedDict, total=False):
    """Keywords of every call that takes a profile. `candidates` is for a list of approval sets: the number of
    candidates, if it is not the highest number in the list, or the names of all candidates in order. `kind`,
    `category`, `setsize` and `classes` are the options of the program, and `program` is its path. `timeout` is in
    seconds, from the start of the program until its last answer is read: a program that still runs then is ended, and
    the next call that waits for it raises `OutOfTime`, a `TimeoutError`. What the caller does between two answers takes
    from that time, too. Answers that were printed in time can still be read."""

    candidates: Union[None, int, Iterable[str]]
    kind: Optional[str]
    category: Optional[int]
    setsize: Optional[int]
    classes: Optional[int]
    program: Optional[Path]
    timeout: Optional[float]


class Paging(Reading, total=False):
    """Keywords of `elect` and `share`: those of `Reading`, `after` for only the answers later than this one, and
    `limit` for at most this many."""

    after: Union[None, Iterable[Any], Mapping[Any, int]]
    limit: Optional[int]


# ---- names and numbers


def _whole(number: Any) -> int:
    if type(number) is int:
        return number
    if isinstance(number, Number) and not isinstance(number, bool):
        value: Any = number
        # `int` refuses infinite and complex numbers, and `nan`.
        with contextlib.suppress(OverflowError, TypeError, ValueError):
            if int(value) == value:
                return int(value)
    raise ValueError(f"{number!r} is not a whole number")


def _joined(numbers: Iterable[Any]) -> str:
    """A list as the program takes it."""
    return ",".join(str(_whole(number)) for number in numbers)


def _name(name: Any) -> str:
    if not isinstance(name, str):
        raise ValueError(f"{name!r} is not a name, and other candidates have names")
    if not name.strip():
        raise ValueError("the name of a candidate is empty")
    return str(name)


def _is_known(word: str, name: Any) -> bool:
    """Whether this is the name of a rule, property or method, in any case of letters."""
    return isinstance(name, str) and name.lower() in (*OWN_NAMES[word], *OTHER_NAMES[word])


def _own_name(word: str, name: Any, profile: Any, order: str) -> str:
    """The program's name of a rule, property or method, from one in any case of letters, or another library's. Refuses
    a call whose arguments are in another order."""
    if not isinstance(name, str) or _is_known(word, profile) and not _is_known(word, name):
        raise TypeError(f"the order of arguments is {order}, and the {word} is {reprlib.repr(name)} here")
    return OTHER_NAMES[word].get(name.lower(), name.lower())


class _Candidates:
    """The caller's candidates, and the program's numbers of them, which count from 1. The caller's are numbers from
    `first`, or names. If `by_name` is None, the first set of candidates decides which. While it is `open`, a new name
    takes the next number."""

    def __init__(self, first: int = 1, names: Iterable[Tuple[int, str]] = (), by_name: Optional[bool] = False):
        self.first = first
        self.names = dict(names)
        self.numbers = {name: number for number, name in self.names.items()}
        self.by_name = by_name
        self.open = False

    def number(self, candidate: Any) -> int:
        """The program's number of a candidate."""
        if isinstance(candidate, str):
            return self.number_of_name(candidate)
        number = _whole(candidate)
        if number < self.first:
            raise ValueError(f"{number} is not a candidate: a ballot is a set of candidate numbers, from {self.first}")
        return number + 1 - self.first

    def number_of_name(self, name: str) -> int:
        if not self.by_name and not self.names:
            raise ValueError(f"{name!r} is a name, and other candidates have numbers")
        if name not in self.numbers:
            if not self.open:
                raise ValueError(f"{name!r} is not a candidate")
            number = len(self.names) + 1
            self.names[number], self.numbers[name] = name, number
        if not self.by_name and list(self.names.values()).count(name) > 1:
            raise ValueError(f"{name!r} is the name of several candidates")
        return self.numbers[name]

    def numbers_of(self, members: Any) -> List[int]:
        """The program's numbers of a set of candidates, in ascending order."""
        if isinstance(members, (str, bytes)) or not hasattr(members, "__iter__"):
            raise ValueError(f"{members!r} is not a set of candidates")
        given = list(members)
        if self.by_name is None and given:
            self.by_name = any(isinstance(member, str) for member in given)
        if self.by_name:
            given = [_name(member) for member in given]
            # A set has no order, so that of its names is taken.
            given = sorted(given) if isinstance(members, AbstractSet) else given
        numbers = sorted(map(self.number, given))
        if len(set(numbers)) < len(numbers):
            double = next(number for number in numbers if numbers.count(number) > 1)
            raise ValueError(f"candidate {self.names_of([double])[0]} stands there twice")
        return numbers

    def numbers_as(self, word: str, members: Any) -> List[int]:
        """Like `numbers_of`, but a refusal begins with this word."""
        try:
            return self.numbers_of(members)
        except ValueError as error:
            raise ValueError(f"{word}: {error}") from None

    def members(self, numbers: Iterable[int]) -> FrozenSet[Any]:
        """The caller's candidates, from the program's numbers."""
        return frozenset(self.names_of(numbers) if self.by_name else (number - 1 + self.first for number in numbers))

    def names_of(self, numbers: Iterable[int]) -> Tuple[str, ...]:
        """Names of candidates, from the program's numbers; without a name, the caller's number."""
        return tuple(self.names.get(number) or str(number - 1 + self.first) for number in numbers)

    def shown(self, names: bool) -> Callable[[Iterable[int]], Any]:
        """What makes an answer of the program's numbers."""
        return self.names_of if names else self.members


# ---- the text of a ballot file


KINDS = ("cat", "soc", "soi", "toc", "toi")
NUMBER = "[0-9]+"
BLANKS = "[ \t]*"
CLASS = rf"(?:{NUMBER}|\{{{BLANKS}(?:{NUMBER}(?:{BLANKS},{BLANKS}{NUMBER})*)?{BLANKS}\}})"
BALLOT = re.compile(rf"({NUMBER}){BLANKS}:{BLANKS}((?:{CLASS}(?:{BLANKS},{BLANKS}{CLASS})*)?)")


class Election(NamedTuple):
    """The names of the candidates 1, 2, .. (empty if there is none), and each different ballot with its number of
    voters."""

    names: List[str]
    ballots: Dict[FrozenSet[int], int]

    @property
    def voters(self) -> int:
        return sum(self.ballots.values())

    @property
    def approvals(self) -> List[int]:
        """The number of voters who approve each candidate."""
        found = [0] * (len(self.names) + 1)
        for ballot, voters in self.ballots.items():
            for number in ballot:
                found[number] += voters
        return found[1:]


def metadata(lines: Iterable[bytes]) -> List[Tuple[str, str]]:
    """The metadata of a PrefLib file, as the program reads it: key and value of each line before the first ballot.
    Keys are in capital letters, with one space between two words."""
    found = []
    for number, line in enumerate(lines):
        line = line.removeprefix(b"\xef\xbb\xbf") if number == 0 else line
        line = line.removesuffix(b"\n").removesuffix(b"\r").strip(b" \t")
        if line and not line.startswith(b"#"):
            break
        key, colon, value = line[1:].partition(b":")
        if colon:
            words = [word for word in re.split(rb"[ \t]+", key.upper()) if word]
            found.append((b" ".join(words).decode(errors="replace"), value.strip(b" \t").decode(errors="replace")))
    return found


def _names(lines: Iterable[bytes]) -> Dict[int, str]:
    found = {}
    for key, value in metadata(lines):
        match = re.fullmatch("ALTERNATIVE NAME ([0-9]+)", key)
        if match:
            found[int(match[1])] = value
    return found


def kind_of(text: bytes, path: Optional[str], kind: Optional[str]) -> Tuple[Optional[str], str]:
    """The option `kind` that the program needs for the text of this file without its path, and the type of the file."""
    kinds = [value.lower() for key, value in metadata(io.BytesIO(text)) if key == "DATA TYPE"]
    _, dot, extension = os.path.basename(path or "").lower().rpartition(".")
    option = kind or (extension if dot and extension in KINDS and not kinds else None)
    return option, option or (kinds or [""])[-1]


def _approved(classes: List[List[int]], reading: Reading, is_ranking: bool) -> FrozenSet[int]:
    """The candidates that a ballot approves."""
    if not is_ranking:
        category = (reading.get("category") or 1) - 1
        return frozenset(classes[category] if category < len(classes) else ())
    most_classes = reading.get("classes")
    taken: List[int] = []
    for position, members in enumerate(classes):
        if most_classes is not None and position >= most_classes:
            break
        if most_classes is None and len(taken) >= (reading.get("setsize") or 1):
            break
        taken += members
    return frozenset(taken)


def read_election(text: bytes, reading: Reading, kind: str) -> Election:
    """Reads a file that the program has taken. A ballot that is not understood is an error."""
    count = int(dict(metadata(io.BytesIO(text)))["NUMBER ALTERNATIVES"])
    names = _names(io.BytesIO(text))
    ballots: Dict[FrozenSet[int], int] = {}
    for number, line in enumerate(text.removeprefix(b"\xef\xbb\xbf").split(b"\n"), 1):
        line = line.removesuffix(b"\r").strip(b" \t")
        if not line or line.startswith(b"#"):
            continue
        ballot = BALLOT.fullmatch(line.decode(errors="replace"))
        if not ballot:
            raise ValueError(f"line {number}: the ballot is not understood")
        classes = [[int(member) for member in re.findall(NUMBER, part)] for part in re.findall(CLASS, ballot[2])]
        members = _approved(classes, reading, kind != "cat")
        ballots[members] = ballots.get(members, 0) + int(ballot[1])
    return Election([names.get(number, "") for number in range(1, count + 1)], ballots)


# ---- profiles


class _Input(NamedTuple):
    """What the program reads: the end of its command line, and the bytes of its standard input, or None if it has that
    of this process."""

    candidates: _Candidates
    arguments: List[str] = []
    text: Optional[bytes] = b""
    path: Optional[str] = None
    kind: Optional[str] = None  # the type, if the path of the text would say it
    rows: Optional[List[Tuple[List[int], int]]] = None  # ballots and their numbers of voters, if it was a list of them
    size: int = 0  # the number of candidates of such a list
    highest_at: Optional[int] = None  # the ballot with the candidate of the highest number, if that is their number

    def kept(self) -> _Input:
        """This input, but a pipe is read, since it can be read only once."""
        with contextlib.suppress(OSError):  # the program reports it
            if self.path is not None and not os.path.isfile(self.path):
                with open(self.path, "rb") as file:
                    text = file.read()
                return _Input(self.candidates, text=text, kind=kind_of(text, self.path, None)[0])
        return self

    def named(self) -> _Input:
        """This input of a text with the names of its candidates."""
        kept = self.kept()
        with contextlib.suppress(OSError):  # the program reports it
            with io.BytesIO(kept.text or b"") if kept.path is None else open(kept.path, "rb") as lines:
                kept = kept._replace(candidates=_Candidates(names=_names(lines).items()))
        return kept

    def election(self, reading: Reading) -> Election:
        """The ballots, as the program takes them. It refuses what is not a ballot file before anything here reads
        it."""
        if self.rows is not None:
            return self.election_of_rows(self.rows)
        kept = self.kept()
        run = _launch("elect", kept, reading, rule="av", size=1, limit=1)
        run.attempt(lambda: run.header(rule="av", size=1))
        text = kept.text or b""
        if kept.path is not None:
            with open(kept.path, "rb") as file:
                text = file.read()
        return read_election(text, reading, kind_of(text, kept.path, reading.get("kind") or kept.kind)[1])

    def election_of_rows(self, rows: List[Tuple[List[int], int]]) -> Election:
        ballots: Dict[FrozenSet[int], int] = {}
        for position, (numbers, voters) in enumerate(rows, 1):
            if numbers and numbers[-1] > self.size:
                unknown = self.candidates.names_of(numbers[-1:])[0]
                raise ValueError(f"ballot {position}: candidate {unknown} is not one of the {self.size} candidates")
            if voters:
                ballots[frozenset(numbers)] = ballots.get(frozenset(numbers), 0) + voters
        if not ballots:
            raise ValueError("there are no voters")
        return Election([self.candidates.names.get(number, "") for number in range(1, self.size + 1)], ballots)


HEADER = "# DATA TYPE: cat\n# NUMBER ALTERNATIVES: {}\n"  # of the text that is made of a list of ballots


def ballot_text(candidates: int, rows: Iterable[Tuple[Iterable[int], int]]) -> bytes:
    """The `cat` file of ballots, each with its number of voters."""
    lines = [f"{voters}: {{{','.join(map(str, numbers))}}}\n" for numbers, voters in rows]
    return "".join([HEADER.format(candidates), *lines]).encode()


def _plain(profile: Any) -> Any:
    """A Series of pandas as a mapping if its values are numbers, and otherwise as a list; anything else as it is. The
    default index 0, 1, 2, .. has no names, so such a Series is a list."""
    if not (hasattr(profile, "items") and hasattr(profile, "index") and getattr(profile, "ndim", None) == 1):
        return profile
    items = list(profile.items())
    values, labels = [value for _, value in items], [label for label, _ in items]
    if labels == list(range(len(labels))) or not all(isinstance(value, Number) for value in values):
        return values
    if len(set(labels)) < len(labels):
        raise ValueError("the index of the Series has a name twice")
    return dict(items)


def _rows(profile: Any) -> Iterator[Tuple[Any, Any]]:
    """The ballots of a list, of a mapping, or of a profile like abcvoting's, each with its number of voters."""
    if hasattr(profile, "num_cand"):
        return ((voter.approved, voter.weight) for voter in profile)
    if isinstance(profile, Mapping):
        return iter(profile.items())
    if not hasattr(profile, "__iter__"):
        raise TypeError(f"{profile!r} is not a profile")

    def is_pair(ballot: Any) -> bool:
        return isinstance(ballot, tuple) and len(ballot) == 2 and not isinstance(ballot[0], (Number, str))

    return (ballot if is_pair(ballot) else (ballot, 1) for ballot in profile)


def _candidates_of(profile: Any, candidates: Any) -> Tuple[_Candidates, Optional[int]]:
    """The candidates of a list of ballots as far as they are known before its first ballot, and their number."""
    if hasattr(profile, "num_cand"):
        names = enumerate(map(str, getattr(profile, "cand_names", ())), 1)
        return _Candidates(0, names), _whole(profile.num_cand)
    if isinstance(candidates, Number):
        return _Candidates(), _whole(candidates)
    known = _Candidates(by_name=None if candidates is None else True)
    known.open = True
    if candidates is None:
        return known, None
    known.numbers_as("candidates", candidates)
    known.open = False
    return known, len(known.names)


def _ballots(profile: Any, candidates: Any) -> _Input:
    """Writes the `cat` file of a list of ballots."""
    known, count = _candidates_of(profile, candidates)
    rows: List[Tuple[List[int], int]] = []
    highest, highest_at = 1, None
    for position, (approved, given) in enumerate(_rows(profile), 1):
        try:
            numbers, voters = known.numbers_of(approved), _whole(given)
            if voters < 0:
                raise ValueError(f"{voters} is not a number of voters")
        except ValueError as error:
            raise ValueError(f"ballot {position}: {error}") from None
        if numbers and numbers[-1] > highest:
            highest, highest_at = numbers[-1], position
        rows.append((numbers, voters))
    known.open = False
    if count is not None:
        highest, highest_at = count, None
    return _Input(known, text=ballot_text(highest, rows), rows=rows, size=highest, highest_at=highest_at)


def _refuse_candidates(candidates: Any) -> None:
    if candidates is not None:
        raise TypeError("candidates= is for lists of ballots: files, profiles of abcvoting and votes have their own")


def _input(profile: Any, names: bool, reading: Reading) -> _Input:
    profile, candidates = _plain(profile), reading.get("candidates")
    if hasattr(profile, "num_cand"):
        _refuse_candidates(candidates)
    if isinstance(profile, (str, os.PathLike)):
        path = os.fsdecode(profile)
        # After `--` a path that begins with a dash is a path too.
        given = _Input(_Candidates(), ["--", path], path=path)
    elif isinstance(profile, (bytes, bytearray, memoryview)) or hasattr(profile, "read"):
        text = profile.read() if hasattr(profile, "read") else bytes(profile)
        given = _Input(_Candidates(), text=text.encode(errors="surrogateescape") if isinstance(text, str) else text)
    else:
        return _ballots(profile, candidates)
    _refuse_candidates(candidates)
    return given.named() if names else given


# ---- runs


def _program(program: Optional[Path]) -> str:
    """The program: the one named, that of the variable COMMITTEES, the one beside this file, or the one on the PATH."""
    named = os.fspath(program) if program else os.environ.get("COMMITTEES")
    found = named or _beside() or shutil.which("committees")
    if not found:
        raise NoProgram("there is no program `committees` here or on the PATH; the variable COMMITTEES may name one")
    return found


def _beside() -> Optional[str]:
    """The program in the place that it has if this file is of a package, an installation or a checkout."""
    folder, name = os.path.split(os.path.realpath(__file__))
    if name == "__init__.py":
        # PREFIX/lib/pythonX.Y/site-packages/committees, or below a folder of `pip install --target`
        places = ["../../../../bin", "../bin"]
    elif folder.endswith("/share/committees"):
        places = ["../../bin"]
    else:
        places = ["../crates/committees/out"]
    programs = (os.path.normpath(os.path.join(folder, place, "committees")) for place in places)
    return next((program for program in programs if os.path.exists(program)), None)


class _Process:
    """A process with pipes to its standard streams, except its input if that is the one of this process. It is started
    in a thread of its own. In the main thread a signal's handler could raise in the middle of `Popen`, and a process
    would be left that nothing refers to. The main thread waits at a pipe, since the locks of `threading` can break if a
    handler raises."""

    def __init__(self, words: List[str], takes_input: bool):
        self.words = words
        self.takes_input = takes_input
        self.popen: Optional[subprocess.Popen[bytes]] = None
        self.error: Optional[BaseException] = None
        self.is_over = False

    def start(self) -> subprocess.Popen[bytes]:
        started, to_report = os.pipe()
        try:
            _thread.start_new_thread(self._start, (to_report,))
            os.read(started, 1)
        finally:
            os.close(started)
        if isinstance(self.error, OSError):
            raise NoProgram(f"{self.words[0]} could not be started: {self.error.strerror}") from self.error
        if self.error:
            raise self.error
        assert self.popen
        return self.popen

    def _start(self, to_report: int) -> None:
        pipe = subprocess.PIPE
        try:
            stdin = None if self.takes_input else pipe
            self.popen = subprocess.Popen(self.words, stdin=stdin, stdout=pipe, stderr=pipe)
            if self.is_over:
                self.end()
        except BaseException as error:  # for the thread that waits
            self.error = error
        with contextlib.suppress(BrokenPipeError), open(to_report, "wb", buffering=0) as started:
            started.write(b".")

    def end(self) -> None:
        """Ends the process if it still runs, and lets go of its pipes."""
        self.is_over = True
        if not self.popen:
            return
        self.popen.kill()
        self.popen.wait()
        for pipe in (self.popen.stdin, self.popen.stdout, self.popen.stderr):
            # What was not written yet to a program that has ended cannot be written any more.
            with contextlib.suppress(BrokenPipeError):
                if pipe:
                    pipe.close()


class _Alarm:
    """Ends a process after a number of seconds, from a thread of its own. The thread waits at a pipe and holds no
    lock, so a run can be dropped at any time."""

    def __init__(self, process: subprocess.Popen[bytes], seconds: float):
        self.process = process
        self.seconds = seconds
        self.has_rung = False
        self.stopped, self.to_stop = os.pipe()
        _thread.start_new_thread(self.wait, ())

    def wait(self) -> None:
        pipe = select.poll()
        pipe.register(self.stopped)
        if not pipe.poll(self.seconds * 1000) and self.process.returncode is None:
            self.has_rung = True
            with contextlib.suppress(ProcessLookupError):
                os.kill(self.process.pid, signal.SIGKILL)
        os.close(self.stopped)

    def stop(self) -> None:
        os.close(self.to_stop)


def _seconds(timeout: Any) -> Optional[float]:
    if timeout is not None and not 0 <= timeout <= LONGEST_TIMEOUT:
        raise ValueError(f"timeout={timeout!r} is not a number of seconds from 0 to {LONGEST_TIMEOUT:,}")
    return None if timeout is None else float(timeout)


class _Run:
    """One run of the program, whose output is read line by line."""

    def __init__(self, words: List[str], given: _Input, reading: Reading):
        path = _program(reading.get("program"))
        seconds = _seconds(reading.get("timeout"))
        self.given = given
        process, at_end = _Process([path, *words], given.text is None), contextlib.ExitStack()
        at_end.callback(process.end)
        self.end = weakref.finalize(self, at_end.close)
        self.alarm: Optional[_Alarm] = None

        def start() -> None:
            self.process = process.start()
            if seconds is not None:
                self.alarm = _Alarm(self.process, seconds)
                at_end.callback(self.alarm.stop)
            self.write(given.text or b"")

        self.attempt(start)

    def attempt(self, work: Callable[[], Result]) -> Result:
        """Ends the run if this work raises, as an interrupted wait does: the traceback may keep the run for long."""
        try:
            return work()
        except BaseException:
            self.end()
            raise

    def write(self, text: bytes) -> None:
        """Sends the input. The program reads all of it before it writes, so neither waits for the other."""
        if self.process.stdin is None:
            return
        with contextlib.suppress(BrokenPipeError):  # refused before it was read, and the status says so
            self.process.stdin.write(text)
            self.process.stdin.close()

    def line(self) -> Optional[str]:
        """The next line without its end, or None after the last one. Lines are split at LF only."""
        assert self.process.stdout
        line = self.process.stdout.readline()
        if line and not line.endswith(b"\n"):
            self.fail()
        return line[:-1].decode() if line else None

    def next_line(self) -> str:
        """The next line, which has to be there."""
        line = self.line()
        if line is None:
            self.fail()
        return line

    def fail(self) -> NoReturn:
        """Raises what the run ended with."""
        assert self.process.stdout and self.process.stderr
        self.process.stdout.read()
        text = self.process.stderr.read().decode(errors="replace").strip()
        status = self.process.wait()
        self.end()
        if self.alarm and self.alarm.has_rung and status == -signal.SIGKILL:
            raise OutOfTime(f"the program had not ended after {self.alarm.seconds:g} seconds", status)
        if status in REFUSALS:
            raise _refusal(status, text, self.given)
        if status == 127 and "x86-64-v2" in text:
            raise NoProgram("the processor lacks a feature of x86-64-v2, which the program needs", status)
        if status in (125, 127):
            raise NoProgram(text, status)
        raise CutOff(text or "the output ended before its last line", status)

    def expect(self, word: str) -> str:
        """The rest of the next line, which has to begin with this word."""
        line = self.next_line()
        if not line.startswith(f"{word} "):
            self.fail()
        return line[len(word) + 1 :]

    def header(self, **values: Any) -> Dict[str, str]:
        """What the program prints before the first answer: these words, each with its value (None is any value), and
        the score if there is one."""
        header = {word: self.expect(word) for word in values}
        if any(value is not None and header[word] != str(value) for word, value in values.items()):
            self.fail()
        rule = header.get("rule")
        if rule is not None and rule not in SEQUENTIAL:
            word = "distance" if rule == "minimax" else "score"
            header[word] = self.expect(word)
        return header

    def finish(self, *statuses: int) -> None:
        """Checks that nothing follows, and that the program ended with one of these statuses."""
        if self.line() is not None or self.process.wait() not in statuses:
            self.fail()
        self.end()


def _launch(command: str, given: _Input, reading: Reading, **own: Any) -> _Run:
    """Starts the program with the options of one command and those of the reading."""
    ways = {name: reading.get(name) for name in ("kind", "category", "setsize", "classes")}
    options = {**own, **ways, "kind": ways["kind"] or given.kind}
    words = [f"--{name}={value}" for name, value in options.items() if value is not None]
    return _Run([command, *words, *given.arguments], given, reading)


def _refusal(status: int, text: str, given: _Input) -> CommitteesError:
    """The exception for a refusal, from what the program printed. It names the path of a file and the ballot of a
    list."""
    fault = text.split()[-1] if text.startswith("committees: ") and status in (3, 4) else None
    if text.startswith("committees: words: "):
        fault = text.split()[2]
    match = re.match("committees: input line ([0-9]+): ", text)
    line, ballot = int(match[1]) if match else None, None
    if status == 3 and given.rows is not None:
        ballot = line - HEADER.count("\n") if line is not None else None
        ballot = given.highest_at if ballot is not None and ballot < 1 else ballot
        line = None
        text = f"committees: {'ballots' if ballot is None else f'ballot {ballot}'}: {fault}"
    if status != 6 or given.path is None:
        error = REFUSALS[status](text, status, fault, line)
        error.ballot = ballot
        return error
    text = f"{text}: {given.path}"
    try:
        os.stat(given.path)
    except FileNotFoundError:
        missing = FileMissing(text, status)
        missing.errno, missing.filename = errno.ENOENT, given.path
        return missing
    except OSError:
        pass
    return DeviceFailed(text, status)


# ---- answers


class Answers(Iterator[Answer]):
    """The answers of one run, in order, each as soon as it is printed. `score` is a `Fraction`, or None if the rule
    has no score; `distance` is the distance under minimax. `more` is None until the last answer was read; then it
    says whether a limit left some out. An iterator that is dropped, closed, interrupted or left (`with`) ends its
    run.

    Answers are read once. `all()` returns a list, which can be read again:

        >>> ties = elect([{1}, {2}, {3}], "av", 1).all()
        >>> [sorted(committee) for committee in ties]
        [[1], [2], [3]]
    """

    score: Optional[Fraction]
    distance: Optional[int]
    more: Optional[bool]

    def __init__(self, run: _Run, answer: Callable[[List[int]], Answer], header: Mapping[str, str]):
        self._run = run
        self._answer = answer
        self._header = header
        self._count = 0
        self._first: List[Answer] = []
        self.score = Fraction(header["score"]) if "score" in header else None
        self.distance = int(header["distance"]) if "distance" in header else None
        self.more = None

    def _state(self) -> str:
        """The header, and how many answers were read."""
        shown: Dict[str, Any] = {**self._header}
        if self.score is not None:
            shown["score"] = self.score
        header = ", ".join(f"{word} {value}" for word, value in shown.items())
        if self.more is None:
            end = "not at the end" if self._run.end.alive else "closed"
        else:
            end = "at the limit" if self.more else "at the end"
        return f"{header}; {self._count} read, {end}"

    def _shown(self) -> List[str]:
        """The first answers that were read."""
        first = [
            f"{{{', '.join(map(repr, sorted(answer)))}}}" if isinstance(answer, frozenset) else repr(answer)
            for answer in self._first
        ]
        return [*first, ".."] if self._count > len(first) else first

    def __repr__(self) -> str:
        shown = self._shown()
        return f"<Answers: {self._state()}{': ' if shown else ''}{', '.join(shown)}>"

    def _repr_html_(self) -> str:
        rows = "".join(f"<tr><td>{html.escape(answer)}</td></tr>" for answer in self._shown())
        return f"<table><caption>{html.escape(self._state())}</caption>{rows}</table>"

    def __iter__(self) -> Answers[Answer]:
        if self.more is not None:
            raise AlreadyRead("these answers were already read: all() returns a list, which can be read again")
        return self

    def __next__(self) -> Answer:
        if self.more is not None:
            raise StopIteration
        if not self._run.end.alive:
            raise CutOff("the answers were closed before the last one was read")
        # After an interrupted read the next line could be the rest of a line, or an answer could be missing.
        return self._run.attempt(self._next)

    def _next(self) -> Answer:
        line = self._run.next_line()
        if line in ("end", "more"):
            self._run.finish(0)
            self.more = line == "more"
            raise StopIteration
        answer = self._answer([int(number) for number in line.split(",")])
        self._count += 1
        if self._count <= MOST_SHOWN:
            self._first.append(answer)
        return answer

    def all(self) -> List[Answer]:
        """Returns the list of all answers, or raises `AlreadyRead` if one was read before."""
        if self._count:
            raise AlreadyRead(f"{self._count} of these answers were already read, so the list would lack them")
        return list(self)

    def close(self) -> None:
        """Ends the run."""
        self._run.end()

    def __enter__(self) -> Answers[Answer]:
        return self

    def __exit__(self, *_: Any) -> None:
        self.close()


# ---- elections


@overload
def elect(
    profile: Any, rule: str, size: int, *, names: Literal[True], **keywords: Unpack[Paging]
) -> Answers[Tuple[str, ...]]: ...


@overload
def elect(  # type: ignore[misc]
    profile: NamedProfile, rule: str, size: int, *, names: Literal[False] = False, **keywords: Unpack[Paging]
) -> Answers[FrozenSet[str]]: ...


@overload
def elect(
    profile: Any, rule: str, size: int, *, names: Literal[False] = False, **keywords: Unpack[Paging]
) -> Answers[FrozenSet[int]]: ...


@overload
def elect(profile: Any, rule: str, size: int, *, names: bool, **keywords: Unpack[Paging]) -> Answers[Any]: ...


def elect(
    profile: Any,
    rule: str,
    size: int,
    *,
    names: bool = False,
    after: Optional[Iterable[Any]] = None,
    limit: Optional[int] = None,
    candidates: Union[None, int, Iterable[str]] = None,
    kind: Optional[str] = None,
    category: Optional[int] = None,
    setsize: Optional[int] = None,
    classes: Optional[int] = None,
    program: Optional[Path] = None,
    timeout: Optional[float] = None,
) -> Answers[Any]:
    """Gives all winning committees of a rule in lexicographic order, as frozensets of candidates, or with `names=True`
    as tuples of names in the order of the numbers. Returns once the score is known; refusals are raised here.

    `after` is a committee: only later ones are given, and at most `limit` of them. `Reading` explains the other
    keywords.

        >>> elect([{"Ada", "Ben"}, {"Cleo"}], "cc", 2, candidates=["Cleo", "Ada", "Ben"], names=True).all()
        [('Cleo', 'Ada'), ('Cleo', 'Ben')]
    """
    reading = Reading(candidates=candidates, kind=kind, category=category, setsize=setsize, classes=classes)
    reading.update({"program": program, "timeout": timeout})
    rule = _own_name("rule", rule, profile, "elect(profile, rule, size)")
    given = _input(profile, names, reading)
    start = None if after is None else _joined(given.candidates.numbers_as("after", after))
    run = _launch("elect", given, reading, rule=rule, size=size, after=start, limit=limit)
    header = run.attempt(lambda: run.header(rule=rule, size=size))
    return Answers(run, given.candidates.shown(names), header)


# ---- seats


def _is_votes(profile: Any) -> bool:
    """Whether these are votes of parties, and not ballots: a collection of numbers, or a mapping whose keys are
    names."""
    if isinstance(profile, Mapping):
        return not any(isinstance(party, (frozenset, tuple)) for party in profile)
    is_text = isinstance(profile, (str, bytes, bytearray, memoryview))
    is_collection = isinstance(profile, Collection) and not is_text and not hasattr(profile, "num_cand")
    return is_collection and all(isinstance(number, Number) for number in profile)


def _seats_by_name(given: _Input, parties: Optional[List[Any]]) -> Callable[[List[int]], Dict[Any, int]]:
    """Gives an allocation as a mapping of the names of parties to seats. No two may have the same name."""

    def named(seats: List[int]) -> Dict[Any, int]:
        keys = given.candidates.names_of(range(1, len(seats) + 1)) if parties is None else parties
        found = dict(zip(keys, seats))
        if len(found) < len(seats):
            raise ValueError("two parties have the same name, so names=True cannot keep them apart")
        return found

    return named


def _seats_after(after: Any, given: _Input, parties: Optional[List[Any]]) -> Optional[str]:
    """The argument of the program for an allocation, which may be a mapping of the names of parties."""
    if isinstance(after, Mapping):
        keys = parties or given.candidates.names_of(range(1, len(after) + 1))
        unknown = [party for party in after if party not in keys] or [party for party in keys if party not in after]
        if unknown:
            raise ValueError(f"after: {unknown[0]!r} is not a party both of the profile and of `after`")
        after = [after[party] for party in keys]
    return None if after is None else _joined(after)


@overload
def share(  # type: ignore[misc]
    profile: Union[Mapping[str, Any], NamedProfile], method: str, seats: int, **keywords: Unpack[Paging]
) -> Answers[Dict[str, int]]: ...


@overload
def share(
    profile: Any, method: str, seats: int, *, names: Literal[True], **keywords: Unpack[Paging]
) -> Answers[Dict[str, int]]: ...


@overload
def share(
    profile: Any, method: str, seats: int, *, names: Literal[False] = False, **keywords: Unpack[Paging]
) -> Answers[Tuple[int, ...]]: ...


@overload
def share(profile: Any, method: str, seats: int, *, names: bool, **keywords: Unpack[Paging]) -> Answers[Any]: ...


def share(
    profile: Any,
    method: str,
    seats: int,
    *,
    names: bool = False,
    after: Union[None, Iterable[int], Mapping[Any, int]] = None,
    limit: Optional[int] = None,
    candidates: Union[None, int, Iterable[str]] = None,
    kind: Optional[str] = None,
    category: Optional[int] = None,
    setsize: Optional[int] = None,
    classes: Optional[int] = None,
    program: Optional[Path] = None,
    timeout: Optional[float] = None,
) -> Answers[Any]:
    """Gives all fair allocations of seats in ascending order. The profile is a list of votes, one number for each
    party, a mapping of the names of parties to votes, such as a Series of pandas, or a profile as for `elect`, whose
    candidates are the parties. An allocation is a tuple of numbers; if parties have names, or with `names=True`, it is
    a mapping of names to seats.

    `after` is an allocation: only later ones are given, and at most `limit` of them. `Reading` explains the other
    keywords.

        >>> share([5, 3, 3], "adams", 2).all()
        [(1, 0, 1), (1, 1, 0)]
        >>> share([({"Greens"}, 5), ({"Blues"}, 3)], "adams", 2).all()
        [{'Greens': 1, 'Blues': 1}]
    """
    reading = Reading(candidates=candidates, kind=kind, category=category, setsize=setsize, classes=classes)
    reading.update({"program": program, "timeout": timeout})
    method = _own_name("method", method, profile, "share(profile, method, seats)")
    profile = _plain(profile)
    parties = list(profile) if isinstance(profile, Mapping) and _is_votes(profile) else None
    if _is_votes(profile):
        _refuse_candidates(candidates)
        votes = profile if parties is None else profile.values()
        given = _Input(_Candidates(), [f"--votes={_joined(votes)}"])
    else:
        given = _input(profile, names, reading)
    start = _seats_after(after, given, parties)
    run = _launch("share", given, reading, method=method, seats=seats, after=start, limit=limit)
    header = run.attempt(lambda: run.header(method=method, seats=seats))
    answer: Callable[[List[int]], Any] = tuple
    if names or parties is not None or given.candidates.by_name:
        answer = _seats_by_name(given, parties)
    return Answers(run, answer, header)


# ---- checks


@overload
def check(
    profile: Any, property: Any, committee: Iterable[Any], *, names: Literal[True], **keywords: Unpack[Reading]
) -> Check[Tuple[str, ...]]: ...


@overload
def check(  # type: ignore[misc]
    profile: NamedProfile,
    property: str,
    committee: Iterable[Any],
    *,
    names: Literal[False] = False,
    **keywords: Unpack[Reading],
) -> Check[FrozenSet[str]]: ...


@overload
def check(
    profile: Any, property: Any, committee: Iterable[Any], *, names: Literal[False] = False, **keywords: Unpack[Reading]
) -> Check[FrozenSet[int]]: ...


@overload
def check(
    profile: Any, property: Any, committee: Iterable[Any], *, names: bool, **keywords: Unpack[Reading]
) -> Check[Any]: ...


def check(
    profile: Any,
    property: Any,
    committee: Iterable[Any],
    *,
    names: bool = False,
    candidates: Union[None, int, Iterable[str]] = None,
    kind: Optional[str] = None,
    category: Optional[int] = None,
    setsize: Optional[int] = None,
    classes: Optional[int] = None,
    program: Optional[Path] = None,
    timeout: Optional[float] = None,
) -> Check[Any]:
    """Reports whether a committee has a property of representation; if not, describes a group that it leaves out. With
    `names=True` the report has tuples of names in the place of sets of candidates. The property may stand before the
    profile, as in `properties.check` of abcvoting. `Reading` explains the other keywords.

        >>> report = check([({"Ada", "Ben", "Cleo"}, 7), ({"Dan", "Eve"}, 2)], "pjr", {"Ada", "Dan", "Eve"})
        >>> report.level, sorted(report.candidates), report.group, report.voters
        (2, ['Ada', 'Ben'], 7, 9)
    """
    reading = Reading(candidates=candidates, kind=kind, category=category, setsize=setsize, classes=classes)
    reading.update({"program": program, "timeout": timeout})
    if isinstance(profile, str) and _is_known("property", profile) and not _is_known("property", property):
        profile, property = property, profile
    property = _own_name("property", property, profile, "check(profile, property, committee)")
    given = _input(profile, names, reading)
    members = given.candidates.numbers_as("committee", committee)
    return _checked(given, property, members, names, reading)


def analyze(
    profile: Any,
    committee: Iterable[Any],
    *,
    names: bool = False,
    candidates: Union[None, int, Iterable[str]] = None,
    kind: Optional[str] = None,
    category: Optional[int] = None,
    setsize: Optional[int] = None,
    classes: Optional[int] = None,
    program: Optional[Path] = None,
    timeout: Optional[float] = None,
) -> Dict[str, Check[Any]]:
    """Checks a committee for the four properties of representation: a mapping of their names to what `check` reports.
    `timeout` is for each of the four.

        >>> board = [({1, 2, 3}, 7), ({4, 5}, 2), ({6}, 1)]
        >>> [name for name, report in analyze(board, {1, 4, 6}).items() if report]
        ['jr']
    """
    reading = Reading(candidates=candidates, kind=kind, category=category, setsize=setsize, classes=classes)
    reading.update({"program": program, "timeout": timeout})
    given = _input(profile, names, reading).kept()
    members = given.candidates.numbers_as("committee", committee)
    return {property: _checked(given, property, members, names, reading) for property in OWN_NAMES["property"]}


def _checked(given: _Input, property: str, committee: List[int], names: bool, reading: Reading) -> Check[Any]:
    run = _launch("check", given, reading, property=property, committee=_joined(committee))
    return run.attempt(lambda: _report(run, property, given.candidates.shown(names)))


def _report(run: _Run, property: str, members: Callable[[List[int]], Members]) -> Check[Members]:
    """Reads the answer to a check."""

    def read(text: str) -> Members:
        return members([int(number) for number in text.split(",") if number.isdigit()])

    first = run.line()
    if first == "holds":
        run.finish(0)
        return Check(True)
    if first != f"violated {property}":
        run.fail()
    level = int(run.expect("level"))
    shared = read(run.expect("candidates"))
    within = read(run.expect("within")) if property == "pjr" else None
    group, _, voters = run.expect("voters").partition(" of ")
    rows: List[Tuple[Members, int]] = []
    while sum(count for _, count in rows) < int(group):
        count, _, ballot = run.next_line().partition(":")
        rows.append((read(ballot.strip()), int(count)))
    run.finish(1)
    return Check(False, level, shared, within, int(group), int(voters), tuple(rows))


# ---- scores and approvals, by definition


# What a voter adds to the score of a committee for the member approved that is number 1, 2, ..
ADDED: Dict[str, Callable[[int], Fraction]] = {
    "av": lambda number: Fraction(1),
    "pav": lambda number: Fraction(1, number),
    "cc": lambda number: Fraction(number == 1),
    "geom2": lambda number: Fraction(1, 2 ** (number - 1)),
    "geom3": lambda number: Fraction(1, 3 ** (number - 1)),
    "geom4": lambda number: Fraction(1, 4 ** (number - 1)),
}


@overload
def score(
    profile: Any,
    rule: Literal["av", "pav", "cc", "geom2", "geom3", "geom4", "sav"],
    committee: Iterable[Any],
    **keywords: Unpack[Reading],
) -> Fraction: ...


@overload
def score(
    profile: Any, rule: Literal["minimax", "minimaxav"], committee: Iterable[Any], **keywords: Unpack[Reading]
) -> int: ...


@overload
def score(profile: Any, rule: str, committee: Iterable[Any], **keywords: Unpack[Reading]) -> Union[Fraction, int]: ...


def score(
    profile: Any,
    rule: str,
    committee: Iterable[Any],
    *,
    candidates: Union[None, int, Iterable[str]] = None,
    kind: Optional[str] = None,
    category: Optional[int] = None,
    setsize: Optional[int] = None,
    classes: Optional[int] = None,
    program: Optional[Path] = None,
    timeout: Optional[float] = None,
) -> Union[Fraction, int]:
    """The score of any committee under a rule, as a `Fraction`; under `minimax` its distance, as an `int`. A sequential
    rule is refused, since it has no score. This is computed here by the definition of the rule. It is tested against
    the program, and not proved.

        >>> score([({1, 2, 3}, 7), ({4, 5}, 2), ({6}, 1)], "pav", {1, 4, 6})
        Fraction(10, 1)
        >>> score([{1, 2, 3}, {4, 5}, {6}], "minimax", {1, 4, 6})
        4
    """
    reading = Reading(candidates=candidates, kind=kind, category=category, setsize=setsize, classes=classes)
    reading.update({"program": program, "timeout": timeout})
    rule = _own_name("rule", rule, profile, "score(profile, rule, committee)")
    if rule in SEQUENTIAL:
        raise ValueError(f"{rule} has no score: its winners come from a sequence of choices")
    if not _is_known("rule", rule):
        raise ValueError(f"{rule!r} is not a rule: the rules with a score are {', '.join(OWN_NAMES['rule'][:8])}")
    given = _input(profile, False, reading)
    election = given.election(reading)
    members = frozenset(given.candidates.numbers_as("committee", committee))
    if members and max(members) > len(election.names):
        raise ValueError(f"committee: candidate {max(members) - 1 + given.candidates.first} is not in the profile")
    return _score(election, rule, members)


def _score(election: Election, rule: str, committee: FrozenSet[int]) -> Union[Fraction, int]:
    if rule == "minimax":
        return max(len(ballot ^ committee) for ballot in election.ballots)
    hits = {ballot: len(ballot & committee) for ballot in election.ballots}
    if rule == "sav":
        added = {ballot: Fraction(hits[ballot], len(ballot) or 1) for ballot in hits}
    else:
        sums = list(accumulate(map(ADDED[rule], range(1, len(committee) + 1)), initial=Fraction()))
        added = {ballot: sums[hits[ballot]] for ballot in hits}
    return sum((voters * added[ballot] for ballot, voters in election.ballots.items()), Fraction())


def approvals(
    profile: Any,
    *,
    names: bool = False,
    candidates: Union[None, int, Iterable[str]] = None,
    kind: Optional[str] = None,
    category: Optional[int] = None,
    setsize: Optional[int] = None,
    classes: Optional[int] = None,
    program: Optional[Path] = None,
    timeout: Optional[float] = None,
) -> Dict[Any, int]:
    """The number of voters who approve each candidate, in the order of the numbers; with `names=True` by their names.
    This is computed here. It is tested against the program, and not proved.

        >>> approvals([({"Ada", "Ben"}, 7), {"Ben"}], candidates=["Ada", "Ben", "Cleo"])
        {'Ada': 7, 'Ben': 8, 'Cleo': 0}
    """
    reading = Reading(candidates=candidates, kind=kind, category=category, setsize=setsize, classes=classes)
    reading.update({"program": program, "timeout": timeout})
    given = _input(profile, names, reading)
    election, known = given.election(reading), given.candidates
    numbers = range(1, len(election.names) + 1)
    by_name = names or known.by_name
    keys: Sequence[Any] = known.names_of(numbers) if by_name else [number - 1 + known.first for number in numbers]
    if len({*keys}) < len(keys):
        raise ValueError("two candidates have the same name, so names=True cannot keep them apart")
    return dict(zip(keys, election.approvals))


# ---- the calls of abcvoting and apportionment


EXACT = ("fastest", "standard", "brute-force", "branch-and-bound", "standard-fractions", "gmpy2-fractions")
# Words of these libraries: the values that ask for what is done here, and why others are refused.
OTHER_WORDS: Dict[str, Tuple[Tuple[Any, ...], str]] = {
    "resolute": ((False,), "all tied answers are returned, and none is chosen"),
    "algorithm": (EXACT, "the program has its own exact search, and neither solvers nor floating-point numbers"),
    "lexicographic_tiebreaking": ((False,), "no tie is broken: all tied committees are returned"),
    "threshold": ((0,), "there are no thresholds: write 0 votes for each party below it"),
    "tiesallowed": ((True,), "all tied allocations are returned"),
    "verbose": ((False,), "nothing is printed"),
}


def _refuse_other_words(**words: Any) -> None:
    for word, value in words.items():
        taken, why = OTHER_WORDS[word]
        if value is not None and value not in taken:
            raise ValueError(f"{word}={value!r} is refused: {why}")


def _one_of(**words: Any) -> Any:
    """The value of an argument that has several names."""
    given = {word: value for word, value in words.items() if value is not None}
    if len(given) > 1:
        raise TypeError(f"compute() got {' and '.join(given)}, which are one argument")
    return next(iter(given.values()), None)


def compute(
    rule_id: Optional[str] = None,
    profile: Any = None,
    committeesize: Optional[int] = None,
    resolute: Optional[bool] = None,
    *,
    method: Optional[str] = None,
    votes: Any = None,
    seats: Optional[int] = None,
    algorithm: Optional[str] = None,
    lexicographic_tiebreaking: Optional[bool] = None,
    max_num_of_committees: Optional[int] = None,
    parties: Optional[Collection[Any]] = None,
    threshold: Optional[float] = None,
    tiesallowed: Optional[bool] = None,
    verbose: Optional[bool] = None,
    after: Union[None, Iterable[Any], Mapping[Any, int]] = None,
    limit: Optional[int] = None,
    candidates: Union[None, int, Iterable[str]] = None,
    kind: Optional[str] = None,
    category: Optional[int] = None,
    setsize: Optional[int] = None,
    classes: Optional[int] = None,
    program: Optional[Path] = None,
    timeout: Optional[float] = None,
) -> List[Any]:
    """Stands in for `abcrules.compute` of abcvoting and `methods.compute` of apportionment: the first argument is the
    name of a rule or of a method, the second a profile or votes, the third a size.

    `compute(rule_id, profile, committeesize)` returns the list of all winning committees, as sets. `compute(method,
    votes, seats)` returns the list of all fair allocations, each a list of seats, or a mapping if parties have names.
    All tied answers are returned, also if `resolute` is left out, and under rules for which abcvoting then chooses one.

    A word of these libraries that asks for anything else is refused with its reason: `resolute=True`, an `algorithm`
    that is not exact, `lexicographic_tiebreaking=True`, a `threshold`, `tiesallowed=False`, `verbose=True`.
    `max_num_of_committees` is the limit, and `parties` changes nothing. `Paging` explains the other keywords.

        >>> compute("cc", [{1, 2}, {3}], 1, resolute=False)
        [{1}, {2}, {3}]
        >>> compute("adams", [5, 3, 3], 2)
        [[1, 0, 1], [1, 1, 0]]
    """
    _refuse_other_words(resolute=resolute, algorithm=algorithm, lexicographic_tiebreaking=lexicographic_tiebreaking)
    _refuse_other_words(threshold=threshold, tiesallowed=tiesallowed, verbose=verbose)
    paging = Paging(candidates=candidates, kind=kind, category=category, setsize=setsize, classes=classes)
    paging.update({"program": program, "timeout": timeout, "after": after})
    paging["limit"] = _one_of(limit=limit, max_num_of_committees=max_num_of_committees)
    name = _one_of(rule_id=rule_id, method=method)
    given = _plain(_one_of(profile=profile, votes=votes))
    size = _one_of(committeesize=committeesize, seats=seats)
    if not isinstance(name, str) or given is None or size is None:
        raise TypeError("the order of arguments is compute(rule_id, profile, committeesize) or (method, votes, seats)")
    if _is_known("method", name) or _is_votes(given) and len(given) > 0:
        return _allocations(given, name, size, parties, paging)
    if parties is not None:
        raise ValueError(f"parties={parties!r} is refused: {name} is not a method for parties")
    return [set(committee) for committee in elect(given, name, size, **paging)]


def _allocations(votes: Any, method: str, seats: int, parties: Optional[Collection[Any]], paging: Paging) -> List[Any]:
    allocations = share(votes, method, seats, **paging).all()
    if parties is not None and any(len(parties) < len(allocation) for allocation in allocations):
        raise ValueError(f"parties={parties!r} is refused: there are more parties")
    return [allocation if isinstance(allocation, dict) else list(allocation) for allocation in allocations]


# ---- python3 -m committees


class _CommandLine:
    """The arguments of the program: its options with their values, and where FILE and `--names` stand. Whether they are
    right is for the program to decide."""

    def __init__(self, words: Sequence[str]):
        self.words = list(words)
        self.options: Dict[str, str] = {}
        self.file_at: Optional[int] = None
        self.names_at: List[int] = []
        self.asks_for_help = not words or words[0] not in ("elect", "check", "share")
        at = 1
        while at < len(words):
            at = self._read(at)

    def _read(self, at: int) -> int:
        """Reads the argument at this place, with its value, and returns the place after it."""
        word, following = self.words[at], at + 1
        if word == "--" or word == "-" or not word.startswith("-"):
            self.file_at = following if word == "--" else at
            return len(self.words) if word == "--" else following
        name, equals, value = word[2:].partition("=")
        if word in ("-h", "--help"):
            self.asks_for_help = True
        elif word == "--names":
            self.names_at.append(at)
        elif equals:
            self.options[name] = value
        else:
            self.options[name] = self.words[following] if following < len(self.words) else ""
            following += 1
        return following

    @property
    def has_names(self) -> bool:
        return len(self.names_at) == 1  # twice is refused by the program

    def without(self, *places: int) -> List[str]:
        return [word for at, word in enumerate(self.words) if at not in places]

    def input(self) -> Tuple[List[str], _Input]:
        """The words for the program, and what it reads. JSON has the names one by one, so they are read here."""
        given = _Input(_Candidates(), text=None)
        if not self.has_names:
            return self.words, given
        words = self.without(*self.names_at)
        if "votes" in self.options:
            return words, given
        if self.file_at is None or self.file_at >= len(self.words):
            with contextlib.suppress(OSError):  # the program reports it
                given = given._replace(text=sys.stdin.buffer.read()).named()
            return words, given
        given = given._replace(path=self.words[self.file_at]).named()
        if given.path is not None:
            return words, given._replace(path=None)
        kind = [f"--kind={given.kind}"] if given.kind and "kind" not in self.options else []
        words = self.without(*self.names_at, self.file_at)
        return [words[0], *kind, *words[1:]], given


def _json_of_check(run: _Run, property: str, members: Callable[[List[int]], List[Any]]) -> Dict[str, Any]:
    report = _report(run, property, members)
    found: Dict[str, Any] = {"property": property, "holds": report.holds}
    if report:
        return found
    fields = ("level", "candidates", "within", "group", "voters")
    found.update((field, getattr(report, field)) for field in fields if getattr(report, field) is not None)
    found["rows"] = [{"ballot": ballot, "voters": voters} for ballot, voters in report.rows]
    return found


def _json_of_answers(run: _Run, word: str, answer: Callable[[List[int]], List[Any]], **words: Any) -> Dict[str, Any]:
    header = run.header(**words)
    answers: Answers[List[Any]] = Answers(run, answer, header)
    found: Dict[str, Any] = {name: int(value) if value.isdigit() else value for name, value in header.items()}
    found[word] = answers.all()
    found["more"] = answers.more
    return found


def _json(line: _CommandLine) -> Dict[str, Any]:
    """The object that is printed in the place of what the program prints."""
    words, given = line.input()

    def members(numbers: Iterable[int]) -> List[Any]:
        return list(given.candidates.names_of(numbers) if line.has_names else numbers)

    run = _Run(words, given, Reading())
    if words[0] == "check":
        return run.attempt(lambda: _json_of_check(run, line.options.get("property", ""), members))
    if words[0] == "elect":
        return run.attempt(lambda: _json_of_answers(run, "committees", members, rule=None, size=None))
    found = run.attempt(lambda: _json_of_answers(run, "allocations", list, method=None, seats=None))
    if line.has_names:
        parties = members(range(1, len((found["allocations"] or [[]])[0]) + 1))
        found = {"method": found.pop("method"), "seats": found.pop("seats"), "parties": parties, **found}
    return found


def main() -> int:
    """Runs the program with the arguments of this process and prints its answer as one JSON object. Returns the status
    of the program. A refusal is the line of the program on standard error; then nothing is printed on standard
    output."""
    line = _CommandLine(sys.argv[1:])
    try:
        if line.asks_for_help:
            return subprocess.call([_program(None), *line.words])
        found = _json(line)
    except CommitteesError as error:
        print(error, file=sys.stderr)
        status = error.status or NO_STATUS
        return status if status > 0 else 128 - status
    except KeyboardInterrupt:
        return 130
    try:
        with open(sys.stdout.fileno(), "wb", closefd=False) as output:
            output.write(json.dumps(found, ensure_ascii=False, separators=(",", ":")).encode() + b"\n")
    except OSError:
        print("committees: write failed", file=sys.stderr)
        return 6
    return 0 if found.get("holds", True) else 1


if __name__ == "__main__":
    sys.exit(main())
