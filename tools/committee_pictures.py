"""Pictures of elections and checks, as SVG: who approves which candidates, who sits on the committee, and who is left
out."""
from __future__ import annotations

import math
import re
import textwrap
import unicodedata
from collections import Counter
from fractions import Fraction
from typing import Dict, FrozenSet, List, NamedTuple, Tuple
from xml.sax.saxutils import escape, quoteattr

from committee_answers import Election, Winners, listed, plural

EDGE, GAP, LINE = 20, 6, 20
NARROWEST, WIDEST = 500, 1100  # of the picture; columns are as wide as fits
COLUMN = 78
LETTER, BOLD_LETTER, DIGIT = 7.5, 8.4, 6.8  # the width of most letters, and of the digits of a bar
VOTER, ROOM, LOWEST = 22, 440, 14  # heights of a voter, of all voters at most, and of a group at least
BAR = 60  # the height of the bar of the most approvals
MOST_GROUPS = 40
MOST_HITS = 9  # of ballots that share a row
MOST_LETTERS = 28  # of a name
YES, SEAT, OUT, INK, PAPER = "#4c78a8", "#f2c14e", "#c0392b", "#222222", "white"
# The same in the dark. Printers stay with the light colours.
STYLE = """\
@media screen and (prefers-color-scheme: dark) {
.ink { fill: #e4e4e4 } .paper { fill: #181a1b } .cell { fill: #26292b; stroke: #9a9a9a } .yes { fill: #7fb0e3 }
.seat { fill: #d9a520 } .out { stroke: #ff8d7e }
}
"""
# Signs that neither XML nor HTML allows, and those that turn the direction of all that follows.
ODD_SIGNS = re.compile(
    "[^\t\n\x20-\x7e\xa0-\u2029\u202f-\ud7ff\ue000-\ufdcf\ufdf0-\ufffd"
    + "".join(f"{chr(plane << 16)}-{chr((plane << 16) + 0xFFFD)}" for plane in range(1, 17))
    + "]"
)
# The directions of signs that are written from left to right, or have none.
LEFT_TO_RIGHT = {"", "L", "EN", "ES", "ET", "CS", "NSM", "BN", "B", "S", "WS", "ON"}

Ballot = FrozenSet[int]


# ---- names


def clean(words: str) -> str:
    """Text for XML and HTML, with `<`, `>` and `&` escaped. What they do not allow is replaced."""
    return escape(ODD_SIGNS.sub("\ufffd", words))


def isolated(name: str) -> str:
    """The name, so that letters from right to left do not move what stands beside it."""
    if all(unicodedata.bidirectional(sign) in LEFT_TO_RIGHT for sign in name):
        return name
    return "\u2068" + re.sub("[\u2066-\u2069]", "\ufffd", name) + "\u2069"


def name_of(election: Election, number: int) -> str:
    """The name of a candidate, or the number; a long name is cut."""
    name = election.names[number - 1]
    name = name if len(name) <= MOST_LETTERS else name[: MOST_LETTERS - 2] + ".."
    return isolated(name) or str(number)


# ---- the rows


class Subject(NamedTuple):
    """The committee that is drawn, what is said of it in sentences, and the ballots that are left out, with the words
    for them."""

    election: Election
    committee: List[int]
    sentences: List[str]
    left_out: FrozenSet[Ballot]
    out_words: str = ""


def winner(election: Election, rule: str, winners: Winners, committee: List[int]) -> Subject:
    """A winning committee, and the voters who approve no member of it."""
    names = listed(name_of(election, number) for number in committee)
    value = "" if winners.distance is None else f" at a distance of {winners.distance}"
    value = value if winners.score is None else f" with the score {winners.score}"
    sentences = [f"{rule}, {plural(len(committee), 'seat')}: {names}{value}."]
    if winners.ties > 1:
        number = f"More than {winners.ties:,}" if winners.more else f"{winners.ties:,}"
        this = "the first" if committee == winners.first[0] else "the one asked for"
        sentences.append(f"{number} committees tie; this is {this}.")
    left_out = frozenset(ballot for ballot in election.ballots if not ballot & frozenset(committee))
    out = sum(election.ballots[ballot] for ballot in left_out)
    if out:
        sentences.append(f"{out:,} of {plural(election.voters, 'voter')} approve no member of the committee.")
    return Subject(election, committee, sentences, left_out, "approves no member")


class Group(NamedTuple):
    """A row of the picture: voters, the number of their different ballots, and of each candidate the voters who
    approve."""

    voters: int
    ballots: int
    approvals: Dict[int, int]
    is_out: bool

    @property
    def label(self) -> str:
        voters = plural(self.voters, "voter")
        return voters if self.ballots == 1 else f"{voters}, {self.ballots:,} ballots"


def group_of(ballots: List[Tuple[Ballot, int]], is_out: bool) -> Group:
    approvals: Counter[int] = Counter()
    for ballot, voters in ballots:
        approvals.update(dict.fromkeys(ballot, voters))
    return Group(sum(voters for _, voters in ballots), len(ballots), approvals, is_out)


def groups_of(subject: Subject) -> List[Group]:
    """A row for each of the largest groups of equal ballots, and rows for the others, by how many members of the
    committee they approve. Those that are left out come first."""
    committee = frozenset(subject.committee)
    by_size = sorted(subject.election.ballots.items(), key=lambda item: -item[1])
    small = by_size[MOST_GROUPS][1] if len(by_size) > MOST_GROUPS else 0
    rows: Dict[Tuple[bool, int, int], List[Tuple[Ballot, int]]] = {}
    for place, (ballot, voters) in enumerate(by_size):
        is_in = ballot not in subject.left_out
        hits = min(len(ballot & committee), MOST_HITS)
        rows.setdefault((is_in, place, 0) if voters > small else (is_in, len(by_size), hits), []).append(
            (ballot, voters)
        )
    return [group_of(rows[key], not key[0]) for key in sorted(rows)]


# ---- the picture


class Picture:
    """Elements of a picture, from top to bottom."""

    def __init__(self, subject: Subject):
        self.subject = subject
        self.election = subject.election
        self.groups = groups_of(subject)
        self.left = 2 * EDGE + LETTER * max(len("approvals"), *(len(group.label) for group in self.groups))
        candidates = len(self.election.names)
        self.column = min(float(COLUMN), (WIDEST - self.left - EDGE) / candidates)
        self.right = self.left + self.column * candidates
        self.width = max(NARROWEST, math.ceil(self.right + EDGE))
        self.elements: List[str] = []

    def box(self, x: float, y: float, width: float, height: float, **more: object) -> None:
        words = "".join(f" {key.strip('_').replace('_', '-')}={quoteattr(str(value))}" for key, value in more.items())
        self.elements.append(f'<rect x="{x:.4g}" y="{y:.5g}" width="{width:.4g}" height="{height:.4g}"{words}/>')

    def text(self, x: float, y: float, words: str, anchor: str = "start", more: str = "") -> None:
        self.elements.append(f'<text x="{x:.4g}" y="{y:.5g}" text-anchor="{anchor}"{more}>{clean(words)}</text>')

    def turned(self, x: float, y: float, words: str, more: str = "") -> None:
        """Text that runs upwards."""
        self.text(x, y, words, more=f'{more} transform="rotate(-90 {x:.5g} {y:.5g})"')

    def x_of(self, number: int) -> float:
        return self.left + self.column * (number - 1)

    def draw_header(self) -> float:
        """The names and numbers of the candidates; names that are wider than a column are turned."""
        names = [name_of(self.election, number) if name else "" for number, name in enumerate(self.election.names, 1)]
        longest = max(len(name) for name in names) * BOLD_LETTER
        is_turned = longest > self.column - 4
        line = EDGE if not longest else EDGE + longest if is_turned else EDGE + 14
        small = min(12.0, self.column * 0.68)
        for number, name in enumerate(names, 1):
            x, sits = self.x_of(number) + self.column / 2, number in self.subject.committee
            bold = ' font-weight="bold"' if sits else ""
            if is_turned and name:
                self.turned(x + 4, line, name, f'{bold} font-size="{min(14.0, self.column):.3g}"')
            elif name:
                self.text(x, line, name, "middle", bold)
            self.text(x, line + 18, str(number), "middle", f'{bold} font-size="{small:.3g}"')
        return line + 34

    def heights(self) -> List[float]:
        voter = min(float(VOTER), ROOM / self.election.voters)
        return [max(float(LOWEST), group.voters * voter) for group in self.groups]

    def draw_group(self, group: Group, y: float, height: float) -> None:
        self.text(self.left - 12, y + height / 2 + 5, group.label, "end")
        inset = self.column * 0.12
        for number in range(1, len(self.election.names) + 1):
            x, width = self.x_of(number) + inset, self.column - 2 * inset
            share = Fraction(group.approvals.get(number, 0), group.voters)
            self.box(x, y, width, height, class_="cell", rx=2, fill=PAPER, stroke=INK, stroke_opacity=0.25)
            if share and height > width:
                self.box(x, y + height * float(1 - share), width, height * float(share), class_="yes", rx=2, fill=YES)
            elif share:
                self.box(x, y, width * float(share), height, class_="yes", rx=2, fill=YES)

    def draw_groups(self, y: float) -> float:
        """The rows, and one outline around those that are left out."""
        top, end_of_out = y, 0.0
        for group, height in zip(self.groups, self.heights()):
            self.draw_group(group, y, height)
            y += height + GAP
            end_of_out = y if group.is_out else end_of_out
        if end_of_out:
            dashes = {"fill": "none", "stroke": OUT, "stroke_width": 2, "stroke_dasharray": "7 4"}
            width, height = self.right + 14 - EDGE, end_of_out - GAP - top + 4
            self.box(EDGE - 8, top - 2, width, height, class_="out", rx=6, **dashes)
        return y

    def draw_bars(self, y: float) -> float:
        """A bar for the approvals of each candidate, with their number above it. The most approvals fill the height."""
        approvals = self.election.approvals
        most = max(*approvals, 1)
        longest = len(f"{most:,}") * DIGIT
        is_turned = longest > self.column
        floor = y + BAR + (longest if is_turned else 14) + 4
        inset = self.column * 0.12
        self.text(self.left - 12, floor - 2, "approvals", "end")
        for number, count in enumerate(approvals, 1):
            height = BAR * count / most
            x, middle = self.x_of(number), self.x_of(number) + self.column / 2
            if count:
                self.box(x + inset, floor - height, self.column - 2 * inset, height, class_="yes bar", fill=YES)
            if is_turned:
                self.turned(middle + 4, floor - height - 3, f"{count:,}", ' font-size="11"')
            else:
                self.text(middle, floor - height - 4, f"{count:,}", "middle", ' font-size="12"')
        self.box(self.left, floor, self.right - self.left, 1, class_="ink", fill=INK)
        return floor + GAP

    def draw_legend(self, y: float) -> None:
        self.box(EDGE, y, 16, 12, class_="yes", rx=3, fill=YES)
        self.text(EDGE + 22, y + 11, "approves")
        self.box(EDGE + 102, y, 16, 12, class_="seat", rx=3, fill=SEAT)
        self.text(EDGE + 124, y + 11, "on the committee")
        if self.subject.left_out:
            dashes = {"fill": "none", "stroke": OUT, "stroke_width": 2, "stroke_dasharray": "4 2"}
            self.box(EDGE + 262, y, 16, 12, class_="out", rx=3, **dashes)
            self.text(EDGE + 284, y + 11, self.subject.out_words)

    def sentences(self) -> List[str]:
        if all(group.ballots == 1 for group in self.groups):
            return self.subject.sentences
        return [
            *self.subject.sentences,
            "Ballots of few voters share a row if they approve equally many members of the committee.",
            "In a row of several ballots, blue is the share of the voters who approve.",
        ]

    def elements_drawn(self) -> Tuple[int, List[str]]:
        """The height of the picture, and what is in it."""
        y = self.draw_bars(self.draw_groups(self.draw_header()))
        # The columns of the committee lie below what is drawn so far.
        drawn, self.elements = self.elements, []
        for number in self.subject.committee:
            x, width = self.x_of(number) + 1, self.column - 2
            self.box(x, 4, width, y - 4, class_="seat", rx=6, fill=SEAT, fill_opacity=0.45)
        self.elements += drawn
        y += 12
        self.draw_legend(y)
        y += 12
        letters = int((self.width - 2 * EDGE) / LETTER)
        for line in [line for sentence in self.sentences() for line in textwrap.wrap(sentence, letters)]:
            y += LINE
            self.text(EDGE, y, line)
        return math.ceil(y + EDGE), self.elements

    def title(self) -> str:
        committee = ", ".join(name_of(self.election, number) for number in self.subject.committee)
        return f"The candidates that each voter approves, and the committee {committee}"

    def draw(self, within: str = "") -> str:
        """The picture as a file, or as an element of a page, in which its ids begin with `within`."""
        height, elements = self.elements_drawn()
        name = within or "picture"
        size = f'viewBox="0 0 {self.width} {height}" width="{self.width}" height="{height}"'
        style = f"<style>\n{STYLE}</style>\n"
        return (
            f'<svg xmlns="http://www.w3.org/2000/svg" {size} font-family="sans-serif" font-size="14"'
            f' class="ink" fill="{INK}" role="img" aria-labelledby="{name}-title {name}-text">\n'
            f'<title id="{name}-title">{clean(self.title())}</title>\n'
            f'<desc id="{name}-text">{clean(" ".join(self.sentences()))}</desc>\n{"" if within else style}'
            + "\n".join(
                [
                    f'<rect width="{self.width}" height="{height}" class="paper" fill="{PAPER}"/>',
                    *elements,
                    "</svg>\n",
                ]
            )
        )
