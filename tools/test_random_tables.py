"""Random tables of votes in five forms, each counted here as it is made: python3 -m unittest discover tools

TABLES=10000 SEED=7 python3 tools/test_random_tables.py tries more of them. The seed of a table that fails is printed.
"""
import csv
import io
import os
import random
import re
import unittest
import unittest.mock
from collections import Counter

from test_tables import tool

TABLES = int(os.environ.get("TABLES", "300"))
SEED = int(os.environ.get("SEED", "1"))
FIRST = ["Ada", "Ben", "Cleo", "Dan", "Eve", "Zoë", "O'Hara", "Ödön", "Jean-Luc", "Q&A", "No", "x", "7", "李"]
LAST = ["Lovelace", "of York", "(chair)", "Jr.", "III", "d’Arc", "B"]
MARKS = [("x", ""), ("yes", "no"), ("1", "0"), ("TRUE", "FALSE"), ("Ja", "-"), ("ok", "maybe")]


class Election:
    """Who approves whom: the names of the candidates, and the approved numbers of each voter with a count."""

    def __init__(self, draw, comma):
        self.names = []
        while len(self.names) < draw.randint(2, 9):
            name = " ".join([draw.choice(FIRST), *draw.sample(LAST, draw.randint(0, 2))])
            if comma and draw.random() < 0.5:
                name = ", ".join(reversed(name.split(" ", 1)))
            if tool.bare(name) not in map(tool.bare, self.names):
                self.names.append(name)
        chance = draw.random()
        self.counted = draw.random() < 0.3
        self.ballots = []
        for _ in range(draw.randint(1, 30)):
            approved = [number for number in range(len(self.names)) if draw.random() < chance]
            self.ballots.append((approved, draw.randint(1, 10**6) if self.counted else 1))

    def total(self):
        """How many voters approve each set of names."""
        counts = Counter()
        for approved, count in self.ballots:
            counts[frozenset(self.names[number] for number in approved)] += count
        return counts


class Sheet:
    """The cells of a table, with columns before and after those of the votes, and blank rows."""

    def __init__(self, draw, election, headings, cells):
        self.draw = draw
        before = [f"Time {draw.random()}", "Nr"][: draw.randint(0, 2)]
        after = ["Why?", "Sent by"][: draw.randint(0, 2)]
        counts = ["How many"] if election.counted else []
        self.first = len(before) + 1
        self.last = len(before) + len(headings)
        self.rows = [[*before, *headings, *counts, *after]]
        for at, (row, (_, count)) in enumerate(zip(cells, election.ballots)):
            others = [draw.choice(["because", "9:01, or so", "", "a\nb"]) for _ in after]
            self.rows.append([*([f"t{at}", f"n{at}"][: len(before)]), *row, *([count] * len(counts)), *others])
        self.blank = 0
        for _ in range(draw.choice([0, 0, 1, 3])):
            self.rows.insert(draw.randint(1, len(self.rows)), [""] * len(self.rows[0]))
            self.blank += 1
        self.words = ["--count=How many"] if counts else []
        if before and draw.random() < 0.5:
            self.words.append("--once=1")
        # A row without any entry is not a voter, so each voter has one.
        self.is_told_apart = bool(before or counts)

    def data(self):
        made = io.StringIO()
        separator = self.draw.choice(",;\t|")
        quoting = self.draw.choice([csv.QUOTE_MINIMAL, csv.QUOTE_ALL])
        end = self.draw.choice(["\n", "\r\n"])
        made.write(f"sep={separator}{end}")
        csv.writer(made, delimiter=separator, quoting=quoting, lineterminator=end).writerows(self.rows)
        return made.getvalue().encode(self.draw.choice(["utf-8", "utf-8-sig", "utf-16"]))


def marks(draw, election):
    """A column for each candidate, with marks."""
    yes, no = draw.choice(MARKS)
    while tool.plain(yes) in map(tool.plain, election.names) or tool.plain(no) in map(tool.plain, election.names):
        yes, no = draw.choice(MARKS)
    spelt = [yes, yes.upper(), f" {yes}"]
    headings = election.names
    if draw.random() < 0.5:
        headings = [f"Whom, if anybody? [{name}]" for name in election.names]
    cells = [
        [draw.choice(spelt) if number in approved else no for number in range(len(election.names))]
        for approved, _ in election.ballots
    ]
    sheet = Sheet(draw, election, headings, cells)
    sheet.words += [f"--columns={sheet.first}-{sheet.last}", f"--yes={yes}", *([f"--no={no}"] if no else [])]
    if not any(approved for approved, _ in election.ballots):
        sheet.words.remove(f"--yes={yes}")
    if all(len(approved) == len(election.names) for approved, _ in election.ballots) and no:
        sheet.words.remove(f"--no={no}")
    return sheet


def own_names(draw, election):
    """A column for each candidate, whose cells have its name, or nothing. A second row has the names."""
    cells = [
        [name if number in approved else "" for number, name in enumerate(election.names)]
        for approved, _ in election.ballots
    ]
    sheet = Sheet(draw, election, election.names, cells)
    sheet.words.append(f"--columns={sheet.first}-{sheet.last}")
    return sheet


def joined(draw, election):
    """One column of names."""
    joiner = draw.choice([";", "; ", " | ", "\n", ";"])
    cells = [[joiner.join(shuffled(draw, election, approved))] for approved, _ in election.ballots]
    sheet = Sheet(draw, election, ["Whom do you approve?"], cells)
    sheet.words.append("--list=Whom do you approve?")
    return sheet


def drop_downs(draw, election):
    """A column for each choice, with one name a cell."""
    width = max(len(approved) for approved, _ in election.ballots) or 1
    cells = []
    for approved, _ in election.ballots:
        row = shuffled(draw, election, approved) + [""] * (width - len(approved))
        draw.shuffle(row)
        cells.append(row)
    sheet = Sheet(draw, election, [f"Choice {number}" for number in range(1, width + 1)], cells)
    sheet.words += [f"--list=Choice {number}" for number in range(1, width + 1)]
    return sheet


def listed(draw, election):
    """One column or two of names that may have commas, joined by commas, with a file of all names."""
    columns = draw.randint(1, 2)
    cells = []
    for approved, _ in election.ballots:
        names = shuffled(draw, election, approved)
        at = draw.randint(0, len(names)) if columns == 2 else len(names)
        cells.append([", ".join(names[:at]), ", ".join(names[at:])][:columns])
    sheet = Sheet(draw, election, ["First", "Then"][:columns], cells)
    sheet.words += [f"--list={sheet.first}-{sheet.last}" if columns == 2 else f"--list={sheet.first}"]
    return sheet


def shuffled(draw, election, approved):
    names = [election.names[number] for number in approved]
    draw.shuffle(names)
    return names


def read(ballots):
    """How many voters approve each set of names, and the names, by a ballot file."""
    names = re.findall(r"^# ALTERNATIVE NAME \d+: (.*)$", ballots, re.MULTILINE)
    counts = Counter()
    for count, yes in re.findall(r"^(\d+): \{([\d,]*)\},\{[\d,]*\}$", ballots, re.MULTILINE):
        counts[frozenset(names[int(number) - 1] for number in yes.split(",") if number)] += int(count)
    return counts, names


class RandomTables(unittest.TestCase):
    def tried(self, seed):
        """Converts a table, and compares it with the election that it was made of. Returns whether it was converted."""
        draw = random.Random(seed)
        form = draw.choice([marks, own_names, joined, drop_downs, listed])
        election = Election(draw, comma=form is listed)
        sheet = form(draw, election)
        options = tool.options_of(sheet.words)
        said = ""
        try:
            if form is listed:
                with unittest.mock.patch.object(tool, "bytes_of", lambda _: "\n".join(election.names).encode()):
                    options.candidates = "all.txt"
                    ballots, said = tool.converted(sheet.data(), options)
            else:
                ballots, said = tool.converted(sheet.data(), options)
        except tool.Refused as why:
            return self.may_be_refused(str(why), election, sheet)
        counts, names = read(ballots)
        wanted = election.total()
        if not sheet.is_told_apart:
            empty = wanted.pop(frozenset(), 0)
            self.assertLessEqual(counts.pop(frozenset(), 0), empty)
        self.assertEqual(counts, wanted)
        self.check_summary(said, election, sheet, names)
        return True

    def may_be_refused(self, why, election, sheet):
        """A refusal has a reason that a person would accept."""
        nobody = not any(approved for approved, _ in election.ballots)
        reasons = {
            "has no voter": nobody and not sheet.is_told_apart,
            "has a name": nobody,
            "looks like a row of totals": len(election.ballots) > 2,
            "holds the name": True,
            "no cell is marked": nobody,
            "has the names of all columns of the votes": sheet.first == 1,
            "may name the columns, or be a voter": sheet.first < sheet.last,
        }
        self.assertTrue([reason for reason, holds in reasons.items() if holds and reason in why], why)
        return False

    def check_summary(self, said, election, sheet, names):
        for name in names:
            number = election.names.index(name)
            count = sum(count for approved, count in election.ballots if number in approved)
            self.assertRegex(said, rf"(?m)^ +{count}  for {re.escape(tool.printable(name))}$")
        unread = {heading for heading in sheet.rows[0] if heading.startswith(("Time", "Nr", "Why?", "Sent by"))}
        if any("--once" in word for word in sheet.words):
            unread.discard(sheet.rows[0][0])
        line = "".join(line for line in said.splitlines() if line.startswith("  not read: "))
        self.assertEqual(line.count("("), len(unread), said)
        for heading in unread:
            self.assertIn(f"({heading})", line)

    def test_random_tables(self):
        converted = 0
        for seed in range(SEED * 10**6, SEED * 10**6 + TABLES):
            with self.subTest(seed=seed):
                converted += self.tried(seed)
        self.assertGreater(converted, TABLES * 0.9)


if __name__ == "__main__":
    unittest.main()
