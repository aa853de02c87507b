"""Tests of the numbers on pages of report_election: each is counted again from the ballots, by the definitions. Only the
names of rules and what they mean come from the tool."""
import csv
import itertools
import math
import os
import random
import re
import subprocess
import sys
import unittest
from collections import Counter
from fractions import Fraction
from html.parser import HTMLParser

HERE = os.path.dirname(os.path.realpath(__file__))
TOP = os.path.dirname(HERE)
sys.path.insert(0, HERE)
from test_tables import module_of  # noqa: E402

PAGES = os.path.join(TOP, "tests", "pages")
TOOL = module_of("report_election")
LINES = ("p", "li", "h1", "h2", "h3", "caption", "th", "td", "pre", "figcaption", "title", "desc", "text")
VOID = ("meta", "br", "rect", "path")


class Seen(HTMLParser):
    """What a reader sees of a page: the tables by their captions, the other lines, and those of its pictures."""

    def __init__(self, page):
        super().__init__()
        self.tables, self.lines, self.drawn, self.bars = [], [], [], []
        self.open, self.words, self.rows = [], [], []
        self.feed(page)

    def handle_starttag(self, tag, attributes):
        self.bars += re.findall(r"width:([0-9.]+)%", dict(attributes).get("style") or "")
        if tag in LINES and not (tag == "p" and "td" in self.open):
            self.words.append([])
        if tag not in VOID:
            self.open.append(tag)
        if tag == "table":
            self.rows: list = []
        if tag == "tr" and "thead" not in self.open:
            self.rows.append([])

    def handle_startendtag(self, tag, attributes):
        pass

    def handle_endtag(self, tag):
        self.open.pop()
        if tag not in LINES or (tag == "p" and "td" in self.open):
            return
        line = " ".join("".join(self.words.pop()).split()) if tag != "pre" else "".join(self.words.pop())
        if tag == "caption":
            self.tables.append((line, self.rows))
        elif tag in ("th", "td"):
            (self.rows[-1] if "thead" not in self.open else self.lines).append(line)
        elif "svg" in self.open:
            self.drawn.append(line)
        else:
            self.lines.append(line)

    def handle_data(self, words):
        if self.words and "style" not in self.open:
            self.words[-1].append(words)


def percent(part, whole):
    return f"{int(Fraction(1000 * part, whole) + Fraction(1, 2)) / 10:.1f} %"


def listed(names):
    return " and ".join(filter(None, [", ".join(names[:-1]), names[-1]]))


def plural(count, word):
    return f"{count:,} {word}{'s' * (count != 1)}"


def shown(value):
    """A fraction, and beside it a decimal number."""
    if value.denominator == 1:
        return f"{value.numerator:,}"
    near = int(value * 1000 + Fraction(1, 2))
    about = "" if Fraction(near, 1000) == value else "about "
    return f"{value} ({about}{f'{near / 1000:,.3f}'.rstrip('0').rstrip('.')})"


class Recount:
    """An election, from the text of its ballot file."""

    def __init__(self, text, size):
        found = dict(re.findall(r"^# ALTERNATIVE NAME (\d+): (.*)$", text, re.MULTILINE))
        self.m = int(re.search(r"^# NUMBER ALTERNATIVES: (\d+)$", text, re.MULTILINE)[1])
        names = [found.get(str(number), "") for number in range(1, self.m + 1)]
        self.names = [
            (f"{name} ({number})" if names.count(name) > 1 else name) if name else f"candidate {number}"
            for number, name in enumerate(names, 1)
        ]
        self.rows = Counter()
        for count, several, one in re.findall(r"^(\d+): *(?:\{([\d,]*)\}|(\d+))?", text, re.MULTILINE):
            self.rows[frozenset(map(int, filter(None, (several or one).split(","))))] += int(count)
        self.n = sum(self.rows.values())
        self.size = size
        self.committees = list(itertools.combinations(range(1, self.m + 1), size))

    def called(self, numbers):
        return listed([self.names[number - 1] for number in sorted(numbers)])

    def hits(self, committee):
        counts = Counter()
        for ballot, voters in self.rows.items():
            counts[len(ballot & set(committee))] += voters
        return counts

    def value(self, rule, committee):
        if rule == "minimax":
            return -max(len(ballot ^ set(committee)) for ballot in self.rows)
        if rule == "sav":
            return sum(
                voters * Fraction(len(ballot & set(committee)), len(ballot))
                for ballot, voters in self.rows.items()
                if ballot
            )
        adds = {
            "av": lambda x: Fraction(1),
            "pav": lambda x: Fraction(1, x),
            "cc": lambda x: Fraction(x == 1),
            **{f"geom{p}": lambda x, p=p: Fraction(1, p ** (x - 1)) for p in (2, 3, 4)},
        }[rule]
        return sum(
            (voters * sum(map(adds, range(1, hits + 1)), Fraction()) for hits, voters in self.hits(committee).items()),
            Fraction(),
        )

    def chosen(self, rule):
        """The winners of a sequential rule: each tied choice is followed."""
        everyone, down = frozenset(range(1, self.m + 1)), rule == "revseqpav"
        sets = {everyone if down else frozenset()}
        for _ in range(self.m - self.size if down else self.size):
            following = set()
            for members in sets:
                tried = {(members ^ {one}): None for one in (members if down else everyone - members)}
                values = {new: self.value("cc" if rule == "seqcc" else "pav", new) for new in tried}
                following |= {new for new in values if values[new] == max(values.values())}
            sets = following
        return sorted(tuple(sorted(members)) for members in sets)

    def winners(self, rule):
        """The best value, or None, and all committees that have it."""
        if rule in ("seqpav", "seqcc", "revseqpav"):
            return None, self.chosen(rule)
        values = {committee: self.value(rule, committee) for committee in self.committees}
        best = max(values.values())
        return best, [committee for committee in self.committees if values[committee] == best]

    def violation(self, property, committee):
        """The group that a committee leaves out, in words, or None."""
        k, members = self.size, set(committee)
        outside = sorted(set(range(1, self.m + 1)) - members)
        for level in range(1, k + 1 if property != "jr" else 2):
            lists = (
                [(one,) for one in outside]
                if property == "ejrplus"
                else itertools.combinations(range(1, self.m + 1), level)
            )
            for shared in lists:
                withins = itertools.combinations(sorted(members), level - 1) if property == "pjr" else [None]
                for within in withins:
                    voters = 0
                    for ballot, count in self.rows.items():
                        own = ballot & members
                        is_few = len(own) < level if within is None else own <= set(within)
                        voters += count * (ballot >= set(shared) and is_few)
                    if voters and voters * k >= level * self.n:
                        return self.group(level, shared, within, voters)
        return None

    def group(self, level, shared, within, voters):
        first = f"{voters:,} of {plural(self.n, 'voter')} approve {self.called(shared)}: they deserve {level} of {plural(self.size, 'seat')}."
        if within is not None:
            return f"{first} Of the committee they approve only {self.called(within) if within else 'nobody'}."
        if level == 1:
            return f"{first} None of them approves a member of the committee."
        return f"{first} None of them approves {level} members of the committee."


# ---- what a page of an election has to say


def tie_words(ties, limit):
    return f"more than {limit:,}" if len(ties) > limit else f"{len(ties):,}"


def approvals_table(election):
    counts = {one: sum(n for ballot, n in election.rows.items() if one in ballot) for one in range(1, election.m + 1)}
    rows = [
        [election.names[one - 1], str(one), f"{count:,}", percent(count, election.n)]
        for one, count in sorted(counts.items(), key=lambda item: (-item[1], item[0]))
    ]
    return "The voters who approve each candidate, most approved first", rows


def sits_in(ties, one):
    return sum(one in committee for committee in ties)


def comparison_table(election, winners, limit):
    rows = [["Committees", *(tie_words(ties, limit) for _, ties in winners.values())]]
    for one in range(1, election.m + 1):
        cells = []
        for _, ties in winners.values():
            number = sits_in(ties, one)
            cell = "all" if number == len(ties) else f"{number:,} of {len(ties):,}" if number else "none"
            cells.append("not counted" if len(ties) > limit else cell)
        rows.append([election.names[one - 1], *cells])
    return "In how many of the winning committees by each rule each candidate sits", rows


def tie_tables(election, ties, limit, is_only_rule):
    if len(ties) == 1:
        return []
    found = []
    if is_only_rule and len(ties) <= limit:
        numbers = {one: sits_in(ties, one) for one in range(1, election.m + 1)}
        rows = [
            [
                election.names[one - 1],
                str(one),
                f"{number:,}",
                "all" if number == len(ties) else "some" if number else "none",
            ]
            for one, number in sorted(numbers.items(), key=lambda item: (-item[1], item[0]))
        ]
        found.append((f"In how many of the {len(ties):,} committees each candidate sits", rows))
    first = ties[:20]
    caption = f"The {len(ties):,} committees that tie"
    if len(ties) > min(20, limit):
        caption = f"The first {min(20, limit)} of {tie_words(ties, limit)} committees that tie"
    rows = [[str(place), ", ".join(map(str, tie)), election.called(tie)] for place, tie in enumerate(first[:limit], 1)]
    return [*found, (caption, rows)]


def committee_tables(election, committee):
    hits = election.hits(committee)
    numbers = ",".join(map(str, committee))
    rows = [[str(x), f"{hits[x]:,}", percent(hits[x], election.n)] for x in range(max(hits) + 1)]
    found = [(f"How many members of the committee {numbers} the voters approve", rows)]
    rows = []
    for property, name in TOOL.SHORT_NAMES.items():
        group = election.violation(property, committee)
        rows.append([name, "violated" if group else "holds", group or "No group of voters is left out."])
    return [*found, (f"Whether the committee {numbers} represents groups of voters", rows)]


def value_words(rule, value, is_tie):
    if value is None:
        return "" if is_tie else " No other committee wins."
    if rule == "minimax":
        from_each = "each of them" if is_tie else "it"
        rest = "" if is_tie else "; from any other it is larger"
        return f" The maximum distance of a voter from {from_each} is {-value}{rest}."
    if is_tie:
        return f" Each of them has the score {shown(value)}."
    return f" The score of this committee is {shown(value)}, and no other one reaches it."


class Expected:
    """The tables and the lines with digits of a page, in order."""

    def __init__(self, election, rules, limit=10_000, committee=None):
        self.election, self.limit, self.committee = election, limit, committee
        self.winners = {rule: election.winners(rule) for rule in rules}
        self.explained = list(dict.fromkeys(tie for _, ties in self.winners.values() for tie in ties[: min(5, limit)]))
        self.explained = [tuple(committee)] if committee else self.explained

    def tables(self):
        election, winners = self.election, self.winners
        found = [approvals_table(election)]
        if len(winners) > 1:
            found.append(comparison_table(election, winners, self.limit))
        for _, ties in winners.values():
            found += tie_tables(election, ties, self.limit, len(winners) == 1)
        for committee in self.explained:
            found += committee_tables(election, committee)
        return found

    def facts(self):
        rows = self.election.rows
        blank = rows[frozenset()]
        return {
            "Seats": str(self.election.size),
            "Voters": f"{self.election.n:,}",
            "Different ballots": str(len(+rows)),
            "Blank ballots": f"{blank:,} (a blank ballot approves nobody, and counts as a voter)" if blank else "0",
            "Candidates": str(self.election.m),
        }

    def lines(self):
        """The lines with digits that are not in tables."""
        k = self.election.size
        found = [*self.heading(), *self.winning(), *self.first_five()]
        found.append(
            f"A group of voters deserves L of the {k} seats if it makes up at least L/{k} of all voters and all of them"
            " approve the same L candidates."
        )
        for committee in self.explained:
            rules = listed([rule for rule, (_, ties) in self.winners.items() if committee in ties])
            found += [self.election.called(committee), f"The committee wins by {rules}."]
        found += [f"{self.election.called(committee)}, by {rule}" for committee, rule in self.pictures().items()]
        return Counter(line for line in found if re.search("[0-9]", line))

    def heading(self):
        """The heading of the part about voters, which stands in the contents as well."""
        first_ties = next(iter(self.winners.values()))[1]
        if len(self.winners) > 1 or len(self.explained) == 1:
            return []
        which = f"the first {min(5, self.limit)} of " if len(first_ties) > min(5, self.limit) else "the "
        return 2 * [f"What {which}{tie_words(first_ties, self.limit)} tied committees mean for the voters"]

    def winning(self):
        for rule, (value, ties) in self.winners.items():
            if len(self.winners) > 1:
                yield from (rule, f"By {TOOL.RULES[rule][0]} ({rule})")
            if len(ties) == 1:
                win = "win the seats" if self.election.size > 1 else "wins the seat"
                yield f"{self.election.called(ties[0])} {win}.{value_words(rule, value, False)}"
            else:
                count = tie_words(ties, self.limit)
                yield f"{count[0].upper()}{count[1:]} committees tie.{value_words(rule, value, True)}"
                yield f"The rule {rule} does not choose among them. {TOOL.LOT}"

    def first_five(self):
        for rule, (_, ties) in self.winners.items():
            if len(ties) > min(5, self.limit) and not self.committee:
                count = tie_words(ties, self.limit)
                yield f"Of the {count} committees that tie by {rule}, these are the first {min(5, self.limit)}."

    def pictures(self):
        """The committees that are drawn, each with its rule."""
        drawn = {}
        for rule, (_, ties) in self.winners.items():
            if not self.committee or tuple(self.committee) in ties:
                drawn.setdefault(tuple(self.committee or ties[0]), rule)
        return drawn

    def drawn(self, rule, committee):
        """The lines of a picture with at most 40 groups: its title, its description, and others."""
        election = self.election
        value, ties = self.winners[rule]
        words = (
            "" if value is None else f" at a distance of {-value}" if rule == "minimax" else f" with the score {value}"
        )
        names = [name_in_picture(election, one) for one in range(1, election.m + 1)]
        members = [names[one - 1] for one in committee]
        said = [f"{rule}, {plural(len(committee), 'seat')}: {listed(members)}{words}."]
        if len(ties) > 1:
            count = tie_words(ties, self.limit)
            this = "the first" if tuple(committee) == ties[0] else "the one asked for"
            said.append(f"{count[0].upper()}{count[1:]} committees tie; this is {this}.")
        out = election.hits(committee)[0]
        if out:
            said.append(f"{out:,} of {plural(election.n, 'voter')} approve no member of the committee.")
        lines = [plural(count, "voter") for count in election.rows.values()]
        lines += [count for _, _, count, _ in approvals_table(election)[1]]
        lines += [str(one) for one in range(1, election.m + 1)]
        lines += [name for one, name in enumerate(names, 1) if name != str(one)]
        title = f"The candidates that each voter approves, and the committee {', '.join(members)}"
        return title, " ".join(said), Counter(lines)


def name_in_picture(election, one):
    name = election.names[one - 1]
    return str(one) if name == f"candidate {one}" else name.removesuffix(f" ({one})")


# ---- what a page of seats has to say


class Sharing:
    """The seats of parties, from their votes."""

    def __init__(self, votes, method, seats, names=None):
        self.votes, self.method, self.seats = votes, method, seats
        self.names = names or [f"Party {party}" for party in range(1, len(votes) + 1)]
        cuts = itertools.combinations_with_replacement(range(seats + 1), len(votes) - 1)
        every = {tuple(b - a for a, b in zip((0, *cut), (*cut, seats))) for cut in cuts}
        self.fair = sorted(filter(self.is_fair, every))

    def quotient(self, votes, seats):
        """The square of the votes by the divisor, or the votes above all squares."""
        divisors = {
            "dhondt": Fraction(seats + 1) ** 2,
            "saintelague": Fraction(2 * seats + 1) ** 2,
            "huntington": Fraction(seats * (seats + 1)),
            "adams": Fraction(seats) ** 2,
            "dean": Fraction(2 * seats * (seats + 1), 2 * seats + 1) ** 2,
        }
        square = divisors[self.method]
        return Fraction(votes) ** 2 / square if square else 10**30 + votes

    def quota(self, party):
        return Fraction(self.votes[party] * self.seats, sum(self.votes))

    def is_fair(self, seats):
        parties = range(len(self.votes))
        if any(seats[party] and not self.votes[party] for party in parties):
            return False
        if self.method == "hamilton":
            rests = [self.quota(party) - seats[party] for party in parties]
            downs = [rest for rest in rests if 0 <= rest < 1]
            ups = [rest + 1 for rest in rests if -1 < rest < 0]
            return len(downs) + len(ups) == len(rests) and (not downs or not ups or max(downs) <= min(ups))
        lasts = [self.quotient(self.votes[party], seats[party] - 1) for party in parties if seats[party]]
        nexts = [self.quotient(self.votes[party], seats[party]) for party in parties if self.votes[party]]
        return min(lasts) >= max(nexts)

    def shown(self, square):
        if square > 10**30:
            return f"that of a first seat with {plural(square - 10**30, 'vote')}"
        near = (math.isqrt(4_000_000 * square.numerator // square.denominator) + 1) // 2
        about = "" if Fraction(near, 1000) ** 2 == square else "about "
        return about + f"{near / 1000:,.3f}".rstrip("0").rstrip(".")

    def tables(self):
        total = sum(self.votes)
        rows = []
        for party, votes in enumerate(self.votes):
            found = sorted({seats[party] for seats in self.fair})
            words = {1: "{0}", 2: "{0} or {1}"}.get(len(found), "{0} to {1}").format(found[0], found[-1])
            rows.append([self.names[party], f"{votes:,}", percent(votes, total), words])
        return [("Votes and seats of each party", rows), *self.ties(), self.decided()]

    def ties(self):
        if len(self.fair) == 1:
            return []
        first = self.fair[:20]
        whole = len(first) == len(self.fair)
        caption = f"The {'' if whole else 'first '}{len(first)} {'' if whole else 'of the '}allocations that tie"
        differ = [party for party in range(len(self.votes)) if len({seats[party] for seats in first}) > 1]
        rows = [
            [str(place), listed([f"{self.names[party]}: {seats[party]}" for party in differ])]
            for place, seats in enumerate(first, 1)
        ]
        return [(caption, rows)]

    def decided(self):
        seats = self.fair[0]
        which = "the allocation" if len(self.fair) == 1 else "the first allocation"
        rows = []
        for party, votes in enumerate(self.votes):
            if self.method == "hamilton":
                whole = int(self.quota(party))
                rest = self.quota(party) - whole
                quota = self.shown(self.quota(party) ** 2)
                rows.append([self.names[party], quota, str(whole), shown(rest), str(seats[party])])
            else:
                last = self.shown(self.quotient(votes, seats[party] - 1)) if seats[party] else "none"
                following = self.shown(self.quotient(votes, seats[party])) if votes else "none"
                cells = ["first seat" if "first" in cell else cell for cell in (last, following)]
                rows.append([self.names[party], str(seats[party]), *cells])
        if self.method == "hamilton":
            return f"The quotas, and the seats in {which}", rows
        return f"The quotients of {which}", rows

    def lines(self):
        seats, parties = self.fair[0], range(len(self.votes))
        found = []
        if len(self.fair) > 1:
            found.append(f"{len(self.fair)} allocations tie.")
        if self.method == "hamilton":
            up = {
                party: self.quota(party) - int(self.quota(party))
                for party in parties
                if seats[party] > self.quota(party)
            }
            down = {party: self.quota(party) - seats[party] for party in parties if party not in up}
            left = "is" if len(up) == 1 else "are"
            words = f"After the whole parts of the quotas, {plural(len(up), 'seat')} {left} left for the largest remainders. "
            return Counter([*found, words + self.last("remainder", up, down, shown)] if up else found)
        lasts = {party: self.quotient(self.votes[party], seats[party] - 1) for party in parties if seats[party]}
        nexts = {party: self.quotient(self.votes[party], seats[party]) for party in parties if self.votes[party]}
        return Counter([*found, self.last("quotient", lasts, nexts, self.shown)])

    def last(self, word, having, wanting, show):
        """What decided on the last seat."""
        low, high = min(having.values()), max(wanting.values())
        winner = listed([self.names[party] for party in having if having[party] == low])
        loser = listed([self.names[party] for party in wanting if wanting[party] == high])
        if low == high:
            return f"{winner} has a seat for the {word} {show(low)}, and {loser} none for the same: this is the tie."
        return (
            f"The lowest {word} with a seat is {show(low)}, of {winner}. The highest {word} without a seat is"
            f" {show(high)}, of {loser}."
        )


# ---- the tests


def made(*words, text=b""):
    """A page."""
    run = subprocess.run(
        [sys.executable, os.path.join(HERE, "report_election"), *words], input=text, capture_output=True
    )
    assert (run.returncode, run.stderr) == (0, b""), run.stderr.decode()
    return run.stdout.decode()


def ballots(draw, candidates, voters, blanks=0):
    """The text of a random ballot file. Some candidates have no name, or that of another."""
    names = [draw.choice(["", "Ada", f"Candidate {one}", f"<Zoë> & {one}"]) for one in range(candidates)]
    lines = ["# DATA TYPE: cat", f"# NUMBER ALTERNATIVES: {candidates}"]
    lines += [f"# ALTERNATIVE NAME {one}: {name}" for one, name in enumerate(names, 1)]
    for _ in range(voters):
        approved = [str(one) for one in range(1, candidates + 1) if draw.random() < 0.35]
        lines.append(f"{draw.choice((1, 1, 2, 1500))}: {{{','.join(approved)}}}")
    return "\n".join([*lines, *["3: {}"] * blanks, ""])


class Recounts(unittest.TestCase):
    maxDiff = None

    def assert_election(self, page, expected, more_lines=()):
        """The numbers of the page of an election are those that are expected, and there are no others."""
        seen = Seen(page)
        asked, _, *others = [table for table in seen.tables if not table[0].startswith("Four properties")]
        self.assertEqual({name: value for name, value in asked[1] if name in expected.facts()}, expected.facts())
        self.assertEqual([seen.tables[1], *others[:-1]], expected.tables())
        self.assert_lines(seen, expected.lines() + Counter(more_lines))
        shares = [row[-1] for _, rows in expected.tables() for row in rows if row[-1].endswith(" %")]
        self.assertEqual([f"{width} %" for width in seen.bars], shares)
        drawn = Counter(seen.drawn)
        for committee, rule in expected.pictures().items():
            title, words, lines = expected.drawn(rule, committee)
            self.assertLessEqual({title, words}, {*seen.drawn})
            drawn -= Counter([title, words, "approvals", "approves", "on the committee", "approves no member"]) + lines
        # What is left are the sentences, cut into lines.
        self.assertEqual(len([*drawn.elements()]) > 0, True)
        for line in drawn:
            self.assertTrue(
                any(line in expected.drawn(rule, one)[1] for one, rule in expected.pictures().items()), line
            )

    def assert_lines(self, seen, expected):
        """The lines with digits, but those of the record, and the title."""
        found = [line for line in seen.lines if re.search("[0-9]", line) and "\n" not in line]
        self.assertEqual(Counter(found), expected)

    def assert_sharing(self, page, sharing):
        seen = Seen(page)
        self.assertEqual(seen.tables[1:-1], sharing.tables())
        self.assert_lines(seen, sharing.lines())
        facts = dict(seen.tables[0][1])
        self.assertEqual(facts["Seats"], f"{sharing.seats:,}")
        self.assertEqual((facts["Parties"], facts["Votes"]), (str(len(sharing.votes)), f"{sum(sharing.votes):,}"))

    def stored(self, name):
        with open(os.path.join(PAGES, name), encoding="utf-8") as file:
            return file.read()

    def test_the_page_of_the_board(self):
        with open(os.path.join(TOP, "examples", "board.cat"), encoding="utf-8") as file:
            expected = Expected(Recount(file.read(), 3), ["pav"])
        self.assert_election(self.stored("board.html"), expected, ["29 November 2026"])

    def test_the_page_of_an_export(self):
        with open(os.path.join(PAGES, "export.csv"), encoding="utf-8") as file:
            ticked = [row["Choice"].split(", ") if row["Choice"] else [] for row in csv.DictReader(file)]
        names = list(dict.fromkeys(name for row in ticked for name in row))
        lines = [f"# NUMBER ALTERNATIVES: {len(names)}"]
        lines += [f"# ALTERNATIVE NAME {number}: {name}" for number, name in enumerate(names, 1)]
        lines += [f"1: {{{','.join(str(names.index(name) + 1) for name in row)}}}" for row in ticked]
        election = Recount("\n".join(lines), 2)
        page = self.stored("export.html")
        self.assert_election(page, Expected(election, ["av", "pav", "cc"]))
        # The summary of the conversion.
        summary = next(line for line in Seen(page).lines if line.startswith("table_to_cat: "))
        sums = {name: int(count) for count, name in re.findall("^ *([0-9]+)  for (.*)$", summary, re.MULTILINE)}
        self.assertEqual(sums.pop("no candidate (row 10)"), sum(not row for row in ticked))
        self.assertEqual(sums, {name: sum(name in row for row in ticked) for name in names})
        self.assertEqual(summary.splitlines()[0], f"table_to_cat: {len(ticked)} voters, {len(names)} candidates")

    def test_the_page_of_parties(self):
        sharing = Sharing([53, 24, 23], "dhondt", 7, ["Greens", "Blues", "Greys"])
        self.assert_sharing(self.stored("parties.html"), sharing)

    def test_random_elections(self):
        for seed, rules in enumerate(
            [["av"], ["pav"], ["cc"], ["minimax"], ["sav", "geom2"], ["seqcc", "revseqpav", "seqpav"]]
        ):
            draw = random.Random(seed)
            candidates = draw.randint(2, 7)
            size = draw.randint(1, candidates)
            text = ballots(draw, candidates, draw.randint(1, 12), draw.choice((0, 1)))
            words = [word for rule in rules for word in ("--rule", rule)]
            page = made(*words, f"--size={size}", text=text.encode())
            with self.subTest(seed=seed, text=text, size=size, rules=rules):
                self.assert_election(page, Expected(Recount(text, size), rules))

    def test_random_seats(self):
        for seed, method in enumerate(TOOL.METHODS):
            draw = random.Random(seed)
            votes = [draw.choice((0, 1, 2, 3, 50, 120, 1000)) for _ in range(draw.randint(1, 4))]
            votes[0] = votes[0] or 7
            seats = draw.randint(1, 9)
            page = made("--method", method, "--seats", str(seats), "--votes", ",".join(map(str, votes)))
            with self.subTest(method=method, votes=votes, seats=seats):
                self.assert_sharing(page, Sharing(votes, method, seats))


if __name__ == "__main__":
    unittest.main()
