"""Tests of scores, approvals and analyses. The program is their measure: winners have the score that it prints."""
import io
import itertools
import os
import pathlib
import random
import sys
import tempfile
import threading
import unittest
from concurrent.futures import ThreadPoolExecutor
from fractions import Fraction

HERE = os.path.dirname(os.path.realpath(__file__))
sys.path.insert(0, HERE)
import committees  # noqa: E402
from committees import Check, analyze, approvals, check, elect, score  # noqa: E402
from test_answers import BALLOTS, BOARD, SONGS, Profile, Voter  # noqa: E402

NAMED = [({"Ada", "Ben"}, 7), {"Ben"}]
FROM_0 = Profile([Voter({0, 1, 2}, 7), Voter({3, 4}, 2), Voter({5})])
WALKS = os.path.join(os.path.dirname(BOARD), "walks.soc")
RULES = "av pav cc geom2 geom3 geom4 sav minimax".split()


def random_election(draw):
    """Ballots with their numbers of voters, some of them empty, the number of candidates, and a size."""
    candidates = draw.randint(2, 6)
    share = draw.choice([0.2, 0.5, 0.8])
    sets = [{n for n in range(1, candidates + 1) if draw.random() < share} for _ in range(draw.randint(1, 9))]
    return [(ballot, draw.randint(1, 4)) for ballot in sets], candidates, draw.randint(1, min(4, candidates))


class Scores(unittest.TestCase):
    def test_each_rule(self):
        # Seven voters approve two members, one voter approves one of three, and two voters approve one of one.
        ballots = [({1, 2, 3, 4}, 7), ({1, 5, 6}, 1), ({2}, 2)]
        for rule, value in [
            ("av", Fraction(17)),
            ("pav", Fraction(27, 2)),
            ("cc", Fraction(10)),
            ("geom2", Fraction(27, 2)),
            ("geom3", Fraction(37, 3)),
            ("geom4", Fraction(47, 4)),
            ("sav", Fraction(35, 6)),
            ("minimax", 3),
            ("MinimaxAV", 3),
        ]:
            found = score(ballots, rule, {1, 2})
            self.assertEqual((found, type(found)), (value, type(value)), rule)
        # three members
        self.assertEqual(score([({1, 2, 3}, 6)], "pav", [3, 1, 2]), 11)
        self.assertEqual(score([({1, 2, 3}, 36)], "geom3", [3, 1, 2]), 52)

    def test_random_elections(self):
        """The winners of 300 elections have the score of the program, and in every tenth no other committee has it."""
        draw = random.Random(82)
        elections = [random_election(draw) for _ in range(300)]

        def scores(task):
            number, rule = task
            ballots, candidates, size = elections[number]
            answers = elect(ballots, rule, size, candidates=candidates)
            value = answers.distance if rule == "minimax" else answers.score
            winners = answers.all()
            found = {winner: score(ballots, rule, winner, candidates=candidates) for winner in winners}
            self.assertEqual(set(found.values()), {value}, (ballots, rule, size))
            if number % 10 == 0:
                every = [frozenset(some) for some in itertools.combinations(range(1, candidates + 1), size)]
                every_score = {some: score(ballots, rule, some, candidates=candidates) for some in every}
                best = (min if rule == "minimax" else max)(every_score.values())
                self.assertEqual([some for some in every if every_score[some] == best], winners, (ballots, rule, size))
            return len(winners)

        with ThreadPoolExecutor(2) as pool:
            winners = list(pool.map(scores, itertools.product(range(300), RULES)))
        self.assertEqual(len(winners), 2400)
        self.assertGreater(sum(winners), 5000)

    def test_profiles(self):
        text = pathlib.Path(BOARD).read_bytes()
        for profile in (
            BOARD,
            pathlib.Path(BOARD),
            text,
            io.BytesIO(text),
            BALLOTS,
            iter(BALLOTS),
            {frozenset(ballot): voters for ballot, voters in BALLOTS},
        ):
            self.assertEqual(score(profile, "pav", {1, 2, 4}), Fraction(25, 2))
        self.assertEqual(score(FROM_0, "pav", {0, 1, 3}), Fraction(25, 2))
        self.assertEqual(score(NAMED, "cc", {"Ada"}), 7)
        self.assertEqual(score(NAMED, "minimax", {"Ada"}), 2)
        self.assertEqual(score([{1}], "av", {2}, candidates=2), 0)
        self.assertEqual(score([({1}, 2), (set(), 5)], "sav", {1}), 2)

    def test_ways(self):
        for options in ({}, {"setsize": 2}, {"classes": 2}, {"classes": 1, "kind": "toi"}):
            for answers in (elect(SONGS, "pav", 2, **options), elect(SONGS, "pav", 3, **options)):
                winner = next(answers)
                self.assertEqual(score(SONGS, "pav", winner, **options), answers.score, options)
        self.assertEqual(score(BOARD, "av", {6}, category=2), elect(BOARD, "av", 1, category=2).score)
        # the type is that of the extension
        self.assertEqual(
            [score(WALKS, "av", {candidate}) for candidate in (1, 2, 3, 4)], list(approvals(WALKS).values())
        )

    def test_the_type_of_a_file(self):
        ballots = b"# NUMBER ALTERNATIVES: 3\n2: 2,1\n1: 3\n"
        with tempfile.TemporaryDirectory() as room:
            path = os.path.join(room, "votes.cat")
            # The line goes before the extension, the last of two lines counts, and `kind` goes before all.
            for text, options in [
                (b"# data type: soi\n", {}),
                (b"# DATA TYPE: cat\n# DATA TYPE: SOI\n", {}),
                (b"", {"kind": "soi"}),
            ]:
                pathlib.Path(path).write_bytes(text + ballots)
                self.assertEqual(approvals(path, setsize=2, **options), {1: 2, 2: 2, 3: 1})
                self.assertEqual(elect(path, "av", 1, setsize=2, **options).score, 2)

    def test_a_pipe_keeps_its_type(self):
        with tempfile.TemporaryDirectory() as room:
            path = os.path.join(room, "votes.soi")
            os.mkfifo(path)
            text = b"# NUMBER ALTERNATIVES: 3\n2: 2,1\n1: 3\n"
            for call in (
                lambda: score(path, "av", [2]),
                lambda: approvals(path)[2],
                lambda: elect(path, "av", 1, names=True).score,
            ):
                threading.Thread(target=pathlib.Path(path).write_bytes, args=[text], daemon=True).start()
                self.assertEqual(call(), 2)
            path = os.path.join(room, "votes.cat")
            os.mkfifo(path)
            text = b"# NUMBER ALTERNATIVES: 2\n2: {},{1}\n"
            threading.Thread(target=pathlib.Path(path).write_bytes, args=[text], daemon=True).start()
            self.assertEqual(approvals(path), {1: 0, 2: 0})

    def test_refusals(self):
        for rule in ("seqpav", "seqcc", "revseqpav", "SeqPAV"):
            with self.assertRaisesRegex(ValueError, f"^{rule.lower()} has no score: its winners come from a sequence"):
                score(BALLOTS, rule, {1})
        for committee, why in [
            ({9}, "^committee: candidate 9 is not in the profile$"),
            ({1, 7}, "^committee: candidate 7 is not in the profile$"),
            ({0}, "^committee: 0 is not a candidate"),
            ([1, 1], "^committee: candidate 1 stands there twice$"),
            ("Ada", "^committee: 'Ada' is not a set of candidates$"),
        ]:
            with self.assertRaisesRegex(ValueError, why):
                score(BALLOTS, "av", committee)
        with self.assertRaisesRegex(ValueError, "^committee: candidate 6 is not in the profile$"):
            score(FROM_0, "av", {6})
        with self.assertRaisesRegex(ValueError, "^'borda' is not a rule: the rules with a score are av, .*minimax$"):
            score(BALLOTS, "borda", {1})
        with self.assertRaisesRegex(ValueError, "^ballot 2: candidate 4 is not one of the 3 candidates$"):
            score([{1}, {4}], "av", {1}, candidates=3)
        for profile in ([], [({1}, 0)]):
            with self.assertRaisesRegex(ValueError, "^there are no voters$"):
                score(profile, "minimax", {1})
        with self.assertRaises(FileNotFoundError):
            score("no-such-file.cat", "av", {1})
        with self.assertRaisesRegex(committees.InputRefused, "input line 3: BadBallot"):
            score(b"# DATA TYPE: cat\n# NUMBER ALTERNATIVES: 2\n1: 1 2\n", "av", {1})
        with self.assertRaises(committees.NoProgram):
            score(BOARD, "av", {1}, program="/no/such/program")


class Approvals(unittest.TestCase):
    def test_mappings(self):
        self.assertEqual(list(approvals(BOARD).items()), [(1, 7), (2, 7), (3, 7), (4, 2), (5, 2), (6, 1)])
        self.assertEqual(list(approvals(FROM_0).items()), [(0, 7), (1, 7), (2, 7), (3, 2), (4, 2), (5, 1)])
        self.assertEqual(approvals([{2}, {2}, (set(), 3)], candidates=3), {1: 0, 2: 2, 3: 0})
        self.assertEqual(
            list(approvals(NAMED, candidates=["Zoe", "Ben", "Ada"]).items()), [("Zoe", 0), ("Ben", 8), ("Ada", 7)]
        )
        self.assertEqual(list(approvals(BOARD, names=True))[:2], ["Ada", "Ben"])
        self.assertEqual(approvals(BOARD, category=2)[6], 9)
        text = b"# DATA TYPE: cat\n# NUMBER ALTERNATIVES: 2\n# ALTERNATIVE NAME 1: A\n# ALTERNATIVE NAME 2: A\n1: 1\n"
        self.assertEqual(approvals(text), {1: 1, 2: 0})
        self.assertEqual(approvals(text + b"7: {1},{2}\n2: {},{1}\n4: 2\n"), {1: 8, 2: 4})
        with self.assertRaisesRegex(ValueError, "^two candidates have the same name"):
            approvals(text, names=True)

    def test_against_the_program(self):
        """The candidate with most approvals wins by approval voting, with as many as the score says."""
        draw = random.Random(1)
        for _ in range(40):
            ballots, candidates, _ = random_election(draw)
            found = approvals(ballots, candidates=candidates)
            answers = elect(ballots, "av", 1, candidates=candidates)
            self.assertEqual(max(found.values()), answers.score)
            most = [{candidate} for candidate, voters in found.items() if voters == answers.score]
            self.assertEqual(answers.all(), most)


class Analyses(unittest.TestCase):
    def test_the_four_checks(self):
        found = analyze(BOARD, {1, 4, 6})
        self.assertEqual(list(found), ["jr", "pjr", "ejr", "ejrplus"])
        self.assertEqual(found["jr"], Check(True))
        rows = ((frozenset({1, 2, 3}), 7),)
        self.assertEqual(found["pjr"], Check(False, 2, frozenset({1, 2}), frozenset({1}), 7, 10, rows))
        self.assertEqual(found["ejr"], Check(False, 2, frozenset({1, 2}), None, 7, 10, rows))
        self.assertEqual(found["ejrplus"], Check(False, 2, frozenset({2}), None, 7, 10, rows))
        self.assertEqual(found, {name: check(BOARD, name, {1, 4, 6}) for name in found})

    def test_what_can_be_read_once(self):
        text = pathlib.Path(BOARD).read_bytes()
        for profile in (io.BytesIO(text), iter(BALLOTS)):
            found = analyze(profile, iter([1, 4, 6]))
            self.assertEqual([bool(report) for report in found.values()], [True, False, False, False])
        self.assertEqual(analyze(BOARD, ["Ada", "Dan", "Finn"], names=True)["pjr"].within, ("Ada",))
        with tempfile.TemporaryDirectory() as room:
            path = os.path.join(room, "pipe")
            os.mkfifo(path)
            threading.Thread(target=pathlib.Path(path).write_bytes, args=[text], daemon=True).start()
            self.assertEqual(sum(map(bool, analyze(path, [1, 2, 3]).values())), 4)


if __name__ == "__main__":
    unittest.main()
