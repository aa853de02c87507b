"""Tests of the answers of committees.py, with real runs of the program: python3 -m unittest discover tools"""
import contextlib
import doctest
import os
import pathlib
import signal
import subprocess
import sys
import tempfile
import time
import unittest
from fractions import Fraction
from unittest import mock

HERE = os.path.dirname(os.path.realpath(__file__))
TOP = os.path.dirname(HERE)
sys.path.insert(0, HERE)
import committees  # noqa: E402
from committees import check, elect, share  # noqa: E402

BOARD = os.path.join(TOP, "examples", "board.cat")
SONGS = os.path.join(TOP, "examples", "songs.soi")
BALLOTS = [({1, 2, 3}, 7), ({4, 5}, 2), ({6}, 1)]
UNFINISHED = "rule av\\nsize 1\\nscore 7/1\\n1\\n"


# What a shell starts in the background ignores interrupts, and so would the programs that these tests start.
signal.signal(signal.SIGINT, signal.default_int_handler)


@contextlib.contextmanager
def program_that(script):
    """A program that reads its input and then runs this shell script; it is there as long as the block."""
    with tempfile.TemporaryDirectory() as room:
        path = os.path.join(room, "program")
        with open(path, "w") as file:
            file.write(f"#!/bin/sh\ncat >/dev/null\n{script}\n")
        os.chmod(path, 0o755)
        yield path


def pid_of(program):
    """The number of the process of a program, which it writes into a file beside itself: `echo $$ >$0.pid`."""
    file = pathlib.Path(f"{program}.pid")
    for _ in range(200):
        if file.exists() and file.read_text():
            break
        time.sleep(0.05)
    return int(file.read_text())


class Voter:
    def __init__(self, approved, weight=1):
        self.approved = approved
        self.weight = weight


class Profile(list):
    """As much of abcvoting's Profile as this module looks at: candidates are numbered from 0."""

    num_cand = 6


class Elections(unittest.TestCase):
    def test_a_file(self):
        answers = elect(BOARD, "pav", 3)
        self.assertEqual(answers.score, Fraction(77, 6))
        self.assertEqual(list(answers), [frozenset({1, 2, 3})])
        self.assertIs(answers.more, False)

    def test_answers_are_read_once(self):
        for limit in (None, 2):
            answers = elect(BALLOTS, "cc", 2, limit=limit)
            self.assertEqual(len(list(answers)), limit or 6)
            for again in (iter, list, set, answers.__class__.all):
                with self.assertRaisesRegex(committees.AlreadyRead, "already read"):
                    again(answers)
            with self.assertRaises(StopIteration):
                next(answers)
        nothing = elect(BALLOTS, "cc", 2, after=[3, 5])
        self.assertEqual(nothing.all(), [])
        with self.assertRaises(committees.AlreadyRead):
            nothing.all()

    def test_all(self):
        ties = elect(BALLOTS, "cc", 2).all()
        self.assertEqual((type(ties), ties[0], len(ties)), (list, frozenset({1, 4}), 6))
        answers = elect(BALLOTS, "cc", 2)
        next(answers)
        with self.assertRaisesRegex(committees.AlreadyRead, "^1 of these answers were already read"):
            answers.all()
        # The rest can still be read.
        self.assertEqual([sorted(tie) for tie in answers], [[1, 5], [2, 4], [2, 5], [3, 4], [3, 5]])
        answers = elect(BALLOTS, "cc", 2)
        answers.close()
        with self.assertRaises(committees.CutOff):
            answers.all()

    def test_sets(self):
        ties = [frozenset(tie) for tie in ({1, 4}, {1, 5}, {2, 4}, {2, 5}, {3, 4}, {3, 5})]
        self.assertEqual(list(elect(BALLOTS, "cc", 2)), ties)
        self.assertEqual(list(elect([{1, 2}, {1, 2}, [3]], "av", 1)), [frozenset({1}), frozenset({2})])
        self.assertEqual(elect([{1}, set()], "av", 1, candidates=9).score, 1)

    def test_a_profile_numbered_from_0(self):
        profile = Profile([Voter({0, 1, 2}, 7), Voter({3, 4}, 2), Voter({5})])
        self.assertEqual(next(elect(profile, "cc", 2)), frozenset({0, 3}))
        self.assertEqual(list(elect(profile, "cc", 2, after={2, 3})), [frozenset({2, 4})])
        self.assertEqual(check(profile, "pjr", {0, 3, 5}).candidates, frozenset({0, 1}))
        self.assertEqual(
            share(Profile([Voter({0}, 5), Voter({1}, 3), Voter({5}, 3)]), "adams", 2).__next__(), (1, 0, 0, 0, 0, 1)
        )

    def test_pages(self):
        answers = elect(BALLOTS, "cc", 2, limit=2)
        self.assertIsNone(answers.more)
        page = list(answers)
        self.assertIs(answers.more, True)
        rest = elect(BALLOTS, "cc", 2, after=page[-1])
        self.assertEqual([sorted(tie) for tie in rest], [[2, 4], [2, 5], [3, 4], [3, 5]])
        self.assertIs(rest.more, False)

    def test_rules(self):
        for rule in "av pav cc geom2 geom3 geom4 sav minimax seqpav seqcc revseqpav minimaxav".split():
            answers = elect(BALLOTS, rule, 2)
            self.assertEqual(answers.score is None, rule.startswith(("minimax", "seq", "revseq")), rule)
            self.assertEqual(answers.distance is None, not rule.startswith("minimax"), rule)
            self.assertTrue(all(len(committee) == 2 for committee in answers), rule)

    def test_ways(self):
        self.assertEqual(list(elect(SONGS, "av", 2, setsize=2)), [frozenset({2, 5})])
        self.assertEqual(next(elect(SONGS, "av", 2, classes=1, kind="toi")), frozenset({2, 5}))
        self.assertEqual(next(elect(BOARD, "av", 1, category=2)), frozenset({6}))


class Checks(unittest.TestCase):
    def test_a_report(self):
        report = check(BALLOTS, "pjr", [1, 4, 6])
        self.assertFalse(report)
        self.assertEqual((report.level, report.group, report.voters), (2, 7, 10))
        self.assertEqual((report.candidates, report.within), (frozenset({1, 2}), frozenset({1})))
        self.assertEqual(report.rows, ((frozenset({1, 2, 3}), 7),))
        self.assertIsNone(check(BOARD, "ejr", {1, 4, 6}).within)
        self.assertEqual(check([{1}], "pjr", {2}, candidates=2).within, frozenset())

    def test_what_holds(self):
        self.assertTrue(check(BOARD, "jr", {1, 2, 3}))
        self.assertTrue(check(BOARD, "ejr+", {1, 2, 3}).holds)


class Shares(unittest.TestCase):
    def test_votes(self):
        self.assertEqual(list(share([5, 3, 3], "adams", 2)), [(1, 0, 1), (1, 1, 0)])
        self.assertEqual(list(share((5, 3, 3), "smallestdivisors", 2, after=(1, 0, 1))), [(1, 1, 0)])

    def test_ballots(self):
        walks = os.path.join(TOP, "examples", "walks.soc")
        self.assertEqual(list(share(walks, "dhondt", 6)), [(3, 1, 2, 0)])


class Refusals(unittest.TestCase):
    def refused(self, kind, status, fault, line, call, *given, **options):
        with self.assertRaises(kind) as caught:
            list(call(*given, **options))
        self.assertEqual(
            (caught.exception.status, caught.exception.fault, caught.exception.line), (status, fault, line)
        )

    def test_each_status(self):
        self.refused(committees.UsageRefused, 2, None, None, elect, BOARD, "borda", 2)
        self.refused(committees.UsageRefused, 2, "TwoPicks", None, elect, SONGS, "av", 2, setsize=1, classes=1)
        self.refused(committees.UsageRefused, 2, "BadList", None, share, [], "adams", 2)
        self.refused(committees.InputRefused, 3, "NoVoters", None, elect, [], "av", 1)
        self.refused(committees.InputRefused, 3, "NoSuchCandidate", None, elect, [{1, 4}], "av", 1, candidates=3)
        self.refused(committees.InputRefused, 3, "TooManyCandidates", None, elect, [{65}], "av", 1)
        text = b"# DATA TYPE: wmd\n# NUMBER ALTERNATIVES: 1\n1: 1"
        self.refused(committees.InputRefused, 3, "BadKind", 3, elect, text, "av", 1)
        self.refused(committees.RequestRefused, 4, "SizeTooLarge", None, elect, [{1}], "av", 2)
        self.refused(committees.RequestRefused, 4, "AfterMisfit", None, elect, BALLOTS, "av", 2, after=[1])
        self.refused(committees.RequestRefused, 4, "CommitteeMisfit", None, check, BALLOTS, "jr", [9])
        self.refused(committees.RequestRefused, 4, "ManyApproved", None, share, BALLOTS, "adams", 2)
        self.refused(committees.DeviceFailed, 6, None, None, elect, "no-such-file.cat", "av", 1)
        self.refused(committees.DeviceFailed, 6, None, None, elect, "--rule", "av", 1)

    def test_words_that_are_not_text(self):
        for words in (
            [b"\xff"],
            ["elect", "--rule", b"\xff", "--size", "1", BOARD],
            ["check", b"--\xc3"],
            [BOARD, b"\x80"],
        ):
            run = subprocess.run([os.path.join(TOP, "committees"), *words], capture_output=True, input=b"")
            said = b"error: a word of the command line is not UTF-8 text\n"
            self.assertEqual((run.returncode, run.stdout, run.stderr), (2, b"", said), words)

    def test_a_large_input_that_is_not_read(self):
        self.refused(committees.UsageRefused, 2, None, None, elect, [{1}] * 100000, "borda", 1)

    def test_numbers(self):
        with self.assertRaises(ValueError):
            elect([({1}, 1.5)], "av", 1)
        with self.assertRaises(ValueError):
            elect([{0, 1}], "av", 1)

    def test_no_program(self):
        with self.assertRaises(committees.NoProgram):
            elect(BOARD, "av", 1, program="/no/such/program")
        # as ./committees ends after a build that failed, and a shell without the program
        for status in (125, 127):
            with program_that(f"exit {status}") as program, self.assertRaises(committees.NoProgram):
                elect(BOARD, "av", 1, program=program)
        # what its loader prints names an option that nothing has
        line = "this machine lacks a feature of x86-64-v2, which this program was built for: build it with --cpu x86-64"
        with program_that(f"echo '{line}' >&2; exit 127") as program:
            with self.assertRaises(committees.NoProgram) as refusal:
                elect(BOARD, "av", 1, program=program)
        said = "the processor lacks a feature of x86-64-v2, which the program needs"
        self.assertEqual((str(refusal.exception), refusal.exception.status), (said, 127))

    def test_the_variable_names_the_program(self):
        with mock.patch.dict(os.environ, COMMITTEES="/no/such/program"):
            with self.assertRaisesRegex(committees.NoProgram, "^/no/such/program could not be started"):
                elect(BOARD, "av", 1)
            with program_that("exit 5") as program, self.assertRaises(committees.NoMemory):
                elect(BOARD, "av", 1, program=program)

    def test_keywords(self):
        with self.assertRaisesRegex(TypeError, "check.*'limit'"):
            check(BOARD, "jr", [1], limit=2)

    def test_output_that_is_cut_off(self):
        other = ["rule av\\nsize 1\\nSCORE 7/1\\n1\\nend\\n", "rule pav\\nsize 1\\nscore 7/1\\n1\\nend\\n"]
        for lines in [
            "",
            "rule av\\n",
            UNFINISHED,
            UNFINISHED + "end",
            UNFINISHED + "mo",
            UNFINISHED + "end\\n1\\n",
            *other,
        ]:
            with program_that(f"printf '{lines}'") as program, self.assertRaises(committees.CutOff, msg=lines):
                list(elect(BALLOTS, "av", 1, program=program))

    def test_a_report_has_its_status(self):
        violated = "violated jr\\nlevel 1\\ncandidates 1\\nvoters 1 of 1\\n1: 1\\n"
        for lines, status, holds in [("holds\\n", 0, True), (violated, 1, False)]:
            with program_that(f"printf '{lines}'; exit {status}") as program:
                self.assertEqual(check(BALLOTS, "jr", [2], program=program).holds, holds)
            for script in (f"printf '{lines}'; exit {1 - status}", f"printf '{lines}1: 2\\n'; exit {status}"):
                with program_that(script) as program, self.assertRaises(committees.CutOff):
                    check(BALLOTS, "jr", [2], program=program)

    def test_a_status_after_the_last_line(self):
        script = f"printf '{UNFINISHED}end\\n'\necho 'committees: write failed' >&2\nexit 6"
        with program_that(script) as program, self.assertRaises(committees.DeviceFailed):
            list(elect(BALLOTS, "av", 1, program=program))


class Ends(unittest.TestCase):
    def test_an_iterator_that_is_dropped_ends_its_run(self):
        # 64 candidates with one voter each: 6 * 10^18 ties
        for drop in ("del", "close", "with"):
            answers = elect([{number} for number in range(1, 65)], "cc", 32)
            self.assertEqual(next(answers), frozenset(range(1, 33)))
            process = answers._run.process
            self.assertIsNone(process.poll())
            if drop == "del":
                del answers
            elif drop == "close":
                answers.close()
                with self.assertRaises(committees.CutOff):
                    next(answers)
            else:
                with answers:
                    pass
            self.assertIsNotNone(process.poll())


class Documents(unittest.TestCase):
    def test_the_examples_of_the_module(self):
        found = doctest.testmod(committees)
        self.assertEqual(found.failed, 0)
        self.assertGreater(found.attempted, 20)


if __name__ == "__main__":
    unittest.main()
