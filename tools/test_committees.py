"""Tests of what committees.py takes, how its runs end, and of its types; test_answers.py has those of its answers."""
import contextlib
import io
import os
import pathlib
import shutil
import signal
import subprocess
import sys
import tempfile
import threading
import time
import typing
import unittest
from collections import Counter
from decimal import Decimal
from fractions import Fraction
from unittest import mock
from xml.etree import ElementTree

HERE = os.path.dirname(os.path.realpath(__file__))
TOP = os.path.dirname(HERE)
sys.path.insert(0, HERE)
import committees  # noqa: E402
from committees import check, compute, elect, share  # noqa: E402
from test_answers import BALLOTS, BOARD, Profile, Voter, program_that  # noqa: E402

PARTIES = os.path.join(TOP, "examples", "parties.cat")
WAITING = "exec sleep 60"
# A script as a notebook would hold it. It uses each call, and is typed as strictly as mypy can.
NOTEBOOK = f"""
import sys
from fractions import Fraction
from typing import Any, Dict, FrozenSet, List, Tuple, Union

from committees import AlreadyRead, Answers, Check, Paging, Reading, __version__
from committees import analyze, approvals, check, compute, elect, metadata, score, share

board = {BOARD!r}
ballots = [({{"Ada", "Ben", "Cleo"}}, 7), ({{"Dan", "Eve"}}, 2), ({{"Finn"}}, 1)]
numbered = [({{1, 2, 3}}, 7), ({{4, 5}}, 2), ({{6}}, 1)]

by_name: Answers[FrozenSet[str]] = elect(ballots, "pav", 3, candidates=["Ada", "Ben", "Cleo", "Dan", "Eve", "Finn"])
by_number: Answers[FrozenSet[int]] = elect(numbered, "pav", 3, limit=2, after=[1, 2, 3], timeout=60)
of_a_file: Answers[FrozenSet[int]] = elect(board, "pav", 3)
in_order: Answers[Tuple[str, ...]] = elect(board, "pav", 3, names=True)
committees: List[FrozenSet[str]] = by_name.all()
total: Union[Fraction, None] = by_name.score
try:
    by_name.all()
except AlreadyRead as error:
    print(error, file=sys.stderr)
has_names = len(sys.argv) > 0
either: Answers[Any] = elect(board, "cc", 2, names=has_names)
seats: Answers[Dict[str, int]] = share({{"Greens": 53, "Blues": 24}}, "dhondt", 7)
of_ballots: Answers[Dict[str, int]] = share([({{"Greens"}}, 53), ({{"Blues"}}, 24)], "dhondt", 7)
numbers: Answers[Tuple[int, ...]] = share([53, 24, 23], "dhondt", 7)
either_seats: Answers[Any] = share([53, 24, 23], "dhondt", 7, names=has_names)
report: Check[FrozenSet[str]] = check(ballots, "pjr", committees[0])
first: Check[FrozenSet[int]] = check("pjr", board, {{1, 4, 6}})
either_report: Check[Any] = check(board, "pjr", {{1, 4, 6}}, names=has_names)
four: Dict[str, Check[Any]] = analyze(board, {{1, 4, 6}})
exact: Fraction = score(ballots, "pav", {{"Ada", "Dan"}})
distance: int = score(board, "minimax", {{1, 4}})
other: Union[Fraction, int] = score(board, "av" if has_names else "minimax", [1])
counts: Dict[Any, int] = approvals(board, names=True)
ties: List[Any] = compute("cc", numbered, 2, resolute=False)
way: Reading = {{"category": 2}}
page: Paging = {{"limit": 2, "category": 2}}
sixth: Check[FrozenSet[int]] = check(board, "jr", [6], **way)
paged: List[FrozenSet[int]] = elect(board, "av", 1, **page).all()
with open(board, "rb") as file:
    print(metadata(file)[0][0], __version__, file=sys.stderr)
"""


def module(name):
    """A module that not every machine has; a test that needs it is skipped without it."""
    try:
        return __import__(name)
    except ImportError:
        raise unittest.SkipTest(f"there is no module {name}") from None


class NumberedFrom0(Profile):
    """A profile like abcvoting's that has names."""

    cand_names = ["Ada", "Ben", "Cleo", "Dan", "Eve", "Finn"]


class Ballots(unittest.TestCase):
    def test_a_mapping_has_the_number_of_voters_of_each_ballot(self):
        for mapping in (Counter({frozenset({1}): 1, frozenset({2}): 100}), {(1,): 1, (2,): 100}):
            answers = elect(mapping, "av", 1)
            self.assertEqual((answers.score, list(answers)), (100, [{2}]))
            self.assertEqual(list(share(mapping, "hamilton", 101)), [(1, 100)])
        report = check(Counter({frozenset({1, 2}): 2, frozenset({3}): 1}), "jr", {3})
        self.assertTrue(report)
        self.assertEqual(check({(1, 2): 3, (): 1}, "jr", [3, 4, 5, 6], candidates=6).rows, (({1, 2}, 3),))

    def test_numbers_that_are_not_int(self):
        self.assertEqual(list(elect([(Fraction(1), Fraction(2)), {Decimal(2)}], "av", 1)), [{2}])
        self.assertEqual(list(elect([({1}, 2.0), ({2}, 1)], "av", 1)), [{1}])

    def test_ballots_that_are_not_sets_of_candidates(self):
        for ballot, why in [
            ([2, 1, 2], "candidate 2 stands there twice"),
            ([1, 1, 0], "0 is not a candidate"),
            ([0, 1, 0], "0 is not a candidate"),
            ([1, 1], "candidate 1 stands there twice$"),
            ([True, False], "True is not a whole number"),
            (["Ada"], "'Ada' is a name, and other candidates have numbers"),
            ([float("nan")], "nan is not a whole number"),
            ("1,2", "'1,2' is not a set of candidates"),
            (7, "7 is not a set of candidates"),
            (({1}, 1.5), "1.5 is not a whole number"),
            (({1}, -1), "-1 is not a number of voters"),
        ]:
            for profile in ([{1}, ({2}, 5), ballot], iter([{1}, {2}, ballot])):
                with self.assertRaisesRegex(ValueError, f"^ballot 3: .*{why}", msg=repr(ballot)):
                    elect(profile, "av", 1)

    def test_a_fault_names_the_ballot_and_not_a_line(self):
        for profile in ([{1}, {2}, {4}], {(1,): 5, (2,): 5, (4,): 5}, iter([{1}, {2}, ({4}, 2)])):
            with self.assertRaises(committees.InputRefused) as caught:
                elect(profile, "av", 1, candidates=3)
            error = caught.exception
            self.assertEqual((error.ballot, error.line, error.fault), (3, None, "NoSuchCandidate"))
            self.assertEqual(str(error), "committees: ballot 3: NoSuchCandidate")
        with self.assertRaises(committees.InputRefused) as caught:
            elect([{1}, {65}], "av", 1)
        self.assertEqual(str(caught.exception), "committees: ballot 2: TooManyCandidates")
        with self.assertRaises(committees.InputRefused) as caught:
            elect(b"# DATA TYPE: cat\n# NUMBER ALTERNATIVES: 3\n1: 4\n", "av", 1)
        self.assertEqual((caught.exception.line, caught.exception.ballot), (3, None))

    def test_numpy(self):
        numpy = module("numpy")
        row = numpy.array([1, 2])
        self.assertEqual(list(elect([tuple(row), (row, 3), {2}, numpy.array([2])], "av", 1)), [{2}])
        self.assertEqual(list(elect([({1}, numpy.int64(2)), ({2}, numpy.float64(1))], "av", numpy.int64(1))), [{1}])
        with self.assertRaisesRegex(ValueError, "^ballot 1: 0 is not a candidate"):
            elect(numpy.array([[1, 0, 1], [1, 1, 1]]), "av", 1)
        with self.assertRaisesRegex(ValueError, "^ballot 1: candidate 1 stands there twice"):
            share(numpy.ones((2, 3), dtype=int), "adams", 1)
        with self.assertRaisesRegex(ValueError, "^ballot 1: .*is not a whole number"):
            elect(numpy.array([[True, False]]), "av", 1)


class Texts(unittest.TestCase):
    def test_bytes_and_open_files(self):
        with open(BOARD, "rb") as binary, open(BOARD, encoding="utf-8") as text:
            data = pathlib.Path(BOARD).read_bytes()
            kept = (io.BytesIO(data), io.StringIO(data.decode()))
            for profile in (data, bytearray(data), memoryview(data), binary, text, *kept):
                self.assertEqual(list(elect(profile, "pav", 3)), [{1, 2, 3}], type(profile))
        text = "# DATA TYPE: cat\n# NUMBER ALTERNATIVES: 2\n# ALTERNATIVE NAME 2: \udcff\n1: 2"
        self.assertEqual(list(elect(io.StringIO(text), "av", 1, names=True)), [("\ufffd",)])
        self.assertTrue(check(b"\xef\xbb\xbf# NUMBER ALTERNATIVES: 1\n1: 1\n", "jr", [1], kind="toi"))
        self.assertEqual(list(share(pathlib.Path(PARTIES).read_bytes(), "dhondt", 3)), [(2, 1, 0)])

    def test_a_file_that_is_missing(self):
        for path in ("no-such-file.cat", pathlib.Path("no-such-file.cat"), "--rule"):
            with self.assertRaises(FileNotFoundError) as caught:
                elect(path, "av", 1)
            error = caught.exception
            self.assertIsInstance(error, committees.DeviceFailed)
            self.assertEqual((error.status, error.filename), (6, str(path)))
            self.assertEqual(str(error), f"committees: open failed: {path}")

    def test_a_path_that_cannot_be_one(self):
        with self.assertRaisesRegex(ValueError, "null byte"):
            elect("no\0file.cat", "av", 1)

    def test_a_folder(self):
        with self.assertRaises(committees.DeviceFailed) as caught:
            elect(HERE, "av", 1)
        self.assertNotIsInstance(caught.exception, FileNotFoundError)
        self.assertEqual(str(caught.exception), f"committees: read failed: {HERE}")


class Votes(unittest.TestCase):
    def test_a_mapping_of_names_to_votes(self):
        votes = {"Greens": 5, "Blues": 3, "Greys": 3}
        answers = share(votes, "adams", 2)
        page = list(answers)
        self.assertEqual(page, [{"Greens": 1, "Blues": 0, "Greys": 1}, {"Greens": 1, "Blues": 1, "Greys": 0}])
        self.assertEqual([list(allocation) for allocation in page], [list(votes), list(votes)])
        # the order of the mapping given as `after` does not matter
        votes = {"Greens": 6, "Blues": 3, "Greys": 3}
        ties = [
            {"Greens": 1, "Blues": 0, "Greys": 1},
            {"Greens": 1, "Blues": 1, "Greys": 0},
            {"Greens": 2, "Blues": 0, "Greys": 0},
        ]
        self.assertEqual(list(share(votes, "dhondt", 2)), ties)
        after = {"Greys": 0, "Blues": 1, "Greens": 1}
        self.assertEqual(list(share(votes, "dhondt", 2, after=after)), ties[2:])
        self.assertEqual(list(share({7: 2, None: 1}, "adams", 3)), [{7: 2, None: 1}])
        with self.assertRaises(committees.UsageRefused):
            share({}, "adams", 2)

    def test_numbers_that_are_not_whole(self):
        for votes in ([1.5, 2], {"A": float("inf")}, [1, float("nan")], [1, 1j]):
            with self.assertRaisesRegex(ValueError, "is not a whole number"):
                share(votes, "adams", 2)

    def test_numpy_and_pandas(self):
        numpy = module("numpy")
        for votes in (numpy.array([53, 24, 23]), numpy.array([53.0, 24, 23]), list(numpy.array([53, 24, 23]))):
            self.assertEqual(list(share(votes, "dhondt", 7)), [(4, 2, 1)])
        pandas = module("pandas")
        series = pandas.Series([53, 24, 23], index=["Greens", "Blues", "Greys"])
        self.assertEqual(list(share(series, "dhondt", 7)), [{"Greens": 4, "Blues": 2, "Greys": 1}])
        self.assertEqual(list(share(series.to_dict(), "dhondt", 7)), [{"Greens": 4, "Blues": 2, "Greys": 1}])
        with self.assertRaisesRegex(ValueError, "nan is not a whole number"):
            share(pandas.Series([5, None]), "dhondt", 7)


class Names(unittest.TestCase):
    def test_rules_properties_and_methods_in_any_case(self):
        self.assertEqual(list(elect(BOARD, "PAV", 3)), [{1, 2, 3}])
        self.assertEqual(elect(BALLOTS, "MinimaxAV", 2).distance, elect(BALLOTS, "minimax", 2).distance)
        self.assertIsNone(elect(BALLOTS, "SeqPAV", 2).score)
        self.assertTrue(check(BOARD, "EJR+", {1, 2, 3}))
        self.assertFalse(check(BOARD, "PJR", {1, 4, 6}))
        self.assertEqual(list(share([53, 24, 23], "DHondt", 7)), [(4, 2, 1)])
        self.assertEqual(list(share([53, 24, 23], "Jefferson", 7)), [(4, 2, 1)])

    def test_names_of_candidates(self):
        with open(BOARD, "rb") as file:
            for profile in (BOARD, file):
                self.assertEqual(list(elect(profile, "pav", 3, names=True)), [("Ada", "Ben", "Cleo")])
        report = check(BOARD, "pjr", {1, 4, 6}, names=True)
        self.assertEqual((report.candidates, report.within), (("Ada", "Ben"), ("Ada",)))
        self.assertEqual(report.rows, ((("Ada", "Ben", "Cleo"), 7),))
        from_0 = NumberedFrom0([Voter({0, 1, 2}, 7), Voter({3, 4}, 2), Voter({5})])
        self.assertEqual(next(elect(from_0, "cc", 2, names=True)), ("Ada", "Dan"))
        self.assertEqual(next(elect(Profile(from_0), "cc", 2, names=True)), ("0", "3"))
        self.assertEqual(next(elect(BALLOTS, "cc", 2, names=True)), ("1", "4"))

    def test_names_as_the_program_reads_them(self):
        text = (
            b"\xef\xbb\xbf # data  type : cat\r\n#NUMBER ALTERNATIVES: 5\n# Alternative\tName 1:  A; B\t\r\n"
            b"# ALTERNATIVE NAME 2: first\n# ALTERNATIVE NAME 2: a: b\n# ALTERNATIVE NAME 3: C\n# ALTERNATIVE NAME 3:\n"
            b"# ALTERNATIVE NAME 4: \xff\n\n1: {1,2,3,4,5}\n# ALTERNATIVE NAME 5: too late\n"
        )
        self.assertEqual(list(elect(text, "av", 5, names=True)), [("A; B", "a: b", "3", "\ufffd", "5")])
        with program_that("") as program:
            path = os.path.join(os.path.dirname(program), "votes.cat")
            pathlib.Path(path).write_bytes(text)
            self.assertEqual(list(elect(path, "av", 5, names=True)), [("A; B", "a: b", "3", "\ufffd", "5")])
            own = [committees._program(None), "elect", "--rule=av", "--size=5", "--names", path]
            shown = subprocess.run(own, capture_output=True).stdout
        self.assertIn(b"\tA; B; a: b; 3; \xff; 5\n", shown)

    def test_names_from_a_pipe(self):
        with program_that("") as program:
            path = os.path.join(os.path.dirname(program), "pipe")
            os.mkfifo(path)
            data = pathlib.Path(BOARD).read_bytes()
            threading.Thread(target=pathlib.Path(path).write_bytes, args=[data], daemon=True).start()
            self.assertEqual(list(elect(path, "pav", 3, names=True)), [("Ada", "Ben", "Cleo")])

    def test_names_of_parties(self):
        self.assertEqual(list(share(PARTIES, "dhondt", 3, names=True)), [{"Greens": 2, "Blues": 1, "Greys": 0}])
        text = b"# DATA TYPE: cat\n# NUMBER ALTERNATIVES: 2\n"
        text += b"# ALTERNATIVE NAME 1: A\n# ALTERNATIVE NAME 2: A\n1: 1\n1: 2\n"
        answers = share(text, "dhondt", 3, names=True)
        with self.assertRaisesRegex(ValueError, "two parties have the same name"):
            next(answers)
        # An answer is missing now, so no later one is given.
        with self.assertRaises(committees.CutOff):
            next(answers)
        # A committee keeps both of its members.
        self.assertEqual(list(elect(text, "av", 2, names=True)), [("A", "A")])
        after = {"Greens": 1, "Blues": 2, "Greys": 0}
        answers = share(PARTIES, "dhondt", 3, names=True, after=after)
        self.assertEqual(list(answers), [{"Greens": 2, "Blues": 1, "Greys": 0}])


class OtherLibraries(unittest.TestCase):
    def test_the_call_of_abcvoting(self):
        profile = Profile([Voter({0, 1, 2}, 7), Voter({3, 4}, 2), Voter({5})])
        ties = [{0, 3}, {0, 4}, {1, 3}, {1, 4}, {2, 3}, {2, 4}]
        self.assertEqual(compute("cc", profile, 2, False), ties)
        self.assertEqual(compute("CC", profile, committeesize=2, resolute=False, algorithm="brute-force"), ties)
        self.assertEqual(compute(rule_id="cc", profile=profile, committeesize=2, max_num_of_committees=2), ties[:2])
        self.assertIs(type(compute("cc", profile, 2)[0]), set)

    def test_the_call_of_apportionment(self):
        self.assertEqual(compute("jefferson", [53, 24, 23], 7), [[4, 2, 1]])
        self.assertEqual(compute(method="adams", votes=[5, 3, 3], seats=2, verbose=False), [[1, 0, 1], [1, 1, 0]])
        self.assertEqual(compute("Webster", {"A": 2, "B": 1}, 3), [{"A": 2, "B": 1}])

    def test_what_is_refused(self):
        for given in (("av", BALLOTS, 1), ("adams", [1, 2], 2)):
            with self.assertRaisesRegex(ValueError, "resolute=True"):
                compute(*given, resolute=True)
        for votes in ([1, 2], {"A": 1, "B": 2}):
            with self.assertRaisesRegex(committees.UsageRefused, "'quota' for '--method"):
                compute("quota", votes, 2)
        with self.assertRaisesRegex(committees.UsageRefused, "'monroe' for '--rule"):
            compute("monroe", BALLOTS, 2)
        for profile in ([], Counter(), Profile()):
            with self.assertRaises(committees.InputRefused):
                compute("av", profile, 2)


class Interrupted(Exception):
    pass


class Ends(unittest.TestCase):
    def assert_ended(self):
        """No child of this process is left. An interrupted start ends its process only when that has been started."""
        with self.assertRaises(ChildProcessError):
            for _ in range(100):
                os.waitpid(-1, os.WNOHANG)
                time.sleep(0.05)

    @contextlib.contextmanager
    def interruption(self, kind):
        """Raises an exception of this kind in the main thread after a while. The list that it gives holds the
        exception, and with it the traceback and the frames of the call, which `assertRaises` would clear."""
        held = []

        def interrupt(*_):
            raise kind()

        before = signal.signal(signal.SIGALRM, interrupt)
        signal.setitimer(signal.ITIMER_REAL, 0.3)
        try:
            yield held
        except kind as error:
            held.append(error)
        finally:
            signal.setitimer(signal.ITIMER_REAL, 0)
            signal.signal(signal.SIGALRM, before)
        self.assertEqual(len(held), 1)

    def test_an_interrupted_call_ends_its_run(self):
        calls = [(elect, BALLOTS, "av", 1), (share, [5, 3], "adams", 1), (check, BALLOTS, "jr", [1])]
        for call, *given in [*calls, (compute, "av", BALLOTS, 1)]:
            for kind in (Interrupted, KeyboardInterrupt):
                with program_that(WAITING) as program:
                    with self.interruption(kind) as held:
                        call(*given, program=program)
                    self.assert_ended()
                    self.assertIsNotNone(held[0].__traceback__)

    def test_an_interrupted_start_ends_its_process(self):
        start = subprocess.Popen

        def slow_start(*words, **options):
            time.sleep(0.6)
            return start(*words, **options)

        with program_that(WAITING) as program, mock.patch.object(subprocess, "Popen", slow_start):
            with self.interruption(Interrupted):
                elect(BALLOTS, "av", 1, program=program)
            time.sleep(0.6)  # until it has been started
            self.assert_ended()

    def test_an_interrupted_answer_ends_its_run(self):
        # The second committee is printed in part when the read is interrupted: its rest would be another committee.
        script = f"printf 'rule av\\nsize 2\\nscore 7/1\\n1,2\\n1'\n{WAITING}"
        with program_that(script) as program:
            answers = elect(BALLOTS, "av", 2, program=program)
            self.assertEqual(next(answers), {1, 2})
            with self.interruption(Interrupted) as held:
                next(answers)
            self.assert_ended()
            self.assertIsNotNone(held[0].__traceback__)
            with self.assertRaises(committees.CutOff):
                next(answers)

    def test_an_input_that_is_not_read(self):
        with tempfile.TemporaryDirectory() as room:
            program = os.path.join(room, "program")
            pathlib.Path(program).write_text(f"#!/bin/sh\n{WAITING}\n")
            os.chmod(program, 0o755)
            text = b"#" * 10**6
            with self.interruption(Interrupted) as held:
                elect(text, "av", 1, program=program)
            self.assert_ended()
            self.assertIsNotNone(held[0].__traceback__)
            with self.assertRaises(TimeoutError):
                elect(text, "av", 1, program=program, timeout=0.5)
            self.assert_ended()

    def test_a_timeout(self):
        with program_that(WAITING) as program:
            for call, *given in [(elect, BALLOTS, "av", 1), (share, [5, 3], "adams", 1), (check, BALLOTS, "jr", [1])]:
                start = time.monotonic()
                with self.assertRaisesRegex(TimeoutError, "0.3 seconds") as caught:
                    call(*given, program=program, timeout=0.3)
                self.assertLess(time.monotonic() - start, 20)
                self.assertIsInstance(caught.exception, committees.CommitteesError)
                self.assert_ended()

    def test_a_timeout_in_a_thread(self):
        caught = []

        def call():
            try:
                elect(BALLOTS, "av", 1, program=program, timeout=0.3)
            except TimeoutError as error:
                caught.append(error)

        with program_that(WAITING) as program:
            thread = threading.Thread(target=call, daemon=True)
            thread.start()
            thread.join(20)
            self.assertEqual(len(caught), 1)
            self.assert_ended()

    def test_a_timeout_while_the_caller_is_busy(self):
        # 64 candidates with one voter each: 6 * 10^18 ties
        answers = elect([{number} for number in range(1, 65)], "cc", 32, timeout=3)
        first = next(answers)
        process = answers._run.process
        time.sleep(3)
        for _ in range(40):
            state = pathlib.Path(f"/proc/{process.pid}/stat").read_text()
            if ") Z " in state:
                break
            time.sleep(0.1)
        self.assertIn(") Z ", state)
        # What was printed in time is still read, and then the time is over.
        with self.assertRaises(TimeoutError):
            for committee in answers:
                self.assertEqual(len(committee), 32)
        self.assertEqual(first, set(range(1, 33)))
        with self.assertRaises(committees.CutOff):
            next(answers)

    def test_a_program_that_ended_in_time(self):
        threads = len(os.listdir("/proc/self/task"))
        answers = elect(BALLOTS, "cc", 2, timeout=1)
        time.sleep(1.5)
        self.assertEqual(len(list(answers)), 6)
        self.assertEqual(len(list(elect(BALLOTS, "cc", 2, timeout=100))), 6)
        for _ in range(100):
            if len(os.listdir("/proc/self/task")) <= threads:
                break
            time.sleep(0.1)
        self.assertLessEqual(len(os.listdir("/proc/self/task")), threads)

    def test_what_is_not_a_timeout(self):
        for timeout in (-1, float("nan"), float("inf"), 10**7):
            with self.assertRaisesRegex(ValueError, "timeout="):
                elect(BALLOTS, "av", 1, timeout=timeout)
        self.assertEqual(len(list(elect(BALLOTS, "cc", 2, timeout=None))), 6)

    def test_open_files(self):
        before = len(os.listdir("/proc/self/fd"))
        for _ in range(20):
            list(elect(BALLOTS, "cc", 2, timeout=60))
            with self.assertRaises(committees.RequestRefused):
                elect(BALLOTS, "av", 9, timeout=60)
        time.sleep(0.5)
        self.assertEqual(len(os.listdir("/proc/self/fd")), before)


class Types(unittest.TestCase):
    def test_hints(self):
        for name in committees.__all__:
            public = getattr(committees, name)
            typing.get_type_hints(public)
            for method in vars(public).values() if isinstance(public, type) else ():
                if callable(method) and hasattr(method, "__annotations__"):
                    typing.get_type_hints(method)
        self.assertEqual(typing.get_type_hints(elect)["rule"], str)
        self.assertEqual(typing.get_type_hints(committees.Paging)["limit"], typing.Optional[int])

    def test_answers_are_generic_and_shown(self):
        self.assertEqual(typing.get_args(committees.Answers[typing.FrozenSet[int]]), (typing.FrozenSet[int],))
        answers = elect(BOARD, "pav", 3)
        self.assertEqual(repr(answers), "<Answers: rule pav, size 3, score 77/6; 0 read, not at the end>")
        list(answers)
        self.assertEqual(repr(answers), "<Answers: rule pav, size 3, score 77/6; 1 read, at the end: {1, 2, 3}>")
        with share([5, 3, 3], "adams", 2, limit=1) as answers:
            self.assertEqual(repr(answers), "<Answers: method adams, seats 2; 0 read, not at the end>")
            list(answers)
            self.assertEqual(repr(answers), "<Answers: method adams, seats 2; 1 read, at the limit: (1, 0, 1)>")
        many = elect([{6, 5}, {4}, {3}, {2}, {1}], "av", 1)
        list(many)
        first = "rule av, size 1, score 1; 6 read, at the end"
        self.assertEqual(repr(many), f"<Answers: {first}: {{1}}, {{2}}, {{3}}, {{4}}, {{5}}, ..>")
        seats = share({"Greens": 1}, "adams", 2)
        next(seats)
        self.assertEqual(repr(seats), "<Answers: method adams, seats 2; 1 read, not at the end: {'Greens': 2}>")
        with elect(BALLOTS, "minimax", 2) as answers:
            pass
        self.assertRegex(repr(answers), "^<Answers: rule minimax, size 2, distance [0-9]; 0 read, closed>$")

    def test_answers_in_a_notebook(self):
        answers = elect([["<b>Ada</b>", "Ben & Cleo"]], "av", 1)
        root = ElementTree.fromstring(answers._repr_html_())
        self.assertEqual(
            (root.tag, root.find("caption").text), ("table", "rule av, size 1, score 1; 0 read, not at the end")
        )
        self.assertEqual(list(root.iter("td")), [])
        list(answers)
        root = ElementTree.fromstring(answers._repr_html_())
        self.assertEqual(root.find("caption").text, "rule av, size 1, score 1; 2 read, at the end")
        self.assertEqual([cell.text for cell in root.iter("td")], ["{'<b>Ada</b>'}", "{'Ben & Cleo'}"])
        self.assertEqual(len(list(root.iter("tr"))), 2)

    def test_mypy(self):
        mypy = shutil.which("mypy")
        if not mypy:
            self.skipTest("there is no mypy")
        with tempfile.TemporaryDirectory() as room:
            notebook = os.path.join(room, "notebook.py")
            pathlib.Path(notebook).write_text(NOTEBOOK)
            packages, docs = os.path.join(TOP, "packages"), os.path.join(TOP, "docs")
            own = ("committees.py", "committee_answers.py", "committee_pages.py", "committee_pictures.py")
            beside = [os.path.join(TOP, name) for name in ("install", "packages/make_packages", "docs/facts")]
            for file in (*own, "draw_committee", "report_election", "table_to_cat", *beside, notebook):
                words = [mypy, "--strict", f"--cache-dir={room}", file]
                environment = {**os.environ, "MYPYPATH": f"{HERE}:{packages}:{docs}"}
                run = subprocess.run(words, capture_output=True, text=True, cwd=HERE, env=environment)
                self.assertEqual(run.returncode, 0, run.stdout + run.stderr)

    def test_the_notebook_runs(self):
        found = {}
        with contextlib.redirect_stderr(io.StringIO()) as said:
            exec(compile(NOTEBOOK, "notebook", "exec"), found)
        self.assertIn("1 of these answers were already read", said.getvalue())
        self.assertEqual(found["committees"], [{"Ada", "Ben", "Cleo"}])
        self.assertEqual((found["exact"], found["distance"], found["other"]), (9, 3, 7))
        self.assertEqual(found["paged"], [{6}])


if __name__ == "__main__":
    unittest.main()
