"""Tests of candidates by name, and of what pandas gives, with real runs of the program."""
import os
import subprocess
import sys
import unittest
from collections import Counter

HERE = os.path.dirname(os.path.realpath(__file__))
sys.path.insert(0, HERE)
import committees  # noqa: E402
from committees import analyze, check, compute, elect, share  # noqa: E402
from test_answers import BOARD, Profile, Voter  # noqa: E402

BALLOTS = [({"Ada", "Ben", "Cleo"}, 7), ({"Dan", "Eve"}, 2), ({"Finn"}, 1)]


def module(name):
    """A module that not every machine has; a test that needs it is skipped without it."""
    try:
        return __import__(name)
    except ImportError:
        raise unittest.SkipTest(f"there is no module {name}") from None


class Series:
    """As much of a Series of pandas as the module looks at."""

    ndim = 1

    def __init__(self, values, index=None):
        self.values = list(values)
        self.index = list(range(len(self.values))) if index is None else list(index)

    def __iter__(self):
        return iter(self.values)

    def __len__(self):
        return len(self.values)

    def __contains__(self, label):
        return label in self.index

    def items(self):
        return zip(self.index, self.values)


class ByName(unittest.TestCase):
    def test_answers_are_sets_of_names(self):
        answers = elect(BALLOTS, "pav", 3)
        self.assertEqual((answers.score, answers.all()), (committees.Fraction(77, 6), [{"Ada", "Ben", "Cleo"}]))
        self.assertEqual(elect(BALLOTS, "pav", 3, names=True).all(), [("Ada", "Ben", "Cleo")])
        self.assertEqual(elect([{"Ada", "Ben"}, {"Cleo"}], "cc", 2).all(), [{"Ada", "Cleo"}, {"Ben", "Cleo"}])
        self.assertEqual(compute("av", [["Ada"], ["Ada", "Ben"]], 1), [{"Ada"}])
        self.assertEqual(elect([set(), ({"Ada"}, 2)], "av", 1).all(), [{"Ada"}])

    def test_names_are_numbered_in_the_order_of_first_appearance(self):
        ballots = [["Dan", "Ada"], ("Cleo", "Ben"), {"Eve", "Finn"}]
        ones = elect(ballots, "av", 1, names=True).all()
        # the names of a set are taken in alphabetical order
        self.assertEqual(ones, [("Dan",), ("Ada",), ("Cleo",), ("Ben",), ("Eve",), ("Finn",)])
        self.assertEqual(elect(ballots, "cc", 2, names=True, limit=2).all(), [("Dan", "Cleo"), ("Dan", "Ben")])

    def test_the_order_does_not_depend_on_the_hashes_of_names(self):
        ballots = [{"Ada", "Ben", "Cleo", "Dan", "Eve"}]
        script = f"from committees import elect; print(elect({ballots!r}, 'av', 1, names=True).all())"
        for seed in "012":
            environment = {**os.environ, "PYTHONHASHSEED": seed, "PYTHONPATH": HERE}
            done = subprocess.run([sys.executable, "-c", script], capture_output=True, text=True, env=environment)
            self.assertEqual(done.stdout, "[('Ada',), ('Ben',), ('Cleo',), ('Dan',), ('Eve',)]\n", done.stderr)

    def test_candidates_has_the_order_and_those_whom_nobody_approves(self):
        ballots = [{"Ada", "Ben"}, {"Cleo"}]
        order = ["Cleo", "Zoe", "Ben", "Ada"]
        self.assertEqual(
            elect(ballots, "cc", 2, names=True, candidates=order).all(), [("Cleo", "Ben"), ("Cleo", "Ada")]
        )
        self.assertEqual(elect(ballots, "av", 4, candidates=order).all(), [{"Ada", "Ben", "Cleo", "Zoe"}])
        self.assertEqual(elect(ballots, "sav", 1, candidates=iter(order)).all(), [{"Cleo"}])
        # a set of names has no order, so that of the alphabet is taken
        self.assertEqual(
            elect([set()], "av", 1, candidates={"Cleo", "Ben", "Ada"}, names=True, limit=1).all(), [("Ada",)]
        )

    def test_after_speaks_in_names(self):
        pages = [elect(BALLOTS, "cc", 2, limit=2).all()]
        while len(pages[-1]) == 2:
            pages.append(elect(BALLOTS, "cc", 2, limit=2, after=pages[-1][-1]).all())
        expected = ["Ada Dan", "Ada Eve", "Ben Dan", "Ben Eve", "Cleo Dan", "Cleo Eve"]
        self.assertEqual(sum(pages, []), [set(pair.split()) for pair in expected])
        self.assertEqual(elect(BALLOTS, "cc", 2, names=True, after=("Cleo", "Dan")).all(), [("Cleo", "Eve")])

    def test_checks_speak_in_names(self):
        report = check(BALLOTS, "pjr", {"Ada", "Dan", "Finn"})
        self.assertEqual((report.candidates, report.within), ({"Ada", "Ben"}, {"Ada"}))
        self.assertEqual(report.rows, ((frozenset({"Ada", "Ben", "Cleo"}), 7),))
        named = check(BALLOTS, "pjr", ["Finn", "Dan", "Ada"], names=True)
        self.assertEqual((named.candidates, named.within), (("Ada", "Ben"), ("Ada",)))
        self.assertEqual(named.rows, ((("Ada", "Ben", "Cleo"), 7),))
        self.assertEqual(analyze(BALLOTS, {"Ada", "Dan", "Finn"})["ejr"].candidates, {"Ada", "Ben"})

    def test_seats_of_parties_by_name(self):
        ballots = [({"Greens"}, 5), ({"Blues"}, 3), ({"Greys"}, 3)]
        page = share(ballots, "adams", 2).all()
        self.assertEqual(page, [{"Greens": 1, "Blues": 0, "Greys": 1}, {"Greens": 1, "Blues": 1, "Greys": 0}])
        self.assertEqual(share(ballots, "adams", 2, after=page[0]).all(), page[1:])
        self.assertEqual(
            share(Counter({("Greens",): 5}), "dhondt", 3, candidates=["Reds", "Greens"]).all(),
            [{"Reds": 0, "Greens": 3}],
        )

    def test_names_of_a_file(self):
        self.assertEqual(elect(BOARD, "cc", 2, names=True, after=("Cleo", "Dan")).all(), [("Cleo", "Eve")])
        self.assertEqual(check(BOARD, "pjr", ("Ada", "Dan", "Finn"), names=True).within, ("Ada",))
        text = b"# DATA TYPE: cat\n# NUMBER ALTERNATIVES: 2\n# ALTERNATIVE NAME 1: A\n# ALTERNATIVE NAME 2: A\n1: 1\n"
        with self.assertRaisesRegex(ValueError, "^committee: 'A' is the name of several candidates$"):
            check(text, "jr", ["A"], names=True)
        with self.assertRaisesRegex(ValueError, "^committee: 'Ada' is a name, and other candidates have numbers$"):
            check(BOARD, "jr", ["Ada"])


class BadInput(unittest.TestCase):
    def refused(self, why, call, *given, kind=ValueError, **options):
        with self.assertRaises(kind) as caught:
            call(*given, **options)
        self.assertEqual(str(caught.exception), why)
        return caught.exception

    def test_ballots(self):
        for ballot, why in [
            ({"Ada", 1}, "1 is not a name, and other candidates have names"),
            ([7, "Ada"], "7 is not a name, and other candidates have names"),
            ({2}, "2 is not a name, and other candidates have names"),
            ({""}, "the name of a candidate is empty"),
            (["Ada", " \t"], "the name of a candidate is empty"),
            ({b"Ada"}, "b'Ada' is not a name, and other candidates have names"),
            ({None}, "None is not a name, and other candidates have names"),
            (["Ada", "Ben", "Ada"], "candidate Ada stands there twice"),
            (("Ada", 3), "3 is not a name, and other candidates have names"),
            ("Ada", "'Ada' is not a set of candidates"),
            (({"Ada"}, -1), "-1 is not a number of voters"),
            (({"Ada"}, 0.5), "0.5 is not a whole number"),
        ]:
            self.refused(f"ballot 2: {why}", elect, [{"Ada"}, ballot], "av", 1)
        self.refused("ballot 1: 1 is not a name, and other candidates have names", elect, [{"Ada", 1}], "av", 1)
        self.refused(
            "ballot 3: 'Ada' is a name, and other candidates have numbers", elect, [{1}, set(), {"Ada"}], "av", 1
        )
        self.refused("ballot 1: 'Zoe' is not a candidate", elect, [{"Zoe"}], "av", 1, candidates=["Ada"])
        # a number of candidates would leave some without a name
        why = "ballot 1: 'Ada' is a name, and other candidates have numbers"
        self.refused(why, elect, [{"Ada"}], "av", 1, candidates=2)
        self.refused(
            "ballot 2: 1 is not a name, and other candidates have names", elect, {("Ada",): 1, (1,): 2}, "av", 1
        )

    def test_candidates(self):
        for candidates, why in [
            (["Ada", "Ben", "Ada"], "candidates: candidate Ada stands there twice"),
            (["Ada", ""], "candidates: the name of a candidate is empty"),
            (["Ada", 2], "candidates: 2 is not a name, and other candidates have names"),
            ("Ada", "candidates: 'Ada' is not a set of candidates"),
            (1.5, "1.5 is not a whole number"),
        ]:
            self.refused(why, elect, [{"Ada"}], "av", 1, candidates=candidates)
        for profile in (BOARD, b"", Profile([Voter({1})])):
            with self.assertRaisesRegex(TypeError, "^candidates= is for lists of ballots"):
                elect(profile, "av", 1, candidates=3)
        with self.assertRaisesRegex(TypeError, "^candidates= is for lists of ballots"):
            share([1, 2], "adams", 2, candidates=2)

    def test_committees(self):
        self.refused("committee: candidate Ada stands there twice", check, BALLOTS, "jr", ["Ada", "Ben", "Ada"])
        self.refused("committee: candidate 1 stands there twice", check, [{1}, {2}], "jr", [1, 2, 1])
        self.refused("committee: candidate 0 stands there twice", check, Profile([Voter({1})]), "jr", [0, 0])
        self.refused("committee: 'Zoe' is not a candidate", check, BALLOTS, "jr", {"Zoe"})
        self.refused("committee: 1 is not a name, and other candidates have names", check, BALLOTS, "jr", {1})
        self.refused("committee: 'Ada' is not a set of candidates", check, BALLOTS, "jr", "Ada")
        self.refused("after: candidate Ada stands there twice", elect, BALLOTS, "cc", 2, after=["Ada", "Ada"])
        self.refused("after: 'Zoe' is not a candidate", elect, BALLOTS, "cc", 2, after={"Ada", "Zoe"})
        self.refused("committee: 'Zoe' is not a candidate", analyze, BALLOTS, {"Zoe"})

    def test_seats_after(self):
        votes = {"Greens": 5, "Blues": 3}
        for after in ({"Greens": 1}, {"Greens": 1, "Blues": 1, "Reds": 0}):
            with self.assertRaisesRegex(ValueError, "^after: '(Blues|Reds)' is not a party both of"):
                share(votes, "adams", 2, after=after)

    def test_a_candidate_65(self):
        error = self.refused(
            "committees: ballot 2: TooManyCandidates", elect, [{1}, {65}, {64}], "av", 1, kind=committees.InputRefused
        )
        self.assertEqual((error.ballot, error.line, error.fault), (2, None, "TooManyCandidates"))
        names = [{f"candidate {number}"} for number in range(1, 66)]
        error = self.refused(
            "committees: ballot 65: TooManyCandidates", elect, names, "av", 1, kind=committees.InputRefused
        )
        self.assertEqual(error.ballot, 65)
        self.assertEqual(len(elect(names[:64], "av", 1).all()), 64)
        names = [f"candidate {number}" for number in range(1, 66)]
        for profile, candidates in [([{names[0]}], names), ([{2}], 65)]:
            with self.assertRaisesRegex(committees.InputRefused, "^committees: ballots: TooManyCandidates$") as caught:
                elect(profile, "av", 1, candidates=candidates)
            self.assertIsNone(caught.exception.ballot)

    def test_a_file_that_is_not_there(self):
        self.refused(
            "committees: open failed: no-such-file.cat", analyze, "no-such-file.cat", [1], kind=FileNotFoundError
        )

    def test_a_generator_that_raises(self):
        def ballots():
            yield {"Ada"}
            raise ValueError("the third row has no date")

        for call, *given in [(elect, "av", 1), (share, "adams", 1), (check, "jr", ["Ada"])]:
            self.refused("the third row has no date", call, ballots(), *given)
        with self.assertRaises(ChildProcessError):
            os.waitpid(-1, os.WNOHANG)

    def test_what_is_not_a_profile(self):
        for profile in (None, 7):
            with self.assertRaisesRegex(TypeError, f"^{profile} is not a profile$"):
                elect(profile, "av", 1)


class Pandas(unittest.TestCase):
    def assert_series(self, make):
        votes = make([53, 24, 23], ["Greens", "Blues", "Greys"])
        self.assertEqual(share(votes, "dhondt", 7).all(), [{"Greens": 4, "Blues": 2, "Greys": 1}])
        self.assertEqual(compute("dhondt", votes, 7), [{"Greens": 4, "Blues": 2, "Greys": 1}])
        self.assertEqual(share(make([53, 24, 23]), "dhondt", 7).all(), [(4, 2, 1)])
        self.assertEqual(share(make([5, 3], [1, 0]), "dhondt", 2).all(), [{1: 1, 0: 1}])
        with self.assertRaisesRegex(ValueError, "the index of the Series has a name twice"):
            share(make([1, 2], ["Greens", "Greens"]), "dhondt", 2)
        counts = make([7, 2], [frozenset({"Ada", "Ben"}), frozenset({"Cleo"})])
        self.assertEqual(elect(counts, "pav", 2).all(), [{"Ada", "Ben"}])
        self.assertEqual(elect(counts, "pav", 2).score, committees.Fraction(21, 2))
        self.assertEqual(
            share(make([7, 2], [frozenset({"Ada"}), frozenset({"Ben"})]), "dhondt", 3).all(), [{"Ada": 3, "Ben": 0}]
        )
        for index in (None, ["first", "second"]):
            self.assertEqual(elect(make([{"Ada"}, {"Ada", "Ben"}], index), "av", 1).all(), [{"Ada"}])

    def test_what_is_like_a_series(self):
        self.assert_series(Series)

    def test_series(self):
        pandas = module("pandas")
        self.assert_series(pandas.Series)
        ballots = pandas.Series([frozenset({"Ada", "Ben"})] * 7 + [frozenset({"Cleo"})] * 2)
        self.assertEqual(elect(ballots.value_counts(), "cc", 2).all(), [{"Ada", "Cleo"}, {"Ben", "Cleo"}])
        self.assertEqual(elect(ballots, "cc", 2).score, 9)


if __name__ == "__main__":
    unittest.main()
