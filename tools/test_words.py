"""Tests of names and words of other libraries, of the order of arguments, and of what help shows."""
import contextlib
import inspect
import io
import os
import re
import sys
import unittest

HERE = os.path.dirname(os.path.realpath(__file__))
sys.path.insert(0, HERE)
import committees  # noqa: E402
from committees import analyze, approvals, check, compute, elect, score, share  # noqa: E402
from test_answers import BALLOTS, BOARD, Profile, Voter  # noqa: E402

VOTES = [79, 13, 12, 4, 2]  # 13 seats by each method are other seats
SEATS = {
    "dhondt": [11, 1, 1, 0, 0],
    "jefferson": [11, 1, 1, 0, 0],
    "greatestdivisors": [11, 1, 1, 0, 0],
    "saintelague": [10, 2, 1, 0, 0],
    "webster": [10, 2, 1, 0, 0],
    "majorfractions": [10, 2, 1, 0, 0],
    "huntington": [9, 1, 1, 1, 1],
    "hill": [9, 1, 1, 1, 1],
    "equalproportions": [9, 1, 1, 1, 1],
    "adams": [7, 2, 2, 1, 1],
    "smallestdivisors": [7, 2, 2, 1, 1],
    "dean": [8, 2, 1, 1, 1],
    "harmonicmean": [8, 2, 1, 1, 1],
    "hamilton": [9, 2, 1, 1, 0],
    "largest_remainder": [9, 2, 1, 1, 0],
    "hare": [9, 2, 1, 1, 0],
    "lrm": [9, 2, 1, 1, 0],
}


class Names(unittest.TestCase):
    def test_methods(self):
        self.assertEqual(set(SEATS), {*committees.METHODS, *committees.OWN_NAMES["method"]})
        for name, seats in SEATS.items():
            self.assertEqual(share(VOTES, name, 13).all(), [tuple(seats)], name)
            self.assertEqual(compute(name, VOTES, 13), [seats], name)

    def test_rules(self):
        self.assertEqual(list(committees.RULES), ["minimaxav"])
        # no other rule elects 1 and 5 alone
        ballots = [{3, 5}, {3, 4, 5}, {3}, {1, 2}, {2, 4, 5}, {1, 4, 5}, {1, 3, 4}]
        answers = elect(ballots, "minimaxav", 2)
        self.assertEqual((answers.distance, answers.score, answers.all()), (3, None, [{1, 5}]))
        self.assertEqual(score(ballots, "minimaxav", {1, 5}), 3)

    def test_properties(self):
        self.assertEqual(list(committees.PROPERTIES), ["ejr+"])
        # all approve 1, and no group of cohesive voters is left out
        ballots = [({1, 2, 4}, 3), {1}]
        found = {name: bool(check(ballots, name, {2, 3})) for name in ("jr", "pjr", "ejr", "ejrplus", "ejr+")}
        self.assertEqual(found, {"jr": True, "pjr": True, "ejr": True, "ejrplus": False, "ejr+": False})
        self.assertEqual(check(ballots, "ejr+", {2, 3}).candidates, {1})

    def test_own_names_are_those_of_the_program(self):
        for word, call, given in [("rule", elect, 1), ("property", check, [1]), ("method", share, 1)]:
            with self.assertRaises(committees.UsageRefused) as caught:
                call(BALLOTS, "borda", given)
            values = re.search(r"possible values: (.*)\]", str(caught.exception))[1].split(", ")
            self.assertEqual(sorted(values), sorted(committees.OWN_NAMES[word]))


class Order(unittest.TestCase):
    PROFILE = Profile([Voter({0})])

    def test_arguments_in_another_order(self):
        for order, call, given in [
            ("elect(profile, rule, size)", elect, ("pav", self.PROFILE, 3)),
            ("elect(profile, rule, size)", elect, ("PAV", BOARD, 3)),
            ("elect(profile, rule, size)", elect, ("minimaxav", [{1}], 3)),
            ("elect(profile, rule, size)", elect, (BOARD, 3, "pav")),
            ("share(profile, method, seats)", share, ("hare", [5, 3], 3)),
            ("share(profile, method, seats)", share, ([5, 3], 3, "dhondt")),
            ("check(profile, property, committee)", check, ([{1}], {1}, "jr")),
            ("score(profile, rule, committee)", score, ("pav", BOARD, {1})),
            ("compute(rule_id, profile, committeesize) or (method, votes, seats)", compute, (self.PROFILE, "pav", 3)),
            ("compute(rule_id, profile, committeesize) or (method, votes, seats)", compute, ([5, 3], "dhondt", 3)),
        ]:
            with self.assertRaises(TypeError, msg=given) as caught:
                call(*given)
            self.assertIn(f"the order of arguments is {order}", str(caught.exception))
        with self.assertRaisesRegex(TypeError, "and the rule is 3 here$"):
            elect(BOARD, 3, "pav")

    def test_a_check_takes_the_property_first(self):
        for property in ("pjr", "PJR", "ejr+"):
            self.assertEqual(check(property, BOARD, {1, 4, 6}), check(BOARD, property, {1, 4, 6}))
        report = check("pjr", BALLOTS, {1, 4, 6})
        self.assertEqual((report.level, report.within), (2, {1}))
        # two names of properties: the first is a path
        with self.assertRaises(FileNotFoundError) as caught:
            check("jr", "pjr", {1})
        self.assertEqual(caught.exception.filename, "jr")


class Words(unittest.TestCase):
    def test_words_that_ask_for_what_is_done(self):
        ties = [{1, 4}, {1, 5}]
        for words in (
            {"max_num_of_committees": 2},
            {"max_num_of_committees": 2, "resolute": False, "algorithm": "fastest"},
            {"limit": 2, "resolute": None, "algorithm": "brute-force", "lexicographic_tiebreaking": False},
            {"limit": 2, "max_num_of_committees": None, "algorithm": "standard-fractions"},
        ):
            self.assertEqual(compute("cc", BALLOTS, 2, **words), ties, words)
        for words in (
            {"parties": ["A", "B", "C"], "threshold": None, "tiesallowed": True, "verbose": False},
            {"parties": "abcdef", "threshold": 0, "tiesallowed": None},
        ):
            self.assertEqual(compute("adams", [5, 3, 3], 2, **words), [[1, 0, 1], [1, 1, 0]], words)

    def test_all_ties_come_where_abcvoting_chooses_one(self):
        self.assertEqual(compute("seqcc", BALLOTS, 2), [{1, 4}, {1, 5}, {2, 4}, {2, 5}, {3, 4}, {3, 5}])
        self.assertIn("All tied answers are returned, also if `resolute` is left out", inspect.getdoc(compute))

    def test_words_that_ask_for_something_else(self):
        for word, value, why in [
            ("resolute", True, "all tied answers are returned, and none is chosen"),
            ("algorithm", "gurobi", "the program has its own exact search"),
            ("algorithm", "float-fractions", "the program has its own exact search"),
            ("lexicographic_tiebreaking", True, "no tie is broken"),
            ("threshold", 0.05, "there are no thresholds"),
            ("tiesallowed", False, "all tied allocations are returned"),
            ("verbose", True, "nothing is printed"),
        ]:
            for given in (("av", BALLOTS, 1), ("adams", [5, 3, 3], 2)):
                with self.assertRaises(ValueError) as caught:
                    compute(*given, **{word: value})
                self.assertIn(f"{word}={value!r} is refused: {why}", str(caught.exception))
        with self.assertRaisesRegex(ValueError, "parties=.'A', 'B'. is refused: there are more parties"):
            compute("adams", [5, 3, 3], 2, parties=["A", "B"])
        for parties in (["A"], []):
            with self.assertRaisesRegex(ValueError, "^parties=.* is refused: av is not a method for parties$"):
                compute("av", BALLOTS, 1, parties=parties)

    def test_arguments_that_are_missing_or_given_twice(self):
        for given in ((), ("av",), ("av", BALLOTS)):
            with self.assertRaisesRegex(TypeError, "^the order of arguments is compute"):
                compute(*given)
        with self.assertRaisesRegex(
            TypeError, r"^compute\(\) got limit and max_num_of_committees, which are one argument$"
        ):
            compute("av", BALLOTS, 1, limit=1, max_num_of_committees=1)
        with self.assertRaisesRegex(TypeError, "^compute.. got rule_id and method"):
            compute("av", BALLOTS, 1, method="adams")


class Signatures(unittest.TestCase):
    READING = ["candidates", "kind", "category", "setsize", "classes", "program", "timeout"]

    def test_keywords(self):
        own = {
            elect: ["names", "after", "limit"],
            share: ["names", "after", "limit"],
            check: ["names"],
            analyze: ["names"],
            score: [],
            approvals: ["names"],
        }
        for call, words in own.items():
            parameters = inspect.signature(call).parameters.values()
            keywords = [word.name for word in parameters if word.kind is word.KEYWORD_ONLY]
            self.assertEqual(keywords, [*words, *self.READING], call)
            self.assertFalse([word for word in parameters if word.kind is word.VAR_KEYWORD], call)
        self.assertEqual(list(committees.Reading.__annotations__), self.READING)
        self.assertEqual(set(committees.Paging.__annotations__), {*self.READING, "after", "limit"})

    def test_help(self):
        for call in (elect, share, check, analyze, score, approvals, compute):
            with contextlib.redirect_stdout(io.StringIO()) as shown:
                help(call)
            for word in ("setsize", "timeout", "candidates"):
                self.assertIn(f"{word}: ", shown.getvalue(), call)

    def test_each_call_passes_its_keywords_on(self):
        """A ranking that approves its first two classes, and a program that is not there."""
        text = b"# DATA TYPE: soi\n# NUMBER ALTERNATIVES: 3\n2: 1,2\n1: 3\n"
        self.assertEqual(elect(text, "av", 2, setsize=2).score, 4)
        self.assertEqual(elect(text, "av", 2, classes=2, kind="toi").score, 4)
        self.assertEqual(score(text, "av", [1, 2], classes=2), 4)
        self.assertEqual(approvals(text, setsize=2), {1: 2, 2: 2, 3: 1})
        one = b"# DATA TYPE: soi\n# NUMBER ALTERNATIVES: 3\n2: 1,2\n"
        self.assertEqual(check(one, "jr", [3], setsize=2).rows, ((frozenset({1, 2}), 2),))
        self.assertEqual(analyze(one, [3], classes=2)["pjr"].rows, ((frozenset({1, 2}), 2),))
        self.assertEqual(compute("av", text, 2, setsize=2), [{1, 2}])
        self.assertEqual(share(b"# NUMBER ALTERNATIVES: 2\n2: 1,2\n", "dhondt", 3, kind="soi").all(), [(3, 0)])
        cat = b"# DATA TYPE: cat\n# NUMBER ALTERNATIVES: 2\n1: 1,2\n"
        self.assertEqual(share(cat, "dhondt", 3, category=2).all(), [(0, 3)])
        self.assertEqual(analyze(cat, [1], category=2)["jr"].candidates, {2})
        for call, *given in [
            (elect, "av", 1),
            (share, "adams", 1),
            (check, "jr", [1]),
            (analyze, [1]),
            (score, "av", [1]),
            (approvals,),
        ]:
            with self.assertRaises(committees.NoProgram):
                call(cat, *given, program="/no/such/program")
            with self.assertRaisesRegex(ValueError, "timeout=-1"):
                call(cat, *given, timeout=-1)


if __name__ == "__main__":
    unittest.main()
