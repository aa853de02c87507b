"""What documents say in words or formulas of rules and methods, computed: what a voter adds to a score, the claim of a
party, a sequence of choices, a distance. Each function raises a ValueError if it cannot read the text."""
import ast
import operator
import re
from collections.abc import Callable
from dataclasses import dataclass
from fractions import Fraction
from functools import lru_cache
from itertools import combinations
from math import sqrt

Ballots = list[set[int]]
Committee = frozenset[int]
OPERATORS: dict[type[ast.operator], Callable[[Fraction, Fraction], Fraction]] = {
    ast.Add: operator.add,
    ast.Sub: operator.sub,
    ast.Mult: operator.mul,
    ast.Div: operator.truediv,
    ast.Pow: lambda base, exponent: base ** int(exponent),
}


def computed(formula: str, numbers: dict[str, int]) -> Fraction:
    """The value of a formula such as 2s(s + 1) or the square root of s + 1, of variables with one letter."""
    text = re.sub(r"(?:the square root of |√)(.*)", r"root(\1)", formula).replace("^", "**")
    text = re.sub(r"(\d)(?=[a-z(])", r"\1*", text)
    text = re.sub(r"\b([a-z])(?=\()", r"\1*", text)
    try:
        return of_tree(ast.parse(text.strip(), mode="eval").body, numbers)
    except SyntaxError:
        raise ValueError(f"'{formula}' is not a formula") from None


def of_tree(tree: ast.expr, numbers: dict[str, int]) -> Fraction:
    if isinstance(tree, ast.BinOp) and type(tree.op) in OPERATORS:
        return OPERATORS[type(tree.op)](of_tree(tree.left, numbers), of_tree(tree.right, numbers))
    if isinstance(tree, ast.Constant) and isinstance(tree.value, int):
        return Fraction(tree.value)
    if isinstance(tree, ast.Name) and tree.id in numbers:
        return Fraction(numbers[tree.id])
    if isinstance(tree, ast.Call) and isinstance(tree.func, ast.Name) and tree.func.id == "root":
        return Fraction(sqrt(of_tree(tree.args[0], numbers)))
    raise ValueError(f"'{ast.unparse(tree)}' cannot be computed")


# ---- rules that add up amounts


def amount(text: str, numbers: dict[str, int]) -> Fraction:
    """What a voter adds who approves x members and a candidates in all; p is the base of a geometric rule."""
    formula = re.split(r",(?: with)? p = |, otherwise |, 0 for ", text.strip(" ."))[0]
    formula = re.sub(r"(?:over the|/) number of (?:candidates approved|approved candidates)", "/ a", formula)
    if " if " in formula:
        found = re.fullmatch(r"(\d+) if x (?:≥|is at least) (\d+)", formula)
        if not found:
            raise ValueError(f"'{text}' cannot be read")
        return Fraction(int(found[1]) * (numbers["x"] >= int(found[2])))
    return series(formula, numbers) if ".." in formula else computed(formula, numbers)


def series(formula: str, numbers: dict[str, int]) -> Fraction:
    """The sum of x terms: the first ones are written out, and then `.. + LAST` or `.., x terms` of a constant ratio."""
    x = numbers["x"]
    first, _, last = formula.partition("..")
    terms = [computed(term, numbers) for term in first.split(" + ")[:-1]]
    if last == ", x terms":
        every = [terms[0] * (terms[1] / terms[0]) ** i for i in range(max(x, len(terms)))]
    elif last.startswith(" + "):
        every = [computed(last[3:], {**numbers, "x": i}) for i in range(1, max(x, len(terms)) + 1)]
    else:
        raise ValueError(f"'{formula}' cannot be read")
    if every[: len(terms)] != terms:
        raise ValueError(f"'{formula}' begins in another way than it goes on")
    return sum(every[:x], Fraction(0))


# ---- rules that do not


def pav_score(committee: Committee, ballots: Ballots) -> Fraction:
    return sum((Fraction(1, i + 1) for ballot in ballots for i in range(len(ballot & committee))), Fraction(0))


def cc_score(committee: Committee, ballots: Ballots) -> Fraction:
    return Fraction(sum(1 for ballot in ballots if ballot & committee))


@dataclass(frozen=True)
class Choice:
    """A choice of a sequential rule: of all committees with one candidate more, or one less, those that score best."""

    is_addition: bool
    score: Callable[[Committee, Ballots], Fraction]
    best: Callable[[list[Fraction]], Fraction]

    def after(self, committee: Committee, whole: Committee, ballots: Ballots) -> set[Committee]:
        moved = whole - committee if self.is_addition else committee
        scores = {committee ^ {candidate}: self.score(committee ^ {candidate}, ballots) for candidate in moved}
        return {changed for changed, score in scores.items() if score == self.best([*scores.values()])}


def choice(text: str) -> Choice:
    """The choice that the text describes: `adds the one who raises the score of pav most`."""
    found = re.search(r"\b(add|remove)s?\b.*\b(raises|lowers) the score of `?(pav|cc)`? (most|least)", text)
    if not found:
        raise ValueError(f"'{text}' does not say what is chosen")
    move, effect, rule, extreme = found.groups()
    start = re.search(r"starts with (no|all) candidate", text)
    if (move == "add") != (effect == "raises") or (start and (move == "add") != (start[1] == "no")):
        raise ValueError(f"'{text}' contradicts itself")
    is_highest = (effect == "raises") == (extreme == "most")
    return Choice(move == "add", pav_score if rule == "pav" else cc_score, max if is_highest else min)


def winners_in_sequence(text: str, ballots: Ballots, candidates: int, size: int) -> set[Committee]:
    """The committees that sequences of such choices reach."""
    way, whole = choice(text), frozenset(range(1, candidates + 1))
    reached = {frozenset[int]() if way.is_addition else whole}
    for _ in range(size if way.is_addition else candidates - size):
        reached = {after for committee in reached for after in way.after(committee, whole, ballots)}
    return reached


def winners_by_distance(text: str, ballots: Ballots, candidates: int, size: int) -> set[Committee]:
    """The committees with the distance that the text names: `the smallest maximum distance`."""
    found = re.search(r"the (smallest|largest) (maximum|minimum) distance", text)
    if not found:
        raise ValueError(f"'{text}' names no distance")
    best, of_voters = (min if found[1] == "smallest" else max), (max if found[2] == "maximum" else min)
    distances = {
        frozenset(committee): of_voters(len(ballot ^ {*committee}) for ballot in ballots)
        for committee in combinations(range(1, candidates + 1), size)
    }
    return {committee for committee, distance in distances.items() if distance == best(distances.values())}


# ---- methods


def seats_by_claims(text: str, votes: list[int], seats: int) -> list[int]:
    """The seats of parties with votes, if the next one goes to the highest claim of the text: v / (s + 1)."""
    given = [0] * len(votes)
    for _ in range(seats):
        claims = [claim(text.strip(" ."), v, s) for v, s in zip(votes, given)]
        given[claims.index(max(claims))] += 1
    return given


@lru_cache(maxsize=None)
def claim(formula: str, v: int, s: int) -> tuple[bool, Fraction]:
    """A claim, with whether it is a quotient over 0, which is above all others."""
    try:
        return False, computed(formula, {"v": v, "s": s})
    except ZeroDivisionError:
        return True, Fraction(v)


def seats_by_quotas(votes: list[int], seats: int) -> list[int]:
    """The whole part of each quota, then one seat each to the largest remainders."""
    given = [v * seats // sum(votes) for v in votes]
    by_remainder = sorted(range(len(votes)), key=lambda party: votes[party] * seats % sum(votes), reverse=True)
    for party in by_remainder[: seats - sum(given)]:
        given[party] += 1
    return given
