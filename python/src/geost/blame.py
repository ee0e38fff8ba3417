"""Which objects break a rule: the program is asked whether parts of the rule hold for single
objects.

A part is asked under quantifiers over single objects, and all parts that are to be asked at one
time go to the program together.
"""

from __future__ import annotations

from collections.abc import Generator
from dataclasses import dataclass, replace
from itertools import combinations, islice
from typing import cast

from geost.program import Program
from geost.questions import Questions
from geost.text import (
    Apart,
    Bare,
    Call,
    Chain,
    Compare,
    Expr,
    FieldOf,
    Formula,
    Joined,
    Negative,
    Not,
    Number,
    Placed,
    Problem,
    Quantified,
    Rule,
    Within,
    print_formula,
    print_placed,
)
from geost.trees import all_parts

OPPOSITES = {"<": ">=", "<=": ">", "=": "!=", "!=": "=", ">=": "<", ">": "<="}


@dataclass(frozen=True)
class Blame:
    """Objects that break a rule together, the part that they break, and what more is to be said."""

    objects: tuple[str, ...]
    part: Formula
    note: str = ""


@dataclass(frozen=True)
class Fixed:
    """A variable of a quantifier that stands for one object."""

    variable: str
    name: str


Prefix = tuple[Fixed, ...]


# It yields formulas, is sent whether each of them holds, and returns the blames
Inquiry = Generator[list[Formula], list[bool], list[Blame]]
Inquiries = Generator[list[Formula], list[bool], list[list[Blame]]]


def side_by_side(inquiries: list[Inquiry]) -> Inquiries:
    """Several inquiries, whose formulas are asked together; what each found, in their sequence."""
    found: dict[int, list[Blame]] = {}
    answers: dict[int, list[bool] | None] = dict.fromkeys(range(len(inquiries)))
    while answers:
        asked: dict[int, list[Formula]] = {}
        for number, answer in answers.items():
            try:
                asked[number] = inquiries[number].send(answer)  # type: ignore[arg-type]
            except StopIteration as ended:
                found[number] = ended.value
        answers = {}
        if asked:
            together = iter(
                (yield [formula for formulas in asked.values() for formula in formulas])
            )
            answers = {
                number: list(islice(together, len(formulas))) for number, formulas in asked.items()
            }
    return [found[number] for number in range(len(inquiries))]


def joined(inquiries: list[Inquiry]) -> Inquiry:
    """Several inquiries as one."""
    found = yield from side_by_side(inquiries)
    return [blame for blames in found for blame in blames]


def carried_out(inquiries: list[Inquiry], questions: Questions) -> list[list[Blame]]:
    """What each inquiry finds where its formulas are asked on a layout."""
    asking = side_by_side(inquiries)
    answers: list[bool] | None = None
    while True:
        try:
            answers = questions.ask(asking.send(answers))  # type: ignore[arg-type]
        except StopIteration as ended:
            return cast(list[list[Blame]], ended.value)


def under(prefix: Prefix, formula: Formula) -> Formula:
    """The formula with the objects of the prefix for its variables."""
    for fixed in reversed(prefix):
        formula = Quantified("forall", 0, fixed.variable, (fixed.name,), None, formula)
    return formula


def settled(blames: list[Blame]) -> Inquiry:
    """An inquiry that has nothing to ask."""
    yield from ()
    return blames


@dataclass(frozen=True)
class Judge:
    """Finds which parts of rules do not hold, and for which of the objects. Quantifiers pass those
    by that are `gone`."""

    names: list[str]
    gone: frozenset[str] = frozenset()

    def checked(self, prefix: Prefix, formula: Formula) -> Inquiry:
        """Why a formula does not hold; nothing where it holds."""
        match formula:
            case Joined("and", _) | Quantified(boxes_of=None, kind="forall"):
                return (yield from self.blames(prefix, formula))
        (holds,) = yield [under(prefix, formula)]
        return [] if holds else (yield from self.blames(prefix, formula))

    def blames(self, prefix: Prefix, formula: Formula) -> Inquiry:
        """Why a formula that does not hold does not; of a `forall` and of parts joined by `and`,
        nothing where they hold."""
        match formula:
            case Joined("and", parts):
                return self.blames_of_parts(prefix, parts)
            case Joined("implies", (_, then)):
                return self.blames(prefix, then)
            case Not():
                turned = pushed_in(formula)
                return (
                    self.leaf(prefix, formula) if turned == formula else self.blames(prefix, turned)
                )
            case Quantified(boxes_of=None, kind="forall"):
                return self.blames_of_each(prefix, formula)
            case Quantified(boxes_of=None, kind="atmost"):
                return self.too_many(prefix, formula)
            case Quantified(boxes_of=None):
                return self.too_few(prefix, formula)
        return self.leaf(prefix, formula)

    def blames_of_parts(self, prefix: Prefix, parts: tuple[Formula, ...]) -> Inquiry:
        answers = yield [under(prefix, part) for part in parts]
        broken = [part for part, holds in zip(parts, answers) if not holds]
        return (yield from joined([self.blames(prefix, part) for part in broken]))

    def blames_of_each(self, prefix: Prefix, formula: Quantified) -> Inquiry:
        names = self.elements(formula)
        answers = yield self.of_each(prefix, formula, formula.body)
        broken = [
            (*prefix, Fixed(formula.variable, name))
            for name, holds in zip(names, answers)
            if not holds
        ]
        return (yield from joined([self.blames(each, formula.body) for each in broken]))

    def elements(self, formula: Quantified) -> list[str]:
        names = self.names if formula.listed is None else formula.listed
        return [name for name in names if name not in self.gone]

    def of_each(self, prefix: Prefix, formula: Quantified, body: Formula) -> list[Formula]:
        """A body with each of a quantifier's objects for its variable."""
        return [
            under((*prefix, Fixed(formula.variable, name)), body) for name in self.elements(formula)
        ]

    def too_many(self, prefix: Prefix, formula: Quantified) -> Inquiry:
        answers = yield self.of_each(prefix, formula, formula.body)
        found = [name for name, holds in zip(self.elements(formula), answers) if holds]
        note = f"it holds for {len(found)}, and for {formula.count} at most it may"
        return [Blame((*names_of(prefix), *found), formula, note)]

    def too_few(self, prefix: Prefix, formula: Quantified) -> Inquiry:
        answers = yield self.of_each(prefix, formula, formula.body)
        found = [name for name, holds in zip(self.elements(formula), answers) if holds]
        if not found:
            return [Blame(names_of(prefix), formula, "it holds for no object")]
        note = f"it holds for {', '.join(found)} alone, and {formula.count} are wanted"
        return [Blame(names_of(prefix), formula, note)]

    def blames_of_pairs(self, pairs: list[tuple[str, str]], formula: Formula) -> Inquiry:
        """The pairs among these for which the body of two `forall` does not hold."""
        assert isinstance(formula, Quantified) and isinstance(formula.body, Quantified)
        first, second, body = formula.variable, formula.body.variable, formula.body.body
        prefixes = [(Fixed(first, one), Fixed(second, other)) for one, other in pairs]
        answers = yield [under(prefix, body) for prefix in prefixes]
        return [
            Blame(names_of(prefix), body) for prefix, holds in zip(prefixes, answers) if not holds
        ]

    def leaf(self, prefix: Prefix, formula: Formula) -> Inquiry:
        bound = {fixed.variable for fixed in prefix}
        named = [name for name in mentioned(formula) if name in self.names and name not in bound]
        return settled([Blame(tuple(dict.fromkeys((*names_of(prefix), *named))), formula)])


def names_of(prefix: Prefix) -> tuple[str, ...]:
    return tuple(fixed.name for fixed in prefix)


def mentioned(formula: Formula) -> list[str]:
    """The names that a formula says outside its own quantifiers' variables, in their sequence."""
    found: list[str] = []
    hidden: set[str] = set()
    for part in all_parts(formula):
        match part:
            case FieldOf(owner, _):
                found.append(owner)
            case Quantified():
                hidden.add(part.variable)
                found.extend((*(part.listed or ()), part.boxes_of or ""))
            case Call():
                found.extend(
                    argument.name for argument in part.arguments if isinstance(argument, Bare)
                )
    return [name for name in dict.fromkeys(found) if name not in hidden]


def pushed_in(formula: Not) -> Formula:
    """The same as a negation, said by the opposite of what it negates where it has one."""
    match formula.inner:
        case Not(inner):
            return inner
        case Joined("or", parts):
            return Joined("and", tuple(Not(part) for part in parts))
        case Joined("implies", (given, then)):
            return Joined("and", (given, Not(then)))
        case Quantified(kind="exists") as inner:
            return replace(inner, kind="forall", body=Not(inner.body))
        case Quantified(kind="atleast") as inner if inner.count > 0:
            return replace(inner, kind="atmost", count=inner.count - 1)
        case Compare(left, relation, right):
            return Compare(left, OPPOSITES[relation], right)
    return formula


# `apart` and `within` as formulas


def end_of(owner: str, box: str, dimension: int, far: bool) -> Expr:
    steps: list[tuple[str, Expr]] = [("+", FieldOf(box, f"t{dimension}"))]
    if far:
        steps.append(("+", FieldOf(box, f"l{dimension}")))
    return Chain(FieldOf(owner, f"x{dimension}"), tuple(steps))


def apart_formula(dims: int) -> Formula:
    parts: list[Formula] = []
    for dimension in range(1, dims + 1):
        parts.append(
            Compare(end_of("p", "s", dimension, True), "<=", end_of("q", "t", dimension, False))
        )
        parts.append(
            Compare(end_of("q", "t", dimension, True), "<=", end_of("p", "s", dimension, False))
        )
    body: Formula = Joined("or", (Compare(FieldOf("p", "id"), ">=", FieldOf("q", "id")), *parts))
    for variable, owner in (("t", "q"), ("s", "p")):
        body = Quantified("forall", 0, variable, None, owner, body)
    for variable in ("q", "p"):
        body = Quantified("forall", 0, variable, None, None, body)
    return body


def within_formula(ranges: tuple[tuple[int, int], ...]) -> Formula:
    parts: list[Formula] = []
    for dimension, (low, high) in enumerate(ranges, 1):
        parts.append(Compare(end_of("p", "s", dimension, False), ">=", integer(low)))
        parts.append(Compare(end_of("p", "s", dimension, True), "<=", integer(high + 1)))
    body: Formula = Joined("and", tuple(parts))
    return Quantified("forall", 0, "p", None, None, Quantified("forall", 0, "s", None, "p", body))


def integer(value: int) -> Expr:
    return Number(value) if value >= 0 else Negative(Number(-value))


def as_formula(body: Apart | Within | Formula, dims: int) -> Formula:
    match body:
        case Apart():
            return apart_formula(dims)
        case Within(ranges):
            return within_formula(ranges)
    return body


# The lines of an explanation


def explain_broken(program: Program, problem: Problem, layout: list[Placed]) -> list[str]:
    """All rules that the layout breaks, each with the objects that break it."""
    inquiries = [inquiry_of(rule, problem, layout) for rule in problem.rules]
    found = carried_out(inquiries, Questions(program, problem, layout))
    broken = [(rule, blames) for rule, blames in zip(problem.rules, found) if blames]
    lines = [f"the plan breaks {len(broken)} of {len(problem.rules)} rules"]
    for rule, blames in broken:
        lines.append(f"rule {rule.name}:")
        lines.extend(
            line
            for blame in without_twins(blames)
            for line in blame_lines(rule, blame, problem, layout)
        )
    return lines


def inquiry_of(rule: Rule, problem: Problem, layout: list[Placed]) -> Inquiry:
    """Why a rule does not hold on a layout, or nothing. Of `apart` only those pairs are asked whose
    least boxes meet."""
    gone = frozenset(placed.name for placed in layout if placed.is_absent)
    judge = Judge([thing.name for thing in problem.objects], gone)
    formula = as_formula(rule.body, problem.dims)
    if isinstance(rule.body, Apart):
        return judge.blames_of_pairs(meeting_pairs(problem, layout), formula)
    return judge.checked((), formula)


def meeting_pairs(problem: Problem, layout: list[Placed]) -> list[tuple[str, str]]:
    """The pairs of objects whose least boxes have a cell in common."""
    spans = {
        placed.name: spans_of(problem, placed) for placed in layout if not placed.is_absent
    }
    return [
        (one, other)
        for one, other in combinations(spans, 2)
        if all(a <= d and c <= b for (a, b), (c, d) in zip(spans[one], spans[other]))
    ]


def without_twins(blames: list[Blame]) -> list[Blame]:
    """One blame for each set of objects."""
    return list({frozenset(blame.objects): blame for blame in reversed(blames)}.values())[::-1]


def blame_lines(rule: Rule, blame: Blame, problem: Problem, layout: list[Placed]) -> list[str]:
    lines = [
        "  "
        + (
            " and ".join(blame.objects)
            if blame.objects
            else "no single objects: the rule speaks of all of them"
        )
    ]
    lines.extend(
        "    " + where(problem, next(placed for placed in layout if placed.name == name))
        for name in blame.objects
    )
    if isinstance(rule.body, Apart):
        lines.append("    share a cell")
    elif isinstance(rule.body, Within):
        lines.append(
            f"    reaches out of {' '.join(f'{low}..{high}' for low, high in rule.body.ranges)}"
        )
    else:
        lines.append(f"    does not hold: {print_formula(blame.part)}")
    return lines + ([f"    {blame.note}"] if blame.note else [])


def spans_of(problem: Problem, placed: Placed) -> list[tuple[int, int]]:
    """The least box that has an object's cells: its first and last coordinate in each dimension."""
    boxes = problem.shape(placed.shape).boxes
    return [
        (
            value + min(box.offsets[dimension] for box in boxes),
            value + max(box.offsets[dimension] + box.sizes[dimension] - 1 for box in boxes),
        )
        for dimension, value in enumerate(placed.origin)
    ]


def where(problem: Problem, placed: Placed) -> str:
    """An object's line of the layout, with the least box that has its cells."""
    if placed.is_absent:
        return print_placed(placed)
    spans = " ".join(f"{low}..{high}" for low, high in spans_of(problem, placed))
    return f"{print_placed(placed)}, with cells in {spans}"
