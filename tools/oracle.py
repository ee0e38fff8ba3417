"""A second, plain meaning of problems, to check answers with: sets of cells, and formulas by their cases.

It shares nothing with the program but the text. It is slow, and for small problems and single layouts alone.
"""

from __future__ import annotations

import itertools
import operator
from dataclasses import dataclass, field, replace
from typing import Callable, Iterator

from geost.text import (
    ABSENT,
    Apart,
    Bare,
    Box,
    Call,
    Chain,
    Compare,
    Expr,
    Extreme,
    FieldOf,
    Formula,
    Joined,
    Macro,
    Negative,
    Not,
    Number,
    Placed,
    Problem,
    Quantified,
    Rule,
    ShapeNumber,
    Truth,
    Within,
    absent,
)

Cell = tuple[int, ...]
Value = int | str | Box
COMPARISONS: dict[str, Callable[[int, int], bool]] = {
    "<": operator.lt,
    "<=": operator.le,
    "=": operator.eq,
    "!=": operator.ne,
    ">=": operator.ge,
    ">": operator.gt,
}
STEPS: dict[str, Callable[[int, int], int]] = {
    "+": operator.add,
    "-": operator.sub,
    "*": operator.mul,
    "div": operator.floordiv,
    "mod": operator.mod,
}


class NotPlacedYet(Exception):
    """A formula asks for an object that has no place so far."""


@dataclass
class Plan:
    """Some or all objects of a problem at their places."""

    problem: Problem
    placed: dict[str, Placed]
    cells: dict[str, frozenset[Cell]] = field(default_factory=dict)

    def __post_init__(self) -> None:
        for name in self.placed:
            self.cells[name] = cells_of(self.problem, self.placed[name])

    def where(self, name: str) -> Placed:
        if name not in self.placed:
            raise NotPlacedYet(name)
        return self.placed[name]


def cells_of(problem: Problem, placed: Placed) -> frozenset[Cell]:
    found: set[Cell] = set()
    for box in problem.shape(placed.shape).boxes:
        sides = [
            range(place + offset, place + offset + size) for place, offset, size in zip(placed.origin, box.offsets, box.sizes)
        ]
        found.update(itertools.product(*sides))
    return frozenset(found)


def origin_of(problem: Problem, placed: Placed) -> Cell:
    """The coordinates of an object; one that is absent has the first values."""
    return problem.first_values(problem.object(placed.name)) if placed.is_absent else placed.origin


def plan_of(problem: Problem, layout: list[Placed]) -> Plan:
    assert [placed.name for placed in layout] == [thing.name for thing in problem.objects]
    for placed, thing in zip(layout, problem.objects):
        assert placed.shape in thing.shapes
        for value, pieces in zip(origin_of(problem, placed), thing.pieces, strict=True):
            assert any(low <= value <= high for low, high in pieces)
    return Plan(problem, {placed.name: placed for placed in layout})


# The values of expressions and the truth of formulas, each in an environment of variables and parameters

Environment = dict[str, Value]


def value(plan: Plan, expr: Expr, known: Environment) -> Value:
    match expr:
        case Number(given):
            return given
        case FieldOf(owner, name):
            return field_value(plan, known.get(owner, owner), name)
        case Bare(name):
            return known.get(name, name)
        case ShapeNumber(name):
            return plan.problem.shape_number(name)
        case Negative(inner):
            return -number(plan, inner, known)
        case Extreme(word, left, right):
            return (min if word == "min" else max)(number(plan, left, known), number(plan, right, known))
        case Chain(first, steps):
            result = number(plan, first, known)
            for mark, part in steps:
                result = STEPS[mark](result, number(plan, part, known))
            return result
        case Call():
            macro, inside = called(plan, expr, known)
            return number(plan, macro.body, inside)  # type: ignore[arg-type]
    raise AssertionError(expr)


def number(plan: Plan, expr: Expr, known: Environment) -> int:
    result = value(plan, expr, known)
    assert isinstance(result, int)
    return result


def called(plan: Plan, call: Call, known: Environment) -> tuple[Macro, Environment]:
    macro = next(macro for macro in plan.problem.macros if macro.name == call.name)
    given = [value(plan, argument, known) for argument in call.arguments]
    return macro, dict(zip((name for name, _ in macro.parameters), given))


def field_value(plan: Plan, owner: Value, name: str) -> int:
    if isinstance(owner, Box):
        return (owner.offsets if name[0] == "t" else owner.sizes)[int(name[1:]) - 1]
    assert isinstance(owner, str)
    if name == "id":
        return 1 + [thing.name for thing in plan.problem.objects].index(owner)
    if name == "sid":
        return plan.problem.shape_number(plan.where(owner).shape)
    if name[0] == "x" and name[1:].isdigit() and len(name) == 2:
        return origin_of(plan.problem, plan.where(owner))[int(name[1:]) - 1]
    return dict(plan.problem.object(owner).attributes).get(name, 0)


def elements(plan: Plan, formula: Quantified, known: Environment) -> list[Value]:
    """What a quantifier goes over: it passes those objects by that are absent."""
    if formula.boxes_of is not None:
        owner = known.get(formula.boxes_of, formula.boxes_of)
        assert isinstance(owner, str)
        return list(plan.problem.shape(plan.where(owner).shape).boxes)
    names = formula.listed or [thing.name for thing in plan.problem.objects]
    return [name for name in names if name not in plan.placed or not plan.placed[name].is_absent]


def is_open(plan: Plan, element: Value) -> bool:
    """Whether it is not known yet that an object is there."""
    if not isinstance(element, str) or element in plan.placed:
        return False
    return plan.problem.object(element).may_be_absent


def truth(plan: Plan, formula: Formula, known: Environment) -> bool | None:
    """Whether a formula holds; None where the objects without a place decide it."""
    match formula:
        case Truth(given):
            return given
        case Not(inner):
            return negated(truth(plan, inner, known))
        case Compare(left, relation, right):
            try:
                return COMPARISONS[relation](number(plan, left, known), number(plan, right, known))
            except NotPlacedYet:
                return None
        case Joined(word, parts):
            return joined(word, [truth(plan, part, known) for part in parts])
        case Call():
            macro, inside = called(plan, formula, known)
            return truth(plan, macro.body, inside)  # type: ignore[arg-type]
        case Quantified():
            return quantified(plan, formula, known)
    raise AssertionError(formula)


def negated(given: bool | None) -> bool | None:
    return None if given is None else not given


def joined(word: str, parts: list[bool | None]) -> bool | None:
    if word == "implies":
        return joined("or", [negated(parts[0]), parts[1]])
    if word == "iff":
        return None if None in parts else parts[0] == parts[1]
    decides = word == "or"
    if decides in parts:
        return decides
    return None if None in parts else not decides


def quantified(plan: Plan, formula: Quantified, known: Environment) -> bool | None:
    try:
        found = elements(plan, formula, known)
    except NotPlacedYet:
        return None
    # what an element adds by which the quantifier is as if it were not there
    nothing = formula.kind == "forall"
    results: list[bool | None] = []
    for element in found:
        result = truth(plan, formula.body, {**known, formula.variable: element})
        results.append(None if is_open(plan, element) and result is not nothing else result)
    sure, open_ones = results.count(True), results.count(None)
    least = {"forall": len(results), "exists": 1, "atleast": formula.count, "atmost": 0}[formula.kind]
    if formula.kind == "atmost":
        return False if sure > formula.count else None if sure + open_ones > formula.count else True
    return True if sure >= least else None if sure + open_ones >= least else False


def rule_holds(plan: Plan, rule: Rule) -> bool | None:
    """Whether a rule holds; None where the objects without a place decide it."""
    match rule.body:
        case Apart():
            lists = list(plan.cells.values())
            broken = len(frozenset().union(*lists)) != sum(map(len, lists))
        case Within(ranges):
            broken = any(
                not all(low <= place <= high for place, (low, high) in zip(cell, ranges))
                for cells in plan.cells.values()
                for cell in cells
            )
        case _:
            return truth(plan, rule.body, {})
    if broken:
        return False
    return True if len(plan.placed) == len(plan.problem.objects) else None


def broken_rules(problem: Problem, layout: list[Placed]) -> list[str]:
    """The names of all rules that do not hold, in the order of the text."""
    plan = plan_of(problem, layout)
    return [rule.name for rule in problem.rules if rule_holds(plan, rule) is False]


# The first layout


def places(problem: Problem, name: str) -> Iterator[Placed]:
    """All places of an object, in the order of the search."""
    thing = problem.object(name)
    lines = [
        thing.values(dimension)[:: 1 if side == "low" else -1]
        for dimension, side in enumerate(problem.search_sides())
    ]
    for shape in thing.shapes:
        if shape == ABSENT:
            yield absent(name)
            continue
        for origin in itertools.product(*lines):
            yield Placed(name, shape, origin)


def first_layout(
    problem: Problem, most: int = 1_000_000, is_wanted: Callable[[Placed], bool] = lambda place: True
) -> list[Placed] | None:
    """The first layout in the stated order whose places are all wanted, or None where there is none.
    It gives up after so many places that were tried."""
    order = problem.search_order()
    tried = 0

    def fits(plan: Plan) -> bool:
        return all(rule_holds(plan, rule) is not False for rule in problem.rules)

    # a place at which an object breaks a rule by itself is no place at all
    alone = {name: [place for place in places(problem, name) if is_wanted(place) and fits(Plan(problem, {name: place}))] for name in order}

    def extend(placed: dict[str, Placed]) -> dict[str, Placed] | None:
        nonlocal tried
        if len(placed) == len(order):
            return placed if fits(Plan(problem, placed)) else None
        name = order[len(placed)]
        for place in alone[name]:
            tried += 1
            if tried > most:
                raise RuntimeError("too many places for a listing")
            longer = {**placed, name: place}
            if fits(Plan(problem, longer)):
                found = extend(longer)
                if found is not None:
                    return found
        return None

    found = extend({})
    return None if found is None else [found[thing.name] for thing in problem.objects]


def last_end(problem: Problem, layout: list[Placed], dimension: int) -> int | None:
    """The first number behind all cells of a layout in a dimension, from 1; None without a cell."""
    cells = [cell for placed in layout for cell in cells_of(problem, placed)]
    return max((cell[dimension - 1] + 1 for cell in cells), default=None)


def least_extent(
    problem: Problem, dimension: int, most: int = 1_000_000
) -> tuple[int | None, list[Placed]] | None:
    """The layout that ends first in a dimension, from 1, and where it ends; of several the first in
    the stated order. None where there is no layout."""
    best = None
    layout = first_layout(problem, most)
    while layout is not None:
        end = last_end(problem, layout, dimension)
        best = (end, layout)
        if end is None:
            break
        bound: int = end

        def ends_before(place: Placed, bound: int = bound) -> bool:
            return all(cell[dimension - 1] + 1 < bound for cell in cells_of(problem, place))

        layout = first_layout(problem, most, ends_before)
    return best


def loading(problem: Problem, layout: list[Placed], dimension: int) -> tuple[str, list[str]]:
    """`order` and the names in the first sequence in which the objects of a layout can go in along
    a dimension, from 1, from its high side; or `cycle` and names that block one another."""
    cells = {one.name: cells_of(problem, one) for one in layout if not one.is_absent}
    at = dimension - 1

    def blocks(name: str, other: str) -> bool:
        return name != other and any(
            mine[at] >= theirs[at] and mine[:at] + mine[at + 1 :] == theirs[:at] + theirs[at + 1 :]
            for mine in cells[name]
            for theirs in cells[other]
        )

    left, order = list(cells), []
    while left:
        free = next((name for name in left if not any(blocks(name, other) for other in left)), None)
        if free is None:
            path = [left[0]]
            while path[-1] not in path[:-1]:
                path.append(next(other for other in left if blocks(path[-1], other)))
            return "cycle", path[path.index(path[-1]) : -1]
        order.append(free)
        left.remove(free)
    return "order", order


def core(problem: Problem, most: int = 1_000_000) -> list[str]:
    """The names of rules that refuse together: each rule in turn is left out, and stays out where
    there is still no layout. The problem has none."""
    left = list(problem.rules)
    for rule in problem.rules:
        fewer = [other for other in left if other is not rule]
        if first_layout(replace(problem, rules=tuple(fewer)), most) is None:
            left = fewer
    return [rule.name for rule in left]
