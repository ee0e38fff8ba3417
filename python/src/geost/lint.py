"""What is allowed in a problem and yet seldom meant."""

from __future__ import annotations

import difflib
import math
from collections.abc import Callable, Iterator
from dataclasses import dataclass, replace

from geost.blame import as_formula
from geost.narrowing import rules_with_support_by_any
from geost.program import BUDGET, NO, OUT_OF_TIME, Program
from geost.text import (
    Apart,
    Box,
    Chain,
    Compare,
    Expr,
    FieldOf,
    Formula,
    Not,
    Number,
    Object,
    Problem,
    Rule,
    Within,
    print_pieces,
    print_problem,
)
from geost.trees import all_parts

LEAST_DIVISOR = 10
PRESENT = "objects that may not be absent"
STEPS_TO_BREAK_A_RULE = 2000
SECONDS_TO_BREAK_A_RULE = 10
STEPS_OF_A_SHORT_SEARCH = 2000
SECONDS_OF_A_SHORT_SEARCH = 10


@dataclass(frozen=True)
class Lint:
    """A problem, and a program that can be asked about parts of it."""

    problem: Problem
    program: Program

    def formulas(self) -> list[Formula | Expr]:
        rules = [
            rule.body for rule in self.problem.rules if not isinstance(rule.body, (Apart, Within))
        ]
        return [*rules, *(macro.body for macro in self.problem.macros)]

    def parts(self) -> Iterator[Formula | Expr]:
        for formula in self.formulas():
            yield from all_parts(formula)

    def fields_read(self) -> set[str]:
        return {part.name for part in self.parts() if isinstance(part, FieldOf)}

    def listing(self, attribute: str) -> list[str]:
        return [thing.name for thing in self.problem.objects if attribute in dict(thing.attributes)]

    def withins(self) -> list[Within]:
        return [rule.body for rule in self.problem.rules if isinstance(rule.body, Within)]

    def boxes(self, thing: Object) -> list[list[Box]]:
        """The boxes of each shape that an object may take."""
        return [list(self.problem.shape(name).boxes) for name in thing.real_shapes]

    # Attributes

    def attributes_of_one_object(self) -> Iterator[str]:
        names = self.problem.attribute_names()
        read = self.fields_read()
        for name in names:
            owners = self.listing(name)
            if (
                len(owners) == 1
                and len(self.problem.objects) > 1
                and (name in read or len(names) > 1)
            ):
                alone = f"is listed by `{owners[0]}` alone"
                yield f"the attribute `{name}` {alone}; for every other object it is 0"

    def attributes_that_are_nearly_equal(self) -> Iterator[str]:
        names = self.problem.attribute_names()
        read = self.fields_read()
        for place, name in enumerate(names):
            others = [
                other
                for other in names[place + 1 :]
                if nearly(name, other) and not {name, other} <= read
            ]
            for other in others:
                counts = f"{len(self.listing(name))} and {len(self.listing(other))} objects"
                same = "have nearly the same name"
                yield f"the attributes `{name}` and `{other}` {same}; they are listed by {counts}"

    def attributes_that_few_leave_out(self) -> Iterator[str]:
        for name in self.problem.attribute_names():
            owners = self.listing(name)
            missing = [thing.name for thing in self.problem.objects if thing.name not in owners]
            if (
                name in self.fields_read()
                and len(owners) > 1
                and 0 < 4 * len(missing) <= len(owners)
            ):
                others = f"all {len(owners)} other objects"
                without = f"is not listed by {spoken(missing)}"
                yield f"the attribute `{name}` {without}, where it is 0, though by {others}"

    # Ranges and room

    def ranges_outside(self) -> Iterator[str]:
        for within in self.withins():
            for thing in self.problem.objects:
                for dimension in range(self.problem.dims):
                    yield from self.range_outside(thing, dimension, within.ranges[dimension])

    def range_outside(self, thing: Object, dimension: int, room: tuple[int, int]) -> Iterator[str]:
        fits = [origins_inside(boxes, dimension, room) for boxes in self.boxes(thing)]
        pieces = thing.pieces[dimension]
        low, high = thing.ranges[dimension]
        least, most = min(fit[0] for fit in fits), max(fit[1] for fit in fits)
        text = f"x{dimension + 1} of `{thing.name}` in {print_pieces(pieces)}"
        if not any(max(a, fit[0]) <= min(b, fit[1]) for a, b in pieces for fit in fits):
            yield f"{text}: at no place the object lies within {room[0]}..{room[1]}"
        elif low < least:
            yield f"{text}: below {least} the object is never within {room[0]}..{room[1]}"
        elif high > room[1] + 1 and high > most:
            yield f"{text}: above {most} the object is never within {room[0]}..{room[1]}"

    def volumes(self) -> Iterator[str]:
        if not any(isinstance(rule.body, Apart) for rule in self.problem.rules):
            return
        always_there = [thing for thing in self.problem.objects if not thing.may_be_absent]
        wanted = sum(min(volume(boxes) for boxes in self.boxes(thing)) for thing in always_there)
        for within in self.withins():
            room = math.prod(max(0, high - low + 1) for low, high in within.ranges)
            if wanted > room:
                ranges = spoken_ranges(within.ranges)
                there = f"there are {room} within {ranges}"
                which = "objects" if len(always_there) == len(self.problem.objects) else PRESENT
                yield f"the {which} have {wanted} cells at least, and {there}: there is no layout"

    # Lengths

    def common_divisors(self) -> Iterator[str]:
        for dimension in range(self.problem.dims):
            divisor = math.gcd(*self.lengths(dimension))
            if divisor >= LEAST_DIVISOR:
                same = "a unit of that length makes the same problem with smaller numbers"
                yield f"all lengths of dimension {dimension + 1} are multiples of {divisor}: {same}"

    def lengths(self, dimension: int) -> list[int]:
        """All lengths of a dimension; of a range its low end alone, since its high end may be
        lowered to a multiple."""
        boxes = [box for shape in self.problem.shapes for box in shape.boxes]
        found = [
            length for box in boxes for length in (box.sizes[dimension], box.offsets[dimension])
        ]
        found += [low for thing in self.problem.objects for low, _ in thing.pieces[dimension]]
        for within in self.withins():
            low, high = within.ranges[dimension]
            found += [low, high + 1]
        return found + self.numbers_in_comparisons()

    def numbers_in_comparisons(self) -> list[int]:
        """The numbers that are compared with coordinates or boxes in some rule or macro."""
        found: list[int] = []
        for part in self.parts():
            if isinstance(part, Compare) and any(is_length(field) for field in all_parts(part)):
                found += [
                    number.value
                    for side in (part.left, part.right)
                    for number in summands(side)
                    if isinstance(number, Number)
                ]
        return found

    # Rules

    def rules_that_nothing_breaks(self) -> Iterator[str]:
        for rule in self.problem.rules:
            broken = Rule(rule.name, Not(as_formula(rule.body, self.problem.dims)))
            alone = print_problem(replace(self.problem, rules=(broken,)))
            answer = self.program.ask(
                ["first", str(STEPS_TO_BREAK_A_RULE)], alone.encode(), SECONDS_TO_BREAK_A_RULE
            )
            if answer.status == NO:
                where = "no placement of the objects in their ranges"
                yield f"the rule `{rule.name}` is broken by {where}: it says nothing"

    def support_by_any(self) -> Iterator[str]:
        """Where a short search of the problem does not end: the rules that want some other object,
        whichever, so that the search sees late what they forbid."""
        names = rules_with_support_by_any(self.problem)
        if not names:
            return
        words = ["all", "1", str(STEPS_OF_A_SHORT_SEARCH)]
        text = print_problem(self.problem).encode()
        answer = self.program.ask(words, text, SECONDS_OF_A_SHORT_SEARCH)
        if answer.status in (BUDGET, OUT_OF_TIME):
            for name in names:
                advice = "list those that may do it, or let it be one that is placed before"
                yield f"the rule `{name}` is kept by any other object, which is seen late: {advice}"

    def warnings(self) -> Iterator[str]:
        checks: list[Callable[[], Iterator[str]]] = [
            self.attributes_of_one_object,
            self.attributes_that_are_nearly_equal,
            self.attributes_that_few_leave_out,
            self.ranges_outside,
            self.volumes,
            self.common_divisors,
            self.rules_that_nothing_breaks,
            self.support_by_any,
        ]
        for check in checks:
            yield from check()


def nearly(one: str, other: str) -> bool:
    """Whether two names differ as by a slip: in upper and lower case, or in one or two letters of
    at least four."""
    if one.lower() == other.lower():
        return True
    if one.rstrip("0123456789") == other.rstrip("0123456789"):
        return False
    return (
        min(len(one), len(other)) >= 4 and difflib.SequenceMatcher(None, one, other).ratio() >= 0.8
    )


def origins_inside(boxes: list[Box], dimension: int, room: tuple[int, int]) -> tuple[int, int]:
    """The least and the greatest origin with which all boxes lie in a range."""
    low = max(room[0] - box.offsets[dimension] for box in boxes)
    high = min(room[1] + 1 - box.offsets[dimension] - box.sizes[dimension] for box in boxes)
    return low, high


def volume(boxes: list[Box]) -> int:
    """The cells of a shape's boxes: exact where there is one box, else those of the largest, which
    is a lower bound."""
    return (
        max(box.volume() for box in boxes)
        if overlapping(boxes)
        else sum(box.volume() for box in boxes)
    )


def overlapping(boxes: list[Box]) -> bool:
    return any(
        share_cells(one, other) for place, one in enumerate(boxes) for other in boxes[place + 1 :]
    )


def share_cells(one: Box, other: Box) -> bool:
    return all(
        a < b + m and b < a + n
        for a, n, b, m in zip(one.offsets, one.sizes, other.offsets, other.sizes)
    )


def is_length(part: Formula | Expr) -> bool:
    return (
        isinstance(part, FieldOf)
        and len(part.name) == 2
        and part.name[0] in "xtl"
        and part.name[1].isdigit()
    )


def summands(expr: Expr) -> list[Expr]:
    if isinstance(expr, Chain) and expr.steps[0][0] in "+-":
        return [expr.first, *(part for _, part in expr.steps)]
    return [expr]


def spoken(names: list[str]) -> str:
    return " and ".join(f"`{name}`" for name in names)


def spoken_ranges(ranges: tuple[tuple[int, int], ...]) -> str:
    return " ".join(f"{low}..{high}" for low, high in ranges)
