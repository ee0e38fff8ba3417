"""A problem in the language of SMT solvers (SMT-LIB 2), and the layout that their answer says.

Each coordinate is an integer, and so is the number of an object's shape. Quantifiers and macros are
written out. Nothing here is proved or has to be believed: the program judges what comes of it.
"""

from __future__ import annotations

import operator
import re
from collections.abc import Callable, Iterator
from dataclasses import dataclass, field
from itertools import combinations, pairwise, product

from geost.text import (
    ABSENT,
    Apart,
    Bare,
    Box,
    Call,
    Chain,
    Compare,
    Expr,
    Extreme,
    FieldOf,
    Formula,
    Joined,
    Macro,
    Negative,
    Not,
    Number,
    Object,
    Placed,
    Problem,
    Quantified,
    Range,
    ShapeNumber,
    Truth,
    Within,
    absent,
)

TRUE, FALSE = "true", "false"
COMPARISONS: dict[str, Callable[[int, int], bool]] = {
    "<": operator.lt,
    "<=": operator.le,
    "=": operator.eq,
    "!=": operator.ne,
    ">=": operator.ge,
    ">": operator.gt,
}


@dataclass(frozen=True)
class Linear:
    """A constant and the factors of variables, none of them 0."""

    constant: int
    factors: tuple[tuple[str, int], ...] = ()

    def plus(self, other: Linear, sign: int = 1) -> Linear:
        sums = dict(self.factors)
        for name, factor in other.factors:
            sums[name] = sums.get(name, 0) + sign * factor
        left = tuple((name, factor) for name, factor in sums.items() if factor)
        return Linear(self.constant + sign * other.constant, left)

    def times(self, factor: int) -> Linear:
        if factor == 0:
            return Linear(0)
        scaled = tuple((name, factor * each) for name, each in self.factors)
        return Linear(factor * self.constant, scaled)

    def printed(self) -> str:
        """The variables' part."""
        terms = [
            f"(* {printed_number(factor)} {name})" if factor != 1 else name
            for name, factor in self.factors
        ]
        return f"(+ {' '.join(terms)})" if len(terms) > 1 else terms[0]


@dataclass(frozen=True)
class AnyBox:
    """The one box of an object, whichever of its shapes it has."""

    owner: Object


Value = Object | Box | AnyBox | Linear
Environment = dict[str, Value]


def printed_number(value: int) -> str:
    return str(value) if value >= 0 else f"(- {-value})"


def conjunction(parts: list[str]) -> str:
    return joined("and", [part for part in parts if part != TRUE], TRUE, FALSE)


def disjunction(parts: list[str]) -> str:
    return joined("or", [part for part in parts if part != FALSE], FALSE, TRUE)


def joined(word: str, parts: list[str], of_none: str, decides: str) -> str:
    if decides in parts:
        return decides
    if len(parts) < 2:
        return parts[0] if parts else of_none
    return f"({word} {' '.join(parts)})"


def negation(part: str) -> str:
    return {TRUE: FALSE, FALSE: TRUE}.get(part, f"(not {part})")


def compared(left: Linear, relation: str, right: Linear) -> str:
    """The comparison of two sums."""
    difference = left.plus(right, -1)
    if not difference.factors:
        return TRUE if COMPARISONS[relation](difference.constant, 0) else FALSE
    limit = printed_number(-difference.constant)
    if relation == "!=":
        return f"(not (= {difference.printed()} {limit}))"
    return f"({relation} {difference.printed()} {limit})"


def holes(name: str, pieces: tuple[Range, ...]) -> Iterator[str]:
    """That a coordinate lies in no hole between its pieces."""
    for (_, last), (first, _) in pairwise(pieces):
        outside = f"(or (<= {name} {printed_number(last)}) (<= {printed_number(first)} {name}))"
        yield f"(assert {outside})"


@dataclass
class Writer:
    """Writes the formulas of a problem."""

    problem: Problem
    macros: dict[str, Macro] = field(default_factory=dict)
    objects: dict[str, Object] = field(default_factory=dict)

    def __post_init__(self) -> None:
        self.macros = {macro.name: macro for macro in self.problem.macros}
        self.objects = {thing.name: thing for thing in self.problem.objects}
        self.shapes = {shape.name: shape for shape in self.problem.shapes}
        self.numbers = {shape.name: at for at, shape in enumerate(self.problem.shapes, 1)}
        self.numbers[ABSENT] = 0
        self.places = {thing.name: at for at, thing in enumerate(self.problem.objects, 1)}

    # Variables

    def coordinate(self, thing: Object, dimension: int) -> Linear:
        low, high = thing.ranges[dimension]
        return Linear(low) if low == high else Linear(0, ((f"x{dimension + 1}_{thing.name}", 1),))

    def shape_number(self, thing: Object) -> Linear:
        if len(thing.shapes) == 1:
            return Linear(self.numbers[thing.shapes[0]])
        return Linear(0, ((f"sid_{thing.name}", 1),))

    def has_shape(self, thing: Object, shape: str) -> str:
        return compared(self.shape_number(thing), "=", Linear(self.numbers[shape]))

    def has_one_box(self, thing: Object) -> bool:
        return all(len(self.shapes[name].boxes) == 1 for name in thing.real_shapes)

    def is_there(self, thing: Object) -> str:
        """That an object is not absent."""
        return negation(self.has_shape(thing, ABSENT)) if thing.may_be_absent else TRUE

    def box_field(self, thing: Object, letter: str, dimension: int) -> Linear:
        """An offset (`t`) or a length (`l`) of the one box of an object."""
        values = {
            self.box_value(self.shapes[name].boxes[0], letter, dimension)
            for name in thing.real_shapes
        }
        if len(values) == 1:
            return Linear(values.pop())
        return Linear(0, ((f"{letter}{dimension + 1}_{thing.name}", 1),))

    def box_value(self, box: Box, letter: str, dimension: int) -> int:
        return (box.offsets if letter == "t" else box.sizes)[dimension]

    def declarations(self) -> Iterator[str]:
        for thing in self.problem.objects:
            for dimension, (low, high) in enumerate(thing.ranges):
                for name, _ in self.coordinate(thing, dimension).factors:
                    yield f"(declare-const {name} Int)"
                    yield f"(assert (<= {printed_number(low)} {name} {printed_number(high)}))"
                    yield from holes(name, thing.pieces[dimension])
            for name, _ in self.shape_number(thing).factors:
                yield f"(declare-const {name} Int)"
                shapes = disjunction([self.has_shape(thing, shape) for shape in thing.shapes])
                yield f"(assert {shapes})"
            yield from self.first_values(thing)
            if self.has_one_box(thing):
                yield from self.declarations_of_box(thing)

    def first_values(self, thing: Object) -> Iterator[str]:
        """That an absent object has the first value of each coordinate."""
        for dimension, value in enumerate(self.problem.first_values(thing)):
            at_first = compared(self.coordinate(thing, dimension), "=", Linear(value))
            if thing.may_be_absent and at_first != TRUE:
                yield f"(assert {disjunction([self.is_there(thing), at_first])})"

    def declarations_of_box(self, thing: Object) -> Iterator[str]:
        for letter, dimension in product("tl", range(self.problem.dims)):
            for name, _ in self.box_field(thing, letter, dimension).factors:
                yield f"(declare-const {name} Int)"
                for shape in thing.real_shapes:
                    value = printed_number(
                        self.box_value(self.shapes[shape].boxes[0], letter, dimension)
                    )
                    yield f"(assert (=> {self.has_shape(thing, shape)} (= {name} {value})))"

    # Expressions

    def value(self, expr: Expr, known: Environment) -> Value:
        match expr:
            case Number(number):
                return Linear(number)
            case ShapeNumber(name):
                return Linear(self.numbers[name])
            case Bare(name):
                return known[name] if name in known else self.objects[name]
            case FieldOf(owner, name):
                return self.field(known[owner] if owner in known else self.objects[owner], name)
            case Negative(inner):
                return self.linear(inner, known).times(-1)
            case Extreme(word, left, right):
                pick = min if word == "min" else max
                return Linear(
                    pick(self.linear(left, known).constant, self.linear(right, known).constant)
                )
            case Call(_, name, _):
                macro, inside = self.called(expr, known)
                return self.value(macro.body, inside)  # type: ignore[arg-type]
            case Chain(first, steps):
                found = self.linear(first, known)
                for mark, part in steps:
                    found = self.step(found, mark, self.linear(part, known))
                return found
        raise AssertionError(expr)

    def linear(self, expr: Expr, known: Environment) -> Linear:
        value = self.value(expr, known)
        assert isinstance(value, Linear)
        return value

    def step(self, left: Linear, mark: str, right: Linear) -> Linear:
        match mark:
            case "+":
                return left.plus(right)
            case "-":
                return left.plus(right, -1)
            case "*":
                return (
                    left.times(right.constant) if not right.factors else right.times(left.constant)
                )
            case "div":
                return Linear(left.constant // right.constant)
        return Linear(left.constant % right.constant)

    def field(self, owner: Value, name: str) -> Linear:
        letter, digit = name[0], name[1:]
        match owner:
            case Object() if name == "id":
                return Linear(self.places[owner.name])
            case Object() if name == "sid":
                return self.shape_number(owner)
            case Object() if letter == "x" and digit.isdigit() and int(digit) <= self.problem.dims:
                return self.coordinate(owner, int(digit) - 1)
            case Object():
                return Linear(dict(owner.attributes).get(name, 0))
            case Box():
                return Linear(self.box_value(owner, letter, int(digit) - 1))
            case AnyBox(thing):
                return self.box_field(thing, letter, int(digit) - 1)
        raise AssertionError(owner)

    def called(self, call: Call, known: Environment) -> tuple[Macro, Environment]:
        macro = self.macros[call.name]
        given = [self.value(argument, known) for argument in call.arguments]
        return macro, dict(zip((name for name, _ in macro.parameters), given))

    # Formulas

    def formula(self, formula: Formula, known: Environment) -> str:
        match formula:
            case Truth(value):
                return TRUE if value else FALSE
            case Not(inner):
                return negation(self.formula(inner, known))
            case Joined("and", parts):
                return conjunction([self.formula(part, known) for part in parts])
            case Joined("or", parts):
                return disjunction([self.formula(part, known) for part in parts])
            case Joined("implies", (given, then)):
                if (first := negation(self.formula(given, known))) == TRUE:
                    return TRUE
                return disjunction([first, self.formula(then, known)])
            case Joined(_, (left, right)):
                return f"(= {self.formula(left, known)} {self.formula(right, known)})"
            case Compare(left, relation, right):
                return compared(self.linear(left, known), relation, self.linear(right, known))
            case Call():
                macro, inside = self.called(formula, known)
                return self.formula(macro.body, inside)  # type: ignore[arg-type]
            case Quantified():
                return self.quantified(formula, known)
        raise AssertionError(formula)

    def quantified(self, formula: Quantified, known: Environment) -> str:
        """A quantifier over its elements, each with the condition under which it is one."""
        parts: list[tuple[str, str]] = []
        for condition, element in self.elements(formula, known):
            parts.append(
                (condition, self.formula(formula.body, {**known, formula.variable: element}))
            )
        if formula.kind == "forall":
            return conjunction([disjunction([negation(given), body]) for given, body in parts])
        held = [conjunction([given, body]) for given, body in parts]
        if formula.kind == "exists":
            return disjunction(held)
        relation = ">=" if formula.kind == "atleast" else "<="
        return counted(held, relation, formula.count)

    def elements(self, formula: Quantified, known: Environment) -> list[tuple[str, Value]]:
        if formula.boxes_of is None:
            names = formula.listed if formula.listed is not None else self.objects
            things = [self.objects[name] for name in names]
            return [(self.is_there(thing), thing) for thing in things]
        owner = (
            known[formula.boxes_of] if formula.boxes_of in known else self.objects[formula.boxes_of]
        )
        assert isinstance(owner, Object)
        if self.has_one_box(owner):
            return [(self.is_there(owner), AnyBox(owner))]
        return [
            (self.has_shape(owner, name), box)
            for name in owner.real_shapes
            for box in self.shapes[name].boxes
        ]

    # Rules

    def rule(self, body: Apart | Within | Formula) -> Iterator[str]:
        match body:
            case Apart():
                for one, other in combinations(self.problem.objects, 2):
                    yield from self.apart(one, other)
            case Within(ranges):
                for thing in self.problem.objects:
                    yield from self.within(thing, ranges)
            case _:
                yield self.formula(body, {})

    def boxes(self, thing: Object) -> list[tuple[str, Value]]:
        return self.elements(Quantified("forall", 0, "s", None, thing.name, Truth(True)), {})

    def ends(self, thing: Object, box: Value, dimension: int) -> tuple[Linear, Linear]:
        """Where a box begins and where it ends, the first coordinate behind it."""
        begin = self.coordinate(thing, dimension).plus(self.field(box, f"t{dimension + 1}"))
        return begin, begin.plus(self.field(box, f"l{dimension + 1}"))

    def apart(self, one: Object, other: Object) -> Iterator[str]:
        for (given, box), (also, second) in product(self.boxes(one), self.boxes(other)):
            ways = [negation(given), negation(also)]
            for dimension in range(self.problem.dims):
                begin, end = self.ends(one, box, dimension)
                start, stop = self.ends(other, second, dimension)
                ways += [compared(end, "<=", start), compared(stop, "<=", begin)]
            yield disjunction(ways)

    def within(self, thing: Object, ranges: tuple[tuple[int, int], ...]) -> Iterator[str]:
        for given, box in self.boxes(thing):
            for dimension, (low, high) in enumerate(ranges):
                begin, end = self.ends(thing, box, dimension)
                inside = [compared(begin, ">=", Linear(low)), compared(end, "<=", Linear(high + 1))]
                yield disjunction([negation(given), conjunction(inside)])

    def statements(self) -> Iterator[str]:
        yield from self.declarations()
        for rule in self.problem.rules:
            yield from (f"(assert {part})" for part in self.rule(rule.body) if part != TRUE)
        yield "(check-sat)"
        yield "(get-model)"


def counted(parts: list[str], relation: str, count: int) -> str:
    """That so many of the parts hold, at least or at most."""
    open_parts = [part for part in parts if part not in (TRUE, FALSE)]
    left = count - parts.count(TRUE)
    if not open_parts:
        return TRUE if COMPARISONS[relation](0, left) else FALSE
    ones = " ".join(f"(ite {part} 1 0)" for part in open_parts)
    return f"({relation} (+ 0 {ones}) {printed_number(left)})"


# The answer

DEFINITION = re.compile(r"\(define-fun (\w+) \(\) Int\s+(?:(\d+)|\(- (\d+)\))\)")


def layout_of_model(problem: Problem, model: str) -> list[Placed]:
    """The layout that a model says."""
    values = {name: int(plus or f"-{minus}") for name, plus, minus in DEFINITION.findall(model)}
    names = [shape.name for shape in problem.shapes]
    layout: list[Placed] = []
    for thing in problem.objects:
        number = values.get(f"sid_{thing.name}")
        if number == 0:
            layout.append(absent(thing.name))
            continue
        shape = thing.shapes[0] if number is None else names[number - 1]
        origin = (
            values.get(f"x{dimension}_{thing.name}", low)
            for dimension, (low, _) in enumerate(thing.ranges, 1)
        )
        layout.append(Placed(thing.name, shape, tuple(origin)))
    return layout
