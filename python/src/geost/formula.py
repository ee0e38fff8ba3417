"""Rules as Python expressions: `forall(lambda p, q: (p.stop < q.stop).implies(~blocks(q, p)))`.

What is built are the trees of `geost.text`, so a rule is printed in the one canonical spelling.
Coordinates are `p.x1`, offsets and sizes of a box `s.t1` and `s.l1`; attributes are read like them,
or as `p["any text"]`. `&`, `|` and `~` stand for and, or, not, and comparisons under them stand in
brackets. Neither a rule nor a number of one has a value in Python: a layout gives it one.

Names stand in the trees as the data has them (`Given`), and each variable as a `Variable` that no
other one equals, whatever it is called; `geost.spelling` puts names of a problem in their place.
"""

from __future__ import annotations

import inspect
import itertools
from collections.abc import Callable, Iterable, Sequence
from dataclasses import dataclass, field
from typing import Any, Generic, TypeVar, Union, cast, overload

from geost import text as t
from geost.names import is_field
from geost.shapes import whole
from geost.where import Where, caller

COUNTER = itertools.count()


class Given(str):
    """A name of the data: of an object, a shape or an attribute."""


class Variable(str):
    """A variable of a quantifier, or a parameter of a macro: its name, and a number of its own."""

    @staticmethod
    def called(name: str) -> Variable:
        return Variable(f"{name} {next(COUNTER)}")

    @property
    def name(self) -> str:
        return self.partition(" ")[0]


class Called(str):
    """The name of a macro that is called, with what it is made of."""

    macro: Macro[Any]


class Undecided(TypeError):
    """A rule, or a number of one, that is used as if Python knew its value."""


REMEDY = (
    "before there is a layout: write `&`, `|`, `~` and `implies` in place of and, or, not and if,"
    " and two comparisons joined by `&` in place of a < b < c"
)


class Value:
    """A whole number that a layout decides."""

    __hash__ = None  # type: ignore[assignment]

    def __init__(self, node: t.Expr):
        self.node = node

    def _chain(self, mark: str, other: Value | int, marks: tuple[str, ...]) -> Value:
        node, right = self.node, node_of(other)
        if isinstance(node, t.Chain) and node.steps[0][0] in marks:
            return Value(t.Chain(node.first, (*node.steps, (mark, right))))
        return Value(t.Chain(node, ((mark, right),)))

    def __add__(self, other: Value | int) -> Value:
        return self._chain("+", other, ("+", "-"))

    def __radd__(self, other: int) -> Value:
        return self if other == 0 else Value(node_of(other)) + self

    def __sub__(self, other: Value | int) -> Value:
        return self._chain("-", other, ("+", "-"))

    def __rsub__(self, other: int) -> Value:
        return Value(node_of(other)) - self

    def __mul__(self, other: Value | int) -> Value:
        return self._chain("*", other, t.PRODUCT_MARKS)

    def __rmul__(self, other: int) -> Value:
        return Value(node_of(other)) * self

    def __floordiv__(self, other: int) -> Value:
        return self._chain("div", whole(other), t.PRODUCT_MARKS)

    def __mod__(self, other: int) -> Value:
        return self._chain("mod", whole(other), t.PRODUCT_MARKS)

    def __neg__(self) -> Value:
        return Value(t.Negative(self.node))

    def _compare(self, relation: str, other: Value | int) -> Rule:
        return Rule(t.Compare(self.node, relation, node_of(other)))

    def __lt__(self, other: Value | int) -> Rule:
        return self._compare("<", other)

    def __le__(self, other: Value | int) -> Rule:
        return self._compare("<=", other)

    def __gt__(self, other: Value | int) -> Rule:
        return self._compare(">", other)

    def __ge__(self, other: Value | int) -> Rule:
        return self._compare(">=", other)

    def __eq__(self, other: object) -> Rule:  # type: ignore[override]
        return self._compare("=", other)  # type: ignore[arg-type]

    def __ne__(self, other: object) -> Rule:  # type: ignore[override]
        return self._compare("!=", other)  # type: ignore[arg-type]

    def __bool__(self) -> bool:
        raise Undecided(f"a number of a rule has no value {REMEDY}")

    def __index__(self) -> int:
        raise Undecided(f"a number of a rule has no value {REMEDY}")

    def __repr__(self) -> str:
        return f"<value {t.print_expr(self.node)}>"


def node_of(value: Value | int) -> t.Expr:
    if isinstance(value, Value):
        return value.node
    if isinstance(value, Thing):
        raise TypeError(f"{value!r} is no number: write one of its fields, such as .x1")
    number = whole(value)
    return t.Number(number) if number >= 0 else t.Negative(t.Number(-number))


class Rule:
    """A formula, and where it was made."""

    __hash__ = None  # type: ignore[assignment]

    def __init__(self, node: t.Formula | t.Apart | t.Within):
        self.node = node
        self.where: Where = caller()

    def _join(self, word: str, other: Rule | bool) -> Rule:
        node = formula_of(self)
        is_chain = isinstance(node, t.Joined) and node.word == word and word in ("and", "or")
        parts = node.parts if isinstance(node, t.Joined) and is_chain else (node,)
        return Rule(t.Joined(word, (*parts, formula_of(other))))

    def __and__(self, other: Rule | bool) -> Rule:
        return self._join("and", other)

    def __or__(self, other: Rule | bool) -> Rule:
        return self._join("or", other)

    def __invert__(self) -> Rule:
        return Rule(t.Not(formula_of(self)))

    def implies(self, other: Rule | bool) -> Rule:
        return self._join("implies", other)

    def iff(self, other: Rule | bool) -> Rule:
        return self._join("iff", other)

    def __eq__(self, other: object) -> bool:
        raise Undecided("rules are not compared: write `one.iff(other)`")

    def __bool__(self) -> bool:
        raise Undecided(f"a rule is neither true nor false {REMEDY}")

    def __repr__(self) -> str:
        return f"<rule {t.print_body(self.node)}>"


def formula_of(value: Rule | bool) -> t.Formula:
    if isinstance(value, bool):
        return t.Truth(value)
    if not isinstance(value, Rule):
        raise TypeError(f"{value!r} is no rule")
    if isinstance(value.node, (t.Apart, t.Within)):
        raise TypeError("`apart` and `within` are rules of their own, and no parts of others")
    return value.node


class Thing:
    """An object: one of the data by its name, or what a quantifier or a parameter stands for."""

    __hash__ = None  # type: ignore[assignment]

    def __init__(self, name: str):
        self._owner: str = name if isinstance(name, Variable) else Given(name)

    def __getattr__(self, name: str) -> Value:
        if name.startswith("_"):
            raise AttributeError(name)
        return self[name]

    def __getitem__(self, name: str) -> Value:
        return Value(t.FieldOf(self._owner, name if is_field(name) else Given(name)))

    def __eq__(self, other: object) -> bool:
        raise Undecided("objects are not compared: write `one.id == other.id`")

    def __repr__(self) -> str:
        return f"<object {self._owner}>"


class Box(Thing):
    """A box of a shape: `t1` and so on are its offsets, `l1` and so on its sizes."""

    def __getitem__(self, name: str) -> Value:
        return Value(t.FieldOf(self._owner, name))


def owner_of(thing: Thing | str) -> str:
    return thing._owner if isinstance(thing, Thing) else Given(thing)


def parameters_of(function: Callable[..., Any]) -> list[inspect.Parameter]:
    """The parameters without a default: what has one is the caller's own."""
    found = inspect.signature(function).parameters.values()
    return [one for one in found if one.default is inspect.Parameter.empty]


Over = Iterable[Thing | str] | None
Truth = Union[Rule, bool]
Body = Callable[..., Truth]
OfOne = Callable[[Thing], Truth]
OfTwo = Callable[[Thing, Thing], Truth]
OfThree = Callable[[Thing, Thing, Thing], Truth]
OfBox = Callable[[Box], Truth]
OfTwoBoxes = Callable[[Box, Box], Truth]


def quantified(kind: str, count: int, body: Body, over: Over) -> Rule:
    variables = [Variable.called(one.name) for one in parameters_of(body)]
    if not variables:
        raise TypeError("a quantifier takes a function of at least one object")
    node = formula_of(body(*map(Thing, variables)))
    listed = None if over is None else tuple(map(owner_of, over))
    for variable in reversed(variables):
        node = t.Quantified(kind, count, variable, listed, None, node)
    return Rule(node)


@overload
def forall(body: OfOne, over: Over = None) -> Rule:
    ...


@overload
def forall(body: OfTwo, over: Over = None) -> Rule:
    ...


@overload
def forall(body: OfThree, over: Over = None) -> Rule:
    ...


def forall(body: Body, over: Over = None) -> Rule:
    """The body holds for each object, or each of those that are listed; of several parameters, for
    each combination."""
    return quantified("forall", 0, body, over)


@overload
def exists(body: OfOne, over: Over = None) -> Rule:
    ...


@overload
def exists(body: OfTwo, over: Over = None) -> Rule:
    ...


@overload
def exists(body: OfThree, over: Over = None) -> Rule:
    ...


def exists(body: Body, over: Over = None) -> Rule:
    """There is an object for which the body holds."""
    return quantified("exists", 0, body, over)


def counted(kind: str, count: int, body: Body, over: Over) -> Rule:
    if len(parameters_of(body)) != 1:
        raise TypeError("objects are counted by a function of one object")
    return quantified(kind, whole(count), body, over)


def at_most(count: int, body: OfOne, over: Over = None) -> Rule:
    """The body holds for so many objects at most."""
    return counted("atmost", count, body, over)


def at_least(count: int, body: OfOne, over: Over = None) -> Rule:
    """The body holds for so many objects at least."""
    return counted("atleast", count, body, over)


def boxes(kind: str, things: Sequence[Thing | str], body: Body) -> Rule:
    variables = [Variable.called(one.name) for one in parameters_of(body)]
    if len(variables) != len(things):
        raise TypeError("the body takes a box of each of the objects")
    node = formula_of(body(*map(Box, variables)))
    for variable, thing in zip(reversed(variables), reversed(things)):
        node = t.Quantified(kind, 0, variable, None, owner_of(thing), node)
    return Rule(node)


@overload
def some_boxes(things: tuple[Thing | str], body: OfBox) -> Rule:
    ...


@overload
def some_boxes(things: tuple[Thing | str, Thing | str], body: OfTwoBoxes) -> Rule:
    ...


def some_boxes(things: Sequence[Thing | str], body: Body) -> Rule:
    """There are boxes of these objects, one of each, for which the body holds."""
    return boxes("exists", things, body)


@overload
def all_boxes(things: tuple[Thing | str], body: OfBox) -> Rule:
    ...


@overload
def all_boxes(things: tuple[Thing | str, Thing | str], body: OfTwoBoxes) -> Rule:
    ...


def all_boxes(things: Sequence[Thing | str], body: Body) -> Rule:
    """The body holds for all boxes of these objects, one of each."""
    return boxes("forall", things, body)


def least(left: Value | int, right: Value | int) -> Value:
    return Value(t.Extreme("min", node_of(left), node_of(right)))


def greatest(left: Value | int, right: Value | int) -> Value:
    return Value(t.Extreme("max", node_of(left), node_of(right)))


def shape_number(shape: str) -> Value:
    """The number of a shape, to be compared with `sid`."""
    return Value(t.ShapeNumber(Given(shape)))


def within(*ranges: tuple[int, int]) -> Rule:
    """Each cell of each object lies in these ranges, both ends included."""
    return Rule(t.Within(tuple((whole(low), whole(high)) for low, high in ranges)))


def apart() -> Rule:
    """No cell belongs to two objects."""
    return Rule(t.Apart())


# Macros


KINDS: dict[object, str] = {int: "int", "int": "int", Box: "box", "Box": "box", "geost.Box": "box"}


Means = TypeVar("Means")


@dataclass(eq=False)
class Macro(Generic[Means]):
    """A function of objects, boxes and numbers that is a macro of each problem whose rules call it.
    `means` is its body, made where it is called first."""

    function: Callable[..., Means]
    name: str
    parameters: tuple[tuple[Variable, str], ...]
    means: Rule | Value | None = None
    is_being_made: bool = False
    where: Where = field(default_factory=caller)

    def made(self) -> Rule | Value:
        """The body. A macro that calls itself is refused."""
        if self.means is None:
            if self.is_being_made:
                raise TypeError(f"the macro {self.name} calls itself, which no macro may")
            self.is_being_made = True
            given = [argument_for(variable, kind) for variable, kind in self.parameters]
            body = self.function(*given)
            if not isinstance(body, (Rule, Value)):
                raise TypeError(f"the macro {self.name} gives neither a rule nor a number")
            self.means = body
        return self.means

    def __call__(self, *given: Thing | Value | int | str) -> Means:
        name = Called(self.name)
        name.macro = self
        arguments = tuple(map(node_of_argument, given))
        if isinstance(self.made(), Value):
            return cast(Means, Value(t.Call("$", name, arguments)))
        return cast(Means, Rule(t.Call("@", name, arguments)))


def argument_for(variable: Variable, kind: str) -> Thing | Value:
    if kind == "int":
        return Value(t.Bare(variable))
    return Box(variable) if kind == "box" else Thing(variable)


def node_of_argument(given: Thing | Value | int | str) -> t.Expr:
    if isinstance(given, (Thing, str)):
        return t.Bare(owner_of(given))
    return node_of(given)


def macro(function: Callable[..., Means]) -> Macro[Means]:
    """A macro of a function: parameters annotated `int` or `geost.Box` are those, all others are
    objects."""
    parameters = tuple(
        (Variable.called(one.name), KINDS.get(one.annotation, "object"))
        for one in parameters_of(function)
    )
    return Macro(function, function.__name__, parameters)
