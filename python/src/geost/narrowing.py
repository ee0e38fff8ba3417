"""Narrower problems, whose layouts are layouts of the problem itself: with zones, and with support
by what is placed before.

Rules that see only whole layouts rule out little until most objects stand. Where each class of
objects has its own part of the room, and each object may only be borne by earlier ones, the search
sees at once what is wrong. That a narrower problem has no layout says nothing of the problem.
"""

from __future__ import annotations

from collections.abc import Iterator
from dataclasses import dataclass, replace
from typing import cast

from geost.orders import compared_attributes, least_volume, value_of
from geost.parts import is_fixed
from geost.text import (
    Apart,
    Compare,
    FieldOf,
    Formula,
    Joined,
    Not,
    Object,
    Problem,
    Quantified,
    Rule,
    Within,
)
from geost.trees import Node, is_over_objects, rebuilt

MOST_ZONES = 6


# Zones


@dataclass(frozen=True)
class Zones:
    """Objects with narrower ranges: each value of an attribute has its part of one coordinate."""

    name: str
    things: tuple[Object, ...]


def all_zones(problem: Problem) -> Iterator[Zones]:
    """Zones by each attribute that rules compare between objects, on each coordinate, both ways."""
    for attribute in attributes_with_few_values(problem):
        for dimension in range(problem.dims):
            for is_rising in (False, True):
                things = zoned(problem, attribute, dimension, is_rising)
                if things:
                    way = "from the least on" if is_rising else "from the greatest on"
                    yield Zones(f"zones of x{dimension + 1} by {attribute}, {way}", things)


def attributes_with_few_values(problem: Problem) -> list[str]:
    """The attributes of which rules compare two objects, each with few values."""
    things = movable(problem)
    values = {
        name: {value_of(thing, name) for thing in things} for name in problem.attribute_names()
    }
    return [name for name in compared_attributes(problem) if 1 < len(values[name]) <= MOST_ZONES]


def movable(problem: Problem) -> list[Object]:
    return [thing for thing in problem.objects if not is_fixed(thing)]


def zoned(problem: Problem, attribute: str, dimension: int, is_rising: bool) -> tuple[Object, ...]:
    """The movable objects, each within the zone of its value, which is as wide as its objects are
    large; none where a zone leaves an object no place."""
    things = movable(problem)
    values = sorted({value_of(thing, attribute) for thing in things}, reverse=not is_rising)
    low = min(thing.ranges[dimension][0] for thing in things)
    width = max(thing.ranges[dimension][1] for thing in things) + 1 - low
    volume = {value: 0 for value in values}
    for thing in things:
        volume[value_of(thing, attribute)] += least_volume(problem, thing)
    total, before = sum(volume.values()), 0
    zones: dict[int, tuple[int, int]] = {}
    for value in values:
        begin = low + width * before // total
        before += volume[value]
        zones[value] = (begin, low + width * before // total - 1)
    found = [narrowed(thing, dimension, zones[value_of(thing, attribute)]) for thing in things]
    return tuple(thing for thing in found if thing is not None) if None not in found else ()


def narrowed(thing: Object, dimension: int, zone: tuple[int, int]) -> Object | None:
    """The object with its origin in a zone; None where it has no place there."""
    cut = [(max(low, zone[0]), min(high, zone[1])) for low, high in thing.pieces[dimension]]
    inside = tuple((low, high) for low, high in cut if low <= high)
    if not inside:
        return None
    pieces = list(thing.pieces)
    pieces[dimension] = inside
    return replace(thing, pieces=tuple(pieces))


# Support by what is placed before


def is_support_by_any(node: Node) -> bool:
    """Whether it is an `exists` or `atleast` over all objects."""
    return (
        isinstance(node, Quantified)
        and is_over_objects(node)
        and node.kind in ("exists", "atleast")
        and node.listed is None
    )


def rules_with_support_by_any(problem: Problem) -> list[str]:
    """The rules that want of each object that there is some other one, whichever."""
    return [
        rule.name
        for rule in problem.rules
        if not isinstance(rule.body, (Apart, Within))
        and earlier_only(rule.body, "turn") != rule.body
    ]


def by_earlier(problem: Problem, order: tuple[str, ...]) -> Problem:
    """The problem in which an `exists` over all objects, for an object of a `forall`, means those
    alone that stand before it in the order or have one place."""
    turn = "turn"
    while turn in problem.attribute_names():
        turn += "_"
    turns = {name: number for number, name in enumerate(order, 1)}
    turns |= {thing.name: 0 for thing in problem.objects if is_fixed(thing)}
    things = tuple(
        replace(thing, attributes=(*thing.attributes, (turn, turns[thing.name])))
        for thing in problem.objects
    )
    rules = tuple(
        rule
        if isinstance(rule.body, (Apart, Within))
        else Rule(rule.name, earlier_only(rule.body, turn))
        for rule in problem.rules
    )
    return replace(problem, objects=things, rules=rules)


def earlier_only(formula: Formula, turn: str) -> Formula:
    """The formula with each `exists` under a `forall` narrowed to objects of a lesser turn."""
    return cast(Formula, narrowed_part(formula, turn, ()))


def narrowed_part(node: Node, turn: str, holders: tuple[str, ...]) -> Node:
    """A part of it, which stands under `forall` with these variables; not where it is negated."""
    match node:
        case Not() | Joined("iff", _):
            return node
        case Joined("implies", (given, then)):
            return replace(node, parts=(given, cast(Formula, narrowed_part(then, turn, holders))))
        case Quantified(variable=variable) if is_support_by_any(node) and holders:
            before = Compare(FieldOf(variable, turn), "<", FieldOf(holders[-1], turn))
            return replace(node, body=Joined("and", (before, node.body)))
        case Quantified(kind="forall", variable=variable) if is_over_objects(node):
            holders = (*holders, variable)
    return rebuilt(node, lambda part: narrowed_part(part, turn, holders))
