"""Ways in which a problem may be searched: orders, sides, sequences of shapes, narrower
problems."""

from __future__ import annotations

import itertools
import random
from collections.abc import Iterator
from dataclasses import dataclass, replace
from typing import TypeVar

from geost.narrowing import all_zones, by_earlier, rules_with_support_by_any
from geost.orders import all_sides, interleaved_orders, least_volume, stated_orders
from geost.text import ABSENT, Object, Placed, Problem, print_object, print_rule

FEW = 6
Item = TypeVar("Item")
Order = tuple[str, ...]
Sides = tuple[str, ...]


@dataclass(frozen=True)
class Candidate:
    """An order of all objects and a side for each dimension, with the name of how they were chosen.

    `things` are objects with another sequence of shapes or with narrower ranges. Where
    `only_earlier`, an object may be borne only by those that stand before it in the order.
    """

    name: str
    order: Order
    sides: Sides
    things: tuple[Object, ...] = ()
    is_narrower: bool = False
    only_earlier: bool = False

    def of(self, problem: Problem) -> Problem:
        """The problem to be searched. Where it is narrower, its layouts are those of the
        problem."""
        changed = {thing.name: thing for thing in self.things}
        objects = tuple(changed.get(thing.name, thing) for thing in problem.objects)
        made = replace(problem, objects=objects, order=self.order, sides=self.sides)
        return by_earlier(made, self.order) if self.only_earlier else made

    def statements(self, problem: Problem) -> list[str]:
        """The order, the sides, and the objects and rules that differ from those of the problem."""
        made = self.of(problem)
        found = [f"order {', '.join(self.order)} ;", f"sides {' '.join(self.sides)} ;"]
        found += [
            print_object(new) for old, new in zip(problem.objects, made.objects) if old != new
        ]
        return found + [
            print_rule(new) for old, new in zip(problem.rules, made.rules) if old != new
        ]


def plain(problem: Problem) -> Iterator[Candidate]:
    """The orders with the stated sides."""
    for name, order in stated_orders(problem):
        yield Candidate(name, order, problem.search_sides())


def interleaved(problem: Problem) -> Iterator[Candidate]:
    for name, order in interleaved_orders(problem):
        yield Candidate(name, order, problem.search_sides())


def narrower(problem: Problem) -> Iterator[Candidate]:
    """Few orders with zones, with support by earlier objects alone, and with both."""
    orders, sides = stated_orders(problem)[:FEW], problem.search_sides()
    zoned = [
        Candidate(f"{name}, {zones.name}", order, sides, zones.things, True)
        for zones, (name, order) in itertools.product(all_zones(problem), orders)
    ]
    if not rules_with_support_by_any(problem):
        yield from zoned
        return
    plain_ones = (Candidate(name, order, sides, (), True) for name, order in orders)
    yield from in_turn([iter(zoned), by_earlier_ones(plain_ones), by_earlier_ones(iter(zoned))])


def by_earlier_ones(ways: Iterator[Candidate]) -> Iterator[Candidate]:
    for way in ways:
        yield replace(way, name=f"{way.name}, borne by earlier ones", only_earlier=True)


def other_sides(problem: Problem) -> Iterator[Candidate]:
    for sides in all_sides(problem)[1:]:
        for name, order in stated_orders(problem):
            yield Candidate(name, order, sides, (), has_other_layouts(problem, sides))


def has_other_layouts(problem: Problem, sides: Sides) -> bool:
    """Whether with these sides there may be other layouts: an object that is absent has the first
    values, which rules may read."""
    may_be_absent = any(thing.may_be_absent for thing in problem.objects)
    return may_be_absent and sides != problem.search_sides()


def shape_sequences(problem: Problem) -> list[tuple[str, tuple[Object, ...]]]:
    """The objects with their shapes from the longest or the shortest on, along each dimension."""
    found: dict[tuple[Object, ...], str] = {}
    for dimension in range(problem.dims):
        for sign, word in ((1, "shortest"), (-1, "longest")):
            things = tuple(by_extent(problem, thing, dimension, sign) for thing in problem.objects)
            changed = tuple(new for old, new in zip(problem.objects, things) if new != old)
            if changed:
                found.setdefault(changed, f"shapes {word} in x{dimension + 1} first")
    return [(name, things) for things, name in found.items()]


def by_extent(problem: Problem, thing: Object, dimension: int, sign: int) -> Object:
    def extent(name: str) -> int:
        boxes = problem.shape(name).boxes
        return sign * max(box.offsets[dimension] + box.sizes[dimension] for box in boxes)

    return in_sequence(thing, sorted(thing.real_shapes, key=extent))


def in_sequence(thing: Object, shapes: list[str]) -> Object:
    """The object with its shapes in this sequence; that it may be absent stands behind them."""
    return replace(thing, shapes=(*shapes, *thing.shapes[len(shapes) :]))


def other_shapes(problem: Problem) -> Iterator[Candidate]:
    for (name, order), (way, things) in itertools.product(
        stated_orders(problem)[:FEW], shape_sequences(problem)
    ):
        yield Candidate(f"{name}, {way}", order, problem.search_sides(), things)


def shuffled(problem: Problem, seed: int) -> Candidate:
    """The objects from large to small, each volume taken up to twice as large or small by chance,
    and their shapes in a sequence by chance; the same for the same seed."""
    chance = random.Random(seed)
    weights = {
        thing.name: least_volume(problem, thing) * 2 ** chance.uniform(-1, 1)
        for thing in problem.objects
    }
    order = tuple(sorted(weights, key=lambda name: -weights[name]))
    sides = all_sides(problem)[seed % 2**problem.dims]
    things = tuple(
        in_sequence(thing, chance.sample(thing.real_shapes, len(thing.real_shapes)))
        for thing in problem.objects
        if len(thing.real_shapes) > 1
    )
    is_other = has_other_layouts(problem, sides)
    return Candidate(f"shuffled {seed}", order, sides, things if seed % 2 else (), is_other)


def leading_to(problem: Problem, layout: list[Placed]) -> Iterator[Candidate]:
    """Ways that may lead to a layout like this one: its objects from one corner of the room on,
    each with the shape first that it has there."""
    shapes = {placed.name: placed.shape for placed in layout}
    things = tuple(
        replace(thing, shapes=(shape, *(name for name in thing.shapes if name != shape)))
        for thing in problem.objects
        for shape in (shapes[thing.name],)
        if shape != ABSENT
    )
    changed = tuple(thing for thing in things if thing not in problem.objects)
    sides = ("low",) * problem.dims
    is_other = has_other_layouts(problem, sides)
    present = [placed for placed in layout if not placed.is_absent]
    gone = [placed.name for placed in layout if placed.is_absent]
    for axes in itertools.permutations(range(problem.dims)):
        ranked = sorted(present, key=lambda each: [each.origin[axis] for axis in axes])
        name = f"from a layout by {', '.join(f'x{axis + 1}' for axis in axes)}"
        order = (*(each.name for each in ranked), *gone)
        yield Candidate(name, order, sides, changed, is_other)


def in_turn(families: list[Iterator[Item]]) -> Iterator[Item]:
    """The first of each family, then the second of each, and so on."""
    for round_of in itertools.zip_longest(*families):
        yield from (item for item in round_of if item is not None)


def candidates(problem: Problem) -> Iterator[Candidate]:
    """All ways, the most promising of each kind first, then shuffled ones without end."""
    kinds = (plain, narrower, interleaved, other_shapes, other_sides)
    yield from in_turn([kind(problem) for kind in kinds])
    if len(problem.objects) > 1:
        for seed in itertools.count(1):
            yield shuffled(problem, seed)
