"""Rules in the words of planners, as docs/COOKBOOK.md explains them. Each gives a rule with a name.

Items stand in a room: x1 goes along it, with a door at its high end, x2 across it, and the axis
`up` upwards, which is 3 where nothing else is said. Names of numbers are those of the data.
"""

from __future__ import annotations

from collections.abc import Iterable, Mapping, Sequence
from functools import cache, reduce
from itertools import product
from operator import and_, or_

from geost.building import Ready
from geost.formula import (
    Box,
    Macro,
    Rule,
    Thing,
    Value,
    all_boxes,
    apart,
    at_most,
    exists,
    forall,
    macro,
    some_boxes,
    within,
)

Things = Sequence[Thing | str]


def thing_of(given: Thing | str) -> Thing:
    return given if isinstance(given, Thing) else Thing(given)


def all_of(rules: Iterable[Rule]) -> Rule:
    """The rules joined by `and`."""
    return reduce(and_, rules)


def one_of(rules: Iterable[Rule]) -> Rule:
    """The rules joined by `or`."""
    return reduce(or_, rules)


def low(p: Thing, s: Box, axis: int) -> Value:
    """Where a box of an item begins along an axis."""
    return p[f"x{axis}"] + s[f"t{axis}"]


def high(p: Thing, s: Box, axis: int) -> Value:
    """Where a box of an item ends along an axis: one past its last cell."""
    return low(p, s, axis) + s[f"l{axis}"]


def overlap(p: Thing, s: Box, q: Thing, t: Box, axes: Iterable[int]) -> Rule:
    """Two boxes overlap along each of the axes."""
    return all_of(
        part
        for axis in axes
        for part in (low(p, s, axis) < high(q, t, axis), low(q, t, axis) < high(p, s, axis))
    )


def total(values: Iterable[Value]) -> Value:
    """The sum of one value or more."""
    return reduce(lambda one, other: one + other, values)


def floor(up: int) -> range:
    """The axes of the floor."""
    return range(1, up)


# What stands on, over and before what


@cache
def on(up: int = 3) -> Macro[Rule]:
    """p touches q from above."""

    def on(p: Thing, q: Thing) -> Rule:
        return some_boxes(
            (p, q),
            lambda s, t: (low(p, s, up) == high(q, t, up)) & overlap(p, s, q, t, floor(up)),
        )

    return macro(on)


@cache
def over(up: int = 3) -> Macro[Rule]:
    """p has a cell above q."""

    def over(p: Thing, q: Thing) -> Rule:
        return some_boxes(
            (p, q),
            lambda s, t: (low(p, s, up) >= high(q, t, up)) & overlap(p, s, q, t, floor(up)),
        )

    return macro(over)


@cache
def bears_whole(up: int = 3) -> Macro[Rule]:
    """The whole base of a box of p lies on q."""

    def bears_whole(q: Thing, p: Thing) -> Rule:
        return some_boxes(
            (p, q),
            lambda s, t: all_of(
                [
                    low(p, s, up) == high(q, t, up),
                    *(low(q, t, axis) <= low(p, s, axis) for axis in floor(up)),
                    *(high(p, s, axis) <= high(q, t, axis) for axis in floor(up)),
                ]
            ),
        )

    return macro(bears_whole)


@cache
def blocks(up: int = 3) -> Macro[Rule]:
    """q stands between p and the door."""

    def blocks(q: Thing, p: Thing) -> Rule:
        return some_boxes(
            (p, q),
            lambda s, t: (low(q, t, 1) >= high(p, s, 1)) & overlap(p, s, q, t, range(2, up + 1)),
        )

    return macro(blocks)


def stands_low(p: Thing, up: int) -> Rule:
    return some_boxes((p,), lambda s: low(p, s, up) == 0)


def no_overlap() -> Ready:
    """No cell belongs to two items."""
    return Ready("no_overlap", apart())


def inside(*sizes: int) -> Ready:
    """Each cell lies in a room of these sizes."""
    return Ready("inside", within(*((0, size - 1) for size in sizes)))


def zone(things: Things, *ranges: tuple[int, int], name: str = "zone") -> Ready:
    """Each cell of these items lies in the ranges, both ends included."""

    def lies_in(p: Thing) -> Rule:
        return all_boxes(
            (p,),
            lambda s: all_of(
                part
                for axis, (first, last) in enumerate(ranges, 1)
                for part in (low(p, s, axis) >= first, high(p, s, axis) <= last + 1)
            ),
        )

    return Ready(name, forall(lies_in, over=things))


def nothing_on(mark: str = "fragile", up: int = 3) -> Ready:
    """Nothing stands on an item with the mark."""
    touches = on(up)
    return Ready(f"nothing_on_{mark}", forall(lambda p, q: (q[mark] > 0).implies(~touches(p, q))))


def nothing_over(mark: str = "fragile", up: int = 3) -> Ready:
    """Nothing stands over an item with the mark, whatever lies between."""
    is_above = over(up)
    return Ready(
        f"nothing_over_{mark}", forall(lambda p, q: (q[mark] > 0).implies(~is_above(p, q)))
    )


def heavy_below(weight: str = "weight", factor: int = 1, up: int = 3) -> Ready:
    """Nothing stands on what is lighter; with a factor of 2, on what is less than half as heavy."""
    touches = on(up)
    return Ready(
        "heavy_below", forall(lambda p, q: (p[weight] > q[weight] * factor).implies(~touches(p, q)))
    )


def borne(whole: bool = True, by_earlier: bool = True, up: int = 3) -> Ready:
    """Each item stands on the floor or on another one, with its whole base or a part of it.

    `by_earlier`: on one that is loaded before it, in the sequence in which the problem has them. A
    search then sees at once where an item can stand.
    """
    bears = bears_whole(up) if whole else on(up)

    def stands_on(p: Thing, q: Thing) -> Rule:
        touches: Rule = bears(q, p) if whole else bears(p, q)
        return (q.id < p.id) & touches if by_earlier else touches

    return Ready("borne", forall(lambda p: stands_low(p, up) | exists(lambda q: stands_on(p, q))))


def borne_at_corners(up: int = 3) -> Ready:
    """Under each corner of the base of an item is the floor or another item."""

    def is_under(q: Thing, p: Thing, s: Box, corner: Sequence[bool]) -> Rule:
        cells = [
            (axis, high(p, s, axis) - 1 if is_far else low(p, s, axis))
            for axis, is_far in zip(floor(up), corner)
        ]
        return some_boxes(
            (q,),
            lambda t: all_of(
                [
                    low(p, s, up) == high(q, t, up),
                    *(low(q, t, axis) <= cell for axis, cell in cells),
                    *(cell < high(q, t, axis) for axis, cell in cells),
                ]
            ),
        )

    def is_borne(p: Thing, s: Box, corner: Sequence[bool]) -> Rule:
        return exists(lambda q: is_under(q, p, s, corner))

    def stands(p: Thing) -> Rule:
        corners = list(product((False, True), repeat=up - 1))
        return stands_low(p, up) | all_boxes(
            (p,), lambda s: all_of(is_borne(p, s, corner) for corner in corners)
        )

    return Ready("borne_at_corners", forall(stands))


def borne_by_share(part: int, of: int, up: int = 3) -> Ready:
    """Each item stands on the floor, or along each axis of its base such a share of it lies on one
    other item."""

    def bears(q: Thing, p: Thing) -> Rule:
        return some_boxes(
            (p, q),
            lambda s, t: all_of(
                [
                    low(p, s, up) == high(q, t, up),
                    *(of * t[f"l{axis}"] >= part * s[f"l{axis}"] for axis in floor(up)),
                    *(
                        of * (end - begin) >= part * s[f"l{axis}"]
                        for axis in floor(up)
                        for end, begin in (
                            (high(q, t, axis), low(p, s, axis)),
                            (high(p, s, axis), low(q, t, axis)),
                        )
                    ),
                ]
            ),
        )

    return Ready(
        "borne_by_share", forall(lambda p: stands_low(p, up) | exists(lambda q: bears(q, p)))
    )


def loaded_from_above(up: int = 3) -> Ready:
    """Nothing is pushed below what was loaded before it."""
    touches = on(up)
    return Ready("loaded_from_above", forall(lambda p, q: (p.id < q.id).implies(~touches(p, q))))


def last_in_first_out(stop: str = "stop", up: int = 3) -> Ready:
    """What is unloaded later stands neither before nor over what is unloaded earlier."""
    is_before, is_above = blocks(up), over(up)

    def shuts_in(q: Thing, p: Thing) -> Rule:
        return ~is_before(q, p) & ~is_above(q, p)

    return Ready(
        "last_in_first_out", forall(lambda p, q: (p[stop] < q[stop]).implies(shuts_in(q, p)))
    )


def reachable(mark: str, up: int = 3) -> Ready:
    """Nothing stands between an item with the mark and an aisle at the low end of x1."""

    def before(q: Thing, p: Thing) -> Rule:
        return some_boxes(
            (p, q),
            lambda s, t: (low(q, t, 1) < low(p, s, 1)) & overlap(p, s, q, t, range(2, up + 1)),
        )

    return Ready("reachable", forall(lambda p, q: (p[mark] > 0).implies(~before(q, p))))


# Two items


def next_to(one: Thing | str, other: Thing | str, axis: int = 1) -> Ready:
    """The two touch along an axis, one behind the other."""
    p, q = thing_of(one), thing_of(other)

    def meet(s: Box, t: Box) -> Rule:
        return (high(p, s, axis) == low(q, t, axis)) | (high(q, t, axis) == low(p, s, axis))

    return Ready(f"{name_of(one)}_next_to_{name_of(other)}", some_boxes((p, q), meet))


def touching(one: Thing | str, other: Thing | str, dims: int = 3) -> Ready:
    """The two touch with a piece of a side: they meet along x1 or x2 and overlap otherwise."""
    p, q = thing_of(one), thing_of(other)

    def meet(s: Box, t: Box) -> Rule:
        ways = []
        for axis in (1, 2):
            others = [another for another in range(1, dims + 1) if another != axis]
            ends = (high(p, s, axis) == low(q, t, axis)) | (high(q, t, axis) == low(p, s, axis))
            ways.append(ends & overlap(p, s, q, t, others))
        return one_of(ways)

    return Ready(f"{name_of(one)}_touches_{name_of(other)}", some_boxes((p, q), meet))


def kept_apart(
    one: Thing | str, other: Thing | str, cells: int, axes: Iterable[int] = (1, 2, 3)
) -> Ready:
    """Between the two are at least so many free cells along some axis."""
    p, q = thing_of(one), thing_of(other)
    along = tuple(axes)

    def is_far(s: Box, t: Box) -> Rule:
        return one_of(
            part
            for axis in along
            for part in (
                high(p, s, axis) + cells <= low(q, t, axis),
                high(q, t, axis) + cells <= low(p, s, axis),
            )
        )

    return Ready(f"{name_of(one)}_apart_from_{name_of(other)}", all_boxes((p, q), is_far))


def name_of(thing: Thing | str) -> str:
    return thing if isinstance(thing, str) else thing._owner.partition(" ")[0]


def on_one_level(one: Thing | str, other: Thing | str, up: int = 3) -> Ready:
    """The origins of the two are at one height."""
    p, q = thing_of(one), thing_of(other)
    name = f"{name_of(one)}_level_with_{name_of(other)}"
    return Ready(name, p[f"x{up}"] == q[f"x{up}"])


def on_one_side(
    one: Thing | str, other: Thing | str, ends: int, begins: int, axis: int = 1
) -> Ready:
    """The two are on one side of an aisle: both begin before it ends one side, or both from where
    the other side begins."""
    p, q = (thing_of(thing)[f"x{axis}"] for thing in (one, other))
    sides = ((p < ends) & (q < ends)) | ((p >= begins) & (q >= begins))
    return Ready(f"{name_of(one)}_on_the_side_of_{name_of(other)}", sides)


# Counts, weights, distances


def at_most_on_level(count: int, level: int, up: int = 3) -> Ready:
    """At most so many items have their origin on a level."""
    return Ready(f"at_most_{count}_on_{level}", at_most(count, lambda p: p[f"x{up}"] == level))


def at_most_between(
    count: int, number: str, least: int, start: int, finish: int, axis: int = 1
) -> Ready:
    """At most so many items whose number is the least one or more begin between two places."""

    def is_there(p: Thing) -> Rule:
        at = p[f"x{axis}"]
        return (p[number] >= least) & (at >= start) & (at < finish)

    return Ready(f"at_most_{count}_from_{start}", at_most(count, is_there))


def balanced(
    weights: Mapping[str, int], axis: int, between: tuple[int, int], name: str = "balanced"
) -> Ready:
    """The centre of these weights lies between two places, for items in a room that is centred."""
    first, last = between
    weight = sum(weights.values())
    moment = total(Thing(item)[f"x{axis}"] * heavy for item, heavy in weights.items())
    return Ready(name, (moment >= weight * first) & (moment <= weight * last))


def near(things: Things, points: Things, cells: int, axes: Sequence[int] = (1, 2)) -> Ready:
    """Each of these items is at most so many cells from one of the points, counted along the
    axes."""

    def is_near(p: Thing, q: Thing) -> Rule:
        steps = [p[f"x{axis}"] - q[f"x{axis}"] for axis in axes]
        signs = product((1, -1), repeat=len(steps))
        return all_of(
            total(step if sign > 0 else -step for sign, step in zip(way, steps)) <= cells
            for way in signs
        )

    return Ready(
        "near", forall(lambda p: exists(lambda q: is_near(p, q), over=points), over=things)
    )


def clear_before(mark: str, cells: int, axis: int = 2, dims: int = 2) -> Ready:
    """So many cells before an item with the mark, towards the high end of the axis, are free."""

    def in_the_way(q: Thing, p: Thing) -> Rule:
        others = [another for another in range(1, dims + 1) if another != axis]
        return some_boxes(
            (p, q),
            lambda s, t: overlap(p, s, q, t, others)
            & (low(q, t, axis) < high(p, s, axis) + cells)
            & (high(p, s, axis) < high(q, t, axis)),
        )

    return Ready("clear_before", forall(lambda p, q: (p[mark] > 0).implies(~in_the_way(q, p))))


def in_sequence(span: int, dims: int = 2, over: Things | None = None) -> Ready:
    """Equal items lie in their sequence, all coordinates being from 0 and below the span: so that a
    search does not try them in each other's places."""

    def place(p: Thing) -> Value:
        factors = [(p[f"x{axis}"], span ** (dims - axis)) for axis in range(1, dims + 1)]
        terms = [at if factor == 1 else factor * at for at, factor in factors]
        return total(terms)

    return Ready(
        "in_sequence", forall(lambda p, q: (p.id < q.id).implies(place(p) < place(q)), over=over)
    )


# Time on x1 and machines on another axis


def one_after_another(*tasks: Thing | str, length: str = "hours") -> Ready:
    """Each task begins when the one before it has ended."""
    things = [thing_of(task) for task in tasks]
    return Ready(
        "one_after_another",
        all_of(p.x1 + p[length] <= q.x1 for p, q in zip(things, things[1:])),
    )


def in_time(length: str = "hours", due: str = "due") -> Ready:
    """Each task ends when it is due, or before."""
    return Ready("in_time", forall(lambda p: p.x1 + p[length] <= p[due]))


def cleaned(kind: str, pause: int, length: str = "hours", machine: int = 2) -> Ready:
    """Between two tasks of different kinds on one machine is a pause."""

    def meet(p: Thing, q: Thing) -> Rule:
        is_one = p[f"x{machine}"] == q[f"x{machine}"]
        return (p.id < q.id) & is_one & (p[kind] != q[kind])

    def is_clean(p: Thing, q: Thing) -> Rule:
        return (p.x1 + p[length] + pause <= q.x1) | (q.x1 + q[length] + pause <= p.x1)

    return Ready("cleaned", forall(lambda p, q: meet(p, q).implies(is_clean(p, q))))


def in_shifts(mark: str, shifts: Iterable[tuple[int, int]], length: str = "hours") -> Ready:
    """A task with the mark lies in one of the shifts, from its start to its end."""
    known = list(shifts)

    def lies_in_one(p: Thing) -> Rule:
        return one_of((p.x1 >= start) & (p.x1 + p[length] <= end) for start, end in known)

    return Ready("in_shifts", forall(lambda p: (p[mark] > 0).implies(lies_in_one(p))))
