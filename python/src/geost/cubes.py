"""Cubes: parts of a problem's tuples that lie one behind the other in the stated order.

A cube narrows coordinates of objects and takes shapes away from them. Its text is the problem's own
text in which every condition keeps its number, so that a layout of a cube is printed as that of the
whole, and a derivation speaks of the conditions of the whole:

- a range of one piece becomes narrower in its object's statement; conditions of holes come of
  pieces, and those of rules do not depend on ranges
- a range of several pieces stays, and so do lists of shapes, `absent` among them; what is left of
  them is said by one rule more behind all others, whose conditions are the last ones.
  `geost.derivations` takes them out again.
"""

from __future__ import annotations

from collections.abc import Iterator
from dataclasses import dataclass, field, replace

from geost.text import (
    ABSENT,
    Compare,
    Expr,
    FieldOf,
    Formula,
    Joined,
    Negative,
    Number,
    Object,
    Problem,
    Range,
    Rule,
    ShapeNumber,
    print_problem,
)

CubePath = tuple[int, ...]
MOST_RULES = 100
# a chain of `and` is as deep as it is long, and rules have a greatest depth
MOST_JOINED = 16


@dataclass(frozen=True)
class Split:
    """How a cube is parted: by an object's shapes, one part each, or by the values of a coordinate
    from the first to the last number of each part, in the order of the search. Dimensions count
    from 1, and 0 stands for the shape."""

    thing: str
    dimension: int = 0
    shapes: tuple[str, ...] = ()
    ranges: tuple[Range, ...] = ()
    down: bool = False

    def count(self) -> int:
        return len(self.shapes or self.ranges)

    def joints(self) -> list[bytes]:
        """The lines of a derivation that stand before each part but the last."""
        head = f"split {self.thing}"
        if self.dimension == 0:
            lines = [f"{head} shape {shape}" for shape in self.shapes]
        elif self.down:
            lines = [f"{head} {self.dimension} from {low}" for low, _ in self.ranges]
        else:
            lines = [f"{head} {self.dimension} upto {high}" for _, high in self.ranges]
        return [f"{line}\n".encode() for line in lines[:-1]]


@dataclass(frozen=True)
class Cube:
    """A path in the tree of splits, with what splits left: of coordinates the first and the last
    number, and of objects the one shape."""

    path: CubePath = ()
    bounds: dict[tuple[str, int], Range] = field(default_factory=dict)
    shapes: dict[str, str] = field(default_factory=dict)

    def name(self) -> str:
        return "-".join(map(str, self.path)) or "all"

    def part(self, split: Split, number: int) -> Cube:
        path = (*self.path, number)
        if split.dimension == 0:
            return Cube(path, self.bounds, {**self.shapes, split.thing: split.shapes[number]})
        key = (split.thing, split.dimension)
        return Cube(path, {**self.bounds, key: split.ranges[number]}, self.shapes)

    def bound(self, thing: Object, dimension: int) -> Range:
        """The first and the last number that splits leave of a coordinate, holes among them."""
        return self.bounds.get((thing.name, dimension), thing.ranges[dimension - 1])

    def pieces(self, thing: Object, dimension: int) -> list[Range]:
        """What is left of the pieces of a coordinate."""
        least, most = self.bound(thing, dimension)
        clipped = ((max(low, least), min(high, most)) for low, high in thing.pieces[dimension - 1])
        return [(low, high) for low, high in clipped if low <= high]

    def of(self, problem: Problem) -> Problem:
        """The problem that has exactly the tuples of this cube."""
        rules = problem.rules
        added = [part for thing in problem.objects for part in self.conditions(thing)]
        if added:
            name = fresh_name("cube", {rule.name for rule in rules})
            rules = (*rules, Rule(name, conjunction(added)))
        things = tuple(map(self.narrowed, problem.objects))
        return replace(problem, objects=things, rules=rules)

    def text(self, problem: Problem) -> bytes:
        return print_problem(self.of(problem)).encode()

    def narrowed(self, thing: Object) -> Object:
        pieces = tuple(
            tuple(self.pieces(thing, dimension)) if len(whole) == 1 else whole
            for dimension, whole in enumerate(thing.pieces, start=1)
        )
        return replace(thing, pieces=pieces)

    def conditions(self, thing: Object) -> Iterator[Formula]:
        """What is said of an object by the rule that is added."""
        if thing.name in self.shapes:
            yield Compare(FieldOf(thing.name, "sid"), "=", number_of_shape(self.shapes[thing.name]))
        for dimension, (least, most) in self.added_bounds(thing):
            at = FieldOf(thing.name, f"x{dimension}")
            yield Compare(at, ">=", number_of(least))
            yield Compare(at, "<=", number_of(most))

    def added_bounds(self, thing: Object) -> Iterator[tuple[int, Range]]:
        """The coordinates of several pieces that were narrowed, each with what is left."""
        for dimension, pieces in enumerate(thing.pieces, start=1):
            bound = self.bounds.get((thing.name, dimension))
            if bound is not None and len(pieces) > 1:
                yield dimension, bound


def number_of_shape(shape: str) -> Expr:
    return Number(0) if shape == ABSENT else ShapeNumber(shape)


def number_of(value: int) -> Expr:
    return Number(value) if value >= 0 else Negative(Number(-value))


def fresh_name(stem: str, taken: set[str]) -> str:
    return next(name for at in range(1, len(taken) + 2) if (name := f"{stem}_{at}") not in taken)


def conjunction(parts: list[Formula]) -> Formula:
    """All of them, in brackets by groups."""
    while len(parts) > 1:
        groups = [parts[at : at + MOST_JOINED] for at in range(0, len(parts), MOST_JOINED)]
        parts = [Joined("and", tuple(one)) if len(one) > 1 else one[0] for one in groups]
    return parts[0]


def size_of(pieces: list[Range]) -> int:
    return sum(high - low + 1 for low, high in pieces)


def value_at(pieces: list[Range], place: int) -> int:
    """The value at a place, from 0, of those of the pieces in ascending order."""
    for low, high in pieces:
        if place <= high - low:
            return low + place
        place -= high - low + 1
    raise IndexError(place)


def split_of(problem: Problem, cube: Cube, most: int) -> Split | None:
    """A split by the first variable in the order of the search that is not fixed, into at most so
    many parts, or a part for each shape. None where all are fixed, or where it takes a rule and the
    problem has as many as it may have."""
    takes_rules = len(problem.rules) < MOST_RULES
    things = {thing.name: thing for thing in problem.objects}
    for name in problem.search_order():
        thing = things[name]
        if len(thing.shapes) > 1 and name not in cube.shapes:
            return Split(name, shapes=thing.shapes) if takes_rules else None
        if cube.shapes.get(name) == ABSENT:
            continue  # its coordinates have one value each
        for dimension in range(1, problem.dims + 1):
            pieces = cube.pieces(thing, dimension)
            if size_of(pieces) > 1:
                if not takes_rules and len(thing.pieces[dimension - 1]) > 1:
                    return None
                ranges = parted(pieces, cube.bound(thing, dimension), most)
                down = problem.search_sides()[dimension - 1] == "high"
                return Split(name, dimension, (), tuple(ranges[::-1] if down else ranges), down)
    return None


def parted(pieces: list[Range], bound: Range, most: int) -> list[Range]:
    """Parts of about as many values each, which together have all numbers of the bound."""
    size = size_of(pieces)
    count = min(most, size)
    lows = [bound[0], *(value_at(pieces, size * part // count) for part in range(1, count))]
    return list(zip(lows, [*(low - 1 for low in lows[1:]), bound[1]]))


def is_split(problem: Problem, cube: Cube, split: Split) -> bool:
    """Whether it is a split of the cube by its first variable that is not fixed, all numbers of
    which lie in exactly one part, in the order of the search."""
    stated = split_of(problem, cube, 2)
    if stated is None or (stated.thing, stated.dimension) != (split.thing, split.dimension):
        return False
    if split.dimension == 0:
        return split.shapes == stated.shapes
    least, most = cube.bound(problem.object(split.thing), split.dimension)
    rising = list(split.ranges[::-1] if split.down else split.ranges)
    return (
        split.down == stated.down
        and (rising[0][0], rising[-1][1]) == (least, most)
        and all(low <= high for low, high in rising)
        and all(high + 1 == low for (_, high), (low, _) in zip(rising, rising[1:]))
    )
