"""A plan as objects with cells, and what a drawing of it is made of.

A box here has its cells from `low` up to `high`, which is one past the last cell in each dimension.
Dimensions count from 0. A rectangle of a plane is (left, bottom, right, top), and a segment is such
a rectangle with one side of no length.
"""

from __future__ import annotations

from collections.abc import Iterable, Iterator
from dataclasses import dataclass, field, replace
from itertools import combinations, pairwise, product

from geost.blame import carried_out, inquiry_of, without_twins
from geost.program import Program
from geost.questions import Questions
from geost.text import Apart, Placed, Problem, Within, statements

Rect = tuple[int, int, int, int]


@dataclass(frozen=True)
class Cuboid:
    """The cells from `low` up to `high`, the latter not among them."""

    low: tuple[int, ...]
    high: tuple[int, ...]

    def rect(self, right: int, up: int) -> Rect:
        """Where the box lies in the plane of two dimensions."""
        return self.low[right], self.low[up], self.high[right], self.high[up]

    def meet(self, other: Cuboid) -> Cuboid | None:
        """The cells of both, or None."""
        low = tuple(max(a, b) for a, b in zip(self.low, other.low))
        high = tuple(min(a, b) for a, b in zip(self.high, other.high))
        return Cuboid(low, high) if all(a < b for a, b in zip(low, high)) else None


@dataclass(frozen=True)
class Thing:
    """An object where the plan has it."""

    name: str
    shape: str
    origin: tuple[int, ...]
    boxes: tuple[Cuboid, ...]
    attributes: dict[str, int] = field(default_factory=dict)


@dataclass(frozen=True)
class Broken:
    """A rule that the plan breaks, its statement, and the groups of objects that break it."""

    name: str
    statement: str
    groups: tuple[tuple[str, ...], ...]
    is_apart: bool

    def names(self) -> list[str]:
        return list(dict.fromkeys(name for group in self.groups for name in group))


@dataclass(frozen=True)
class Plan:
    """A problem, its objects as they are placed, and what is broken."""

    problem: Problem
    things: tuple[Thing, ...]
    broken: tuple[Broken, ...] = ()

    def blamed(self) -> set[str]:
        return {name for broken in self.broken for name in broken.names()}

    def overlaps(self) -> list[tuple[Cuboid, tuple[str, str]]]:
        """The cells of two objects, where the rule `apart` is broken."""
        return overlaps(self.things) if any(broken.is_apart for broken in self.broken) else []

    def cells(self) -> list[Cuboid]:
        return [box for thing in self.things for box in thing.boxes]


def placed_things(problem: Problem, layout: list[Placed]) -> tuple[Thing, ...]:
    attributes = {thing.name: dict(thing.attributes) for thing in problem.objects}
    return tuple(
        Thing(one.name, one.shape, one.origin, boxes_at(problem, one), attributes[one.name])
        for one in layout
    )


def boxes_at(problem: Problem, placed: Placed) -> tuple[Cuboid, ...]:
    found: list[Cuboid] = []
    for box in problem.shape(placed.shape).boxes:
        low = tuple(value + offset for value, offset in zip(placed.origin, box.offsets))
        found.append(Cuboid(low, tuple(end + size for end, size in zip(low, box.sizes))))
    return tuple(found)


def broken_rules(program: Program, problem: Problem, layout: list[Placed]) -> tuple[Broken, ...]:
    """Every rule that the layout breaks, as the program judges its parts."""
    inquiries = [inquiry_of(rule, problem, layout) for rule in problem.rules]
    blames = carried_out(inquiries, Questions(program, problem, layout))
    spelled = {line.split()[1]: line for line in statements(problem) if line.startswith("rule ")}
    found: list[Broken] = []
    for rule, blamed in zip(problem.rules, blames):
        if blamed:
            groups = tuple(blame.objects for blame in without_twins(blamed))
            is_apart = isinstance(rule.body, Apart)
            found.append(Broken(rule.name, spelled[rule.name], groups, is_apart))
    return tuple(found)


# The room


def hull(boxes: Iterable[Cuboid], dims: int) -> Cuboid:
    """The least box around these; one cell where there are none."""
    all_boxes = list(boxes)
    if not all_boxes:
        return Cuboid((0,) * dims, (1,) * dims)
    low = tuple(min(box.low[d] for box in all_boxes) for d in range(dims))
    return Cuboid(low, tuple(max(box.high[d] for box in all_boxes) for d in range(dims)))


def room_of(problem: Problem, boxes: list[Cuboid]) -> Cuboid:
    """The cells that every `within` allows; without such a rule the least box around all cells."""
    allowed = [rule.body.ranges for rule in problem.rules if isinstance(rule.body, Within)]
    if not allowed:
        return hull(boxes, problem.dims)
    low = tuple(max(ranges[d][0] for ranges in allowed) for d in range(problem.dims))
    high = tuple(min(ranges[d][1] for ranges in allowed) + 1 for d in range(problem.dims))
    return Cuboid(low, tuple(max(end, value + 1) for end, value in zip(high, low)))


def frame_of(plan: Plan) -> Cuboid:
    """The room with all that reaches out of it."""
    boxes = plan.cells()
    return hull([room_of(plan.problem, boxes), *boxes], plan.problem.dims)


def overlaps(things: tuple[Thing, ...]) -> list[tuple[Cuboid, tuple[str, str]]]:
    found: list[tuple[Cuboid, tuple[str, str]]] = []
    for one, other in combinations(things, 2):
        common = (a.meet(b) for a, b in product(one.boxes, other.boxes))
        found.extend((box, (one.name, other.name)) for box in common if box is not None)
    return found


# Slabs: cuts across some dimensions, in each of which the plan is the same

Slab = tuple[tuple[int, int, int], ...]


def slabs_of(boxes: list[Cuboid], dimensions: list[int]) -> list[Slab]:
    """Each slab as (dimension, first cell, one past the last), those with cells alone."""
    cuts = [sorted({end for box in boxes for end in (box.low[d], box.high[d])}) for d in dimensions]
    spans = [[(d, low, high) for low, high in pairwise(ends)] for d, ends in zip(dimensions, cuts)]
    return [slab for slab in product(*spans) if any(is_in_slab(box, slab) for box in boxes)]


def is_in_slab(box: Cuboid, slab: Slab) -> bool:
    return all(box.low[d] <= low and high <= box.high[d] for d, low, high in slab)


def slab_title(slab: Slab) -> str:
    parts = [
        f"x{d + 1} = {low}" + (f"..{high - 1}" if high > low + 1 else "") for d, low, high in slab
    ]
    return ", ".join(parts)


# Outlines in a plane


@dataclass(frozen=True)
class Outline:
    """Rectangles that cover cells once, and the segments between a covered cell and a free one."""

    parts: tuple[Rect, ...]
    segments: tuple[Rect, ...]


class Grid:
    """Rectangles over the grid of their own ends."""

    def __init__(self, rects: list[Rect]):
        self.lefts = sorted({end for rect in rects for end in (rect[0], rect[2])})
        self.bottoms = sorted({end for rect in rects for end in (rect[1], rect[3])})
        columns = {end: number for number, end in enumerate(self.lefts)}
        rows = {end: number for number, end in enumerate(self.bottoms)}
        self.full = {
            (i, j)
            for left, bottom, right, top in rects
            for i in range(columns[left], columns[right])
            for j in range(rows[bottom], rows[top])
        }

    def parts(self) -> Iterator[Rect]:
        """The covered cells as rectangles, each as wide and then as high as can be."""
        left = set(self.full)
        for i, j in sorted(self.full, key=lambda cell: (cell[1], cell[0])):
            if (i, j) in left:
                wide = next(n for n in range(i + 1, len(self.lefts) + 1) if (n, j) not in left)
                high = next(
                    n
                    for n in range(j + 1, len(self.bottoms) + 1)
                    if not self.has_row(left, i, wide, n)
                )
                left -= set(product(range(i, wide), range(j, high)))
                yield self.lefts[i], self.bottoms[j], self.lefts[wide], self.bottoms[high]

    @staticmethod
    def has_row(cells: set[tuple[int, int]], first: int, end: int, row: int) -> bool:
        return all((column, row) in cells for column in range(first, end))

    def segments(self) -> Iterator[Rect]:
        """The pieces of border, each as long as the border goes on."""
        for j in range(len(self.bottoms)):
            marks = [
                ((i, j) in self.full) != ((i, j - 1) in self.full) for i in range(len(self.lefts))
            ]
            for first, end in runs(marks):
                yield self.lefts[first], self.bottoms[j], self.lefts[end], self.bottoms[j]
        for i in range(len(self.lefts)):
            marks = [
                ((i, j) in self.full) != ((i - 1, j) in self.full) for j in range(len(self.bottoms))
            ]
            for first, end in runs(marks):
                yield self.lefts[i], self.bottoms[first], self.lefts[i], self.bottoms[end]


def runs(marks: list[bool]) -> Iterator[tuple[int, int]]:
    """Where marks are set without a gap: the first, and one past the last."""
    ends = [
        n for n, (before, here) in enumerate(pairwise([False, *marks, False])) if before != here
    ]
    yield from zip(ends[::2], ends[1::2])


def outline_of(rects: list[Rect]) -> Outline:
    grid = Grid(rects)
    return Outline(tuple(grid.parts()), tuple(grid.segments()))


def without(rects: list[Rect], others: list[Rect]) -> list[Rect]:
    """The rectangles less the cells of the others."""
    for other in others:
        rects = [piece for rect in rects for piece in rest_of(rect, other)]
    return rects


def rest_of(rect: Rect, other: Rect) -> list[Rect]:
    left, bottom, right, top = rect
    if other[0] >= right or other[2] <= left or other[1] >= top or other[3] <= bottom:
        return [rect]
    first, last = max(left, other[0]), min(right, other[2])
    pieces = [
        (left, bottom, first, top),
        (last, bottom, right, top),
        (first, bottom, last, max(bottom, other[1])),
        (first, min(top, other[3]), last, top),
    ]
    return [piece for piece in pieces if piece[0] < piece[2] and piece[1] < piece[3]]


def clipped(segment: Rect, rect: Rect) -> Rect | None:
    """The part of a segment that lies in a rectangle, its sides included."""
    left, bottom = max(segment[0], rect[0]), max(segment[1], rect[1])
    right, top = min(segment[2], rect[2]), min(segment[3], rect[3])
    is_there = left <= right and bottom <= top and (left < right or bottom < top)
    return (left, bottom, right, top) if is_there else None


# Faces in three dimensions, and a sequence in which none is drawn over one that stands before it

PLANES = ((1, 2), (2, 0), (0, 1))


@dataclass(frozen=True)
class Face:
    """A rectangle on the plane at `place` across `axis`, with the edges of the object on it.

    `outward` is 1 at the high end of the object, -1 at its low end."""

    thing: Thing
    axis: int
    outward: int
    place: int
    rect: Rect
    edges: tuple[Rect, ...]

    def within(self, rect: Rect) -> Face:
        """The part of the face in a rectangle."""
        kept = (clipped(edge, rect) for edge in self.edges)
        return replace(self, rect=rect, edges=tuple(edge for edge in kept if edge is not None))

    def cut(self, side: int, place: int) -> Face:
        """The part on one side of a plane: the end `side` of the rectangle is moved there."""
        ends = [place if number == side else end for number, end in enumerate(self.rect)]
        return self.within((ends[0], ends[1], ends[2], ends[3]))


def faces_of(thing: Thing, axis: int, outward: int) -> Iterator[Face]:
    """The outer faces of a thing across an axis, to its high end or to its low end."""
    right, up = PLANES[axis]
    is_up = outward > 0
    ends = {box: (box.high if is_up else box.low)[axis] for box in thing.boxes}
    for place in sorted(set(ends.values())):
        here = [box.rect(right, up) for box in thing.boxes if ends[box] == place]
        cell = place if is_up else place - 1
        near = [box for box in thing.boxes if box.low[axis] <= cell < box.high[axis]]
        outline = outline_of(without(here, [box.rect(right, up) for box in near]))
        for part in outline.parts:
            yield Face(thing, axis, outward, place, part, outline.segments).within(part)


@dataclass(frozen=True)
class Node:
    """A plane with the faces on it, and those below and above it."""

    axis: int
    here: tuple[Face, ...]
    low: Node | None
    high: Node | None


def tree_of(faces: list[Face]) -> Node | None:
    """A tree of the faces, those that lie across a plane cut in two."""
    if not faces:
        return None
    middle = faces[len(faces) // 2]
    sides: dict[int, list[Face]] = {-1: [], 0: [], 1: []}
    for face in faces:
        for side, part in parted(face, middle.axis, middle.place):
            sides[side].append(part)
    return Node(middle.axis, tuple(sides[0]), tree_of(sides[-1]), tree_of(sides[1]))


def parted(face: Face, axis: int, place: int) -> list[tuple[int, Face]]:
    """The parts of a face, each with -1, 0 or 1: below, on and above the plane."""
    if face.axis == axis:
        return [((face.place > place) - (face.place < place), face)]
    at = PLANES[face.axis].index(axis)
    if face.rect[at + 2] <= place:
        return [(-1, face)]
    if face.rect[at] >= place:
        return [(1, face)]
    return [(-1, face.cut(at + 2, place)), (1, face.cut(at, place))]


def back_to_front(node: Node | None, eye: tuple[float, float, float]) -> Iterator[Face]:
    """The faces of a tree that look to the eye, the farthest first."""
    if node is not None:
        is_high = eye[node.axis] > 0
        yield from back_to_front(node.low if is_high else node.high, eye)
        yield from (face for face in node.here if face.outward * eye[face.axis] > 0)
        yield from back_to_front(node.high if is_high else node.low, eye)


def visible_faces(things: list[Thing], eye: tuple[float, float, float]) -> list[Face]:
    """All faces that look to the eye, the farthest first."""
    kinds = list(product(range(3), (-1, 1)))
    faces = [face for thing in things for kind in kinds for face in faces_of(thing, *kind)]
    return list(back_to_front(tree_of(faces), eye))


# Colours

HUES = (
    "#4e79a7 #f28e2b #59a14f #76b7b2 #edc948 #b07aa1 #9c755f #86bcb6 #a0cbe8 #8cd17d "
    "#b6992d #499894 #d4a6c8 #ffbe7d #79706e #6b8fb5 #c9a66b #7fb77e #9d94c4 #bab0ac"
).split()
RAMP = ((253, 231, 37), (94, 201, 98), (33, 145, 140), (59, 82, 139), (68, 1, 84))
BLAMED = "#e5534b"
OBJECT, SHAPE = "object", "shape"


@dataclass(frozen=True)
class Palette:
    """A colour for each key: an object's name, a shape's name, or the value of an attribute."""

    by: str
    colours: dict[str | int, str]

    def of(self, thing: Thing) -> str:
        return self.colours[key_of(thing, self.by)]

    def legend(self) -> list[tuple[str, str]]:
        """Labels with their colours."""
        is_name = self.by in (OBJECT, SHAPE)
        return [
            (str(key) if is_name else f"{self.by} = {key}", colour)
            for key, colour in self.colours.items()
        ]


def key_of(thing: Thing, by: str) -> str | int:
    return (
        thing.name if by == OBJECT else thing.shape if by == SHAPE else thing.attributes.get(by, 0)
    )


def palette_of(things: tuple[Thing, ...], by: str) -> Palette:
    """Hues in turn for names; for three or more values a ramp from light to dark."""
    keys = list(dict.fromkeys(key_of(thing, by) for thing in things))
    if by in (OBJECT, SHAPE) or len(keys) < 3:
        return Palette(by, {key: HUES[number % len(HUES)] for number, key in enumerate(keys)})
    values = sorted(int(key) for key in keys)
    most = values[-1] - values[0]
    return Palette(by, {value: ramp_colour((value - values[0]) / most) for value in values})


def ramp_colour(share: float) -> str:
    """The colour of the ramp at a share from 0 to 1."""
    at = min(share * (len(RAMP) - 1), len(RAMP) - 1.0001)
    low, high = RAMP[int(at)], RAMP[int(at) + 1]
    return hex_of([a + (b - a) * (at - int(at)) for a, b in zip(low, high)])


def hex_of(parts: list[float]) -> str:
    return "#" + "".join(f"{max(0, min(255, int(part + 0.5))):02x}" for part in parts)


def rgb_of(colour: str) -> list[int]:
    return [int(colour[at : at + 2], 16) for at in (1, 3, 5)]


def lit(colour: str, light: float) -> str:
    """The colour darker (light below 1) or nearer to white (above 1)."""
    parts = rgb_of(colour)
    if light <= 1:
        return hex_of([part * light for part in parts])
    return hex_of([part + (255 - part) * (light - 1) for part in parts])


def is_dark(colour: str) -> bool:
    red, green, blue = rgb_of(colour)
    return 0.3 * red + 0.59 * green + 0.11 * blue < 140
