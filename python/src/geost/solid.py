"""Drawings of plans in three dimensions: true boxes, seen from above and aside, in parallel."""

from __future__ import annotations

from dataclasses import dataclass, replace
from itertools import product
from math import cos, hypot, sin

from geost.drawing import (
    LETTER,
    MOST_SHEETS,
    Drawing,
    Look,
    area,
    escape,
    lines,
    n,
    number_width,
    quoteattr,
    step_for,
    text_at,
    ticks,
    title_of,
)
from geost.picture import (
    PLANES,
    Cuboid,
    Face,
    Plan,
    Rect,
    Slab,
    Thing,
    faces_of,
    frame_of,
    is_dark,
    is_in_slab,
    lit,
    slab_title,
    slabs_of,
    visible_faces,
)

Point = tuple[float, float]
Space = tuple[float, float, float]

TURN, TILT = -0.95, 0.5  # radians
LIGHTS = (0.86, 0.98, 1.12)  # of faces across x1, x2 and x3
OVERLAP = "#b00020"


@dataclass(frozen=True)
class Camera:
    """How points of the room fall onto the drawing. `eye` is the direction to the eye."""

    right: Space
    up: Space
    eye: Space
    scale: float
    middle: Space
    centre: Point

    def onto(self, point: Space) -> Point:
        away = (point[0] - self.middle[0], point[1] - self.middle[1], point[2] - self.middle[2])
        x, y = self.scale * dot(self.right, away), self.scale * dot(self.up, away)
        return self.centre[0] + x, self.centre[1] - y


def dot(one: Space, other: Space) -> float:
    return one[0] * other[0] + one[1] * other[1] + one[2] * other[2]


def camera_at(turn: float, tilt: float, scale: float, middle: Space, centre: Point) -> Camera:
    right = (-sin(turn), cos(turn), 0.0)
    up = (-cos(turn) * sin(tilt), -sin(turn) * sin(tilt), cos(tilt))
    eye = (cos(turn) * cos(tilt), sin(turn) * cos(tilt), sin(tilt))
    return Camera(right, up, eye, scale, middle, centre)


def camera_for(frame: Cuboid, size: Point, turn: float = TURN, tilt: float = TILT) -> Camera:
    """The camera under which the frame fills a drawing, with a margin for the numbers."""
    middle = (
        (frame.low[0] + frame.high[0]) / 2,
        (frame.low[1] + frame.high[1]) / 2,
        (frame.low[2] + frame.high[2]) / 2,
    )
    flat = camera_at(turn, tilt, 1, middle, (0, 0))
    spots = [flat.onto((x, y, z)) for x, y, z in product(*zip(frame.low[:3], frame.high[:3]))]
    across, down = [spot[0] for spot in spots], [spot[1] for spot in spots]
    margin = min(size) * 0.11
    scale = min(
        (size[0] - 2 * margin) / (max(across) - min(across)),
        (size[1] - 2 * margin) / (max(down) - min(down)),
    )
    shift = (max(across) + min(across)) / 2, (max(down) + min(down)) / 2
    return camera_at(
        turn, tilt, scale, middle, (size[0] / 2 - shift[0] * scale, size[1] / 2 - shift[1] * scale)
    )


def point_on(axis: int, place: float, right: float, up: float) -> Space:
    """The point of a plane across an axis."""
    found = [0.0, 0.0, 0.0]
    found[axis] = place
    found[PLANES[axis][0]], found[PLANES[axis][1]] = right, up
    return found[0], found[1], found[2]


def first_seen(camera: Camera, things: list[Thing], spot: Point) -> Thing | None:
    """The thing whose cells are nearest to the eye at a point of the drawing."""
    right, up = (spot[0] - camera.centre[0]) / camera.scale, (
        camera.centre[1] - spot[1]
    ) / camera.scale
    start = [camera.middle[d] + camera.right[d] * right + camera.up[d] * up for d in range(3)]
    hits = [
        (nearest(box, start, camera.eye), number)
        for number, thing in enumerate(things)
        for box in thing.boxes
    ]
    seen = [(reach, number) for reach, number in hits if reach is not None]
    return things[max(seen)[1]] if seen else None


def nearest(box: Cuboid, start: list[float], eye: Space) -> float | None:
    """How far towards the eye a line through a point leaves a box; None where it misses it."""
    spans = []
    for d in range(3):
        ends = (box.low[d] - start[d]) / eye[d], (box.high[d] - start[d]) / eye[d]
        spans.append((min(ends), max(ends)))
    far, near = max(span[0] for span in spans), min(span[1] for span in spans)
    return near if far <= near else None


# The room


def draw_room(camera: Camera, frame: Cuboid) -> list[str]:
    """The floor and the two walls behind, each with its grid."""
    parts: list[str] = []
    for axis in range(3):
        right, up = PLANES[axis]
        place = frame.low[axis] if axis == 2 or camera.eye[axis] > 0 else frame.high[axis]
        corners = [(frame.low[right], frame.low[up]), (frame.high[right], frame.low[up])]
        corners += [(frame.high[right], frame.high[up]), (frame.low[right], frame.high[up])]
        spots = [camera.onto(point_on(axis, place, *corner)) for corner in corners]
        parts.append(
            f'<polygon points="{spelled(spots)}" class="{"floor" if axis == 2 else "wall"}"/>'
        )
        parts.append(lines(wires(camera, frame, axis, place), "wire"))
    return parts


def wires(
    camera: Camera, frame: Cuboid, axis: int, place: int
) -> list[tuple[float, float, float, float]]:
    right, up = PLANES[axis]
    step = step_for(camera.scale, 9)
    found = []
    for k in ticks(frame.low[right] + 1, frame.high[right] - 1, step):
        ends = [
            camera.onto(point_on(axis, place, k, end)) for end in (frame.low[up], frame.high[up])
        ]
        found.append((*ends[0], *ends[1]))
    for k in ticks(frame.low[up] + 1, frame.high[up] - 1, step):
        ends = [
            camera.onto(point_on(axis, place, end, k))
            for end in (frame.low[right], frame.high[right])
        ]
        found.append((*ends[0], *ends[1]))
    return found


def spelled(spots: list[Point]) -> str:
    return " ".join(f"{n(x)},{n(y)}" for x, y in spots)


def near_edges(camera: Camera, frame: Cuboid) -> str:
    """The three edges of the room that stand before everything."""
    near = tuple(frame.high[d] if camera.eye[d] > 0 else frame.low[d] for d in range(3))
    found = []
    for d in range(3):
        ends = [camera.onto(with_part(near, d, end)) for end in (frame.low[d], frame.high[d])]
        found.append((*ends[0], *ends[1]))
    return lines(found, "near")


def with_part(point: tuple[float, ...], place: int, value: float) -> Space:
    parts = [value if d == place else part for d, part in enumerate(point)]
    return parts[0], parts[1], parts[2]


def draw_axis(camera: Camera, frame: Cuboid, d: int) -> list[str]:
    """The numbers along that edge in dimension `d` that lies lowest, for the height leftmost."""
    base = edge_for(camera, frame, d)
    ends = frame.low[d], frame.high[d]
    low, high = [camera.onto(with_part(base, d, end)) for end in ends]
    middle = (low[0] + high[0]) / 2, (low[1] + high[1]) / 2
    off = away_from(camera.onto(camera.middle), low, high)
    wide = number_width(*ends)
    least = 16 if d == 2 else max(26, wide)
    step = step_for(hypot(high[0] - low[0], high[1] - low[1]) / (ends[1] - ends[0]), least)
    spots = [(k, camera.onto(with_part(base, d, k))) for k in ticks(*ends, step)]
    parts = [lines([(x, y, x + off[0] * 4, y + off[1] * 4) for _, (x, y) in spots], "tick")]
    far = max(14, 4 + wide / 2)
    parts += [
        text_at(x + off[0] * far, y + off[1] * far + 4, str(k), "number") for k, (x, y) in spots
    ]
    x, y = middle[0] + off[0] * (18 + far), middle[1] + off[1] * (18 + far) + 4
    return [*parts, text_at(x, y, f"x{d + 1}", "axis")]


def away_from(inner: Point, low: Point, high: Point) -> Point:
    """The direction across an edge away from a point, one pixel long."""
    length = hypot(high[0] - low[0], high[1] - low[1]) or 1.0
    off = (high[1] - low[1]) / length, (low[0] - high[0]) / length
    middle = (low[0] + high[0]) / 2, (low[1] + high[1]) / 2
    if off[0] * (middle[0] - inner[0]) + off[1] * (middle[1] - inner[1]) < 0:
        return -off[0], -off[1]
    return off


def edge_for(camera: Camera, frame: Cuboid, d: int) -> tuple[float, ...]:
    """A corner of the room from which the edge for the numbers goes along `d`."""
    corners = [
        corner
        for corner in product(*zip(frame.low[:3], frame.high[:3]))
        if corner[d] == frame.low[d]
    ]
    on_floor = [corner for corner in corners if d == 2 or corner[2] == frame.low[2]]

    def rank(corner: tuple[float, ...]) -> float:
        low, high = camera.onto(with_part(corner, d, frame.low[d])), camera.onto(
            with_part(corner, d, frame.high[d])
        )
        return -(low[0] + high[0]) if d == 2 else low[1] + high[1]

    return max(on_floor, key=rank)


# The things


def draw_face(camera: Camera, look: Look, face: Face) -> str:
    left, bottom, right, top = face.rect
    fill = lit(OVERLAP if not face.thing.shape else look.fill(face.thing), LIGHTS[face.axis])
    corners = [(left, bottom), (right, bottom), (right, top), (left, top)]
    spots = [camera.onto(point_on(face.axis, face.place, *corner)) for corner in corners]
    ends = [
        (
            *camera.onto(point_on(face.axis, face.place, a, b)),
            *camera.onto(point_on(face.axis, face.place, c, d)),
        )
        for a, b, c, d in face.edges
    ]
    # the faces of one object touch: a line of their own colour closes the gap between them
    shape = f'<polygon points="{spelled(spots)}" fill="{fill}" stroke="{fill}" stroke-width="0.6"/>'
    head = f'<g class="{look.classes(face.thing)}" data-name={quoteattr(face.thing.name)}>'
    return f"{head}<title>{escape(title_of(face.thing))}</title>{shape}{lines(ends, 'edge')}</g>"


def label_on(camera: Camera, look: Look, face: Face, things: list[Thing]) -> str:
    """The name of a thing as if it were written on its face; empty where it is not seen whole."""
    left, bottom, right, top = face.rect
    middle = camera.onto(point_on(face.axis, face.place, (left + right) / 2, (bottom + top) / 2))
    along, across, long, high = writing_on(camera, face)
    name = face.thing.name
    size = min(long * 0.86 / (LETTER * len(name)), high * 0.62, 26 / hypot(*along))
    if size * min(hypot(*along), 1.3 * hypot(*across)) < 7:
        return ""
    matrix = [along[0] * size, along[1] * size, -across[0] * size, -across[1] * size, *middle]
    if any(
        first_seen(camera, things, spot) is not face.thing for spot in spots_of(matrix, len(name))
    ):
        return ""
    colour = "#ffffff" if is_dark(lit(look.fill(face.thing), LIGHTS[face.axis])) else "#1b1f24"
    place = f'transform="matrix({" ".join(map(n, matrix))})" font-size="1"'
    return f'<text {place} class="name" fill="{colour}">{escape(name)}</text>'


def spots_of(matrix: list[float], letters: int) -> list[Point]:
    """Points of the drawing under a writing: its ends and its middle, above and below."""
    a, b, c, d, x, y = matrix
    half = LETTER * letters / 2
    grid = product((-half, 0, half), (-0.35, 0.35))
    return [(x + a * along + c * down, y + b * along + d * down) for along, down in grid]


def labels_of(camera: Camera, look: Look, named: list[Thing], all_things: list[Thing]) -> list[str]:
    """A name on each side of each thing, in the largest of its places where it is seen whole."""
    found: dict[tuple[str, int], str] = {}
    outward = [1 if part > 0 else -1 for part in camera.eye]
    faces = [
        f for thing in named for axis in range(3) for f in faces_of(thing, axis, outward[axis])
    ]
    for face in sorted(faces, key=size_of, reverse=True):
        key = face.thing.name, face.axis
        labels = [label_on(camera, look, part, all_things) for part in with_halves(face)]
        found[key] = found.get(key, "") or next((label for label in labels if label), "")
    return [label for label in found.values() if label]


def size_of(face: Face) -> int:
    return area(face.rect)


def with_halves(face: Face) -> list[Face]:
    """The face, and its four halves where these have whole cells."""
    left, bottom, right, top = face.rect
    across, level = (left + right) // 2, (bottom + top) // 2
    rects = [
        (left, bottom, across, top),
        (across, bottom, right, top),
        (left, bottom, right, level),
        (left, level, right, top),
    ]
    return [face, *(replace(face, rect=rect) for rect in rects if has_cells(rect))]


def has_cells(rect: Rect) -> bool:
    return rect[0] < rect[2] and rect[1] < rect[3]


def writing_on(camera: Camera, face: Face) -> tuple[Point, Point, int, int]:
    """The directions of a line of writing and across it for one cell, and how many cells."""
    left, bottom, right, top = face.rect
    start = camera.onto(point_on(face.axis, face.place, 0, 0))
    ends = [camera.onto(point_on(face.axis, face.place, *step)) for step in ((1, 0), (0, 1))]
    first, second = [(end[0] - start[0], end[1] - start[1]) for end in ends]
    along, across, long, high = first, second, right - left, top - bottom
    if is_turned(face, first, second):
        along, across, long, high = second, first, high, long
    if along[0] < 0:
        along = -along[0], -along[1]
    if along[0] * across[1] - along[1] * across[0] > 0:
        across = -across[0], -across[1]
    return along, across, long, high


def is_turned(face: Face, first: Point, second: Point) -> bool:
    """Whether writing goes along the face's second dimension: on sides, so that it is upright."""
    if face.axis < 2:
        return face.axis == 1
    long, high = face.rect[2] - face.rect[0], face.rect[3] - face.rect[1]
    flatter = abs(second[0]) / hypot(*second) > abs(first[0]) / hypot(*first) + 0.2
    return long < high * 0.6 or flatter and high >= long * 0.6


def in_slab(things: tuple[Thing, ...], slab: Slab) -> list[Thing]:
    found = [
        Thing(
            one.name,
            one.shape,
            one.origin,
            tuple(box for box in one.boxes if is_in_slab(box, slab)),
            one.attributes,
        )
        for one in things
    ]
    return [thing for thing in found if thing.boxes]


def draw_solid(plan: Plan, look: Look, size: Point, slab: Slab = (), title: str = "") -> Drawing:
    """The things in a slab across the dimensions from the fourth on, and the cells they share."""
    frame = frame_of(plan)
    camera = camera_for(frame, size)
    things = in_slab(plan.things, slab)
    shared = [
        Thing(" and ".join(names), "", (), (box,))
        for box, names in plan.overlaps()
        if is_in_slab(box, slab)
    ]
    blamed = [thing for thing in things if not look.is_faded(thing)]
    behind = [thing for thing in things if look.is_faded(thing)]
    parts = ['<g class="solid">', text_at(12, 18, title, "title"), *draw_room(camera, frame)]
    for group in (behind, [*blamed, *shared]):
        faces = visible_faces(group, camera.eye)
        parts += [draw_face(camera, look, face) for face in faces]
        parts += labels_of(camera, look, [thing for thing in group if thing in blamed], group)
    parts += [near_edges(camera, frame), "</g>"]
    return Drawing(
        *size, tuple([*parts, *(part for d in range(3) for part in draw_axis(camera, frame, d))])
    )


def draw_solids(plan: Plan, look: Look, size: Point) -> list[Drawing]:
    """One drawing; in more than three dimensions one for each slab across the others."""
    slabs = slabs_of(plan.cells(), list(range(3, plan.problem.dims)))[:MOST_SHEETS]
    return [draw_solid(plan, look, size, slab, slab_title(slab)) for slab in slabs]
