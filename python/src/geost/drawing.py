"""Drawings of plans as SVG: planes, layers, sides, time lines, tables. Lengths are pixels."""

from __future__ import annotations

from collections.abc import Iterable
from dataclasses import dataclass

from geost.files import file_of
from geost.picture import (
    BLAMED,
    Cuboid,
    Palette,
    Plan,
    Rect,
    Slab,
    Thing,
    frame_of,
    hull,
    is_dark,
    is_in_slab,
    lit,
    outline_of,
    slab_title,
    slabs_of,
)
from geost.text import Placed, print_placed

STYLE = file_of("tools/page/source/drawing.css")
LETTER = 0.6  # the width of a letter, as a share of its size
PALE = 1.68  # how near to white what is not blamed stands, from 1 to 2
LARGEST_NAME, SMALLEST_NAME = 16.0, 6.5
MOST_LANES = 60
MOST_SHEETS = 60


@dataclass(frozen=True)
class Drawing:
    """Parts of an SVG in a room of this size."""

    width: float
    height: float
    parts: tuple[str, ...]

    def body(self) -> str:
        return "\n".join(self.parts)

    def svg(self, title: str) -> str:
        """A whole file, which needs nothing else."""
        style = STYLE.read_text(encoding="utf-8")
        size = f'width="{n(self.width)}" height="{n(self.height)}"'
        return (
            f'<svg xmlns="http://www.w3.org/2000/svg" role="img" {size} '
            f'viewBox="0 0 {n(self.width)} {n(self.height)}">\n'
            f"<title>{escape(title)}</title>\n<style>\n{style}</style>\n{self.body()}\n</svg>\n"
        )


@dataclass(frozen=True)
class Look:
    """How things are coloured: by a palette; where some are blamed, those red and others pale."""

    palette: Palette
    blamed: frozenset[str] = frozenset()

    def fill(self, thing: Thing) -> str:
        return BLAMED if thing.name in self.blamed else self.palette.of(thing)

    def is_faded(self, thing: Thing) -> bool:
        return bool(self.blamed) and thing.name not in self.blamed

    def flat_fill(self, thing: Thing) -> str:
        """The fill in a plane, where what is pale hides what lies behind it all the same."""
        return lit(self.fill(thing), PALE) if self.is_faded(thing) else self.fill(thing)

    def rank(self, piece: Piece) -> tuple[int, bool]:
        """Pieces are drawn by this: the farthest first, of equal ones the blamed behind others."""
        return piece.nearness, piece.thing.name in self.blamed

    def classes(self, thing: Thing) -> str:
        if thing.name in self.blamed:
            return "thing blamed"
        return "thing faded" if self.is_faded(thing) else "thing"


@dataclass(frozen=True)
class Plane:
    """Two dimensions, to the right and upwards, and the one along which it is looked, if any.

    `is_from_high` says whether the eye is at the high end of that dimension."""

    right: int
    up: int
    depth: int | None = None
    is_from_high: bool = True

    def nearness(self, box: Cuboid) -> int:
        """The greater, the nearer to the eye the box ends."""
        if self.depth is None:
            return 0
        return box.high[self.depth] if self.is_from_high else -box.low[self.depth]


def n(value: float) -> str:
    """A number with two decimals at most."""
    text = f"{value:.2f}".rstrip("0").rstrip(".")
    return "0" if text == "-0" else text


def escape(words: str) -> str:
    """The words as a text of SVG has them."""
    return words.replace("&", "&amp;").replace("<", "&lt;").replace(">", "&gt;")


def quoteattr(words: str) -> str:
    """The words in quotes, as the value of an attribute."""
    return '"' + escape(words).replace('"', "&quot;") + '"'


def text_at(x: float, y: float, words: str, classes: str) -> str:
    return f'<text x="{n(x)}" y="{n(y)}" class="{classes}">{escape(words)}</text>'


def rectangle(rect: tuple[float, float, float, float], rest: str) -> str:
    """A rectangle by its left, top, width and height."""
    left, top, width, height = map(n, rect)
    return f'<rect x="{left}" y="{top}" width="{width}" height="{height}" {rest}/>'


def lines(ends: Iterable[tuple[float, float, float, float]], classes: str) -> str:
    path = "".join(f"M{n(a)} {n(b)}L{n(c)} {n(d)}" for a, b, c, d in ends)
    return f'<path d="{path}" class="{classes}"/>'


def step_for(scale: float, least: float) -> int:
    """The least of 1, 2, 5, 10, 20 .. cells that are so many pixels apart."""
    ten = 1
    while 5 * ten * scale < least:
        ten *= 10
    return next(digit * ten for digit in (1, 2, 5) if digit * ten * scale >= least)


def ticks(low: int, high: int, step: int) -> range:
    """The multiples of a step from one number up to another."""
    return range(-(-low // step) * step, high + 1, step)


def number_width(low: int, high: int) -> float:
    """The pixels that a number between these takes, with a gap."""
    return 10 + 7.2 * max(len(str(low)), len(str(high)))


def title_of(thing: Thing) -> str:
    """What is said of a thing where the mouse is over it."""
    return print_placed(Placed(thing.name, thing.shape, thing.origin))


# Names in boxes


@dataclass(frozen=True)
class Writing:
    """How large a name can be written, and whether it is turned upright."""

    size: float
    is_upright: bool

    def draw(self, name: str, x: float, y: float, fill: str) -> str:
        turn = " rotate(-90)" if self.is_upright else ""
        place = f'transform="translate({n(x)} {n(y)}){turn}" font-size="{n(self.size)}"'
        colour = "#ffffff" if is_dark(fill) else "#1b1f24"
        return f'<text {place} class="name" fill="{colour}">{escape(name)}</text>'


def writing_in(name: str, width: float, height: float) -> Writing:
    wide = LETTER * len(name)
    flat = min(width * 0.92 / wide, height * 0.72, LARGEST_NAME)
    upright = min(height * 0.92 / wide, width * 0.72, LARGEST_NAME)
    return (
        Writing(flat, False) if flat >= SMALLEST_NAME or flat >= upright else Writing(upright, True)
    )


# A plane with things


@dataclass(frozen=True)
class Paper:
    """Where the cells of a frame lie on a drawing."""

    frame: Cuboid
    plane: Plane
    scale: float
    left: float
    top: float

    def x(self, value: float) -> float:
        return self.left + (value - self.frame.low[self.plane.right]) * self.scale

    def y(self, value: float) -> float:
        return self.top + (self.frame.high[self.plane.up] - value) * self.scale

    def span(self, rect: Rect) -> tuple[float, float, float, float]:
        left, bottom, right, top = rect
        return self.x(left), self.y(top), (right - left) * self.scale, (top - bottom) * self.scale

    def whole(self) -> Rect:
        return self.frame.rect(self.plane.right, self.plane.up)


def paper_for(frame: Cuboid, plane: Plane, width: float, height: float) -> Paper:
    """The frame as large as fits between the numbers at its left and below and a title above."""
    left, bottom, right, top = frame.rect(plane.right, plane.up)
    margin = max(44.0, 20 + number_width(bottom, top))
    scale = min((width - margin - 14) / (right - left), (height - 60) / (top - bottom))
    return Paper(frame, plane, scale, margin, 26)


def draw_plane(
    plan: Plan,
    look: Look,
    plane: Plane,
    size: tuple[float, float],
    title: str = "",
    slab: Slab | None = None,
) -> Drawing:
    """The things as seen along the plane's depth; with a slab, what lies in it alone."""
    paper = paper_for(frame_of(plan), plane, *size)
    pieces = sorted(pieces_of(plan.things, plane, slab), key=look.rank)
    place = f'data-right="{plane.right}" data-up="{plane.up}" data-scale="{n(paper.scale)}"'
    parts = [f'<g class="plan" {place}>']
    parts += [text_at(paper.left, 16, title, "title"), *draw_room(paper)]
    parts += [draw_piece(paper, look, piece) for piece in pieces]
    parts += [
        draw_overlap(paper, box, names)
        for box, names in plan.overlaps()
        if slab is None or is_in_slab(box, slab)
    ]
    parts += [draw_name(paper, look, piece) for piece in named_pieces(pieces)]
    left, bottom, right, top = paper.whole()
    width = paper.x(right) + 14
    return Drawing(width, paper.y(bottom) + 34, tuple([*parts, "</g>"]))


def draw_room(paper: Paper) -> list[str]:
    left, bottom, right, top = paper.whole()
    across = ticks(left, right, step_for(paper.scale, max(24, number_width(left, right))))
    upward = ticks(bottom, top, step_for(paper.scale, 24))
    grid = [(paper.x(k), paper.y(bottom), paper.x(k), paper.y(top)) for k in across]
    grid += [(paper.x(left), paper.y(k), paper.x(right), paper.y(k)) for k in upward]
    parts = [rectangle(paper.span(paper.whole()), 'class="room"'), lines(grid, "grid")]
    parts += [text_at(paper.x(k), paper.y(bottom) + 14, str(k), "number") for k in across]
    parts += [text_at(paper.x(left) - 7, paper.y(k) + 4, str(k), "number end") for k in upward]
    middle = paper.y((bottom + top) / 2)
    turned = f'transform="translate(13 {n(middle)}) rotate(-90)"'
    upright = f'<text {turned} class="axis">x{paper.plane.up + 1}</text>'
    below = text_at(
        paper.x((left + right) / 2), paper.y(bottom) + 29, f"x{paper.plane.right + 1}", "axis"
    )
    return [*parts, below, upright]


@dataclass(frozen=True)
class Piece:
    """The part of a thing that ends equally near to the eye, as rectangles and border."""

    thing: Thing
    nearness: int
    parts: tuple[Rect, ...]
    segments: tuple[Rect, ...]


def pieces_of(things: Iterable[Thing], plane: Plane, slab: Slab | None) -> list[Piece]:
    """The pieces of all things."""
    found: list[Piece] = []
    for thing in things:
        boxes = [box for box in thing.boxes if slab is None or is_in_slab(box, slab)]
        for nearness in sorted({plane.nearness(box) for box in boxes}):
            rects = [
                box.rect(plane.right, plane.up) for box in boxes if plane.nearness(box) == nearness
            ]
            outline = outline_of(rects)
            found.append(Piece(thing, nearness, outline.parts, outline.segments))
    return found


def draw_piece(paper: Paper, look: Look, piece: Piece) -> str:
    fill = look.flat_fill(piece.thing)
    spans = [paper.span(part) for part in piece.parts]
    cells = [
        rectangle((x - 0.3, y - 0.3, w + 0.6, h + 0.6), f'fill="{fill}"') for x, y, w, h in spans
    ]
    border = lines(
        [(paper.x(a), paper.y(b), paper.x(c), paper.y(d)) for a, b, c, d in piece.segments], "edge"
    )
    head = f'<g class="{look.classes(piece.thing)}" data-name={quoteattr(piece.thing.name)}>'
    return f"{head}<title>{escape(title_of(piece.thing))}</title>{''.join(cells)}{border}</g>"


def named_pieces(pieces: list[Piece]) -> list[tuple[Piece, Rect]]:
    """For each thing the largest rectangle over which nothing nearer lies, where there is one."""
    best: dict[str, tuple[Piece, Rect]] = {}
    for number, piece in enumerate(pieces):
        over = [rect for nearer in pieces[number + 1 :] for rect in nearer.parts]
        free = [rect for rect in piece.parts if not any(meets(rect, other) for other in over)]
        before = [best[piece.thing.name][1]] if piece.thing.name in best else []
        largest = max([*before, *free], key=area, default=None)
        if largest is not None and largest not in before:
            best[piece.thing.name] = (piece, largest)
    return list(best.values())


def area(rect: Rect) -> int:
    return (rect[2] - rect[0]) * (rect[3] - rect[1])


def meets(one: Rect, other: Rect) -> bool:
    return one[0] < other[2] and other[0] < one[2] and one[1] < other[3] and other[1] < one[3]


def draw_name(paper: Paper, look: Look, named: tuple[Piece, Rect]) -> str:
    piece, rect = named
    x, y, width, height = paper.span(rect)
    writing = writing_in(piece.thing.name, width, height)
    if writing.size < SMALLEST_NAME:
        return ""
    fill = look.flat_fill(piece.thing)
    return writing.draw(piece.thing.name, x + width / 2, y + height / 2, fill)


def draw_overlap(paper: Paper, box: Cuboid, names: tuple[str, str]) -> str:
    span = rectangle(paper.span(box.rect(paper.plane.right, paper.plane.up)), 'class="overlap"')
    return f"<g><title>{escape(' and '.join(names))} share these cells</title>{span}</g>"


# Layers and sides


def draw_layers(plan: Plan, look: Look, size: tuple[float, float]) -> list[Drawing]:
    """One plane for each slab across the dimensions from the third on, from below."""
    slabs = slabs_of(plan.cells(), list(range(2, plan.problem.dims)))[:MOST_SHEETS]
    titles = [("layer " + slab_title(slab)) if slab else "" for slab in slabs]
    return [
        draw_plane(plan, look, Plane(0, 1), size, title, slab) for title, slab in zip(titles, slabs)
    ]


SIDES = (
    ("from above", Plane(0, 1, 2, True)),
    ("from the front, at low x2", Plane(0, 2, 1, False)),
    ("from the right, at high x1", Plane(1, 2, 0, True)),
)


def draw_sides(plan: Plan, look: Look, size: tuple[float, float]) -> list[Drawing]:
    """From above, the front and the right, for each slab across dimensions from the fourth on."""
    slabs = slabs_of(plan.cells(), list(range(3, plan.problem.dims)))[:MOST_SHEETS]
    return [
        draw_plane(
            plan,
            look,
            plane,
            size,
            ", ".join(part for part in (title, slab_title(slab)) if part),
            slab,
        )
        for slab in slabs
        for title, plane in SIDES
    ]


# Time lines


@dataclass(frozen=True)
class Lanes:
    """Rows by the cells of a dimension, the highest first, or one for each thing."""

    names: tuple[str, ...]
    dimension: int | None


def lanes_of(plan: Plan, frame: Cuboid, dimension: int | None) -> Lanes:
    if dimension is None or frame.high[dimension] - frame.low[dimension] > MOST_LANES:
        return Lanes(tuple(thing.name for thing in plan.things), None)
    cells = range(frame.high[dimension] - 1, frame.low[dimension] - 1, -1)
    return Lanes(tuple(f"x{dimension + 1} = {cell}" for cell in cells), dimension)


@dataclass(frozen=True)
class Lines:
    """Where the bars of a time line lie."""

    frame: Cuboid
    time: int
    lanes: Lanes
    left: float
    width: float
    row: float
    top: float = 26

    def x(self, value: int) -> float:
        low, high = self.frame.low[self.time], self.frame.high[self.time]
        return self.left + (value - low) * (self.width - self.left - 24) / (high - low)

    def bottom(self) -> float:
        return self.top + self.row * len(self.lanes.names)

    def bar(self, box: Cuboid, number: int) -> tuple[float, float, float, float]:
        """Left, top, width and height of the bar of a box of the thing with this number."""
        first, rows = number, 1
        if self.lanes.dimension is not None:
            first = self.frame.high[self.lanes.dimension] - box.high[self.lanes.dimension]
            rows = box.high[self.lanes.dimension] - box.low[self.lanes.dimension]
        left, right = self.x(box.low[self.time]), self.x(box.high[self.time])
        return left + 0.5, self.top + first * self.row + 3, right - left - 1, rows * self.row - 6


def draw_time(plan: Plan, look: Look, width: float, time: int = 0, lane: int | None = 1) -> Drawing:
    """Time to the right in one dimension, lanes by another one or by objects."""
    frame = frame_of(plan)
    lanes = lanes_of(
        plan, frame, None if lane == time or (lane or 0) >= plan.problem.dims else lane
    )
    left = 20 + 7.2 * max(4, *(len(name) for name in lanes.names))
    row = max(18.0, min(46.0 if lanes.dimension is not None else 28.0, 520 / len(lanes.names)))
    place = Lines(frame, time, lanes, left, width, row)
    parts = draw_lanes(place)
    for number, thing in enumerate(plan.things):
        if thing.boxes:
            parts.append(draw_bars(place, look, thing, number))
    what = f"x{time + 1}" + (
        "" if lanes.dimension is None else f", lanes by x{lanes.dimension + 1}"
    )
    parts.append(text_at(left, place.bottom() + 18, what, "title"))
    head = f'<g class="plan" data-right="{time}" data-up="{lanes.dimension}" data-row="{n(row)}">'
    return Drawing(width, place.bottom() + 26, (head, *parts, "</g>"))


def draw_lanes(place: Lines) -> list[str]:
    parts: list[str] = []
    span = place.width - place.left - 24
    for number, name in enumerate(place.lanes.names):
        top = place.top + number * place.row
        kind = "odd" if number % 2 else "even"
        parts.append(rectangle((place.left, top, span, place.row), f'class="{kind}"'))
        parts.append(text_at(place.left - 8, top + place.row / 2 + 4, name, "line end"))
    low, high = place.frame.low[place.time], place.frame.high[place.time]
    marks = ticks(low, high, step_for(span / (high - low), max(24, number_width(low, high))))
    parts.append(
        lines([(place.x(k), place.top, place.x(k), place.bottom()) for k in marks], "grid")
    )
    return parts + [text_at(place.x(k), place.top - 8, str(k), "number") for k in marks]


def draw_bars(place: Lines, look: Look, thing: Thing, number: int) -> str:
    fill = look.flat_fill(thing)
    bars = [place.bar(box, number) for box in thing.boxes]
    shapes = [rectangle(bar, f'rx="3" fill="{fill}" class="bar"') for bar in bars]
    largest = max(bars, key=lambda bar: bar[2] * bar[3])
    size = min(largest[2] * 0.92 / (LETTER * len(thing.name)), largest[3] * 0.72, LARGEST_NAME)
    x, y = largest[0] + largest[2] / 2, largest[1] + largest[3] / 2
    name = Writing(size, False).draw(thing.name, x, y, fill) if size >= SMALLEST_NAME else ""
    head = f'<g class="{look.classes(thing)}" data-name={quoteattr(thing.name)}>'
    return f"{head}<title>{escape(title_of(thing))}</title>{''.join(shapes)}{name}</g>"


# The table


def table_rows(plan: Plan) -> tuple[list[str], list[list[str]]]:
    """The head of the table of objects, and a row for each."""
    dims = range(plan.problem.dims)
    keys = plan.problem.attribute_names()
    head = [
        "object",
        "shape",
        *(f"x{d + 1}" for d in dims),
        *(f"cells in x{d + 1}" for d in dims),
        *keys,
        "breaks",
    ]
    rows: list[list[str]] = []
    for thing in plan.things:
        cells = hull(thing.boxes, plan.problem.dims)
        spans = [f"{cells.low[d]}..{cells.high[d] - 1}" if thing.boxes else "" for d in dims]
        origin = [str(value) for value in thing.origin] or [""] * plan.problem.dims
        given = [str(thing.attributes.get(key, "")) for key in keys]
        breaks = ", ".join(broken.name for broken in plan.broken if thing.name in broken.names())
        rows.append([thing.name, thing.shape, *origin, *spans, *given, breaks])
    return (head, rows) if plan.broken else (head[:-1], [row[:-1] for row in rows])


def draw_table(plan: Plan, look: Look) -> Drawing:
    head, rows = table_rows(plan)
    widths = [16 + 7.6 * max(len(cell) for cell in column) for column in zip(head, *rows)]
    starts = [30 + sum(widths[:number]) for number in range(len(widths))]
    parts = [text_at(x, 16, word, "title") for x, word in zip(starts, head)]
    for number, (thing, row) in enumerate(zip(plan.things, rows)):
        top = 26 + 20 * number
        kind = "odd" if number % 2 else "even"
        parts.append(rectangle((10, top, 20 + sum(widths), 20), f'class="{kind}"'))
        parts.append(rectangle((14, top + 4, 11, 11), f'fill="{look.fill(thing)}" class="bar"'))
        classes = "line bad" if thing.name in look.blamed else "line"
        parts += [text_at(x, top + 14, cell, classes) for x, cell in zip(starts, row)]
    return Drawing(40 + sum(widths), 36 + 20 * len(rows), tuple(parts))


# Several drawings on one sheet


def stacked(drawings: list[Drawing], width: float, gap: float = 18) -> Drawing:
    """The drawings from left to right, in rows no wider than the sheet but for one alone."""
    parts: list[str] = []
    x = y = high = reach = 0.0
    for drawing in drawings:
        if x > 0 and x + drawing.width > width:
            x, y, high = 0.0, y + high + gap, 0.0
        parts.append(f'<g transform="translate({n(x)} {n(y)})">\n{drawing.body()}\n</g>')
        x, high = x + drawing.width + gap, max(high, drawing.height)
        reach = max(reach, x - gap)
    return Drawing(reach, y + high, tuple(parts))


def draw_legend(palette: Palette, width: float, most: int = 80) -> Drawing:
    parts: list[str] = []
    x, y = 10.0, 6.0
    for label, colour in palette.legend()[:most]:
        wide = 30 + 7.4 * len(label)
        if x > 10 and x + wide > width:
            x, y = 10.0, y + 19
        parts.append(rectangle((x, y, 12, 12), f'fill="{colour}" class="bar"'))
        parts.append(text_at(x + 18, y + 10.5, label, "line"))
        x += wide
    return Drawing(width, y + 22, tuple(parts))


def draw_lines(words: list[tuple[str, str]], width: float) -> Drawing:
    """Lines of text, each with its class."""
    heights = [28 if "head" in classes else 18 for _, classes in words]
    places = [sum(heights[: number + 1]) for number in range(len(words))]
    parts = [text_at(10, y - 5, text, classes) for (text, classes), y in zip(words, places)]
    return Drawing(width, sum(heights) + 4, tuple(parts))
