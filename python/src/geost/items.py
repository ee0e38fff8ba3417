"""A table of items as shapes and objects of a problem. Sizes and places are whole units of length.

The names of a table are kept in comments: above the objects of an item stands its name, and for a
column of words the number that stands for each of them.
"""

from __future__ import annotations

import re
from collections.abc import Iterator
from dataclasses import dataclass
from decimal import Decimal, InvalidOperation
from enum import Enum
from itertools import permutations

from geost.names import name_for, names_for
from geost.tables import TableFault, rows_of_text
from geost.text import Apart, Box, Object, Rule, Shape, Within, print_object
from geost.text import print_body, print_box, whole
from geost.tokens import LARGEST_NUMBER, LONGEST_NAME

MOST_OBJECTS, MOST_SHAPES, MOST_ATTRIBUTES, MOST_DIMS = 200, 256, 32, 4
MOST_SIZE = 1_000_000
SIZE_COLUMNS = (
    ("length", "l", "l1", "x1", "size1", "laenge", "länge", "long"),
    ("width", "w", "l2", "x2", "size2", "breite", "b", "wide", "depth"),
    ("height", "h", "l3", "x3", "size3", "hoehe", "höhe", "high"),
    ("l4", "x4", "size4", "time", "duration"),
)
NAME_COLUMNS = ("name", "item", "article", "artikel", "bezeichnung", "id", "part")
COUNT_COLUMNS = ("count", "number", "quantity", "qty", "pieces", "anzahl", "menge", "n")
TURN_COLUMNS = ("turnable", "turn", "rotatable", "rotate", "drehbar", "kippbar")
SIZE_COLUMN = ("size", "sizes", "dimensions", "dims", "format", "masse", "maße")


class Turning(Enum):
    """How an item may be turned: not at all, on the floor, or onto each of its sides."""

    NO = "no"
    FLOOR = "floor"
    ALL = "all"


TURNINGS = {
    **dict.fromkeys(("", "no", "n", "0", "false", "nein", "none", "-"), Turning.NO),
    **dict.fromkeys(("yes", "y", "1", "true", "x", "ja", "floor", "flat"), Turning.FLOOR),
    **dict.fromkeys(("all", "any", "every", "alle", "2"), Turning.ALL),
}


@dataclass(frozen=True)
class Item:
    """A row: its name in any letters, its sizes, how many there are, and its attributes."""

    line: int
    name: str
    sizes: tuple[int, ...]
    count: int
    turning: Turning
    attributes: tuple[tuple[str, int], ...]

    def turned(self) -> list[tuple[int, ...]]:
        """The sizes in which it may stand, as they are first."""
        if self.turning is Turning.NO or len(self.sizes) == 1:
            return [self.sizes]
        if self.turning is Turning.FLOOR:
            first, second, *others = self.sizes
            return list(dict.fromkeys([self.sizes, (second, first, *others)]))
        return list(dict.fromkeys(permutations(self.sizes)))


@dataclass(frozen=True)
class Legend:
    """An attribute and the word that one of its numbers stands for."""

    attribute: str
    number: int
    word: str


@dataclass(frozen=True)
class Table:
    items: list[Item]
    legends: list[Legend]


@dataclass(frozen=True)
class Columns:
    """Which column has what, by its number; the others are attributes."""

    name: int
    sizes: list[int]
    size: int | None
    count: int | None
    turning: int | None
    attributes: list[tuple[int, str]]


# Reading a table


def read_table(content: bytes, times: int = 1) -> Table:
    """The items of a table. Sizes are multiplied by `times`. TableFault where a row is none."""
    rows = rows_of_text(content)
    if len(rows) < 2:
        raise TableFault("a table has a row of titles and a row for each item: write both")
    (_, titles), *items = rows
    columns = columns_of(titles)
    attributes, legends = read_attributes(columns, items)
    return Table([read_item(columns, line, row, attributes, times) for line, row in items], legends)


def columns_of(titles: list[str]) -> Columns:
    plain = [re.sub(r"\s*[\[(].*", "", title).strip().lower() for title in titles]

    def find(names: tuple[str, ...]) -> int | None:
        return next((number for number, title in enumerate(plain) if title in names), None)

    name = find(NAME_COLUMNS)
    size = find(SIZE_COLUMN)
    sizes = (
        [column for column in map(find, SIZE_COLUMNS) if column is not None] if size is None else []
    )
    if size is None and not sizes:
        raise TableFault("no column has sizes: write a column `size`, or `length` and `width`")
    if name is None:
        raise TableFault("no column has names: write a column `name`")
    count, turning = find(COUNT_COLUMNS), find(TURN_COLUMNS)
    taken = {name, size, count, turning, *sizes}
    others = [(n, title) for n, title in enumerate(titles) if n not in taken and title]
    if len(others) > MOST_ATTRIBUTES:
        raise TableFault(f"{len(others)} columns are attributes: write {MOST_ATTRIBUTES} at most")
    names = names_for([title for _, title in others], is_attribute=True)
    return Columns(name, sizes, size, count, turning, list(zip((n for n, _ in others), names)))


def read_attributes(
    columns: Columns, rows: list[tuple[int, list[str]]]
) -> tuple[dict[str, dict[str, int]], list[Legend]]:
    """For each attribute the number of each of its cells, and what numbers stand for words."""
    numbers: dict[str, dict[str, int]] = {}
    legends: list[Legend] = []
    for column, attribute in columns.attributes:
        cells = list(dict.fromkeys(cell_at(row, column) for _, row in rows))
        given = [cell for cell in cells if cell]
        if all(re.fullmatch(r"[+-]?\d+", cell) for cell in given):
            numbers[attribute] = {cell: int(cell) for cell in given}
            continue
        line = next((at for at, row in rows if is_decimal(cell_at(row, column))), None)
        if line is not None:
            where = f"line {line}: {attribute}"
            raise TableFault(f"{where} is no whole number: write it in a smaller unit")
        numbers[attribute] = {word: number for number, word in enumerate(given, 1)}
        legends += [Legend(attribute, number, word) for number, word in enumerate(given, 1)]
    return numbers, legends


def is_decimal(cell: str) -> bool:
    return re.fullmatch(r"[+-]?\d*[.,]\d+", cell) is not None


def cell_at(row: list[str], column: int | None) -> str:
    return row[column] if column is not None and column < len(row) else ""


def read_item(
    columns: Columns, line: int, row: list[str], attributes: dict[str, dict[str, int]], times: int
) -> Item:
    name = " ".join(cell_at(row, columns.name).split())
    sizes = read_sizes(columns, line, row, times)
    count = cell_at(row, columns.count) or "1"
    if not count.isdigit():
        raise TableFault(f"line {line}: {count!r} is no count: write digits alone")
    turning = TURNINGS.get(cell_at(row, columns.turning).lower())
    if turning is None:
        raise TableFault(f"line {line}: write `no`, `floor` or `all` for how it may be turned")
    values = [
        (attribute, attributes[attribute][cell_at(row, column)])
        for column, attribute in columns.attributes
        if cell_at(row, column)
    ]
    far = next((attribute for attribute, value in values if abs(value) > LARGEST_NUMBER), None)
    if far is not None:
        raise TableFault(f"line {line}: {far} passes {LARGEST_NUMBER}: write it in a larger unit")
    return Item(line, name, sizes, int(count), turning, tuple(values))


def read_sizes(columns: Columns, line: int, row: list[str], times: int) -> tuple[int, ...]:
    if columns.size is not None:
        written = re.split(r"\s*[xX×*/;]\s*|\s+", cell_at(row, columns.size).strip())
    else:
        written = [cell_at(row, column) for column in columns.sizes]
    if not 1 <= len(written) <= MOST_DIMS:
        raise TableFault(f"line {line}: {len(written)} sizes: write 1 to {MOST_DIMS} of them")
    return tuple(read_size(line, cell, times) for cell in written)


def read_size(line: int, cell: str, times: int) -> int:
    """A size in whole units. It may be written with a point or a comma, and a unit behind it."""
    plain = re.sub(r"\s*[a-zA-Z]+$", "", cell).replace(",", ".")
    try:
        value = Decimal(plain) * times
    except InvalidOperation:
        raise TableFault(f"line {line}: {cell!r} is no size: write a number") from None
    if value != int(value):
        raise TableFault(f"line {line}: {cell} is no whole number: write --times 10 or more")
    if not 1 <= value <= MOST_SIZE:
        raise TableFault(f"line {line}: {cell} is not within 1 to {MOST_SIZE}: write another")
    return int(value)


def space_of(written: str, times: int) -> tuple[int, ...]:
    sizes = tuple(
        read_size(0, part, times) for part in written.lower().replace("×", "x").split("x")
    )
    if len(sizes) > MOST_DIMS:
        raise TableFault(f"the space has {len(sizes)} sizes: write {MOST_DIMS} at most")
    return sizes


# Names


def object_names(items: list[Item]) -> list[list[str]]:
    """The names of the objects of each item, with a number where it has several."""
    taken: set[str] = set()
    found: list[list[str]] = []
    for item in items:
        stem = name_for(item.name, False)
        wanted = [stem] if item.count == 1 else [f"{stem}_{n}" for n in range(1, item.count + 1)]
        names = wanted
        number = 2
        while taken & set(names):
            names = [f"{name[: LONGEST_NAME - 4]}_{number}" for name in wanted]
            number += 1
        taken.update(names)
        found.append(names)
    return found


# Making a problem


def shape_name(sizes: tuple[int, ...]) -> str:
    return "s" + "x".join(map(str, sizes))


def shapes_of(items: list[Item]) -> list[Shape]:
    sizes = dict.fromkeys(turned for item in items for turned in item.turned())
    return [Shape(shape_name(size), (Box((0,) * len(size), size),)) for size in sizes]


def objects_of(item: Item, names: list[str], space: tuple[int, ...]) -> list[Object]:
    """The objects of an item, each with the shapes that have room in the space."""
    fitting = [turned for turned in item.turned() if all(map(int.__le__, turned, space))]
    if not fitting:
        where = f"line {item.line}: {item.name!r}"
        raise TableFault(f"{where} has no room in the space: write a larger one")
    least = [min(sizes) for sizes in zip(*fitting)]
    ranges = tuple((0, room - size) for room, size in zip(space, least))
    shapes = tuple(map(shape_name, fitting))
    return [Object(name, shapes, whole(ranges), item.attributes) for name in names]


def problem_lines(table: Table, space: tuple[int, ...]) -> Iterator[str]:
    """The lines of a problem: the items in a space whose cells go from 0, without overlap."""
    items = table.items
    check_limits(items, len(space))
    yield f"geost 1 dims {len(space)}"
    for word in table.legends:
        yield f"# word of {word.attribute}: {word.number} = {word.word}"
    used = {name for item in items for name in objects_of(item, ["one"], space)[0].shapes}
    for shape in shapes_of(items):
        if shape.name in used:
            yield f"shape {shape.name} {print_box(shape.boxes[0])} ;"
    for item, names in zip(items, object_names(items)):
        yield f"# {item.name}"
        yield from map(print_object, objects_of(item, names, space))
    room = Within(tuple((0, size - 1) for size in space))
    for rule in (Rule("free", Apart()), Rule("room", room)):
        yield f"rule {rule.name} : {print_body(rule.body)} ;"
    yield "end"


def check_limits(items: list[Item], dims: int) -> None:
    """TableFault where the text would pass a limit of problems."""
    other = next((item for item in items if len(item.sizes) != dims), None)
    if other is not None:
        given = f"line {other.line}: {len(other.sizes)} sizes"
        raise TableFault(f"{given}, and the space has {dims}: write as many")
    count = sum(item.count for item in items)
    if count > MOST_OBJECTS:
        raise TableFault(f"{count} objects, and {MOST_OBJECTS} are the most: write fewer items")
    if len(shapes_of(items)) > MOST_SHAPES:
        raise TableFault(
            f"more than {MOST_SHAPES} sizes: write fewer, or let fewer items be turned"
        )
