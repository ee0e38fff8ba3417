"""Items of tables: their names, their lengths in cells, how they may be turned, their numbers."""

from __future__ import annotations

from collections.abc import Iterable, Iterator, Mapping, Sequence
from dataclasses import dataclass, field, replace
from fractions import Fraction
from pathlib import Path

from geost.shapes import axes_of
from geost.tables import Rows, TableFault, rows_of
from geost.units import BadLength, Unit
from geost.where import Where


@dataclass(frozen=True)
class Item:
    """What is to be placed: its name in any letters, its lengths in cells, the axes about which it
    may be turned, and its numbers by their names in any letters."""

    name: str
    size: tuple[int, ...]
    numbers: Mapping[str, int] = field(default_factory=dict)
    turns: str | tuple[int, ...] = "none"
    where: Where | None = None

    def __getitem__(self, number: str) -> int:
        """A number of the item; one that it does not have is 0, as in rules."""
        return self.numbers.get(number, 0)


class Items(list[Item]):
    """The items of a table, in its sequence, with the number that stands for each word of its
    columns of words."""

    def __init__(
        self,
        items: Iterable[Item] = (),
        words: Mapping[str, Mapping[str, int]] | None = None,
        unit: Unit | None = None,
    ):
        super().__init__(items)
        self.words = {column: dict(numbers) for column, numbers in (words or {}).items()}
        self.unit = unit


@dataclass(frozen=True)
class Columns:
    """Which columns of a table have what; `numbers` gives what each number is multiplied by."""

    name: str
    size: tuple[str, ...]
    numbers: Mapping[str, int]
    words: tuple[str, ...]
    turn: str
    count: str

    def needed(self) -> tuple[str, ...]:
        return (self.name, *self.size, *self.numbers, *self.words)


@dataclass
class Table:
    """A table that is read row by row."""

    file: str
    columns: Columns
    unit: Unit
    lengths_in: str
    words: dict[str, dict[str, int]]

    def fault(self, said: str, line: int, column: str) -> TableFault:
        return TableFault(said, self.file, line, column)

    def items(self, line: int, row: Mapping[str, str]) -> Iterator[Item]:
        """The items of a row, as many as it counts."""
        name = " ".join(row[self.columns.name].split())
        if not name:
            raise self.fault("the name is missing: write one", line, self.columns.name)
        size = tuple(self.length(line, column, row[column]) for column in self.columns.size)
        made = Item(name, size, self.numbers(line, row), self.turns(line, row), self.where(line))
        copies = self.count(line, row)
        for copy in range(1, copies + 1):
            yield made if copies == 1 else replace(made, name=f"{name} {copy}")

    def where(self, line: int) -> Where:
        return Where(self.file, line)

    def length(self, line: int, column: str, cell: str) -> int:
        try:
            cells = self.unit.up(cell, self.lengths_in)
        except BadLength as bad:
            raise self.fault(str(bad), line, column) from None
        if cells < 1:
            raise self.fault(f"{cell!r} is no length above 0: write one", line, column)
        return cells

    def numbers(self, line: int, row: Mapping[str, str]) -> dict[str, int]:
        """The numbers and words of a row; an empty cell has none."""
        found: dict[str, int] = {}
        for column, times in self.columns.numbers.items():
            if row[column]:
                found[column] = self.number(line, column, row[column], times)
        for column in self.columns.words:
            if row[column]:
                known = self.words.setdefault(column, {})
                found[column] = known.setdefault(row[column], len(known) + 1)
        return found

    def number(self, line: int, column: str, cell: str, times: int) -> int:
        try:
            value = Fraction(cell.replace(",", ".")) * times
        except (ValueError, ZeroDivisionError):
            raise self.fault(f"{cell!r} is no number: write digits", line, column) from None
        if value.denominator != 1:
            said = f"{cell!r} is no whole number: multiply the column, as in numbers="
            raise self.fault(f"{said}{{{column!r}: 10}}", line, column)
        return int(value)

    def turns(self, line: int, row: Mapping[str, str]) -> tuple[int, ...]:
        written = row.get(self.columns.turn, "") or "none"
        try:
            return axes_of(written)
        except ValueError as bad:
            raise self.fault(str(bad), line, self.columns.turn) from None

    def count(self, line: int, row: Mapping[str, str]) -> int:
        written = row.get(self.columns.count, "") or "1"
        if not written.isdecimal():
            raise self.fault(f"{written!r} is no count: write digits", line, self.columns.count)
        return int(written)


def titled(file: str, rows: Rows, needed: Sequence[str]) -> list[tuple[int, dict[str, str]]]:
    """The rows below the titles, each by the titles of its columns."""
    if not rows:
        raise TableFault("the table is empty: write titles and a row for each item", file, 1)
    (line, titles), *below = rows
    for column in needed:
        if column not in titles:
            said = f"there is no such column: the titles are {', '.join(filter(None, titles))}"
            raise TableFault(said, file, line, column)
        if titles.count(column) > 1:
            raise TableFault("two columns have this title: name them apart", file, line, column)
    return [
        (at, dict(zip(titles, cells + [""] * (len(titles) - len(cells))))) for at, cells in below
    ]


def read_items(
    file: str | Path,
    *,
    name: str = "name",
    size: Sequence[str] = ("length", "width", "height"),
    numbers: Sequence[str] | Mapping[str, int] = (),
    words: Sequence[str] = (),
    unit: str | Unit = "cm",
    lengths_in: str = "",
    turn: str = "turn",
    count: str = "count",
    sheet: str | None = None,
) -> Items:
    """The items of a table (CSV, or a spreadsheet). TableFault where a cell is not what it should
    be, with its file, line and column.

    `unit` is the length of a cell, such as `cm` or `5 cm`; a length of the table may have its own
    unit, and is else in `lengths_in`, or that of `unit`. A length that is no whole number of cells
    is taken one cell longer. `numbers` are columns of whole numbers, or what each is multiplied by;
    `words` are columns whose words get numbers. `turn` says about which axes an item may be turned
    (none, upright, any, or x1, x2, x3), `count` how many there are of it.
    """
    times = numbers if isinstance(numbers, Mapping) else dict.fromkeys(numbers, 1)
    columns = Columns(name, tuple(size), times, tuple(words), turn, count)
    cell = unit if isinstance(unit, Unit) else Unit(unit)
    table = Table(str(file), columns, cell, lengths_in, {})
    rows = titled(str(file), rows_of(Path(file), sheet), columns.needed())
    items: list[Item] = []
    names: dict[str, int] = {}
    for line, row in rows:
        for item in table.items(line, row):
            if item.name in names:
                said = f"{item.name!r} stands in line {names[item.name]} too: name them apart"
                raise table.fault(said, line, name)
            names[item.name] = line
            items.append(item)
    return Items(items, table.words, cell)
