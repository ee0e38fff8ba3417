"""A layout as the rows of a table."""

from __future__ import annotations

import re

from geost.tables import TableFault
from geost.text import Placed, Problem, Shape, read_layout, read_problem

LEGEND = re.compile(r"# word of (\w+): (-?\d+) = (.+)$")
OBJECT = re.compile(r"object\s+(\w+)\s")


def rows_of(problem: Problem, text: str, layout: list[Placed]) -> list[list[str | int]]:
    """A row of titles, and one for each object: the item's name as a comment above its statement
    gives it, the object, its shape, its place, its sizes and its attributes."""
    dims = range(1, problem.dims + 1)
    places = [f"x{dimension}" for dimension in dims]
    sizes = [f"l{dimension}" for dimension in dims]
    attributes = problem.attribute_names()
    titles: list[str | int] = ["name", "object", "shape", *places, *sizes, *attributes]
    names, words = names_in(text), words_in(text)
    return [titles, *(row_of(problem, placed, names, words) for placed in layout)]


def rows_of_answer(text: bytes, answer: bytes) -> list[list[str | int]]:
    """The rows of the layout that `first` answered for the problem of a text."""
    if not answer.startswith(b"layout"):
        first = answer.decode(errors="replace").partition("\n")[0]
        raise TableFault(f"no layout, but {first!r}: write `./geost first N` with a larger N")
    block = answer.partition(b"\ntoken")[0] + b"\n"
    return rows_of(read_problem(text), text.decode(), read_layout(block))


def row_of(
    problem: Problem, placed: Placed, names: dict[str, str], words: dict[tuple[str, int], str]
) -> list[str | int]:
    thing = problem.object(placed.name)
    listed = dict(thing.attributes)
    cells: list[str | int] = []
    for attribute in problem.attribute_names():
        value = listed.get(attribute, 0)
        cells.append(words.get((attribute, value), value if attribute in listed else ""))
    name = names.get(placed.name, placed.name)
    if placed.is_absent:
        return [name, placed.name, placed.shape, *[""] * (2 * problem.dims), *cells]
    sizes = extent(problem.shape(placed.shape))
    return [name, placed.name, placed.shape, *placed.origin, *sizes, *cells]


def extent(shape: Shape) -> list[int]:
    """The size of the least box that has all boxes of a shape, in each dimension."""
    found = []
    for dimension in range(len(shape.boxes[0].sizes)):
        low = min(box.offsets[dimension] for box in shape.boxes)
        high = max(box.offsets[dimension] + box.sizes[dimension] for box in shape.boxes)
        found.append(high - low)
    return found


def names_in(text: str) -> dict[str, str]:
    """For each object the comment above it, where between both stand objects' statements alone."""
    found: dict[str, str] = {}
    name = ""
    for line in map(str.strip, text.splitlines()):
        statement = OBJECT.match(line)
        if line.startswith("#"):
            name = "" if LEGEND.match(line) else line[1:].strip()
        elif statement is None:
            name = ""
        elif name:
            found[statement[1]] = name
    return found


def words_in(text: str) -> dict[tuple[str, int], str]:
    """What numbers of attributes stand for, by the comments `# word of NAME: 1 = WORD`."""
    legends = map(LEGEND.match, map(str.strip, text.splitlines()))
    return {(found[1], int(found[2])): found[3] for found in legends if found}
