"""Which boxes stand in each other's way where objects come in along a dimension."""

from __future__ import annotations

from collections.abc import Iterator
from itertools import product

from geost.text import Placed, Problem, Range

Cells = tuple[Range, ...]


def cells_of(problem: Problem, placed: Placed) -> list[Cells]:
    """The cells of each box of a placed object: in each dimension the first and the last."""
    return [
        tuple(
            (origin + offset, origin + offset + size - 1)
            for origin, offset, size in zip(placed.origin, box.offsets, box.sizes)
        )
        for box in problem.shape(placed.shape).boxes
    ]


def is_in_way(one: Cells, other: Cells, dimension: int) -> bool:
    """Whether a cell of the one box stands at or beyond a cell of the other in the dimension, from
    1, and agrees with it in each other dimension."""
    at = dimension - 1
    rest = [pair for number, pair in enumerate(zip(one, other)) if number != at]
    meet = all(a[0] <= b[1] and b[0] <= a[1] for a, b in rest)
    return meet and one[at][1] >= other[at][0]


def explain_cycle(
    problem: Problem, layout: list[Placed], names: list[str], dimension: int
) -> Iterator[str]:
    """For each object of a cycle, which box of it stands in the way of which box of the next."""
    placed = {one.name: one for one in layout}
    for name, other in zip(names, [*names[1:], names[0]]):
        pairs = product(cells_of(problem, placed[name]), cells_of(problem, placed[other]))
        one, two = next(pair for pair in pairs if is_in_way(*pair, dimension))
        yield (
            f"`{other}` has to go in before `{name}`: in dimension {dimension} the cells"
            f" {print_cells(one)} of `{name}` stand at or beyond the cells {print_cells(two)} of"
            f" `{other}`, in the same row"
        )


def print_cells(cells: Cells) -> str:
    return " ".join(f"{low}..{high}" for low, high in cells)
