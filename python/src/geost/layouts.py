"""Layouts by the names of the data."""

from __future__ import annotations

from collections.abc import Iterable, Iterator, Mapping, Sequence
from dataclasses import dataclass, field
from typing import TYPE_CHECKING

from geost import text as t
from geost.shapes import numbers
from geost.where import Where, caller

if TYPE_CHECKING:
    from geost.model import Problem

# of each item its origin, or its shape and its origin, or None where it is left out
Places = Mapping[str, "Sequence[object] | tuple[str, Sequence[int]] | None"]


@dataclass(frozen=True)
class Placed:
    """An item of a layout: the shape that it took, its origin, its boxes (the least corner and the
    sizes of each), and its attributes. One that is absent has no origin and no boxes."""

    item: str
    shape: str
    origin: tuple[int, ...]
    boxes: tuple[t.Box, ...] = field(repr=False, default=())
    attributes: Mapping[str, int] = field(repr=False, default_factory=dict)

    @property
    def is_absent(self) -> bool:
        return self.shape == t.ABSENT

    @property
    def low(self) -> tuple[int, ...]:
        """The least corner of the least box that has all cells."""
        return tuple(map(min, zip(*(box.offsets for box in self.boxes))))

    @property
    def size(self) -> tuple[int, ...]:
        """The sizes of that box."""
        ends = ([o + s for o, s in zip(box.offsets, box.sizes)] for box in self.boxes)
        return tuple(max(end) - low for end, low in zip(zip(*ends), self.low))


class Layout(Mapping[str, Placed]):
    """Where each item stands, by its name in the data."""

    def __init__(
        self,
        problem: Problem,
        placed: Iterable[t.Placed],
        token: str = "",
        where: Where | None = None,
    ):
        self.problem, self.token, self.where = problem, token, where
        self.spelled = tuple(placed)
        self._placed = {one.item: one for one in map(problem.placed, self.spelled)}

    def __getitem__(self, item: str) -> Placed:
        return self._placed[item]

    def __iter__(self) -> Iterator[str]:
        return iter(self._placed)

    def __len__(self) -> int:
        return len(self._placed)

    def __repr__(self) -> str:
        return f"<layout of {len(self)} items>"

    def block(self) -> str:
        """The layout as the program prints it, with its token where it has one."""
        token = f"token {self.token}\n" if self.token else ""
        return t.print_layout(list(self.spelled)) + token

    def moved(self, item: str, *origin: int, shape: str | None = None) -> Layout:
        """The layout with one item elsewhere, or in another shape, to be judged."""
        one = self._of(item)
        kept = self.problem.first_shape(one.name) if one.is_absent else one.shape
        taken = kept if shape is None else self.problem.shapes.spell(shape)
        return self._with(t.Placed(one.name, taken, numbers(origin) or one.origin), caller())

    def without(self, item: str) -> Layout:
        """The layout with one item left out, to be judged."""
        return self._with(t.absent(self._of(item).name), caller())

    def _of(self, item: str) -> t.Placed:
        spelled = self.problem.objects.spell(item)
        return next(one for one in self.spelled if one.name == spelled)

    def _with(self, changed: t.Placed, where: Where | None) -> Layout:
        lines = [changed if one.name == changed.name else one for one in self.spelled]
        return Layout(self.problem, lines, where=where)

    def _repr_svg_(self) -> str:
        """The picture of the layout in a notebook."""
        from geost.handing import svg

        return svg(self)

    def save(self, *files: str, by: str | None = None) -> None:
        """Writes the layout, for each file in the form that its ending names. `by` is the attribute
        by which pictures are coloured."""
        from geost.handing import save

        for file in files:
            save(self, file, by)

    def records(self) -> list[dict[str, object]]:
        """A row for each item: its place in the sequence, its name, its least corner, its lengths
        and its attributes, with words where it has some."""
        from geost.handing import records

        return records(self)


def places_of(problem: Problem, given: Places) -> list[t.Placed]:
    """Layout lines for places."""
    found: list[t.Placed] = []
    for item, place in given.items():
        spelled = problem.objects.spell(item)
        if place is None:
            found.append(t.absent(spelled))
        elif len(place) == 2 and isinstance(place[0], str) and isinstance(place[1], Sequence):
            found.append(t.Placed(spelled, problem.shapes.spell(place[0]), numbers(place[1])))
        else:
            found.append(t.Placed(spelled, problem.first_shape(spelled), numbers(place)))
    return found
