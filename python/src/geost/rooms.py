"""A room and what goes in: from lengths and ways of turning to shapes, ranges and attributes."""

from __future__ import annotations

from collections.abc import Callable, Iterable, Sequence
from dataclasses import dataclass
from typing import Any

from geost.building import Ready
from geost.cargo import Item, Items
from geost.formula import Rule
from geost.items import shape_name
from geost.model import Problem
from geost.rules import inside, no_overlap
from geost.shapes import turned
from geost.text import Box
from geost.units import BadLength, Length, Unit

Sizes = tuple[int, ...]


class NoRoom(ValueError):
    """An item that has no room, however it is turned."""


@dataclass(frozen=True)
class Room:
    """Its lengths in cells: x1 along it (a door is at the high end), x2 across it, x3 up. Where it
    is `centred`, the origin of an item is the middle of its base, for rules on balance."""

    size: Sizes
    unit: Unit | None = None
    centred: bool = False

    @staticmethod
    def of(*lengths: Length, unit: str | Unit = "cm", centred: bool = False) -> Room:
        """The room of these lengths, of which whole cells are taken."""
        cell = unit if isinstance(unit, Unit) else Unit(unit)
        return Room(tuple(cell.down(length) for length in lengths), cell, centred)

    def forms(self, item: Item) -> list[Sizes]:
        """The lengths that an item may have, each once, those alone that have room."""
        found = turned((Box((0,) * len(item.size), item.size),), item.turns)
        sizes = dict.fromkeys(box.sizes for (box,) in found)
        return [
            form
            for form in sizes
            if len(form) == len(self.size) and all(a <= b for a, b in zip(form, self.size))
        ]

    def problem(
        self,
        items: Iterable[Item],
        rules: Iterable[Ready | Rule] = (),
        sequence: Callable[[Item], Any] | None = None,
        program: str | None = None,
        may_be_absent: Callable[[Item], bool] = lambda item: False,
    ) -> Problem:
        """The problem of placing items in the room without overlap, under further rules. They are
        loaded, and searched, in the sequence of a key, else as they come. Those that
        `may_be_absent` may be left out."""
        known = items if isinstance(items, Items) else Items(items)
        if self.unit and known.unit and self.unit.cell != known.unit.cell:
            cells = f"the room has cells of {self.unit.written}, the items of {known.unit.written}"
            raise BadLength(f"{cells}: give both the same unit")
        made = Problem(len(self.size), program, self.unit or known.unit)
        made.words = {column: dict(words) for column, words in known.words.items()}
        shapes: dict[Sizes, str] = {}
        for item in sorted(known, key=sequence) if sequence else known:
            self.place(made, item, shapes, may_be_absent(item))
        made.add(no_overlap(), inside(*self.size), *rules)
        return made

    def place(
        self, made: Problem, item: Item, shapes: dict[Sizes, str], is_optional: bool = False
    ) -> None:
        """Makes the object of an item, and its shapes where no item had them before."""
        forms = self.forms(item)
        if not forms:
            sizes, room = (" x ".join(map(str, size)) for size in (item.size, self.size))
            at = f"{item.where}: " if item.where else ""
            raise NoRoom(f"{at}{item.name!r} is {sizes} and has no room in {room}")
        for form in forms:
            if form not in shapes:
                offsets = tuple(-shift for shift in self.shift(form))
                shapes[form] = made.shape(shape_name(form), (offsets, form))
        shifts = [self.shift(form) for form in forms]
        low = [min(shift[d] for shift in shifts) for d in range(made.dims)]
        high = [
            max(self.size[d] - form[d] + shift[d] for form, shift in zip(forms, shifts))
            for d in range(made.dims)
        ]
        names = [shapes[form] for form in forms]
        ranges = zip(low, high)
        made.object(item.name, names, ranges, item.numbers, item.where, is_optional)

    def shift(self, form: Sequence[int]) -> Sizes:
        """From the least corner of a form to its origin."""
        return tuple(length // 2 if self.centred and d < 2 else 0 for d, length in enumerate(form))
