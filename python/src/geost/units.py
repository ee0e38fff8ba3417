"""Lengths with units as whole numbers of cells: items are rounded up and rooms down, so that what a
plan has room for has room in the world."""

from __future__ import annotations

import re
from dataclasses import dataclass
from fractions import Fraction
from math import ceil, floor

MILLIMETRES = {
    "mm": Fraction(1),
    "cm": Fraction(10),
    "dm": Fraction(100),
    "m": Fraction(1000),
    "in": Fraction(254, 10),
    "ft": Fraction(3048, 10),
}
WRITTEN = re.compile(r"([+-]?(?:\d+(?:[.,]\d*)?|[.,]\d+))\s*([A-Za-z]*)")
Length = int | float | str | Fraction


class BadLength(ValueError):
    """What is no length, and what to write instead."""


def read_length(written: Length, usual: str) -> Fraction:
    """A length in millimetres: `12.5 cm`, `12,5 cm`, or a number alone, which is in the usual
    unit."""
    if isinstance(written, (int, Fraction)):
        return Fraction(written) * MILLIMETRES[usual]
    found = WRITTEN.fullmatch(str(written).strip())
    if found is None:
        raise BadLength(f"{written!r} is no length: write a number, with or without a unit")
    unit = found[2].lower() or usual
    if unit not in MILLIMETRES:
        raise BadLength(f"{written!r}: write one of the units {', '.join(MILLIMETRES)}")
    return Fraction(found[1].replace(",", ".")) * MILLIMETRES[unit]


@dataclass(frozen=True)
class Unit:
    """The length of a cell, such as `cm` or `5 cm`; numbers without a unit are in its unit."""

    written: str = "cm"

    def __post_init__(self) -> None:
        if self.cell <= 0:
            raise BadLength(f"{self.written!r} is no length of a cell: write one above 0")

    @property
    def usual(self) -> str:
        letters = re.sub(r"[^A-Za-z]", "", self.written).lower()
        if letters not in MILLIMETRES:
            raise BadLength(f"{self.written!r}: write one of the units {', '.join(MILLIMETRES)}")
        return letters

    @property
    def cell(self) -> Fraction:
        """The length of a cell in millimetres."""
        count = re.sub(r"[A-Za-z]", "", self.written).strip() or "1"
        return read_length(count, self.usual)

    def up(self, length: Length, usual: str = "") -> int:
        """The least number of cells that the length has room in."""
        return ceil(read_length(length, usual or self.usual) / self.cell)

    def down(self, length: Length, usual: str = "") -> int:
        """The greatest number of cells that have room in the length."""
        return floor(read_length(length, usual or self.usual) / self.cell)

    def back(self, cells: int) -> int | float:
        """The length of so many cells as a number in the usual unit."""
        length = cells * self.cell / MILLIMETRES[self.usual]
        return int(length) if length.denominator == 1 else float(length)
