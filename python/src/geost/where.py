"""Where a statement was made: a line of Python, of a table or of a text."""

from __future__ import annotations

import sys
from dataclasses import dataclass


@dataclass(frozen=True)
class Where:
    file: str
    line: int

    def __str__(self) -> str:
        return f"{self.file}:{self.line}"


def is_own(module: object) -> bool:
    return isinstance(module, str) and module.partition(".")[0] == __package__


def caller() -> Where:
    """The nearest line outside this package that is being carried out."""
    frame = sys._getframe(1)
    while frame.f_back is not None and is_own(frame.f_globals.get("__name__")):
        frame = frame.f_back
    return Where(frame.f_code.co_filename, frame.f_lineno)
