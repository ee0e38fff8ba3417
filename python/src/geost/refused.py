"""A refusal of the program, said at the line that made what it refuses."""

from __future__ import annotations

from dataclasses import dataclass

from geost.refusals import Kind, Source, explain_refusal
from geost.where import Where


class Refused(ValueError):
    """The program refuses a text: the word for it, its place in the text, the statement and the
    column in it, and the line of Python, of a table or of a text that made it."""

    def __init__(self, word: str, place: int, statement: Stated, explained: list[str]):
        super().__init__("\n".join([f"{statement.where}: {word}", *explained[1:]]))
        self.word, self.place = word, place
        self.statement, self.where = statement.text, statement.where
        self.column = place - statement.start


@dataclass(frozen=True)
class Stated:
    """A statement in a text: its first byte, its letters, and where it was made."""

    start: int
    text: str
    where: Where | None

    @property
    def end(self) -> int:
        return self.start + len(self.text.encode())


def stated(lines: list[tuple[str, Where | None]]) -> list[Stated]:
    """The statements of a text that is these lines, one behind the other."""
    found: list[Stated] = []
    at = 0
    for line, where in lines:
        found.append(Stated(at, line, where))
        at = found[-1].end + 1
    return found


Lines = list[tuple[str, Where | None]]


def refused(word: str, place: int, problem: Lines, layout: Lines) -> Refused:
    """The refusal at a place of a problem, behind which stands a layout, or nothing."""
    statements = stated([*problem, *layout])
    at = next((one for one in reversed(statements) if one.start <= place), statements[0])
    first, second = (
        "".join(f"{line}\n" for line, _ in lines).encode() for lines in (problem, layout)
    )
    sources, second_from = [Source("", first)], None
    if layout:
        sources, second_from = [*sources, Source("", second, len(first))], len(first)
    explained = explain_refusal(word, place, sources, second_from, Kind.LAYOUT)
    return Refused(word, place, at, explained)
