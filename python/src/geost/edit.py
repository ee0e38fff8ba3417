"""Changing single statements of a problem's text, and leaving everything else as it is written."""

from __future__ import annotations

from collections.abc import Iterator
from dataclasses import dataclass

from geost.tokens import read_tokens

KEYWORDS = ("shape", "object", "macro", "rule", "order", "sides")
NAMED = ("shape", "object", "macro", "rule")


@dataclass(frozen=True)
class Statement:
    """A statement: its keyword, its name (empty for `order` and `sides`), and its first byte and
    the one behind it."""

    keyword: str
    name: str
    start: int
    end: int


def statements_of(text: bytes) -> Iterator[Statement]:
    """The statements of a problem that the program accepts, and the word `end` as one of them."""
    tokens = read_tokens(text)
    at = 4
    while tokens[at].text != "end":
        begin = at
        while tokens[at].text != ";":
            at += 1
        keyword = tokens[begin].text
        name = tokens[begin + 1].text if keyword in NAMED else ""
        yield Statement(keyword, name, tokens[begin].start, tokens[at].end)
        at += 1
    yield Statement("end", "", tokens[at].start, tokens[at].end)


def with_statements(text: bytes, changed: list[str], reason: str) -> bytes:
    """The text with each of these statements in place of the one of its keyword and name, which
    stays as a comment with the reason; one that the text does not have stands before `end`."""
    new = {key_of(statement): statement for statement in changed}
    pieces: list[bytes] = []
    at = 0
    for old in statements_of(text):
        pieces.append(text[at : old.start])
        at = old.end
        statement = new.pop((old.keyword, old.name), None)
        written = text[old.start : old.end]
        if old.keyword == "end":
            added = [line for left in new.values() for line in (f"# {reason}", left)]
            pieces.append("".join(f"{line}\n" for line in added).encode() + written)
        elif statement is None or statement.encode() == written:
            pieces.append(written)
        else:
            was = "".join(f"# {reason}, was: {line}\n" for line in written.decode().splitlines())
            pieces.append(fresh_line(pieces) + was.encode() + statement.encode())
    return b"".join(pieces) + text[at:]


def fresh_line(pieces: list[bytes]) -> bytes:
    """An end of line, where what was written so far does not end with one."""
    before = b"".join(pieces[-1:])
    return b"" if not before or before.endswith(b"\n") else b"\n"


def key_of(statement: str) -> tuple[str, str]:
    words = statement.split()
    return words[0], words[1] if words[0] in NAMED else ""
