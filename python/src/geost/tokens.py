"""The tokens of a text, with their places: numbers of bytes before them."""

from __future__ import annotations

import re
from dataclasses import dataclass

RESERVED = (
    "geost dims shape box size object as at with order sides low high macro means is rule apart "
    "within end true false not and or implies iff forall exists atleast atmost in objects boxes of "
    "div mod min max int layout token absent qed"
).split()
SYMBOLS = [".."] + "<= >= != . , : ; ( ) [ ] + - * / < > = @ $".split()
LARGEST_NUMBER = 1_000_000_000
LONGEST_NAME = 40

TOKEN = re.compile(
    rb"(?P<space>[ \t\n\r]+|#[^\n]*)|(?P<word>[A-Za-z_][A-Za-z0-9_]*)|(?P<number>[0-9]+)"
    rb"|(?P<symbol>\.\.|<=|>=|!=|[.,:;()\[\]+\-*/<>=@$])"
)


class TextFault(Exception):
    """A fault of a text: the word for it, its place, and for `syntax` what may stand there."""

    def __init__(self, word: str, place: int, expected: tuple[str, ...] = ()):
        super().__init__(f"{place} {word}")
        self.word = word
        self.place = place
        self.expected = expected


@dataclass(frozen=True)
class Token:
    """`kind` is name, word, number, symbol or end; its bytes are those from `start` to `end`."""

    kind: str
    text: str
    start: int
    end: int


def read_tokens(text: bytes, strict: bool = True) -> list[Token]:
    """The tokens of a text. Where `strict` is false, bytes that begin no token, large numbers and
    long names are let pass."""
    found: list[Token] = []
    at = 0
    while at < len(text):
        match = TOKEN.match(text, at)
        if match is None:
            if strict:
                raise TextFault("byte", at)
            at += 1
            continue
        if match.lastgroup != "space":
            found.append(token_of(match, text, strict))
        at = match.end()
    return found


def token_of(match: re.Match[bytes], text: bytes, strict: bool) -> Token:
    spelled = match.group().decode("ascii")
    kind = str(match.lastgroup)
    if strict and kind == "number":
        behind = text[match.end() : match.end() + 1]
        if int(spelled) > LARGEST_NUMBER or behind.isalpha() or behind == b"_":
            raise TextFault("number", match.start())
    if kind == "word" and spelled not in RESERVED:
        kind = "name"
        if strict and len(spelled) > LONGEST_NAME:
            raise TextFault("name", match.start())
    return Token(kind, spelled, match.start(), match.end())
