"""The grammar of data/grammar.txt, read as it is written there: where tokens stop to be of it, and
what may stand at that place. The page's grammar.js reads the same file in the same way."""

from __future__ import annotations

import re
from dataclasses import dataclass
from functools import cache

from geost.files import PACKAGE
from geost.text import SECOND_VERSION
from geost.tokens import TextFault, Token

GRAMMAR = PACKAGE / "data" / "grammar.txt"
BIT = re.compile(r"'[^']+'|NAME[+:]\w+|\w+|[=|{}\[\]]")


@dataclass(frozen=True)
class Terminal:
    """A token: one word or symbol, or any of a kind, which is `name` or `number`."""

    kind: str
    text: str = ""

    def fits(self, token: Token) -> bool:
        if self.kind == "word":
            return token.kind in ("word", "symbol") and token.text == self.text
        return token.kind == self.kind

    def spoken(self) -> str:
        return f"`{self.text}`" if self.kind == "word" else f"a {self.kind}"


@dataclass(frozen=True, eq=False)
class Part:
    """A part of a rule: `all` in their sequence, `any` one of them, `many` times, `maybe` once, or
    the rule of another `name`."""

    kind: str
    parts: tuple[Part | Terminal, ...] = ()
    name: str = ""


Grammar = dict[str, Part | Terminal]


class Notation:
    """Reads the notation of the grammar."""

    def __init__(self, document: str):
        self.bits: list[str] = BIT.findall(re.sub(r"(?m)^#.*$", "", document))
        self.at = 0

    def rules(self) -> Grammar:
        found: Grammar = {}
        while self.at < len(self.bits):
            name = self.bits[self.at]
            self.at += 2
            found[name] = self.choice()
        return found

    def next(self) -> str:
        return self.bits[self.at] if self.at < len(self.bits) else ""

    def starts_rule(self) -> bool:
        return self.bits[self.at + 1 : self.at + 2] == ["="]

    def choice(self) -> Part | Terminal:
        ways = [self.sequence()]
        while self.next() == "|":
            self.at += 1
            ways.append(self.sequence())
        return ways[0] if len(ways) == 1 else Part("any", tuple(ways))

    def sequence(self) -> Part | Terminal:
        parts: list[Part | Terminal] = []
        while self.next() not in ("", "|", "}", "]") and not self.starts_rule():
            parts.append(self.item())
        return parts[0] if len(parts) == 1 else Part("all", tuple(parts))

    def item(self) -> Part | Terminal:
        bit = self.bits[self.at]
        self.at += 1
        if bit in ("{", "["):
            inner = self.choice()
            self.at += 1
            return Part("many" if bit == "{" else "maybe", (inner,))
        if bit.startswith("'"):
            return Terminal("word", bit.strip("'"))
        if bit == "NUMBER" or bit.startswith("NAME"):
            return Terminal("number" if bit == "NUMBER" else "name")
        return Part("rule", name=bit)


@cache
def grammar() -> Grammar:
    return Notation(GRAMMAR.read_text(encoding="utf-8")).rules()


@cache
def first_of(part: Part | Terminal) -> tuple[tuple[Terminal, ...], bool]:
    """The terminals with which a part may begin, and whether it may be empty."""
    if isinstance(part, Terminal):
        return (part,), False
    if part.kind == "rule":
        return first_of(grammar()[part.name])
    if part.kind == "all":
        return first_of_sequence(part.parts)
    terminals = [terminal for inner in part.parts for terminal in first_of(inner)[0]]
    return tuple(terminals), part.kind in ("many", "maybe")


def first_of_sequence(parts: tuple[Part | Terminal, ...]) -> tuple[tuple[Terminal, ...], bool]:
    found: list[Terminal] = []
    for part in parts:
        terminals, is_empty = first_of(part)
        found.extend(terminals)
        if not is_empty:
            return tuple(found), False
    return tuple(found), True


class Stop(Exception):
    """No token fits."""


class Walk:
    """A walk over tokens by a rule, which keeps what may stand at the token where it is."""

    def __init__(self, tokens: list[Token], length: int):
        self.tokens = tokens
        self.end = Token("end", "", length, length)
        self.at = 0
        self.expected: list[Terminal] = []

    def token(self) -> Token:
        return self.tokens[self.at] if self.at < len(self.tokens) else self.end

    def asks(self, part: Part | Terminal) -> bool:
        terminals, _ = first_of(part)
        self.expected.extend(terminals)
        return any(terminal.fits(self.token()) for terminal in terminals)

    def read(self, part: Part | Terminal) -> None:
        """Reads a part. The last part of a sequence is read here too, however many follow."""
        while not isinstance(part, Terminal):
            if part.kind == "many":
                self.read_many(part.parts[0])
                return
            if part.kind == "maybe" and not self.asks(part.parts[0]):
                return
            part = self.last_of(part)
        self.take(part)

    def read_many(self, part: Part | Terminal) -> None:
        while self.asks(part):
            self.read(part)

    def last_of(self, part: Part) -> Part | Terminal:
        """What is left to be read of a part when all before it is read."""
        if part.kind == "rule":
            return grammar()[part.name]
        if part.kind == "any":
            return self.way_of(part)
        for inner in part.parts[:-1]:
            self.read(inner)
        return part.parts[-1]

    def way_of(self, part: Part) -> Part | Terminal:
        way = next((way for way in part.parts if self.begins(way)), None)
        if way is None:
            self.asks(part)
            raise Stop
        return way

    def begins(self, part: Part | Terminal) -> bool:
        return any(terminal.fits(self.token()) for terminal in first_of(part)[0])

    def take(self, terminal: Terminal) -> None:
        self.expected.append(terminal)
        if not terminal.fits(self.token()):
            raise Stop
        self.at += 1
        self.expected = []


def problem_rule(tokens: list[Token]) -> str:
    """The rule of a problem's text, which the value of its second token chooses."""
    numbers = [int(token.text) for token in tokens[1:2] if token.kind == "number"]
    return "problem_2" if numbers == [SECOND_VERSION] else "problem"


def first_fault(rule: str, tokens: list[Token], length: int) -> TextFault | None:
    """The first token with which the tokens are of the rule no longer, and what may stand there."""
    walk = Walk(tokens, length)
    try:
        walk.read(Part("rule", name=rule))
    except Stop:
        spoken = [terminal.spoken() for terminal in walk.expected]
        return TextFault("syntax", walk.token().start, tuple(dict.fromkeys(spoken)))
    if walk.at == len(tokens):
        return None
    spoken = [*(terminal.spoken() for terminal in walk.expected), "the end of the text"]
    return TextFault("syntax", walk.token().start, tuple(dict.fromkeys(spoken)))
