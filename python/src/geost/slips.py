"""What newcomers write who are used to other languages, and what to write instead.

The slips stand in data/slips.txt, whose head says how they are written. Patterns are matched with a
statement as a line of tokens, in which a mark stands in front of the token at the fault.
"""

from __future__ import annotations

import re
from dataclasses import dataclass
from functools import cache

from geost.files import PACKAGE
from geost.tokens import RESERVED

SLIPS = PACKAGE / "data" / "slips.txt"
MARK = "▮"
MOST_BEFORE, MOST_BEHIND = 200, 20
HEAD_TOKENS = 4

# A token of a problem, or else one character
LOOSE = re.compile(
    rb"[ \t\n\r]+|#[^\n]*|(?P<token>[A-Za-z_][A-Za-z0-9_]*|[0-9]+|\.\.|<=|>=|!="
    rb"|[\xc0-\xff][\x80-\xbf]+|[^ \t\n\r#])"
)
CLASSES = {
    "rel": r"(?:<=|>=|!=|<|>|=)",
    "name": r"[A-Za-z_]\w*",
    "run": r"(?:(?!(?:and|or|implies|iff|;|:|\[|\]) )\S+ )*",
    "inside": r"(?:\( [^()]*\) |(?!(?:and|or|implies|iff|;|:|\[|\]|\(|\)) )\S+ )*",
}
BEFORE_FORMULAS = "and or implies iff not forall exists atleast atmost min max shape".split()
NAMED = ("object", "shape", "macro", "attribute", "variable")


@dataclass(frozen=True)
class Slip:
    """The refusals that it gives, its pattern, and what to write instead."""

    refusals: tuple[str, ...]
    pattern: str
    advice: str


@dataclass(frozen=True)
class Loose:
    """A token or another character, and the byte at which it begins."""

    text: str
    start: int


def read_slips(document: str) -> list[Slip]:
    """The slips of a document. ValueError at a line that belongs to none."""
    plain = re.sub(r"^#.*\n", "", document, flags=re.MULTILINE)
    return [slip_of(block) for block in re.split(r"\n(?=\S)", plain) if block.strip()]


def slip_of(block: str) -> Slip:
    """A slip from its first line and the indented ones below it."""
    head, *below = block.strip().splitlines()
    refusals, parted, pattern = head.partition("  ")
    if not parted or not below:
        raise ValueError(f"no slip: {block!r}")
    told = " ".join(line.strip() for line in below).strip()
    return Slip(tuple(refusals.split(",")), pattern.strip(), told)


@cache
def known_slips() -> list[Slip]:
    return read_slips(SLIPS.read_text(encoding="utf-8"))


def loose_tokens(text: bytes) -> list[Loose]:
    return [
        Loose(match["token"].decode("utf-8", errors="replace"), match.start())
        for match in LOOSE.finditer(text)
        if match["token"]
    ]


def marked_statement(text: bytes, place: int, is_layout: bool = False) -> str:
    """The statement in which the place is, as tokens with a mark before the one at the place. The
    first line of a problem is one of its own; a layout is one statement."""
    tokens = loose_tokens(text)
    at = next((n for n, token in enumerate(tokens) if token.start >= place), len(tokens))
    begin = 0 if is_layout else statement_begin(tokens, at)
    texts = [token.text for token in tokens[max(begin, at - MOST_BEFORE) : at + MOST_BEHIND]]
    before = at - max(begin, at - MOST_BEFORE)
    return " ".join([*texts[:before], MARK + " ".join(texts[before:])])


def statement_begin(tokens: list[Loose], at: int) -> int:
    """The number of the token with which the statement of a token begins."""
    head = HEAD_TOKENS if at >= HEAD_TOKENS and has_head(tokens) else 0
    ends = [n for n in range(head, at) if tokens[n].text == ";"]
    return ends[-1] + 1 if ends else head


def has_head(tokens: list[Loose]) -> bool:
    return [token.text for token in tokens[:3:2]] == ["geost", "dims"]


def compiled(pattern: str, names: dict[str, list[str]]) -> re.Pattern[str]:
    """A pattern with the problem's names in place of their classes."""
    for word, stands in CLASSES.items():
        pattern = pattern.replace(f"<{word}>", stands)
    for word in NAMED:
        if f"<{word}>" in pattern:
            listed = "|".join(map(re.escape, names.get(word, [])))
            pattern = pattern.replace(f"<{word}>", rf"({listed})\b" if listed else r"((?!))")
    return made_pattern(pattern)


@cache
def made_pattern(pattern: str) -> re.Pattern[str]:
    return re.compile(pattern)


def advice(word: str, statement: str, names: dict[str, list[str]]) -> str | None:
    """What to write instead, by the first slip that fits; None where none does. `names` has the
    names of the problem by the classes of NAMED."""
    shouted = shouting(statement)
    if word == "syntax" and shouted is not None:
        return f"reserved words have small letters: write `{shouted.lower()}`"
    for slip in known_slips():
        found = word in slip.refusals and compiled(slip.pattern, names).search(statement)
        if found:
            return filled(slip.advice, found)
    return None


def filled(text: str, found: re.Match[str]) -> str:
    """A text with what the groups found in place of their numbers."""
    return re.sub(r"\{(\d)\}", lambda number: (found[int(number[1])] or "").strip(), text)


def shouting(statement: str) -> str | None:
    """A reserved word in other letters, at the mark or right before it."""
    near = re.search(rf"(\S+ )?{MARK}(\S*)", statement)
    if near is None:
        return None
    before = (near[1] or "").strip()
    words = [near[2], before if before.lower() in BEFORE_FORMULAS else ""]
    return next((word for word in words if word.lower() in RESERVED and word not in RESERVED), None)
