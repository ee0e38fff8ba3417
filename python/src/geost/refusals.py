"""What a refusal of the program means: the line and column, the sentence of docs/FORMAT.md, and
what to write instead.
"""

from __future__ import annotations

import difflib
import re
from collections.abc import Callable
from dataclasses import dataclass, replace
from enum import Enum
from functools import cached_property

from geost.files import text_of
from geost.grammar import first_fault, problem_rule
from geost.slips import advice, marked_statement
from geost.text import (
    ABSENT,
    SECOND_VERSION,
    Chain,
    Expr,
    Extreme,
    FieldOf,
    Formula,
    Problem,
    Reader,
    print_expr,
    print_pieces,
)
from geost.tokens import LARGEST_NUMBER, LONGEST_NAME, RESERVED, TextFault, Token, read_tokens
from geost.trees import all_parts

STATEMENTS = ("shape", "object", "order", "sides", "macro", "rule")
MOST_COLUMNS = 160
MOST_DIMS = {1: 4, SECOND_VERSION: 6}
MOST_PIECES = 8
PIECE = re.compile(r"(?:- )?\d+ \.\. (?:- )?\d+")
PIECES = re.compile(r"(?:(?:- )?\d+ \.\. (?:- )?\d+ , )+$")
SHOWN_BEFORE, SHOWN_BEHIND = 60, 80


class Kind(Enum):
    """What a text is: a problem, or what stands behind one."""

    PROBLEM = "problem"
    LAYOUT = "layout"
    DERIVATION = "derivation"


# The lists of docs/FORMAT.md

PHASE = re.compile(r"- \*\*(?P<phase>\w+)\*\*$")
ITEM = re.compile(r" *- (?P<words>`\w+`(?:, `\w+`)*): (?P<where>.*) \*Remedy:\* (?P<advice>.*)$")


@dataclass(frozen=True)
class Row:
    """An item of a list: the phase, the words, where such a fault is, and what to do."""

    phase: str
    words: tuple[str, ...]
    where: str
    advice: str


Rows = dict[Kind, list[Row]]


def read_rows(document: str) -> Rows:
    """The items of the lists of refusals: those of a problem, of a layout and of a derivation."""
    section = document[document.index("## When a text is refused") :]
    rest, _, derivation = section.partition("A derivation that `check`")
    problem, _, layout = rest.partition("A layout that `judge`")
    return {
        Kind.PROBLEM: rows_of(problem, ""),
        Kind.LAYOUT: rows_of(layout, "layout"),
        Kind.DERIVATION: rows_of(derivation, "derivation"),
    }


def rows_of(section: str, phase: str) -> list[Row]:
    """The items of a section, each with the phase that stands above it, at first this one."""
    found: list[Row] = []
    for line in re.sub(r"\n +(?! |- )", " ", section).splitlines():
        if heading := PHASE.match(line):
            phase = heading["phase"]
        elif item := ITEM.match(line):
            where = item["where"].removesuffix(".")
            found.append(Row(phase, words_in(item["words"]), where, item["advice"]))
    return found


def words_in(cell: str) -> tuple[str, ...]:
    return tuple(part.strip(" `") for part in cell.split(","))


def format_rows() -> Rows:
    return read_rows(text_of("docs/FORMAT.md"))


# Where a fault is


@dataclass(frozen=True)
class Source:
    """A file with its bytes, and how many bytes of the whole input stand before it."""

    name: str
    text: bytes
    before: int = 0


@dataclass(frozen=True)
class Spot:
    """A place in a file: line and column from 1, the column counted in characters, and what is
    shown of the line, with the number of characters before the place in it."""

    file: str
    line: int
    column: int
    content: str
    before: int

    def caret(self, width: int) -> str:
        """A line that marks so many characters under the line of the spot, tabs kept."""
        lead = "".join("\t" if sign == "\t" else " " for sign in self.content[: self.before])
        return lead + "^" * max(1, min(width, len(self.content) - self.before))

    def around(self) -> Spot:
        """The same place, of a very long line what stands around it alone."""
        if len(self.content) <= MOST_COLUMNS:
            return self
        begin = max(0, self.before - SHOWN_BEFORE)
        end = self.before + SHOWN_BEHIND
        front = ".. " if begin else ""
        back = " .." if end < len(self.content) else ""
        shown = front + self.content[begin:end] + back
        return replace(self, content=shown, before=self.before - begin + len(front))


def spot_of(source: Source, place: int) -> Spot:
    text, at = source.text, place - source.before
    begin = text.rfind(b"\n", 0, at) + 1
    end = text.find(b"\n", at)
    content = visible(text[begin : len(text) if end < 0 else end].rstrip(b"\r"))
    before = len(visible(text[begin:at]))
    return Spot(source.name, text.count(b"\n", 0, at) + 1, before + 1, content, before)


def visible(text: bytes) -> str:
    """A text in which what is no sign stands as such a mark as a wrong byte does."""
    return "".join(
        sign if sign.isprintable() or sign == "\t" else "\ufffd" for sign in decoded(text)
    )


def decoded(text: bytes) -> str:
    return text.decode("utf-8", errors="replace")


@dataclass(frozen=True)
class Refusal:
    """A refusal in one of the two texts, with the tokens of that text and the number of the token
    at the place."""

    word: str
    source: Source
    at: int
    problem: bytes
    kind: Kind

    @cached_property
    def tokens(self) -> list[Token]:
        return read_tokens(self.source.text, strict=False)

    @cached_property
    def index(self) -> int:
        """The number of the first token that begins at the place or behind it."""
        return next(
            (number for number, token in enumerate(self.tokens) if token.start >= self.at),
            len(self.tokens),
        )

    @property
    def token(self) -> str:
        return (
            self.tokens[self.index].text
            if self.index < len(self.tokens) and self.tokens[self.index].start == self.at
            else ""
        )

    def before(self, steps: int = 1) -> str:
        return self.tokens[self.index - steps].text if self.index >= steps else ""

    def after(self, steps: int = 1) -> str:
        return self.tokens[self.index + steps].text if self.index + steps < len(self.tokens) else ""

    @cached_property
    def first(self) -> int:
        """The number of the first token of the statement."""
        at = self.index
        while at > 0 and self.tokens[at - 1].text != ";" and at > 4:
            at -= 1
        return at

    @property
    def statement(self) -> str:
        """The word with which the statement begins."""
        return self.tokens[self.first].text if self.first < len(self.tokens) else ""

    def made(self, word: str) -> list[str]:
        """The names behind such a word at the beginning of a statement, in file order."""
        tokens = read_tokens(self.problem, strict=False)
        starts = [
            n
            for n, token in enumerate(tokens)
            if token.text == word and (n == 4 or n > 4 and tokens[n - 1].text == ";")
        ]
        return [tokens[n + 1].text for n in starts if n + 1 < len(tokens)]

    def attributes(self) -> list[str]:
        tokens = read_tokens(self.problem, strict=False)
        found: list[str] = []
        inside = False
        for token, behind in zip(tokens, tokens[1:]):
            inside = (inside or token.text == "with") and token.text != ";"
            if inside and token.kind == "name" and behind.text == "=":
                found.append(token.text)
        return list(dict.fromkeys(found))

    def variables(self) -> list[str]:
        """The variables and parameters that this statement has up to the place."""
        before = self.tokens[self.first : self.index]
        pairs = list(zip(before, before[1:]))
        quantified = [
            name.text for name, mark in pairs if name.kind == "name" and mark.text == "in"
        ]
        parameters = [
            name.text
            for name, mark in pairs[2:]
            if name.kind == "name" and mark.text == ":" and self.statement == "macro"
        ]
        return list(dict.fromkeys(quantified + parameters))

    def dims(self) -> int:
        tokens = read_tokens(self.problem, strict=False)
        return int(tokens[3].text) if len(tokens) > 3 and tokens[3].kind == "number" else 0

    def is_second(self) -> bool:
        """Whether the problem is a text of the second version."""
        return problem_rule(read_tokens(self.problem, strict=False)) == "problem_2"


Finder = Callable[[Refusal], list[str]]


# Which item of the list a refusal belongs to


def row_of(refusal: Refusal, rows: Rows) -> Row:
    fitting = [row for row in rows[refusal.kind] if refusal.word in row.words]
    needle = needle_of(refusal) if refusal.kind is Kind.PROBLEM else ""
    named = next((row for row in fitting if needle in row.where), fitting[0])
    if "as above" in named.where:
        return row_of(replace(refusal, kind=Kind.PROBLEM), rows)
    return named


def needle_of(refusal: Refusal) -> str:
    """Words of the row that is meant, where a word has several."""
    if refusal.word == "limit":
        return limit_needle(refusal)
    if refusal.word == "range":
        return "at most one above" if end_too_near(refusal) is not None else "low end is above"
    if refusal.word == "twice":
        return "that `objects ( )` has" if is_in_collection(refusal) else "a name that its list has"
    if refusal.word == "unknown":
        if refusal.statement in ("object", "order"):
            return "a shape behind `as`"
        return "a field that" if refusal.before() == "." else "in a formula: a name"
    return ""


def limit_needle(refusal: Refusal) -> str:
    if refusal.index < 4:
        return "a version that is"
    if len(pieces_before(refusal)) >= MOST_PIECES:
        return "a 9th piece"
    if refusal.before() in ("div", "mod"):
        return "the number behind `div`"
    if refusal.token in ("box", ABSENT) or refusal.tokens[refusal.index].kind == "name":
        return "a name past its limit"
    if (
        refusal.before() in ("box", "size", "at", "within", "sides")
        and members(refusal) != refusal.dims()
    ):
        return "the first token of offsets"
    return "an end of a range or an offset"


def members(refusal: Refusal) -> int:
    """How many numbers, ranges or sides stand from the place on. What stands behind a `,` is a
    piece more of the range before it."""
    count = 0
    last = " "
    for token in refusal.tokens[refusal.index :]:
        if token.text in ("low", "high") or token.kind == "number" and last not in ("..", ","):
            count += 1
        elif token.kind != "number" and token.text not in ("-", "..", ","):
            break
        last = token.text if token.text != "-" else last
    return count


def pieces_before(refusal: Refusal) -> list[str]:
    """The pieces of the same range that stand before a piece, as they are spelled."""
    tokens = refusal.tokens[refusal.first : refusal.index]
    found = PIECES.search("".join(f"{token.text} " for token in tokens))
    return found[0].split(" , ")[:-1] if found else []


def ends_of(piece: str) -> tuple[int, int]:
    """The ends of a piece that is spelled with a space between its tokens."""
    low, high = piece.replace("- ", "-").split(" .. ")
    return int(low), int(high)


def piece_at(refusal: Refusal) -> str | None:
    """The piece that begins at the place, as it is spelled."""
    tokens = refusal.tokens[refusal.index : refusal.index + 5]
    found = PIECE.match(" ".join(token.text for token in tokens))
    return found[0] if found else None


def end_too_near(refusal: Refusal) -> int | None:
    """The end of the piece before the one at the place, where that one is not upside down."""
    found, before = piece_at(refusal), pieces_before(refusal)
    if found is None or not before or ends_of(found)[0] > ends_of(found)[1]:
        return None
    return ends_of(before[-1])[1]


def is_in_collection(refusal: Refusal) -> bool:
    at = refusal.index - 1
    while at > 0 and (refusal.tokens[at].kind == "name" or refusal.tokens[at].text == ","):
        at -= 1
    return at > 0 and refusal.tokens[at].text == "(" and refusal.tokens[at - 1].text == "objects"


# What may be meant


def near(name: str, others: list[str]) -> list[str]:
    return difflib.get_close_matches(
        name, [other for other in others if other != name], n=3, cutoff=0.6
    )


def did_you_mean(name: str, others: list[str]) -> list[str]:
    found = near(name, others)
    if found:
        return ["did you mean " + " or ".join(f"`{other}`" for other in found) + "?"]
    return []


def listed(title: str, names: list[str], most: int = 12) -> list[str]:
    if not names:
        return [f"{title}: none"]
    shown = ", ".join(f"`{name}`" for name in names[:most])
    return [f"{title}: {shown}" + (f" and {len(names) - most} more" if len(names) > most else "")]


def hints(refusal: Refusal) -> list[str]:
    """Lines that say what to write instead, what stands there, and what may stand there."""
    own = [] if refusal.kind is Kind.DERIVATION else finders_of(refusal)(refusal)
    first = slip_hints(refusal, f"{refusal.word}-first") if refusal.index == 0 else []
    slips = first or slip_hints(refusal, refusal.word)
    return slips or own if refusal.word == "byte" else slips + own


def finders_of(refusal: Refusal) -> Finder:
    of_layout = LAYOUT_HINTS if refusal.kind is Kind.LAYOUT else {}
    return of_layout.get(refusal.word) or PROBLEM_HINTS.get(refusal.word) or (lambda _: [])


def slip_hints(refusal: Refusal, word: str) -> list[str]:
    """What to write in place of a known slip; `word` is that of the refusal or a finer one."""
    if refusal.kind is Kind.DERIVATION or word == "syntax" and is_unended(refusal):
        return []
    names = {
        "object": refusal.made("object"),
        "shape": refusal.made("shape"),
        "macro": refusal.made("macro"),
        "attribute": refusal.attributes(),
        "variable": refusal.variables(),
    }
    is_layout = refusal.kind is Kind.LAYOUT
    statement = marked_statement(refusal.source.text, refusal.at, is_layout)
    found = advice(f"plan:{word}" if is_layout else word, statement, names)
    return [] if found is None else [found]


def byte_hints(refusal: Refusal) -> list[str]:
    sign = decoded(refusal.source.text[refusal.at : refusal.at + 4])[:1]
    if sign.isalpha():
        return [
            f"`{sign}` is no letter of names, which are made of a to z, A to Z, digits and `_`:"
            " write another; it may stand in a comment"
        ]
    told = f"`{sign}` may stand in a comment alone: write it there, or leave it out"
    return [told] if sign.isprintable() else []


def number_hints(refusal: Refusal) -> list[str]:
    word = refusal.token
    touches = refusal.index + 1 < len(refusal.tokens) and refusal.tokens[
        refusal.index + 1
    ].start == refusal.at + len(word)
    if not touches:
        return [f"{word} is above {LARGEST_NUMBER}: write a lesser number, in a larger unit"]
    whole = word + refusal.after()
    return [
        f"`{whole}` is neither a number nor a name; units are not written, and a name begins with"
        f" a letter or `_`, such as `_{whole}`"
    ]


def name_hints(refusal: Refusal) -> list[str]:
    return [
        f"the name has {len(refusal.token)} bytes: write a shorter one, of {LONGEST_NAME} at most"
    ]


def syntax_hints(refusal: Refusal) -> list[str]:
    fault = syntax_fault(refusal)
    if fault is None or fault.place != refusal.at:
        return []
    expected = [word.strip("`") for word in fault.expected]
    lines = ["here may stand " + ", ".join(fault.expected)]
    if is_unended(refusal):
        before = refusal.before()
        lines.append(f"the statement before is not ended: a `;` is missing behind `{before}`")
        return lines
    lines.extend(word_hints(refusal.token, expected))
    if len(lines) == 1 and not slip_hints(refusal, "syntax"):
        lines.append(wanted_hint(expected))
    return lines


def word_hints(token: str, expected: list[str]) -> list[str]:
    """What may be meant by the word that stands there."""
    if token in RESERVED and "a name" in expected:
        other = f": write `{token}_` or another" if expected == ["a name"] else ""
        return [f"`{token}` is a reserved word and no name{other}"]
    if token and token not in expected:
        return did_you_mean(token, [word for word in expected if word.isalpha()])
    return []


def wanted_hint(expected: list[str]) -> str:
    """What is wanted where so much may stand, said in general."""
    if len(expected) == 1:
        word = expected[0] if " " in expected[0] else f"`{expected[0]}`"
        return f"write {word} here"
    if "rule" in expected:
        return "a statement begins here: write one of these words first"
    if "<=" in expected:
        return "two sides are compared: write `=`, `<` or another mark of comparison between them"
    if "and" in expected:
        return "what stands before is whole: write `and`, `or` or `implies` here, or its end"
    if "[" in expected:
        return "a formula is wanted here: write one, such as `a.x1 = 0`"
    if "(" in expected:
        return "a number is wanted here: write one, or a field, such as `a.x1`"
    return "write one of these here"


def is_unended(refusal: Refusal) -> bool:
    """Whether the next statement begins where a `;` may stand."""
    if refusal.token not in (*STATEMENTS, "end"):
        return False
    fault = syntax_fault(refusal)
    return fault is not None and fault.place == refusal.at and "`;`" in fault.expected


def syntax_fault(refusal: Refusal) -> TextFault | None:
    """The fault of the grammar, with what may stand at its place."""
    is_layout = refusal.kind is Kind.LAYOUT
    rule = "layout" if is_layout else problem_rule(refusal.tokens)
    return first_fault(rule, refusal.tokens, len(refusal.source.text))


def unknown_hints(refusal: Refusal) -> list[str]:
    name, before = refusal.token, refusal.before()
    if refusal.statement == "object" or before == "shape":
        made = [f"write `shape {name} box ..` somewhere, or another name"]
        return did_you_mean(name, refusal.made("shape")) or made + listed(
            "shapes", refusal.made("shape")
        )
    if refusal.statement == "order" or is_in_collection(refusal):
        made = [f"write `object {name} as ..` somewhere, or another name"]
        return did_you_mean(name, refusal.made("object")) or made + listed(
            "objects", refusal.made("object")
        )
    if before == ".":
        return field_hints(refusal)
    if before in ("@", "$"):
        return macro_hints(refusal)
    if name in refusal.variables():
        return [
            f"`{name}` is in sight in the body of its quantifier alone, which has ended here:"
            " put a compound body in `[ ]`, so write `: [ .. ]`",
        ]
    known = refusal.variables() + refusal.made("object")
    return did_you_mean(name, known) or far_hints(refusal) + listed(
        "objects", refusal.made("object")
    )


def far_hints(refusal: Refusal) -> list[str]:
    """What to write in place of a name that is like no known one, where no slip said more."""
    return [] if slip_hints(refusal, "unknown") else slip_hints(refusal, "unknown-far")


def field_hints(refusal: Refusal) -> list[str]:
    places = range(1, refusal.dims() + 1)
    of_objects = ["id", "sid", *(f"x{place}" for place in places), *refusal.attributes()]
    of_boxes = [f"{letter}{place}" for letter in "tl" for place in places]
    meant = did_you_mean(refusal.token, of_objects + of_boxes) or far_hints(refusal)
    return meant + listed("fields of objects", of_objects) + listed("fields of boxes", of_boxes)


def macro_hints(refusal: Refusal) -> list[str]:
    names = refusal.made("macro")
    if refusal.token in names:
        return [
            f"the macro `{refusal.token}` is made further down, or is this one:"
            " put its statement above"
        ]
    made = [f"write `macro {refusal.token}(..)` further up, or the name of another"]
    return did_you_mean(refusal.token, names) or made + listed("macros", names)


def twice_hints(refusal: Refusal) -> list[str]:
    token = refusal.token
    if token in ("id", "sid") or len(token) == 2 and token[0] == "x" and token[1] in "123456789":
        return [f"every object has the field `{token}` anyway: write another name"]
    earlier = next(
        (
            n
            for n in range(refusal.index)
            if refusal.tokens[n].text == token and is_same_list(refusal, n)
        ),
        None,
    )
    if earlier is None:
        return []
    spot = spot_of(refusal.source, refusal.tokens[earlier].start)
    where = f"line {spot.line}, column {spot.column}"
    return [f"`{token}` stands first in {where}: write another name, or it once"]


def is_same_list(refusal: Refusal, at: int) -> bool:
    """Whether the token at this number may belong to the list of the token at the place."""
    if refusal.token in STATEMENTS:
        return True
    if refusal.before() in STATEMENTS:
        return refusal.tokens[at - 1].text == refusal.before()
    return at >= refusal.first


def kind_hints(refusal: Refusal) -> list[str]:
    token = refusal.token
    if token in ("@", "$"):
        other = "$" if token == "@" else "@"
        name = refusal.after()
        return [
            f"write `{other}{name}(..)`: `{name}` is called with `{other}`;"
            " `@` is for macros with `means`, `$` for those with `is`"
        ]
    if token == ".":
        return [f"`{refusal.before()}` is a number and has no fields"]
    if refusal.before() == "of":
        return listed("objects", refusal.made("object"))
    if token in refusal.made("object") + refusal.variables():
        return [
            f"`{token}` alone is no number here; a field of it may be meant, such as `{token}.x1`"
        ]
    return []


def args_hints(refusal: Refusal) -> list[str]:
    tokens = read_tokens(refusal.problem, strict=False)
    name = refusal.after()
    for at, token in enumerate(tokens[:-1]):
        if token.text == "macro" and tokens[at + 1].text == name:
            end = next(n for n in range(at, len(tokens)) if tokens[n].text == ")")
            made = " ".join(part.text for part in tokens[at : end + 1])
            return [f"it is made as `{made}`: write one argument for each parameter"]
    return []


def limit_hints(refusal: Refusal) -> list[str]:
    needle = limit_needle(refusal)
    if needle.startswith("the first token"):
        stand, wanted = members(refusal), refusal.dims()
        return [f"{stand} stand there, and {wanted} are wanted: write one for each dimension"]
    if needle.startswith("a version"):
        version = SECOND_VERSION if refusal.is_second() else 1
        head = f"`geost {version} dims K`"
        return [f"write {head} at the front, where K is 1 to {MOST_DIMS[version]}"]
    if needle == "a 9th piece":
        return [f"a range has at most {MOST_PIECES} pieces: write fewer, or a rule for the rest"]
    return []


def range_hints(refusal: Refusal) -> list[str]:
    end = end_too_near(refusal)
    if end is not None:
        first = f"the piece before it ends at {end}: write one that begins at {end + 2} or later"
        return [f"{first}, or one piece in place of both"]
    found = piece_at(refusal)
    if found is None:
        return []
    low, high = ends_of(found)
    return [f"`{high}..{low}` may be meant: write that"]


def order_hints(refusal: Refusal) -> list[str]:
    end = next(
        (n for n in range(refusal.index, len(refusal.tokens)) if refusal.tokens[n].text == ";"),
        len(refusal.tokens),
    )
    listed_names = {token.text for token in refusal.tokens[refusal.index : end]}
    return listed(
        "write them too; it leaves out",
        [name for name in refusal.made("object") if name not in listed_names],
    )


def product_hints(refusal: Refusal) -> list[str]:
    made = parsed_problem(refusal)
    rule = next((rule for rule in made.rules if rule.name == refusal.token), None) if made else None
    if rule is None or not hasattr(rule.body, "__match_args__"):
        return []
    bodies = [rule.body, *(macro.body for macro in made.macros)] if made else []
    bad = [part for body in bodies for part in all_parts(body) if multiplies(part)]  # type: ignore[arg-type]
    shown = [f"see `{print_expr(part)}`" for part in bad[:3]]  # type: ignore[arg-type]
    return [*shown, *dict.fromkeys(map(in_place_of, bad))]


def in_place_of(part: object) -> str:
    """What to write in place of a part that has coordinates where none may stand."""
    if isinstance(part, Extreme):
        both = "write `[ a.x1 <= 3 and b.x1 <= 3 ]`"
        return f"{both} in place of `max(a.x1, b.x1) <= 3`, and `or` for `min`"
    if isinstance(part, Chain) and any(mark != "*" for mark, _ in part.steps):
        both = "write `[ 6 <= e and e < 9 ]`"
        return f"{both} in place of `e div 3 = 2`; under `mod` stand attributes alone"
    either = "write `[ a.x1 = 0 or b.x1 = 0 ]`"
    return f"{either} for a product that is 0, and else one comparison a coordinate"


def parsed_problem(refusal: Refusal) -> Problem | None:
    try:
        return Reader(read_tokens(refusal.problem), len(refusal.problem)).problem()
    except TextFault:
        return None


def has_coordinate(part: Formula | Expr) -> bool:
    fields = [found for found in all_parts(part) if isinstance(found, FieldOf)]
    return any(
        len(found.name) == 2 and found.name[0] == "x" and found.name[1].isdigit()
        for found in fields
    )


def multiplies(part: Formula | Expr) -> bool:
    """Whether this part multiplies coordinates or has them where only numbers may stand, as far as
    it is seen without its calls."""
    if isinstance(part, Extreme):
        return has_coordinate(part)
    if not isinstance(part, Chain) or part.steps[0][0] in "+-":
        return False
    factors = [part.first, *(factor for _, factor in part.steps)]
    divides = any(mark != "*" for mark, _ in part.steps)
    return sum(map(has_coordinate, factors)) > 1 or divides and has_coordinate(part.first)


def layout_order_hints(refusal: Refusal) -> list[str]:
    names = refusal.made("object")
    before = lines_begun(refusal, refusal.index)
    if len(before) < len(names):
        return [
            f"the line of `{names[len(before)]}` has to stand here: write one line for each object,"
            " in the sequence of the problem"
        ]
    return [f"the problem has {len(names)} objects, and each has its line already: write no other"]


def lines_begun(refusal: Refusal, end: int) -> list[int]:
    """The numbers of the tokens up to an end that stand behind the name of an object's line."""
    return [n for n, token in enumerate(refusal.tokens[:end]) if token.text in ("as", ABSENT)]


def layout_object(refusal: Refusal) -> str:
    """The object in whose line the place is."""
    marks = lines_begun(refusal, refusal.index + 1)
    return refusal.tokens[marks[-1] - 1].text if marks else ""


def layout_unknown_hints(refusal: Refusal) -> list[str]:
    made, name = parsed_problem(refusal), layout_object(refusal)
    if made is None:
        return []
    shapes = list(made.object(name).shapes)
    if refusal.token == ABSENT:
        return [f"`{name}` may not be left out: write `{name} as {shapes[0]} at ..`"]
    return did_you_mean(refusal.token, shapes) + listed(f"shapes of `{name}`", shapes)


def layout_range_hints(refusal: Refusal) -> list[str]:
    made = parsed_problem(refusal)
    if made is None:
        return []
    start = next(n for n in range(refusal.index, 0, -1) if refusal.tokens[n].text == "at")
    dimension = sum(token.kind == "number" for token in refusal.tokens[start : refusal.index])
    pieces = print_pieces(made.object(layout_object(refusal)).pieces[dimension])
    where = f"x{dimension + 1} of `{layout_object(refusal)}` lies in {pieces}"
    return [f"{where}: write a number from there, or another range into the problem"]


def layout_limit_hints(refusal: Refusal) -> list[str]:
    return [f"{refusal.dims()} coordinates are wanted: write one for each dimension"]


PROBLEM_HINTS: dict[str, Finder] = {
    "byte": byte_hints,
    "number": number_hints,
    "name": name_hints,
    "syntax": syntax_hints,
    "limit": limit_hints,
    "twice": twice_hints,
    "unknown": unknown_hints,
    "range": range_hints,
    "order": order_hints,
    "kind": kind_hints,
    "args": args_hints,
    "product": product_hints,
}
LAYOUT_HINTS: dict[str, Finder] = {
    "order": layout_order_hints,
    "unknown": layout_unknown_hints,
    "limit": layout_limit_hints,
    "range": layout_range_hints,
    "token": lambda refusal: [],
}


def explain_refusal(
    word: str,
    place: int,
    sources: list[Source],
    second_from: int | None,
    kind: Kind = Kind.LAYOUT,
) -> list[str]:
    """The lines that explain a refusal. The sources are the files of the input in their sequence;
    where the input has a second text of this kind, it begins at the place `second_from`."""
    whole = b"".join(source.text for source in sources)
    refusal = refusal_of(word, place, whole, second_from, kind)
    spot = spot_of(source_at(sources, place), place).around()
    row = row_of(refusal, format_rows())
    return [
        f"{spot.file}:{spot.line}:{spot.column}: {word}",
        "    " + spot.content,
        "    " + spot.caret(len(refusal.token)),
        f"this is: {row.where}",
        f"what to do: {row.advice}",
        *hints(refusal),
    ]


def refusal_of(word: str, place: int, whole: bytes, second_from: int | None, kind: Kind) -> Refusal:
    if second_from is None:
        return Refusal(word, Source("", whole), place, whole, Kind.PROBLEM)
    problem = whole[:second_from]
    if place < second_from:
        return Refusal(word, Source("", problem), place, problem, Kind.PROBLEM)
    second = Source("", whole[second_from:], second_from)
    return Refusal(word, second, place - second_from, problem, kind)


def source_at(sources: list[Source], place: int) -> Source:
    """The file in which the byte at this place stands; the last one for the end of the input."""
    return next(
        (source for source in sources if place < source.before + len(source.text)), sources[-1]
    )
