"""The text of a problem and of a layout: trees, and the canonical spelling.

The reader takes any text of the grammar of docs/FORMAT.md; names, kinds and limits are not looked
at, since what is read here is what the program has accepted.
"""

from __future__ import annotations

from dataclasses import dataclass, field, replace
from typing import Callable, Iterable, Iterator, TypeVar, cast

from geost.tokens import TextFault, Token, read_tokens

RELATIONS = ["<=", "<", ">=", ">", "=", "!="]
SECOND_VERSION = 2
# what stands last in the shapes of an object that may be left out, and in its line of a layout
ABSENT = "absent"
Range = tuple[int, int]
What = TypeVar("What")


# Expressions


@dataclass(frozen=True)
class Number:
    value: int


@dataclass(frozen=True)
class FieldOf:
    """`owner.name`"""

    owner: str
    name: str


@dataclass(frozen=True)
class Bare:
    """A name alone."""

    name: str


@dataclass(frozen=True)
class ShapeNumber:
    name: str


@dataclass(frozen=True)
class Negative:
    inner: Expr


@dataclass(frozen=True)
class Chain:
    """`first` and then steps, each a mark and an operand: either `+` and `-`, or `*`, `div` and
    `mod`."""

    first: Expr
    steps: tuple[tuple[str, Expr], ...]


@dataclass(frozen=True)
class Extreme:
    """`min(left, right)` or `max(left, right)`"""

    word: str
    left: Expr
    right: Expr


@dataclass(frozen=True)
class Call:
    """`@name(..)` as a formula, `$name(..)` as an expression."""

    mark: str
    name: str
    arguments: tuple[Expr, ...]


Expr = Number | FieldOf | Bare | ShapeNumber | Negative | Chain | Extreme | Call

# Formulas


@dataclass(frozen=True)
class Truth:
    value: bool


@dataclass(frozen=True)
class Not:
    inner: Formula


@dataclass(frozen=True)
class Joined:
    """A chain of `and` or of `or`, or the two sides of `implies` or `iff`."""

    word: str
    parts: tuple[Formula, ...]


@dataclass(frozen=True)
class Compare:
    left: Expr
    relation: str
    right: Expr


@dataclass(frozen=True)
class Quantified:
    """`kind` is forall, exists, atleast or atmost. `listed` is None for all objects; `boxes_of`
    names an object or is None."""

    kind: str
    count: int
    variable: str
    listed: tuple[str, ...] | None
    boxes_of: str | None
    body: Formula


Formula = Truth | Not | Joined | Compare | Quantified | Call

# Statements


@dataclass(frozen=True)
class Box:
    offsets: tuple[int, ...]
    sizes: tuple[int, ...]

    def volume(self) -> int:
        product = 1
        for size in self.sizes:
            product *= size
        return product


@dataclass(frozen=True)
class Shape:
    name: str
    boxes: tuple[Box, ...]


NOTHING = Shape(ABSENT, ())


@dataclass(frozen=True)
class Object:
    """`shapes` are the names of those that it may take; where it may be left out, `absent` is the
    last of them. `pieces` are those of the range of each coordinate, in ascending order."""

    name: str
    shapes: tuple[str, ...]
    pieces: tuple[tuple[Range, ...], ...]
    attributes: tuple[tuple[str, int], ...] = ()

    @property
    def may_be_absent(self) -> bool:
        return ABSENT in self.shapes

    @property
    def real_shapes(self) -> tuple[str, ...]:
        """Those that have boxes."""
        return tuple(shape for shape in self.shapes if shape != ABSENT)

    @property
    def ranges(self) -> tuple[Range, ...]:
        """For each coordinate the hull of its range: from the first number to the last."""
        return tuple((pieces[0][0], pieces[-1][1]) for pieces in self.pieces)

    def values(self, dimension: int) -> list[int]:
        """The values of a coordinate, in ascending order."""
        return [value for low, high in self.pieces[dimension] for value in range(low, high + 1)]


def whole(ranges: Iterable[Range]) -> tuple[tuple[Range, ...], ...]:
    """Ranges of one piece each."""
    return tuple((one,) for one in ranges)


def at_origin(origin: tuple[int, ...]) -> tuple[tuple[Range, ...], ...]:
    """Ranges that have this origin alone."""
    return whole((value, value) for value in origin)


@dataclass(frozen=True)
class Macro:
    name: str
    parameters: tuple[tuple[str, str], ...]
    word: str
    body: Formula | Expr


@dataclass(frozen=True)
class Within:
    ranges: tuple[Range, ...]


@dataclass(frozen=True)
class Apart:
    pass


@dataclass(frozen=True)
class Rule:
    name: str
    body: Apart | Within | Formula


@dataclass(frozen=True)
class Problem:
    dims: int
    shapes: tuple[Shape, ...] = ()
    objects: tuple[Object, ...] = ()
    macros: tuple[Macro, ...] = ()
    rules: tuple[Rule, ...] = ()
    order: tuple[str, ...] = ()
    sides: tuple[str, ...] = ()
    version: int = 1

    def shape(self, name: str) -> Shape:
        """The shape of this name; what is absent has no boxes."""
        if name == ABSENT:
            return NOTHING
        return next(shape for shape in self.shapes if shape.name == name)

    def shape_number(self, name: str) -> int:
        """The number of a shape, from 1; of what is absent 0."""
        return 0 if name == ABSENT else 1 + [shape.name for shape in self.shapes].index(name)

    def object(self, name: str) -> Object:
        return next(thing for thing in self.objects if thing.name == name)

    def search_order(self) -> tuple[str, ...]:
        return self.order or tuple(thing.name for thing in self.objects)

    def search_sides(self) -> tuple[str, ...]:
        return self.sides or ("low",) * self.dims

    def first_values(self, thing: Object) -> tuple[int, ...]:
        """The first value of each coordinate in the search, which an absent object has."""
        sides = zip(thing.ranges, self.search_sides())
        return tuple(low if side == "low" else high for (low, high), side in sides)

    def attribute_names(self) -> list[str]:
        return list(dict.fromkeys(name for thing in self.objects for name, _ in thing.attributes))


@dataclass(frozen=True)
class Placed:
    """An object of a layout, with the name of its shape and its origin. One that is absent has the
    shape `absent` and no origin."""

    name: str
    shape: str
    origin: tuple[int, ...]

    @property
    def is_absent(self) -> bool:
        return self.shape == ABSENT


def absent(name: str) -> Placed:
    """An object that is left out."""
    return Placed(name, ABSENT, ())


@dataclass
class Reader:
    """Reads by the grammar. At the first token with which the text goes on in none, it raises
    `syntax` with what may stand there."""

    tokens: list[Token]
    length: int
    at: int = 0
    expected: list[str] = field(default_factory=list)
    version: int = 1

    def token(self) -> Token:
        if self.at < len(self.tokens):
            return self.tokens[self.at]
        return Token("end", "", self.length, self.length)

    def has(self, *texts: str) -> bool:
        """Whether one of these words or symbols stands next. Those asked for are kept until a token
        is taken."""
        self.expected.extend(f"`{text}`" for text in texts)
        return self.token().kind in ("word", "symbol") and self.token().text in texts

    def has_kind(self, kind: str) -> bool:
        self.expected.append({"name": "a name", "number": "a number"}[kind])
        return self.token().kind == kind

    def take(self) -> str:
        taken = self.token().text
        self.at += 1
        self.expected = []
        return taken

    def take_if(self, text: str) -> bool:
        if self.has(text):
            self.take()
            return True
        return False

    def need(self, *texts: str) -> str:
        if not self.has(*texts):
            self.fail()
        return self.take()

    def name(self) -> str:
        if not self.has_kind("name"):
            self.fail()
        return self.take()

    def number(self) -> int:
        if not self.has_kind("number"):
            self.fail()
        return int(self.take())

    def fail(self) -> None:
        raise TextFault("syntax", self.token().start, tuple(dict.fromkeys(self.expected)))

    def separated(self, read: Callable[[], What], mark: str) -> list[What]:
        """One or more, with the mark between two of them."""
        found = [read()]
        while self.take_if(mark):
            found.append(read())
        return found

    # Numbers and ranges

    def starts_integer(self) -> bool:
        return bool(self.has("-") | self.has_kind("number"))

    def integer(self) -> int:
        return -self.number() if self.take_if("-") else self.number()

    def integers(self) -> tuple[int, ...]:
        found = [self.integer()]
        while self.starts_integer():
            found.append(self.integer())
        return tuple(found)

    def range(self) -> Range:
        low = self.integer()
        self.need("..")
        return low, self.integer()

    def ranges(self) -> tuple[Range, ...]:
        found = [self.range()]
        while self.starts_integer():
            found.append(self.range())
        return tuple(found)

    def pieces(self) -> tuple[Range, ...]:
        """The range of a coordinate: one piece in the first version, pieces in the second."""
        if self.version == SECOND_VERSION:
            return tuple(self.separated(self.range, ","))
        return (self.range(),)

    def all_pieces(self) -> tuple[tuple[Range, ...], ...]:
        found = [self.pieces()]
        while self.starts_integer():
            found.append(self.pieces())
        return tuple(found)

    # Statements

    def problem(self) -> Problem:
        self.need("geost")
        self.version = self.number()
        self.need("dims")
        made = Problem(self.number(), version=self.version)
        readers = {
            "shape": self.shape,
            "object": self.object,
            "order": self.order,
            "sides": self.sides,
            "macro": self.macro,
            "rule": self.rule,
        }
        while not self.has("end"):
            word = self.need(*readers)
            made = readers[word](made)
            self.need(";")
        self.take()
        return made

    def shape(self, made: Problem) -> Problem:
        name = self.name()
        boxes = [self.box()]
        while self.has("box"):
            boxes.append(self.box())
        return replace(made, shapes=made.shapes + (Shape(name, tuple(boxes)),))

    def box(self) -> Box:
        self.need("box")
        offsets = self.integers()
        self.need("size")
        return Box(offsets, self.integers())

    def object(self, made: Problem) -> Problem:
        name = self.name()
        self.need("as")
        shapes = self.shape_names()
        self.need("at")
        pieces = self.all_pieces()
        attributes = self.separated(self.attribute, ",") if self.take_if("with") else []
        return replace(
            made, objects=made.objects + (Object(name, shapes, pieces, tuple(attributes)),)
        )

    def shape_names(self) -> tuple[str, ...]:
        """In the second version the word `absent` may be the last of them."""
        found = [self.name()]
        while self.take_if(","):
            if self.version == SECOND_VERSION and self.take_if(ABSENT):
                return (*found, ABSENT)
            found.append(self.name())
        return tuple(found)

    def attribute(self) -> tuple[str, int]:
        name = self.name()
        self.need("=")
        return name, self.integer()

    def order(self, made: Problem) -> Problem:
        return replace(made, order=tuple(self.separated(self.name, ",")))

    def sides(self, made: Problem) -> Problem:
        sides = [self.need("low", "high")]
        while self.has("low", "high"):
            sides.append(self.take())
        return replace(made, sides=tuple(sides))

    def macro(self, made: Problem) -> Problem:
        name = self.name()
        self.need("(")
        parameters = [] if self.has(")") else self.separated(self.parameter, ",")
        self.need(")")
        word = self.need("means", "is")
        body = self.formula() if word == "means" else self.expression()
        return replace(made, macros=made.macros + (Macro(name, tuple(parameters), word, body),))

    def parameter(self) -> tuple[str, str]:
        name = self.name()
        self.need(":")
        return name, self.need("int", "object", "box")

    def rule(self, made: Problem) -> Problem:
        name = self.name()
        self.need(":")
        return replace(made, rules=made.rules + (Rule(name, self.body()),))

    def body(self) -> Apart | Within | Formula:
        if self.take_if("apart"):
            return Apart()
        if self.take_if("within"):
            return Within(self.ranges())
        return self.formula()

    # Formulas

    def formula(self) -> Formula:
        left = self.implication()
        return Joined("iff", (left, self.implication())) if self.take_if("iff") else left

    def implication(self) -> Formula:
        left = self.joined("or", lambda: self.joined("and", self.unary))
        if self.take_if("implies"):
            return Joined(
                "implies", (left, self.joined("or", lambda: self.joined("and", self.unary)))
            )
        return left

    def joined(self, word: str, read: Callable[[], Formula]) -> Formula:
        parts = self.separated(read, word)
        return Joined(word, tuple(parts)) if len(parts) > 1 else parts[0]

    def unary(self) -> Formula:
        if self.has("true", "false"):
            return Truth(self.take() == "true")
        if self.take_if("not"):
            return Not(self.unary())
        if self.take_if("["):
            inner = self.formula()
            self.need("]")
            return inner
        if self.take_if("@"):
            return self.call("@")
        if self.has("forall", "exists", "atleast", "atmost"):
            return self.quantified()
        left = self.expression()
        relation = self.need(*RELATIONS)
        return Compare(left, relation, self.expression())

    def quantified(self) -> Formula:
        kind = self.take()
        count = self.number() if kind in ("atleast", "atmost") else 0
        variable = self.name()
        self.need("in")
        listed: tuple[str, ...] | None = None
        boxes_of: str | None = None
        if self.need("objects", "boxes") == "boxes":
            self.need("of")
            boxes_of = self.name()
        elif self.take_if("("):
            listed = tuple(self.separated(self.name, ","))
            self.need(")")
        self.need(":")
        return Quantified(kind, count, variable, listed, boxes_of, self.unary())

    def call(self, mark: str) -> Call:
        name = self.name()
        self.need("(")
        arguments = [] if self.has(")") else self.separated(self.expression, ",")
        self.need(")")
        return Call(mark, name, tuple(arguments))

    # Expressions

    def expression(self) -> Expr:
        return self.chain(("+", "-"), self.term)

    def chain(self, marks: tuple[str, ...], read: Callable[[], Expr]) -> Expr:
        first = read()
        steps: list[tuple[str, Expr]] = []
        while self.has(*marks):
            mark = self.take()
            steps.append((mark, read()))
        return Chain(first, tuple(steps)) if steps else first

    def term(self) -> Expr:
        first = self.factor()
        steps: list[tuple[str, Expr]] = []
        while self.has("*", "div", "mod"):
            mark = self.take()
            steps.append((mark, self.factor() if mark == "*" else Number(self.number())))
        return Chain(first, tuple(steps)) if steps else first

    def factor(self) -> Expr:
        if self.has_kind("number"):
            return Number(self.number())
        if self.take_if("-"):
            return Negative(self.factor())
        if self.take_if("("):
            inner = self.expression()
            self.need(")")
            return inner
        if self.take_if("$"):
            return self.call("$")
        if self.has("min", "max"):
            return self.extreme()
        if self.take_if("shape"):
            return ShapeNumber(self.name())
        name = self.name()
        return FieldOf(name, self.name()) if self.take_if(".") else Bare(name)

    def extreme(self) -> Expr:
        word = self.take()
        self.need("(")
        left = self.expression()
        self.need(",")
        right = self.expression()
        self.need(")")
        return Extreme(word, left, right)

    # Layouts

    def layout(self) -> list[Placed]:
        self.need("layout")
        found: list[Placed] = []
        while self.has_kind("name"):
            found.append(self.placed())
        if self.take_if("token") and not self.take_if("-"):
            self.separated(self.group, "/")
        return found

    def placed(self) -> Placed:
        name = self.name()
        if self.need("as", ABSENT) == ABSENT:
            return absent(name)
        shape = self.name()
        self.need("at")
        return Placed(name, shape, self.integers())

    def group(self) -> None:
        self.number()
        while self.take_if(","):
            self.integer()

    def finish(self) -> None:
        if self.token().kind != "end":
            self.expected.append("the end of the text")
            self.fail()


def end_of_first_text(text: bytes) -> int:
    """Where the first word `end` of a text ends; the text's length where there is none."""
    return next(
        (token.end for token in read_tokens(text, strict=False) if token.text == "end"), len(text)
    )


def read_problem(text: bytes) -> Problem:
    reader = Reader(read_tokens(text), len(text))
    made = reader.problem()
    reader.finish()
    return made


def read_layout(text: bytes) -> list[Placed]:
    reader = Reader(read_tokens(text), len(text))
    found = reader.layout()
    reader.finish()
    return found


# The canonical spelling

PRODUCT_MARKS = ("*", "div", "mod")


def is_product(expr: Expr) -> bool:
    return isinstance(expr, Chain) and expr.steps[0][0] in PRODUCT_MARKS


def is_sum(expr: Expr) -> bool:
    return isinstance(expr, Chain) and not is_product(expr)


def print_expr(expr: Expr) -> str:
    match expr:
        case Number(value):
            return str(value)
        case FieldOf(owner, name):
            return f"{owner}.{name}"
        case Bare(name):
            return name
        case ShapeNumber(name):
            return f"shape {name}"
        case Negative(inner):
            return "- " + print_factor(inner)
        case Extreme(word, left, right):
            return f"{word}({print_expr(left)}, {print_expr(right)})"
        case Call():
            return print_call(expr)
        case Chain(first, steps):
            operand = print_factor if is_product(expr) else print_term
            return operand(first) + "".join(f" {mark} {operand(part)}" for mark, part in steps)
    raise AssertionError(expr)


def print_factor(expr: Expr) -> str:
    return f"({print_expr(expr)})" if isinstance(expr, Chain) else print_expr(expr)


def print_term(expr: Expr) -> str:
    return f"({print_expr(expr)})" if is_sum(expr) else print_expr(expr)


def print_call(call: Call) -> str:
    return f"{call.mark}{call.name}({', '.join(print_expr(part) for part in call.arguments)})"


RANKS = {"iff": 0, "implies": 1, "or": 2, "and": 3}
UNARY = 4


def rank(formula: Formula) -> int:
    return RANKS[formula.word] if isinstance(formula, Joined) else UNARY


def print_formula(formula: Formula, least: int = 0) -> str:
    """The formula, in brackets where its rank is below the least that may stand there."""
    if rank(formula) < least:
        return f"[ {print_formula(formula)} ]"
    match formula:
        case Truth(value):
            return "true" if value else "false"
        case Not(inner):
            return "not " + print_formula(inner, UNARY)
        case Joined(word, parts):
            return f" {word} ".join(print_formula(part, RANKS[word] + 1) for part in parts)
        case Compare(left, relation, right):
            return f"{print_expr(left)} {relation} {print_expr(right)}"
        case Call():
            return print_call(formula)
        case Quantified():
            return f"{print_quantifier(formula)} : {print_formula(formula.body, UNARY)}"
    raise AssertionError(formula)


def print_quantifier(formula: Quantified) -> str:
    count = f" {formula.count}" if formula.kind in ("atleast", "atmost") else ""
    return f"{formula.kind}{count} {formula.variable} in {print_collection(formula)}"


def print_collection(formula: Quantified) -> str:
    if formula.boxes_of is not None:
        return f"boxes of {formula.boxes_of}"
    return "objects" if formula.listed is None else f"objects ({', '.join(formula.listed)})"


def print_ranges(ranges: tuple[Range, ...]) -> str:
    return " ".join(f"{low}..{high}" for low, high in ranges)


def print_pieces(pieces: tuple[Range, ...]) -> str:
    """The range of one coordinate."""
    return ", ".join(f"{low}..{high}" for low, high in pieces)


def print_all_pieces(thing: Object) -> str:
    return " ".join(map(print_pieces, thing.pieces))


def print_body(body: Apart | Within | Formula) -> str:
    match body:
        case Apart():
            return "apart"
        case Within(ranges):
            return "within " + print_ranges(ranges)
    return print_formula(body)


def print_box(box: Box) -> str:
    return f"box {' '.join(map(str, box.offsets))} size {' '.join(map(str, box.sizes))}"


def print_shape(shape: Shape) -> str:
    return f"shape {shape.name} {' '.join(map(print_box, shape.boxes))} ;"


def print_object(thing: Object) -> str:
    attributes = ", ".join(f"{name} = {value}" for name, value in thing.attributes)
    tail = f" with {attributes}" if attributes else ""
    return f"object {thing.name} as {', '.join(thing.shapes)} at {print_all_pieces(thing)}{tail} ;"


def print_macro(macro: Macro) -> str:
    parameters = ", ".join(f"{name} : {kind}" for name, kind in macro.parameters)
    if macro.word == "means":
        body = print_formula(cast(Formula, macro.body))
    else:
        body = print_expr(cast(Expr, macro.body))
    return f"macro {macro.name}({parameters}) {macro.word} {body} ;"


def print_rule(rule: Rule) -> str:
    return f"rule {rule.name} : {print_body(rule.body)} ;"


def statements(problem: Problem) -> Iterator[str]:
    yield f"geost {problem.version} dims {problem.dims}"
    for shape in problem.shapes:
        yield print_shape(shape)
    for thing in problem.objects:
        yield print_object(thing)
    for macro in problem.macros:
        yield print_macro(macro)
    if problem.order and problem.order != tuple(thing.name for thing in problem.objects):
        yield f"order {', '.join(problem.order)} ;"
    if "high" in problem.sides:
        yield f"sides {' '.join(problem.sides)} ;"
    for rule in problem.rules:
        yield print_rule(rule)
    yield "end"


def print_problem(problem: Problem) -> str:
    return "\n".join(statements(problem)) + "\n"


def print_placed(placed: Placed) -> str:
    """The line of an object in a layout."""
    if placed.is_absent:
        return f"{placed.name} {ABSENT}"
    return f"{placed.name} as {placed.shape} at {' '.join(map(str, placed.origin))}"


def print_layout(layout: list[Placed]) -> str:
    """The layout block without its token line."""
    return "\n".join(["layout", *map(print_placed, layout)]) + "\n"
