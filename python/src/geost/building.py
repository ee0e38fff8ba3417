"""The statements of a problem, with names of the data and where each was made."""

from __future__ import annotations

from collections.abc import Iterable, Iterator, Mapping, Sequence
from dataclasses import dataclass
from itertools import count
from pathlib import Path
from typing import Any

from geost import text as t
from geost.edit import statements_of
from geost.formula import Macro, Rule, Thing, owner_of
from geost.layouts import Placed
from geost.names import Names, name_for, unused
from geost.refused import Lines
from geost.rows import names_in, words_in
from geost.shapes import box_of, numbers, turned, whole
from geost.spelling import Spelling
from geost.where import Where, caller

Range = tuple[int, int] | int
Pieces = Range | list[Range]
DIMENSIONS_OF_THE_FIRST = 4
KINDS = ("shape", "object", "macro", "order", "sides", "rule")


@dataclass(frozen=True)
class Ready:
    """A rule with its name, as `geost.rules` makes them."""

    name: str
    body: Rule


@dataclass(frozen=True)
class Statement:
    """A statement: its kind, its name in the text, its letters, and where it was made."""

    kind: str
    name: str
    text: str
    where: Where | None


def pieces_of(given: Pieces) -> tuple[t.Range, ...]:
    """The pieces of a range."""
    return tuple(map(piece_of, given if isinstance(given, list) else [given]))


def piece_of(given: Range) -> t.Range:
    found = numbers(given) if isinstance(given, tuple) else (whole(given),) * 2
    return found[0], found[-1]


class Statements:
    """Shapes, objects and rules, added one by one. Names may be any text. What is wrong with a
    statement, the program says where it is asked, at the line that made the statement."""

    def __init__(self, dims: int):
        self.dims = whole(dims)
        self.shapes, self.objects, self.rules = Names(), Names(), Names()
        self.attributes, self.macros = Names(is_attribute=True), Names()
        self.words: dict[str, dict[str, int]] = {}
        self.statements: list[Statement] = []
        self._shapes: dict[str, t.Shape] = {}
        self._objects: dict[str, t.Object] = {}
        self._rooms: tuple[t.Rule, ...] = ()
        self._called: dict[Macro[Any], str] = {}
        self._order: tuple[str, ...] | None = None
        self._sides: tuple[str, ...] | None = None
        self._version = 1
        self._began = caller()

    # Building

    def _add(self, kind: str, name: str, text: str, where: Where | None) -> None:
        self.statements.append(Statement(kind, name, text, where or caller()))

    def where_of(self, kind: str, name: str) -> Where | None:
        """Where the statement was made that has this name in the text."""
        found = (one.where for one in self.statements if (one.kind, one.name) == (kind, name))
        return next(found, None)

    def shape(self, name: str, *boxes: Sequence[object] | t.Box, where: Where | None = None) -> str:
        """A shape of boxes: each is its sizes, or a pair of offsets and sizes. Gives its name."""
        spelled = self.shapes.spell(name)
        made = t.Shape(spelled, tuple(map(box_of, boxes)))
        self._shapes.setdefault(spelled, made)
        self._add("shape", spelled, t.print_shape(made), where)
        return name

    def shapes_turned(
        self, name: str, *boxes: Sequence[object] | t.Box, turns: str | Iterable[int] = "any"
    ) -> list[str]:
        """A shape for each form that quarters about these axes give of the boxes; their names."""
        forms = turned(tuple(map(box_of, boxes)), turns)
        names = [name, *(f"{name} {number}" for number in range(2, len(forms) + 1))]
        return [self.shape(form_name, *form) for form_name, form in zip(names, forms)]

    def object(
        self,
        name: str,
        shapes: str | Iterable[str],
        ranges: Iterable[Pieces],
        attributes: Mapping[str, int] | None = None,
        where: Where | None = None,
        may_be_absent: bool = False,
        **more: int,
    ) -> Thing:
        """An object with the shapes that it may take, the ranges of its origin, and its attributes.
        A range is its first and last number, or the one number that it may be, or a list of such
        pieces. One that `may_be_absent` may be left out. Gives the object for rules."""
        taken = (shapes,) if isinstance(shapes, str) else shapes
        listed = {**(attributes or {}), **more}
        made = t.Object(
            self.objects.spell(name),
            (*map(self.shapes.spell, taken), *([t.ABSENT] if may_be_absent else [])),
            tuple(map(pieces_of, ranges)),
            tuple((self.attributes.spell(one), whole(value)) for one, value in listed.items()),
        )
        self._objects.setdefault(made.name, made)
        self._add("object", made.name, t.print_object(made), where)
        return Thing(name)

    def rule(self, name: str, body: Rule | str, where: Where | None = None) -> None:
        """A rule: a Python expression, or text of the format, which has the names of the text."""
        spelled = self.rules.spell(name)
        if isinstance(body, str):
            if ";" in body:
                raise ValueError("a rule is one formula: give each rule by itself, without `;`")
            self._add("rule", spelled, f"rule {spelled} : {body.strip()}\n;", where)
            return
        if not isinstance(body, Rule):
            raise TypeError(f"{body!r} is no rule")
        node = self._spelling().body(body.node)
        made = t.Rule(spelled, node)
        if isinstance(node, t.Within):
            self._rooms = (*self._rooms, made)
        self._add("rule", spelled, t.print_rule(made), where or body.where)

    def add(self, *rules: Ready | Rule) -> None:
        """Rules that have names, as those of `geost.rules`; one without gets its number."""
        for rule in rules:
            if isinstance(rule, Ready):
                self.rule(rule.name, rule.body)
            else:
                numbered = (f"rule_{number}" for number in count(1))
                self.rule(next(name for name in numbered if name not in self.rules.spelled), rule)

    def macro(self, statement: str, where: Where | None = None) -> None:
        """A macro as text of the format, such as `low(p : object) means p.x3 = 0`."""
        body = statement.strip().removeprefix("macro ").removesuffix(";").strip()
        name = body.partition("(")[0].strip()
        self.macros.keep(name, name)
        self._add("macro", name, f"macro {body}\n;", where)

    def _spelling(self) -> Spelling:
        return Spelling(self.objects, self.shapes, self.attributes, self._macro)

    def _macro(self, macro: Macro[Any]) -> str:
        """The name of a macro in this problem, which has it from the first call on."""
        if macro not in self._called:
            name = unused(name_for(macro.name, False), self.macros.given)
            self.macros.keep(f"{macro.name} of {macro.where}", name)
            statement = t.print_macro(self._spelling().statement(macro, name))
            made = macro.made()
            where = made.where if isinstance(made, Rule) else macro.where
            self._add("macro", name, statement, where)
            self._called[macro] = name
        return self._called[macro]

    @property
    def order(self) -> tuple[str, ...]:
        """The objects in the order of the search: as it was set, else as they were made."""
        return tuple(map(self.objects.of, self._objects)) if self._order is None else self._order

    @order.setter
    def order(self, names: Iterable[str | Thing]) -> None:
        given = [str(owner_of(name)) for name in names]
        self._order = tuple(given)
        self._set("order", ", ".join(map(self.objects.spell, given)))

    @property
    def sides(self) -> tuple[str, ...]:
        """From which end each dimension is searched, `low` or `high`."""
        return ("low",) * self.dims if self._sides is None else self._sides

    @sides.setter
    def sides(self, sides: Iterable[str]) -> None:
        self._sides = tuple(sides)
        self._set("sides", " ".join(self._sides))

    def _set(self, kind: str, said: str) -> None:
        self.statements = [one for one in self.statements if one.kind != kind]
        self._add(kind, "", f"{kind} {said} ;", None)

    # As text

    def lines(self) -> Lines:
        """The lines of the text, each with where it was made. Comments have the names of the data,
        where some differ, as `tools/csv` writes and reads them."""
        differ = any(given != spelled for given, spelled in self.objects.spelled.items())
        found: Lines = [(f"geost {self.version()} dims {self.dims}", self._began)]
        found += [(line, None) for line in self._legends()]
        for kind in KINDS:
            for one in (one for one in self.statements if one.kind == kind):
                if kind == "object" and differ:
                    given = self.objects.of(one.name)
                    found.append((f"# {' '.join(given.split())}", one.where))
                found.append((one.text, one.where))
        return [*found, ("end", self._began)]

    def _legends(self) -> Iterator[str]:
        for attribute, known in self.words.items():
            for word, number in known.items():
                spelled = self.attributes.spell(attribute)
                yield f"# word of {spelled}: {number} = {' '.join(word.split())}"

    def text(self) -> str:
        """The problem as text."""
        return "".join(f"{line}\n" for line, _ in self.lines())

    def save(self, file: str | Path) -> None:
        """Writes the problem as text, which the program and the scripts read."""
        Path(file).write_text(self.text(), encoding="utf-8")

    def keep_names(self, tree: t.Problem, source: str) -> None:
        """The names that comments give, where they name one object each."""
        said = names_in(source)
        titles = list(said.values())
        for thing in tree.objects:
            title = said.get(thing.name, thing.name)
            is_one = titles.count(title) == 1 and title not in self.objects.spelled
            self.objects.keep(title if is_one else thing.name, thing.name)
        for (attribute, number), word in words_in(source).items():
            self.words.setdefault(attribute, {})[word] = number

    def take(self, tree: t.Problem, raw: bytes, file: str) -> None:
        """The statements of a tree, each where the text has it."""
        places = {
            (one.keyword, one.name): Where(file, raw.count(b"\n", 0, one.start) + 1)
            for one in statements_of(raw)
        }
        self._shapes = {self._known(self.shapes, one.name): one for one in tree.shapes}
        self._objects = {one.name: one for one in tree.objects}
        for one in tree.macros:
            self._known(self.macros, one.name)
        for rule in tree.rules:
            self._known(self.rules, rule.name)
        self._rooms = tuple(rule for rule in tree.rules if isinstance(rule.body, t.Within))
        for attribute in tree.attribute_names():
            self._known(self.attributes, attribute)
        if tree.order:
            self._order = tuple(map(self.objects.of, tree.order))
        if tree.sides:
            self._sides = tree.sides
        self._version = tree.version
        for line in list(t.statements(tree))[1:-1]:
            kind, name = line.split(maxsplit=2)[:2]
            key = name.partition("(")[0] if kind in ("shape", "object", "macro", "rule") else ""
            self._add(kind, key, line, places.get((kind, key)))

    @staticmethod
    def _known(names: Names, name: str) -> str:
        names.keep(name, name)
        return name

    # Layouts

    def tree(self) -> t.Problem:
        """The shapes and objects, and the rules that are ranges of all cells, in the names of the
        text."""
        shapes, things = tuple(self._shapes.values()), tuple(self._objects.values())
        return t.Problem(self.dims, shapes, things, (), self._rooms, version=self.version())

    def version(self) -> int:
        """The version of the format: the second, where the first does not suffice or a text of the
        second was taken over."""
        things = self._objects.values()
        holes = any(len(one) > 1 for thing in things for one in thing.pieces)
        optional = any(thing.may_be_absent for thing in things)
        needed = holes or optional or self.dims > DIMENSIONS_OF_THE_FIRST
        return t.SECOND_VERSION if needed else self._version

    def placed(self, one: t.Placed) -> Placed:
        """A line of a layout in the names of the data."""
        shape, thing = self._shapes.get(one.shape), self._objects.get(one.name)
        boxes = tuple(
            t.Box(tuple(o + x for o, x in zip(box.offsets, one.origin)), box.sizes)
            for box in (shape.boxes if shape else ())
        )
        listed = thing.attributes if thing else ()
        attributes = {self.attributes.of(name): value for name, value in listed}
        item = self.objects.of(one.name)
        form = one.shape if one.is_absent else self.shapes.of(one.shape)
        return Placed(item, form, one.origin, boxes, attributes)

    def first_shape(self, spelled: str) -> str:
        """The shape of an object that stands first in its list, in the names of the text."""
        thing = self._objects.get(spelled)
        return thing.shapes[0] if thing else spelled
