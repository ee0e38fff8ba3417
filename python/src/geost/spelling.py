"""Names of the data in rules, replaced by the names that a problem has for them."""

from __future__ import annotations

from collections.abc import Callable, Iterator, Mapping
from dataclasses import dataclass, replace
from typing import Any, cast

from geost import text as t
from geost.formula import Called, Given, Macro, Value, Variable
from geost.names import Names, name_for, unused
from geost.trees import Node, all_parts, rebuilt

Scope = Mapping[str, str]


@dataclass(frozen=True)
class Spelling:
    """The names of a problem's objects, shapes and attributes, and how a macro is called in it."""

    objects: Names
    shapes: Names
    attributes: Names
    macro: Callable[[Macro[Any]], str]

    def body(self, body: t.Formula | t.Apart | t.Within) -> t.Formula | t.Apart | t.Within:
        """A rule's body in the names of the problem."""
        if isinstance(body, (t.Apart, t.Within)):
            return body
        return cast(t.Formula, self.node(body, {}))

    def statement(self, macro: Macro[Any], name: str) -> t.Macro:
        """The statement of a macro under this name."""
        body = cast(Node, macro.made().node)
        hidden = self.mentioned(body)
        scope: dict[str, str] = {}
        for variable, _ in macro.parameters:
            scope[variable] = fresh(variable, hidden | set(scope.values()))
        parameters = tuple((scope[variable], kind) for variable, kind in macro.parameters)
        word = "is" if isinstance(macro.made(), Value) else "means"
        return t.Macro(name, parameters, word, self.node(body, scope))

    def node(self, node: Node, scope: Scope) -> Node:
        match node:
            case t.FieldOf(owner, name):
                spelled = self.attributes.spell(name) if isinstance(name, Given) else name
                return t.FieldOf(self.owner(owner, scope), spelled)
            case t.Bare(name):
                return t.Bare(self.owner(name, scope))
            case t.ShapeNumber(name):
                return t.ShapeNumber(self.shapes.spell(name) if isinstance(name, Given) else name)
            case t.Quantified():
                return self.quantified(node, scope)
            case t.Call(mark, name, arguments):
                given = tuple(cast(t.Expr, self.node(part, scope)) for part in arguments)
                spelled = self.macro(name.macro) if isinstance(name, Called) else name
                return t.Call(mark, spelled, given)
        return rebuilt(node, lambda part: self.node(part, scope))

    def quantified(self, node: t.Quantified, scope: Scope) -> t.Quantified:
        """A quantifier whose variable hides no object and no variable that its body speaks of."""
        hidden = self.mentioned(node.body) | set(scope.values())
        variable = fresh(node.variable, hidden)
        inside = {**scope, node.variable: variable}
        listed = node.listed and tuple(self.owner(name, scope) for name in node.listed)
        boxes_of = node.boxes_of and self.owner(node.boxes_of, scope)
        body = cast(t.Formula, self.node(node.body, inside))
        return replace(node, variable=variable, listed=listed, boxes_of=boxes_of, body=body)

    def owner(self, name: str, scope: Scope) -> str:
        if isinstance(name, Variable):
            return scope.get(name, name.name)
        return self.objects.spell(name) if isinstance(name, Given) else name

    def mentioned(self, node: Node) -> set[str]:
        """The names of the problem's objects that a part speaks of."""
        return {self.objects.spell(name) for name in given_owners(node)}


def given_owners(node: Node) -> Iterator[Given]:
    for part in all_parts(node):
        names: tuple[str, ...] = ()
        match part:
            case t.FieldOf(owner, _):
                names = (owner,)
            case t.Bare(name):
                names = (name,)
            case t.Quantified():
                names = (*(part.listed or ()), part.boxes_of or "")
        yield from (name for name in names if isinstance(name, Given))


def fresh(variable: str, hidden: set[str]) -> str:
    """A name for a variable that hides none of these."""
    stem = variable.name if isinstance(variable, Variable) else variable
    return unused(name_for(stem, False), hidden)
