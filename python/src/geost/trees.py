"""Walking over the formulas of a problem, changing them part by part, and what they weigh."""

from __future__ import annotations

from collections.abc import Callable, Iterator
from dataclasses import dataclass, replace
from typing import cast

from geost.text import (
    Apart,
    Bare,
    Call,
    Chain,
    Compare,
    Expr,
    Extreme,
    FieldOf,
    Formula,
    Joined,
    Macro,
    Negative,
    Not,
    Problem,
    Quantified,
    Rule,
    Truth,
    Within,
)

Node = Formula | Expr
Change = Callable[[Node], Node]


def parts_of(node: Node) -> tuple[Node, ...]:
    """What a formula or an expression is directly made of."""
    match node:
        case Not(inner) | Negative(inner):
            return (inner,)
        case Joined(_, parts):
            return parts
        case Compare(left, _, right) | Extreme(_, left, right):
            return (left, right)
        case Quantified():
            return (node.body,)
        case Call():
            return node.arguments
        case Chain(first, steps):
            return (first, *(part for _, part in steps))
    return ()


def all_parts(node: Node) -> Iterator[Node]:
    yield node
    for part in parts_of(node):
        yield from all_parts(part)


def rebuilt(node: Node, change: Change) -> Node:
    """The same node with each part that it is directly made of changed."""
    match node:
        case Not(inner) | Negative(inner):
            return replace(node, inner=change(inner))
        case Joined(_, parts):
            return replace(node, parts=tuple(change(part) for part in parts))
        case Compare(left, _, right) | Extreme(_, left, right):
            return replace(node, left=change(left), right=change(right))
        case Quantified():
            return replace(node, body=change(node.body))
        case Call():
            return replace(node, arguments=tuple(change(part) for part in node.arguments))
        case Chain(first, steps):
            later = tuple((mark, cast(Expr, change(part))) for mark, part in steps)
            return Chain(cast(Expr, change(first)), later)
    return node


def mapped(node: Node, change: Change) -> Node:
    """The node with `change` done to each of its parts, the innermost first, and to itself."""
    return change(rebuilt(node, lambda part: mapped(part, change)))


def changed(formula: Formula, change: Change) -> Formula:
    """The formula with `change`, which gives formulas for formulas, done to each of its parts."""
    return cast(Formula, mapped(formula, change))


def with_formulas(problem: Problem, change: Change) -> Problem:
    """The problem with `change` done to each part of its rules and macros."""
    rules = tuple(
        rule
        if isinstance(rule.body, (Apart, Within))
        else Rule(rule.name, changed(rule.body, change))
        for rule in problem.rules
    )
    macros = tuple(replace(macro, body=mapped(macro.body, change)) for macro in problem.macros)
    return replace(problem, rules=rules, macros=macros)


def is_over_objects(node: Node) -> bool:
    """Whether it is a quantifier over objects, all or listed ones."""
    return isinstance(node, Quantified) and node.boxes_of is None


def over_listed(names: tuple[str, ...]) -> Change:
    """The change by which a quantifier over all objects lists these, so that there may be
    others."""

    def change(node: Node) -> Node:
        if isinstance(node, Quantified) and is_over_objects(node) and node.listed is None:
            return replace(node, listed=names)
        return node

    return change


# What a formula weighs


@dataclass(frozen=True)
class Weights:
    """How many comparisons the program makes of a formula, about."""

    objects: int
    boxes: int
    macros: dict[str, int]

    @staticmethod
    def of_problem(problem: Problem) -> Weights:
        boxes = max((len(shape.boxes) for shape in problem.shapes), default=1)
        found = Weights(len(problem.objects), boxes, {})
        for macro in problem.macros:
            found.macros[macro.name] = found.weight(macro.body)
        return found

    def weight(self, node: Node) -> int:
        inside = sum(self.weight(part) for part in parts_of(node))
        match node:
            case Quantified(boxes_of=str()):
                return self.boxes * inside
            case Quantified(listed=None):
                return self.objects * inside
            case Quantified(listed=names):
                return len(names or ()) * inside
            case Call(_, name, _):
                return self.macros.get(name, 1) + inside
            case Compare():
                return 1 + inside
        return inside
