"""Problems with less in them: some of the objects alone, or all rules but one."""

from __future__ import annotations

from collections.abc import Collection, Iterable
from dataclasses import replace

from geost.orders import conjuncts
from geost.text import (
    Apart,
    Bare,
    Call,
    Compare,
    FieldOf,
    Formula,
    Joined,
    Macro,
    Number,
    Object,
    Placed,
    Problem,
    Quantified,
    Rule,
    Truth,
    Within,
    at_origin,
)
from geost.trees import Node, changed, is_over_objects, mapped, parts_of


def is_fixed(thing: Object) -> bool:
    """Whether an object has one shape and one place."""
    return len(thing.shapes) == 1 and all(low == high for low, high in thing.ranges)


def at_place(problem: Problem, thing: Object, placed: Placed) -> Object:
    """The object with this place alone. One that is absent there may still have its shapes, and
    `left_out` says that it has none."""
    if placed.is_absent:
        return replace(thing, pieces=at_origin(problem.first_values(thing)))
    return replace(thing, shapes=(placed.shape,), pieces=at_origin(placed.origin))


def left_out(layout: Iterable[Placed]) -> list[Formula]:
    """That what is absent in a layout is absent."""
    names = [placed.name for placed in layout if placed.is_absent]
    return [Compare(FieldOf(name, "sid"), "=", Number(0)) for name in names]


def without_rule(problem: Problem, name: str) -> Problem:
    return replace(problem, rules=tuple(rule for rule in problem.rules if rule.name != name))


def with_objects(problem: Problem, kept: Collection[str]) -> Problem:
    """The objects that are kept, with what the rules say of them.

    A `forall` or an `atmost` goes over those of its objects that are kept. A rule, or a part of one
    that is joined to others by `and`, is left out where it names another object elsewhere; so is
    one that calls such a macro.
    """
    lost = {thing.name for thing in problem.objects} - set(kept)
    macros: list[Macro] = []
    calls: set[str] = set()
    for macro in problem.macros:
        shorter = replace(macro, body=mapped(macro.body, lambda node: without(node, lost)))
        if names_lost(shorter.body, {name for name, _ in macro.parameters}, lost, calls):
            calls.add(macro.name)
        else:
            macros.append(shorter)
    rules = [Rule(rule.name, kept_body(rule.body, lost, calls)) for rule in problem.rules]
    objects = tuple(thing for thing in problem.objects if thing.name in kept)
    return replace(
        problem,
        objects=with_attributes(objects, problem.attribute_names()),
        macros=tuple(macros),
        rules=tuple(rule for rule in rules if rule.body != Truth(True)),
        order=tuple(name for name in problem.search_order() if name in kept),
    )


def with_attributes(things: tuple[Object, ...], names: list[str]) -> tuple[Object, ...]:
    """The objects, the first with each attribute as 0 that none of them lists."""
    listed = {name for thing in things for name, _ in thing.attributes}
    more = tuple((name, 0) for name in names if name not in listed)
    if not things:
        return things
    return (replace(things[0], attributes=things[0].attributes + more), *things[1:])


def kept_body(
    body: Apart | Within | Formula, lost: set[str], calls: set[str]
) -> Apart | Within | Formula:
    if isinstance(body, (Apart, Within)):
        return body
    shorter = [changed(part, lambda node: without(node, lost)) for part in conjuncts(body)]
    kept = tuple(part for part in shorter if not names_lost(part, set(), lost, calls))
    if len(kept) < 2:
        return kept[0] if kept else Truth(True)
    return Joined("and", kept)


def without(node: Node, lost: set[str]) -> Node:
    """A `forall` or `atmost` over listed objects without the lost ones; other parts as they are."""
    if not (isinstance(node, Quantified) and is_over_objects(node) and node.listed is not None):
        return node
    if node.kind in ("exists", "atleast") or not lost.intersection(node.listed):
        return node
    listed = tuple(name for name in node.listed if name not in lost)
    return replace(node, listed=listed) if listed else Truth(True)


def names_lost(node: Node, hidden: set[str], lost: set[str], calls: set[str]) -> bool:
    """Whether a lost object is named, where no variable has its name, or a macro of these
    called."""
    match node:
        case FieldOf(owner, _) if owner in lost - hidden:
            return True
        case Bare(name) if name in lost - hidden:
            return True
        case Call(_, name, _) if name in calls:
            return True
        case Quantified(boxes_of=str(owner)) if owner in lost - hidden:
            return True
        case Quantified(listed=tuple(names)) if lost.intersection(names):
            return True
    inside = hidden | {node.variable} if isinstance(node, Quantified) else hidden
    return any(names_lost(part, inside, lost, calls) for part in parts_of(node))
