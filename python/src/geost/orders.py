"""Orders and sides in which a problem may be searched."""

from __future__ import annotations

import itertools
from collections.abc import Callable, Iterator
from dataclasses import dataclass
from typing import cast

from geost.text import (
    Apart,
    Bare,
    Call,
    Compare,
    Expr,
    FieldOf,
    Formula,
    Joined,
    Macro,
    Object,
    Problem,
    Quantified,
    Within,
)
from geost.trees import all_parts


@dataclass(frozen=True)
class Measure:
    """A number for each object; the objects are taken from the least number on."""

    name: str
    of: Callable[[Object], int]


def least_volume(problem: Problem, thing: Object) -> int:
    return min(sum(box.volume() for box in problem.shape(name).boxes) for name in thing.real_shapes)


def longest_side(problem: Problem, thing: Object) -> int:
    return max(max(box.sizes) for name in thing.real_shapes for box in problem.shape(name).boxes)


def count_of_places(thing: Object) -> int:
    count = len(thing.real_shapes)
    for pieces in thing.pieces:
        count *= sum(high - low + 1 for low, high in pieces)
    return count + thing.may_be_absent


def names_in_rules(problem: Problem) -> dict[str, int]:
    """How many rules and macros say each object's name themselves."""
    counts = dict.fromkeys((thing.name for thing in problem.objects), 0)
    bodies = [rule.body for rule in problem.rules if hasattr(rule.body, "__match_args__")] + [
        macro.body for macro in problem.macros
    ]
    for body in bodies:
        said: set[str] = set()
        for part in all_parts(body):  # type: ignore[arg-type]
            match part:
                case FieldOf(owner, _):
                    said.add(owner)
                case Bare(name):
                    said.add(name)
                case Quantified():
                    said.update(part.listed or ())
                    said.add(part.boxes_of or "")
                case Call():
                    pass
        for name in said & counts.keys():
            counts[name] += 1
    return counts


Names = dict[str, str]


def precedences(problem: Problem) -> set[tuple[str, str]]:
    """The pairs of objects of which rules say that the first has a lesser coordinate than the
    second, as far as it is seen in comparisons that stand alone, joined by `and`, or in a macro
    that is called so."""
    macros = {macro.name: macro for macro in problem.macros}
    objects = {thing.name for thing in problem.objects}
    pairs: set[tuple[str, str]] = set()
    for rule in problem.rules:
        pairs |= pairs_of(rule.body, {}, macros)  # type: ignore[arg-type]
    return {
        (one, other) for one, other in pairs if one in objects and other in objects and one != other
    }


def pairs_of(formula: Formula, known: Names, macros: dict[str, Macro]) -> set[tuple[str, str]]:
    """The pairs that a formula says, its parameters standing for the objects that are known."""
    match formula:
        case Joined("and", parts):
            return set().union(*(pairs_of(part, known, macros) for part in parts))
        case Call("@", name, arguments) if name in macros:
            given = [
                known.get(part.name, part.name) if isinstance(part, Bare) else ""
                for part in arguments
            ]
            inside = dict(zip((parameter for parameter, _ in macros[name].parameters), given))
            return pairs_of(macros[name].body, inside, macros)  # type: ignore[arg-type]
        case Compare(left, relation, right) if relation in ("<", "<=", ">", ">="):
            low, high = (left, right) if relation[0] == "<" else (right, left)
            return {
                (one, other)
                for one, place in owners_of_coordinates(low, known, macros)
                for other, same in owners_of_coordinates(high, known, macros)
                if place == same
            }
    return set()


def owners_of_coordinates(
    expr: Expr, known: Names, macros: dict[str, Macro]
) -> set[tuple[str, str]]:
    """The objects whose coordinates an expression has, each with the coordinate."""
    found: set[tuple[str, str]] = set()
    for part in all_parts(expr):
        match part:
            case FieldOf(owner, name) if len(name) == 2 and name[0] == "x" and name[1].isdigit():
                found.add((known.get(owner, owner), name))
            case Call("$", name, arguments) if name in macros:
                given = [
                    known.get(argument.name, argument.name) if isinstance(argument, Bare) else ""
                    for argument in arguments
                ]
                inside = dict(zip((parameter for parameter, _ in macros[name].parameters), given))
                body = cast(Expr, macros[name].body)
                found |= owners_of_coordinates(body, inside, macros)
    return found


def depths(problem: Problem) -> dict[str, int]:
    """How many objects stand before each one at least, by the precedences; chains that run in a
    ring are cut off."""
    found = dict.fromkeys((thing.name for thing in problem.objects), 0)
    pairs = precedences(problem)
    for _ in found:
        for one, other in pairs:
            found[other] = min(len(found), max(found[other], found[one] + 1))
    return found


def value_of(thing: Object, attribute: str) -> int:
    """An object's attribute, which is 0 where it does not list it."""
    return dict(thing.attributes).get(attribute, 0)


def compared_attributes(problem: Problem) -> list[str]:
    """The attributes of which rules compare two objects, and that some object lists."""
    found: list[str] = []
    bodies = [rule.body for rule in problem.rules if not isinstance(rule.body, (Apart, Within))]
    for body in [*bodies, *(macro.body for macro in problem.macros)]:
        for part in all_parts(body):
            match part:
                case Compare(FieldOf(one, name), _, FieldOf(other, same)) if name == same:
                    found += [name] if one != other else []
    listed = problem.attribute_names()
    return [name for name in dict.fromkeys(found) if name in listed]


def by_attribute(attribute: str, sign: int) -> Callable[[Object], int]:
    return lambda thing: sign * value_of(thing, attribute)


def by_range(dimension: int, sign: int) -> Callable[[Object], int]:
    return lambda thing: sign * sum(thing.ranges[dimension])


def measures(problem: Problem) -> Iterator[Measure]:
    """What objects are ordered by, those that help most often first."""
    named = names_in_rules(problem)
    depth = depths(problem)
    yield Measure("largest first", lambda thing: -least_volume(problem, thing))
    yield Measure("what comes before first", lambda thing: depth[thing.name])
    yield Measure("what comes behind first", lambda thing: -depth[thing.name])
    for attribute in dict.fromkeys([*compared_attributes(problem), *problem.attribute_names()]):
        yield Measure(f"greatest {attribute} first", by_attribute(attribute, -1))
        yield Measure(f"least {attribute} first", by_attribute(attribute, 1))
    yield Measure("named by most rules first", lambda thing: -named[thing.name])
    yield Measure("fewest places first", count_of_places)
    for dimension in range(problem.dims):
        yield Measure(f"least x{dimension + 1} first", by_range(dimension, 1))
        yield Measure(f"greatest x{dimension + 1} first", by_range(dimension, -1))
    yield Measure("longest first", lambda thing: -longest_side(problem, thing))
    yield Measure("smallest first", lambda thing: least_volume(problem, thing))


def ordered(problem: Problem, measure: Measure) -> tuple[str, ...]:
    """The objects by a measure, equal ones from the largest on, then as they stand in the text."""
    things = sorted(
        problem.objects, key=lambda thing: (measure.of(thing), -least_volume(problem, thing))
    )
    return tuple(thing.name for thing in things)


def stated_orders(problem: Problem) -> list[tuple[str, tuple[str, ...]]]:
    """The orders that are tried, each once, with their names."""
    file_order = tuple(thing.name for thing in problem.objects)
    orders = [
        ("as stated", problem.search_order()),
        ("file", file_order),
        ("reverse", file_order[::-1]),
    ]
    orders[2:2] = [(measure.name, ordered(problem, measure)) for measure in measures(problem)]
    found: dict[tuple[str, ...], str] = {}
    for name, order in orders:
        found.setdefault(order, name)
    return [(name, order) for order, name in found.items()]


def all_sides(problem: Problem) -> list[tuple[str, ...]]:
    """The sides as stated, then all others, those that differ in few dimensions first."""
    stated = problem.search_sides()
    others = itertools.product(("low", "high"), repeat=problem.dims)
    return sorted(others, key=lambda sides: sum(a != b for a, b in zip(sides, stated)))


# Objects that belong together, one behind the other


def ties(problem: Problem) -> dict[str, list[str]]:
    """The objects with which each one stands alone in a rule, or in a part of it that is joined to
    others by `and`."""
    names = {thing.name for thing in problem.objects}
    found: dict[str, list[str]] = {name: [] for name in names}
    for rule in problem.rules:
        if not isinstance(rule.body, (Apart, Within)):
            for part in conjuncts(rule.body):
                said = list(dict.fromkeys(name for name in names_said(part) if name in names))
                if len(said) == 2:
                    found[said[0]].append(said[1])
                    found[said[1]].append(said[0])
    return found


def conjuncts(formula: Formula) -> tuple[Formula, ...]:
    """The parts of a formula that are joined by `and`, else itself."""
    return formula.parts if isinstance(formula, Joined) and formula.word == "and" else (formula,)


def names_said(formula: Formula) -> Iterator[str]:
    """The names that a formula says itself, without those that quantifiers list."""
    for part in all_parts(formula):
        match part:
            case FieldOf(owner, _):
                yield owner
            case Bare(name):
                yield name


def with_partners(problem: Problem, order: tuple[str, ...]) -> tuple[str, ...]:
    """The order in which right behind each object those stand that it is tied to."""
    tied = ties(problem)
    found: dict[str, None] = {}
    for name in order:
        waiting = [name]
        while waiting:
            taken = waiting.pop()
            if taken not in found:
                found[taken] = None
                waiting.extend(other for other in reversed(tied[taken]) if other not in found)
    return tuple(found)


def in_turns(problem: Problem, order: tuple[str, ...]) -> tuple[str, ...]:
    """The order in which the objects of each list of shapes take turns."""
    groups: dict[tuple[str, ...], list[str]] = {}
    for name in order:
        groups.setdefault(problem.object(name).shapes, []).append(name)
    rounds = itertools.zip_longest(*groups.values())
    return tuple(name for names in rounds for name in names if name is not None)


def interleaved_orders(problem: Problem) -> list[tuple[str, tuple[str, ...]]]:
    """Each stated order with partners behind each other, and with the shapes in turns."""
    stated = stated_orders(problem)
    found: dict[tuple[str, ...], str] = {}
    for name, order in stated:
        found.setdefault(with_partners(problem, order), f"{name}, partners behind each other")
        found.setdefault(in_turns(problem, order), f"{name}, shapes in turns")
    known = {order for _, order in stated}
    return [(name, order) for order, name in found.items() if order not in known]
