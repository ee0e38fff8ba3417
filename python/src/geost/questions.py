"""Asks the program whether many formulas hold on one layout, in few runs.

A run is a problem in which every object may only stand where the layout has it, or is absent where
that has it so. Beside them stand further objects, with a coordinate for each formula, which is 0 or 1: a rule says that the formula
holds or the coordinate is 0, and the search tries 1 first. So in the first layout the coordinate
is 1 where the formula holds, and 0 where it does not.
"""

from __future__ import annotations

from collections.abc import Iterator, Sequence
from dataclasses import dataclass, replace

from geost.parts import at_place, left_out
from geost.program import ANSWERED, NO, Answer, Program, layout_of
from geost.text import (
    Compare,
    FieldOf,
    Formula,
    Joined,
    Number,
    Object,
    Placed,
    Problem,
    Rule,
    print_layout,
    print_problem,
    whole,
)
from geost.trees import Change, Node, Weights, changed, over_listed, with_formulas

MOST_OBJECTS = 200
MOST_RULES = 100
HEAVIEST_RUN = 200_000
MOST_STEPS = 10**6


class NotAsked(RuntimeError):
    """A part of a rule that is too large to be asked about."""

    def __init__(self, answer: Answer):
        super().__init__(f"the program answers {answer.text.strip()!r} to a part of a rule")


class Questions:
    """Asks formulas of a problem on one layout."""

    def __init__(self, program: Program, problem: Problem, layout: list[Placed]):
        self.program = program
        self.layout = print_layout(layout)
        things = tuple(
            at_place(problem, thing, placed) for thing, placed in zip(problem.objects, layout)
        )
        self.gone = left_out(layout)
        self.names = tuple(thing.name for thing in things)
        self.fixed = replace(problem, objects=things, rules=(), order=(), sides=())
        self.weights = Weights.of_problem(self.fixed)
        self.told, self.change = told_places(self.fixed)

    def ask(self, formulas: list[Formula]) -> list[bool]:
        """Whether each of the formulas holds."""
        return [answer for batch in self.batches(formulas) for answer in self.ask_batch(batch)]

    def batches(self, formulas: list[Formula]) -> Iterator[list[Formula]]:
        """The formulas in their sequence, cut where a run would have too many or too heavy ones."""
        room = max(1, (MOST_OBJECTS - len(self.names)) * self.fixed.dims)
        batch: list[Formula] = []
        heavy = 0
        for formula in formulas:
            weight = self.weights.weight(formula)
            if batch and (len(batch) == room or heavy + weight > HEAVIEST_RUN):
                yield batch
                batch, heavy = [], 0
            batch.append(formula)
            heavy += weight
        if batch:
            yield batch

    def judged(self, formula: Formula) -> bool:
        """Whether a formula holds, where there is no room for further objects."""
        text = print_problem(replace(self.fixed, rules=(Rule("asked", formula),)))
        answer = self.program.judge(text, self.layout)
        if answer.status not in (ANSWERED, NO):
            raise NotAsked(answer)
        return answer.status == ANSWERED

    def ask_batch(self, batch: list[Formula]) -> list[bool]:
        """Whether each of these holds: by one run, or by halves where that is too large."""
        if len(self.names) == MOST_OBJECTS:
            return [self.judged(formula) for formula in batch]
        formulas = [changed(formula, self.change) for formula in batch]
        text = print_problem(asking(self.told, formulas, self.gone))
        answer = self.program.ask(["first", str(MOST_STEPS)], text.encode())
        if answer.status == ANSWERED:
            values = [at for placed in layout_of(answer)[len(self.names) :] for at in placed.origin]
            return [value == 1 for value in values[: len(batch)]]
        if len(batch) == 1:
            raise NotAsked(answer)
        half = len(batch) // 2
        return self.ask_batch(batch[:half]) + self.ask_batch(batch[half:])


def asking(fixed: Problem, formulas: list[Formula], gone: list[Formula]) -> Problem:
    """The problem whose first layout answers the formulas, in coordinates of further objects.
    `gone` says which objects are absent."""
    dims = fixed.dims
    stem = unused("asked", {thing.name for thing in fixed.objects})
    names = [f"{stem}_{number // dims}" for number in range(len(formulas))]
    asked = [
        Joined("or", (Compare(FieldOf(name, f"x{number % dims + 1}"), "=", Number(0)), formula))
        for number, (name, formula) in enumerate(zip(names, formulas))
    ]
    shape, pieces = (fixed.shapes[0].name,), whole(((0, 1),) * dims)
    return replace(
        fixed,
        objects=(*fixed.objects, *(Object(name, shape, pieces) for name in dict.fromkeys(names))),
        rules=tuple(shared_out([*gone, *asked])),
        sides=("high",) * dims,
    )


def told_places(problem: Problem) -> tuple[Problem, Change]:
    """A problem whose objects have one place each, with their coordinates as attributes too, and
    the change by which formulas read these: what is known from the text alone costs the program
    least. Quantifiers list the objects, so that others may stand beside them."""
    names = tuple(thing.name for thing in problem.objects)
    stem = unused("at", set(problem.attribute_names()))
    only_old = over_listed(names)

    def change(node: Node) -> Node:
        if isinstance(node, FieldOf) and node.name in coordinates:
            return FieldOf(node.owner, stem + node.name)
        return only_old(node)

    coordinates = [f"x{dimension}" for dimension in range(1, problem.dims + 1)]
    things = tuple(
        replace(
            thing,
            attributes=(
                *thing.attributes,
                *((stem + name, low) for name, (low, _) in zip(coordinates, thing.ranges)),
            ),
        )
        for thing in problem.objects
    )
    return with_formulas(replace(problem, objects=things), change), change


def shared_out(formulas: Sequence[Formula]) -> Iterator[Rule]:
    """As many rules as there may be, each with about as many of the formulas."""
    each = -(-len(formulas) // MOST_RULES)
    for number in range(0, len(formulas), each):
        part = tuple(formulas[number : number + each])
        yield Rule(f"asked_{number}", Joined("and", part) if len(part) > 1 else part[0])


def unused(stem: str, names: set[str]) -> str:
    """A name with which none of these names begins."""
    while any(name.startswith(stem) for name in names):
        stem += "_"
    return stem
