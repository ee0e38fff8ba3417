"""How a problem is searched again and again: each strategy asks for a search, is sent what came of
it, and asks for the next one."""

from __future__ import annotations

import random
from collections.abc import Generator
from dataclasses import dataclass, replace

from geost.candidates import Candidate
from geost.cubes import MOST_RULES, conjunction, fresh_name
from geost.parts import at_place, is_fixed, left_out, with_objects
from geost.runs import Outcome, Verdict
from geost.text import Placed, Problem, Rule, read_layout

GROWTH = 4
MOST_STEPS = 10**12
SLOW_GROWTH = 1.2
MOST_LOOSE = 12
PATIENCE = 6


@dataclass(frozen=True)
class Effort:
    """The steps and the processor seconds of a search."""

    steps: int
    seconds: float

    def times(self, factor: float) -> Effort:
        return Effort(min(round(self.steps * factor), MOST_STEPS), self.seconds * factor)


@dataclass(frozen=True)
class Search:
    """A search for a layout. Where it `is_stated`, its problem is that of the way; else it has a
    part of the objects, or some of them stay where an earlier search has placed them."""

    way: Candidate
    problem: Problem
    effort: Effort
    is_stated: bool = False
    by_z3: bool = False

    def said(self) -> str:
        if self.by_z3:
            return "proposed by z3"
        if self.is_stated:
            return f"by first {self.effort.steps} in the order {self.way.name}"
        return f"by placing parts of a layout anew, from the order {self.way.name}"


Strategy = Generator[Search, Outcome, None]


def repeated(problem: Problem, way: Candidate, effort: Effort) -> Strategy:
    """The whole problem, each time with more steps."""
    made = way.of(problem)
    while True:
        outcome = yield Search(way, made, effort, True)
        if not outcome.is_open():
            return
        effort = effort.times(GROWTH)


def proposed(problem: Problem, way: Candidate, seconds: float) -> Strategy:
    """One proposal of z3 for the problem as stated."""
    yield Search(way, problem, Effort(0, seconds), by_z3=True)


def movable(problem: Problem) -> list[str]:
    """The objects in the search's order, without those that have one place alone."""
    fixed = {thing.name for thing in problem.objects if is_fixed(thing)}
    return [name for name in problem.search_order() if name not in fixed]


def only(problem: Problem, names: set[str]) -> Problem:
    """The problem with these of its movable objects."""
    return with_objects(
        problem, names | {thing.name for thing in problem.objects if is_fixed(thing)}
    )


# Moving the object that fails forward


def learning(problem: Problem, way: Candidate, effort: Effort) -> Strategy:
    """The whole problem; then again with the object earlier in the order that is the first with
    which no layout is found, and so on."""
    while True:
        made = way.of(problem)
        outcome = yield Search(way, made, effort, True)
        if not outcome.is_open():
            return
        names = movable(made)
        failing = yield from first_failing(way, made, names, effort)
        way = moved_forward(way, names, failing)
        effort = effort.times(SLOW_GROWTH)


def first_failing(
    way: Candidate, made: Problem, names: list[str], effort: Effort
) -> Generator[Search, Outcome, int]:
    """The place in the order of the first object with which no layout is found, by halves."""
    reached, failed = 0, len(names)
    while failed - reached > 1:
        count = (reached + failed) // 2
        outcome = yield Search(way, only(made, set(names[:count])), effort)
        if outcome.verdict is Verdict.LAYOUT:
            reached = count
        else:
            failed = count
    return reached


def moved_forward(way: Candidate, names: list[str], failing: int) -> Candidate:
    """The way with an object of the order half as far behind."""
    name = names[failing]
    before = names[failing // 2]
    order = [other for other in way.order if other != name]
    order.insert(order.index(before) if before != name else 0, name)
    head = way.name.partition(", learned")[0]
    return replace(way, name=f"{head}, learned: {name} earlier", order=tuple(order))


# Keeping most of a layout, and placing the rest anew


@dataclass
class Repair:
    """A layout of some objects, which grows: some of them are loose while others are added."""

    way: Candidate
    made: Problem
    chance: random.Random
    placed: dict[str, Placed]
    waiting: list[str]
    batch: int
    loose: int = 0
    failures: int = 0

    def names_of_round(self) -> tuple[list[str], set[str]]:
        """The objects that are added, and those that may be placed anew."""
        added = self.waiting[: self.batch]
        return added, set(self.neighbours(min(self.loose, len(self.placed))))

    def neighbours(self, count: int) -> list[str]:
        """So many placed objects: by chance half of the times, else those nearest to one of
        them."""
        names = list(self.placed)
        self.chance.shuffle(names)
        if self.chance.random() < 0.5 or not names:
            return names[:count]
        middle = self.placed[names[0]].origin
        return sorted(names, key=lambda name: distance(self.placed[name].origin, middle))[:count]

    def part(self, added: list[str], loose: set[str]) -> Problem:
        """The problem of the placed and the added objects, where all but the loose ones stay."""
        part = only(self.made, set(self.placed) | set(added))
        kept = {name: placed for name, placed in self.placed.items() if name not in loose}
        things = tuple(
            at_place(part, thing, kept[thing.name]) if thing.name in kept else thing
            for thing in part.objects
        )
        rules, said = part.rules, left_out(kept.values())
        if said and len(rules) < MOST_RULES:
            name = fresh_name("left_out", {rule.name for rule in rules})
            rules = (*rules, Rule(name, conjunction(said)))
        rest = [name for name in part.search_order() if name not in added]
        return replace(part, objects=things, rules=rules, order=(*added, *rest))

    def take(self, outcome: Outcome, added: list[str]) -> None:
        """Takes over a layout that was found, or tries fewer objects, or more loose ones."""
        if outcome.verdict is Verdict.LAYOUT:
            layout = read_layout(outcome.text.encode())
            movable_ones = set(self.placed) | set(added)
            self.placed = {placed.name: placed for placed in layout if placed.name in movable_ones}
            self.waiting = self.waiting[len(added) :]
            self.batch, self.loose, self.failures = 2 * self.batch, 0, 0
        elif self.batch > 1:
            self.batch = max(1, len(added) // 2)
        else:
            self.failures += 1
            self.loose = min(self.loose + 2, MOST_LOOSE)
            if self.failures % PATIENCE == 0:
                self.give_way()

    def give_way(self) -> None:
        """Takes the neighbours of some object out of the layout; they come behind what waits."""
        gone = self.neighbours(max(1, len(self.placed) // 5))
        self.placed = {name: placed for name, placed in self.placed.items() if name not in gone}
        self.waiting = [*self.waiting[:1], *gone, *self.waiting[1:]]
        self.loose = 0


def distance(one: tuple[int, ...], other: tuple[int, ...]) -> int:
    return sum(abs(a - b) for a, b in zip(one, other))


def repairing(problem: Problem, way: Candidate, effort: Effort, seed: int) -> Strategy:
    """A layout of ever more objects: most of them stay where they are while others are placed."""
    made = way.of(problem)
    names = movable(made)
    repair = Repair(way, made, random.Random(seed), {}, names, len(names))
    while True:
        added, loose = repair.names_of_round()
        outcome = yield Search(way, repair.part(added, loose), effort)
        repair.take(outcome, added)
        if not repair.waiting:
            return
        effort = effort.times(1 if outcome.verdict is Verdict.LAYOUT else 1.02)
