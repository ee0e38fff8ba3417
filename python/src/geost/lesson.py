"""What there is to say where the steps of a search did not suffice.

Each sentence is an answer of the program, to the problem with less in it or searched in another
way, and is said as soon as it is known.
"""

from __future__ import annotations

import itertools
import time
from collections.abc import Iterator
from dataclasses import dataclass, field
from typing import TypeVar

from geost.candidates import Candidate, candidates
from geost.orders import ties, value_of
from geost.parts import is_fixed, with_objects, without_rule
from geost.portfolio import Options, Portfolio
from geost.program import Program
from geost.runs import (
    NO_LAYOUT,
    Limits,
    Outcome,
    Progress,
    Task,
    Verdict,
    has_z3,
    judged_layout,
    search_each,
)
from geost.text import Problem

MOST_WAYS = 40
MOST_STATEMENTS = 4
MOST_IN_A_GROUP = 12
RUNS_IN_A_ROW = 8
What = TypeVar("What")


@dataclass(frozen=True)
class Bounds:
    """The steps of each search, the seconds of all of them, and how many go on side by side."""

    steps: int
    seconds: float
    processors: int


@dataclass(frozen=True)
class Reached:
    """How many objects of the order have a layout, the least number for which none was found, and
    what the search for these ended with. They are no neighbours where the time was over."""

    found: int
    failed: int
    outcome: Outcome


@dataclass
class Lesson:
    """A problem whose first layout was not found within steps; the file has it."""

    program: Program
    problem: Problem
    bounds: Bounds
    file: str
    said: set[str] = field(default_factory=set)
    progress: Progress = field(default_factory=Progress)
    began: float = field(default_factory=time.monotonic)

    def lines(self) -> Iterator[str]:
        """How far the search comes, what stands in the way, and which way does better."""
        reached = self.how_far()
        yield from self.said_how_far(reached)
        yield from self.groups_without_a_layout()
        yield from self.rules_in_the_way(reached)
        yield from self.better_way()

    def searched(self, what: str, share: float, tasks: list[Task[What]]) -> dict[What, Outcome]:
        """The outcomes of tasks within a share of all seconds, without those that come too late."""
        until = time.monotonic() + min(self.left(), share * self.bounds.seconds)
        limits = Limits(self.bounds.steps, self.bounds.seconds / RUNS_IN_A_ROW, until)
        found: dict[What, Outcome] = {}
        for key, outcome in search_each(self.program, self.bounds.processors, limits, tasks):
            found[key] = outcome
            self.progress.show(f"{what}: {len(found)} of {len(tasks)}")
        self.progress.end()
        return found

    # How far the search comes

    def names(self) -> list[str]:
        """The objects in the search's order, without those that have one place alone."""
        fixed = {thing.name for thing in self.problem.objects if is_fixed(thing)}
        return [name for name in self.problem.search_order() if name not in fixed]

    def first(self, count: int) -> Problem:
        """The first objects of the order, and those that have one place alone."""
        left_out = set(self.names()[count:])
        kept = {thing.name for thing in self.problem.objects} - left_out
        return with_objects(self.problem, kept)

    def how_far(self) -> Reached:
        """The first object with which no layout is found, as near as the time allows."""
        reached = Reached(0, len(self.names()), Outcome(Verdict.BUDGET))
        while reached.failed - reached.found > 1:
            further = self.looked_between(reached)
            if further == reached:
                break
            reached = further
        return reached

    def looked_between(self, reached: Reached) -> Reached:
        counts = spread(reached.found, reached.failed, self.bounds.processors)
        what = f"the first {counts[0]} to {counts[-1]} objects"
        outcomes = self.searched(what, 0.05, [Task(count, self.first(count)) for count in counts])
        good = [count for count in outcomes if outcomes[count].verdict is Verdict.LAYOUT]
        found = max([reached.found, *good])
        bad = [count for count in outcomes if count > found]
        if not bad:
            return Reached(found, reached.failed, reached.outcome)
        return Reached(found, min(bad), outcomes[min(bad)])

    def said_how_far(self, reached: Reached) -> Iterator[str]:
        names = self.names()
        who = f"the first {reached.found} of the {len(names)} objects of the order"
        yield f"{who} {self.have_a_layout()}"
        if reached.failed > reached.found + 1:
            yield f"for the first {reached.failed} none was found in time"
            return
        with_next = f"with `{names[reached.found]}`, the next one,"
        if reached.outcome.verdict is Verdict.NONE:
            yield f"{with_next} there is none at all"
        elif reached.outcome.verdict is Verdict.TIME:
            yield f"{with_next} none is found in {reached.outcome.seconds:.0f} s"
        else:
            yield f"{with_next} none is found within them"

    def have_a_layout(self) -> str:
        return f"have a layout within {self.bounds.steps} steps"

    # Which objects and rules stand in the way

    def groups_without_a_layout(self) -> Iterator[str]:
        """The smallest group of objects that belong together and have no layout by themselves."""
        groups = groups_of(self.problem)
        tasks = [Task(group, self.only(group)) for group in groups]
        outcomes = self.searched("groups of objects", 0.05, tasks)
        empty = [group for group in groups if self.has_none(outcomes, group)]
        if empty:
            least = min(empty, key=len)
            yield f"these objects alone have no layout: {', '.join(sorted(least))}"

    def only(self, group: frozenset[str]) -> Problem:
        fixed = {thing.name for thing in self.problem.objects if is_fixed(thing)}
        return with_objects(self.problem, group | fixed)

    def has_none(self, outcomes: dict[What, Outcome], key: What) -> bool:
        return key in outcomes and outcomes[key].verdict is Verdict.NONE

    def rules_in_the_way(self, reached: Reached) -> Iterator[str]:
        """Without which rule there is a layout: of all objects, else of the first that fail."""
        outcomes = self.without_each_rule(self.problem)
        helpful = self.with_layouts(outcomes)
        self.said.update(helpful)
        for name in helpful:
            yield f"without the rule `{name}` all objects {self.have_a_layout()}"
        if helpful:
            return
        if outcomes:
            yield f"without any one of {len(outcomes)} rules no layout of all is found within them"
        if reached.failed < len(self.names()):
            who = f"the first {reached.failed} objects"
            for name in self.with_layouts(self.without_each_rule(self.first(reached.failed))):
                yield f"without the rule `{name}` {who} {self.have_a_layout()}"

    def without_each_rule(self, problem: Problem) -> dict[str, Outcome]:
        tasks = [Task(rule.name, without_rule(problem, rule.name)) for rule in problem.rules]
        return self.searched("without a rule", 0.1, tasks)

    def with_layouts(self, outcomes: dict[str, Outcome]) -> list[str]:
        """The rules of these outcomes, in the sequence of the text, without which one is found."""
        names = [rule.name for rule in self.problem.rules if rule.name in outcomes]
        return [name for name in names if outcomes[name].verdict is Verdict.LAYOUT]

    # Which way does better, and what to try next

    def better_way(self) -> Iterator[str]:
        """The first of other orders, sides and narrower problems in which a layout is found."""
        ways = list(itertools.islice(candidates(self.problem), 1, MOST_WAYS))
        tasks = [Task(way, way.of(self.problem)) for way in ways]
        outcomes = self.searched("other ways", 0.1, tasks)
        found = [way for way in ways if way in outcomes and self.has_layout(outcomes[way])]
        if found:
            yield from self.said_way(min(found, key=lambda way: way.is_narrower))
            return
        if outcomes:
            yield f"in {len(outcomes)} other orders and ways none is found within them"
        yield from self.longer()

    def longer(self) -> Iterator[str]:
        """What the ways of tools/portfolio find of the whole problem, else what z3 and they find of
        the problem without each of its rules."""
        portfolio = self.portfolio(self.problem, self.left() / 3)
        found = portfolio.run()
        self.progress.end()
        if found is not None and found.layout is not None:
            yield f"tools/portfolio finds a layout, {found.search.said()}; judged good"
            yield f"next: tools/portfolio --write {self.file}"
            return
        if NO_LAYOUT in portfolio.said_by_z3:
            yield portfolio.said_by_z3
        yield from self.rules_by_portfolio()
        yield f"next: tools/portfolio --seconds 60 {self.file} tries more ways, and for longer;"
        yield "docs/SPEED.md says what makes such problems easy"

    def rules_by_portfolio(self) -> Iterator[str]:
        """Without which rules, of those not said yet, the ways of tools/portfolio find a layout:
        each is tried for a moment, and what is open then for longer."""
        waiting = [rule.name for rule in self.problem.rules if rule.name not in self.said]
        for share in (0.4, 1.0):
            names, waiting = waiting, []
            for number, name in enumerate(names):
                seconds = share * self.left() / (len(names) - number)
                found = self.portfolio(without_rule(self.problem, name), seconds).run()
                if found is not None and found.layout is not None:
                    how = found.search.said()
                    yield f"without the rule `{name}` all objects have a layout, {how}; judged good"
                else:
                    waiting.append(name)

    def portfolio(self, problem: Problem, seconds: float) -> Portfolio:
        processors = self.bounds.processors
        options = Options(seconds, processors, with_z3=has_z3(), ends_with_z3=True)
        return Portfolio(self.program, problem, options)

    def left(self) -> float:
        return max(0.0, self.began + self.bounds.seconds - time.monotonic())

    def has_layout(self, outcome: Outcome) -> bool:
        """Whether a layout was found that is one of the problem itself."""
        return judged_layout(self.program, self.problem, outcome) is not None

    def said_way(self, way: Candidate) -> Iterator[str]:
        yield f"a layout is found within them, and judged good, in another way: {way.name}"
        yield f"next: tools/portfolio --write {self.file} writes such a way into the file:"
        statements = way.statements(self.problem)
        yield from (f"    {line}" for line in statements[:MOST_STATEMENTS])
        if len(statements) > MOST_STATEMENTS:
            yield f"    and {len(statements) - MOST_STATEMENTS} more such statements"


def groups_of(problem: Problem) -> list[frozenset[str]]:
    """Few objects that belong together: those that a rule names with another, with what these are
    named with; those of each value of an attribute; and both."""
    tied = ties(problem)
    named = [frozenset([name, *others]) for name, others in tied.items() if others]
    found: dict[frozenset[str], None] = dict.fromkeys(named)
    for attribute in problem.attribute_names():
        for value in {value_of(thing, attribute) for thing in problem.objects} - {0}:
            alike = {thing.name for thing in problem.objects if value_of(thing, attribute) == value}
            found[frozenset(alike)] = None
            found[frozenset(alike.union(*(tied[name] for name in alike)))] = None
    return [group for group in found if 1 < len(group) <= MOST_IN_A_GROUP]


def spread(low: int, high: int, count: int) -> list[int]:
    """Up to so many numbers between two others, as evenly as they go."""
    parts = min(count, high - low - 1) + 1
    return [low + (high - low) * part // parts for part in range(1, parts)]
