"""Looks for a layout in many ways at once: strategies take turns, the one that took least time
first."""

from __future__ import annotations

import heapq
import itertools
import math
import time
from collections.abc import Callable, Iterator
from dataclasses import dataclass, field, replace

from geost.candidates import Candidate, candidates, in_turn, leading_to
from geost.program import Answer, Program
from geost.runs import NO_LAYOUT, Outcome, Progress, Runs, Task, Verdict, judged_layout
from geost.strategies import MOST_STEPS, Effort, Search, Strategy
from geost.strategies import learning, proposed, repairing, repeated
from geost.text import Problem, print_problem, read_layout

GROWTH = 4
PAUSE = 0.004
# the processor seconds that the first search of a way may take, and those that count as short
FIRST_SECONDS = 4.0
SHORT = 0.5
FIRST_WAYS = 8


@dataclass(frozen=True)
class Options:
    """How long is looked for a layout, by how many processors, with how many steps at first
    (or as many as fit the problem), whether z3 is asked, whether a layout has to be found by an
    order that leads to it, and whether the search ends where z3 says that there is none."""

    seconds: float
    processors: int
    steps: int | None = None
    with_z3: bool = False
    only_stated: bool = False
    ends_with_z3: bool = False


@dataclass(order=True)
class Turn:
    """A strategy that waits for its next search; what took much time or came late has to wait
    long."""

    rank: float
    number: int
    strategy: Strategy = field(compare=False)
    search: Search = field(compare=False)
    taken: float = field(compare=False, default=0.0)


@dataclass(frozen=True)
class Found:
    """A layout of the problem and the search that found it; or `none`, where there is no layout."""

    search: Search
    layout: str | None


class Portfolio:
    """Looks for a layout of a problem."""

    def __init__(
        self,
        program: Program,
        problem: Problem,
        options: Options,
        progress: Progress | None = None,
        is_stopped: Callable[[], bool] = lambda: False,
    ):
        self.program = program
        self.is_stopped = is_stopped
        self.problem = problem
        self.options = options
        self.fresh = enumerate(strategies(problem, options))
        self.waiting: list[Turn] = []
        self.tried: dict[str, int] = {}
        self.said_by_z3 = ""
        self.kept: Found | None = None
        self.progress = progress or Progress()
        self.add_fresh()

    def add_fresh(self) -> None:
        """The next strategy that had no search yet joins those that wait."""
        number, strategy = next(self.fresh, (0, None))
        if strategy is not None:
            self.put_back(Turn(rank_of(number, 0.0), number, strategy, next(strategy)))

    def put_back(self, turn: Turn) -> None:
        heapq.heappush(self.waiting, turn)

    def seconds(self) -> float:
        return self.progress.seconds()

    def run(self) -> Found | None:
        """The first layout that is found, or that there is none; None where the time is over."""
        with Runs[Turn](self.program, self.options.processors) as runs:
            while self.goes_on() and (self.waiting or runs.going):
                while self.waiting and runs.has_room():
                    self.start_next(runs)
                for turn, outcome in runs.ended():
                    found = self.found_by(turn, outcome)
                    if found is not None and self.is_enough(found):
                        return found
                    self.go_on(turn, outcome)
                time.sleep(PAUSE)
        return self.kept

    def goes_on(self) -> bool:
        if self.options.ends_with_z3 and NO_LAYOUT in self.said_by_z3:
            return False
        return not self.is_stopped() and self.seconds() < self.options.seconds

    def is_enough(self, found: Found) -> bool:
        """Whether nothing better is to be looked for. A way that is to be written has to lead to a
        layout by itself; where none does, the first layout is kept, and ways like it come next."""
        if found.layout is None or found.search.is_stated or not self.options.only_stated:
            return True
        if self.kept is None:
            self.kept = found
            effort = first_effort(self.problem, self.options)
            for way in leading_to(self.problem, read_layout(found.layout.encode())):
                strategy = repeated(self.problem, way, effort)
                self.put_back(Turn(0.0, 0, strategy, next(strategy), PAUSE))
        return False

    def start_next(self, runs: Runs[Turn]) -> None:
        turn = heapq.heappop(self.waiting)
        if turn.taken == 0.0:
            self.add_fresh()
        search = turn.search
        task = Task(turn, search.problem, search.by_z3)
        runs.start(task, search.effort.steps, search.effort.seconds)
        self.progress.show(f"{len(self.tried)} tried, now {search.way.name}")

    def found_by(self, turn: Turn, outcome: Outcome) -> Found | None:
        search = turn.search
        if search.by_z3:
            self.said_by_z3 = outcome.text.strip()
        else:
            before = self.tried.get(search.way.name, 0)
            self.tried[search.way.name] = max(search.effort.steps, before)
        if len(search.problem.objects) < len(self.problem.objects):
            return None
        if outcome.verdict is Verdict.NONE and search.is_stated and not search.way.is_narrower:
            return Found(search, None)
        layout = judged_layout(self.program, self.problem, outcome)
        return None if layout is None else Found(search, layout)

    def go_on(self, turn: Turn, outcome: Outcome) -> None:
        """The strategy goes on with what came of its search, unless it has ended."""
        try:
            search = turn.strategy.send(outcome)
        except StopIteration:
            return
        taken = turn.taken + max(outcome.seconds, PAUSE)
        self.put_back(Turn(rank_of(turn.number, taken), turn.number, turn.strategy, search, taken))


def derived(program: Program, problem: Problem, way: Candidate) -> Answer:
    """The answer of `first` in the order of a way, which found that there is no layout: `none` with
    its derivation."""
    stated = replace(way, things=())
    return program.ask(["first", str(MOST_STEPS)], print_problem(stated.of(problem)).encode())


def first_effort(problem: Problem, options: Options) -> Effort:
    """Of each first search: twice as many steps as there are variables, and some more, where no
    number is given."""
    variables = len(problem.objects) * (problem.dims + 1)
    return Effort(options.steps or 2 * variables + 100, FIRST_SECONDS)


def rank_of(number: int, taken: float) -> float:
    return math.log(1 + number / 2, GROWTH) + math.log(1 + taken / SHORT, GROWTH)


def strategies(problem: Problem, options: Options) -> Iterator[Strategy]:
    """All ways, each tried again and again; behind the first few also those that learn and repair.
    z3 has a processor of its own, where there are several."""
    effort = first_effort(problem, options)
    if options.with_z3 and options.processors > 1:
        yield proposed(problem, next(candidates(problem)), options.seconds)
    whole, moved, mended = itertools.tee(candidates(problem), 3)
    again = (repeated(problem, way, effort) for way in whole)
    yield from itertools.islice(again, FIRST_WAYS)
    yield from in_turn(
        [
            again,
            (repairing(problem, way, effort, seed) for seed, way in enumerate(mended)),
            (learning(problem, way, effort) for way in moved),
        ]
    )
