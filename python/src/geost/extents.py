"""The least extent that any way of searching leads to: rounds of the portfolio, each of which asks
for a layout that ends before the last one."""

from __future__ import annotations

from collections.abc import Callable
from dataclasses import dataclass, replace

from geost.portfolio import Found, Options, Portfolio, derived
from geost.program import Program
from geost.runs import Progress
from geost.text import (
    Chain,
    Compare,
    FieldOf,
    Number,
    Placed,
    Problem,
    Quantified,
    Rule,
    print_problem,
    read_layout,
)

RULE = "ends_before"


@dataclass(frozen=True)
class Extent:
    """A layout, judged good, and the first number behind its boxes; `ends` is None where it has no
    box. `refutation` is `none` and a derivation that no layout ends before, `is_confirmed` whether
    `check_best` says yes to it; where not, it belongs to the problem with the rule `ends_before`."""

    ends: int | None
    layout: str
    refutation: str = ""
    is_confirmed: bool = False


def end_of(problem: Problem, placed: list[Placed], dimension: int) -> int | None:
    """The first number behind all boxes of a layout in a dimension, from 1."""
    at = dimension - 1
    return max(
        (
            one.origin[at] + box.offsets[at] + box.sizes[at]
            for one in placed
            for box in problem.shape(one.shape).boxes
        ),
        default=None,
    )


def ending_before(problem: Problem, dimension: int, end: int) -> Problem:
    """The problem with one rule more: that no box ends at `end` or behind it."""
    names = {rule.name for rule in problem.rules}
    name = RULE
    while name in names:
        name += "_"
    coordinate = FieldOf("p", f"x{dimension}")
    offset, size = FieldOf("s", f"t{dimension}"), FieldOf("s", f"l{dimension}")
    ends = Chain(coordinate, (("+", offset), ("+", size)))
    inner = Quantified("forall", 0, "s", None, "p", Compare(ends, "<=", Number(end - 1)))
    body = Quantified("forall", 0, "p", None, None, inner)
    return replace(problem, rules=(*problem.rules, Rule(name, body)))


class Rounds:
    """Rounds for the least extent of a problem, within the seconds of the options together."""

    def __init__(
        self,
        program: Program,
        problem: Problem,
        dimension: int,
        options: Options,
        tell: Callable[[str], None],
    ):
        self.program = program
        self.problem = problem
        self.dimension = dimension
        self.options = options
        self.tell = tell
        self.progress = Progress()
        self.best: Extent | None = None

    def run(self) -> Extent | None:
        """The least extent that was found, and why there is none less, where that was found too;
        None where no layout was found. Where there is none, its refutation has no layout."""
        while self.left() > 0 and (self.best is None or self.best.ends is not None):
            asked = self.asked()
            options = replace(self.options, seconds=self.left())
            portfolio = Portfolio(self.program, asked, options, Progress())
            found = portfolio.run()
            portfolio.progress.end()
            if found is None:
                break
            if found.layout is None:
                return self.refuted(asked, found)
            self.keep(found.layout)
        return self.best

    def left(self) -> float:
        return self.options.seconds - self.progress.seconds()

    def asked(self) -> Problem:
        if self.best is None or self.best.ends is None:
            return self.problem
        return ending_before(self.problem, self.dimension, self.best.ends)

    def keep(self, layout: str) -> None:
        ends = end_of(self.problem, read_layout(layout.encode()), self.dimension)
        self.best = Extent(ends, layout)
        said = "has no box" if ends is None else f"ends at {ends}"
        self.tell(f"{self.progress.seconds():.1f} s: a layout {said}")

    def refuted(self, asked: Problem, found: Found) -> Extent:
        """What was found, and behind it the derivation that there is nothing less."""
        text = derived(self.program, asked, found.search.way).text
        if self.best is None or self.best.ends is None:
            return Extent(None, "", text)
        words = ["check_best", str(self.dimension), str(self.best.ends)]
        answer = self.program.ask(words, (print_problem(self.problem) + text).encode())
        return replace(self.best, refutation=text, is_confirmed=answer.text == "yes\n")
