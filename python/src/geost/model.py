"""A problem, and what the program answers about it."""

from __future__ import annotations

from collections.abc import Callable, Iterator, Mapping, Sequence
from copy import copy
from dataclasses import replace
from functools import cache
from pathlib import Path

from geost import text as t
from geost.answers import (
    Best,
    Broken,
    Core,
    Loading,
    NoSuchCommand,
    ProgramFailed,
    Solution,
    Status,
    Verdict,
)
from geost.building import Statements
from geost.layouts import Layout, Places, places_of
from geost.parts import at_place
from geost.picture import Broken as BrokenRule
from geost.picture import broken_rules
from geost.portfolio import Options
from geost.program import ANSWERED, BAD_DIMENSION, BAD_WORDS, BUDGET, NO, OUT_OF_TIME, REFUSED
from geost.program import Answer, Program, usual_program
from geost.refused import Lines, refused
from geost.runs import has_z3
from geost.searching import Search, Tell
from geost.shapes import whole
from geost.units import Unit
from geost.where import Where, caller

ENOUGH_STEPS = 10**12
PAGE = 100


@cache
def program_of(named: str) -> Program:
    """The program of a name, which is found once."""
    return Program(named)


class OutOfSteps(TimeoutError):
    """The steps did not suffice for a page of layouts; it goes on behind the token."""

    def __init__(self, steps: int, token: str):
        super().__init__(f"{steps} steps did not suffice for the next page: go on behind {token!r}")
        self.steps, self.token = steps, token


def understood(words: Sequence[str], answered: Answer) -> Answer:
    """An answer that is one, else what is wrong."""
    if answered.status == BAD_WORDS:
        raise NoSuchCommand(f"this program has no command `{words[0]}` ({' '.join(words)})")
    if answered.status == BAD_DIMENSION:
        raise ValueError(f"the problem has no dimension {words[1]}")
    if answered.status not in (ANSWERED, NO, BUDGET, OUT_OF_TIME):
        said = answered.text.strip() or f"status {answered.status}"
        raise ProgramFailed(f"`{' '.join(words)}` ended without an answer: {said}")
    return answered


def layout_block(printed: str) -> str:
    """A layout block of those that `all` prints, without the word that ends the page."""
    lines, _, behind = printed.partition("token ")
    return f"layout\n{lines}token {behind.split()[0]}\n"


def print_fixed(problem: t.Problem, layout: Layout) -> str:
    """The text of the problem in which each object may stand where the layout has it alone, or may
    be absent where that has it so."""
    places = {one.name: one for one in layout.spelled}
    things = tuple(at_place(problem, thing, places[thing.name]) for thing in problem.objects)
    return t.print_problem(replace(problem, objects=things))


class Problem(Statements):
    """Shapes, objects and rules, added one by one. Names may be any text. What is wrong with a
    statement, the program says where it is asked, at the line that made the statement.

    `program` is the program that is asked, in place of the usual one; `unit` the length of a cell,
    in which tables of layouts say lengths.
    """

    def __init__(self, dims: int, program: str | None = None, unit: Unit | None = None):
        super().__init__(dims)
        self.named, self.unit = program, unit
        self._shown: tuple[str, t.Problem] | None = None

    @staticmethod
    def read(file: str | Path, program: str | None = None) -> Problem:
        """The problem of a text file. Names that a comment above an object gives are kept."""
        raw = Path(file).read_bytes()
        return Problem.of_text(raw.decode("utf-8"), str(file), program)

    @staticmethod
    def of_text(source: str, file: str = "the text", program: str | None = None) -> Problem:
        """The problem that a text spells, as the program reads it."""
        raw = source.encode()
        numbered = enumerate(source.splitlines() or [""], 1)
        lines: Lines = [(line, Where(file, number)) for number, line in numbered]
        answered = program_of(program or usual_program()).ask(["show"], raw)
        if answered.status == REFUSED:
            _, place, word = answered.words()
            raise refused(word, int(place), lines, [])
        tree = t.read_problem(answered.text.encode())
        made = Problem(tree.dims, program)
        made.keep_names(tree, source)
        made.take(tree, raw, file)
        return made

    # Layouts

    def layout(self, places: Places) -> Layout:
        """A layout of places, to be judged: of each item its origin, or its shape and its
        origin."""
        return Layout(self, places_of(self, places), where=caller())

    def layout_of(self, block: str) -> Layout:
        """A layout that the program prints."""
        token = block.partition("\ntoken ")[2].split()
        return Layout(self, t.read_layout(block.encode()), token[0] if token else "")

    # Asking the program

    @property
    def program(self) -> Program:
        return program_of(self.named or usual_program())

    def ask(
        self,
        words: Sequence[str],
        seconds: float | None = None,
        behind: str = "",
        made: Where | None = None,
    ) -> Answer:
        """The program's answer about the problem, with a text behind it that was made there.
        Refused where it refuses one of the two."""
        answered = self.program.ask([*words], (self.text() + behind).encode(), seconds)
        if answered.status == REFUSED:
            _, place, word = answered.words()
            layout: Lines = [(behind.removesuffix("\n"), made)] if behind else []
            raise refused(word, int(place), self.lines(), layout)
        return understood(words, answered)

    def shown(self) -> t.Problem:
        """The problem as the program shows it, in the names of the text."""
        text = self.text()
        if self._shown is None or self._shown[0] != text:
            self._shown = text, t.read_problem(self.ask(["show"]).text.encode())
        return self._shown[1]

    def check(self, derivation: str) -> bool:
        """Whether a derivation shows that the problem has no layout, whoever wrote it."""
        return self.ask(["check"], behind=derivation, made=caller()).text == "yes\n"

    def without_layout(self, derive: Callable[[], str], steps: int = 0) -> Solution:
        """The answer that there is no layout, with how its derivation is made."""
        return Solution(Status.NONE, steps=steps, derive=derive, checked=self.check)

    def first(self, steps: int, seconds: float | None = None) -> Solution:
        """The first layout in the stated order within so many steps, as `first` finds it."""
        answered = self.ask(["first", str(whole(steps))], seconds)
        if answered.status == ANSWERED:
            return Solution(Status.LAYOUT, self.layout_of(answered.text), steps)
        if answered.status == NO:
            return self.without_layout(lambda: answered.text, steps)
        return Solution(Status.UNKNOWN, steps=steps)

    def layouts(self, steps: int, page: int = PAGE, behind: str = "") -> Iterator[Layout]:
        """All layouts in the stated order, or those behind a token: page by page, each page within
        so many steps. OutOfSteps where these do not suffice."""
        token = behind
        while True:
            words = ["all", str(whole(page)), str(whole(steps)), *filter(None, [token])]
            answered = self.ask(words)
            blocks = answered.text.split("layout\n")[1:]
            for block in blocks:
                found = self.layout_of(layout_block(block))
                token = found.token
                yield found
            if answered.status == BUDGET:
                raise OutOfSteps(steps, token)
            if not answered.text.endswith("more\n"):
                return

    def judge(self, layout: Layout | str) -> Verdict:
        """Whether a layout keeps every rule, and else each rule that it breaks with the items that
        break it. A layout may be text, as the program prints one."""
        where = (layout.where if isinstance(layout, Layout) else None) or caller()
        block = layout.block() if isinstance(layout, Layout) else layout
        if self.ask(["judge"], behind=block, made=where).status == ANSWERED:
            return Verdict()
        return Verdict(
            tuple(
                Broken(
                    self.rules.of(one.name),
                    tuple(tuple(map(self.objects.of, group)) for group in one.groups),
                    self.where_of("rule", one.name),
                )
                for one in self.broken(t.read_layout(block.encode()))
            )
        )

    def broken(self, layout: Sequence[t.Placed]) -> tuple[BrokenRule, ...]:
        """Every rule that a layout breaks, in the names of the text."""
        return broken_rules(self.program, self.shown(), list(layout))

    def search(
        self,
        seconds: float = 30.0,
        processors: int | None = None,
        progress: Tell | None = None,
        steps: int | None = None,
        with_z3: bool | None = None,
    ) -> Search:
        """Begins to look for a layout by many orders side by side: the search can be waited for,
        awaited and stopped. `progress` is told what is done now, `steps` are those of each first
        search, else as many as fit the problem."""
        asks_z3 = has_z3() if with_z3 is None else with_z3
        return Search(self, Options(seconds, processors or 0, steps, asks_z3), progress)

    def solve(
        self,
        seconds: float = 30.0,
        processors: int | None = None,
        progress: Tell | None = None,
        steps: int | None = None,
        with_z3: bool | None = None,
    ) -> Solution:
        """The layout that the first of many orders finds, judged; or that there is none."""
        return self.search(seconds, processors, progress, steps, with_z3).result()

    def of_rules(self, names: Sequence[str]) -> Problem:
        """The problem with these of its rules alone, by their names in the text."""
        made = copy(self)
        made.statements = [
            one for one in self.statements if one.kind != "rule" or one.name in names
        ]
        return made

    # Commands that not every program knows

    def best(self, dimension: int, steps: int) -> Best:
        """The layout with the least extent in a dimension, and that none has a lesser one."""
        answered = self.ask(["best", str(whole(dimension)), str(whole(steps))])
        if answered.status == BUDGET:
            return Best(Status.UNKNOWN)
        if answered.status == NO:
            return Best(Status.NONE, derive=lambda: answered.text, checked=self.check)
        head, _, rest = answered.text.partition("\n")
        block, _, derivation = rest.partition("none\n")
        layout, said = self.layout_of(block), head.split()[1]
        if said == "-":
            return Best(Status.LAYOUT, None, layout)
        words = ["check_best", str(dimension), said]
        return Best(
            Status.LAYOUT,
            int(said),
            layout,
            derive=lambda: "none\n" + derivation,
            checked=lambda text: self.ask(words, behind=text).text == "yes\n",
        )

    def why(self, steps: int) -> Core:
        """Rules that together refuse all layouts, none of which can be left out."""
        answered = self.ask(["why", str(whole(steps))])
        if answered.status == BUDGET:
            return Core(Status.UNKNOWN)
        if answered.status == NO:
            return Core(Status.LAYOUT, layout=self.layout_of(answered.text))
        front, _, derivation = answered.text.partition("\nnone\n")
        head, *blocks = front.split("\nwithout ")
        names = [line.split()[1] for line in head.splitlines()[1:]]
        without = dict(block.split("\n", 1) for block in blocks)
        return Core(
            Status.NONE,
            tuple(map(self.rules.of, names)),
            {self.rules.of(name): self.layout_of(f"{without[name]}\n") for name in names},
            wheres={self.rules.of(name): self.where_of("rule", name) for name in names},
            derive=lambda: "none\n" + derivation,
            checked=lambda text: self.of_rules(names).check(text),
        )

    def load(self, layout: Layout, dimension: int) -> Loading:
        """An order in which the items come in along a dimension from its high side, or a ring of
        items of which each blocks the next."""
        where = layout.where or caller()
        words = ["load", str(whole(dimension))]
        answered = self.ask(words, behind=layout.block(), made=where)
        head, *names = answered.text.split()
        items = tuple(map(self.objects.of, names))
        return Loading(order=items) if head == "order" else Loading(cycle=items)

    def json(self) -> str:
        """The problem as JSON, as the program prints it."""
        return self.ask(["to_json"]).text

    def layout_json(self, layout: Layout) -> str:
        """A layout as JSON, as the program prints the first layout of the problem in which each
        item has one place."""
        fixed = print_fixed(self.shown(), layout)
        told = understood(["to_json"], self.program.ask(["to_json"], fixed.encode()))
        words = ["first_json", str(ENOUGH_STEPS)]
        answered = understood(words, self.program.ask(words, told.text.encode()))
        if answered.status != ANSWERED:
            raise ValueError("the layout breaks a rule, and so is none that the program prints")
        return answered.text
