"""Which rules of a problem refuse together, in a planner's words, and how little of it is enough: each
step is an answer of the program."""

from __future__ import annotations

import re
import time
from collections.abc import Callable, Iterator, Sequence
from dataclasses import dataclass, field, replace

from geost.orders import conjuncts
from geost.parts import with_objects
from geost.program import NO, Program
from geost.refusals import Source
from geost.runs import Progress
from geost.text import Apart, Formula, Joined, Problem, Rule, Within, print_formula, print_problem

HANDFUL = 8


@dataclass
class Refusing:
    """A problem with the rules of a core alone. `steps` are those of each search, and after
    `seconds` no further one is asked."""

    program: Program
    problem: Problem
    steps: int
    seconds: float
    progress: Progress = field(default_factory=Progress)

    def lines(self, names: Sequence[str], source: Source) -> Iterator[str]:
        """What the rules of these names are, which objects and parts are enough, and a last word on
        how this is known."""
        yield "no layout keeps these rules together; without any one of them there is the one above"
        yield from self.said(names, source)

    def lines_of_a_spent_round(self, source: Source) -> Iterator[str]:
        """The same where a round of the program was spent, but not the first: rules go as long as
        there is no layout without them, and whether each of those that are left is needed is not
        known."""
        if not self.is_none(self.problem):
            return
        names = [rule.name for rule in self.problem.rules]
        left = self.shortened(names, lambda kept: self.is_none(self.of_rules(kept)))
        yield "no layout keeps these rules together; as many steps do not tell whether each is needed"
        yield from self.said(left, source)

    def said(self, names: Sequence[str], source: Source) -> Iterator[str]:
        problem = self.of_rules(names)
        core = problem.rules
        yield from (line_of(source, name) for name in names)
        problem = self.with_fewer_objects(problem)
        yield from self.said_objects(problem)
        for rule in problem.rules:
            problem = self.with_fewer_parts(problem, rule)
        yield from said_parts(core, problem)
        self.progress.end()
        yield self.confirmed(problem)

    def of_rules(self, names: Sequence[str]) -> Problem:
        rules = tuple(rule for rule in self.problem.rules if rule.name in names)
        return replace(self.problem, rules=rules)

    def is_none(self, problem: Problem) -> bool:
        """Whether the program finds that there is no layout."""
        self.progress.show(f"asked about {len(problem.objects)} objects")
        text = print_problem(problem).encode()
        return self.program.ask(["first", str(self.steps)], text).status == NO

    def has_time(self) -> bool:
        return time.monotonic() < self.progress.began + self.seconds

    def shortened(self, whole: list[str], is_enough: Callable[[list[str]], bool]) -> list[str]:
        """A part of these names that is enough, from which, where there is time, none can be left
        out: halves are left out first, then ever smaller groups."""
        left, size = whole, len(whole)
        while size >= 1 and self.has_time():
            at = 0
            while at < len(left) and self.has_time():
                fewer = left[:at] + left[at + size :]
                if is_enough(fewer):
                    left = fewer
                else:
                    at += size
            size //= 2
        return left

    def with_fewer_objects(self, problem: Problem) -> Problem:
        """The problem with objects that are enough: those that no rule names go first."""
        named = {name for rule in problem.rules for name in words_of(rule)}
        all_names = [thing.name for thing in problem.objects]

        def part(kept: Sequence[str]) -> Problem:
            return with_objects(problem, set(kept))

        def in_sequence(kept: Sequence[str]) -> list[str]:
            return [name for name in all_names if name in kept]

        fixed = [name for name in all_names if name in named]
        free = self.shortened(
            [name for name in all_names if name not in named],
            lambda kept: self.is_none(part(in_sequence([*fixed, *kept]))),
        )
        kept = self.shortened(
            in_sequence([*fixed, *free]), lambda names: self.is_none(part(in_sequence(names)))
        )
        return part(kept) if len(kept) < len(all_names) else problem

    def said_objects(self, problem: Problem) -> Iterator[str]:
        names = [f"`{thing.name}`" for thing in problem.objects]
        if len(names) == len(self.problem.objects):
            yield f"all {len(names)} objects are needed for that, as far as was asked"
        elif not names:
            yield "no object is needed for that"
        else:
            shown = ", ".join(names[:HANDFUL]) + (" and others" if len(names) > HANDFUL else "")
            yield f"{len(names)} of {len(self.problem.objects)} objects are enough for that: {shown}"

    def with_fewer_parts(self, problem: Problem, rule: Rule) -> Problem:
        """The problem with those parts of a rule, where it is a conjunction, that are enough."""
        if isinstance(rule.body, (Apart, Within)) or len(conjuncts(rule.body)) < 2:
            return problem
        parts = list(conjuncts(rule.body))

        def of_parts(kept: Sequence[str]) -> Problem:
            return with_body(problem, rule.name, joined([parts[int(number)] for number in kept]))

        numbers = [str(number) for number in range(len(parts))]
        kept = self.shortened(numbers, lambda some: bool(some) and self.is_none(of_parts(some)))
        return of_parts(kept) if len(kept) < len(parts) else problem

    def confirmed(self, problem: Problem) -> str:
        """Whether `check` accepts the derivation of what is left."""
        text = print_problem(problem)
        answer = self.program.ask(["first", str(self.steps)], text.encode())
        said = self.program.ask(["check"], (text + answer.text).encode()).text
        if answer.status == NO and said == "yes\n":
            return "`check` confirms it, by a derivation of just this part"
        return "this part was not searched to its end within the steps"


def with_body(problem: Problem, name: str, body: Formula) -> Problem:
    rules = [Rule(name, body) if rule.name == name else rule for rule in problem.rules]
    return replace(problem, rules=tuple(rules))


def joined(parts: Sequence[Formula]) -> Formula:
    return parts[0] if len(parts) == 1 else Joined("and", tuple(parts))


def words_of(rule: Rule) -> set[str]:
    """The words of a rule's body."""
    if isinstance(rule.body, (Apart, Within)):
        return set()
    return set(re.findall(r"\w+", print_formula(rule.body)))


def said_parts(core: Sequence[Rule], problem: Problem) -> Iterator[str]:
    """Of which rules a part is enough."""
    left = {rule.name: rule.body for rule in problem.rules}
    for rule in core:
        body = left.get(rule.name)
        if body is None or body == rule.body or isinstance(body, (Apart, Within)):
            continue
        yield f"of the rule `{rule.name}` this is enough: {print_formula(body)}"


def line_of(source: Source, name: str) -> str:
    """The line of a text at which the rule of this name begins, with its number."""
    text = source.text.decode(errors="replace")
    found = re.search(rf"^.*\brule\s+{re.escape(name)}\b.*$", text, re.MULTILINE)
    if found is None:
        return f"    rule {name}"
    number = text.count("\n", 0, found.start()) + 1
    return f"    line {number}: {found.group().strip()}"
