"""What stands in the way where there is no layout, by answers of the program to less of it."""

from __future__ import annotations

from collections.abc import Iterator, Sequence
from dataclasses import dataclass, replace
from itertools import combinations

from geost.lesson import Lesson
from geost.parts import is_fixed, with_objects
from geost.runs import Outcome, Task, Verdict

MOST_PAIRS = 500
ROOM = "write other ranges for one of them, or leave one out"


@dataclass
class Nothing:
    """A problem that has no layout, as a lesson asks about it."""

    lesson: Lesson

    def lines(self) -> Iterator[str]:
        """Which objects have none by themselves, and without which rule there is one."""
        clash = self.clash()
        if clash:
            yield from said_clash(clash)
            yield from self.rules_between(clash)
            return
        reached = self.lesson.how_far()
        if reached.failed == len(self.lesson.names()):
            reached = replace(reached, outcome=Outcome(Verdict.NONE))
        yield from self.lesson.said_how_far(reached)
        yield from self.lesson.groups_without_a_layout()
        yield from self.lesson.rules_in_the_way(reached)
        yield "next: write other ranges or shapes for an object, or a milder rule, and run it again"

    def clash(self) -> tuple[str, ...]:
        """One or two objects of one place each that have no layout by themselves."""
        names = [thing.name for thing in self.lesson.problem.objects if is_fixed(thing)]
        if not names or not self.have_none([tuple(names)]):
            return ()
        alone = self.have_none([(name,) for name in names])
        pairs = list(combinations(names, 2))[:MOST_PAIRS]
        return next(iter(alone or self.have_none(pairs)), ())

    def have_none(self, groups: Sequence[tuple[str, ...]]) -> list[tuple[str, ...]]:
        """The groups of objects that have no layout by themselves, in their sequence."""
        tasks = [Task(group, with_objects(self.lesson.problem, group)) for group in groups]
        outcomes = self.lesson.searched("objects of one place", 0.2, tasks)
        return [
            group
            for group in groups
            if group in outcomes and outcomes[group].verdict is Verdict.NONE
        ]

    def rules_between(self, names: tuple[str, ...]) -> Iterator[str]:
        """Without which rule these objects have a layout."""
        alone = with_objects(self.lesson.problem, names)
        outcomes = self.lesson.without_each_rule(alone)
        for rule in self.lesson.with_layouts(outcomes):
            yield f"without the rule `{rule}` there is one for {said(names)}"


def said(names: tuple[str, ...]) -> str:
    return " and ".join(f"`{name}`" for name in names)


def said_clash(names: tuple[str, ...]) -> Iterator[str]:
    if len(names) == 1:
        yield f"{said(names)} has one place alone, and has no layout there, whatever the others do:"
        yield "write other ranges for it"
        return
    yield f"{said(names)} have one place each, and these two alone have no layout: {ROOM}"
