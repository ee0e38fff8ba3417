"""The examples: their answers and verdicts by a second meaning, which shares nothing with the program, and that the program judges its
own answers good. That the program gives these answers is what examples/check shows."""

from __future__ import annotations

from pathlib import Path

import oracle
from geost.text import Problem, print_layout, read_layout, read_problem
from harness import TOP, Case, Cases, Failed, Setting, Skipped, want

EXAMPLES = TOP / "examples"
MOST_CELLS = 100_000
MOST_PLACES = 3_000
MOST_PLACES_LONG = 3_000_000


def problem_of(plan: Path) -> Path:
    """The problem of a plan: that with the plan's name, or with its front up to some `_`."""
    name = plan.stem
    while not (plan.parent / f"{name}.geost").exists():
        name = name.rpartition("_")[0]
    return plan.parent / f"{name}.geost"


def cells_in_all(problem: Problem) -> int:
    return sum(max(sum(box.volume() for box in problem.shape(name).boxes) for name in thing.shapes) for thing in problem.objects)


def small(path: Path) -> Problem:
    problem = read_problem(path.read_bytes())
    if cells_in_all(problem) > MOST_CELLS:
        raise Skipped("too many cells for the second meaning")
    return problem


def check_first(setting: Setting, path: Path) -> None:
    """The answer is the first layout by a listing of all places."""
    problem = small(path)
    try:
        found = oracle.first_layout(problem, MOST_PLACES_LONG if setting.long else MOST_PLACES)
    except RuntimeError as fault:
        raise Skipped(f"{fault}; it is tried with --long") from fault
    wanted = "none\n" if found is None else print_layout(found)
    want(path.with_suffix(".answer").read_text().partition("token")[0], wanted, "the answer")


def check_answer(setting: Setting, path: Path) -> None:
    """A layout that is the answer keeps every rule, by the second meaning and by the program."""
    answer = path.with_suffix(".answer").read_text()
    if answer == "none\n":
        return
    want(setting.program.judge(path.read_text(), answer).text, "good\n", "the program's verdict on the answer")
    want(oracle.broken_rules(small(path), read_layout(answer.encode())), [], "the rules that the answer breaks")


def check_verdict(plan: Path) -> None:
    broken = oracle.broken_rules(small(problem_of(plan)), read_layout(plan.read_bytes()))
    wanted = f"broken {broken[0]}\n" if broken else "good\n"
    want(plan.with_suffix(".judged").read_text(), wanted, "the verdict")


def check_index(path: Path) -> None:
    """The list of examples names the problem."""
    if f"`{path.name}`" not in (EXAMPLES / "README.md").read_text():
        raise Failed("examples/README.md does not list it")


def cases(setting: Setting, folder: Path) -> Cases:
    for path in sorted(EXAMPLES.glob("*.geost")):
        yield Case(f"example {path.stem}: listed", lambda path=path: check_index(path))
        yield Case(f"example {path.stem}: answer", lambda path=path: check_answer(setting, path))
        yield Case(f"example {path.stem}: first", lambda path=path: check_first(setting, path))
    for plan in sorted(EXAMPLES.glob("*.plan")):
        yield Case(f"example {plan.stem}: verdict", lambda plan=plan: check_verdict(plan))
