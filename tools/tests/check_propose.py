"""What z3 is asked means what the problem means: of each example it says whether there is a layout,
and of single layouts what the second meaning says. Where z3 is missing, that is skipped and
said."""

from __future__ import annotations

import random
import shutil
import subprocess
from dataclasses import replace
from pathlib import Path

import oracle
from check_examples import cells_in_all
from geost.parts import at_place, left_out
from geost.smt import Writer, layout_of_model
from geost.text import ABSENT, Placed, Problem, Rule, absent, read_layout, read_problem
from harness import TOP, Case, Cases, Setting, Skipped, run_tool, want, want_in

EXAMPLES = sorted((TOP / "examples").glob("*.geost"))
LAYOUTS = 6
MOST_CELLS = 1_000
SECONDS = "120"


def needs_z3() -> None:
    if shutil.which("z3") is None:
        raise Skipped("z3 is not installed (Debian's package z3)")


def said_by_z3(problem: Problem) -> str:
    text = "\n".join(Writer(problem).statements())
    done = subprocess.run(["z3", "-smt2", "-in"], input=text.encode(), stdout=subprocess.PIPE)
    return done.stdout.decode().split(maxsplit=1)[0]


def check_example(setting: Setting, path: Path) -> None:
    needs_z3()
    printed, status = run_tool("propose", setting, ["--seconds", SECONDS, str(path)])
    if path.with_suffix(".answer").read_text() == "none\n":
        want(
            (printed, status), ("z3 says: that there is no layout, which proves nothing\n", 3), "it"
        )
        return
    want(status, 0, f"the status, with {printed}")
    verdict = setting.program.judge(path.read_text(), printed)
    want(verdict.text, "good\n", "the program's verdict")


def check_layouts(path: Path) -> None:
    """Of layouts by chance, and of the example's plans, whether all rules hold."""
    needs_z3()
    problem = read_problem(path.read_bytes())
    chance = random.Random(path.stem)
    layouts = [random_layout(problem, chance) for _ in range(LAYOUTS)]
    plans = path.parent.glob(f"{path.stem}*.plan")
    layouts += [read_layout(plan.read_bytes()) for plan in sorted(plans)]
    for layout in layouts:
        if [placed.name for placed in layout] == [thing.name for thing in problem.objects]:
            wanted = "unsat" if oracle.broken_rules(problem, layout) else "sat"
            want(said_by_z3(at_places(problem, layout)), wanted, f"what z3 says of {layout}")


def random_layout(problem: Problem, chance: random.Random) -> list[Placed]:
    found = []
    for thing in problem.objects:
        shape = chance.choice(thing.shapes)
        origin = tuple(chance.randint(*chance.choice(pieces)) for pieces in thing.pieces)
        found.append(absent(thing.name) if shape == ABSENT else Placed(thing.name, shape, origin))
    return found


def at_places(problem: Problem, layout: list[Placed]) -> Problem:
    """The problem that has this layout alone, or none."""
    pairs = zip(problem.objects, layout)
    things = tuple(at_place(problem, thing, placed) for thing, placed in pairs)
    gone = (Rule(f"gone_{number}", said) for number, said in enumerate(left_out(layout)))
    return replace(problem, objects=things, rules=(*problem.rules, *gone))


def check_by_hand() -> None:
    """The statements of a small problem, and the layout of a model."""
    problem = read_problem(
        b"geost 1 dims 1 shape s box 0 size 2 ; shape t box 1 size 3 ; "
        b"object a as s, t at 0..9 ; object b as s at -2..9 with w = 3 ; "
        b"rule r : forall p in objects : [ p.w > 0 implies p.x1 > - 1 ] ; rule q : apart ; end"
    )
    text = "\n".join(Writer(problem).statements())
    want_in("(assert (<= (- 2) x1_b 9))", text)
    want_in("(assert (or (= sid_a 1) (= sid_a 2)))", text)
    want_in("(assert (=> (= sid_a 2) (= l1_a 3)))", text)
    want_in("(assert (> x1_b (- 1)))", text)
    want("(> x1_a" in text, False, "whether a says something of which nothing is asked")
    model = (
        "sat\n(\n  (define-fun x1_b () Int\n    (- 2))\n  (define-fun sid_a () Int\n    2)\n"
        "  (define-fun x1_a () Int\n    7)\n)\n"
    )
    layout = [Placed("a", "t", (7,)), Placed("b", "s", (-2,))]
    want(layout_of_model(problem, model), layout, "the layout of a model")


def cases(setting: Setting, folder: Path) -> Cases:
    yield Case("propose: by hand", check_by_hand)
    for path in EXAMPLES:
        yield Case(f"propose {path.stem}", lambda path=path: check_example(setting, path))
        if cells_in_all(read_problem(path.read_bytes())) <= MOST_CELLS:
            yield Case(f"propose: layouts of {path.stem}", lambda path=path: check_layouts(path))
