"""What tools/explain says where a budget did not suffice: each sentence is asked again, by a text
that is made from the problem's own lines. And Ctrl-C leaves what was said so far."""

from __future__ import annotations

import contextlib
import os
import re
import signal
import subprocess
import sys
import time
from collections.abc import Callable
from pathlib import Path

from geost.parts import with_objects
from geost.text import print_problem, read_problem
from harness import TOOLS, TOP, Case, Cases, Failed, Setting, hear_interrupts, run_tool, want
from harness import want_in

TOUR = TOP / "examples" / "large" / "removal_tour.geost"
STEPS = 100
OBJECTS = 24
LONGEST_WAIT = 120


def status_of(setting: Setting, lines: list[str]) -> int:
    return setting.program.ask(["first", str(STEPS)], "\n".join(lines).encode()).status


def tour() -> list[str]:
    return TOUR.read_text().splitlines()


def without(lines: list[str], is_dropped: Callable[[str], bool]) -> list[str]:
    return [line for line in lines if not is_dropped(line)]


def first_objects(lines: list[str], count: int) -> list[str]:
    """The problem of the first objects; no rule of it names an object."""
    names = [line.split()[1] for line in lines if line.startswith("object ")][count:]
    return without(lines, lambda line: line.startswith(tuple(f"object {name} " for name in names)))


def without_rule(lines: list[str], name: str) -> list[str]:
    """The problem without a rule, which may go over several lines up to its `;`."""
    text = re.sub(rf"^rule {name} :[^;]*;\n", "", "\n".join(lines) + "\n", flags=re.MULTILINE)
    return text.splitlines()


def explained_tour(setting: Setting) -> str:
    options = ["--seconds", "400", "--processors", str(setting.processors)]
    printed, status = run_tool("explain", setting, [*options, "first", str(STEPS), str(TOUR)])
    want(status, 3, "the status")
    want(printed.splitlines()[0], f"budget {STEPS}", "the program's answer")
    return printed


def check_sentences(setting: Setting) -> None:
    printed = explained_tour(setting)
    reached = re.search(r"the first (\d+) of the (\d+) objects", printed)
    if reached is None:
        raise Failed(f"nothing of the first objects in {printed}")
    count = int(reached[1])
    want(int(reached[2]), OBJECTS, "the number of objects")
    want(status_of(setting, first_objects(tour(), count)), 0, f"the first {count} objects")
    want(status_of(setting, first_objects(tour(), count + 1)), 3, f"the first {count + 1} objects")
    rules = set(re.findall(r"without the rule `(\w+)` all objects", printed))
    for name in re.findall(r"^rule (\w+)", "\n".join(tour()), re.MULTILINE):
        status = status_of(setting, without_rule(tour(), name))
        want(status == 0, name in rules, f"whether there is a layout without {name}")
    statements = [line.strip() for line in re.findall(r"^    (?:order|sides) .*$", printed, re.M)]
    want(len(statements), 2, f"the statements in {printed}")
    want(status_of(setting, [*tour()[:-1], *statements, "end"]), 0, "the status with the order")


def check_by_hand(setting: Setting) -> None:
    """Two boxes on a line take a step for each shape and each coordinate: four in all."""
    text = (
        "geost 1 dims 1 shape s box 0 size 2 ; object a as s at 0..3 ; object b as s at 0..3 ; end"
    )
    printed, status = run_tool("explain", setting, ["first", "3"], text)
    want(status, 3, "the status")
    want_in("the first 1 of the 2 objects of the order have a layout within 3 steps", printed)
    want_in("with `b`, the next one, none is found within them", printed)
    want_in("next: tools/portfolio", printed)


def check_none_before(setting: Setting) -> None:
    """Of three boxes of two cells in four the first two fill them, and the third has no place."""
    boxes = "".join(f"object {name} as s at 0..2 0..9 ;\n" for name in "abc")
    text = (
        f"geost 1 dims 2\nshape s box 0 0 size 2 1 ;\n{boxes}object z as s at 0..2 0..9 ;\n"
        "rule r : within 0..3 0..9 ;\nrule free : apart ;\n"
        "rule q : forall p in objects : [ p.id <= 3 implies p.x2 = 0 ] ;\nend\n"
    )
    part = with_objects(read_problem(text.encode()), {"a", "b"})
    want([thing.name for thing in part.objects], ["a", "b"], "the objects of a part")
    want(setting.program.ask(["first", "9"], print_problem(part).encode()).status, 0, "its status")
    part = with_objects(read_problem(text.encode()), {"a", "b", "c"})
    want(setting.program.ask(["first", "99"], print_problem(part).encode()).status, 1, "its status")


def check_parts() -> None:
    """What is left of rules that name objects which are left out, by hand."""
    text = (
        b"geost 1 dims 1 shape s box 0 size 1 ; object a as s at 0..9 ; object b as s at 0..9 ; "
        b"object c as s at 0..9 with w = 1 ; macro m(p : object) means p.x1 > c.x1 ; "
        b"rule one : a.x1 > 1 and c.x1 > 1 ; rule two : forall p in objects (a, c) : p.x1 > 2 ; "
        b"rule three : exists p in objects (b, c) : p.x1 > 3 ; rule four : @m(a) ; "
        b"rule five : forall c in objects : c.x1 > 4 ; rule six : a.w = 0 ; end"
    )
    wanted = (
        "geost 1 dims 1\nshape s box 0 size 1 ;\nobject a as s at 0..9 with w = 0 ;\n"
        "object b as s at 0..9 ;\nrule one : a.x1 > 1 ;\n"
        "rule two : forall p in objects (a) : p.x1 > 2 ;\n"
        "rule five : forall c in objects : c.x1 > 4 ;\nrule six : a.w = 0 ;\nend\n"
    )
    want(print_problem(with_objects(read_problem(text), {"a", "b"})), wanted, "the part")


# Ctrl-C


def has_started_one(process: subprocess.Popen[bytes]) -> bool:
    """Whether a script has started another program, which is the one that it asks."""
    with contextlib.suppress(OSError):
        lists = Path(f"/proc/{process.pid}/task").glob("*/children")
        return any(file.read_text() for file in lists)
    return False


def await_one(process: subprocess.Popen[bytes]) -> None:
    """Waits until a script has started another program."""
    end = time.monotonic() + LONGEST_WAIT
    while not has_started_one(process):
        if time.monotonic() > end or process.poll() is not None:
            raise Failed("the script starts no program")
        time.sleep(0.05)


def stopped(setting: Setting, words: list[str], line: str) -> tuple[str, int]:
    """What a script prints that is sent Ctrl-C once a line stands in its output, or, where no line
    is waited for, once it has started the program."""
    command = [sys.executable, "-u", str(TOOLS / words[0]), "--program", setting.program.path]
    process = subprocess.Popen(
        [*command, *words[1:]],
        stdout=subprocess.PIPE,
        stderr=subprocess.STDOUT,
        preexec_fn=hear_interrupts,
        start_new_session=True,
    )
    assert process.stdout is not None
    before = ""
    while line and line not in before:
        more = process.stdout.readline().decode()
        if not more:
            raise Failed(f"{line!r} does not come: {before}")
        before += more
    if not line:
        await_one(process)
    time.sleep(0.1)
    os.kill(process.pid, signal.SIGINT)
    after, _ = process.communicate(timeout=LONGEST_WAIT)
    return before + after.decode(), process.returncode


def check_stopped_lesson(setting: Setting) -> None:
    words = ["explain", "--seconds", "600", "first", "20", str(TOUR)]
    printed, status = stopped(setting, words, "20 steps did not suffice")
    want(status, 130, f"the status, with {printed}")
    want_in("stopped; what is known so far stands above", printed)
    want("Traceback" in printed, False, "whether a traceback is printed")


def check_stopped_portfolio(setting: Setting, folder: Path) -> None:
    folder.mkdir()
    problem = folder / "hard.geost"
    problem.write_text(hard())
    printed, status = stopped(setting, ["portfolio", "--seconds", "600", str(problem)], "")
    want(status, 130, f"the status, with {printed}")
    want("Traceback" in printed, False, f"whether a traceback is printed in {printed}")


def hard() -> str:
    """Thirty rods of three cells in a square of 81 cells: there is no layout, which a search sees
    late."""
    rods = "".join(f"object r{number} as l, u at 0..8 0..8 ;\n" for number in range(30))
    shapes = "shape l box 0 0 size 3 1 ;\nshape u box 0 0 size 1 3 ;\n"
    rules = "rule room : within 0..8 0..8 ;\nrule free : apart ;\nend\n"
    return f"geost 1 dims 2\n{shapes}{rods}{rules}"


def cases(setting: Setting, folder: Path) -> Cases:
    yield Case("lesson: its sentences", lambda: check_sentences(setting))
    yield Case("lesson: two boxes", lambda: check_by_hand(setting))
    yield Case("lesson: a part without a layout", lambda: check_none_before(setting))
    yield Case("lesson: parts of rules", check_parts)
    yield Case("lesson: stopped by Ctrl-C", lambda: check_stopped_lesson(setting))
    yield Case(
        "portfolio: stopped by Ctrl-C", lambda: check_stopped_portfolio(setting, folder / "stopped")
    )
