"""Searching, judging, and what the program says; commands that it does not know."""

from __future__ import annotations

import asyncio
import shutil
import stat
import subprocess
import sys
import time
from collections.abc import Callable
from pathlib import Path

import pytest

import geost
from geost import rules
from geost import text as t

EXAMPLES = Path(__file__).resolve().parents[2] / "examples"
TOO_NARROW = EXAMPLES / "too_narrow.geost"
HARD = EXAMPLES / "large" / "container_from_the_smallest.geost"


def pair(room: int = 4) -> geost.Problem:
    return geost.Room((room,)).problem([geost.Item("PK-1/ä", (2,)), geost.Item("end", (2,))])


def test_first_is_first() -> None:
    answer = pair().first(100)
    assert answer.status is geost.Status.LAYOUT and answer and answer.layout is not None
    assert {item: placed.low for item, placed in answer.layout.items()} == {
        "PK-1/ä": (0,),
        "end": (2,),
    }
    assert answer.layout.token == "1,0/1,2"
    assert pair().first(1).status is geost.Status.UNKNOWN
    with pytest.raises(geost.NoDerivation):
        answer.check()


def test_sides_and_order_are_kept() -> None:
    plan = pair(5)
    plan.sides = ("high",)
    plan.order = ("end", "PK-1/ä")
    layout = plan.first(100).layout
    assert layout is not None and [placed.low for placed in layout.values()] == [(1,), (3,)]


def test_a_derivation_is_at_hand_and_checked() -> None:
    plan = pair(3)
    answer = plan.first(100)
    assert answer.status is geost.Status.NONE and not answer
    assert answer.derivation.startswith("none\n") and answer.derivation.endswith("qed\n")
    assert answer.check()
    assert not plan.check("none\ndead 2 qed\n"), "the room is no contradiction by itself"
    assert pair(4).check(answer.derivation) is False


def test_layouts_come_by_pages() -> None:
    wanted = [(a, b) for a in range(4) for b in range(4) if abs(a - b) >= 2]
    for page in (1, 2, 100):
        found = [
            tuple(placed.low[0] for placed in layout.values())
            for layout in pair(5).layouts(1000, page)
        ]
        assert found == wanted
    behind = list(pair(5).layouts(1000, behind="1,0/1,3"))
    assert len(behind) == len(wanted) - 2
    with pytest.raises(geost.OutOfSteps, match="go on behind"):
        list(pair(5).layouts(1, 100))


def test_a_verdict_names_rules_and_items_and_lines() -> None:
    plan = pair()
    layout = plan.first(100).layout
    assert layout is not None and str(plan.judge(layout)) == "good"
    verdict = plan.judge(layout.moved("end", 1))
    assert not verdict and str(verdict) == "no_overlap: PK-1/ä and end"
    plan.rule("apart_by_far", geost.forall(lambda p, q: (p.id < q.id).implies(p.x1 + 9 <= q.x1)))
    (broken,) = plan.judge(layout).broken
    assert (broken.rule, broken.items) == ("apart_by_far", (("PK-1/ä", "end"),))
    assert broken.where is not None and broken.where.file == str(Path(__file__))


def test_solve_finds_what_the_stated_order_does_not() -> None:
    told: list[str] = []
    plan = geost.Problem.read(HARD)
    answer = plan.solve(seconds=300, processors=2, progress=told.append, with_z3=False)
    assert answer and answer.layout is not None and answer.way and told
    assert answer.steps > 0 and answer.tried
    assert plan.ask(["judge"], behind=answer.layout.block()).text == "good\n"


def test_solve_finds_that_there_is_none() -> None:
    plan = geost.Problem.read(TOO_NARROW)
    answer = plan.solve(seconds=300, processors=1, with_z3=False)
    assert answer.status is geost.Status.NONE
    assert answer.check(), "the derivation is made when it is asked for"


def endless(program: str | None = None) -> geost.Problem:
    """Nine squares of 2 by 2 do not go into 5 by 7, as an area of 36 says, and no single pair."""
    items = [geost.Item(f"i{number}", (2, 2)) for number in range(9)]
    return geost.Room((5, 7)).problem(items, program=program)


def test_a_search_is_stopped() -> None:
    began = time.monotonic()
    search = endless().search(seconds=3000, processors=1, steps=10**9, with_z3=False)
    assert not search.is_done()
    search.stop()
    answer = search.result()
    assert answer.status is geost.Status.UNKNOWN and answer.is_stopped
    assert time.monotonic() - began < 100


def test_seconds_end_a_search() -> None:
    answer = endless().solve(seconds=0.5, processors=1, steps=10**9, with_z3=False)
    assert answer.status is geost.Status.UNKNOWN and not answer.is_stopped


def test_searches_are_awaited() -> None:
    async def both() -> list[geost.Solution]:
        return [await search for search in (pair().search(300), pair(3).search(300))]

    found = asyncio.run(both())
    assert [answer.status for answer in found] == [geost.Status.LAYOUT, geost.Status.NONE]


def test_what_is_awaited_no_longer_is_stopped() -> None:
    search = endless().search(seconds=3000, processors=1, steps=10**9, with_z3=False)

    async def given_up() -> None:
        await asyncio.wait_for(_awaited(search), 0.3)

    with pytest.raises(asyncio.TimeoutError):
        asyncio.run(given_up())
    assert search.result().is_stopped


async def _awaited(search: geost.Search) -> geost.Solution:
    return await search


def test_a_search_ends_with_python(tmp_path: Path) -> None:
    """A program of its own, by which its processes are known, and a script that does not wait."""
    program = tmp_path / "geost_of_a_search"
    shutil.copy(endless().program.path, program)
    script = tmp_path / "script.py"
    script.write_text(
        "import sys, time\n"
        f"sys.path[:0] = {sys.path!r}\n"
        "from test_solving import endless\n"
        f"plan = endless({str(program)!r})\n"
        "told = []\n"
        "plan.search(3000, processors=1, progress=told.append, steps=10**9, with_z3=False)\n"
        "while not told:\n    time.sleep(0.01)\n"
    )
    subprocess.run([sys.executable, "-B", str(script)], check=True, timeout=300)
    left = [path for path in Path("/proc").glob("[0-9]*/exe") if is_link_to(path, program)]
    assert left == []


def is_link_to(path: Path, target: Path) -> bool:
    try:
        return path.readlink() == target
    except OSError:
        return False


def test_a_refusal_comes_before_the_search() -> None:
    plan = pair()
    plan.rule("r", "a.x1 = 0")
    with pytest.raises(geost.Refused, match="unknown"):
        plan.search()


# Commands that a program may not know


def loading(plan: geost.Problem) -> object:
    layout = plan.first(100).layout
    assert layout is not None
    return plan.load(layout, 1)


ASKED: dict[str, Callable[[geost.Problem], object]] = {
    "best": lambda plan: plan.best(1, 100),
    "why": lambda plan: plan.why(100),
    "load": loading,
    "to_json": lambda plan: plan.json(),
}


@pytest.mark.parametrize("command", ASKED)
def test_what_the_program_does_not_know_is_said(command: str) -> None:
    """Of a program that knows the command, the next tests say what comes of it."""
    plan = pair()
    words = {"best": ["best", "1", "100"], "why": ["why", "100"], "load": ["load", "1"]}
    asked = plan.program.ask(words.get(command, [command]), plan.text().encode())
    if asked.text != "bad words\n":
        pytest.skip(f"this program knows {command}")
    with pytest.raises(geost.NoSuchCommand, match=f"no command `?{command}"):
        ASKED[command](plan)


def test_a_layout_is_no_json_without_the_command(tmp_path: Path) -> None:
    plan = pair()
    layout = plan.first(100).layout
    assert layout is not None
    if plan.program.ask(["to_json"], plan.text().encode()).text != "bad words\n":
        pytest.skip("this program knows to_json")
    with pytest.raises(geost.NoSuchCommand):
        layout.save(str(tmp_path / "layout.json"))
    assert not (tmp_path / "layout.json").exists()


def knowing(folder: Path, printed: dict[str, tuple[str, int]]) -> str:
    """A program that prints, for the first of its words, what such a program prints."""
    cases = "".join(
        f"{word}) printf '%s' '{text}'; exit {status} ;;\n"
        for word, (text, status) in printed.items()
    )
    file = folder / "geost"
    file.write_text(f'#!/bin/sh\ncat >"{folder}/input"\ncase $1 in\n{cases}esac\nexit 4\n')
    file.chmod(file.stat().st_mode | stat.S_IXUSR)
    return str(file)


def three(program: str) -> geost.Problem:
    plan = geost.Problem(1, program)
    plan.shape("u", (1,))
    for name, (low, high) in {"a/1": (4, 9), "b": (0, 9), "c": (0, 5)}.items():
        plan.object(name, "u", [(low, high)])
    plan.rule("p rule", geost.Thing("a/1").x1 < geost.Thing("b").x1)
    plan.rule("q", geost.Thing("b").x1 < geost.Thing("c").x1)
    return plan


BLOCKS = """without p_rule
layout
a_1 as u at 4
b as u at 0
c as u at 1
token 1,4/1,0/1,1
without q
layout
a_1 as u at 4
b as u at 5
c as u at 0
token 1,4/1,5/1,0
"""


def test_why_gives_rules_and_layouts(tmp_path: Path) -> None:
    printed = f"core 2\nrule p_rule\nrule q\n{BLOCKS}none\ndead 1\nqed\n"
    plan = three(knowing(tmp_path, {"why": (printed, 0), "check": ("yes\n", 0)}))
    core = plan.why(6)
    assert core.status is geost.Status.NONE and core.rules == ("p rule", "q")
    assert {rule: layout["b"].origin for rule, layout in core.without.items()} == {
        "p rule": (0,),
        "q": (5,),
    }
    assert core.derivation == "none\ndead 1\nqed\n" and core.check()
    assert str(Path(__file__)) in str(core)
    assert (tmp_path / "input").read_text() == plan.text() + core.derivation
    found = three(
        knowing(tmp_path, {"why": ("layout\na_1 as u at 4\nb as u at 0\nc as u at 1\n", 1)})
    )
    assert found.why(6).status is geost.Status.LAYOUT
    less = three(knowing(tmp_path, {"why": ("budget 5\n", 3)}))
    assert less.why(5).status is geost.Status.UNKNOWN


def test_best_gives_an_extent_and_its_derivation(tmp_path: Path) -> None:
    block = "layout\na_1 as u at 4\nb as u at 0\nc as u at 1\ntoken 1,4/1,0/1,1\n"
    printed = f"best 5\n{block}none\nlower a_1 1 1 [ u by 2 ] dead 1\nqed\n"
    answers = {"best": (printed, 0), "check_best": ("yes\n", 0)}
    best = three(knowing(tmp_path, answers)).best(1, 100)
    assert best and best.extent == 5 and best.layout is not None
    assert best.layout["a/1"].origin == (4,) and best.check()
    assert three(knowing(tmp_path, {"best": ("budget 3\n", 3)})).best(1, 3).extent is None
    none = three(knowing(tmp_path, {"best": ("none\ndead 1\nqed\n", 1)})).best(1, 3)
    assert none.status is geost.Status.NONE and none.derivation == "none\ndead 1\nqed\n"
    with pytest.raises(ValueError, match="no dimension 2"):
        three(knowing(tmp_path, {"best": ("bad dimension\n", 9)})).best(2, 3)


def test_load_gives_an_order_or_a_ring(tmp_path: Path) -> None:
    plan = three(knowing(tmp_path, {"load": ("order\nb\na_1\nc\n", 0)}))
    layout = plan.layout({"a/1": (4,), "b": (0,), "c": (1,)})
    assert plan.load(layout, 1).order == ("b", "a/1", "c") and plan.load(layout, 1)
    ring = three(knowing(tmp_path, {"load": ("cycle\na_1\nb\n", 1)})).load(layout, 1)
    assert ring.cycle == ("a/1", "b") and not ring


def test_json_is_that_of_the_program(tmp_path: Path) -> None:
    told = '{"layout":[{"name":"a_1","origin":[4],"shape":"u"}],"token":"1,4"}\n'
    plan = three(
        knowing(tmp_path, {"show": ("", 0), "to_json": ("{}\n", 0), "first_json": (told, 0)})
    )
    assert plan.json() == "{}\n"
    plan._shown = plan.text(), t.Problem(1, (), ())
    layout = plan.layout({"a/1": (4,), "b": (0,), "c": (1,)})
    layout.save(str(tmp_path / "layout.json"))
    assert (tmp_path / "layout.json").read_text() == told


def test_a_program_that_fails_is_said(tmp_path: Path) -> None:
    with pytest.raises(geost.ProgramFailed, match="status 8"):
        three(knowing(tmp_path, {"first": ("", 8)})).first(10)


def test_a_missing_program_is_said(monkeypatch: pytest.MonkeyPatch, tmp_path: Path) -> None:
    from geost import program

    monkeypatch.delenv("GEOST_PROGRAM", raising=False)
    monkeypatch.setenv("PATH", str(tmp_path))
    monkeypatch.setattr(program, "SCRIPT", tmp_path / "geost")
    monkeypatch.setattr(program, "IN_THE_WHEEL", tmp_path / "geost_cli")
    with pytest.raises(geost.ProgramMissing, match="GEOST_PROGRAM"):
        pair().first(10)


def test_ready_rules_have_names() -> None:
    plan = pair()
    plan.add(geost.forall(lambda p: p.x1 >= 0), rules.in_sequence(9, dims=1))
    assert [*plan.rules.spelled] == ["no_overlap", "inside", "rule_1", "in_sequence"]
