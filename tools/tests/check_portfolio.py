"""`portfolio` finds layouts that file order does not, and its `none` is the program's."""

from __future__ import annotations

import itertools
import random
from pathlib import Path

import oracle
from geost.candidates import Candidate, candidates, shape_sequences
from geost.edit import with_statements
from geost.narrowing import all_zones, by_earlier
from geost.orders import depths, in_turns, precedences, stated_orders, with_partners
from geost.runs import Outcome, Verdict, token_of
from geost.strategies import Effort, Repair, learning
from geost.text import Placed, print_layout, print_problem, print_rule, read_layout, read_problem
from harness import (
    TOP,
    Case,
    Cases,
    Setting,
    Skipped,
    first_of,
    is_unproved,
    run_tool,
    want,
    want_in,
)

LARGE = sorted((TOP / "examples" / "large").glob("*.geost"))
SLOW = ("container_of_two_stops",)
STEPS_OF_FILE_ORDER = 300
SECONDS_OF_FILE_ORDER = 120
# (a slow machine fails no test: what is tested is what is found, and not how soon)
SECONDS_AT_MOST = 600


def search(setting: Setting, problem: Path, *more: str) -> tuple[str, int]:
    options = ["--processors", str(setting.processors), "--seconds", str(SECONDS_AT_MOST), *more]
    return run_tool("portfolio", setting, [*options, str(problem)])


def needs_speed(setting: Setting, problem: Path) -> None:
    if problem.stem in SLOW and is_unproved(setting.program):
        raise Skipped("an unproved build takes minutes for it")


def check_found(setting: Setting, problem: Path) -> None:
    """A layout, which the program and the second meaning judge good, and which the statements in
    the comments give again, where the search was one of the whole problem."""
    needs_speed(setting, problem)
    printed, status = search(setting, problem)
    want(status, 0, f"the status, with {printed}")
    text = problem.read_text()
    want(setting.program.judge(text, printed).text, "good\n", "the program's verdict")
    want(
        oracle.broken_rules(read_problem(text.encode()), read_layout(printed.encode())),
        [],
        "broken rules",
    )
    starts = ("# order ", "# sides ", "# object ", "# rule ")
    statements = [line[2:] for line in printed.splitlines() if line.startswith(starts)]
    if statements:
        changed = with_statements(text.encode(), statements, "tried")
        again = setting.program.ask(["first", "1000000"], changed, SECONDS_AT_MOST)
        want(lines_of(again.text), lines_of(printed), "the first layout in this way")


def lines_of(text: str) -> list[str]:
    return [line for line in text.splitlines() if " as " in line and not line.startswith("#")]


def check_file_order(setting: Setting, problem: Path) -> None:
    """File order alone does not find one."""
    needs_speed(setting, problem)
    text = problem.read_bytes()
    if setting.long:
        answer = setting.program.ask(["first", str(10**12)], text, SECONDS_OF_FILE_ORDER)
        want(answer.text, "", f"what file order finds in {SECONDS_OF_FILE_ORDER} s")
    else:
        want(
            setting.program.ask(["first", str(STEPS_OF_FILE_ORDER)], text).status,
            3,
            "the status of file order",
        )


def check_none(setting: Setting) -> None:
    """Its derivation is one of the problem as it stands, in whatever order it was found."""
    problem = TOP / "examples" / "six_drums.geost"
    printed, status = search(setting, problem)
    want((first_of(printed), status), ("none\n", 1), "the answer")
    want(
        setting.program.ask(["check"], problem.read_bytes() + b"\n" + printed.encode()).text,
        "yes\n",
        "the verdict on its derivation",
    )


def check_given_up(setting: Setting, folder: Path) -> None:
    """Where the time is over, what was tried is told."""
    problem = TOP / "examples" / "board_without_corners.geost"
    printed, status = search(setting, problem, "--seconds", "0.2", "--steps", "1")
    if status == 1:
        raise Skipped("the program is too quick for it")
    want(status, 3, "the status")
    want_in("nothing found", printed)


def check_orders() -> None:
    """The orders of a small problem, by hand: `b` is the largest, `c` has the least due date,
    stands in two rules, and comes before `b`."""
    text = (
        b"geost 1 dims 1 shape s box 0 size 1 ; shape l box 0 size 3 ; "
        b"object a as s at 0..9 with due = 2 ; object b as l at 0..9 with due = 5 ; "
        b"object c as s at 0..9 with due = 1 ; rule r : b.x1 > c.x1 ; rule q : c.x1 > 0 ; end"
    )
    orders = {name: "".join(order) for name, order in stated_orders(read_problem(text))}
    wanted = {
        "as stated": "abc",
        "largest first": "bac",
        "what comes before first": "acb",
        "least due first": "cab",
        "named by most rules first": "cba",
    }
    want({name: orders.get(name) for name in wanted}, wanted, "the orders")
    want(len(set(orders.values())), len(orders), "the number of different orders")
    want(print_problem(read_problem(text)).count("order"), 0, "order statements")


def check_precedences() -> None:
    """What comes before what, also through macros: the schedule's rules by hand."""
    problem = read_problem((TOP / "examples" / "schedule.geost").read_bytes())
    wanted = {("cut", "drill"), ("drill", "paint"), ("drill", "test"), ("paint", "pack")}
    want(precedences(problem), wanted, "the pairs")
    want(
        depths(problem),
        {"cut": 0, "drill": 1, "weld": 0, "paint": 2, "test": 2, "pack": 3},
        "the depths",
    )


# Further ways, by hand

PAIRS = (
    b"geost 1 dims 2 shape s box 0 0 size 2 1 ; shape t box 0 0 size 1 2 ; "
    b"object a as s, t at 0..9 0..3 with stop = 2 ; object b as s, t at 0..9 0..3 with stop = 1 ; "
    b"object c as s at 0..9 0..3 with stop = 2 ; object d as s at 0..9 0..3 with stop = 1 ; "
    b"rule r : a.x1 = d.x1 and b.x2 = c.x2 ; rule q : forall p in objects : forall q in objects : "
    b"[ p.stop < q.stop implies p.x1 > q.x1 ] ; rule u : forall p in objects : "
    b"[ p.x2 = 0 or exists q in objects : [ p.x2 = q.x2 + 1 and p.x1 = q.x1 ] ] ; end"
)


def check_ways() -> None:
    problem = read_problem(PAIRS)
    want("".join(with_partners(problem, tuple("abcd"))), "adbc", "partners behind each other")
    want("".join(in_turns(problem, tuple("abcd"))), "acbd", "shapes in turns")
    zones = {
        zone.name: {thing.name: thing.ranges[0] for thing in zone.things}
        for zone in all_zones(problem)
    }
    rising = {"b": (0, 4), "d": (0, 4), "a": (5, 9), "c": (5, 9)}
    want(zones["zones of x1 by stop, from the least on"], rising, "the zones")
    shapes = {name: things[0].shapes for name, things in shape_sequences(problem)}
    want(shapes, {"shapes shortest in x1 first": ("t", "s")}, "the sequences of shapes")
    earlier = by_earlier(problem, tuple("cabd"))
    want([dict(thing.attributes)["turn"] for thing in earlier.objects], [2, 3, 1, 4], "the turns")
    wanted = "exists q in objects : [ q.turn < p.turn and [ p.x2 = q.x2 + 1 and p.x1 = q.x1 ] ]"
    want_in(wanted, print_rule(earlier.rules[2]))
    kinds = list(itertools.islice(candidates(problem), 5))
    want(
        [way.is_narrower for way in kinds],
        [False, True, False, False, False],
        "the first of each kind",
    )


def check_learning() -> None:
    """The object that fails, here `c`, comes half as far behind in the order."""
    problem = read_problem(PAIRS)
    strategy = learning(
        problem, Candidate("as stated", tuple("abcd"), ("low", "low")), Effort(10, 1.0)
    )
    search = next(strategy)
    while not search.is_stated or "learned" not in search.way.name:
        names = {thing.name for thing in search.problem.objects}
        verdict = Verdict.BUDGET if "c" in names else Verdict.LAYOUT
        search = strategy.send(Outcome(verdict))
    want("".join(search.way.order), "acbd", "the order that was learned")


def check_repair() -> None:
    """What is placed stays; what is loose or added may move."""
    problem = read_problem(PAIRS)
    way = Candidate("as stated", tuple("abcd"), ("low", "low"))
    placed = {name: Placed(name, "s", (number, 0)) for number, name in enumerate("ab")}
    repair = Repair(way, way.of(problem), random.Random(1), placed, ["c", "d"], 1)
    part = repair.part(["c"], {"b"})
    ranges = {thing.name: thing.ranges for thing in part.objects}
    want(
        ranges, {"a": ((0, 0), (0, 0)), "b": ((0, 9), (0, 3)), "c": ((0, 9), (0, 3))}, "the ranges"
    )
    want(part.order[0], "c", "the first object of the order")
    layout = [*placed.values(), Placed("c", "s", (4, 0))]
    repair.take(Outcome(Verdict.LAYOUT, print_layout(layout)), ["c"])
    want(
        (sorted(repair.placed), repair.waiting),
        (["a", "b", "c"], ["d"]),
        "what is placed, what waits",
    )
    want(
        token_of(problem, [*layout, Placed("d", "s", (0, 1))]),
        "1,0,0/1,1,0/1,4,0/1,0,1",
        "the token",
    )


def check_edit() -> None:
    """Statements are exchanged, what stood there stays as a comment, and a new one stands before
    `end`."""
    head = b"geost 1 dims 1 # two\nshape s box 0 size 2 ;\n"
    text = head + b"object a as s\n  at 0..9 ; # a\nobject b as s at 0..9 ;\nend\n"
    wanted = head + (
        b"# tried, was: object a as s\n# tried, was:   at 0..9 ;\n"
        b"object a as s at 0..4 ; # a\nobject b as s at 0..9 ;\n# tried\norder b, a ;\nend\n"
    )
    given = with_statements(text, ["object a as s at 0..4 ;", "order b, a ;"], "tried")
    want(given.decode(), wanted.decode(), "the text")


def check_written(setting: Setting, folder: Path) -> None:
    """What --write leaves in the file gives a layout at once, and one of the problem as it was."""
    folder.mkdir()
    problem = folder / "tour.geost"
    old = (TOP / "examples" / "large" / "removal_tour.geost").read_bytes()
    problem.write_bytes(old)
    for _ in range(5):
        printed, status = search(setting, problem, "--write")
        want(status, 0, f"the status, with {printed}")
        if problem.read_bytes() != old:
            break
    answer = setting.program.ask(["first", "100000"], problem.read_bytes())
    want(answer.status, 0, "the status of the file that was written")
    want(
        setting.program.judge(old.decode(), answer.text).text, "good\n", "the verdict on its layout"
    )


def cases(setting: Setting, folder: Path) -> Cases:
    yield Case("portfolio: its ways", check_ways)
    yield Case("portfolio: what it learns", check_learning)
    yield Case("portfolio: what it repairs", check_repair)
    yield Case("portfolio: statements exchanged", check_edit)
    yield Case("portfolio: --write", lambda: check_written(setting, folder / "written"))
    yield Case("portfolio: its orders", check_orders)
    yield Case("portfolio: what comes before what", check_precedences)
    for problem in LARGE:
        yield Case(
            f"portfolio: {problem.stem}", lambda problem=problem: check_found(setting, problem)
        )
        yield Case(
            f"portfolio: file order of {problem.stem}",
            lambda problem=problem: check_file_order(setting, problem),
        )
    yield Case("portfolio: none", lambda: check_none(setting))
    yield Case("portfolio: out of time", lambda: check_given_up(setting, folder))
