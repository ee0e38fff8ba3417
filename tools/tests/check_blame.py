"""Faults that were planted in plans are traced to their objects. What is wanted was worked out by hand."""

from __future__ import annotations

from collections.abc import Iterator
from dataclasses import dataclass, replace
from pathlib import Path

from geost.program import Program
from harness import TOP, Case, Cases, Failed, Setting, run_tool, want

EXAMPLES = TOP / "examples"


@dataclass(frozen=True)
class Planted:
    """A wrong plan of the examples, and for each rule that it breaks the sets of objects that do it, each as words."""

    problem: str
    plan: str
    rules: dict[str, set[str]]


PLANTED = [
    Planted("warehouse", "warehouse_heavy", {"heavy": {"a4 c2"}, "support": {"b1"}}),
    Planted("shelf_rack", "shelf_rack_leaks", {"leaks": {"flour soap", "bleach flour", "bleach sugar", "paint sugar", "paint rice"}}),
    Planted("container_with_turned_crates", "container_with_turned_crates_overlap", {"free": {"three two", "four three"}}),
    Planted("kitchen", "kitchen_hot", {"cool": {"fridge stove"}}),
    Planted("schedule", "schedule_wet", {"dry": {"pack paint"}}),
    Planted(
        "tour_with_unloading_order",
        "tour_with_unloading_order_behind",
        {"last_in_first_out": {"piano sofa", "chest desk", "desk fridge", "bed piano"}},
    ),
    Planted("stacked_crates", "stacked_crates_overhang", {"borne": {"tins", "glass"}}),
    Planted("six_drums", "six_drums_overlap", {"free": {"d3 d5", "d4 d6"}}),
    Planted("server_rack", "server_rack_air", {"air": {"router store"}, "cables": {"router switch"}}),
    Planted("pallets_in_millimetres", "pallets_in_millimetres_jut", {"floor": {"p6"}}),
    # tiles and racks are absent, and so no part of a count; stove and boiler are named by the rule
    Planted("next_lorry", "next_lorry_heavy", {"axle": {"boiler piano stove"}}),
    Planted("next_lorry", "next_lorry_alone", {"pair": {"boiler stove"}}),
    Planted("truck_with_axle_zones", "truck_with_axle_zones_front", {"front_axle": {"p1 p2 p3"}, "balance": {""}}),
]


def blamed(printed: str) -> dict[str, set[str]]:
    """The rules of an explanation, each with its sets of objects as sorted words; the empty word where it names none."""
    found: dict[str, set[str]] = {}
    rule = ""
    for line in printed.splitlines():
        if line.startswith("rule "):
            rule = line.removeprefix("rule ").rstrip(":")
            found[rule] = set()
        elif line.startswith("  no single objects"):
            found[rule].add("")
        elif line.startswith("  ") and not line.startswith("   "):
            found[rule].add(" ".join(sorted(line.strip().split(" and "))))
    return found


def check(setting: Setting, planted: Planted) -> None:
    files = [str(EXAMPLES / f"{planted.problem}.geost"), str(EXAMPLES / f"{planted.plan}.plan")]
    printed, status = run_tool("explain", setting, ["judge", *files])
    want(status, 1, "status")
    want(printed.splitlines()[0], (EXAMPLES / f"{planted.plan}.judged").read_text().strip(), "the program's verdict")
    want(blamed(printed), planted.rules, "the objects that break each rule")


# A hall of sixty crates in twenty stacks of three, with a fault in the plan for each rule

CRATES = 60
MOST_RUNS = 8
HALL_RULES = """
macro on(p : object, q : object) means
  p.x3 = q.x3 + 2 and p.x1 < q.x1 + 2 and q.x1 < p.x1 + 2 and p.x2 < q.x2 + 2 and q.x2 < p.x2 + 2 ;
rule hall : within 0..9 0..7 0..9 ;
rule free : apart ;
rule heavy : forall p in objects : forall q in objects : [ p.weight > q.weight implies not @on(p, q) ] ;
rule borne : forall p in objects : [ p.x3 = 0 or exists q in objects : @on(p, q) ] ;
rule stacks : atmost 20 p in objects : p.x3 = 0 ;
end
"""
# c1 juts out of the hall, c42 is pushed into c41, c45 is heavier than c25 below it, c60 floats
MOVED = {1: (-1, 0, 0), 42: (1, 0, 4), 60: (8, 6, 5)}
HEAVIER = {45: 40}
HALL_FAULTS = {"hall": {"c1"}, "free": {"c41 c42"}, "heavy": {"c25 c45"}, "borne": {"c60"}}


def hall() -> str:
    lines = ["geost 1 dims 3", "shape crate box 0 0 0 size 2 2 2 ;"]
    for number in range(1, CRATES + 1):
        weight = HEAVIER.get(number, 30 - 10 * ((number - 1) // 20))
        lines.append(f"object c{number} as crate at -1..9 0..9 0..9 with weight = {weight} ;")
    return "\n".join(lines) + HALL_RULES


def hall_plan() -> Iterator[str]:
    yield "layout"
    for number in range(1, CRATES + 1):
        level, stack = divmod(number - 1, 20)
        place = MOVED.get(number, (2 * (stack % 5), 2 * (stack // 5), 2 * level))
        yield f"c{number} as crate at {' '.join(map(str, place))}"


def check_hall(setting: Setting, folder: Path) -> None:
    """All faults are found, by few runs of the program."""
    folder.mkdir()
    (folder / "hall.geost").write_text(hall())
    (folder / "hall.plan").write_text("\n".join(hall_plan()) + "\n")
    counting = folder / "counting"
    counting.write_text(f"#!/bin/sh\necho run >> '{folder}/runs'\nexec '{setting.program.path}' \"$@\"\n")
    counting.chmod(0o755)
    files = [str(folder / "hall.geost"), str(folder / "hall.plan")]
    printed, status = run_tool("explain", replace(setting, program=Program(str(counting))), ["judge", *files])
    want(status, 1, "status")
    want(blamed(printed), HALL_FAULTS, "the objects that break each rule")
    runs = len((folder / "runs").read_text().splitlines())
    if runs > MOST_RUNS:
        raise Failed(f"{runs} runs of the program, and {MOST_RUNS} at most are wanted")


def cases(setting: Setting, folder: Path) -> Cases:
    yield Case("blame a hall of sixty crates", lambda: check_hall(setting, folder / "hall"))
    for planted in PLANTED:
        yield Case(f"blame {planted.plan}", lambda planted=planted: check(setting, planted))
