"""A thousand random problems: what Python builds is answered as the text is that is written here by
itself, layouts keep every rule by the second meaning, and refusals name the line that made them."""

from __future__ import annotations

import os
from dataclasses import dataclass
from pathlib import Path
from typing import Any

import oracle
from hypothesis import HealthCheck, Phase, given, settings
from hypothesis import strategies as st
from lines import line

import geost
from geost import text as t
from geost.program import Program, usual_program

FILE = str(Path(__file__))
EXAMPLES = int(os.environ.get("GEOST_RANDOM_PROBLEMS", "1000"))
STEPS = "2000"
RELATIONS = ("<", "<=", "=", "!=", ">=", ">")
FAULTS = ("", "", "", "", "", "size", "range", "twice", "unknown", "limit", "product", "syntax")


@dataclass(frozen=True)
class Drawn:
    """A random problem as plain numbers, and the fault that it is given."""

    dims: int
    shapes: list[list[tuple[tuple[int, ...], tuple[int, ...]]]]
    objects: list[tuple[list[int], list[tuple[int, int]], int]]
    room: int
    comparisons: list[tuple[int, int, str, int, int]]
    counted: tuple[int, int] | None
    order: list[int]
    sides: list[str]
    fault: str


@st.composite
def problems(draw: Any) -> Drawn:
    dims = draw(st.integers(1, 3))
    sizes = st.tuples(*[st.integers(1, 3)] * dims)
    offsets = st.tuples(*[st.integers(-1, 1)] * dims)
    boxes = st.lists(st.tuples(offsets, sizes), min_size=1, max_size=2)
    shapes = draw(st.lists(boxes, min_size=1, max_size=3))
    spans = st.tuples(st.integers(-1, 2), st.integers(0, 3)).map(lambda two: (two[0], sum(two)))
    places = st.lists(st.integers(0, len(shapes) - 1), min_size=1, max_size=2, unique=True)
    one = st.tuples(places, st.lists(spans, min_size=dims, max_size=dims), st.integers(-2, 2))
    objects = draw(st.lists(one, min_size=1, max_size=4))
    number = st.integers(0, len(objects) - 1)
    compared = st.tuples(
        number, number, st.sampled_from(RELATIONS), st.integers(-2, 2), st.integers(1, dims)
    )
    return Drawn(
        dims,
        shapes,
        objects,
        draw(st.integers(2, 5)),
        draw(st.lists(compared, max_size=2)),
        draw(st.none() | st.tuples(st.integers(0, 2), st.integers(0, 2))),
        draw(st.permutations(range(len(objects)))),
        draw(st.lists(st.sampled_from(["low", "high"]), min_size=dims, max_size=dims)),
        draw(st.sampled_from(FAULTS)),
    )


def numbers(values: tuple[int, ...]) -> str:
    return " ".join(map(str, values))


def written(drawn: Drawn) -> str:
    """The text, written from the numbers alone."""
    lines = [f"geost 1 dims {drawn.dims}"]
    for number, boxes in enumerate(drawn.shapes):
        spelled = " ".join(f"box {numbers(at)} size {numbers(size)}" for at, size in boxes)
        lines.append(f"shape s{number} {spelled} ;")
    if drawn.fault == "size":
        lines.append(f"shape bad box {'0 ' * drawn.dims} size {'0 ' * drawn.dims} ;")
    for number, (shapes, ranges, weight) in enumerate(drawn.objects):
        spans = " ".join(f"{low}..{high}" for low, high in ranges)
        names = ", ".join(f"s{shape}" for shape in shapes)
        lines.append(f"object o{number} as {names} at {spans} with weight = {weight} ;")
    spans = "0..0 " * drawn.dims
    if drawn.fault in ("range", "twice", "unknown", "limit"):
        name = "o0" if drawn.fault == "twice" else "bad"
        shape = "s99" if drawn.fault == "unknown" else "s0"
        bad = {"range": "1..0 " * drawn.dims, "limit": spans + "0..0"}.get(drawn.fault, spans)
        lines.append(f"object {name} as {shape} at {bad} ;")
    lines.append(f"order {', '.join(f'o{number}' for number in drawn.order)} ;")
    lines.append(f"sides {' '.join(drawn.sides)} ;")
    lines += ["rule free : apart ;", f"rule room : within {f'0..{drawn.room} ' * drawn.dims} ;"]
    for number, (one, other, relation, more, axis) in enumerate(drawn.comparisons):
        left, right = f"o{one}.x{axis} + {abs(more)}", f"o{other}.x{axis} + o{one}.weight"
        sum_of = left if more >= 0 else left.replace("+", "-")
        lines.append(f"rule r{number} : {sum_of} {relation} {right} ;")
    if drawn.counted is not None:
        count, least = drawn.counted
        lines.append(f"rule few : atmost {count} p in objects : p.x1 + p.weight >= {least} ;")
    if drawn.fault == "product":
        lines.append("rule bad : o0.x1 * o0.x1 <= 3 ;")
    if drawn.fault == "syntax":
        lines.append("rule bad : o0.x1 <= ;")
    return "\n".join([*lines, "end"]) + "\n"


COMPARED: dict[str, Any] = {
    "<": lambda a, b: a < b,
    "<=": lambda a, b: a <= b,
    "=": lambda a, b: a == b,
    "!=": lambda a, b: a != b,
    ">=": lambda a, b: a >= b,
    ">": lambda a, b: a > b,
}


def built(drawn: Drawn) -> geost.Problem:
    """The same problem by the package."""
    plan = geost.Problem(drawn.dims)
    for number, boxes in enumerate(drawn.shapes):
        plan.shape(f"s{number}", *boxes)
    for number, (shapes, ranges, weight) in enumerate(drawn.objects):
        names = [f"s{shape}" for shape in shapes]
        plan.object(f"o{number}", names, ranges, weight=weight)
    plan.order = tuple(f"o{number}" for number in drawn.order)
    plan.sides = tuple(drawn.sides)
    plan.rule("free", geost.apart())
    plan.rule("room", geost.within(*[(0, drawn.room)] * drawn.dims))
    for number, (one, other, relation, more, axis) in enumerate(drawn.comparisons):
        p, q = geost.Thing(f"o{one}"), geost.Thing(f"o{other}")
        at = p[f"x{axis}"]
        left = at + more if more >= 0 else at - -more
        plan.rule(f"r{number}", COMPARED[relation](left, q[f"x{axis}"] + p.weight))
    if drawn.counted is not None:
        count, least = drawn.counted
        plan.rule("few", geost.at_most(count, lambda p: p.x1 + p.weight >= least))
    return plan


def with_fault(plan: geost.Problem, drawn: Drawn) -> int:
    """Gives the problem its fault, and the line that does it."""
    spans = [(0, 0)] * drawn.dims
    match drawn.fault:
        case "size":
            plan.shape("bad", (0,) * drawn.dims)
            return line() - 1
        case "range":
            plan.object("bad", "s0", [(1, 0)] * drawn.dims)
            return line() - 1
        case "twice":
            plan.object("o0", "s0", spans)
            return line() - 1
        case "unknown":
            plan.object("bad", "s99", spans)
            return line() - 1
        case "limit":
            plan.object("bad", "s0", [*spans, (0, 0)])
            return line() - 1
        case "product":
            plan.rule("bad", geost.Thing("o0").x1 * geost.Thing("o0").x1 <= 3)
            return line() - 1
        case "syntax":
            plan.rule("bad", "o0.x1 <= ")
            return line() - 1
    return 0


@settings(
    max_examples=EXAMPLES,
    deadline=None,
    suppress_health_check=list(HealthCheck),
    phases=[Phase.explicit, Phase.generate],
)
@given(problems())
def test_answers_are_those_of_the_program(drawn: Drawn) -> None:
    answer = Program(usual_program()).ask(["first", STEPS], written(drawn).encode())
    plan = built(drawn)
    at = with_fault(plan, drawn)
    try:
        found = plan.first(int(STEPS))
    except geost.Refused as refused:
        assert answer.words()[0] == "refused" and answer.words()[2] == refused.word
        assert drawn.fault and refused.where == geost.Where(FILE, at)
        return
    if found.layout is not None:
        assert found.layout.block() == answer.text
        tree = t.read_problem(written(drawn).encode())
        assert oracle.broken_rules(tree, list(found.layout.spelled)) == []
    elif found.status is geost.Status.NONE:
        assert answer.text == found.derivation
    else:
        assert answer.text == f"budget {STEPS}\n"
