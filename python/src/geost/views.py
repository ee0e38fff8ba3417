"""The views of a plan, of which a picture is made."""

from __future__ import annotations

import re

from geost.drawing import (
    Drawing,
    Look,
    Plane,
    draw_layers,
    draw_legend,
    draw_lines,
    draw_plane,
    draw_sides,
    draw_table,
    draw_time,
    stacked,
)
from geost.picture import Plan, broken_rules, palette_of, placed_things
from geost.program import REFUSED, Program
from geost.refusals import Source, explain_refusal
from geost.solid import draw_solids
from geost.text import read_layout, read_problem

VIEWS = ("solid", "plan", "layers", "sides", "time", "table", "all")
WIDTH = 980.0
SAID_VIEW = re.compile(r"^#\s*view\s+(\w+)\s*$", re.MULTILINE)


class RefusedText(Exception):
    """The program refuses a text; the lines explain it."""


def read_plan(program: Program, files: tuple[str, str], texts: tuple[bytes, bytes]) -> Plan:
    """The plan as the program reads it, with every rule that it breaks."""
    problem_text = texts[0] if texts[0].endswith(b"\n") else texts[0] + b"\n"
    problem_source = Source(files[0], problem_text)
    shown = program.ask(["show"], problem_text)
    if shown.status == REFUSED:
        _, place, word = shown.words()
        raise RefusedText("\n".join(explain_refusal(word, int(place), [problem_source], None)))
    verdict = program.ask(["judge"], problem_text + texts[1])
    if verdict.status == REFUSED:
        _, place, word = verdict.words()
        sources = [problem_source, Source(files[1], texts[1], len(problem_text))]
        lines = explain_refusal(word, int(place), sources, len(problem_text))
        raise RefusedText("\n".join(lines))
    problem, layout = read_problem(shown.text.encode()), read_layout(texts[1])
    broken = broken_rules(program, problem, layout) if verdict.words()[:1] == ["broken"] else ()
    return Plan(problem, placed_things(problem, layout), broken)


def asked_view(asked: str | None, text: bytes, dims: int) -> str:
    """The view of the option, else that of the problem's own line, else that of its dimensions."""
    said = SAID_VIEW.search(text.decode("utf-8", errors="replace"))
    if asked is not None:
        return asked
    return said[1] if said and said[1] in VIEWS else usual_view(dims)


def usual_view(dims: int) -> str:
    return "solid" if dims >= 3 else "plan" if dims == 2 else "time"


def drawings_of(plan: Plan, look: Look, view: str) -> list[Drawing]:
    """The drawings of a view; one that the dimensions do not have is answered by `time`."""
    dims = plan.problem.dims
    if view == "solid" and dims >= 3:
        return draw_solids(plan, look, (WIDTH, 620))
    if view == "plan" and dims >= 2:
        return [draw_plane(plan, look, Plane(0, 1, 2 if dims > 2 else None), (WIDTH, 640))]
    if view == "layers" and dims >= 3:
        return draw_layers(plan, look, (480, 360))
    if view == "sides" and dims >= 3:
        return draw_sides(plan, look, (480, 360))
    if view == "table":
        return [draw_table(plan, look)]
    return [draw_time(plan, look, WIDTH)]


def views_of(view: str, dims: int) -> list[str]:
    if view != "all":
        return [view]
    return (
        ["solid", "sides", "layers", "time", "table"]
        if dims >= 3
        else ["plan", "time", "table"][2 - dims :]
    )


def headline(plan: Plan) -> str:
    if plan.broken:
        return f"the plan breaks {len(plan.broken)} of {len(plan.problem.rules)} rules"
    return "every rule holds"


def said_of_rules(plan: Plan) -> list[tuple[str, str]]:
    lines: list[tuple[str, str]] = []
    for broken in plan.broken:
        groups = "; ".join(" and ".join(group) or "all objects together" for group in broken.groups)
        lines.append((f"rule {broken.name} is broken by {groups}", "line bad"))
    return lines


def drawing_of(plan: Plan, title: str, colour: str, view: str) -> Drawing:
    """A drawing with a title above it, and what is said of the rules."""
    words = [(title, "head"), (headline(plan), "line"), *said_of_rules(plan)]
    return stacked([draw_lines(words, WIDTH), *parts_of(plan, colour, view)], 0)


def plan_drawing(plan: Plan, colour: str, view: str) -> Drawing:
    """A drawing without words but the legend."""
    return stacked(parts_of(plan, colour, view), 0)


def parts_of(plan: Plan, colour: str, view: str) -> list[Drawing]:
    """The views of a plan, and a legend."""
    palette = palette_of(plan.things, colour)
    look = Look(palette, frozenset(plan.blamed()))
    views = views_of(view, plan.problem.dims)
    drawings = [stacked(drawings_of(plan, look, one), WIDTH + 20) for one in views]
    return [*drawings, draw_legend(palette, WIDTH)]
