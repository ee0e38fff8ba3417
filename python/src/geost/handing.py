"""Layouts for people and other programs: tables, pictures, drawings and solids."""

from __future__ import annotations

from collections.abc import Callable
from dataclasses import replace
from pathlib import Path
from typing import TYPE_CHECKING

from geost import text as t
from geost.picture import OBJECT, Plan, placed_things
from geost.tables import csv_text, write_sheet
from geost.views import WIDTH, drawing_of, headline, plan_drawing, usual_view

if TYPE_CHECKING:
    from geost.layouts import Layout
    from geost.model import Problem

Write = Callable[["Layout", str, "str | None"], None]


# Tables


def records(layout: Layout) -> list[dict[str, object]]:
    """A row for each item in the sequence of the problem: its number, its name, the least corner of
    its cells, its lengths, and its attributes, with words where it has some. Lengths are cells, or
    in the unit of the problem where that has one."""
    problem = layout.problem
    back = problem.unit.back if problem.unit else lambda cells: cells
    words = {
        attribute: {number: word for word, number in known.items()}
        for attribute, known in problem.words.items()
    }
    found: list[dict[str, object]] = []
    for number, (item, placed) in enumerate(layout.items(), 1):
        row: dict[str, object] = {"number": number, "item": item}
        row |= {f"x{d}": back(at) for d, at in enumerate(placed.low, 1)}
        row |= {f"l{d}": back(size) for d, size in enumerate(placed.size, 1)}
        for attribute, value in placed.attributes.items():
            title = attribute if attribute not in row else f"{attribute} of the item"
            row[title] = words.get(attribute, {}).get(value, value)
        found.append(row)
    return found


def table(layout: Layout) -> list[list[object]]:
    """The records as rows below their titles."""
    rows = records(layout)
    titles = list(dict.fromkeys(title for row in rows for title in row))
    return [list(titles), *([row.get(title, "") for title in titles] for row in rows)]


# Pictures


def named(problem: Problem) -> t.Problem:
    """The shapes, objects and ranges of the problem in the names of the data, for pictures."""
    tree = problem.tree()
    objects = tuple(
        replace(
            thing,
            name=problem.objects.of(thing.name),
            attributes=tuple((problem.attributes.of(a), value) for a, value in thing.attributes),
        )
        for thing in tree.objects
    )
    return replace(tree, objects=objects)


def plan_of(layout: Layout) -> Plan:
    """The layout as a plan that is drawn, in the names of the data."""
    problem = layout.problem
    placed = [replace(one, name=problem.objects.of(one.name)) for one in layout.spelled]
    tree = named(problem)
    return Plan(tree, placed_things(tree, placed))


def svg(layout: Layout, by: str | None = None) -> str:
    """The picture of a layout: turned in three dimensions, from above in two, else a time line."""
    plan = plan_of(layout)
    view = usual_view(plan.problem.dims)
    return plan_drawing(plan, by or OBJECT, view).svg(f"a layout of {len(layout)} items")


def page(layout: Layout, title: str, by: str | None = None) -> str:
    """The page of the layout, as `tools/plan` makes it, with the rules that it breaks."""
    from geost.page import plan_page

    problem = layout.problem
    tree, labels = problem.shown(), dict(problem.objects.given)
    broken = tuple(
        replace(one, groups=tuple(tuple(map(problem.objects.of, group)) for group in one.groups))
        for one in problem.broken(layout.spelled)
    )
    shown = Plan(tree, placed_things(tree, list(layout.spelled)), broken)
    named_plan = replace(plan_of(layout), broken=broken)
    said, view = headline(shown), usual_view(tree.dims)
    paper = drawing_of(named_plan, title, by or OBJECT, "all").svg(title)
    colour = problem.attributes.spell(by) if by else OBJECT
    return plan_page(shown, title, said, view, colour, paper, labels)


# Files


def write_text(content: str, file: str) -> None:
    Path(file).write_text(content, encoding="utf-8")


def save_figure(layout: Layout, file: str, by: str | None) -> None:
    from geost.figures import figure

    figure(layout, by).savefig(file, dpi=120)


def save_drawing(layout: Layout, file: str, by: str | None) -> None:
    from geost.solids import write_dxf

    write_dxf(layout, file)


def save_solids(layout: Layout, file: str, by: str | None) -> None:
    from geost.solids import write_stl

    write_stl(layout, file)


ENDINGS: dict[str, Write] = {
    "plan": lambda layout, file, by: write_text(layout.block(), file),
    "csv": lambda layout, file, by: write_text(csv_text(table(layout)), file),
    "xlsx": lambda layout, file, by: write_sheet(table(layout), file, "layout"),
    "json": lambda layout, file, by: write_text(layout.problem.layout_json(layout), file),
    "svg": lambda layout, file, by: write_text(svg(layout, by), file),
    "html": lambda layout, file, by: write_text(page(layout, Path(file).stem, by), file),
    "png": save_figure,
    "pdf": save_figure,
    "dxf": save_drawing,
    "stl": save_solids,
}


def save(layout: Layout, file: str, by: str | None = None) -> None:
    """Writes a layout in the form that the ending of the file names."""
    ending = Path(file).suffix.removeprefix(".").lower()
    if ending not in ENDINGS:
        raise ValueError(f"{file}: no form has this ending: write one of {', '.join(ENDINGS)}")
    ENDINGS[ending](layout, file, by)
