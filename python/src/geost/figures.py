"""Figures of layouts by matplotlib, for PNG and PDF."""

from __future__ import annotations

from typing import TYPE_CHECKING, Any

from geost.handing import plan_of
from geost.picture import OBJECT, Plan, frame_of, palette_of

if TYPE_CHECKING:
    from geost.layouts import Layout

WIDE, HIGH = 10, 6.5  # inches


def figure(layout: Layout, by: str | None = None) -> Any:
    """A figure of matplotlib: solid boxes from three dimensions on, else rectangles; of one
    dimension each item has a line of its own. `by` is the attribute by which it is coloured."""
    from matplotlib.figure import Figure

    plan = plan_of(layout)
    made = Figure(figsize=(WIDE, HIGH))
    if plan.problem.dims >= 3:
        add_solids(made.add_subplot(projection="3d"), plan, by or OBJECT)
    else:
        add_rectangles(made.add_subplot(), plan, by or OBJECT)
    return made


def add_rectangles(axes: Any, plan: Plan, by: str) -> None:
    from matplotlib.patches import Rectangle

    palette, is_line = palette_of(plan.things, by), plan.problem.dims == 1
    for number, thing in enumerate(plan.things):
        for box in thing.boxes:
            left, bottom, right, top = box.rect(0, 0 if is_line else 1)
            if is_line:
                bottom, top = number, number + 1
            size = (right - left, top - bottom)
            patch = Rectangle((left, bottom), *size, facecolor=palette.of(thing), edgecolor="black")
            axes.add_patch(patch)
            middle = (left + size[0] / 2, bottom + size[1] / 2)
            axes.text(*middle, thing.name, ha="center", va="center", fontsize=7)
    frame = frame_of(plan)
    axes.set_xlim(frame.low[0], frame.high[0])
    axes.set_ylim(*((0, len(plan.things)) if is_line else (frame.low[1], frame.high[1])))
    axes.set_aspect("auto" if is_line else "equal")


def add_solids(axes: Any, plan: Plan, by: str) -> None:
    palette, frame = palette_of(plan.things, by), frame_of(plan)
    for thing in plan.things:
        for box in thing.boxes:
            sizes = [high - low for low, high in zip(box.low, box.high)]
            colour = palette.of(thing)
            axes.bar3d(*box.low[:3], *sizes[:3], color=colour, edgecolor="black", linewidth=0.3)
    for set_limits, d in ((axes.set_xlim, 0), (axes.set_ylim, 1), (axes.set_zlim, 2)):
        set_limits(frame.low[d], frame.high[d])
    axes.set_box_aspect([frame.high[d] - frame.low[d] for d in range(3)])
