"""Pages as single files: a template of tools/page/source with style, scripts and data in it."""

from __future__ import annotations

import json
import re
from dataclasses import asdict
from html import escape

from geost.files import file_of
from geost.grammar import GRAMMAR
from geost.picture import Broken, Plan
from geost.refusals import Row, format_rows
from geost.slips import BEFORE_FORMULAS, CLASSES, NAMED, known_slips
from geost.text import Placed, print_layout, print_problem
from geost.tokens import RESERVED

SOURCE = file_of("tools/page/source")
PICTURE_SCRIPTS = ("cells.js", "colours.js", "flat.js", "solid.js", "picture.js", "turning.js")
STYLES = ("style.css", "drawing.css")


def source(name: str) -> str:
    return (SOURCE / name).read_text(encoding="utf-8")


def styles(*names: str) -> str:
    return "\n".join(source(name) for name in names)


def constant(name: str, value: object) -> str:
    """A line of a script that gives a value a name."""
    return f"const {name} = {json.dumps(value)};"


def script_safe(script: str) -> str:
    """The script as it may stand in a page, which would end at these letters."""
    return script.replace("</script", "<\\/script").replace("<!--", "<\\!--")


def filled(template: str, parts: dict[str, str]) -> str:
    """The template with parts in place of its marks, each of which it has."""
    missing = [mark for mark in parts if mark not in template]
    if missing:
        raise ValueError(f"the template has no {', '.join(missing)}")
    marks = re.compile("|".join(re.escape(mark) for mark in parts))
    return marks.sub(lambda match: parts[match.group()], template)


def language_data() -> dict[str, object]:
    """What the page's scripts have of the language from the files that the other tools read."""
    rows = {kind.value: [row_data(row) for row in rows] for kind, rows in format_rows().items()}
    slips = {
        "classes": CLASSES,
        "named": NAMED,
        "beforeFormulas": BEFORE_FORMULAS,
        "known": [asdict(slip) for slip in known_slips()],
    }
    grammar = GRAMMAR.read_text(encoding="utf-8")
    return {"reserved": RESERVED, "grammar": grammar, "rows": rows, "slips": slips}


def row_data(row: Row) -> dict[str, object]:
    return {"words": row.words, "where": row.where, "advice": row.advice}


def broken_data(broken: Broken) -> dict[str, object]:
    return {
        "name": broken.name,
        "line": broken.statement,
        "names": broken.names(),
        "groups": broken.groups,
        "isApart": broken.is_apart,
    }


def plan_page(
    plan: Plan,
    title: str,
    headline: str,
    view: str,
    colour: str,
    paper: str,
    labels: dict[str, str] | None = None,
) -> str:
    """The page of one plan. `paper` is what is printed, and shown where no script runs; `labels`
    are the names that are shown for those of the text, where there are others."""
    layout = [Placed(thing.name, thing.shape, thing.origin) for thing in plan.things]
    data: dict[str, object] = {
        "problem": print_problem(plan.problem),
        "layout": print_layout(layout),
        "broken": [broken_data(broken) for broken in plan.broken],
        "view": view,
        "colour": colour,
        **({"labels": labels} if labels else {}),
    }
    scripts = [constant("PLAN", data), *map(source, PICTURE_SCRIPTS), source("plan.js")]
    return filled(
        source("plan.html"),
        {
            "TITLE": escape(title),
            "HEADLINE": escape(headline),
            "/*STYLE*/": styles(*STYLES),
            "<!--PICTURE-->": source("picture.html"),
            "<!--PAPER-->": paper,
            "/*SCRIPT*/": "\n".join(map(script_safe, scripts)),
        },
    )
