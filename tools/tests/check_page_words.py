"""The page's scripts say of texts and plans what tools/explain says: under node, of examples that
were changed at random, what is refused and what may be meant; of plans that were changed at random,
which objects break which rule."""

from __future__ import annotations

import json
import random
import shutil
import subprocess
from concurrent.futures import ThreadPoolExecutor
from dataclasses import dataclass
from pathlib import Path
from typing import Any

from geost.page import SOURCE, constant, language_data
from geost.picture import broken_rules
from geost.refusals import Source, explain_refusal
from geost.text import Object, Placed, absent, print_layout, read_layout, read_problem
from geost.tokens import read_tokens
from harness import TOP, Case, Cases, Failed, Setting, Skipped, want

EXAMPLES = TOP / "examples"
SCRIPTS = (
    "cells.js colours.js flat.js tokens.js grammar.js formulas.js blame.js slips.js products.js "
    "refusals.js"
).split()
MOST_TEXTS = 400
MOST_PLANS = 12
SPOT_LINES = 3  # of an explanation, which the page shows by a mark
PIECES = (
    "; , . .. ( ) [ ] - + * @ $ = <= and or not forall rule shape end x1 weight 7 3k ö & crate p "
    "absent"
).split()
SMALL = (
    "rack_of_four",
    "schedule",
    "kitchen",
    "corners_in_a_container",
    "stacked_crates",
    "server_rack",
    "next_lorry",
)


@dataclass(frozen=True)
class Refused:
    """A text that the program refuses, with the layout behind it, if any."""

    word: str
    place: int
    problem: str
    second: str | None

    def explained(self) -> list[str]:
        front = self.problem.encode()
        sources = [Source("problem", front)]
        if self.second is not None:
            sources.append(Source("plan", self.second.encode(), len(front)))
        second_from = None if self.second is None else len(front)
        return explain_refusal(self.word, self.place, sources, second_from)[SPOT_LINES:]


@dataclass(frozen=True)
class Broken:
    """A problem as it is shown, and a layout of it."""

    shown: str
    layout: str


def changed(text: str, chance: random.Random) -> str:
    """The text with one token changed, left out, said twice or set before another."""
    token = chance.choice(read_tokens(text.encode(), strict=False))
    front, spelled, rest = text[: token.start], text[token.start : token.end], text[token.end :]
    match chance.randrange(4):
        case 0:
            return front + rest
        case 1:
            return f"{front}{chance.choice(PIECES)} {spelled}{rest}"
        case 2:
            return front + spelled[:-1] + chance.choice("abxyz019") + rest
    return front + chance.choice(PIECES) + rest


def refused_texts(setting: Setting) -> list[Refused]:
    """Problems, and layouts behind problems, that the program refuses."""
    chance = random.Random("words of the page")
    texts: list[tuple[str, str | None]] = []
    for _ in range(MOST_TEXTS):
        name = chance.choice(SMALL)
        problem = (EXAMPLES / f"{name}.geost").read_text(encoding="utf-8")
        layout = (EXAMPLES / f"{name}.answer").read_text(encoding="utf-8")
        is_plan = chance.random() < 0.3
        texts.append(
            (problem, changed(layout, chance)) if is_plan else (changed(problem, chance), None)
        )
    with ThreadPoolExecutor(setting.processors) as pool:
        found = list(pool.map(lambda pair: refused(setting, *pair), texts))
    return [one for one in found if one is not None]


def refused(setting: Setting, problem: str, second: str | None) -> Refused | None:
    words = ["show"] if second is None else ["judge"]
    answer = setting.program.ask(words, (problem + (second or "")).encode())
    match answer.words():
        case ["refused", place, word]:
            return Refused(word, int(place), problem, second)
    return None


def moved_plans(setting: Setting) -> list[Broken]:
    """Answers and plans of the examples with an object or two moved, as far as ranges allow it."""
    chance = random.Random("plans of the page")
    found: list[Broken] = []
    for _ in range(MOST_PLANS):
        name = chance.choice(SMALL)
        shown = setting.program.ask(["show"], (EXAMPLES / f"{name}.geost").read_bytes()).text
        problem = read_problem(shown.encode())
        layout = read_layout((EXAMPLES / f"{name}.answer").read_bytes())
        for _ in range(2):
            at = chance.randrange(len(layout))
            layout[at] = moved(chance, problem.object(layout[at].name), layout[at])
        found.append(Broken(shown, print_layout(layout)))
    return found


def moved(chance: random.Random, thing: Object, placed: Placed) -> Placed:
    """The object elsewhere, or left out where it may be."""
    if thing.may_be_absent and not placed.is_absent and chance.random() < 0.3:
        return absent(thing.name)
    shape = thing.shapes[0] if placed.is_absent else placed.shape
    origin = tuple(chance.randint(*chance.choice(pieces)) for pieces in thing.pieces)
    return Placed(thing.name, shape, origin)


def said_by_scripts(
    setting: Setting, refusals: list[Refused], plans: list[Broken], folder: Path
) -> dict[str, list[Any]]:
    if shutil.which("node") is None:
        raise Skipped("node is not installed")
    folder.mkdir()
    given = {
        "program": setting.program.path,
        "refusals": [vars(one) for one in refusals],
        "plans": [vars(one) for one in plans],
    }
    scripts = [(SOURCE / name).read_text(encoding="utf-8") for name in SCRIPTS]
    driver = (TOP / "tools" / "tests" / "explain_texts.js").read_text(encoding="utf-8")
    file = folder / "explain.js"
    constants = [constant("LANGUAGE", language_data()), constant("GIVEN", given)]
    file.write_text("\n".join([*constants, *scripts, driver]), encoding="utf-8")
    done = subprocess.run(["node", str(file)], stdout=subprocess.PIPE, timeout=300)
    want(done.returncode, 0, "the status of node")
    found: dict[str, list[Any]] = json.loads(done.stdout)
    return found


def check_refusals(setting: Setting, folder: Path) -> None:
    refusals = refused_texts(setting)
    if len(refusals) < MOST_TEXTS // 2:
        raise Failed(f"only {len(refusals)} texts are refused")
    said = said_by_scripts(setting, refusals, [], folder)["refusals"]
    for refusal, lines in zip(refusals, said):
        if lines != refusal.explained():
            told = "\n".join(map(str, lines))
            wanted = "\n".join(refusal.explained())
            where = (refusal.problem + (refusal.second or ""))[max(0, refusal.place - 60) :][:90]
            raise Failed(
                f"{refusal.word} at {where!r}: the page says\n{told}\nin place of\n{wanted}"
            )


def check_blame(setting: Setting, folder: Path) -> None:
    plans = moved_plans(setting)
    said = said_by_scripts(setting, [], plans, folder)["plans"]
    count = 0
    for plan, found in zip(plans, said):
        problem, layout = read_problem(plan.shown.encode()), read_layout(plan.layout.encode())
        broken = broken_rules(setting.program, problem, layout)
        wanted = [[one.name, sorted(sorted(group) for group in one.groups)] for one in broken]
        given = [[name, sorted(sorted(group) for group in groups)] for name, groups in found]
        want(given, wanted, f"what the page blames in\n{plan.layout}")
        count += len(broken)
    if count < MOST_PLANS:
        raise Failed(f"only {count} rules are broken in {MOST_PLANS} plans")


def cases(setting: Setting, folder: Path) -> Cases:
    yield Case("page words: refusals", lambda: check_refusals(setting, folder / "page_words"))
    yield Case("page words: blame", lambda: check_blame(setting, folder / "page_blame"))
