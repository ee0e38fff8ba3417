"""Searches of more than a hundred thousand members, which are made again without a record: what
they answer, and that they hold no more memory than shorter ones."""

from __future__ import annotations

from pathlib import Path

from geost_memory import Held, run
from harness import Case, Cases, Failed, Setting, Skipped, want

RECORDED = 100_000
ENOUGH = 1_000_000
# each number of the first object but the last one has eight members of the walk, or more
LAST = 20_000
SECONDS = 30
# the walks differ by more than half; a record of all members would grow as much
MOST_GROWTH = 1.25

LAYOUT = f"""layout
a as s at {LAST}
p0 as s at 0
p1 as s at 1
p2 as s at 2
p3 as s at 3
"""


def late(exception: str) -> str:
    """An object on a line, and behind it four cubes, pairwise on different cells, in three cells;
    where the exception holds they may use a fourth one."""
    cubes = [f"p{number}" for number in range(4)]
    lines = ["geost 1 dims 1", "shape s box 0 size 1 ;", f"object a as s at 0..{LAST} ;"]
    lines += [f"object {cube} as s at 0..3 ;" for cube in cubes]
    for number, cube in enumerate(cubes):
        lines.append(f"rule low_{cube} : [ {cube}.x1 <= 2 or {exception} ] ;")
        for other in cubes[:number]:
            lines.append(f"rule {other}_{cube} : {other}.x1 != {cube}.x1 ;")
    return "\n".join([*lines, "end\n"])


AT_THE_END = late(f"a.x1 = {LAST}")
NOWHERE = late("false")


def ask(setting: Setting, words: list[str], text: str) -> Held:
    """The answer, with the memory that it took. An unproved build may be too slow for it."""
    try:
        return run(setting.program.path, words, text, SECONDS)
    except TimeoutError:
        raise Skipped(f"{' '.join(words)} takes longer than {SECONDS} seconds") from None


def check_found(setting: Setting) -> None:
    spent = ask(setting, ["first", str(RECORDED)], AT_THE_END)
    want(spent.text, f"budget {RECORDED}\n", "the answer within the members that are recorded")
    found = ask(setting, ["first", str(ENOUGH)], AT_THE_END)
    want(found.text.partition("token")[0], LAYOUT, "the answer")
    if found.megabytes > MOST_GROWTH * spent.megabytes:
        raise Failed(f"{found.megabytes} MB in place of {spent.megabytes} MB")


def check_none(setting: Setting) -> None:
    spent = ask(setting, ["first", str(RECORDED)], NOWHERE)
    want(spent.text, f"budget {RECORDED}\n", "the answer within the members that are recorded")
    none = ask(setting, ["first", str(ENOUGH)], NOWHERE)
    want(none.text.partition("\n")[0], "none", "the answer")
    want(ask(setting, ["check"], NOWHERE + none.text).text, "yes\n", "what check says")


def cases(setting: Setting, _top: Path) -> Cases:
    yield Case("memory: a layout far behind", lambda: check_found(setting))
    yield Case("memory: no layout in a long walk", lambda: check_none(setting))
