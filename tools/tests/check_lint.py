"""`lint` is silent on the examples and names each planted slip."""

from __future__ import annotations

from dataclasses import dataclass
from pathlib import Path

from harness import TOP, Case, Cases, Setting, Skipped, is_unproved, run_tool, want


@dataclass(frozen=True)
class Slip:
    """A problem with one slip, and a part of each line that is wanted, in their sequence."""

    name: str
    text: str
    warnings: tuple[str, ...]


ROOM = "rule room : within 0..7 0..3 ;\nrule free : apart ;\nend\n"
HEAD = "geost 1 dims 2\nshape s box 0 0 size 2 1 ;\n"


def objects(*tails: str) -> str:
    return "".join(f"object o{number} as s at 0..7 0..3{tail} ;\n" for number, tail in enumerate(tails, 1))


SLIPS = [
    Slip(
        "a misspelled attribute",
        HEAD + objects(" with weight = 3", " with weight = 4", " with wieght = 5") + "rule w : forall p in objects : p.x1 >= p.weight ;\n" + ROOM,
        ("`wieght` is listed by `o3` alone", "`weight` and `wieght` have nearly the same name"),
    ),
    Slip(
        "an attribute of one object",
        HEAD + objects(" with weight = 3", " with weight = 4, color = 2") + ROOM,
        ("`color` is listed by `o2` alone",),
    ),
    Slip(
        "an attribute that one leaves out",
        HEAD + objects(*[" with weight = 3"] * 4, "") + "rule w : forall p in objects : p.x1 >= p.weight - 1 ;\n" + ROOM,
        ("`weight` is not listed by `o5`",),
    ),
    Slip("a range that is too wide", HEAD + objects("") + "object far as s at 0..70 0..3 ;\n" + ROOM, ("x1 of `far` in 0..70: above 6",)),
    Slip("a range that begins outside", HEAD + objects("") + "object far as s at -2..7 0..3 ;\n" + ROOM, ("x1 of `far` in -2..7: below 0",)),
    Slip("a range wholly outside", HEAD + objects("", "") + "object far as s at 0..7 4..9 ;\n" + ROOM, ("x2 of `far` in 4..9: at no place",)),
    Slip("more cells than room", HEAD + objects(*[""] * 17) + ROOM, ("34 cells at least, and there are 32",)),
    Slip(
        "lengths with a common divisor",
        "geost 1 dims 1\nshape s box 0 size 300 ;\nobject a as s at 0..899 ;\nobject b as s at 0..899 ;\n"
        "rule free : apart ;\nrule gap : b.x1 >= a.x1 + 450 ;\nend\n",
        ("dimension 1 are multiples of 150",),
    ),
    Slip(
        "a rule that says nothing",
        HEAD + objects(" with weight = 3", " with weight = 4") + "rule w : forall p in objects : [ p.weight > 9 implies p.x1 = 0 ] ;\n" + ROOM,
        ("the rule `w` is broken by no placement",),
    ),
    Slip("a room that the ranges keep", HEAD + objects("", "") + "rule hall : within 0..99 0..99 ;\n" + ROOM, ("the rule `hall` is broken by no",)),
    Slip("lengths without a common divisor", "geost 1 dims 1\nshape s box 0 size 300 ;\nobject a as s at 0..899 ;\nrule gap : a.x1 >= 7 ;\nend\n", ()),
]


# Thirty crates that may stand on any other, in a room in which a short search comes to no end: at the
# low end of x2 there is no room for the last, and no step says so before it
MANY = 30
BY_ANY = ("container_of_two_stops",)
SUPPORT_HEAD = "geost 1 dims 2\nshape s box 0 0 size 2 1 ;\nshape t box 0 0 size 1 2 ;\n"
SUPPORT_RULES = (
    "macro on(p : object, q : object) means\n"
    "  exists t in boxes of q : [ p.x2 = q.x2 + t.l2 and p.x1 < q.x1 + t.l1 and q.x1 < p.x1 + 1 ] ;\n"
    "rule room : within 0..9 0..5 ;\nrule free : apart ;\n"
    "rule borne : forall p in objects : [ p.x2 = 0 or exists q in objects : @on(p, q) ] ;\n"
    "rule late : o29.x2 = 0 and o30.x2 = 0 and o28.x2 = 0 and o27.x2 = 0 ;\nend\n"
)


def support_by_any() -> str:
    things = (f"object o{number} as s, t at 0..9 0..5 ;\n" for number in range(1, MANY + 1))
    return SUPPORT_HEAD + "".join(things) + SUPPORT_RULES


def check_slip(setting: Setting, slip: Slip) -> None:
    printed, status = run_tool("lint", setting, ["-"], slip.text)
    lines = printed.splitlines()
    want(status, 1 if slip.warnings else 0, f"status, with {printed}")
    want(len(lines), len(slip.warnings), f"the number of lines of {printed}")
    want([part for part, line in zip(slip.warnings, lines) if part not in line], [], f"what is missing in {printed}")


def check_silent(setting: Setting, problem: Path) -> None:
    want(run_tool("lint", setting, [str(problem)]), ("", 0), "what lint prints")


def check_by_any(setting: Setting, problem: Path) -> None:
    """Of this example nothing is said but that any other carton may bear one."""
    if is_unproved(setting.program):
        raise Skipped("an unproved build takes minutes for it")
    printed, status = run_tool("lint", setting, [str(problem)])
    want((len(printed.splitlines()), status), (1, 1), f"the lines and the status of {printed}")
    want("`borne` is kept by any other object" in printed, True, f"the warning in {printed}")


def cases(setting: Setting, folder: Path) -> Cases:
    by_any = Slip("support by any", support_by_any(), ("`borne` is kept by any other object",))
    for slip in [*SLIPS, by_any]:
        yield Case(f"lint {slip.name}", lambda slip=slip: check_slip(setting, slip))
    for problem in sorted((TOP / "examples").rglob("*.geost")):
        if problem.stem in BY_ANY:
            yield Case(f"lint of {problem.name}", lambda problem=problem: check_by_any(setting, problem))
            continue
        yield Case(f"lint is silent on {problem.name}", lambda problem=problem: check_silent(setting, problem))
