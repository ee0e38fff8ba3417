"""What tools/explain says where there is no layout, of problems that were solved by hand."""

from __future__ import annotations

from pathlib import Path

from harness import Case, Cases, Failed, Setting, run_tool, want, want_in

SHAPES = "geost 1 dims 1 shape s box 0 size 2 ;\n"
FREE = "rule free : apart ;\n"

# Three boxes of two cells on five cells: two have room, and without `free` or without the rule of
# the space all three
THREE = (
    SHAPES
    + "".join(f"object {name} as s at 0..9 ;\n" for name in "abc")
    + FREE
    + "rule space : within 0..4 ;\nrule idle : a.x1 >= 0 ;\nend\n"
)
THREE_SAID = """no layout keeps all rules, whatever the order and the sides
the first 2 of the 3 objects of the order have a layout within 100 steps
with `c`, the next one, there is none at all
without the rule `free` all objects have a layout within 100 steps
without the rule `space` all objects have a layout within 100 steps
next: write other ranges or shapes for an object, or a milder rule, and run it again
"""

# Two boxes of one place each that share the cell 1; a third one far from both
CLASH = (
    SHAPES
    + "object a as s at 0..9 ;\nobject b as s at 0..0 ;\nobject c as s at 1..1 ;\n"
    + "object d as s at 7..7 ;\n"
    + FREE
    + "end\n"
)
CLASH_SAID = """no layout keeps all rules, whatever the order and the sides
`b` and `c` have one place each, and these two alone have no layout: write other ranges for one of \
them, or leave one out
without the rule `free` there is one for `b` and `c`
"""

# A box of one place that lies in part outside of the space
OUTSIDE = (
    SHAPES
    + "object a as s at 0..9 ;\nobject b as s at 4..4 ;\n"
    + FREE
    + "rule space : within 0..4 ;\nend\n"
)
OUTSIDE_SAID = """no layout keeps all rules, whatever the order and the sides
`b` has one place alone, and has no layout there, whatever the others do:
write other ranges for it
without the rule `space` there is one for `b`
"""


def check(setting: Setting, problem: str, wanted: str) -> None:
    printed, status = run_tool("explain", setting, ["--seconds", "60", "first", "100"], problem)
    want(status, 1, "the status")
    if not printed.startswith("none\n"):
        raise Failed(f"another answer: {printed}")
    want_in("qed\n", printed)
    want(printed.partition("qed\n")[2], wanted, "what is said")


def cases(setting: Setting, folder: Path) -> Cases:
    tried = [
        ("too many", THREE, THREE_SAID),
        ("two that clash", CLASH, CLASH_SAID),
        ("one outside", OUTSIDE, OUTSIDE_SAID),
    ]
    for name, problem, wanted in tried:
        yield Case(f"nothing: {name}", lambda p=problem, w=wanted: check(setting, p, w))
