"""Every word of the lists of docs/FORMAT.md, at the line of Python that made what is refused."""

from __future__ import annotations

import inspect
from collections.abc import Callable
from pathlib import Path

import pytest
from lines import line

import geost
from geost.refusals import Kind, format_rows

FILE = str(Path(__file__))
Made = tuple[geost.Problem, Callable[[], object]]


def problem(dims: int = 1) -> geost.Problem:
    made = geost.Problem(dims)
    made.shape("s", (2,) * dims)
    for name in ("a", "b"):
        made.object(name, "s", [(0, 3)] * dims, weight=1)
    return made


def wanted(plan: geost.Problem, word: str, at: int, said: str) -> geost.Refused:
    """The refusal of the problem, with its word, its line, and a part of its statement."""
    with pytest.raises(geost.Refused) as raised:
        plan.first(10)
    refused = raised.value
    assert (refused.word, refused.where) == (word, geost.Where(FILE, at)), str(refused)
    assert said in refused.statement
    assert str(refused).startswith(f"{FILE}:{at}: {word}\n") and "what to do: " in str(refused)
    return refused


def test_long() -> None:
    plan = problem()
    for number in range(4):
        at = line() + 1
        plan.rule(f"r{number}", "a.x1 = 0 # " + "." * 300_000)
    wanted(plan, "long", at, "rule r3")


def test_byte() -> None:
    plan = problem()
    plan.rule("r", "a.x1 = § 1")
    wanted(plan, "byte", line() - 1, "§")


def test_number() -> None:
    plan = problem()
    plan.rule("r", geost.Thing("a").x1 <= 2_000_000_000)
    refused = wanted(plan, "number", line() - 1, "rule r")
    assert refused.statement[refused.column :].startswith("2000000000")


def test_name() -> None:
    plan = problem()
    plan.rule("r", f"{'long' * 11}.x1 = 0")
    wanted(plan, "name", line() - 1, "long")


def test_syntax() -> None:
    plan = problem()
    plan.rule("r", "0 <= a.x1 <= 3")
    refused = wanted(plan, "syntax", line() - 1, "0 <= a.x1 <= 3")
    assert refused.statement[refused.column :].startswith("<= 3")


def test_deep() -> None:
    plan = problem()
    plan.rule("r", "not " * 65 + "a.x1 = 0")
    wanted(plan, "deep", line() - 1, "rule r")


def test_limit() -> None:
    plan = geost.Problem(7)
    wanted(plan, "limit", line() - 1, "dims 7")
    plan = problem()
    plan.shape("t", (1, 1))
    wanted(plan, "limit", line() - 1, "shape t")
    plan = problem()
    plan.object("c", "s", [(0, 1_000_001)])
    wanted(plan, "limit", line() - 1, "object c")
    plan = problem()
    for number in range(199):
        at = line() + 1
        plan.object(f"c{number}", "s", [(0, 3)])
    wanted(plan, "limit", at, "object c198")
    plan = problem()
    plan.rule("r", geost.Thing("a").weight // 0 == 1)
    wanted(plan, "limit", line() - 1, "div 0")


def test_twice() -> None:
    plan = problem()
    plan.object("a", "s", [(0, 3)])
    wanted(plan, "twice", line() - 1, "object a")
    plan = problem()
    plan.rule("r", geost.exists(lambda p: p.x1 == 0, over=["a", "a"]))
    wanted(plan, "twice", line() - 1, "objects (a, a)")


def test_unknown() -> None:
    plan = problem()
    plan.object("c", "barrel", [(0, 3)])
    wanted(plan, "unknown", line() - 1, "barrel")
    plan = problem()
    plan.order = ("a", "b", "c")
    wanted(plan, "unknown", line() - 1, "order a, b, c")
    plan = problem()
    plan.rule("r", geost.Thing("c").x1 == 0)
    wanted(plan, "unknown", line() - 1, "c.x1")
    plan = problem()
    plan.rule("r", geost.forall(lambda p: p.wieght == 0))
    wanted(plan, "unknown", line() - 1, "p.wieght")


def test_range() -> None:
    plan = problem()
    plan.object("c", "s", [(3, 0)])
    wanted(plan, "range", line() - 1, "3..0")


def test_size() -> None:
    plan = problem()
    plan.shape("t", (0,))
    wanted(plan, "size", line() - 1, "size 0")


def test_order() -> None:
    plan = problem()
    plan.order = ("b",)
    wanted(plan, "order", line() - 1, "order b")


def test_kind() -> None:
    plan = problem()
    plan.rule("r", "a = b")
    wanted(plan, "kind", line() - 1, "a = b")

    @geost.macro
    def flat(b: geost.Box) -> geost.Rule:
        return b.l1 <= 2

    plan = problem()
    plan.rule("r", flat("a"))
    wanted(plan, "kind", line() - 1, "@flat(a)")


def test_args() -> None:
    @geost.macro
    def left(p: geost.Thing, q: geost.Thing) -> geost.Rule:
        return p.x1 < q.x1

    plan = problem()
    plan.rule("r", left("a"))
    wanted(plan, "args", line() - 1, "@left(a)")


def twice_of(rule: geost.Rule) -> geost.Rule:
    made = geost.macro(lambda: rule & rule)
    return made()


def test_expand() -> None:
    plan = problem()
    rule: geost.Rule = geost.Thing("a").x1 >= 0
    for _ in range(15):
        rule = twice_of(rule)
    plan.rule("r", rule)
    wanted(plan, "expand", inspect.getsourcelines(twice_of)[1] + 2, "rule r")


def test_product() -> None:
    plan = problem()
    plan.rule(
        "r",
        geost.forall(lambda p: p.x1 * p.x1 <= 3),
    )
    wanted(plan, "product", line() - 2, "p.x1 * p.x1")


def test_overflow() -> None:
    plan = problem()
    plan.rule("r", geost.Thing("a").x1 * 10**9 * 10**9 <= 3)
    wanted(plan, "overflow", line() - 1, "rule r")


def test_ground() -> None:
    if b"__asan_init" in Path(problem().program.path).read_bytes():
        pytest.skip("an unproved build takes minutes for it")
    plan = problem()
    for number in range(198):
        plan.object(f"c{number}", "s", [(0, 3)])
    plan.rule("r", geost.forall(lambda p, q, v: (p.x1 + q.x1 <= v.x1) | (p.id == q.id)))
    wanted(plan, "ground", line() - 1, "rule r")


# Layouts


def judged(plan: geost.Problem, layout: geost.Layout | str, word: str, at: int) -> None:
    with pytest.raises(geost.Refused) as raised:
        plan.judge(layout)
    assert (raised.value.word, raised.value.where) == (word, geost.Where(FILE, at)), str(
        raised.value
    )


GOOD = "layout\na as s at 0\nb as s at 2\n"
TEXTS = {
    "byte": GOOD.replace("0", "§"),
    "number": GOOD.replace("0", "2000000000"),
    "name": GOOD.replace("as s at 0", f"as {'s' * 41} at 0"),
    "syntax": GOOD.replace("as s at 0", "is s at 0"),
    "order": GOOD.replace("b as s at 2\n", ""),
    "unknown": GOOD.replace("as s at 0", "as t at 0"),
    "limit": GOOD.replace("at 0", "at 0 0"),
    "range": GOOD.replace("at 0", "at 9"),
    "token": GOOD + "token 1,0/1,3\n",
    "long": GOOD + "#" * 1_048_577,
}


@pytest.mark.parametrize("word", TEXTS)
def test_layouts_of_text(word: str) -> None:
    plan = problem()
    with pytest.raises(geost.Refused) as raised:
        plan.judge(TEXTS[word])
    at = line() - 1
    assert (raised.value.word, raised.value.where) == (word, geost.Where(FILE, at))


def test_layouts_of_places() -> None:
    plan = problem()
    good = plan.layout({"a": (0,), "b": ("s", (2,))})
    assert plan.judge(good)
    moved = good.moved("a", 9)
    judged(plan, moved, "range", line() - 1)
    turned = good.moved("a", 0, shape="t")
    judged(plan, turned, "unknown", line() - 1)
    crossed = plan.layout({"b": (0,), "a": (2,)})
    judged(plan, crossed, "order", line() - 1)
    wide = plan.layout({"a": (0, 0), "b": (2,)})
    judged(plan, wide, "limit", line() - 1)


def test_json() -> None:
    """What is built here is never refused so: the word is of texts in JSON alone."""
    told = problem().program.ask(["from_json"], b"{")
    assert (told.status, told.text) == (2, "refused 0 json\n")


def test_these_are_all_words() -> None:
    """Each word of the lists has its test here."""
    listed = {word for row in format_rows()[Kind.PROBLEM] for word in row.words}
    missing = [word for word in listed if f"test_{word}" not in globals()]
    assert missing == []
    assert {word for row in format_rows()[Kind.LAYOUT] for word in row.words} == set(TEXTS)


def test_items_are_refused_at_their_row(tmp_path: Path) -> None:
    file = tmp_path / "items.csv"
    file.write_text("name,length,mass\na,1,1\nb,1,5000000000\n")
    items = geost.read_items(file, size=("length",), numbers=("mass",))
    plan = geost.Room((3,)).problem(items)
    with pytest.raises(geost.Refused, match=r"items.csv:3: number"):
        plan.first(10)
