"""Formulas that Python builds: their text, read back, and what Python may not do with them."""

from __future__ import annotations

from collections.abc import Callable
from functools import reduce
from typing import Any

import pytest
from hypothesis import HealthCheck, given, settings
from hypothesis import strategies as st

import geost
from geost import text as t
from geost.formula import formula_of
from geost.program import Program, usual_program
from geost.tokens import read_tokens
from geost.trees import parts_of

NAMES = ("p", "q", "PK-1/ä", "high")
SPELLED = {"p": "p", "q": "q", "PK-1/ä": "PK_1_ae", "high": "_high"}
FIELDS = ("x1", "id", "sid", "weight", "Gewicht (kg)")
SPELLED_FIELDS = {"Gewicht (kg)": "Gewicht_kg"}

# A formula is drawn as its text and what Python builds of it, side by side


def chained(parts: list[Any], mark: str, build: Any) -> tuple[str, Any]:
    texts = [f"({text})" for text, _ in parts]
    return f" {mark} ".join(texts), reduce(build, [value for _, value in parts])


def plain(drawn: tuple[str, str]) -> tuple[str, Any]:
    name, field = drawn
    return f"{SPELLED[name]}.{SPELLED_FIELDS.get(field, field)}", geost.Thing(name)[field]


fields = st.tuples(st.sampled_from(NAMES), st.sampled_from(FIELDS)).map(plain)
values = st.recursive(
    fields,
    lambda inner: st.one_of(
        st.lists(inner, min_size=2, max_size=3).map(
            lambda parts: chained(parts, "+", lambda a, b: a + b)
        ),
        st.tuples(inner, inner).map(lambda two: chained(list(two), "-", lambda a, b: a - b)),
        st.tuples(inner, st.integers(-9, 9)).map(
            lambda two: (f"{two[1]} * ({two[0][0]})", two[1] * two[0][1])
        ),
        inner.map(lambda one: (f"- ({one[0]})", -one[1])),
        st.tuples(inner, inner).map(
            lambda two: (f"max({two[0][0]}, {two[1][0]})", geost.greatest(two[0][1], two[1][1]))
        ),
        st.tuples(inner, st.integers(1, 9)).map(
            lambda two: (f"({two[0][0]}) div {two[1]}", two[0][1] // two[1])
        ),
    ),
    max_leaves=5,
)
COMPARED: dict[str, Callable[[Any, Any], Any]] = {
    "<": lambda a, b: a < b,
    "<=": lambda a, b: a <= b,
    "=": lambda a, b: a == b,
    "!=": lambda a, b: a != b,
    ">=": lambda a, b: a >= b,
    ">": lambda a, b: a > b,
}
comparisons = st.tuples(values, st.sampled_from(sorted(COMPARED)), values).map(
    lambda three: (
        f"{three[0][0]} {three[1]} {three[2][0]}",
        COMPARED[three[1]](three[0][1], three[2][1]),
    )
)
JOINED: dict[str, Callable[[Any, Any], Any]] = {
    "and": lambda a, b: a & b,
    "or": lambda a, b: a | b,
    "implies": lambda a, b: a.implies(b),
    "iff": lambda a, b: a.iff(b),
}


def joined(drawn: tuple[Any, str, Any]) -> tuple[str, Any]:
    left, word, right = drawn
    return f"[ {left[0]} ] {word} [ {right[0]} ]", JOINED[word](left[1], right[1])


def each(drawn: tuple[Any, str]) -> tuple[str, Any]:
    """A quantifier over a variable that no name of the data equals, and that its body compares."""
    (text, rule), kind = drawn
    build = {"forall": geost.forall, "exists": geost.exists}[kind]

    def body(v: geost.Thing) -> geost.Rule:
        made: geost.Rule = (v.x1 <= v["weight"]) | rule
        return made

    made = build(body)
    return f"{kind} v in objects : [ v.x1 <= v.weight or [ {text} ] ]", made


formulas = st.recursive(
    comparisons,
    lambda inner: st.one_of(
        st.tuples(inner, st.sampled_from(sorted(JOINED)), inner).map(joined),
        inner.map(lambda one: (f"not [ {one[0]} ]", ~one[1])),
        st.tuples(inner, st.sampled_from(["forall", "exists"])).map(each),
    ),
    max_leaves=6,
)


def formula(rule: t.Rule) -> t.Formula:
    assert not isinstance(rule.body, (t.Apart, t.Within))
    return rule.body


def problem(dims: int = 1) -> geost.Problem:
    made = geost.Problem(dims)
    made.shape("s", (1,) * dims)
    for number, name in enumerate(NAMES):
        attributes = {"weight": number, "Gewicht (kg)": 2 * number}
        made.object(name, "s", [(0, 3)] * dims, attributes)
    return made


Scope = dict[str, str]


def flat(word: str, parts: list[object]) -> tuple[object, ...]:
    """Parts that are joined by one word, without the brackets among them."""
    found: list[object] = []
    for part in parts:
        is_same = isinstance(part, tuple) and part[0] == word
        found.extend(part[1:] if is_same else [part])  # type: ignore[index]
    return (word, *found)


def from_the_left(chain: t.Chain) -> tuple[t.Expr, tuple[tuple[str, t.Expr], ...]]:
    """A chain without brackets around its front, which is read first anyway."""
    front: t.Expr = chain.first
    if isinstance(front, t.Chain) and t.is_product(front) == t.is_product(chain):
        first, steps = from_the_left(front)
        return first, (*steps, *chain.steps)
    return front, chain.steps


def meaning(node: t.Formula | t.Expr, scope: Scope) -> object:
    """A formula without brackets that mean nothing, and with variables by their depth."""

    def inside(part: t.Formula | t.Expr) -> object:
        return meaning(part, scope)

    match node:
        case t.Joined(word, parts) if word in ("and", "or"):
            return flat(word, list(map(inside, parts)))
        case t.Chain():
            first, steps = from_the_left(node)
            return ("chain", inside(first), *((mark, inside(step)) for mark, step in steps))
        case t.Quantified():
            deeper = {**scope, node.variable: f"variable {len(scope)}"}
            return (node.kind, meaning(node.body, deeper))
        case t.Compare(left, relation, right):
            return (relation, inside(left), inside(right))
        case t.FieldOf(owner, name):
            return (scope.get(owner, owner), name)
        case t.Number(value):
            return value
    return (type(node).__name__, getattr(node, "word", ""), *map(inside, parts_of(node)))


@settings(max_examples=40, deadline=None, suppress_health_check=list(HealthCheck))
@given(st.lists(formulas, min_size=1, max_size=30))
def test_formulas_through_python_are_those_of_their_text(drawn: list[tuple[str, Any]]) -> None:
    """The program shows for what Python builds the formula that the text spells."""
    built, written = problem(), problem()
    for number, (text, rule) in enumerate(drawn):
        built.rule(f"r{number}", rule)
        written.rule(f"r{number}", text)
    printed = {line for line, _ in built.lines() if line.startswith("rule ")}
    asked = [Program(usual_program()).ask(["show"], p.text().encode()) for p in (built, written)]
    if asked[0].status == 0:
        assert asked[1].status == 0
        shown = [line for line in asked[0].text.splitlines() if line.startswith("rule ")]
        assert set(shown) == printed, "what Python prints is the canonical spelling"
        trees = [t.read_problem(answer.text.encode()).rules for answer in asked]
        for one, other in zip(*trees):
            assert meaning(formula(one), {}) == meaning(formula(other), {})
    else:
        assert asked[0].words()[2] == asked[1].words()[2]


@settings(max_examples=100, deadline=None)
@given(formulas)
def test_what_is_printed_is_read_back(drawn: tuple[str, Any]) -> None:
    built = problem()
    built.rule("r", drawn[1])
    line = next(line for line, _ in built.lines() if line.startswith("rule "))
    spelled = line.removeprefix("rule r : ").removesuffix(" ;").encode()
    reader = t.Reader(read_tokens(spelled), len(spelled))
    again = reader.formula()
    reader.finish()
    assert t.print_formula(again).encode() == spelled


def test_a_comparison_is_no_truth() -> None:
    a = geost.Thing("a")
    with pytest.raises(geost.Undecided, match="neither true nor false"):
        0 <= a.x1 <= 9
    with pytest.raises(geost.Undecided, match="neither true nor false"):
        (a.x1 < 1) and (a.x1 > 0)
    with pytest.raises(geost.Undecided):
        not a.x1 == 3
    with pytest.raises(geost.Undecided):
        bool(a.x1)
    with pytest.raises(geost.Undecided):
        range(a.x1)
    with pytest.raises(geost.Undecided):
        (a.x1 < 1) == (a.x1 < 2)
    with pytest.raises(geost.Undecided, match="one.id == other.id"):
        a == geost.Thing("b")


@pytest.mark.parametrize("number", [1.5, True, "3", None])
def test_only_whole_numbers_stand_in_rules(number: Any) -> None:
    with pytest.raises(TypeError):
        geost.Thing("a").x1 <= number


def spelled(plan: geost.Problem) -> list[str]:
    return [line for line, _ in plan.lines() if line.startswith(("rule ", "macro "))]


def test_variables_hide_neither_objects_nor_each_other() -> None:
    """An object is called as a variable is, and so is the variable of a function that is called."""
    plan = problem()

    def left_of_some(a: geost.Thing) -> geost.Rule:
        return geost.exists(lambda p: a.x1 < p.x1)

    plan.rule("r", geost.forall(lambda p: left_of_some(p) & (p.x1 >= geost.Thing("p").x1)))
    assert spelled(plan) == [
        "rule r : forall p_2 in objects : "
        "[ exists p in objects : p_2.x1 < p.x1 and p_2.x1 >= p.x1 ] ;"
    ]


def test_reserved_words_are_no_variables() -> None:
    plan = problem()
    plan.rule("r", geost.forall(lambda high, größe: high.x1 + größe.x1 <= 9))
    assert spelled(plan) == [
        "rule r : forall _high in objects : forall groesse in objects : "
        "_high.x1 + groesse.x1 <= 9 ;"
    ]


def test_macros_stand_once_before_the_rules_that_call_them() -> None:
    @geost.macro
    def ends(p: geost.Thing, by: int) -> geost.Value:
        return p.x1 + by

    @geost.macro
    def before(p: geost.Thing, q: geost.Thing) -> geost.Rule:
        return ends(p, 2) <= q.x1

    plan = problem()
    plan.rule("one", before("p", "q"))
    plan.rule("two", geost.forall(lambda a, b: before(a, b) | before(b, a)))
    assert spelled(plan) == [
        "macro ends(p : object, by : int) is p.x1 + by ;",
        "macro before(p : object, q : object) means $ends(p, 2) <= q.x1 ;",
        "rule one : @before(p, q) ;",
        "rule two : forall a in objects : forall b in objects : [ @before(a, b) or @before(b, a) ] ;",
    ]


def test_two_macros_of_one_name_are_two() -> None:
    def made(limit: int) -> geost.Macro[geost.Rule]:
        @geost.macro
        def near(p: geost.Thing) -> geost.Rule:
            return p.x1 <= limit

        return near

    plan = problem()
    plan.rule("r", made(1)("p") & made(2)("q"))
    assert spelled(plan) == [
        "macro near(p : object) means p.x1 <= 1 ;",
        "macro near_2(p : object) means p.x1 <= 2 ;",
        "rule r : @near(p) and @near_2(q) ;",
    ]


def test_a_macro_that_calls_itself_is_refused() -> None:
    @geost.macro
    def again(p: geost.Thing) -> geost.Rule:
        return again(p)

    with pytest.raises(TypeError, match="calls itself"):
        again("p")


def test_apart_and_within_are_no_parts() -> None:
    with pytest.raises(TypeError, match="no parts of others"):
        geost.apart() & (geost.Thing("a").x1 == 0)
    with pytest.raises(TypeError):
        formula_of(geost.within((0, 1)))
