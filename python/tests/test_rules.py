"""The ready rules, on the problems of docs/COOKBOOK.md: each in place of the rules that the recipe
writes gives the first layout that stands there."""

from __future__ import annotations

import re
from collections.abc import Callable
from dataclasses import replace
from pathlib import Path

import pytest

import geost
from geost import rules
from geost import text as t

COOKBOOK = (Path(__file__).resolve().parents[2] / "docs" / "COOKBOOK.md").read_text("utf-8")
RECIPE = re.compile(r"^## (.*)\n(?:(?!## ).*\n)*?```geost\n((?:.*\n)*?)```\n", re.MULTILINE)
RECIPES = {match[1]: match[2] for match in RECIPE.finditer(COOKBOOK)}
LAYOUTS = {
    match[1]: match[3]
    for match in re.finditer(
        r"```geost\n((.*\n)*?)```\n\n```text first 100\n((?:.*\n)*?)```", COOKBOOK
    )
}

# of each recipe: the rules that go, and those that come in their place
READY: dict[str, tuple[str, Callable[[], list[geost.Ready]]]] = {
    "Not above: what must not stand over something": (
        "nothing_over_glass",
        lambda: [rules.nothing_over("fragile", up=2)],
    ),
    "Next to each other": (
        "bin_at_sink oven_not_at_sink",
        lambda: [
            rules.next_to("sink", "bin"),
            geost.Ready("not_at", ~rules.next_to("sink", "oven").body),
        ],
    ),
    "On the same side, on the same level, in the same bay": (
        "together",
        lambda: [
            rules.on_one_side("oil", "paint", 4, 6),
            rules.on_one_level("oil", "paint", up=2),
        ],
    ),
    "Borne at its corners": ("corners", lambda: [rules.borne_at_corners()]),
    "Touching along an edge, or with a side": (
        "pipe",
        lambda: [
            rules.touching("tank", "pump"),
            rules.touching("filter", "pump"),
            geost.Ready("not_touching", ~rules.touching("tank", "filter").body),
        ],
    ),
    "At most n in a layer": (
        "two_on_the_floor one_above",
        lambda: [
            rules.at_most_on_level(2, 0, up=2),
            rules.at_most_on_level(1, 1, up=2),
            rules.at_most_on_level(1, 2, up=2),
        ],
    ),
    "Kept apart by a distance": ("safe", lambda: [rules.kept_apart("acid", "base", 3, (1, 2))]),
    "Reachable from the aisle": ("reachable", lambda: [rules.reachable("often", up=2)]),
    "Last in, first out": ("last_in_first_out", lambda: [rules.last_in_first_out("stop", up=2)]),
    "Weight in a zone": ("front", lambda: [rules.at_most_between(1, "weight", 8, 0, 4)]),
    "Borne in part": ("borne", lambda: [rules.borne(whole=False, by_earlier=False, up=2)]),
    "Clear space before a piece": ("opens", lambda: [rules.clear_before("opens", 2)]),
    "One after another, and due dates": (
        "cut_before_drill in_time",
        lambda: [rules.one_after_another("cut", "drill"), rules.in_time()],
    ),
    "Equal pieces": ("in_sequence", lambda: [rules.in_sequence(100)]),
    "On, over, in the way": (
        "borne nothing_over heavy_low door",
        lambda: [
            rules.borne(whole=False, by_earlier=False),
            rules.nothing_over("fragile"),
            rules.heavy_below("weight"),
            rules.last_in_first_out("stop"),
        ],
    ),
    "Borne whole by one other": ("borne", lambda: [rules.borne(by_earlier=False)]),
    "Borne by a share of its base": ("borne", lambda: [rules.borne_by_share(1, 2)]),
    "Borne by what is loaded before": (
        "borne from_above",
        lambda: [rules.borne(whole=False), rules.loaded_from_above()],
    ),
    "Centre of weight, by zones": (
        "thirds",
        lambda: [rules.at_most_between(1, "weight", 8, start, start + 2) for start in (0, 2, 4)],
    ),
    "Near one of several points": (
        "cables",
        lambda: [rules.near(("saw", "drill", "lathe"), ("outlet1", "outlet2"), 3)],
    ),
    "Set-up times": ("cleaning", lambda: [rules.cleaned("colour", 1)]),
    "Nights and shifts": ("early", lambda: [rules.in_shifts("early", [(0, 4), (12, 16)])]),
}


def recipe(title: str, gone: str) -> geost.Problem:
    """The problem of a recipe without some of its rules, and without its macros."""
    tree = t.read_problem(RECIPES[title].encode())
    kept = tuple(rule for rule in tree.rules if rule.name not in gone.split())
    assert len(tree.rules) == len(kept) + len(gone.split())
    return geost.Problem.of_text(t.print_problem(replace(tree, rules=kept, macros=())))


@pytest.mark.parametrize("title", READY)
def test_a_ready_rule_does_what_its_recipe_does(title: str) -> None:
    gone, ready = READY[title]
    plan = recipe(title, gone)
    plan.add(*ready())
    layout = plan.first(100).layout
    assert layout is not None and layout.block() == LAYOUTS[RECIPES[title]]


def boxes(dims: int, *places: tuple[int, ...]) -> tuple[geost.Problem, geost.Layout]:
    """Boxes of 2 by 2 and so on in a layout of these places."""
    plan = geost.Problem(dims)
    plan.shape("s", (2,) * dims)
    names = "abcdefgh"[: len(places)]
    for name in names:
        plan.object(name, "s", [(0, 9)] * dims, weight=1, fragile=1)
    return plan, plan.layout(dict(zip(names, places)))


def verdict(ready: geost.Ready, *places: tuple[int, ...]) -> bool:
    plan, layout = boxes(len(places[0]), *places)
    plan.add(ready)
    return bool(plan.judge(layout))


def test_rules_of_two() -> None:
    beside, above, away = (2, 0), (0, 2), (3, 0)
    assert verdict(rules.next_to("a", "b"), (0, 0), beside)
    assert not verdict(rules.next_to("a", "b"), (0, 0), away)
    assert verdict(rules.next_to("a", "b", axis=2), (0, 0), above)
    assert verdict(rules.touching("a", "b", dims=2), (0, 0), (2, 1))
    assert not verdict(rules.touching("a", "b", dims=2), (0, 0), (2, 2)), "a corner alone"
    assert verdict(rules.zone(("b",), (2, 5), (0, 3)), (0, 0), (4, 2))
    assert not verdict(rules.zone(("b",), (2, 5), (0, 3)), (0, 0), (5, 2))


def test_what_stands_on_others() -> None:
    ground, upper, bridge = (0, 0, 0), (0, 0, 2), (1, 0, 2)
    assert not verdict(rules.nothing_on(), ground, upper)
    assert verdict(rules.nothing_on(), ground, (2, 0, 2))
    assert verdict(rules.borne_at_corners(), ground, (2, 0, 0), bridge)
    assert not verdict(rules.borne_at_corners(), ground, (3, 0, 0), bridge)
    assert not verdict(rules.borne(), ground, (2, 0, 0), bridge), "no single one bears it whole"
    assert verdict(rules.borne(whole=False), ground, (2, 0, 0), bridge)
    assert not verdict(rules.borne(), upper, ground), "what is loaded later bears nothing"
    assert verdict(rules.borne(by_earlier=False), upper, ground)


def test_balance_is_that_of_middles() -> None:
    items = [geost.Item("a", (2, 2), {"weight": 3}), geost.Item("b", (2, 2), {"weight": 1})]
    weights = {item.name: item["weight"] for item in items}
    plan = geost.Room((8, 2), centred=True).problem(items, [rules.balanced(weights, 1, (3, 3))])
    found = {
        tuple(placed.origin[0] for placed in layout.values()) for layout in plan.layouts(10_000)
    }
    assert found == {
        (a, b) for a in range(1, 8) for b in range(1, 8) if abs(a - b) >= 2 and 3 * a + b == 12
    }
