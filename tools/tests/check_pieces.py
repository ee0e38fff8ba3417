"""Ranges in pieces and up to six dimensions, against a second meaning: random problems of version 2,
of which all places are listed, and plans that are judged."""

from __future__ import annotations

import random
from concurrent.futures import ThreadPoolExecutor

import oracle
from geost.text import (
    Apart,
    Box,
    Compare,
    FieldOf,
    Number,
    Object,
    Placed,
    Problem,
    Range,
    Rule,
    Shape,
    print_layout,
    print_problem,
)
from harness import Case, Cases, Setting, first_of, want

PROBLEMS = 300
MOST_PLACES = 20_000
STEPS = "100000"


def random_pieces(chance: random.Random, width: int) -> tuple[Range, ...]:
    """One to three pieces within the numbers from -2 on, at least one number left out between
    two."""
    found: list[Range] = []
    begin = chance.randint(-2, 0)
    for _ in range(chance.choice([1, 2, 2, 3])):
        end = begin + chance.randint(0, width)
        found.append((begin, end))
        begin = end + chance.randint(2, 3)
    return tuple(found)


def random_shape(chance: random.Random, name: str, dims: int) -> Shape:
    boxes = tuple(
        Box(
            tuple(chance.choice([0, 0, 1, -1]) for _ in range(dims)),
            tuple(chance.choice([1, 1, 2]) for _ in range(dims)),
        )
        for _ in range(chance.choice([1, 1, 2]))
    )
    return Shape(name, boxes)


def random_problem(chance: random.Random) -> Problem:
    dims = chance.choice([1, 1, 2, 2, 3, 5, 6])
    shapes = tuple(random_shape(chance, name, dims) for name in ("s", "t"))
    count = chance.choice([2, 3]) if dims < 3 else 2
    things = tuple(
        Object(
            name,
            chance.choice([("s",), ("t",), ("s", "t")]),
            tuple(random_pieces(chance, 2 if dims < 3 else 0) for _ in range(dims)),
        )
        for name in "abc"[:count]
    )
    rules = [Rule("free", Apart())]
    for number in range(chance.choice([0, 1, 2])):
        sides = [FieldOf(chance.choice("ab"), f"x{chance.randint(1, dims)}") for _ in range(2)]
        limit = Number(chance.randint(0, 4)) if chance.random() < 0.5 else sides[1]
        rules.append(Rule(f"r{number}", Compare(sides[0], chance.choice(["<=", ">", "="]), limit)))
    chosen = tuple(chance.choice(["low", "high"]) for _ in range(dims))
    return Problem(dims, shapes, things, rules=tuple(rules), sides=chosen, version=2)


def random_plan(chance: random.Random, problem: Problem) -> list[Placed]:
    return [
        Placed(
            thing.name,
            chance.choice(thing.shapes),
            tuple(chance.randint(*chance.choice(pieces)) for pieces in thing.pieces),
        )
        for thing in problem.objects
    ]


def answer_to(setting: Setting, problem: Problem) -> str | None:
    """What is wrong with the first layout of a problem; None where nothing is."""
    text = print_problem(problem)
    answer = setting.program.ask(["first", STEPS], text.encode())
    try:
        found = oracle.first_layout(problem, MOST_PLACES)
    except RuntimeError:
        return None
    wanted = "none\n" if found is None else print_layout(found)
    if first_of(answer.text) != wanted:
        return f"{text}{answer.text} in place of\n{wanted}"
    if found is None:
        said = setting.program.ask(["check"], f"{text}\n{answer.text}".encode()).text
        return None if said == "yes\n" else f"{text}the derivation is checked with {said!r}"
    return None


def check_first(setting: Setting) -> None:
    chance = random.Random("ranges in pieces")
    problems = [random_problem(chance) for _ in range(PROBLEMS)]
    with ThreadPoolExecutor(setting.processors) as pool:
        wrong = [it for it in pool.map(lambda it: answer_to(setting, it), problems) if it]
    want(wrong[:1], [], f"{len(wrong)} of {PROBLEMS} answers")


def check_judged(setting: Setting) -> None:
    chance = random.Random("plans in pieces")
    for _ in range(PROBLEMS // 3):
        problem = random_problem(chance)
        plan = random_plan(chance, problem)
        broken = oracle.broken_rules(problem, plan)
        wanted = f"broken {broken[0]}\n" if broken else "good\n"
        given = setting.program.judge(print_problem(problem), print_layout(plan)).text
        want(given, wanted, print_problem(problem) + print_layout(plan))


def check_holes(setting: Setting) -> None:
    """A plan with an object in a hole is refused at that coordinate."""
    text = (
        "geost 2 dims 2 shape s box 0 0 size 1 1 ;\n"
        "object a as s at 0..1, 5..6 0..9 ; rule r : apart ; end\n"
    )
    for value, wanted in ((1, "good\n"), (2, None), (4, None), (5, "good\n"), (7, None)):
        plan = f"layout a as s at {value} 3"
        place = len(text) + plan.index(f"at {value}") + len("at ")
        answer = setting.program.ask(["judge"], (text + plan).encode()).text
        want(answer, wanted or f"refused {place} range\n", plan)


def cases(setting: Setting, folder: object) -> Cases:
    yield Case("pieces: first layouts by a second meaning", lambda: check_first(setting))
    yield Case("pieces: plans by a second meaning", lambda: check_judged(setting))
    yield Case("pieces: plans in holes", lambda: check_holes(setting))
