"""Objects that may be absent, against a second meaning: random problems of version 2, of which all
places are listed, plans that are judged, and what is worked out by hand."""

from __future__ import annotations

import math
import random
from concurrent.futures import ThreadPoolExecutor
from dataclasses import replace
from functools import cache
from itertools import islice, product

import oracle
from check_pieces import random_pieces, random_shape
from geost.program import Program
from geost.runs import token_of
from geost.text import (
    ABSENT,
    Apart,
    Compare,
    Expr,
    FieldOf,
    Formula,
    Joined,
    Not,
    Number,
    Object,
    Placed,
    Problem,
    Quantified,
    Rule,
    ShapeNumber,
    Truth,
    Within,
    absent,
    print_layout,
    print_problem,
    read_problem,
)
from harness import Case, Cases, Setting, Skipped, first_of, want

PROBLEMS = 1000
MOST_PLACES = 20_000
MOST_LISTED = 600
STEPS = "100000"
RELATIONS = ("<", "<=", "=", "!=", ">=", ">")
PAIR = "geost 2 dims 1 shape s box 0 size 2 ; object a as s at 0..1 ; object b as s, absent at 0..1"


@cache
def knows_absent(path: str) -> bool:
    """Whether a program reads such texts."""
    return Program(path).ask(["show"], f"{PAIR} ; end".encode()).status == 0


def needs_absent(setting: Setting) -> None:
    if not knows_absent(setting.program.path):
        raise Skipped("the program knows no objects that may be absent")


# Random problems


class Chance(random.Random):
    """Makes formulas over objects, boxes and what quantifiers stand for."""

    def __init__(self, seed: str, dims: int, names: tuple[str, ...]):
        super().__init__(seed)
        self.dims, self.names = dims, names

    def field(self, objects: list[str], boxes: list[str]) -> Expr:
        if boxes and self.random() < 0.4:
            return FieldOf(self.choice(boxes), f"{self.choice('tl')}{self.randint(1, self.dims)}")
        names = ["id", "sid", "weight", *(f"x{d}" for d in range(1, self.dims + 1))]
        names += ["x1", "sid"]
        return FieldOf(self.choice(objects), self.choice(names))

    def compare(self, objects: list[str], boxes: list[str]) -> Formula:
        left, right = self.field(objects, boxes), self.field(objects, boxes)
        if self.random() < 0.6:
            right = Number(self.randint(0, 3))
        elif self.random() < 0.2:
            left, right = FieldOf(self.choice(objects), "sid"), ShapeNumber(self.choice("st"))
        return Compare(left, self.choice(RELATIONS), right)

    def quantified(self, objects: list[str], boxes: list[str], depth: int) -> Formula:
        kind = self.choice(["forall", "exists", "atleast", "atmost"])
        count = self.randint(0, 3) if kind in ("atleast", "atmost") else 0
        variable = f"v{depth}"
        if self.random() < 0.3:
            owner = self.choice(objects)
            body = self.formula(objects, [*boxes, variable], depth - 1)
            return Quantified(kind, count, variable, None, owner, body)
        listed = None
        if self.random() < 0.5:
            listed = tuple(self.sample(self.names, self.randint(1, len(self.names))))
        # what a quantifier stands for is read more often than what is named
        body = self.formula([*objects, variable, variable, variable], boxes, depth - 1)
        return Quantified(kind, count, variable, listed, None, body)

    def formula(self, objects: list[str], boxes: list[str], depth: int) -> Formula:
        kind = self.random()
        if depth == 0 or kind < 0.2:
            return Truth(self.random() < 0.7) if kind < 0.03 else self.compare(objects, boxes)
        if kind < 0.3:
            return Not(self.formula(objects, boxes, depth - 1))
        if kind < 0.55:
            word = self.choice(["and", "or", "implies", "iff"])
            parts = tuple(self.formula(objects, boxes, depth - 1) for _ in range(2))
            return Joined(word, parts)
        return self.quantified(objects, boxes, depth)


def random_problem(seed: str) -> Problem:
    outer = random.Random(seed)
    dims = outer.choice([1, 1, 1, 2])
    names = tuple("abcd"[: outer.choice([2, 3, 3, 4]) if dims == 1 else 2])
    chance = Chance(seed, dims, names)
    shapes = tuple(random_shape(chance, name, dims) for name in "st")
    things = tuple(random_object(chance, name) for name in names)
    rules = [Rule("free", Apart())] if chance.random() < 0.7 else []
    if chance.random() < 0.5:
        rules.append(Rule("room", Within(((-1, chance.randint(1, 5)),) * dims)))
    for number in range(chance.choice([1, 1, 2])):
        rules.append(Rule(f"r{number}", chance.formula(list(names), [], 3)))
    order = tuple(chance.sample(names, len(names)))
    sides = tuple(chance.choice(["low", "high"]) for _ in range(dims))
    return Problem(dims, shapes, things, (), tuple(rules), order, sides, 2)


def random_object(chance: Chance, name: str) -> Object:
    shapes = chance.choice([("s",), ("t",), ("s", "t"), ("t", "s")])
    optional = (ABSENT,) if chance.random() < 0.6 else ()
    pieces = tuple(random_pieces(chance, 1) for _ in range(chance.dims))
    return Object(name, (*shapes, *optional), pieces, (("weight", chance.randint(0, 3)),))


def random_plan(chance: random.Random, problem: Problem) -> list[Placed]:
    found = []
    for thing in problem.objects:
        shape = chance.choice(thing.shapes)
        origin = tuple(chance.randint(*chance.choice(pieces)) for pieces in thing.pieces)
        found.append(absent(thing.name) if shape == ABSENT else Placed(thing.name, shape, origin))
    return found


# Against the second meaning


def answer_to(setting: Setting, problem: Problem) -> str | None:
    """What is wrong with the first layout of a problem; None where nothing is."""
    text = print_problem(problem)
    answer = setting.program.ask(["first", STEPS], text.encode())
    try:
        found = oracle.first_layout(problem, MOST_PLACES)
    except RuntimeError:
        return None
    wanted = "none\n" if found is None else print_layout(found)
    if first_of(answer.text) != wanted:
        return f"{text}{answer.text} in place of\n{wanted}"
    if found is None:
        said = setting.program.ask(["check"], f"{text}\n{answer.text}".encode()).text
        return None if said == "yes\n" else f"{text}the derivation is checked with {said!r}"
    return None


def check_first(setting: Setting) -> None:
    needs_absent(setting)
    problems = [random_problem(f"absent {number}") for number in range(PROBLEMS)]
    with ThreadPoolExecutor(setting.processors) as pool:
        wrong = [it for it in pool.map(lambda it: answer_to(setting, it), problems) if it]
    want(wrong[:1], [], f"{len(wrong)} of {PROBLEMS} answers")


def all_layouts(problem: Problem) -> list[list[Placed]]:
    """All layouts in the stated order."""
    order = problem.search_order()
    found = []
    for tuple_of in product(*(list(oracle.places(problem, name)) for name in order)):
        placed = {one.name: one for one in tuple_of}
        layout = [placed[thing.name] for thing in problem.objects]
        if not oracle.broken_rules(problem, layout):
            found.append(layout)
    return found


def listed(problem: Problem) -> str:
    blocks = [
        f"{print_layout(layout)}token {token_of(problem, layout)}\n"
        for layout in all_layouts(problem)
    ]
    return "".join([*blocks, "end\n"])


def check_listed(setting: Setting) -> None:
    """All layouts of small problems, and the pages behind a token."""
    needs_absent(setting)
    problems = (random_problem(f"lists {number}") for number in range(PROBLEMS))
    small = (it for it in problems if count_of_tuples(it) <= MOST_LISTED)
    for problem in islice(small, PROBLEMS // 20):
        text, wanted = print_problem(problem).encode(), listed(problem)
        whole = setting.program.ask(["all", "1000000", STEPS], text).text
        want(whole, wanted, text.decode())
        first, mark, rest = whole.partition("\nlayout\n")
        if mark:
            token = first.rpartition("token ")[2]
            behind = setting.program.ask(["all", "1000000", STEPS, token], text).text
            want(behind, f"layout\n{rest}", f"{text.decode()} behind {token}")


def count_of_tuples(problem: Problem) -> int:
    counts = [
        len(thing.real_shapes) * math.prod(len(thing.values(d)) for d in range(problem.dims))
        + thing.may_be_absent
        for thing in problem.objects
    ]
    return math.prod(counts)


def check_judged(setting: Setting) -> None:
    needs_absent(setting)
    for number in range(PROBLEMS // 2):
        problem = random_problem(f"plans {number}")
        plan = random_plan(random.Random(f"plan {number}"), problem)
        broken = oracle.broken_rules(problem, plan)
        wanted = f"broken {broken[0]}\n" if broken else "good\n"
        given = setting.program.judge(print_problem(problem), print_layout(plan)).text
        want(given, wanted, print_problem(problem) + print_layout(plan))


def check_shown(setting: Setting) -> None:
    """What is printed here is the canonical text, and reads back."""
    needs_absent(setting)
    for number in range(PROBLEMS // 10):
        problem = random_problem(f"shown {number}")
        text = print_problem(problem)
        want(setting.program.ask(["show"], text.encode()).text, text, "the canonical text")
        want(print_problem(read_problem(text.encode())), text, "what is read back")


def check_mix() -> None:
    """Of the random problems some have no layout, and in some first layouts an object is absent
    while in others all are there."""
    kinds = {"none": 0, "absent": 0, "present": 0}
    for number in range(PROBLEMS // 10):
        problem = random_problem(f"absent {number}")
        found = oracle.first_layout(problem, MOST_PLACES)
        if found is None:
            kinds["none"] += 1
        elif any(placed.is_absent for placed in found):
            kinds["absent"] += 1
        elif any(thing.may_be_absent for thing in problem.objects):
            kinds["present"] += 1
    want([kind for kind, count in kinds.items() if count < PROBLEMS // 100], [], f"{kinds}")


# By hand

# two boxes of two cells on three cells: both are there in no layout, so b is absent
HAND = [
    (["first", "4"], "", "layout\na as s at 0\nb absent\ntoken 1,0/2,0\n"),
    (["first", "3"], "", "budget 3\n"),
    (
        ["all", "5", "100"],
        "",
        "layout\na as s at 0\nb absent\ntoken 1,0/2,0\n"
        "layout\na as s at 1\nb absent\ntoken 1,1/2,0\nend\n",
    ),
    (["all", "1", "100", "1,0/2,1"], "", "bad token\n"),
    (["judge"], " layout a as s at 0 b absent", "good\n"),
    (["judge"], " layout a as s at 0 b as s at 1", "broken r\n"),
    (["draw"], " layout a as s at 0 b absent", "box 0..1\naa\n"),
]


def check_by_hand(setting: Setting) -> None:
    needs_absent(setting)
    problem = f"{PAIR} ; rule r : apart ; end"
    for words, behind, wanted in HAND:
        given = setting.program.ask(words, (problem + behind).encode()).text
        want(given, wanted, f"{' '.join(words)}{behind}")


# an absent object is passed by, but one that is named is not: it has the first value, and sid 0
TRUTHS = [
    ("forall p in objects (b) : false", True),
    ("exists p in objects (b) : true", False),
    ("atleast 0 p in objects (b) : false", True),
    ("atleast 1 p in objects (b) : true", False),
    ("atmost 0 p in objects : p.id = 2", True),
    ("atleast 2 p in objects : true", False),
    ("exists s in boxes of b : true", False),
    ("forall s in boxes of b : false", True),
    ("b.sid = 0", True),
    ("b.x1 = 0", True),
    ("b.x1 = 1", False),
    ("b.id = 2", True),
    ("b.sid = shape s", False),
]


def check_truths(setting: Setting) -> None:
    needs_absent(setting)
    for formula, holds in TRUTHS:
        text = f"{PAIR} ; rule r : {formula} ; end"
        wanted = "good\n" if holds else "broken r\n"
        given = setting.program.judge(text, " layout a as s at 0 b absent\n").text
        want(given, wanted, formula)
        plan = [Placed("a", "s", (0,)), absent("b")]
        meant = oracle.broken_rules(read_problem(text.encode()), plan)
        want(meant, [] if holds else ["r"], f"{formula} by the second meaning")


# where a text is refused: what stands before the word that is shown by ^
REFUSED = [
    ("object b as ^absent at 0..1 ;", "syntax"),
    ("object b as s, absent^, s at 0..1 ;", "syntax"),
    ("object ^absent as s at 0..1 ;", "syntax"),
    (f"object b as {', '.join(f's{n}' for n in range(16))}, ^absent at 0..1 ;", "limit"),
]


def check_refused(setting: Setting) -> None:
    needs_absent(setting)
    shapes = "".join(f"shape s{n} box 0 size 1 ; " for n in range(16))
    for statement, word in REFUSED:
        text = f"geost 2 dims 1 shape s box 0 size 2 ; {shapes}{statement} end"
        place = text.index("^")
        given = setting.program.ask(["show"], text.replace("^", "").encode()).text
        want(given, f"refused {place} {word}\n", statement)
    first = PAIR.replace("geost 2", "geost 1") + " ; end"
    given = setting.program.ask(["show"], first.encode()).text
    want(given, f"refused {first.index('absent')} syntax\n", "the first version")
    problem = f"{PAIR} ; end"
    plan = " layout a absent b absent"
    given = setting.program.ask(["judge"], (problem + plan).encode()).text
    want(given, f"refused {len(problem) + plan.index('absent')} unknown\n", plan)


def check_sides(setting: Setting) -> None:
    """An absent object has the first values of the sides that are stated."""
    needs_absent(setting)
    made = read_problem(f"{PAIR} ; rule r : b.x1 = 1 and b.sid = 0 ; end".encode())
    for sides, wanted in ((("low",), "none\n"), (("high",), "layout\na as s at 1\nb absent\n")):
        turned = replace(made, sides=sides)
        given = setting.program.ask(["first", "100"], print_problem(turned).encode()).text
        want(first_of(given), wanted, str(sides))


def cases(setting: Setting, folder: object) -> Cases:
    yield Case("absent: first layouts by a second meaning", lambda: check_first(setting))
    yield Case("absent: all layouts by a second meaning", lambda: check_listed(setting))
    yield Case("absent: plans by a second meaning", lambda: check_judged(setting))
    yield Case("absent: canonical texts", lambda: check_shown(setting))
    yield Case("absent: what the random problems are", check_mix)
    yield Case("absent: a pair by hand", lambda: check_by_hand(setting))
    yield Case("absent: truths by hand", lambda: check_truths(setting))
    yield Case("absent: refusals by hand", lambda: check_refused(setting))
    yield Case("absent: first values", lambda: check_sides(setting))
