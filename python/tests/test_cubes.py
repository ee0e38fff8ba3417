"""Random problems that are searched in forced cubes: the text of `first`, layouts of cubes in the
order of the whole, and joined derivations that `check` accepts."""

from __future__ import annotations

import os
import random
import shutil
from concurrent.futures import ThreadPoolExecutor
from dataclasses import replace
from pathlib import Path

import pytest

from geost import text as t
from geost.cubes import Cube, CubePath, Split, conjunction, is_split, split_of
from geost.derivations import NotOneDerivation, body
from geost.program import ANSWERED, Program, usual_program
from geost.spread import Node, Settings, Spread, check_joined

PROBLEMS = int(os.environ.get("GEOST_SPREAD_PROBLEMS", "200"))
AT_ONCE = int(os.environ.get("GEOST_SPREAD_PROCESSORS", "1"))
STEPS = "1000000"
RELATIONS = ("<", "<=", "=", "!=", ">=", ">")
OPTIONAL = b"geost 2 dims 1 shape s box 0 size 1 ; object a as s, absent at 0..0 ; end"
KNOWS_ABSENT = Program(usual_program()).ask(["show"], OPTIONAL).status == ANSWERED
HAS_ZSTD = shutil.which("zstd") is not None
needs_zstd = pytest.mark.skipif(not HAS_ZSTD, reason="zstd is not installed")


def pieces(chance: random.Random, version: int) -> tuple[t.Range, ...]:
    """A range; in the second version one to three pieces, with numbers left out between them."""
    found: list[t.Range] = []
    begin = chance.randint(-2, 1)
    for _ in range(chance.choice([1, 2, 3]) if version == 2 else 1):
        end = begin + chance.randint(0, 2 if version == 2 else 3)
        found.append((begin, end))
        begin = end + chance.randint(2, 3)
    return tuple(found)


def shape(chance: random.Random, name: str, dims: int) -> t.Shape:
    boxes = tuple(
        t.Box(
            tuple(chance.randint(-1, 1) for _ in range(dims)),
            tuple(chance.randint(1, 3) for _ in range(dims)),
        )
        for _ in range(chance.randint(1, 2))
    )
    return t.Shape(name, boxes)


def optional(chance: random.Random, version: int, rate: float) -> tuple[str, ...]:
    """That an object may be absent, at this rate, where the version and the program know that."""
    return (t.ABSENT,) if version == 2 and KNOWS_ABSENT and chance.random() < rate else ()


def rules(chance: random.Random, dims: int, names: list[str]) -> list[t.Rule]:
    room = chance.randint(2, 5)
    found = [t.Rule("free", t.Apart()), t.Rule("room", t.Within(((0, room),) * dims))]
    first, last = t.FieldOf(names[0], "x1"), t.FieldOf(names[-1], f"x{dims}")
    if chance.random() < 0.5:
        found.append(t.Rule("lean", t.Compare(first, chance.choice(RELATIONS), last)))
    if chance.random() < 0.5:
        kind = t.Compare(t.FieldOf(names[-1], "sid"), chance.choice("= !=".split()), t.Number(1))
        raised = t.Compare(last, ">", t.Number(0))
        found.append(t.Rule("kind", t.Joined(chance.choice(["and", "or"]), (kind, raised))))
    return found


def tight(chance: random.Random) -> t.Problem:
    """Boxes in a room of a row or two that is mostly a cell too short."""
    version, rows = chance.choice([1, 2]), chance.choice([1, 1, 2])
    count = chance.randint(3, 4)
    sizes = [chance.randint(1, 3) for _ in range(count)]
    room = max(2, -(-sum(sizes) // rows) - chance.choice([0, 1, 1]))
    things = []
    for number, size in enumerate(sizes):
        along: tuple[t.Range, ...] = ((0, room),)
        hole = chance.randint(1, room - 1)
        if version == 2 and chance.random() < 0.7:
            along = ((0, hole - 1), (hole + 1, room))
        names = (f"s{size}", "s1") if chance.random() < 0.3 and size != 1 else (f"s{size}",)
        names = (*names, *optional(chance, version, 0.2))
        things.append(t.Object(f"o{number}", names, (along, ((0, rows - 1),))))
    shapes = tuple(t.Shape(f"s{size}", (t.Box((0, 0), (size, 1)),)) for size in (1, 2, 3))
    inside = t.Within(((0, room - 1), (0, rows - 1)))
    stated: tuple[t.Rule, ...] = (t.Rule("free", t.Apart()), t.Rule("room", inside))
    if chance.random() < 0.3:
        wide = t.Compare(t.FieldOf("o0", "sid"), "=", t.FieldOf(f"o{count - 1}", "sid"))
        stated = (*stated, t.Rule("equal", wide))
    if any(thing.may_be_absent for thing in things):
        least = t.Quantified("atleast", count, "p", None, None, t.Truth(True))
        stated = (*stated, t.Rule("enough", least))
    sides = (chance.choice(["low", "high"]), "low")
    return t.Problem(2, shapes, tuple(things), (), stated, (), sides, version)


def problem(chance: random.Random) -> t.Problem:
    if chance.random() < 0.6:
        return tight(chance)
    version, dims = chance.choice([1, 2]), chance.choice([1, 1, 2])
    shapes = tuple(shape(chance, f"s{number}", dims) for number in range(chance.randint(1, 3)))
    all_shapes = [one.name for one in shapes]
    names = [f"o{number}" for number in range(chance.randint(1, 4 - dims + 1))]
    things = tuple(
        t.Object(
            name,
            (
                *chance.sample(all_shapes, chance.randint(1, len(shapes))),
                *optional(chance, version, 0.4),
            ),
            tuple(pieces(chance, version) for _ in range(dims)),
        )
        for name in names
    )
    order = tuple(chance.sample(names, len(names)))
    sides = tuple(chance.choice(["low", "high"]) for _ in range(dims))
    stated = tuple(rules(chance, dims, names))
    return t.Problem(dims, shapes, things, (), stated, order, sides, version)


class Forced(Spread):
    """Cubes get a step more than they are deep, so that most are split."""

    def steps(self, node: Node) -> int:
        return max(node.steps, 1 + len(node.cube.path))


def forced(made: t.Problem, folder: Path, parts: int) -> tuple[str, Spread]:
    settings = Settings(usual_program(), folder, 1, parts=parts, first_steps=1, check=False)
    with ThreadPoolExecutor(1) as pool:
        spread = Forced(made, settings, pool)
        spread.probe = 1
        word = spread.run()
        spread.close()
    return word, spread


def fault_of(number: int, folder: Path) -> str:
    """What is wrong with the answers to a random problem, and how many cubes it took."""
    chance = random.Random(f"cubes {number}")
    made = problem(chance)
    text = t.print_problem(made)
    whole = Program(usual_program()).ask(["first", STEPS], text.encode()).text
    folder = folder / str(number)
    word, spread = forced(made, folder, chance.randint(2, 4))
    if word == "layout":
        said = "" if spread.tree.layout() == whole else f"{spread.tree.layout()} for {whole}"
    elif not whole.startswith("none\n"):
        said = f"{word} in place of {whole}"
    else:
        verdict = check_joined(usual_program(), spread.tree, folder)
        said = "" if verdict == "yes" else f"the joined derivation is checked with {verdict!r}"
    shutil.rmtree(folder)
    kinds = [len(spread.tree.nodes) > 1, word, any(map(len, pieces_of(made)))]
    return f"{text}{said}" if said else " ".join(map(str, kinds))


def pieces_of(made: t.Problem) -> list[list[t.Range]]:
    """The pieces of ranges that have several."""
    return [list(one) for thing in made.objects for one in thing.pieces if len(one) > 1]


@needs_zstd
def test_answers_are_those_of_first(tmp_path: Path) -> None:
    with ThreadPoolExecutor(AT_ONCE) as pool:
        said = list(pool.map(lambda number: fault_of(number, tmp_path), range(PROBLEMS)))
    wrong = [one for one in said if one.startswith("geost")]
    assert wrong[:1] == []
    for kind in ("True none True", "True layout True", "True none False", "True layout False"):
        assert said.count(kind) > PROBLEMS // 50, kind


def leaves(made: t.Problem, cube: Cube, depth: int, parts: int) -> list[Cube]:
    split = split_of(made, cube, parts) if depth else None
    if split is None:
        return [cube]
    assert is_split(made, cube, split)
    below = [cube.part(split, number) for number in range(split.count())]
    return [leaf for part in below for leaf in leaves(made, part, depth - 1, parts)]


def test_cubes_list_the_whole_in_order() -> None:
    ask = Program(usual_program()).ask
    for number in range(max(10, PROBLEMS // 10)):
        chance = random.Random(f"lists {number}")
        made = problem(chance)
        words = ["all", "1000000", STEPS]
        whole = ask(words, t.print_problem(made).encode()).text
        cubes = leaves(made, Cube(), chance.randint(1, 4), chance.randint(2, 4))
        blocks = [ask(words, cube.text(made)).text for cube in cubes]
        assert all(block.endswith("end\n") for block in blocks)
        assert "".join(block.removesuffix("end\n") for block in blocks) + "end\n" == whole


SHELF = t.read_problem(
    b"geost 2 dims 2 shape s box 0 0 size 1 1 ; shape t box 0 0 size 2 1 ;\n"
    b"object a as s, t at 0..2, 5..6, 9..9 0..9 ; sides high low ; rule r : apart ; end"
)


def test_splits_by_hand() -> None:
    """Shapes first, then values from the side at which the search begins."""
    by_shape = split_of(SHELF, Cube(), 4)
    assert by_shape == Split("a", shapes=("s", "t"))
    first = Cube().part(by_shape, 0)
    by_value = split_of(SHELF, first, 3)
    assert by_value == Split("a", 1, ranges=((6, 9), (2, 5), (0, 1)), down=True)
    assert by_value.joints() == [b"split a 1 from 6\n", b"split a 1 from 2\n"]
    in_two = split_of(SHELF, first, 2)
    assert in_two == Split("a", 1, ranges=((5, 9), (0, 4)), down=True)
    second = first.part(by_value, 1)
    assert second.pieces(SHELF.objects[0], 1) == [(2, 2), (5, 5)]
    said = "rule cube_1 : a.sid = shape s and a.x1 >= 2 and a.x1 <= 5 ;"
    assert said in second.text(SHELF).decode().splitlines()
    fixed = Cube((), {("a", 1): (9, 9)}, {"a": "t"})
    assert split_of(SHELF, fixed, 2) == Split("a", 2, ranges=((0, 4), (5, 9)))
    narrowed = fixed.part(Split("a", 2, ranges=((0, 4), (5, 9))), 1)
    assert narrowed.of(SHELF).objects[0].pieces == (((0, 2), (5, 6), (9, 9)), ((5, 9),))


@pytest.mark.parametrize(
    "ranges", [((6, 9), (0, 1)), ((6, 9), (2, 6), (0, 1)), ((0, 1), (2, 5), (6, 9)), ((6, 9),)]
)
def test_what_is_no_split(ranges: tuple[t.Range, ...]) -> None:
    """A value that lies in no part or in two, or a wrong sequence."""
    first = Cube((), {}, {"a": "s"})
    assert is_split(SHELF, first, Split("a", 1, ranges=((6, 9), (2, 5), (0, 1)), down=True))
    assert not is_split(SHELF, first, Split("a", 1, ranges=ranges, down=True))


def test_cubes_of_what_is_absent() -> None:
    """`absent` is the last part, is said by the number 0, and leaves no coordinate to be split."""
    made = t.read_problem(
        b"geost 2 dims 1 shape s box 0 size 1 ; shape t box 0 size 2 ;\n"
        b"object a as t, s, absent at 0..3 ; object b as s at 5..8 ; rule r : apart ; end"
    )
    split = split_of(made, Cube(), 2)
    assert split == Split("a", shapes=("t", "s", "absent"))
    assert split.joints() == [b"split a shape t\n", b"split a shape s\n"]
    gone, there = Cube().part(split, 2), Cube().part(split, 1)
    assert "rule cube_1 : a.sid = 0 ;" in gone.text(made).decode().splitlines()
    assert "rule cube_1 : a.sid = shape s ;" in there.text(made).decode().splitlines()
    assert split_of(made, gone, 2) == Split("b", 1, ranges=((5, 6), (7, 8)))
    assert split_of(made, there, 2) == Split("a", 1, ranges=((0, 1), (2, 3)))


def test_where_no_rule_fits() -> None:
    """A problem with as many rules as there may be is split by ranges of one piece alone."""
    many = tuple(t.Rule(f"r{number}", t.Truth(True)) for number in range(100))
    assert split_of(replace(SHELF, rules=many), Cube(), 2) is None
    whole = replace(SHELF.objects[0], shapes=("s",), pieces=(((0, 3),), ((0, 0),)))
    split = split_of(replace(SHELF, rules=many, objects=(whole,)), Cube(), 2)
    assert split == Split("a", 1, ranges=((2, 3), (0, 1)), down=True)


def test_many_conditions_are_read() -> None:
    """More of them than a rule may be deep."""
    parts: list[t.Formula] = [t.Compare(t.FieldOf("a", "x2"), "<=", t.Number(9))] * 1000
    made = replace(SHELF, rules=(t.Rule("r", conjunction(parts)),))
    answer = Program(usual_program()).ask(["first", "100"], t.print_problem(made).encode())
    assert answer.text.startswith("layout\n")


def test_what_is_no_derivation() -> None:
    for lines in ([b"layout\n"], [b"none\n", b"dead 1\n"]):
        with pytest.raises(NotOneDerivation):
            list(body(lines))


def test_paths_stand_in_order() -> None:
    paths: list[CubePath] = [(0, 1), (1,), (0, 0, 3)]
    assert sorted(paths) == [(0, 0, 3), (0, 1), (1,)]
