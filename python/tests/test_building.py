"""Names, units, tables, turned shapes and rooms."""

from __future__ import annotations

from itertools import permutations
from pathlib import Path

import pytest
from hypothesis import given, settings
from hypothesis import strategies as st

import geost
from geost import rules
from geost import text as t
from geost.names import Names, is_allowed
from geost.rows import names_in, rows_of
from geost.shapes import turned

HEAD = "parcel;length;width;height;weight;stop;kind;turn;count\n"


def table(folder: Path, *rows: str, head: str = HEAD, name: str = "parcels.csv") -> Path:
    file = folder / name
    file.write_text(head + "".join(row + "\n" for row in rows), encoding="utf-8")
    return file


def read(file: Path, **more: object) -> geost.Items:
    given: dict[str, object] = {"name": "parcel", "numbers": ("weight", "stop"), **more}
    return geost.read_items(file, **given)  # type: ignore[arg-type]


# Objects that may be absent


def test_what_may_be_absent() -> None:
    plan = geost.Problem(1)
    plan.shape("s", (2,))
    plan.object("a", "s", [(0, 1)])
    plan.object("b/1", "s", [(0, 1)], may_be_absent=True)
    plan.rule("enough", geost.at_least(1, lambda p: p.x1 >= 0))
    lines = plan.text().splitlines()
    assert lines[0] == "geost 2 dims 1"
    assert "object b_1 as s, absent at 0..1 ;" in lines
    layout = plan.layout({"a": (0,), "b/1": None})
    assert layout.block() == "layout\na as s at 0\nb_1 absent\n"
    gone = layout["b/1"]
    assert gone.is_absent and gone.boxes == () and gone.origin == ()
    assert not layout["a"].is_absent
    there = layout.moved("b/1", 1)
    assert there.block() == "layout\na as s at 0\nb_1 as s at 1\n"
    assert there.without("b/1").block() == layout.block()
    assert layout.records()[1] == {"number": 2, "item": "b/1"}


def test_a_room_with_what_may_be_absent(tmp_path: Path) -> None:
    file = table(tmp_path, "a;1;1;1;3;1;x;none;1", "b;1;1;1;3;2;x;none;1")
    room = geost.Room((1, 1, 1))
    plan = room.problem(read(file), may_be_absent=lambda item: item["stop"] == 2)
    said = [line for line in plan.text().splitlines() if line.startswith("object")]
    assert [", absent at" in line for line in said] == [False, True]


# Names


@settings(max_examples=500, deadline=None)
@given(st.lists(st.text(max_size=60), unique=True, max_size=30), st.booleans())
def test_names_go_and_come_back(given_names: list[str], is_attribute: bool) -> None:
    names = Names(is_attribute)
    spelled = [names.spell(name) for name in given_names]
    assert len(set(spelled)) == len(given_names)
    assert all(is_allowed(name, is_attribute) for name in spelled)
    assert [names.of(name) for name in spelled] == given_names
    assert [names.spell(name) for name in given_names] == spelled


@settings(max_examples=25, deadline=None)
@given(st.lists(st.text(max_size=45), unique=True, min_size=1, max_size=20))
def test_the_program_takes_names_of_any_text(given_names: list[str]) -> None:
    plan = geost.Problem(1)
    plan.shape(given_names[0], (1,))
    for name in given_names:
        plan.object(name, given_names[0], [(0, 30)], {given_names[-1]: 3})
    plan.add(rules.no_overlap())
    plan.rule(given_names[0], geost.forall(lambda p: p[given_names[-1]] == 3))
    answer = plan.first(1000)
    assert answer and [*answer.layout] == given_names  # type: ignore[misc]
    assert [placed.origin for placed in answer.layout.values()] == [  # type: ignore[union-attr]
        (number,) for number in range(len(given_names))
    ]
    verdict = plan.judge(answer.layout.moved(given_names[0], 30))  # type: ignore[union-attr]
    assert bool(verdict)


# Units


def test_items_are_rounded_up_and_rooms_down() -> None:
    unit = geost.Unit("5 cm")
    assert [unit.up(length) for length in ("12.5 cm", "12,5", "15", "0.151 m")] == [3, 3, 3, 4]
    assert [unit.down(length) for length in ("12.5 cm", "6.2 m", "14")] == [2, 124, 2]
    assert unit.down(14) == 2
    assert geost.Unit("in").up("1 ft") == 12
    assert geost.Room.of("6.2 m", "2.44 m", "2.4 m", unit="5 cm").size == (124, 48, 48)
    assert unit.back(3) == 15 and geost.Unit("2 mm").back(3) == 6


@settings(max_examples=300, deadline=None)
@given(
    st.integers(1, 10**6),
    st.integers(1, 99),
    st.sampled_from(["mm", "cm", "dm", "m", "in", "ft"]),
)
def test_up_and_down_enclose_the_length(thousandths: int, cell: int, unit: str) -> None:
    known = geost.Unit(f"{cell} {unit}")
    length = f"{thousandths // 1000}.{thousandths % 1000:03}"
    low, high = known.down(length), known.up(length)
    assert low * cell * 1000 <= thousandths <= high * cell * 1000 and high - low <= 1


@pytest.mark.parametrize("bad", ["", "wide", "3 yards", "1..2", "- 3"])
def test_what_is_no_length(bad: str) -> None:
    with pytest.raises(geost.BadLength, match="write"):
        geost.Unit("cm").up(bad)
    with pytest.raises(geost.BadLength, match="write"):
        geost.Unit("0 cm")


# Tables


def test_a_table_becomes_items(tmp_path: Path) -> None:
    file = table(
        tmp_path,
        "Kühlschrank;60;0,6 m;185,5;80;2;groß;upright;1",
        "Kiste;30;30;30;;1;;any;2",
        "",
        "end;1;1;1;5;1;klein;;",
    )
    items = read(file, words=("kind",))
    assert [(item.name, item.size) for item in items] == [
        ("Kühlschrank", (60, 60, 186)),
        ("Kiste 1", (30, 30, 30)),
        ("Kiste 2", (30, 30, 30)),
        ("end", (1, 1, 1)),
    ]
    assert [item.turns for item in items] == [(3,), (1, 2, 3), (1, 2, 3), ()]
    assert dict(items[0].numbers) == {"weight": 80, "stop": 2, "kind": 1}
    assert dict(items[1].numbers) == {"stop": 1} and items[1]["weight"] == 0
    assert items.words == {"kind": {"groß": 1, "klein": 2}}
    assert str(items[3].where) == f"{file}:5"
    assert read(file, numbers={"weight": 10})[0]["weight"] == 800


GOOD = ["a", "10", "10", "10", "5", "1", "red", "none", "1"]
FAULTS = {
    ("length", "long"): "'long' is no length",
    ("width", "0"): "'0' is no length above 0",
    ("height", "2 yards"): "write one of the units mm, cm, dm, m, in, ft",
    ("weight", "heavy"): "'heavy' is no number",
    ("stop", "1.5"): "'1.5' is no whole number",
    ("turn", "over"): "'over' is no way of turning",
    ("count", "-1"): "'-1' is no count",
    ("parcel", ""): "the name is missing",
}


@pytest.mark.parametrize("cell", FAULTS, ids=lambda cell: " ".join(cell))
@settings(max_examples=10, deadline=None)
@given(before=st.integers(0, 5), blank=st.booleans())
def test_faults_name_file_line_and_column(
    tmp_path_factory: pytest.TempPathFactory, cell: tuple[str, str], before: int, blank: bool
) -> None:
    folder = tmp_path_factory.mktemp("faults")
    titles = HEAD.strip().split(";")
    bad = [cell[1] if title == cell[0] else good for title, good in zip(titles, GOOD)]
    good = [";".join([f"b{number}", *GOOD[1:]]) for number in range(before)]
    file = table(folder, *good, *([""] if blank else []), ";".join(bad))
    with pytest.raises(geost.TableFault) as raised:
        read(file)
    line = 2 + before + blank
    assert (raised.value.file, raised.value.line, raised.value.column) == (
        str(file),
        line,
        cell[0],
    )
    assert str(raised.value).startswith(f"{file}:{line}: column {cell[0]!r}: ")
    assert FAULTS[cell] in str(raised.value)


def test_faults_of_a_whole_table(tmp_path: Path) -> None:
    with pytest.raises(geost.TableFault, match=r":3: column 'parcel': 'a' stands in line 2 too"):
        read(table(tmp_path, ";".join(GOOD), ";".join(GOOD)))
    with pytest.raises(geost.TableFault, match=r":1: column 'mass': there is no such column"):
        read(table(tmp_path, ";".join(GOOD)), numbers=("mass",))
    with pytest.raises(geost.TableFault, match=r":1: column 'length': two columns"):
        read(table(tmp_path, "a;1;1;1;1", head="parcel;length;length;width;height\n"), numbers=())
    with pytest.raises(geost.TableFault, match="empty"):
        read(table(tmp_path, head=""))


# Shapes


def test_a_box_is_turned_onto_each_of_its_sides() -> None:
    box = (t.Box((0, 0, 0), (3, 2, 1)),)
    assert {form[0].sizes for form in turned(box, "any")} == set(permutations((3, 2, 1)))
    assert [form[0].sizes for form in turned(box, "upright")] == [(3, 2, 1), (2, 3, 1)]
    assert [form[0].sizes for form in turned(box, "x1")] == [(3, 2, 1), (3, 1, 2)]
    assert [form[0].sizes for form in turned(box, "none")] == [(3, 2, 1)]
    assert len(turned((t.Box((0, 0, 0), (2, 2, 2)),), "any")) == 1


def cells(boxes: tuple[t.Box, ...]) -> frozenset[tuple[int, ...]]:
    found: set[tuple[int, ...]] = set()
    for box in boxes:
        spots: list[tuple[int, ...]] = [()]
        for offset, size in zip(box.offsets, box.sizes):
            spots = [(*spot, offset + step) for spot in spots for step in range(size)]
        found |= set(spots)
    return frozenset(found)


def test_a_corner_has_four_forms_and_its_mirror_is_none_of_them() -> None:
    """Cells of the forms by turning each cell by hand: (x, y) goes to (-y, x)."""
    hook = (t.Box((0, 0), (1, 3)), t.Box((1, 0), (1, 1)))
    forms = {cells(form) for form in turned(hook, "x3")}
    wanted: set[frozenset[tuple[int, ...]]] = set()
    spots: frozenset[tuple[int, int]] = frozenset((x, y) for x, y in cells(hook))
    for _ in range(4):
        spots = frozenset((-y, x) for x, y in spots)
        left, bottom = min(x for x, _ in spots), min(y for _, y in spots)
        spots = frozenset((x - left, y - bottom) for x, y in spots)
        wanted.add(frozenset(spots))
    assert forms == wanted and len(forms) == 4
    mirror = frozenset((1 - x, y) for x, y in cells(hook))
    assert mirror not in forms
    tree = (t.Box((0, 0, 0), (3, 1, 1)), t.Box((0, 0, 1), (1, 1, 1)), t.Box((0, 1, 0), (1, 1, 1)))
    assert len(turned(tree, "any")) == 24


def test_shapes_that_are_turned_have_names(tmp_path: Path) -> None:
    plan = geost.Problem(2)
    names = plan.shapes_turned("hook", ((0, 0), (1, 3)), ((1, 0), (1, 1)), turns="x3")
    assert names == ["hook", "hook 2", "hook 3", "hook 4"]
    plan.object("piece", names, [(0, 3), (0, 3)])
    plan.add(rules.inside(3, 2))
    layout = plan.first(100).layout
    assert layout is not None and layout["piece"].shape in ("hook 2", "hook 4")
    assert layout["piece"].low == (0, 0) and layout["piece"].size == (3, 2)


# Rooms, and texts that are kept


def test_a_room_makes_shapes_and_ranges() -> None:
    items = [geost.Item("a", (3, 2, 1), {"weight": 4}, "any"), geost.Item("b", (1, 1, 1))]
    plan = geost.Room((3, 3, 2)).problem(items, sequence=lambda item: item.name)
    assert plan.text() == (
        "geost 1 dims 3\n"
        "shape s3x2x1 box 0 0 0 size 3 2 1 ;\n"
        "shape s3x1x2 box 0 0 0 size 3 1 2 ;\n"
        "shape s2x3x1 box 0 0 0 size 2 3 1 ;\n"
        "shape s1x3x2 box 0 0 0 size 1 3 2 ;\n"
        "shape s1x1x1 box 0 0 0 size 1 1 1 ;\n"
        "object a as s3x2x1, s3x1x2, s2x3x1, s1x3x2 at 0..2 0..2 0..1 with weight = 4 ;\n"
        "object b as s1x1x1 at 0..2 0..2 0..1 ;\n"
        "rule no_overlap : apart ;\n"
        "rule inside : within 0..2 0..2 0..1 ;\n"
        "end\n"
    )
    with pytest.raises(geost.NoRoom, match="'c' is 4 x 1 x 1 and has no room in 3 x 3 x 2"):
        geost.Room((3, 3, 2)).problem([geost.Item("c", (4, 1, 1), {}, "upright")])


def test_rooms_and_items_have_one_unit() -> None:
    items = geost.Items([geost.Item("a", (2,))], unit=geost.Unit("cm"))
    assert geost.Room.of("3 cm").problem(items).unit == geost.Unit("cm")
    with pytest.raises(geost.BadLength, match="cells of 5 mm, the items of cm"):
        geost.Room.of("3 cm", unit="5 mm").problem(items)


def test_in_a_centred_room_origins_are_middles() -> None:
    plan = geost.Room((6, 4), centred=True).problem([geost.Item("a", (4, 2))])
    assert "shape s4x2 box -2 -1 size 4 2 ;" in plan.text()
    assert "object a as s4x2 at 2..4 1..3 ;" in plan.text()


def test_a_text_is_kept_and_read_again(tmp_path: Path) -> None:
    plan = geost.Room((4, 3)).problem(
        geost.Items(
            [geost.Item("Kiste 1/ä", (2, 1), {"kind": 2}), geost.Item("Kiste 2", (1, 1))],
            {"kind": {"groß": 2}},
        ),
        [rules.in_sequence(10)],
    )
    plan.save(tmp_path / "my.geost")
    again = geost.Problem.read(tmp_path / "my.geost")
    assert again.text() == plan.text()
    assert [*again.first(100).layout] == ["Kiste 1/ä", "Kiste 2"]  # type: ignore[misc]
    assert set(names_in(plan.text()).values()) == {"Kiste 1/ä", "Kiste 2"}
    layout = plan.first(100).layout
    assert layout is not None
    titles, first, _ = rows_of(plan.shown(), plan.text(), list(layout.spelled))
    assert dict(zip(titles, first))["kind"] == "groß"
    assert layout.records()[0]["kind"] == "groß"


def test_ranges_in_pieces_and_five_dimensions_make_a_text_of_the_second_version() -> None:
    plain = geost.Problem(1)
    plain.shape("crate", [2])
    plain.object("a", "crate", [(0, 3)])
    assert plain.text().startswith("geost 1 dims 1\n")
    pieces = geost.Problem(1)
    pieces.shape("crate", [2])
    pieces.object("a", "crate", [[(0, 1), 5, (7, 9)]])
    assert pieces.text().startswith("geost 2 dims 1\n")
    assert "object a as crate at 0..1, 5..5, 7..9 ;\n" in pieces.text()
    assert t.read_problem(pieces.text().encode()).object("a").values(0) == [0, 1, 5, 7, 8, 9]
    assert geost.Problem(5).text().startswith("geost 2 dims 5\n")
