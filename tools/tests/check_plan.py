"""Pictures of plans: each cell of a drawing shows the object that `draw` has there, the picture in
three dimensions shows at each point the object that a walk along the line of sight meets first,
broken rules are named, the page needs nothing else, and its scripts draw what tools/plan draws."""

from __future__ import annotations

import json
import math
import random
import re
import shutil
import subprocess
import xml.etree.ElementTree as xml
from collections.abc import Iterator
from dataclasses import dataclass
from pathlib import Path

from geost.drawing import Drawing, Look, Plane, draw_layers, draw_plane, draw_sides, draw_time
from geost.page import PICTURE_SCRIPTS, SOURCE, broken_data
from geost.picture import OBJECT, Cuboid, Plan, broken_rules, frame_of, palette_of, placed_things
from geost.solid import TILT, TURN, camera_for, draw_solid
from geost.text import print_problem, read_layout, read_problem
from harness import TOP, Case, Cases, Failed, Setting, Skipped, run_tool, want, want_in

EXAMPLES = TOP / "examples"
SVG = "{http://www.w3.org/2000/svg}"
MOST_CELLS = 20_000
MOST_WALKED = 40
POINTS = 60
ROOM_COLOURS = ("#eef1f4", "#f6f8fa")
SIZE = (900.0, 600.0)
# three beams, each before the next one and behind the one before
BEAMS = """geost 1 dims 3
shape across box 0 0 0 size 6 1 1 ;
shape along box 0 0 0 size 1 6 1 ;
shape up box 0 0 0 size 1 1 6 ;
object one as across at 0..0 2..2 3..3 ;
object two as along at 3..3 0..0 2..2 ;
object three as up at 2..2 3..3 0..0 ;
rule free : apart ;
end
"""
TWO = """geost 1 dims 3
shape s box 0 0 0 size 2 1 1 ;
object a as s at 0..3 0..1 0..1 with weight = 9 ;
object b as s at 0..3 0..1 0..1 with weight = 4 ;
rule free : apart ;
rule light : forall p in objects : forall q in objects :
  [ p.weight <= q.weight or p.x3 <= q.x3 ] ;
end
"""
BEAMS_PLAN = "layout\none as across at 0 2 3\ntwo as along at 3 0 2\nthree as up at 2 3 0\n"


@dataclass(frozen=True)
class Tried:
    """A problem and a plan of it, with the name of the test and whether some rules are broken."""

    name: str
    problem: str
    layout: str
    is_broken: bool = False

    def plan(self, setting: Setting) -> Plan:
        problem, layout = read_problem(self.problem.encode()), read_layout(self.layout.encode())
        broken = broken_rules(setting.program, problem, layout) if self.is_broken else ()
        return Plan(problem, placed_things(problem, layout), broken)

    def frame(self) -> Cuboid:
        problem, layout = read_problem(self.problem.encode()), read_layout(self.layout.encode())
        return frame_of(Plan(problem, placed_things(problem, layout)))


def tried_plans() -> Iterator[Tried]:
    """The answers and the plans of the examples, and three beams."""
    yield Tried("beams", BEAMS, BEAMS_PLAN)
    for problem in sorted(EXAMPLES.glob("*.geost")):
        files = [problem.with_suffix(".answer"), *sorted(EXAMPLES.glob(f"{problem.stem}*.plan"))]
        for file in files:
            text = file.read_text(encoding="utf-8")
            if text.lstrip().startswith("layout") and problem_of(file) == problem.stem:
                judged = file.with_suffix(".judged")
                is_broken = judged.exists() and judged.read_text() != "good\n"
                yield Tried(file.name, problem.read_text(encoding="utf-8"), text, is_broken)


def problem_of(file: Path) -> str:
    """The problem that a plan belongs to: the longest name with which the file's name begins."""
    names = [path.stem for path in EXAMPLES.glob("*.geost") if file.stem.startswith(path.stem)]
    return max(names, key=len)


def look_of(plan: Plan) -> Look:
    return Look(palette_of(plan.things, OBJECT), frozenset(plan.blamed()))


def tree_of(drawing: Drawing) -> xml.Element:
    return xml.fromstring(drawing.svg("a test"))


# Cells of drawings in a plane


def numbers(element: xml.Element, *keys: str) -> list[float]:
    return [float(element.attrib[key]) for key in keys]


def rectangles(group: xml.Element) -> list[tuple[float, float, float, float]]:
    found = []
    for rect in group.iter(f"{SVG}rect"):
        x, y, width, height = numbers(rect, "x", "y", "width", "height")
        found.append((x, y, x + width, y + height))
    return found


@dataclass(frozen=True)
class Sheet:
    """A drawing in a plane, read back: where the frame lies, and the rectangles of each thing."""

    frame: tuple[float, float, float, float]
    scale: float
    things: list[tuple[str, list[tuple[float, float, float, float]]]]

    def at(self, right: float, up: float) -> str:
        """The sign at a point so many cells to the right and up from the frame's corner."""
        x, y = self.frame[0] + right * self.scale, self.frame[3] - up * self.scale
        names = {
            name for name, rects in self.things if any(is_inside(rect, x, y) for rect in rects)
        }
        return "." if not names else "#" if len(names) > 1 else names.pop()


def is_inside(rect: tuple[float, float, float, float], x: float, y: float) -> bool:
    return rect[0] <= x <= rect[2] and rect[1] <= y <= rect[3]


def read_sheet(drawing: Drawing) -> Sheet:
    tree = tree_of(drawing)
    room = next(rect for rect in tree.iter(f"{SVG}rect") if rect.attrib.get("class") == "room")
    x, y, width, height = numbers(room, "x", "y", "width", "height")
    plane = next(group for group in tree.iter(f"{SVG}g") if group.attrib.get("class") == "plan")
    things = [
        (group.attrib["data-name"], rectangles(group))
        for group in tree.iter(f"{SVG}g")
        if "data-name" in group.attrib
    ]
    return Sheet((x, y, x + width, y + height), float(plane.attrib["data-scale"]), things)


def drawn_layers(setting: Setting, tried: Tried) -> tuple[list[range], dict[int, list[str]]]:
    """The ranges that `draw` prints, and its rows by their layer; layer 0 in two dimensions."""
    answer = setting.program.ask(["draw"], (tried.problem + tried.layout).encode())
    head, *lines = answer.text.splitlines()
    spans = [span.split("..") for span in head.split()[1:]]
    layers: dict[int, list[str]] = {}
    layer = 0
    for line in lines:
        if line.startswith("layer "):
            layer = int(line.split()[1])
        else:
            layers.setdefault(layer, []).append(line)
    return [range(int(low), int(high) + 1) for low, high in spans], layers


def compare_layer(plan: Plan, sheet: Sheet, ranges: list[range], rows: list[str]) -> None:
    signs = "abcdefghijklmnopqrstuvwxyzABCDEFGHIJKLMNOPQRSTUVWXYZ0123456789"
    names = {thing.name: signs[number % 62] for number, thing in enumerate(plan.things)}
    frame = frame_of(plan)
    for row, up in zip(rows, reversed(ranges[1])):
        found = [
            sheet.at(right - frame.low[0] + 0.5, up - frame.low[1] + 0.5) for right in ranges[0]
        ]
        want("".join(names.get(sign, sign) for sign in found), row, f"the row x2 = {up}")


def check_cells(setting: Setting, tried: Tried) -> None:
    """Each cell of the plan, or of each layer, shows what `draw` has there."""
    plan = tried.plan(setting)
    ranges, layers = drawn_layers(setting, tried)
    look = look_of(plan)
    if plan.problem.dims == 2:
        sheet = read_sheet(draw_plane(plan, look, Plane(0, 1), SIZE))
        compare_layer(plan, sheet, ranges, layers[0])
        return
    for drawing in draw_layers(plan, look, SIZE):
        title = next(
            text.text or ""
            for text in tree_of(drawing).iter(f"{SVG}text")
            if text.attrib.get("class") == "title"
        )
        low, _, high = title.rpartition(" = ")[2].partition("..")
        for layer in range(int(low), int(high or low) + 1):
            compare_layer(plan, read_sheet(drawing), ranges, layers[layer])


# Points of the picture in three dimensions


def polygons(drawing: Drawing) -> list[tuple[str, list[tuple[float, float]]]]:
    """The faces of things as they are drawn, one after another."""
    found = []
    for group in tree_of(drawing).iter(f"{SVG}g"):
        for polygon in group.findall(f"{SVG}polygon"):
            if "data-name" in group.attrib:
                spots = [
                    tuple(map(float, spot.split(","))) for spot in polygon.attrib["points"].split()
                ]
                found.append((group.attrib["data-name"], [(spot[0], spot[1]) for spot in spots]))
    return found


def is_in_polygon(spots: list[tuple[float, float]], x: float, y: float) -> bool:
    """Whether a convex polygon has a point."""
    sides = zip(spots, [*spots[1:], spots[0]])
    turns = [(b[0] - a[0]) * (y - a[1]) - (b[1] - a[1]) * (x - a[0]) for a, b in sides]
    return all(turn >= 0 for turn in turns) or all(turn <= 0 for turn in turns)


def met_first(plan: Plan, start: list[float]) -> str | None:
    """What a walk along the line of sight meets first, by steps of a fiftieth of a cell."""
    eye = (math.cos(TURN) * math.cos(TILT), math.sin(TURN) * math.cos(TILT), math.sin(TILT))
    frame = frame_of(plan)
    reach = sum(high - low for low, high in zip(frame.low, frame.high))
    owners = {box: thing.name for thing in plan.things for box in thing.boxes}
    for step in range(50 * reach, -50 * reach, -1):
        spot = [part + eye[d] * step / 50 for d, part in enumerate(start)]
        for box, name in owners.items():
            if all(box.low[d] <= spot[d] < box.high[d] for d in range(3)):
                return name
    return None


def check_solid(setting: Setting, tried: Tried) -> None:
    """At random points of things, the face drawn last is that of the object that is seen first."""
    plan = tried.plan(setting)
    faces = polygons(draw_solid(plan, look_of(plan), SIZE))
    camera = camera_for(frame_of(plan), SIZE)
    chance = random.Random(tried.name)
    for _ in range(POINTS):
        box = chance.choice(plan.cells())
        spot = [chance.uniform(low + 0.1, high - 0.1) for low, high in zip(box.low, box.high)]
        x, y = camera.onto((spot[0], spot[1], spot[2]))
        shown = [name for name, spots in faces if is_in_polygon(spots, x, y)]
        around = {met_first(plan, [part + move for part in spot]) for move in (0.0, 0.04, -0.04)}
        if len(around) == 1:
            want(shown[-1:], list(around), f"what is seen at {x:.1f} {y:.1f}")


# Time lines, broken rules, pages


def check_bars(setting: Setting) -> None:
    """The bars of the schedule, by its hours worked out by hand from its answer."""
    text = (EXAMPLES / "schedule.geost").read_text(encoding="utf-8")
    layout = (
        "layout\ncut as three_hours at 0 0\ndrill as two_hours at 3 1\nweld as four_hours at 4 0\n"
    )
    layout += "paint as two_hours at 5 1\ntest as two_hours at 7 1\npack as three_hours at 9 0\n"
    tree = tree_of(
        draw_time(
            Tried("", text, layout).plan(setting),
            look_of(Tried("", text, layout).plan(setting)),
            900,
        )
    )
    marks = [text for text in tree.iter(f"{SVG}text") if text.attrib.get("class") == "number"]
    places = {int(mark.text or ""): float(mark.attrib["x"]) for mark in marks}
    hours = {
        "cut": (0, 3),
        "drill": (3, 5),
        "weld": (4, 8),
        "paint": (5, 7),
        "test": (7, 9),
        "pack": (9, 12),
    }
    bars = {
        g.attrib["data-name"]: rectangles(g)[0]
        for g in tree.iter(f"{SVG}g")
        if "data-name" in g.attrib
    }
    for name, (begin, end) in hours.items():
        want(
            [round(bars[name][0] - 0.5), round(bars[name][2] + 0.5)],
            [round(places[begin]), round(places[end])],
            name,
        )


def check_broken(setting: Setting) -> None:
    """In this plan the heavy a4 stands on c2, and nothing stands under b1."""
    problem = (EXAMPLES / "warehouse.geost").read_text(encoding="utf-8")
    layout = (EXAMPLES / "warehouse_heavy.plan").read_text(encoding="utf-8")
    plan = Tried("", problem, layout, True).plan(setting)
    want(
        [(broken.name, broken.groups) for broken in plan.broken],
        [("heavy", (("a4", "c2"),)), ("support", (("b1",),))],
        "the broken rules",
    )
    for drawing in (
        draw_solid(plan, look_of(plan), SIZE),
        draw_layers(plan, look_of(plan), SIZE)[1],
    ):
        groups = [
            group
            for group in tree_of(drawing).iter(f"{SVG}g")
            if "blamed" in group.attrib.get("class", "")
        ]
        drawn = {group.attrib["data-name"] for group in groups}
        want(drawn - {"a4"}, {"b1", "c2"}, "the objects in red")


def check_overlap(setting: Setting) -> None:
    """Cells that two objects share are marked, in the plane and in three dimensions."""
    problem = "geost 1 dims 3\nshape s box 0 0 0 size 2 2 2 ;\nobject a as s at 0..9 0..9 0..9 ;\n"
    problem += "object b as s at 0..9 0..9 0..9 ;\nrule free : apart ;\nend\n"
    plan = Tried("", problem, "layout\na as s at 0 0 0\nb as s at 1 1 1\n", True).plan(setting)
    want(
        [(box.low, box.high, names) for box, names in plan.overlaps()],
        [((1, 1, 1), (2, 2, 2), ("a", "b"))],
        "the shared cells",
    )
    layers = [
        len([r for r in tree_of(one).iter(f"{SVG}rect") if r.attrib.get("class") == "overlap"])
        for one in draw_layers(plan, look_of(plan), SIZE)
    ]
    want(layers, [0, 1, 0], "marks of shared cells, layer by layer")
    want_in("a and b", draw_solid(plan, look_of(plan), SIZE).svg("t"))


def check_script(setting: Setting, folder: Path) -> None:
    """The command line: a page, a drawing, each view, a refusal, words that are wrong."""
    problem, plan = str(folder / "two.geost"), str(folder / "two.plan")
    Path(problem).write_text(TWO)
    Path(plan).write_text("layout\na as s at 0 0 1\nb as s at 0 0 0\n")
    page, status = run_tool("plan", setting, [problem, plan])
    want(status, 0, "the status")
    want_in("the plan breaks 1 of 2 rules", page)
    check_alone(page)
    for view in ("solid", "plan", "layers", "sides", "time", "table", "all"):
        drawing, status = run_tool(
            "plan", setting, ["--svg", "--view", view, "--colour", "weight", problem, plan]
        )
        want(status, 0, f"the status of {view}")
        words = " ".join(xml.fromstring(drawing).itertext())
        want_in("rule light is broken by a and b", words)
        want_in("weight = 9", words)
    wrong = folder / "wrong.plan"
    wrong.write_text("layout\na as q at 0 0 0\nb as s at 0 0 1\n")
    said, status = run_tool("plan", setting, [problem, str(wrong)])
    want(status, 2, "the status of a refused plan")
    want_in(f"{wrong}:2:6: unknown", said)
    want(
        run_tool("plan", setting, ["--colour", "wieght", problem, plan])[1],
        4,
        "the status of a wrong colour",
    )
    want(
        run_tool("plan", setting, [problem, str(folder / "missing.plan")])[1],
        4,
        "the status of a missing file",
    )


def check_alone(page: str) -> None:
    """A page asks for nothing from elsewhere."""
    outside = re.findall(
        r"""(?:src|href)\s*=|url\(|@import|https?://(?!www\.w3\.org/2000/svg)\S+""", page
    )
    want(outside, [], "what the page asks for from elsewhere")


# The scripts of pages draw what tools/plan draws


def script_drawings(plan: Plan, layout: str, folder: Path) -> list[str]:
    """What the page's scripts draw of a plan, under node."""
    data = {
        "problem": print_problem(plan.problem),
        "layout": layout,
        "broken": [broken_data(broken) for broken in plan.broken],
    }
    scripts = [(SOURCE / name).read_text(encoding="utf-8") for name in PICTURE_SCRIPTS[:4]]
    driver = (TOP / "tools" / "tests" / "draw_plan.js").read_text(encoding="utf-8")
    file = folder / "draw.js"
    file.write_text(
        "\n".join([*scripts, f"const GIVEN = {json.dumps(data)};", driver]), encoding="utf-8"
    )
    done = subprocess.run(["node", str(file)], stdout=subprocess.PIPE, check=True, timeout=60)
    drawings: list[str] = json.loads(done.stdout)
    return drawings


SHAPES = {
    "rect": ("x", "y", "width", "height", "fill"),
    "polygon": ("points", "fill"),
    "text": ("transform", "fill"),
}


def shapes_in(svg: str) -> list[tuple[str, ...]]:
    """The cells, faces and names of things with their fills, as they follow."""
    found: list[tuple[str, ...]] = []
    for element in xml.fromstring(svg).iter():
        kind = element.tag.rpartition("}")[2]
        given = [element.attrib.get(key, "") for key in SHAPES.get(kind, ())]
        if all(given) and given and given[-1] not in ROOM_COLOURS:
            found.append((kind, *given, element.text or ""))
    return found


def spelled_numbers(shape: tuple[str, ...]) -> tuple[str, list[float]]:
    text = " ".join(shape)
    return re.sub(r"-?\d+(\.\d+)?", "", text), [
        float(number) for number in re.findall(r"-?\d+(?:\.\d+)?", re.sub(r"#\w+", "", text))
    ]


def check_same(setting: Setting, tried: Tried, folder: Path) -> None:
    """All drawings of a plan as made in Python and by the page's scripts."""
    if shutil.which("node") is None:
        raise Skipped("node is not installed")
    plan = tried.plan(setting)
    look = look_of(plan)
    drawings: list[Drawing] = [draw_time(plan, look, 900)]
    if plan.problem.dims == 2:
        drawings.append(draw_plane(plan, look, Plane(0, 1), SIZE))
    if plan.problem.dims == 3:
        drawings += [
            *draw_layers(plan, look, SIZE),
            *draw_sides(plan, look, SIZE),
            draw_solid(plan, look, SIZE),
        ]
    folder.mkdir()
    others = script_drawings(plan, tried.layout, folder)
    want(len(others), len(drawings), "drawings")
    for mine, other in zip(drawings, others):
        compare_shapes(shapes_in(mine.svg("t")), shapes_in(other))


def compare_shapes(mine: list[tuple[str, ...]], other: list[tuple[str, ...]]) -> None:
    want(len(other), len(mine), "shapes of a drawing")
    for one, two in zip(mine, other):
        (words, numbers), (others, values) = spelled_numbers(one), spelled_numbers(two)
        want(others, words, "a shape's words")
        if any(abs(a - b) > 0.02 for a, b in zip(numbers, values)):
            raise Failed(f"{one} in Python, {two} in the page")


def cases(setting: Setting, folder: Path) -> Cases:
    for number, tried in enumerate(tried_plans()):
        own = folder / f"plan{number}"
        frame = tried.frame()
        sizes = [high - low for low, high in zip(frame.low, frame.high)]
        if len(sizes) in (2, 3) and math.prod(sizes) <= MOST_CELLS:
            yield Case(f"plan {tried.name}: cells", lambda tried=tried: check_cells(setting, tried))
        if len(sizes) == 3 and max(sizes) <= MOST_WALKED and not tried.is_broken:
            yield Case(
                f"plan {tried.name}: three dimensions",
                lambda tried=tried: check_solid(setting, tried),
            )
        yield Case(
            f"plan {tried.name}: the page's scripts",
            lambda tried=tried, own=own: check_same(setting, tried, own),
        )
    yield Case("plan: bars", lambda: check_bars(setting))
    yield Case("plan: broken rules", lambda: check_broken(setting))
    yield Case("plan: shared cells", lambda: check_overlap(setting))
    own = folder / "plan_script"
    own.mkdir()
    yield Case("plan: command line", lambda: check_script(setting, own))
