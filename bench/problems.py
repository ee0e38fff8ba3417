"""The problems that scripts of this folder try: boxes that fit one after another, crates in a warehouse, pentominoes in trays,
jobs in a shop.

Each has the text that the program reads and, to compare, a model for MiniZinc's constraint geost with the same search order.
"""
from __future__ import annotations

from collections import Counter
from collections.abc import Iterable, Iterator
from dataclasses import dataclass
from itertools import chain

Cell = tuple[int, int]
Numbers = tuple[int, ...]
Rectangle = tuple[int, int, int, int]

PICTURES = {
    "x": ".#. ### .#.", "f": ".## ##. .#.", "w": "#.. ##. .##", "z": "##. .#. .##", "t": "### .#. .#.", "u": "#.# ###",
    "v": "#.. #.. ###", "n": ".# .# ## #.", "y": ".# ## .# .#", "l": "#. #. #. ##", "p": "## ## #.", "i": "# # # # #",
}

CRATES = {"a_x": (2, 1, 1), "a_y": (1, 2, 1), "b_x": (3, 1, 1), "b_y": (1, 3, 1), "c_x": (2, 1, 2), "c_y": (1, 2, 2)}

STACKING_RULES = """macro on(p : object, q : object) means
  exists s in boxes of p : exists t in boxes of q :
  [ p.x3 + s.t3 = q.x3 + t.t3 + t.l3
    and p.x1 + s.t1 < q.x1 + t.t1 + t.l1
    and q.x1 + t.t1 < p.x1 + s.t1 + s.l1
    and p.x2 + s.t2 < q.x2 + t.t2 + t.l2
    and q.x2 + t.t2 < p.x2 + s.t2 + s.l2 ] ;
rule heavy : forall p in objects : forall q in objects :
  [ p.weight > q.weight implies not @on(p, q) ] ;
rule support : forall p in objects :
  [ p.x3 = 0 or exists q in objects : @on(p, q) ] ;"""

# the same of objects whose shapes are one box each, at its origin
STACKING_MODEL = """predicate on(int: p, int: q) = x[p,3] = x[q,3] + size[kind[q],3]
  /\\ x[p,1] < x[q,1] + size[kind[q],1] /\\ x[q,1] < x[p,1] + size[kind[p],1]
  /\\ x[p,2] < x[q,2] + size[kind[q],2] /\\ x[q,2] < x[p,2] + size[kind[p],2];
constraint forall(p, q in OBJECTS where weight[p] > weight[q])(not on(p, q));
constraint forall(p in OBJECTS)(x[p,3] = 0 \\/ exists(q in OBJECTS where q != p)(on(p, q)));"""


@dataclass(frozen=True)
class Box:
    """A box of a shape."""

    offset: Numbers
    size: Numbers


@dataclass(frozen=True)
class Item:
    """An object: its name, the names of its shapes, and its weight where the rules ask for one."""

    name: str
    shapes: list[str]
    weight: int | None = None


@dataclass(frozen=True)
class Problem:
    """Objects that share no cell, each origin at 0..last in each dimension.

    Where walls are given, all cells lie between 0 and them. Where objects are stacked, a heavier one stands on no lighter one, and each
    stands on the floor or on another.
    """

    last: Numbers
    shapes: dict[str, list[Box]]
    items: list[Item]
    walls: Numbers | None = None
    is_stacked: bool = False

    def text(self) -> str:
        """The text of the problem."""
        at = " ".join(f"0..{end}" for end in self.last)
        lines = [f"geost 1 dims {len(self.last)}"]
        lines += [f"shape {name} {' '.join(map(box_text, boxes))} ;" for name, boxes in self.shapes.items()]
        for item in self.items:
            attribute = "" if item.weight is None else f" with weight = {item.weight}"
            lines.append(f"object {item.name} as {', '.join(item.shapes)} at {at}{attribute} ;")
        if self.walls:
            lines.append(f"rule walls : within {' '.join(f'0..{wall - 1}' for wall in self.walls)} ;")
        lines.append("rule free : apart ;")
        return "\n".join([*lines, *([STACKING_RULES] if self.is_stacked else []), "end"])

    def has_single_boxes(self) -> bool:
        """Whether each shape is one box at its origin, as `diffn` wants it."""
        return all(len(group) == 1 and not any(group[0].offset) for group in self.shapes.values())

    def no_overlap(self, is_decomposed: bool) -> str:
        """The constraint that no cell is shared, with the walls: `geost`, or `diffn` and sums."""
        dims = len(self.last)
        if not is_decomposed:
            arguments = f"{dims}, size, offset, shape, x, kind"
            if not self.walls:
                return f"constraint geost({arguments});"
            return f"constraint geost_bb({arguments}, {[0] * dims}, {list(self.walls)});"
        lengths = f"array2d(OBJECTS, 1..{dims}, [ size[kind[o],d] | o in OBJECTS, d in 1..{dims} ])"
        lines = [f"array[OBJECTS,1..{dims}] of var int: length = {lengths};"]
        lines.append("constraint diffn_k(x, length);")
        if self.walls:
            walls = f"x[o,d] + length[o,d] <= {list(self.walls)}[d]"
            lines.append(f"constraint forall(o in OBJECTS, d in 1..{dims})({walls});")
        return "\n".join(lines)

    def model(self, is_decomposed: bool = False) -> str:
        """The model for MiniZinc, which prints a layout as the program does. Where it is decomposed,
        `diffn` stands in place of `geost`, which is for shapes of one box."""
        dims = len(self.last)
        boxes = [box for group in self.shapes.values() for box in group]
        numbers = {name: number for number, name in enumerate(self.shapes, 1)}
        lines = [
            f'include "{"diffn_k" if is_decomposed else "geost"}.mzn";',
            f"set of int: OBJECTS = 1..{len(self.items)};",
            f"array[1..{len(boxes)},1..{dims}] of int: size = {table(box.size for box in boxes)};",
            f"array[1..{len(boxes)},1..{dims}] of int: offset = {table(box.offset for box in boxes)};",
            f"array[1..{len(self.shapes)}] of set of int: shape = {listed(numbered(self.shapes))};",
            f"array[1..{dims}] of int: last = {list(self.last)};",
            f"array[OBJECTS] of set of int: kinds = {listed(chosen({numbers[it] for it in item.shapes}) for item in self.items)};",
            f"array[OBJECTS] of int: weight = {[item.weight or 0 for item in self.items]};",
            f"array[OBJECTS,1..{dims}] of var 0..{max(self.last)}: x;",
            f"array[OBJECTS] of var 1..{len(self.shapes)}: kind;",
            f"constraint forall(o in OBJECTS)(kind[o] in kinds[o] /\\ forall(d in 1..{dims})(x[o,d] <= last[d]));",
            self.no_overlap(is_decomposed),
            STACKING_MODEL if self.is_stacked else "",
            f"solve :: int_search([ if v = 0 then kind[o] else x[o,v] endif | o in OBJECTS, v in 0..{dims} ], input_order, indomain_min, complete) satisfy;",
            f"array[OBJECTS] of string: object_name = {quoted(item.name for item in self.items)};",
            f"array[1..{len(self.shapes)}] of string: shape_name = {quoted(self.shapes)};",
            f'output [ object_name[o] ++ " as " ++ shape_name[fix(kind[o])] ++ " at" ++ concat([ " \\(x[o,d])" | d in 1..{dims} ]) ++ "\\n" | o in OBJECTS ];',
        ]
        return "\n".join(lines) + "\n"


def box_text(box: Box) -> str:
    """The box as the program reads it."""
    return f"box {' '.join(map(str, box.offset))} size {' '.join(map(str, box.size))}"


def listed(sets: Iterable[str]) -> str:
    """A list of sets that are spelled already."""
    return f"[{', '.join(sets)}]"


def quoted(names: Iterable[str]) -> str:
    """A list of strings."""
    return listed(f'"{name}"' for name in names)


def chosen(numbers: set[int]) -> str:
    """A set of numbers."""
    return "{" + ", ".join(map(str, sorted(numbers))) + "}"


def table(rows: Iterable[Numbers]) -> str:
    """A table of numbers, row by row."""
    return "[| " + " | ".join(", ".join(map(str, row)) for row in rows) + " |]"


def numbered(shapes: dict[str, list[Box]]) -> list[str]:
    """For each shape the set of its boxes, which are counted through from 1."""
    sets, behind = [], 1
    for boxes in shapes.values():
        sets.append(chosen(set(range(behind, behind + len(boxes)))))
        behind += len(boxes)
    return sets


def boxes(count: int, width: int, sizes: list[Numbers], walls: Numbers | None = None) -> Problem:
    """So many objects, each of any of the sizes, at 0..width in each dimension, and within the walls where some are given."""
    dims = len(sizes[0])
    shapes = {f"s{number}": [Box((0,) * dims, size)] for number, size in enumerate(sizes)}
    items = [Item(f"o{number}", list(shapes)) for number in range(count)]
    return Problem((width,) * dims, shapes, items, walls)


def warehouse(each: int, walls: Numbers) -> Problem:
    """Crates of three kinds, so many of each, which are stacked."""
    shapes = {name: [Box((0, 0, 0), size)] for name, size in CRATES.items()}
    items = [
        Item(f"{kind}{number}", [f"{kind}_x", f"{kind}_y"], weight)
        for kind, weight in (("a", 30), ("b", 20), ("c", 10)) for number in range(1, each + 1)
    ]
    return Problem(tuple(wall - 1 for wall in walls), shapes, items, walls, is_stacked=True)


def normal(cells: list[Cell]) -> list[Cell]:
    """The cells moved to the corner, in order."""
    low, left = min(y for _, y in cells), min(x for x, _ in cells)
    return sorted((x - left, y - low) for x, y in cells)


def turned(cells: list[Cell]) -> list[list[Cell]]:
    """All turned and mirrored forms, each once."""
    forms: list[list[Cell]] = []
    for mirrored in (cells, [(-x, y) for x, y in cells]):
        form = mirrored
        for _ in range(4):
            if normal(form) not in forms:
                forms.append(normal(form))
            form = [(y, -x) for x, y in form]
    return sorted(forms)


def rectangles(cells: list[Cell]) -> list[Rectangle]:
    """Rectangles that have these cells, the largest first: a corner and two sides."""
    left, found = set(cells), []
    while left:
        fitting = [
            (x, y, w, h)
            for x, y in left for w in range(1, 6) for h in range(1, 6)
            if all((x + i, y + j) in left for i in range(w) for j in range(h))
        ]
        x, y, w, h = max(fitting, key=lambda it: (it[2] * it[3], it))
        found.append((x, y, w, h))
        left -= {(x + i, y + j) for i in range(w) for j in range(h)}
    return found


def tray(names: str, width: int, height: int) -> Problem:
    """Those pentominoes in a tray, each in all its turned and mirrored shapes."""
    shapes, items = {}, []
    for name in names:
        rows = PICTURES[name].split()
        cells = [(x, y) for y, row in enumerate(rows) for x, mark in enumerate(row) if mark == "#"]
        forms = {f"{name}{number}": form for number, form in enumerate(turned(cells))}
        shapes |= {form: [Box((x, y), (w, h)) for x, y, w, h in rectangles(those)] for form, those in forms.items()}
        items.append(Item(name, list(forms)))
    return Problem((width - 1, height - 1), shapes, items, (width, height))


def rack(boxes: int) -> str:
    """So many equal boxes on a shelf that is a cell too short for them; each stands before the next."""
    width = 4 * boxes - 1
    lines = ["geost 1 dims 1", "shape box4 box 0 size 4 ;"]
    lines += [f"object b{o} as box4 at 0..{width} ;" for o in range(boxes)]
    lines += [f"rule shelf : within 0..{width - 1} ;", "rule free : apart ;"]
    lines += [f"rule r{o} : b{o}.x1 < b{o + 1}.x1 ;" for o in range(boxes - 1)]
    return "\n".join([*lines, "end"])


def drawn(seed: int) -> Iterator[int]:
    """Numbers below 2^15 from a seed, by the linear congruence of the C standard's `rand`."""
    state = seed
    while True:
        state = (state * 1_103_515_245 + 12_345) % 2**31
        yield state >> 16


def shop(seed: int, steps: list[int], machines: int) -> str:
    """Jobs of so many steps each, every step of 2 to 9 hours and on another machine than the one before: x1 is the hour, x2 the machine.

    First in the order come the steps on the machine that has the most hours, and of one machine those with the most hours left of
    their job. There are twice the hours of the longest job.
    """
    numbers = drawn(seed)
    jobs: list[list[tuple[int, int]]] = []
    for count in steps:
        job: list[tuple[int, int]] = []
        while len(job) < count:
            machine, hours = next(numbers) % machines, 2 + next(numbers) % 8
            if not job or job[-1][0] != machine:
                job.append((machine, hours))
        jobs.append(job)
    hours_of = [sum(hours for _, hours in job) for job in jobs]
    end = 2 * max(hours_of)
    lines = ["geost 1 dims 2", *[f"shape h{hours} box 0 0 size {hours} 1 ;" for hours in range(2, 10)]]
    left = {(j, s): sum(hours for _, hours in job[s:]) for j, job in enumerate(jobs) for s in range(len(job))}
    load = Counter[int]()
    for machine, hours in chain.from_iterable(jobs):
        load[machine] += hours
    for j, s in sorted(left, key=lambda it: (-load[jobs[it[0]][it[1]][0]], -left[it], it)):
        machine, hours = jobs[j][s]
        place = f"0..{end - hours} {machine}..{machine}"
        lines.append(f"object j{j + 1}s{s + 1} as h{hours} at {place} with hours = {hours}, job = {j + 1}, step = {s + 1} ;")
    lines.append("rule machines : apart ;")
    lines.append("rule steps : forall p in objects : forall q in objects :")
    lines.append("  [ p.job = q.job and p.step + 1 = q.step implies p.x1 + p.hours <= q.x1 ] ;")
    return "\n".join([*lines, "end"])
