"""Derivations as lines, and how those of the parts of a problem become one of the whole.

A derivation is printed with one event a line (docs/FORMAT.md). A node is one of

    split O shape S | split O D upto V | split O D from V      and two nodes
    drop O S                                                   a cover, and a node
    raise O D V [ | lower O D V [                              covers, `]`, and a node
    gone O [                                                   covers, `]`
    dead I

and a cover is `by I`, or `cut D V` or `from D V` with two covers. Inside brackets a cover stands
behind the name of its shape.
"""

from __future__ import annotations

from collections.abc import Iterable, Iterator
from dataclasses import dataclass, replace

from geost.cubes import Cube
from geost.text import Problem, Range

Line = bytes
END_OF_COVERS = b"]\n"


class NotOneDerivation(ValueError):
    """The lines are not those of one derivation behind `none`."""


def body(lines: Iterable[Line]) -> Iterator[Line]:
    """The events between `none` and `qed`."""
    coming = iter(lines)
    if next(coming, b"").strip() != b"none":
        raise NotOneDerivation("the first line is not `none`")
    for line in coming:
        if line == b"qed\n":
            return
        yield line
    raise NotOneDerivation("there is no `qed`")


@dataclass(frozen=True)
class Reach:
    """What is left to an object: its shapes, and of some dimensions the first and last number."""

    shapes: tuple[bytes, ...]
    bounds: tuple[tuple[int, Range], ...] = ()

    def is_empty(self) -> bool:
        return not self.shapes or any(low > high for _, (low, high) in self.bounds)

    def only(self, shape: bytes) -> Reach:
        return replace(self, shapes=tuple(one for one in self.shapes if one == shape))

    def without(self, shape: bytes) -> Reach:
        return replace(self, shapes=tuple(one for one in self.shapes if one != shape))

    def upto(self, dimension: int, value: int) -> Reach:
        bounds = dict(self.bounds)
        if dimension in bounds:
            low, high = bounds[dimension]
            bounds[dimension] = (low, min(high, value))
        return replace(self, bounds=tuple(bounds.items()))

    def since(self, dimension: int, value: int) -> Reach:
        bounds = dict(self.bounds)
        if dimension in bounds:
            low, high = bounds[dimension]
            bounds[dimension] = (max(low, value), high)
        return replace(self, bounds=tuple(bounds.items()))


State = dict[bytes, Reach]


def added_state(problem: Problem, cube: Cube) -> State:
    """What the rule of a cube leaves to the objects of which it speaks."""
    state: State = {}
    for thing in problem.objects:
        bounds = tuple(cube.added_bounds(thing))
        if thing.name in cube.shapes or bounds:
            left = (cube.shapes[thing.name],) if thing.name in cube.shapes else thing.shapes
            state[thing.name.encode()] = Reach(tuple(one.encode() for one in left), bounds)
    return state


class Narrowed:
    """The events of a derivation, for a state that has less: some objects have only what is left.

    What speaks of a shape that is not left is taken out: its `drop` and its covers. Where nothing
    is left of an object the node becomes `gone`, whose covers cover nothing. Any other node that
    was valid stays valid, since a condition that is refuted on a state is refuted on a smaller one.
    So a condition by which a cube says what is left is named only over boxes that are empty now.
    """

    def __init__(self, events: Iterable[Line], state: State):
        self.coming = iter(events)
        self.waiting = [dict(state)]

    def lines(self) -> Iterator[Line]:
        while self.waiting:
            state = self.waiting.pop()
            line = next(self.coming)
            gone = next((name for name, reach in state.items() if reach.is_empty()), None)
            if gone is None:
                yield from self.node(line, state)
            else:
                yield b"gone %s [\n" % gone
                yield from (b"%s\nby 1\n" % shape for shape in state[gone].shapes)
                yield END_OF_COVERS
                self.skip_node(line)

    def node(self, line: Line, state: State) -> Iterator[Line]:
        words = line.split()
        reach = state.get(words[1])
        match words[0]:
            case b"split":
                yield line
                self.split(words, state)
            case b"drop" if reach is not None and words[2] not in reach.shapes:
                self.skip_cover()
                self.waiting.append(state)
            case b"drop":
                yield line
                yield from self.cover()
                left = None if reach is None else reach.without(words[2])
                self.go_on(state, words[1], left)
            case b"raise" | b"lower":
                yield line
                yield from self.covers(reach)
                moved = Reach.since if words[0] == b"raise" else Reach.upto
                left = None if reach is None else moved(reach, int(words[2]), int(words[3]))
                self.go_on(state, words[1], left)
            case b"gone":
                yield line
                yield from self.covers(reach)
            case b"dead":
                yield line
            case _:
                raise NotOneDerivation(f"no node begins with {line!r}")

    def go_on(self, state: State, name: bytes, reach: Reach | None) -> None:
        self.waiting.append(state if reach is None else {**state, name: reach})

    def split(self, words: list[bytes], state: State) -> None:
        """The first part is taken first."""
        reach = state.get(words[1])
        if reach is None:
            self.waiting += [state, state]
            return
        if words[2] == b"shape":
            first, second = reach.only(words[3]), reach.without(words[3])
        elif words[3] == b"upto":
            at, value = int(words[2]), int(words[4])
            first, second = reach.upto(at, value), reach.since(at, value + 1)
        else:
            at, value = int(words[2]), int(words[4])
            first, second = reach.since(at, value), reach.upto(at, value - 1)
        self.go_on(state, words[1], second)
        self.go_on(state, words[1], first)

    def covers(self, reach: Reach | None) -> Iterator[Line]:
        """Covers up to their end, those of shapes that are not left taken out."""
        while (name := next(self.coming)) != END_OF_COVERS:
            if reach is not None and name.strip() not in reach.shapes:
                self.skip_cover()
            else:
                yield name
                yield from self.cover()
        yield END_OF_COVERS

    def cover(self) -> Iterator[Line]:
        to_come = 1
        while to_come:
            line = next(self.coming)
            yield line
            to_come += -1 if line.startswith(b"by ") else 1

    def skip_cover(self) -> None:
        for _ in self.cover():
            pass

    def skip_node(self, line: Line) -> None:
        """Passes over a node whose first line was read."""
        to_come = 1
        while True:
            kind = line.split()[0]
            if kind == b"drop":
                self.skip_cover()
            elif kind in (b"raise", b"lower", b"gone"):
                for _ in self.covers(None):
                    pass
            to_come += {b"split": 1, b"gone": -1, b"dead": -1}.get(kind, 0)
            if not to_come:
                return
            line = next(self.coming)


def on_the_whole(lines: Iterable[Line], problem: Problem, cube: Cube) -> Iterator[Line]:
    """The node of the whole problem, at the state of the cube, that a cube's derivation gives."""
    state = added_state(problem, cube)
    return Narrowed(body(lines), state).lines() if state else body(lines)
