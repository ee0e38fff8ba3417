"""Searches a problem on many processors: cubes in the stated order, one answer, one derivation.

The search is the program's own, cube by cube. What is here decides which cubes there are, keeps a
journal of those that are answered, and joins their derivations. It runs them by any executor of
`concurrent.futures`: threads of one machine, or that of dask's client for many machines.
"""

from __future__ import annotations

import heapq
import os
import statistics
import subprocess
import tempfile
import time
from collections.abc import Callable, Iterator
from concurrent.futures import FIRST_COMPLETED, CancelledError, Executor, Future, wait
from contextlib import contextmanager
from dataclasses import dataclass, field, replace
from pathlib import Path
from typing import IO, Any

from geost.cubes import Cube, CubePath, Split, split_of
from geost.derivations import on_the_whole
from geost.journal import Answered, Journal, Parted, Trouble, identity
from geost.text import Problem, print_problem
from geost.workers import LAYOUT, NONE, OPEN, OTHER_PROGRAM, Job, Outcome
from geost.workers import answer, derivation_file, digest_of, end, write_whole

ENOUGH_STEPS = 10**12
# a search of more steps is made again without a record, and once more with one
ONCE = 100_000
SPLIT, WAITING, RUNNING = "split", "waiting", "running"
LOOK = 0.5
LOST_SECONDS = 5.0
# the seconds that the first cubes may take, most of which are too large, and how soon they rise
FIRST_SECONDS, RISE = 0.05, 0.1


def always() -> bool:
    return True


@dataclass(frozen=True)
class Settings:
    """`slots` cubes run side by side. `is_shared` says that workers see the folder. A cube may take
    from `least` to `most` seconds, and is split into up to `parts`. `is_there` asks whether the
    engine still answers."""

    program: str
    folder: Path
    slots: int
    is_shared: bool = True
    parts: int = 8
    open_per_slot: int = 3
    least: float = 0.25
    most: float = 60.0
    first_steps: int = 1000
    memory: int | None = None
    check: bool = True
    most_failures: int = 3
    stop_after: float | None = None
    is_there: Callable[[], bool] = always
    tell: Callable[[str], None] | None = None


@dataclass
class Group:
    """A cube that is being split until it has so many parts that few steps do not answer."""

    wanted: int
    open: list[CubePath]
    tried: int = 0


@dataclass
class Node:
    """A cube, and what became of it: waiting, running, split, layout or none."""

    cube: Cube
    state: str = WAITING
    steps: int = 0
    group: Group | None = None
    split: Split | None = None
    outcome: Outcome | None = None
    failures: int = 0


@dataclass
class Counts:
    """Processor seconds of the program: all, those of runs that gave no answer or were not needed,
    and those of checks."""

    runs: int = 0
    spent: float = 0.0
    wasted: float = 0.0
    checked: float = 0.0
    lost: int = 0
    peak: int = 0
    done: list[tuple[CubePath, float]] = field(default_factory=list)


class Tree:
    """The cubes of a problem, with what is known of them."""

    def __init__(self, problem: Problem):
        self.problem = problem
        self.nodes: dict[CubePath, Node] = {(): Node(Cube())}
        self.best: CubePath | None = None

    def part(self, path: CubePath, split: Split, group: Group | None = None) -> list[CubePath]:
        node = self.nodes[path]
        node.state, node.split = SPLIT, split
        parts = [node.cube.part(split, number) for number in range(split.count())]
        self.nodes.update((part.path, Node(part, group=group)) for part in parts)
        return [part.path for part in parts]

    def answered(self, path: CubePath, outcome: Outcome) -> None:
        node = self.nodes[path]
        node.outcome, node.state = outcome, outcome.word
        if outcome.word == LAYOUT and (self.best is None or path < self.best):
            self.best = path

    def take(self, entry: Parted | Answered) -> None:
        if isinstance(entry, Parted):
            self.part(entry.path, entry.split)
        else:
            self.answered(entry.path, entry.outcome)

    def is_wanted(self, path: CubePath) -> bool:
        """Whether no cube before it has a layout."""
        return self.best is None or path < self.best

    def leaves(self) -> list[CubePath]:
        return sorted(path for path, node in self.nodes.items() if node.state != SPLIT)

    def open(self) -> list[CubePath]:
        """The cubes that an answer still waits for, in order."""
        return [
            path
            for path in self.leaves()
            if self.nodes[path].state not in (LAYOUT, NONE) and self.is_wanted(path)
        ]

    def layout(self) -> str:
        assert self.best is not None
        outcome = self.nodes[self.best].outcome
        assert outcome is not None
        return outcome.said

    def segments(self) -> Iterator[bytes | CubePath]:
        """The joined derivation: lines of splits, and cubes whose derivations stand there."""
        stack: list[bytes | CubePath] = [()]
        while stack:
            top = stack.pop()
            split = None if isinstance(top, bytes) else self.nodes[top].split
            if isinstance(top, bytes) or split is None:
                yield top
                continue
            for number, joint in reversed(list(enumerate([*split.joints(), b""]))):
                stack += [(*top, number), joint]

    def write_derivation(self, folder: Path, target: IO[bytes]) -> None:
        target.write(b"none\n")
        for segment in self.segments():
            if isinstance(segment, bytes):
                target.write(segment)
            else:
                cube = self.nodes[segment].cube
                with unpacked(derivation_file(folder, cube.name())) as lines:
                    target.writelines(on_the_whole(lines, self.problem, cube))
        target.write(b"qed\n")


@contextmanager
def unpacked(file: Path) -> Iterator[IO[bytes]]:
    process = subprocess.Popen(["zstd", "-q", "-dc", str(file)], stdout=subprocess.PIPE)
    assert process.stdout is not None
    with process.stdout:
        yield process.stdout
    if process.wait() != 0:
        raise Trouble(f"{file} cannot be unpacked")


class Spread:
    """A search of a problem that is spread, and goes on where its journal ends."""

    def __init__(self, problem: Problem, settings: Settings, executor: Executor):
        self.problem, self.settings, self.executor = problem, settings, executor
        self.tree = Tree(problem)
        self.counts = Counts()
        self.heap: list[CubePath] = []
        self.running: dict[Future[dict[str, Any]], CubePath] = {}
        self.rates: list[float] = []
        self.began = self.seen = time.monotonic()
        self.shown = 0.0
        self.probe = 2 * len(problem.objects) * (problem.dims + 1)
        self.journal = Journal(settings.folder, identity(problem, settings.program))
        for entry in self.journal.entries:
            self.tree.take(entry)
            if isinstance(entry, Answered):
                self.counts.spent += entry.outcome.seconds
        self.heap = self.tree.open()

    def close(self) -> None:
        """Ends what runs here. An engine that is gone is not asked to cancel anything."""
        is_there = self.settings.is_there()
        for future, path in self.running.items():
            if is_there:
                future.cancel()
            end(self.settings.folder, self.tree.nodes[path].cube.name())
        self.journal.close()

    def seconds(self) -> float:
        return time.monotonic() - self.began

    # How long a cube may take

    def patience(self) -> float:
        """A part of the work that gave answers, so that what is thrown away stays a part of it."""
        useful = (self.counts.spent - self.counts.wasted) / (2 * self.settings.slots)
        least = min(self.settings.least, FIRST_SECONDS + RISE * self.counts.spent)
        return max(least, min(self.settings.most, useful))

    def steps(self, node: Node) -> int:
        if node.group is not None:
            return self.probe
        if node.failures or node.steps >= ENOUGH_STEPS or not self.rates:
            return max(node.steps, self.settings.first_steps)
        wanted = int(statistics.median(self.rates[-31:]) * self.patience())
        return max(self.settings.first_steps, node.steps, min(wanted, ONCE))

    # The run

    def run(self) -> str:
        """`layout`, `none` or `stopped`."""
        while True:
            self.submit_all()
            if not self.is_going() and not self.tree.open():
                return NONE if self.tree.best is None else LAYOUT
            limit = self.settings.stop_after
            if limit is not None and self.seconds() > limit:
                return "stopped"
            done, _ = wait(self.running, timeout=LOOK, return_when=FIRST_COMPLETED)
            for future in done:
                self.take(self.running.pop(future), future)
            self.look()
            self.drop_unwanted()
            self.show()

    def is_going(self) -> bool:
        """Whether a cube that an answer waits for runs or is to run. Where none does, some may
        still wait for the rest of their group."""
        return any(map(self.tree.is_wanted, [*self.running.values(), *self.heap]))

    def submit_all(self) -> None:
        while self.heap and len(self.running) < self.settings.slots + 1:
            path = heapq.heappop(self.heap)
            if self.tree.is_wanted(path):
                self.submit(path)
            else:
                self.leave_group(path)

    def submit(self, path: CubePath) -> None:
        node = self.tree.nodes[path]
        node.state, node.steps = RUNNING, self.steps(node)
        try:
            self.running[self.executor.submit(answer, self.job(node))] = path
        except Exception as fault:
            raise self.lost_engine() from fault

    def lost_engine(self) -> Trouble:
        folder = self.settings.folder
        return Trouble(f"the engine is gone; what is answered is kept in {folder}, run it again")

    def job(self, node: Node) -> Job:
        settings = self.settings
        is_last = node.steps >= ENOUGH_STEPS
        return Job(
            node.cube.name(),
            settings.program,
            digest_of(settings.program),
            node.steps,
            node.cube.text(self.problem),
            1e9 if is_last else 4 * max(self.patience(), self.settings.least),
            settings.memory,
            str(settings.folder.resolve()) if settings.is_shared else None,
            settings.check,
        )

    def look(self) -> None:
        """Whether the engine is there still."""
        if self.settings.is_there():
            self.seen = time.monotonic()
        elif time.monotonic() - self.seen > LOST_SECONDS:
            raise self.lost_engine()

    def drop_unwanted(self) -> None:
        """Ends what no answer waits for any more."""
        for future, path in list(self.running.items()):
            if not self.tree.is_wanted(path):
                end(self.settings.folder, self.tree.nodes[path].cube.name())
                if future.cancel():
                    del self.running[future]
                    self.leave_group(path)

    def take(self, path: CubePath, future: Future[dict[str, Any]]) -> None:
        node = self.tree.nodes[path]
        try:
            outcome = Outcome(**future.result())
        except (Exception, CancelledError) as fault:
            self.failed(path, fault)
            return
        self.count(outcome)
        group, node.group = node.group, None
        if not self.tree.is_wanted(path):
            self.counts.wasted += outcome.seconds
        elif outcome.word in (LAYOUT, NONE):
            self.keep(path, outcome)
        elif outcome.word in OPEN:
            self.counts.wasted += outcome.seconds
            node.state = WAITING
            if group is not None:
                group.open.append(path)
            else:
                self.go_on(path, outcome)
        else:
            raise Trouble(self.fault_of(node, outcome))
        if group is not None:
            group.tried -= 1
            self.advance(group)

    def fault_of(self, node: Node, outcome: Outcome) -> str:
        where = f"cube {node.cube.name()} on {outcome.host}"
        if outcome.word == OTHER_PROGRAM:
            return f"{where}: another program stands at {self.settings.program} there"
        return f"{where}: {outcome.word} {outcome.said[:200]}"

    def count(self, outcome: Outcome) -> None:
        counts = self.counts
        counts.runs += 1
        counts.spent += outcome.seconds
        counts.checked += outcome.check_seconds
        counts.peak = max(counts.peak, outcome.peak)

    def failed(self, path: CubePath, fault: BaseException) -> None:
        """A worker was lost with its cube, which is tried again."""
        node = self.tree.nodes[path]
        self.counts.lost += 1
        node.failures += 1
        if node.failures >= self.settings.most_failures:
            raise Trouble(f"cube {node.cube.name()} failed {node.failures} times: {fault!r}")
        self.put_back(path)

    def keep(self, path: CubePath, outcome: Outcome) -> None:
        if outcome.word == NONE and self.settings.check and outcome.verdict != "yes":
            said = f"its derivation is checked with {outcome.verdict!r} on {outcome.host}"
            raise Trouble(f"cube {outcome.name}: {said}")
        if outcome.blob:
            write_whole(derivation_file(self.settings.folder, outcome.name), outcome.blob)
        outcome = replace(outcome, blob=b"")
        self.counts.done.append((path, self.seconds()))
        self.journal.add(Answered(path, outcome))
        self.tree.answered(path, outcome)

    def put_back(self, path: CubePath) -> None:
        self.tree.nodes[path].state = WAITING
        heapq.heappush(self.heap, path)

    # Splitting

    def go_on(self, path: CubePath, outcome: Outcome) -> None:
        """A cube whose steps did not suffice gets more where it was cheap and there are enough
        cubes, else it is split."""
        node = self.tree.nodes[path]
        if node.steps >= ENOUGH_STEPS:
            raise Trouble(f"cube {node.cube.name()} cannot be split further: {outcome.word}")
        if outcome.word == "budget" and outcome.seconds > 0.02:
            self.rates.append(node.steps / outcome.seconds)
        waiting = len(self.heap) + len(self.running)
        enough = self.settings.open_per_slot * self.settings.slots
        is_cheap = outcome.word == "budget" and outcome.seconds < self.patience() / 2
        if is_cheap and waiting >= enough and node.steps < ONCE:
            node.steps *= 4
            self.put_back(path)
        else:
            self.advance(Group(max(8, enough), [path]))

    def leave_group(self, path: CubePath) -> None:
        node = self.tree.nodes[path]
        group, node.group, node.state = node.group, None, WAITING
        if group is not None:
            group.tried -= 1
            self.advance(group)

    def advance(self, group: Group) -> None:
        """Splits the cube that has waited longest in the group, or lets all go where they are
        enough."""
        while not group.tried and group.open:
            path = group.open.pop(0)
            if not self.tree.is_wanted(path):
                continue
            if len(group.open) + 1 >= group.wanted:
                for each in (path, *group.open):
                    self.let_go(each)
                return
            split = split_of(self.problem, self.tree.nodes[path].cube, self.settings.parts)
            if split is None:
                self.let_go(path, ENOUGH_STEPS)
                continue
            self.journal.add(Parted(path, split))
            parts = self.tree.part(path, split, group)
            group.tried = len(parts)
            for part in parts:
                heapq.heappush(self.heap, part)

    def let_go(self, path: CubePath, steps: int = 0) -> None:
        node = self.tree.nodes[path]
        node.steps = max(node.steps, self.settings.first_steps, steps)
        self.put_back(path)

    def show(self) -> None:
        if self.settings.tell is not None and self.seconds() > self.shown + LOOK:
            self.shown = self.seconds()
            states = [node.state for node in self.tree.nodes.values()]
            self.settings.tell(
                f"{states.count(NONE) + states.count(LAYOUT)} cubes answered, "
                f"{len(self.running)} running, {len(self.tree.open())} open, "
                f"{self.counts.spent:.0f} processor seconds"
            )


# What third parties ask


def check_joined(program: str, tree: Tree, folder: Path) -> str:
    """What the program's `check` says of the joined derivation, handed over as it is made."""
    with tempfile.TemporaryFile() as said:
        process = subprocess.Popen([program, "check"], stdin=subprocess.PIPE, stdout=said)
        assert process.stdin is not None
        try:
            with process.stdin:
                process.stdin.write(print_problem(tree.problem).encode() + b"\n")
                tree.write_derivation(folder, process.stdin)
        except BrokenPipeError:
            pass
        process.wait()
        said.seek(0, os.SEEK_SET)
        return said.read().decode().strip()
