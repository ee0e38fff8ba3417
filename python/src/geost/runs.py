"""Searches for a layout that run side by side, each within steps and within processor seconds.

They are made by `all 1 N`, which keeps no derivation, so that a long one takes little memory.
"""

from __future__ import annotations

import os
import shutil
import signal
import subprocess
import sys
import tempfile
import time
from collections.abc import Iterable, Iterator
from dataclasses import dataclass, field
from enum import Enum
from pathlib import Path
from types import TracebackType
from typing import IO, Generic, TypeVar

from geost.files import IMPORTED_FROM
from geost.program import ANSWERED, BUDGET, Answer, Program
from geost.text import Placed, Problem, print_layout, print_problem, read_layout

PROPOSE = ("-B", "-m", "geost.propose")
NO_LAYOUT = "that there is no layout"
PAUSE = 0.004
LINE = 79
What = TypeVar("What")


class Verdict(Enum):
    LAYOUT = "a layout"
    NONE = "no layout"
    BUDGET = "the steps did not suffice"
    TIME = "the time did not suffice"
    OTHER = "no answer of a search"


@dataclass(frozen=True)
class Outcome:
    """What a search found: its verdict, what the program printed (but for the `more` behind a
    layout), and the seconds that it took."""

    verdict: Verdict
    text: str = ""
    seconds: float = 0.0

    def is_open(self) -> bool:
        """Whether a longer search might find more."""
        return self.verdict in (Verdict.BUDGET, Verdict.TIME)


def judged_layout(program: Program, problem: Problem, outcome: Outcome) -> str | None:
    """The layout that was found, with the token that it has in this problem; None where none was
    found, or the program does not judge it good."""
    if outcome.verdict is not Verdict.LAYOUT:
        return None
    layout = read_layout(outcome.text.encode())
    text = f"{print_layout(layout)}token {token_of(problem, layout)}\n"
    return text if program.judge(print_problem(problem), text).status == ANSWERED else None


def token_of(problem: Problem, layout: list[Placed]) -> str:
    """The layout in one word: of each object the place of its shape in its list, and its origin."""
    groups = [
        [thing.shapes.index(placed.shape) + 1, *(placed.origin or problem.first_values(thing))]
        for thing, placed in zip(problem.objects, layout)
    ]
    return "/".join(",".join(map(str, group)) for group in groups) or "-"


def outcome_of(answer: Answer, seconds: float) -> Outcome:
    """The outcome that an answer of `all 1 N` says."""
    if answer.status == BUDGET:
        return Outcome(Verdict.BUDGET, answer.text, seconds)
    if answer.status == ANSWERED and answer.text == "end\n":
        return Outcome(Verdict.NONE, "", seconds)
    if answer.status == ANSWERED and answer.text.startswith("layout\n"):
        return Outcome(Verdict.LAYOUT, answer.text.removesuffix("more\n"), seconds)
    return Outcome(Verdict.OTHER, answer.text, seconds)


def has_z3() -> bool:
    return shutil.which("z3") is not None


@dataclass
class Run(Generic[What]):
    """A process of the program, and what it is for."""

    what: What
    process: subprocess.Popen[bytes]
    output: IO[bytes]
    seconds: float
    began: float = field(default_factory=time.monotonic)

    def outcome(self) -> Outcome | None:
        """The outcome where there is one; a run whose time is over is stopped."""
        if self.process.poll() is None:
            if seconds_taken(self.process.pid, self.began) < self.seconds:
                return None
            self.stop()
            return Outcome(Verdict.TIME, "", self.seconds)
        self.output.seek(0)
        answer = Answer(self.output.read().decode("ascii"), self.process.returncode)
        return outcome_of(answer, time.monotonic() - self.began)

    def stop(self) -> None:
        """Ends the process and what it has started, and waits for it."""
        try:
            os.killpg(self.process.pid, signal.SIGKILL)
        except ProcessLookupError:
            pass
        self.process.wait()


def seconds_taken(process: int, began: float) -> float:
    """The processor seconds of a process where the machine tells them, else those on the clock."""
    try:
        fields = Path(f"/proc/{process}/stat").read_text().rpartition(")")[2].split()
        return (int(fields[11]) + int(fields[12])) / os.sysconf("SC_CLK_TCK")
    except (OSError, ValueError, IndexError):
        return time.monotonic() - began


@dataclass(frozen=True)
class Task(Generic[What]):
    """A problem to be searched, by the program or by z3, and what it is for."""

    what: What
    problem: Problem
    by_z3: bool = False


class Runs(Generic[What]):
    """The runs that go on, at most one for each processor. All are stopped where the block ends."""

    def __init__(self, program: Program, processors: int):
        self.program = program
        self.processors = processors
        self.going: list[Run[What]] = []

    def __enter__(self) -> Runs[What]:
        return self

    def __exit__(
        self,
        kind: type[BaseException] | None,
        fault: BaseException | None,
        trace: TracebackType | None,
    ) -> None:
        for run in self.going:
            run.stop()

    def has_room(self) -> bool:
        return len(self.going) < self.processors

    def start(self, task: Task[What], steps: int, seconds: float) -> None:
        """Starts a search of the program, or z3 by tools/propose."""
        words = [self.program.path, "all", "1", str(steps)]
        if task.by_z3:
            limit = ["--program", self.program.path, "--seconds", str(seconds)]
            words = [sys.executable, *PROPOSE, *limit]
        text = tempfile.TemporaryFile()
        text.write(print_problem(task.problem).encode())
        text.seek(0)
        output = tempfile.TemporaryFile()
        paths = [str(IMPORTED_FROM), *filter(None, [os.environ.get("PYTHONPATH")])]
        process = subprocess.Popen(
            words,
            stdin=text,
            stdout=output,
            start_new_session=True,
            env={**os.environ, "PYTHONPATH": os.pathsep.join(paths)},
        )
        self.going.append(Run(task.what, process, output, seconds))

    def ended(self) -> Iterator[tuple[What, Outcome]]:
        """The runs that ended since the last look, each with its outcome."""
        for run in list(self.going):
            outcome = run.outcome()
            if outcome is not None:
                self.going.remove(run)
                yield run.what, outcome


@dataclass(frozen=True)
class Limits:
    """Of each search: its steps, its processor seconds, and the moment at which all of them end."""

    steps: int
    seconds: float
    until: float

    def left(self) -> float:
        return self.until - time.monotonic()


def search_each(
    program: Program, processors: int, limits: Limits, tasks: Iterable[Task[What]]
) -> Iterator[tuple[What, Outcome]]:
    """The outcome of a search for each task, as they come, until the time is over."""
    waiting = iter(tasks)
    is_empty = False
    with Runs[What](program, processors) as runs:
        while limits.left() > 0 and not (is_empty and not runs.going):
            while not is_empty and runs.has_room():
                task = next(waiting, None)
                is_empty = task is None
                if task is not None:
                    runs.start(task, limits.steps, min(limits.seconds, max(1.0, limits.left())))
            yield from runs.ended()
            time.sleep(PAUSE)


class Progress:
    """A line on standard error that says what is done now, where that is a terminal."""

    def __init__(self) -> None:
        self.began = time.monotonic()
        self.is_shown = sys.stderr.isatty()

    def seconds(self) -> float:
        return time.monotonic() - self.began

    def show(self, what: str) -> None:
        if self.is_shown:
            line = f"{self.seconds():5.1f} s, {what}"
            sys.stderr.write("\r" + line[:LINE].ljust(LINE))
            sys.stderr.flush()

    def end(self) -> None:
        if self.is_shown:
            sys.stderr.write("\r" + " " * LINE + "\r")
            sys.stderr.flush()
