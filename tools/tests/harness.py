"""What the tests of the scripts are made of."""

from __future__ import annotations

import signal
import subprocess
import sys
from collections.abc import Callable, Iterator
from dataclasses import dataclass
from pathlib import Path

TOOLS = Path(__file__).resolve().parent.parent
TOP = TOOLS.parent
sys.path[:0] = [str(TOP / "python" / "src"), str(TOOLS)]

from geost.program import Program  # noqa: E402


class Skipped(Exception):
    """A test that this machine or this program cannot run, with the reason."""


class Failed(Exception):
    """A test that failed, with what was wanted and what came."""


@dataclass(frozen=True)
class Case:
    """A named test. It returns where it passes, and raises Failed or Skipped else."""

    name: str
    run: Callable[[], None]


@dataclass(frozen=True)
class Setting:
    """The program that is tested, and whether long measurements are wanted."""

    program: Program
    long: bool
    processors: int


Cases = Iterator[Case]


def hear_interrupts() -> None:
    """Lets Ctrl-C end a process that is started so, also behind a shell that ignores it."""
    signal.signal(signal.SIGINT, signal.SIG_DFL)


UNPROVED_MARK = b"__asan_init"


def is_unproved(program: Program) -> bool:
    """Whether a program is one that the kit built without its proofs."""
    return UNPROVED_MARK in Path(program.path).read_bytes()


def want(given: object, wanted: object, what: str) -> None:
    if given != wanted:
        raise Failed(f"{what}: {given!r} in place of {wanted!r}")


def first_of(text: str) -> str:
    """What an answer of `first` says: the lines of a layout without its token, or `none` without its derivation."""
    return "none\n" if text.startswith("none\n") else text.partition("token")[0]


def want_in(part: str, text: str) -> None:
    if part not in text:
        raise Failed(f"{part!r} does not stand in\n{text}")


def run_plain(name: str, arguments: list[str], text: str = "") -> str:
    """What a script that asks no program prints. Failed where it ends with another status than 0."""
    command = [sys.executable, str(TOOLS / name), *arguments]
    done = subprocess.run(command, input=text.encode(), capture_output=True)
    if done.returncode != 0:
        raise Failed(f"tools/{name}: {done.stderr.decode()}")
    return done.stdout.decode()


def run_tool(name: str, setting: Setting, arguments: list[str], text: bytes | str = b"") -> tuple[str, int]:
    """What a script prints on both streams, and its status."""
    given = text.encode() if isinstance(text, str) else text
    command = [sys.executable, str(TOOLS / name), "--program", setting.program.path, *arguments]
    done = subprocess.run(command, input=given, stdout=subprocess.PIPE, stderr=subprocess.STDOUT)
    return done.stdout.decode(), done.returncode
