"""A search that is spread over processes of a test, which can be killed by their numbers."""

from __future__ import annotations

import json
import os
import signal
import subprocess
import sys
import time
from collections.abc import Callable
from dataclasses import dataclass, field
from pathlib import Path

import geost
from geost.program import Program, usual_program

SOURCE = Path(geost.__file__).resolve().parents[1]
# each run of the program takes as long as this, so that there is time to kill something
PAUSE = 0.05
PATIENCE = float(os.environ.get("GEOST_PATIENCE", "150"))
SHELF = (
    "geost 1 dims 2 shape s box 0 0 size 2 1 ;\n{}rule free : apart ;\n"
    "rule r : within 0..{} 0..0 ; end\n"
)


def shelf(boxes: int) -> str:
    """Boxes of two cells on a shelf that is a cell too short."""
    last = 2 * boxes - 3
    things = [f"object o{number} as s at 0..{last} 0..0 ;\n" for number in range(boxes)]
    return SHELF.format("".join(things), last + 1)


def until(what: Callable[[], bool], why: Callable[[], str]) -> None:
    end = time.monotonic() + PATIENCE
    while not what():
        assert time.monotonic() < end, why()
        time.sleep(0.02)


def in_session(session: int) -> list[int]:
    """The processes of a session that run."""
    found = []
    for folder in Path("/proc").iterdir():
        try:
            state, _, _, own = (folder / "stat").read_text().rpartition(")")[2].split()[:4]
        except (OSError, ValueError):
            continue
        if int(own) == session and state != "Z":
            found.append(int(folder.name))
    return found


def programs(path: Path) -> list[int]:
    """The processes that run the program of a test."""
    found = []
    for folder in Path("/proc").iterdir():
        try:
            words = (folder / "cmdline").read_bytes().split(b"\0")
        except OSError:
            continue
        if str(path).encode() in words and b"-m" not in words:
            found.append(int(folder.name))
    return found


@dataclass
class Room:
    """A folder with a problem and a slow program, and what was started there."""

    folder: Path
    started: list[subprocess.Popen[bytes]] = field(default_factory=list)

    def __post_init__(self) -> None:
        self.program = self.folder / "slow_program"
        real = Program(usual_program()).path
        self.program.write_text(f'#!/bin/sh\nsleep {PAUSE}\nexec "{real}" "$@"\n')
        self.program.chmod(0o755)
        self.problem = self.folder / "shelf.geost"
        self.problem.write_text(shelf(5))
        self.answers = self.folder / "answers"

    def start(self, module: str, *words: str) -> subprocess.Popen[bytes]:
        process = subprocess.Popen(
            [sys.executable, "-B", "-m", module, *words],
            env={**os.environ, "PYTHONPATH": str(SOURCE), "PYTHONDONTWRITEBYTECODE": "1"},
            stdout=subprocess.DEVNULL,
            stderr=(self.folder / "said").open("ab"),
            start_new_session=True,
        )
        self.started.append(process)
        return process

    def spread(self, *words: str) -> subprocess.Popen[bytes]:
        given = ["--program", str(self.program), "--folder", str(self.answers), "--steps", "5"]
        return self.start("geost.spreading", *given, *words, str(self.problem))

    def answered(self) -> list[str]:
        """The cubes that the journal has answered."""
        file = self.answers / "journal"
        lines = file.read_bytes().split(b"\n")[1:-1] if file.exists() else []
        entries = [json.loads(line) for line in lines]
        return [entry["outcome"]["name"] for entry in entries if "outcome" in entry]

    def wait_for(self, count: int) -> list[str]:
        until(lambda: len(self.answered()) >= count, self.said)
        return self.answered()

    def said(self) -> str:
        return (self.folder / "said").read_text()[-2000:]

    def is_whole(self, before: list[str]) -> None:
        """No cube was answered twice or lost, and what the folder has is checked."""
        now = self.answered()
        assert now[: len(before)] == before
        assert len(set(now)) == len(now)
        assert self.spread("--verify").wait(PATIENCE) == 0, self.said()

    def end(self) -> None:
        for process in self.started:
            for one in in_session(process.pid):
                os.kill(one, signal.SIGKILL)
            process.wait()
