"""What a worker does: it runs the program on one cube, and checks the derivation that comes.

It takes the standard library and the command `zstd`, so that it runs on any machine that has the
package and the program.
"""

from __future__ import annotations

import hashlib
import os
import shutil
import socket
import subprocess
import tempfile
import threading
import time
from dataclasses import dataclass, replace
from functools import cache
from pathlib import Path
from typing import IO, Any

from geost.program import ANSWERED, BUDGET, NO, REFUSED

OUT_OF_MEMORY = 8
# the system ends a program so where memory runs out
KILLED = -9
LAYOUT, NONE, OTHER_PROGRAM, TIME, MEMORY = "layout", "none", "other program", "time", "memory"
WORDS = {
    ANSWERED: LAYOUT,
    NO: NONE,
    BUDGET: "budget",
    OUT_OF_MEMORY: MEMORY,
    KILLED: MEMORY,
}
OPEN = ("budget", TIME, MEMORY)
PIECE = 1 << 20
LONGEST_PAUSE = 0.02
CHECK_SECONDS = 3600.0


@dataclass(frozen=True)
class Job:
    """A cube to be answered by `first`, within steps, seconds on the clock, and bytes of memory.
    `digest` is that of the program which is to answer. `folder` is where the derivation is kept;
    where there is none, it comes back with the outcome."""

    name: str
    program: str
    digest: str
    steps: int
    text: bytes
    seconds: float
    memory: int | None = None
    folder: str | None = None
    check: bool = True


@dataclass(frozen=True)
class Outcome:
    """`word` is layout, none, budget, time, memory, or what else came; `said` what the program
    printed of a layout or a fault, `verdict` what its `check` says of the derivation, which has
    `size` bytes, `packed` ones as a file. Seconds are those of a processor, `peak` KiB."""

    name: str
    word: str
    said: str = ""
    verdict: str = ""
    size: int = 0
    packed: int = 0
    seconds: float = 0.0
    check_seconds: float = 0.0
    wall: float = 0.0
    peak: int = 0
    host: str = ""
    blob: bytes = b""


@cache
def found(command: str) -> bool:
    return shutil.which(command) is not None


@cache
def digest_of(program: str) -> str:
    return hashlib.sha256(Path(program).read_bytes()).hexdigest()


# The programs that run now, by their numbers, so that they can be ended
RUNNING: dict[int, tuple[Job, subprocess.Popen[bytes]]] = {}
LOCK = threading.Lock()


def end(folder: Path, name: str) -> None:
    """Ends the program that this process runs on a cube of the folder, if there is one."""
    with LOCK:
        for job, process in RUNNING.values():
            if (job.folder, job.name) == (str(folder.resolve()), name):
                process.kill()


def bounded(words: list[str], memory: int | None) -> list[str]:
    """The command that ends with its worker, and has at most so many bytes of memory."""
    if found("setpriv"):
        words = ["setpriv", "--pdeathsig", "KILL", *words]
    return words if memory is None else ["prlimit", f"--as={memory}", *words]


@dataclass(frozen=True)
class Ran:
    """A status, None where the time was over, with what it took."""

    status: int | None
    seconds: float
    peak: int


def run(job: Job, words: list[str], source: IO[bytes], target: IO[bytes], seconds: float) -> Ran:
    source.seek(0)
    command = bounded([job.program, *words], job.memory)
    with LOCK:
        process = subprocess.Popen(command, stdin=source, stdout=target, stderr=subprocess.DEVNULL)
        RUNNING[process.pid] = (job, process)
    began, pause, is_late = time.monotonic(), 0.0005, False
    while True:
        with LOCK:
            ended, status, used = os.wait4(process.pid, os.WNOHANG)
            if ended:
                del RUNNING[process.pid]
                process.returncode = os.waitstatus_to_exitcode(status)
                break
            if not is_late and time.monotonic() - began > seconds:
                is_late = True
                process.kill()
        time.sleep(pause)
        pause = min(2 * pause, LONGEST_PAUSE)
    code = None if is_late else process.returncode
    return Ran(code, used.ru_utime + used.ru_stime, used.ru_maxrss)


def answer(job: Job) -> dict[str, Any]:
    """The outcome of a job, as plain data."""
    began = time.monotonic()
    if digest_of(job.program) != job.digest:
        outcome = Outcome(job.name, OTHER_PROGRAM)
    else:
        with tempfile.TemporaryFile() as source, tempfile.TemporaryFile() as printed:
            source.write(job.text)
            ran = run(job, ["first", str(job.steps)], source, printed, job.seconds)
            outcome = outcome_of(job, ran, printed)
    wall = time.monotonic() - began
    return vars(replace(outcome, wall=wall, host=f"{socket.gethostname()}:{os.getpid()}"))


def outcome_of(job: Job, ran: Ran, printed: IO[bytes]) -> Outcome:
    word = TIME if ran.status is None else WORDS.get(ran.status, f"status {ran.status}")
    outcome = Outcome(job.name, word, seconds=ran.seconds, peak=ran.peak)
    if word == NONE:
        outcome = with_verdict(job, outcome, printed) if job.check else outcome
        return kept(job, outcome, printed) if outcome.word == NONE else outcome
    printed.seek(0)
    return replace(outcome, said=printed.read(PIECE).decode("ascii", "replace"))


def with_verdict(job: Job, outcome: Outcome, printed: IO[bytes]) -> Outcome:
    """What the program's `check` says of the derivation of its cube. Where it was ended without a
    verdict, there was no room for it."""
    with tempfile.TemporaryFile() as source, tempfile.TemporaryFile() as said:
        source.write(job.text + b"\n")
        printed.seek(0)
        shutil.copyfileobj(printed, source, PIECE)
        ran = run(job, ["check"], source, said, CHECK_SECONDS)
        said.seek(0)
        verdict = said.read(PIECE).decode("ascii", "replace").strip()
    peak = max(outcome.peak, ran.peak)
    word = NONE if ran.status in (ANSWERED, NO, REFUSED) else MEMORY
    taken = replace(outcome, check_seconds=ran.seconds, peak=peak)
    return replace(taken, word=word, verdict=verdict)


def kept(job: Job, outcome: Outcome, printed: IO[bytes]) -> Outcome:
    """The derivation is packed: as a file that is there whole or not at all, or as a blob."""
    size = printed.seek(0, os.SEEK_END)
    printed.seek(0)
    packed = subprocess.run(
        bounded(["zstd", "-q", "-3", "-c"], None), stdin=printed, stdout=subprocess.PIPE, check=True
    ).stdout
    if job.folder is None:
        return replace(outcome, size=size, packed=len(packed), blob=packed)
    write_whole(derivation_file(Path(job.folder), job.name), packed)
    return replace(outcome, size=size, packed=len(packed))


def derivation_file(folder: Path, name: str) -> Path:
    return folder / f"{name}.none.zst"


def write_whole(file: Path, data: bytes) -> None:
    """The file is there whole or not at all."""
    part = file.with_name(f".{file.name}.{socket.gethostname()}.{os.getpid()}")
    with part.open("wb") as target:
        target.write(data)
        target.flush()
        os.fsync(target.fileno())
    part.replace(file)
