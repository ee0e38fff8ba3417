"""How much memory the program holds while it answers."""

from __future__ import annotations

import subprocess
import tempfile
import time
from dataclasses import dataclass
from pathlib import Path

SECONDS_BETWEEN = 0.005
HIGH_MARK = "VmHWM:"


@dataclass(frozen=True)
class Held:
    """The most memory that a run held, in MB, its seconds, and what it printed."""

    megabytes: float
    seconds: float
    text: str


def high_mark(process: int) -> int:
    """The most memory that a running process held so far, in KiB; 0 where that is not told."""
    try:
        status = Path(f"/proc/{process}/status").read_text(encoding="ascii", errors="replace")
    except OSError:
        return 0
    for line in status.splitlines():
        if line.startswith(HIGH_MARK):
            return int(line.split()[1])
    return 0


def watch(process: subprocess.Popen[bytes], until: float) -> int:
    """The most memory that the process held, in KiB, as it is read every five milliseconds. Where
    the process runs past the time it is ended, with a TimeoutError."""
    held = 0
    while process.poll() is None:
        held = max(held, high_mark(process.pid))
        if time.monotonic() > until:
            process.kill()
            raise TimeoutError
        time.sleep(SECONDS_BETWEEN)
    return held


def run(program: str, words: list[str], text: str, seconds: float = float("inf")) -> Held:
    """Runs the program on the text, and looks at its memory while it runs; a TimeoutError where it
    takes longer than so many seconds."""
    began = time.monotonic()
    with tempfile.TemporaryFile() as source, tempfile.TemporaryFile() as sink:
        source.write(text.encode())
        source.seek(0)
        with subprocess.Popen([program, *words], stdin=source, stdout=sink) as process:
            held = watch(process, began + seconds)
        took = time.monotonic() - began
        sink.seek(0)
        return Held(held / 1000, took, sink.read().decode("ascii"))
