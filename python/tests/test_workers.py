"""Faults of a search that is spread over workers of dask.distributed: a worker, a worker's machine,
the scheduler or the driver is killed by its number, and no answered cube is lost and no process is
left."""

from __future__ import annotations

import importlib.util
import json
import os
import shutil
import signal
import subprocess
from collections.abc import Iterator
from pathlib import Path

import pytest
from killing import PATIENCE, Room, in_session, programs, until

HAS_DASK = importlib.util.find_spec("distributed") is not None
pytestmark = [
    pytest.mark.skipif(shutil.which("zstd") is None, reason="zstd is not installed"),
    pytest.mark.skipif(not HAS_DASK, reason="python3-distributed is not installed"),
]


@pytest.fixture
def room(tmp_path: Path) -> Iterator[Room]:
    made = Room(tmp_path)
    yield made
    made.end()


def scheduler(room: Room) -> subprocess.Popen[bytes]:
    file = room.folder / "scheduler.json"
    file.unlink(missing_ok=True)
    words = ["--host", "127.0.0.1", "--port", "0", "--no-dashboard", "--scheduler-file", str(file)]
    made = room.start("distributed.cli.dask_scheduler", *words)
    until(lambda: file.exists() and file.stat().st_size > 0, room.said)
    return made


def worker(room: Room) -> subprocess.Popen[bytes]:
    words = ["--scheduler-file", str(room.folder / "scheduler.json"), "--nthreads", "1"]
    words += ["--local-directory", str(room.folder), "--no-dashboard", "--death-timeout", "60"]
    return room.start("distributed.cli.dask_worker", *words)


def address(room: Room) -> str:
    said: str = json.loads((room.folder / "scheduler.json").read_text())["address"]
    return said


def parent(process: int) -> int:
    return int(Path(f"/proc/{process}/stat").read_text().rpartition(")")[2].split()[1])


def test_workers_are_killed(room: Room) -> None:
    """A worker, and then all that runs on a worker's machine."""
    scheduler(room)
    first, second = worker(room), worker(room)
    driver = room.spread("--scheduler", address(room))
    room.wait_for(1)
    for one in in_session(first.pid):
        if any(parent(below) == one for below in programs(room.program)):
            os.kill(one, signal.SIGKILL)
            break
    room.wait_for(3)
    for one in in_session(second.pid):
        os.kill(one, signal.SIGKILL)
    before = room.answered()
    assert driver.wait(PATIENCE) == 1, room.said()
    room.is_whole(before)
    until(lambda: not programs(room.program), room.said)


def test_the_scheduler_is_killed(room: Room) -> None:
    """The driver, workers and programs end; with another scheduler the same call goes on."""
    dies = scheduler(room)
    workers = [worker(room), worker(room)]
    driver = room.spread("--scheduler", address(room))
    room.wait_for(1)
    dies.kill()
    dies.wait()
    assert driver.wait(PATIENCE) == 70, room.said()
    before = room.answered()
    until(lambda: not any(in_session(one.pid) for one in workers), room.said)
    until(lambda: not programs(room.program), room.said)
    scheduler(room)
    worker(room)
    assert room.spread("--scheduler", address(room)).wait(PATIENCE) == 1, room.said()
    room.is_whole(before)


def test_the_driver_of_workers_is_killed(room: Room) -> None:
    """What workers run then ends, and the same call goes on."""
    scheduler(room)
    worker(room)
    driver = room.spread("--scheduler", address(room))
    room.wait_for(1)
    driver.kill()
    driver.wait()
    before = room.answered()
    until(lambda: not programs(room.program), room.said)
    assert room.spread("--scheduler", address(room)).wait(PATIENCE) == 1, room.said()
    room.is_whole(before)
