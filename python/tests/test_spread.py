"""Faults of a search that is spread over one machine: a program or the driver is killed by its
number, and no answered cube is lost and no process is left."""

from __future__ import annotations

import os
import shutil
import signal
from collections.abc import Iterator
from pathlib import Path

import pytest
from killing import PATIENCE, Room, in_session, programs, shelf, until

pytestmark = pytest.mark.skipif(shutil.which("zstd") is None, reason="zstd is not installed")


@pytest.fixture
def room(tmp_path: Path) -> Iterator[Room]:
    made = Room(tmp_path)
    yield made
    made.end()


def test_the_driver_is_killed(room: Room) -> None:
    """What was answered stays, nothing runs on, and the next call goes on."""
    driver = room.spread("--processors", "2")
    room.wait_for(3)
    driver.kill()
    driver.wait()
    until(lambda: not in_session(driver.pid), room.said)
    before = room.answered()
    with (room.answers / "journal").open("ab") as journal:
        journal.write(b'{"path": [0, 1')
    assert room.spread("--processors", "2").wait(PATIENCE) == 1, room.said()
    room.is_whole(before)


def test_a_program_is_killed(room: Room) -> None:
    """Its cube is answered all the same."""
    driver = room.spread("--processors", "2")
    before = room.wait_for(2)
    until(lambda: bool(programs(room.program)), room.said)
    for one in programs(room.program)[:1]:
        os.kill(one, signal.SIGKILL)
    assert driver.wait(PATIENCE) == 1, room.said()
    room.is_whole(before)


def test_another_problem_is_refused(room: Room) -> None:
    """A folder belongs to one problem and one program."""
    assert room.spread("--processors", "2").wait(PATIENCE) == 1
    room.problem.write_text(shelf(3))
    assert room.spread().wait(PATIENCE) == 70
    assert "another problem" in room.said()


def test_what_is_changed_is_found(room: Room) -> None:
    """A derivation of another cube in place of its own."""
    room.problem.write_text(shelf(4))
    assert room.spread("--processors", "2").wait(PATIENCE) == 1
    room.is_whole([])
    kept = sorted(room.answers.glob("*.none.zst"), key=lambda file: file.stat().st_size)
    assert len(kept) > 2
    shutil.copy(kept[0], kept[-1])
    assert room.spread("--verify").wait(PATIENCE) == 70


def test_a_job_array(room: Room) -> None:
    """Tasks are answered in any sequence; what is open is gathered as open."""
    room.problem.write_text(shelf(6))
    assert room.spread("--write", "2").wait(PATIENCE) == 3, room.said()
    count = len((room.answers / "array").read_text().splitlines())
    assert count >= 2
    words = ["--folder", str(room.answers), "--task"]
    for number in range(count, 1, -1):
        assert room.start("geost.spreading", *words, str(number)).wait(PATIENCE) == 0
    assert room.spread("--gather").wait(PATIENCE) == 3
    assert room.start("geost.spreading", *words, "1").wait(PATIENCE) == 0
    assert room.spread("--gather").wait(PATIENCE) == 1
    room.is_whole([])
