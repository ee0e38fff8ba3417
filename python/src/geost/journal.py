"""The journal of a search that is spread: a line for each cube that was answered or split.

Its first line has the digests of the problem and of the program. Each line is on the disk before
the search goes on, and one that was cut off is not read.
"""

from __future__ import annotations

import fcntl
import hashlib
import json
import os
from dataclasses import dataclass
from pathlib import Path
from typing import Any

from geost.cubes import Split
from geost.text import Problem, print_problem
from geost.workers import Outcome, digest_of

FILE = "journal"


class Trouble(RuntimeError):
    """A cube could not be answered, or a journal cannot be used."""


@dataclass(frozen=True)
class Parted:
    """A cube was split."""

    path: tuple[int, ...]
    split: Split


@dataclass(frozen=True)
class Answered:
    """A cube was answered."""

    path: tuple[int, ...]
    outcome: Outcome


Entry = Parted | Answered


def identity(problem: Problem, program: str) -> dict[str, str]:
    text = print_problem(problem).encode()
    return {"problem": hashlib.sha256(text).hexdigest(), "program": digest_of(program)}


class Journal:
    """The journal of a folder, which one search at a time has."""

    def __init__(self, folder: Path, head: dict[str, str]):
        folder.mkdir(parents=True, exist_ok=True)
        file = folder / FILE
        self.target = os.fdopen(os.open(file, os.O_RDWR | os.O_CREAT, 0o644), "r+b")
        try:
            fcntl.flock(self.target, fcntl.LOCK_EX | fcntl.LOCK_NB)
        except BlockingIOError as held:
            raise Trouble(f"{file} is used by another search") from held
        text = self.target.read()
        whole = text[: text.rfind(b"\n") + 1]
        lines = [json.loads(line) for line in whole.splitlines()]
        if lines and lines[0] != head:
            raise Trouble(f"{file} belongs to another problem or another program")
        self.entries = [read_entry(line) for line in lines[1:]]
        self.target.truncate(len(whole))
        self.target.seek(len(whole))
        if not lines:
            self.write(head)

    def add(self, entry: Entry) -> None:
        self.write(written_entry(entry))

    def write(self, data: dict[str, Any]) -> None:
        self.target.write(json.dumps(data).encode() + b"\n")
        self.target.flush()
        os.fsync(self.target.fileno())

    def close(self) -> None:
        self.target.close()


def written_entry(entry: Entry) -> dict[str, Any]:
    if isinstance(entry, Parted):
        return {"path": entry.path, "split": vars(entry.split)}
    return {"path": entry.path, "outcome": {**vars(entry.outcome), "blob": ""}}


def read_entry(data: dict[str, Any]) -> Entry:
    path = tuple(data["path"])
    if "split" not in data:
        outcome: dict[str, Any] = {**data["outcome"], "blob": b""}
        return Answered(path, Outcome(**outcome))
    split: dict[str, Any] = dict(data["split"])
    split["ranges"] = tuple((low, high) for low, high in split["ranges"])
    split["shapes"] = tuple(split["shapes"])
    return Parted(path, Split(**split))
