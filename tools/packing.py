"""What archives and wheels of the program are made of."""

from __future__ import annotations

import hashlib
import re
import shutil
import subprocess
from collections.abc import Iterator
from dataclasses import dataclass
from pathlib import Path

from geost.files import TOP
from geost.program import SCRIPT

SYSTEM = "x86_64-linux"
UNPROVED_MARK = b"__asan_init"
RUNS = 0o755
READ = 0o644


class NoRelease(Exception):
    """Why no archive is made."""


@dataclass(frozen=True)
class Member:
    """A file of an archive by its name in it."""

    name: str
    content: bytes
    mode: int = READ


def proved_program(named: str | None) -> Path:
    """The program by its path, else the one that was proved here."""
    if named is None:
        done = subprocess.run([SCRIPT, "--proved"], capture_output=True, text=True)
        if done.returncode != 0:
            raise NoRelease("the program is not proved: ./geost prove proves and builds it")
        named = done.stdout.strip()
    program = Path(named)
    if UNPROVED_MARK in program.read_bytes():
        raise NoRelease(f"{program} was built without its proofs")
    return program


def kit_folder() -> Path:
    """The folder of the kit whose `rt` stands in the search path."""
    found = shutil.which("rt")
    if found is None:
        raise NoRelease("the kit's `rt` is not in the search path")
    return Path(found).resolve().parent.parent


def licence_members(kit: Path) -> Iterator[Member]:
    """The licences that the kit has of the crates which NOTICES says are made after others."""
    notices = (TOP / "NOTICES.md").read_text(encoding="utf-8")
    for crate in re.findall(r"^- `(\w+)`,.* after ", notices, re.MULTILINE):
        found = sorted((kit / "rattle" / crate).glob("LICENSE*"))
        if not found:
            raise NoRelease(f"the kit has no licence of {crate}")
        for path in found:
            yield Member(f"licences/{crate}/{path.name}", path.read_bytes())


def sum_of(content: bytes) -> str:
    return hashlib.sha256(content).hexdigest()


def commit_time() -> int:
    """When the last commit was made, in seconds since 1970."""
    words = ["git", "log", "-1", "--format=%ct"]
    return int(subprocess.run(words, cwd=TOP, stdout=subprocess.PIPE, check=True).stdout)
