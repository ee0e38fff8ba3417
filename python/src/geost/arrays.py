"""Cubes as a job array: what a batch system starts by numbers, and what comes of it.

A folder that all machines see has the text of each cube and a list of them, a line each. A task is
one line: it reads the cube, runs the program, and leaves an answer that is there whole or not at
all. What was answered in time goes into the journal, and what was not is split for the next array.
"""

from __future__ import annotations

import json
from dataclasses import replace
from pathlib import Path
from typing import Any

from geost.cubes import CubePath, split_of
from geost.journal import Answered, Parted, Trouble
from geost.spread import ENOUGH_STEPS, Spread
from geost.workers import LAYOUT, NONE, Job, Outcome, answer, digest_of, write_whole

LIST = "array"
TASKS, ANSWERS = "tasks", "answers"


def write_array(spread: Spread, count: int, seconds: float) -> int:
    """Writes at least so many open cubes as tasks, where the problem can be split so far, and says
    how many they are. What few steps answer is answered here."""
    part_open(spread, count)
    folder = spread.settings.folder
    (folder / TASKS).mkdir(exist_ok=True)
    (folder / ANSWERS).mkdir(exist_ok=True)
    names = []
    for path in spread.tree.open():
        cube = spread.tree.nodes[path].cube
        job = spread.job(spread.tree.nodes[path])
        data = {**vars(job), "text": job.text.decode(), "steps": ENOUGH_STEPS, "seconds": seconds}
        data["folder"] = str((folder / ANSWERS).resolve())
        write_whole(folder / TASKS / cube.name(), json.dumps(data).encode())
        (folder / ANSWERS / cube.name()).unlink(missing_ok=True)
        names.append(cube.name())
    write_whole(folder / LIST, "".join(f"{name}\n" for name in names).encode())
    return len(names)


def part_open(spread: Spread, count: int) -> None:
    """Splits open cubes, the largest first, until there are so many that few steps do not
    answer."""
    tree = spread.tree
    whole: list[CubePath] = []
    waiting = sorted(tree.open(), key=len)
    while waiting and len(waiting) + len(whole) < count:
        path = waiting.pop(0)
        if not tree.is_wanted(path):
            continue
        if not path and probed(spread, path):
            continue
        split = split_of(spread.problem, tree.nodes[path].cube, spread.settings.parts)
        if split is None:
            whole.append(path)
            continue
        spread.journal.add(Parted(path, split))
        waiting += [part for part in tree.part(path, split) if not probed(spread, part)]


def probed(spread: Spread, path: CubePath) -> bool:
    """Whether few steps answer a cube."""
    node = spread.tree.nodes[path]
    job = replace(spread.job(node), steps=spread.probe, seconds=60.0)
    outcome = Outcome(**answer(job))
    if outcome.word in (LAYOUT, NONE):
        spread.keep(path, outcome)
    elif outcome.word not in ("budget", "time", "memory"):
        raise Trouble(spread.fault_of(node, outcome))
    return outcome.word in (LAYOUT, NONE)


def run_task(folder: Path, number: int) -> Outcome:
    """Answers the task of a number, from 1, and leaves its answer."""
    names = (folder / LIST).read_text().splitlines()
    if not 1 <= number <= len(names):
        raise Trouble(f"{folder / LIST} has {len(names)} tasks, and none of number {number}")
    name = names[number - 1]
    kept = folder / ANSWERS / name
    if kept.exists():
        return outcome_in(kept)
    data: dict[str, Any] = json.loads((folder / TASKS / name).read_text())
    data["text"] = data["text"].encode()
    outcome = Outcome(**answer(Job(**data)))
    if outcome.word in (LAYOUT, NONE):
        write_whole(kept, json.dumps({**vars(outcome), "blob": ""}).encode())
    return outcome


def outcome_in(file: Path) -> Outcome:
    data: dict[str, Any] = {**json.loads(file.read_text()), "blob": b""}
    return Outcome(**data)


def gather(spread: Spread) -> int:
    """Takes the answers that are there into the journal, and says how many cubes are open."""
    folder = spread.settings.folder
    for path in spread.tree.open():
        name = spread.tree.nodes[path].cube.name()
        file = folder / ANSWERS / name
        if file.exists() and spread.tree.is_wanted(path):
            derivation = folder / ANSWERS / f"{name}.none.zst"
            if derivation.exists():
                derivation.replace(folder / derivation.name)
            spread.keep(path, outcome_in(file))
    return len(spread.tree.open())

