"""What of a search that was spread can be checked again, from its folder, without its workers."""

from __future__ import annotations

import subprocess
import tempfile
from collections.abc import Iterator
from pathlib import Path

from geost.cubes import CubePath, is_split
from geost.program import ANSWERED, Program
from geost.spread import Tree, check_joined, unpacked
from geost.text import print_problem
from geost.workers import NONE, derivation_file


def faults(program: str, tree: Tree, folder: Path) -> Iterator[str]:
    """What is wrong, a line each.

    Of a layout: that `judge` takes it for none of the problem, that a cube before its own has no
    answer, or that `check` does not say `yes` of a derivation that is kept of one. Of none: what
    `check` says of the joined derivation.
    """
    yield from wrong_splits(tree)
    if tree.open():
        yield f"{len(tree.open())} cubes have no answer"
    elif tree.best is None:
        verdict = check_joined(program, tree, folder)
        if verdict != "yes":
            yield f"the joined derivation is checked with {verdict!r}"
    else:
        judged = Program(program).judge(print_problem(tree.problem), tree.layout())
        if judged.status != ANSWERED:
            yield f"the layout is judged with {judged.text.strip()!r}"
        yield from wrong_parts(program, tree, folder)


def wrong_splits(tree: Tree) -> Iterator[str]:
    for node in tree.nodes.values():
        if node.split is not None and not is_split(tree.problem, node.cube, node.split):
            yield f"cube {node.cube.name()} is not the sum of its parts"


def parts_before(tree: Tree) -> list[CubePath]:
    """The cubes without a layout before the one that has the first."""
    return [path for path in tree.leaves() if tree.is_wanted(path) and path != tree.best]


def wrong_parts(program: str, tree: Tree, folder: Path) -> Iterator[str]:
    for path in parts_before(tree):
        node = tree.nodes[path]
        text = node.cube.text(tree.problem)
        verdict = check_part(program, text, derivation_file(folder, node.cube.name()))
        if node.state != NONE or verdict != "yes":
            yield f"the derivation of cube {node.cube.name()} is checked with {verdict!r}"


def check_part(program: str, text: bytes, derivation: Path) -> str:
    """What `check` says of the derivation that is kept of a cube."""
    with tempfile.TemporaryFile() as source:
        source.write(text + b"\n")
        with unpacked(derivation) as lines:
            source.writelines(lines)
        source.seek(0)
        done = subprocess.run([program, "check"], stdin=source, stdout=subprocess.PIPE)
    return done.stdout.decode().strip()
