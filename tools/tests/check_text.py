"""The reader and printer of these scripts say the same as the program's."""

from __future__ import annotations

from pathlib import Path

from geost.text import print_problem, read_problem
from geost.tokens import RESERVED
from harness import TOP, Case, Cases, Setting, want


def check_shown(setting: Setting, problem: Path) -> None:
    text = problem.read_bytes()
    shown = setting.program.ask(["show"], text)
    want(shown.status, 0, "status of show")
    want(print_problem(read_problem(text)), shown.text, "the canonical text")
    want(read_problem(shown.text.encode()), read_problem(text), "the problem read back")


def check_reserved() -> None:
    document = (TOP / "docs" / "FORMAT.md").read_text(encoding="utf-8")
    listing = document[document.index("Reserved words: `") :].split("`")[1].split()
    want(RESERVED, listing, "the reserved words")


def cases(setting: Setting, folder: Path) -> Cases:
    yield Case("text: the reserved words of FORMAT.md", check_reserved)
    for problem in sorted((TOP / "examples").glob("*.geost")):
        yield Case(f"text: show {problem.name}", lambda problem=problem: check_shown(setting, problem))
