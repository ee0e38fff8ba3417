"""Finding and running the program."""

from __future__ import annotations

import argparse
import os
import shutil
import subprocess
from dataclasses import dataclass
from functools import cached_property
from pathlib import Path

from geost.files import IN_A_WHEEL, TOP
from geost.text import Placed, Problem, read_layout, read_problem

SCRIPT = TOP / "geost"
IN_THE_WHEEL = IN_A_WHEEL / "libexec" / "geost_cli"

ANSWERED, NO, REFUSED, BUDGET, BAD_WORDS, BAD_DIMENSION = 0, 1, 2, 3, 4, 9
OUT_OF_TIME = 124


class ProgramMissing(FileNotFoundError):
    """No program is there: neither one that is named, nor one that came with the package."""


def usual_program() -> str:
    """What is run where no program is named: what the variable GEOST_PROGRAM names, else the
    program that came with the package, else ./geost of the checkout, else `geost` of the search
    path. ProgramMissing where none of them is there."""
    named = os.environ.get("GEOST_PROGRAM")
    if named:
        return named
    there = next((path for path in (IN_THE_WHEEL, SCRIPT) if path.is_file()), None)
    found = str(there) if there is not None else shutil.which("geost")
    if found is None:
        raise ProgramMissing(
            "there is no program: name one, set GEOST_PROGRAM, or install the wheel that has it"
        )
    return found


@dataclass(frozen=True)
class Answer:
    """What the program printed, and its status; OUT_OF_TIME where it was stopped."""

    text: str
    status: int

    def words(self) -> list[str]:
        return self.text.split()


class Refused(Exception):
    """The program takes a text for no problem."""

    def __init__(self, answer: Answer):
        super().__init__(answer.text.strip())
        self.answer = answer


@dataclass(frozen=True)
class Program:
    """The program by its path, or the script `geost`, which is asked once for what it runs."""

    named: str

    @cached_property
    def path(self) -> str:
        return program_of_script() if Path(self.named) == SCRIPT else self.named

    def start(self, words: list[str]) -> subprocess.Popen[bytes]:
        return subprocess.Popen([self.path, *words], stdin=subprocess.PIPE, stdout=subprocess.PIPE)

    def ask(self, words: list[str], text: bytes, seconds: float | None = None) -> Answer:
        process = self.start(words)
        try:
            printed, _ = process.communicate(text, seconds)
        except subprocess.TimeoutExpired:
            process.kill()
            process.communicate()
            return Answer("", OUT_OF_TIME)
        return Answer(printed.decode("ascii"), process.returncode)

    def shown(self, text: bytes) -> Problem:
        """The problem that the program reads in a text, from what it shows of it."""
        answer = self.ask(["show"], text)
        if answer.status != ANSWERED:
            raise Refused(answer)
        return read_problem(answer.text.encode())

    def judge(self, problem: str, layout: str) -> Answer:
        return self.ask(["judge"], (problem + layout).encode())


def program_of_script() -> str:
    """The program that the script `geost` runs. Where it is not proved, the script says so once,
    and builds it first where that has to be. RuntimeError where there is none."""
    done = subprocess.run([SCRIPT, "--program"], stdout=subprocess.PIPE)
    if done.returncode != 0:
        raise RuntimeError("there is no program to ask")
    return done.stdout.decode().strip()


def layout_of(answer: Answer) -> list[Placed]:
    return read_layout(answer.text.encode())


def add_program_option(parser: argparse.ArgumentParser) -> None:
    parser.add_argument(
        "--program",
        default=os.environ.get("GEOST_PROGRAM", str(SCRIPT)),
        help="the program to run (default: the variable GEOST_PROGRAM, else ./geost of this"
        " repository)",
    )
