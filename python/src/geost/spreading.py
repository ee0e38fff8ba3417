"""Searches a problem on many processors or machines, cube by cube (docs/SPREAD.md).

usage: geost spread --folder FOLDER [--scheduler ADDRESS] [--memory MB] PROBLEM
       geost spread --folder FOLDER --write COUNT [--seconds 3600] PROBLEM
       geost spread --folder FOLDER --task NUMBER
       geost spread --folder FOLDER --gather PROBLEM
       geost spread --folder FOLDER --verify PROBLEM

The problem is cut into cubes along its stated order, and `first` answers each. The first cube in
the order that has a layout gives the layout of `first`, which is printed; where none has one,
`none` is printed and the derivation that the cubes' derivations make together, as `check` reads it.
What is answered is kept in the folder, and the same call goes on where another one stopped.

Without --scheduler cubes are answered by processors of this machine, else by the workers of
dask.distributed. --write writes cubes as tasks of a job array, --task answers one of them and
--gather takes what was answered. --verify checks what the folder has. Status: 0 a layout, 1 none,
2 refused, 3 cubes are open, 70 a fault; of --verify 0 or 70.
"""

from __future__ import annotations

import argparse
import os
import sys
from collections.abc import Callable, Iterator
from concurrent.futures import Executor, ThreadPoolExecutor
from contextlib import closing, contextmanager
from dataclasses import replace
from pathlib import Path
from typing import Any

from geost.arrays import gather, run_task, write_array
from geost.journal import Trouble
from geost.main import CANNOT, STOPPED, status_of
from geost.program import ANSWERED, BUDGET, NO, REFUSED, Program, Refused, usual_program
from geost.runs import Progress
from geost.spread import Settings, Spread
from geost.text import Problem
from geost.verifying import faults

MEBIBYTE = 1 << 20
CONNECT_SECONDS = 10


def parse_arguments(words: list[str]) -> argparse.Namespace:
    parser = argparse.ArgumentParser(
        prog="geost spread",
        description=__doc__,
        formatter_class=argparse.RawDescriptionHelpFormatter,
    )
    parser.add_argument("--program", help="the program that each machine has at this path")
    parser.add_argument("--folder", type=Path, required=True, help="where answers are kept")
    parser.add_argument("--processors", type=int, default=os.cpu_count() or 1)
    parser.add_argument("--scheduler", help="of dask.distributed, such as tcp://host:8786")
    parser.add_argument("--memory", type=int, help="MB that the program may take on a cube")
    parser.add_argument("--seconds", type=float, help="how long to search, or a task may take")
    parser.add_argument("--steps", type=int, default=1000, help="of a cube's first search")
    parser.add_argument("--without-checks", action="store_true", help="workers check no parts")
    mode = parser.add_mutually_exclusive_group()
    mode.add_argument("--write", type=int, metavar="COUNT", help="write tasks, about so many")
    mode.add_argument("--task", type=int, metavar="NUMBER", help="answer a task, from 1")
    mode.add_argument("--gather", action="store_true", help="take what tasks have answered")
    mode.add_argument("--verify", action="store_true", help="check what the folder has")
    parser.add_argument("problem", nargs="?", default="-")
    return parser.parse_args(words)


def settings_of(arguments: argparse.Namespace, program: str) -> Settings:
    memory = None if arguments.memory is None else arguments.memory * MEBIBYTE
    return Settings(
        program,
        arguments.folder,
        arguments.processors,
        first_steps=arguments.steps,
        memory=memory,
        check=not arguments.without_checks,
        stop_after=arguments.seconds,
    )


Engine = tuple[Executor, Settings]


@contextmanager
def engine(arguments: argparse.Namespace, settings: Settings) -> Iterator[Engine]:
    """The executor, and the settings with how many cubes it runs side by side."""
    if arguments.scheduler is None:
        with ThreadPoolExecutor(settings.slots) as pool:
            yield pool, settings
        return
    client: Any = client_of(arguments.scheduler)
    try:
        known = replace(
            settings,
            slots=sum(client.nthreads().values()) or settings.slots,
            is_shared=False,
            is_there=lambda: bool(client.status == "running"),
        )
        yield client.get_executor(pure=False), known
    finally:
        client.close(timeout=2)


def client_of(address: str) -> object:
    try:
        from distributed import Client
    except ImportError as missing:
        raise Trouble("--scheduler takes dask.distributed (python3-distributed)") from missing
    connect: Callable[..., object] = Client
    return connect(address, timeout=CONNECT_SECONDS, set_as_default=False)


def search(arguments: argparse.Namespace, problem: Problem, settings: Settings) -> int:
    progress = Progress()
    with engine(arguments, settings) as (executor, chosen):
        with closing(Spread(problem, replace(chosen, tell=progress.show), executor)) as spread:
            try:
                spread.run()
            finally:
                progress.end()
                say(told(spread))
            return print_answer(spread)


def told(spread: Spread) -> str:
    counts, size = spread.counts, len(spread.tree.leaves())
    return (
        f"{size} cubes, {len(spread.tree.open())} open; {spread.seconds():.1f} s, "
        f"{counts.runs} runs of {counts.spent:.1f} processor seconds, {counts.wasted:.1f} of them "
        f"wasted, {counts.checked:.1f} for checks; at most {counts.peak >> 10} MB each; "
        f"{counts.lost} lost"
    )


def print_answer(spread: Spread) -> int:
    if spread.tree.open():
        return BUDGET
    if spread.tree.best is not None:
        sys.stdout.write(spread.tree.layout())
        return ANSWERED
    sys.stdout.flush()
    spread.tree.write_derivation(spread.settings.folder, sys.stdout.buffer)
    return NO


def verify(spread: Spread) -> int:
    found = list(faults(spread.settings.program, spread.tree, spread.settings.folder))
    sys.stdout.writelines(f"{line}\n" for line in found or ["yes"])
    return CANNOT if found else ANSWERED


def with_folder(arguments: argparse.Namespace, problem: Problem, settings: Settings) -> int:
    """What is done without an engine."""
    with ThreadPoolExecutor(1) as pool, closing(Spread(problem, settings, pool)) as spread:
        if arguments.verify:
            return verify(spread)
        if arguments.gather:
            say(f"{gather(spread)} cubes are open")
            return print_answer(spread)
        say(f"{write_array(spread, arguments.write, arguments.seconds or 3600.0)} tasks")
        return print_answer(spread)


def say(line: str) -> None:
    print(f"geost spread: {line}", file=sys.stderr)


def main(words: list[str] | None = None) -> int:
    arguments = parse_arguments(sys.argv[1:] if words is None else words)
    if arguments.task is not None:
        outcome = run_task(arguments.folder, arguments.task)
        say(f"cube {outcome.name}: {outcome.word} {outcome.verdict}")
        return ANSWERED if outcome.word in ("layout", "none") else BUDGET
    program = Program(arguments.program or usual_program()).path
    source = arguments.problem
    text = sys.stdin.buffer.read() if source == "-" else Path(source).read_bytes()
    try:
        problem = Program(program).shown(text)
    except Refused as refused:
        sys.stdout.write(refused.answer.text)
        return REFUSED
    settings = settings_of(arguments, str(Path(program).resolve()))
    if arguments.write is not None or arguments.gather or arguments.verify:
        return with_folder(arguments, problem, settings)
    return search(arguments, problem, settings)


if __name__ == "__main__":
    sys.exit(status_of("geost spread", main))
