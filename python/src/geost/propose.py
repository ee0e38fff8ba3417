"""Asks z3 for a layout of a problem, which the program then judges."""

from __future__ import annotations

import argparse
import shutil
import subprocess
import sys
from pathlib import Path

from geost.main import status_of
from geost.program import BUDGET, REFUSED, Program, Refused, add_program_option
from geost.runs import NO_LAYOUT, Outcome, Verdict, judged_layout
from geost.smt import Writer, layout_of_model
from geost.text import Problem, print_layout


def asked(problem: Problem, seconds: float) -> str:
    """What z3 answers within the seconds: `sat` and a model, `unsat`, or something else."""
    text = "\n".join(Writer(problem).statements()) + "\n"
    command = ["z3", "-smt2", f"-T:{max(1, round(seconds))}", "-in"]
    done = subprocess.run(command, input=text.encode(), stdout=subprocess.PIPE)
    return done.stdout.decode()


def propose(program: Program, source: str, seconds: float) -> int:
    """Prints a layout of the problem in a file, or what z3 says, and gives the status."""
    if shutil.which("z3") is None:
        raise RuntimeError("z3 is not installed (Debian's package z3 brings it)")
    text = sys.stdin.buffer.read() if source == "-" else Path(source).read_bytes()
    try:
        problem = program.shown(text)
    except Refused as refused:
        sys.stdout.write(refused.answer.text)
        return REFUSED
    return report(program, problem, asked(problem, seconds))


def report(program: Program, problem: Problem, answer: str) -> int:
    word = answer.split(maxsplit=1)[0] if answer.strip() else "nothing"
    if word != "sat":
        said = f"{NO_LAYOUT}, which proves nothing" if word == "unsat" else word
        print(f"z3 says: {said}")
        return BUDGET
    proposed = print_layout(layout_of_model(problem, answer))
    layout = judged_layout(program, problem, Outcome(Verdict.LAYOUT, proposed))
    if layout is None:
        raise RuntimeError("the program does not judge the layout of z3 good")
    sys.stdout.write(layout + "# proposed by z3; judged good\n")
    return 0


def main(described: str | None = __doc__) -> int:
    parser = argparse.ArgumentParser(
        description=described, formatter_class=argparse.RawDescriptionHelpFormatter
    )
    add_program_option(parser)
    parser.add_argument("--seconds", type=float, default=60, help="how long z3 may take (60)")
    parser.add_argument("problem", nargs="?", default="-")
    arguments = parser.parse_args()
    return propose(Program(arguments.program), arguments.problem, arguments.seconds)


if __name__ == "__main__":
    sys.exit(status_of("tools/propose", main))
