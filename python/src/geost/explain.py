"""Why the program answers as it does, line by line."""

from __future__ import annotations

import sys
from collections.abc import Iterator
from dataclasses import dataclass
from pathlib import Path

from geost.blame import explain_broken
from geost.blocking import explain_cycle
from geost.lesson import Bounds, Lesson
from geost.nothing import Nothing
from geost.program import Answer, Program
from geost.refusals import Kind, Source, explain_refusal
from geost.refusing import Refusing
from geost.text import end_of_first_text, read_layout, read_problem
from geost.words import explain_words

DERIVED = ("check", "check_best")
TWO_TEXTS = ("judge", "draw", "load", *DERIVED)
USUAL_STEPS = 1000
STATUSES = {"none": 1, "broken": 1, "cycle": 1, "refused": 2, "budget": 3, "bad": 4}


@dataclass(frozen=True)
class Asked:
    """A command whose answer is explained: its words, where they are known, and how long and on how
    many processors is asked about it."""

    command: str
    words: list[str] | None
    seconds: float
    processors: int

    def steps(self) -> int:
        """The N of `first N`, `why N` or `best D N`, or of a run that is known by its answer alone
        USUAL_STEPS."""
        return int(self.words[-1]) if self.words is not None else USUAL_STEPS

    def dimension(self) -> int:
        """The dimension that the words name; 1, where they are not known."""
        return int(self.words[1]) if self.words is not None else 1

    def bounds(self, steps: int) -> Bounds:
        return Bounds(steps, self.seconds, self.processors)


def answer_said(text: str) -> Answer:
    """An answer of an earlier run, with the status that it had."""
    return Answer(text, STATUSES.get((text.split() or [""])[0], 0))


def read_sources(files: list[str], between: bytes) -> list[Source]:
    """The files one behind the other, each but the last with `between` where it has no end of
    line."""
    sources: list[Source] = []
    before = 0
    for number, file in enumerate(files or ["-"]):
        text = sys.stdin.buffer.read() if file == "-" else Path(file).read_bytes()
        if number + 1 < len(files) and not text.endswith(b"\n"):
            text += between
        sources.append(Source("standard input" if file == "-" else file, text, before))
        before += len(text)
    return sources


def explain(program: Program, answer: Answer, asked: Asked, sources: list[Source]) -> Iterator[str]:
    """The lines that explain an answer, each as soon as it is known."""
    text = b"".join(source.text for source in sources)
    layout_from = end_of_first_text(text) if asked.command in TWO_TEXTS else None
    match answer.words():
        case ["refused", place, word]:
            kind = Kind.DERIVATION if asked.command in DERIVED else Kind.LAYOUT
            yield from explain_refusal(word, int(place), sources, layout_from, kind)
        case ["broken", _] if layout_from is not None:
            problem = read_problem(text[:layout_from])
            yield from explain_broken(program, problem, read_layout(text[layout_from:]))
        case ["cycle", *names] if layout_from is not None:
            problem, layout = read_problem(text[:layout_from]), read_layout(text[layout_from:])
            yield from explain_cycle(problem, layout, names, asked.dimension())
        case ["core", count, *words]:
            names = words[1 : 2 * int(count) : 2]
            problem = read_problem(text)
            refusing = Refusing(program, problem, asked.steps(), asked.seconds)
            yield from refusing.lines(names, sources[0])
        case ["best", end, *_] if end != "-":
            yield f"no layout ends before {end} in dimension {asked.dimension()}: the derivation"
            yield f"behind `none` shows it, and `check_best {asked.dimension()} {end}` confirms it"
        case ["none", *_]:
            yield "no layout keeps all rules, whatever the order and the sides"
            if asked.command in ("first", "best"):
                bounds = asked.bounds(asked.steps())
                yield from Nothing(Lesson(program, read_problem(text), bounds, "")).lines()
        case [*_, "budget", steps] if asked.command in ("first", "all"):
            yield f"{steps} steps did not suffice to find a layout or that there is none"
            file = sources[0].name if sources[0].name != "standard input" else "my.geost"
            bounds = asked.bounds(int(steps))
            yield from Lesson(program, read_problem(text), bounds, file).lines()
        case ["budget", steps] if asked.command == "why":
            yield f"{steps} steps did not suffice for one of the rounds, each of which has as many"
            refusing = Refusing(program, read_problem(text), int(steps), asked.seconds)
            yield from refusing.lines_of_a_spent_round(sources[0])
        case ["budget", steps] if asked.command == "best":
            yield f"{steps} steps did not suffice for one of the rounds, each of which has as many;"
            yield f"`tools/portfolio --best {asked.dimension()}` tries other orders"
        case ["bad", "dimension"]:
            dims = read_problem(text[: end_of_first_text(text)]).dims
            yield f"the problem has {dims} dimensions, and {asked.dimension()} is none of them"
        case ["bad", "words"]:
            yield from explain_words(asked.words)
