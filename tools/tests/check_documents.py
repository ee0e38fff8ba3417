"""Each problem that stands in a document runs, and its answer is the one that stands under it.

A document's blocks are fenced. `geost` is a problem, which holds until the next one. Under it
stand, in any number: `text first N`, what that prints; `text best D N` and `text why N`, how
that begins; `text plan`, a layout, and then `text judged`, its verdict, or `text load D`, its sequence; `text explained WORDS`, what tools/explain prints for a command over the
problem (and the plan); `text rows N`, the table of its first layout. `text table SPACE` is a table
whose problem stands in the document too. Answers and verdicts are also those of the second meaning.
"""

from __future__ import annotations

import re
from collections.abc import Iterator
from dataclasses import dataclass, replace
from pathlib import Path

import oracle
from geost.candidates import narrower
from geost.orders import stated_orders
from geost.text import print_layout, print_problem, read_layout, read_problem
from geost.tokens import TextFault
from harness import TOP, Case, Cases, Failed, Setting, Skipped, first_of
from harness import run_plain, run_tool, want, want_in

DOCUMENTS = ["TUTORIAL.md", "COOKBOOK.md", "SPEED.md"]
FENCE = re.compile(r"^```(.*)\n((?:.*\n)*?)```$", re.MULTILINE)
MOST_PLACES = 20_000
MOST_COLUMNS = 100


@dataclass(frozen=True)
class Block:
    """A fenced block with its words and the line at which it begins."""

    words: tuple[str, ...]
    text: str
    line: int


@dataclass(frozen=True)
class Snippet:
    """A block to be tried, with the problem and the plan that stand above it."""

    document: str
    block: Block
    problem: str
    plan: str

    def name(self) -> str:
        return f"document {self.document}:{self.block.line}: {' '.join(self.block.words)}"


def blocks_of(document: str) -> list[Block]:
    return [
        Block(
            tuple(match.group(1).split()),
            match.group(2),
            document.count("\n", 0, match.start()) + 1,
        )
        for match in FENCE.finditer(document)
    ]


def snippets_of(name: str) -> Iterator[Snippet]:
    problem = plan = ""
    for block in blocks_of((TOP / "docs" / name).read_text(encoding="utf-8")):
        if block.words == ("geost",):
            problem, plan = block.text, ""
        elif block.words == ("text", "plan"):
            plan = block.text
        if block.words[:1] in (("geost",), ("text",)):
            yield Snippet(name, block, problem, plan)


def check_snippet(setting: Setting, snippet: Snippet, folder: Path) -> None:
    match snippet.block.words:
        case ("geost",) | ("text", "plan"):
            return
        case ("text", "first", steps):
            answer = setting.program.ask(["first", steps], snippet.problem.encode())
            want(snippet.block.text, answer.text, "the answer")
            check_first(snippet)
        case ("text", "best", dimension, steps):
            answer = setting.program.ask(["best", dimension, steps], snippet.problem.encode())
            want(answer.text[: len(snippet.block.text)], snippet.block.text, "the answer")
            check_best(snippet, int(dimension))
        case ("text", "why", steps):
            answer = setting.program.ask(["why", steps], snippet.problem.encode())
            want(answer.text[: len(snippet.block.text)], snippet.block.text, "the answer")
            check_why(snippet)
        case ("text", "load", dimension):
            text = snippet.problem + snippet.plan
            answer = setting.program.ask(["load", dimension], text.encode())
            want(snippet.block.text, answer.text, "the sequence")
            problem, plan = read_problem(snippet.problem.encode()), read_layout(snippet.plan.encode())
            word, names = oracle.loading(problem, plan, int(dimension))
            want(snippet.block.text, "\n".join([word, *names, ""]), "that of the second meaning")
        case ("text", "judged"):
            verdict = setting.program.judge(snippet.problem, snippet.plan)
            want(snippet.block.text, verdict.text, "the verdict")
            broken = oracle.broken_rules(
                read_problem(snippet.problem.encode()), read_layout(snippet.plan.encode())
            )
            want(
                snippet.block.text,
                f"broken {broken[0]}\n" if broken else "good\n",
                "the verdict of the second meaning",
            )
        case ("text", "explained", *words):
            check_explained(setting, snippet, list(words), folder)
        case ("text", "table", space):
            words = ["problem", "--space", space, "-"]
            printed = run_plain("csv", words, snippet.block.text)
            document = (TOP / "docs" / snippet.document).read_text(encoding="utf-8")
            want_in(f"```geost\n{printed}```", document)
        case ("text", "rows", steps):
            check_rows(setting, snippet, steps, folder)
        case ("text", "lint"):
            printed, _ = run_tool("lint", setting, ["-"], snippet.problem)
            want(snippet.block.text, printed.replace("standard input: ", ""), "what lint prints")
        case _:
            raise Failed("a block of no known kind")


def check_first(snippet: Snippet) -> None:
    if snippet.block.text.startswith(("refused", "budget")):
        return
    found = oracle.first_layout(read_problem(snippet.problem.encode()), MOST_PLACES)
    wanted = "none\n" if found is None else print_layout(found)
    want(first_of(snippet.block.text), wanted, "the first layout by a listing")


def check_best(snippet: Snippet, dimension: int) -> None:
    best = oracle.least_extent(read_problem(snippet.problem.encode()), dimension, MOST_PLACES)
    end, layout = best if best is not None else (None, [])
    wanted = f"best {end}\n{print_layout(layout)}"
    want(snippet.block.text[: len(wanted)], wanted, "the least extent by a listing")


def check_why(snippet: Snippet) -> None:
    """The rules by a listing: with all that are left there is none, and without each the one that
    is printed is a layout."""
    problem = read_problem(snippet.problem.encode())
    lines = oracle.core(problem, MOST_PLACES)
    want([line.split()[1] for line in snippet.block.text.splitlines() if line.startswith("rule ")], lines, "the rules")


def check_rows(setting: Setting, snippet: Snippet, steps: str, folder: Path) -> None:
    """The table of the problem's first layout."""
    folder.mkdir()
    (folder / "my.geost").write_text(snippet.problem)
    answer = setting.program.ask(["first", steps], snippet.problem.encode())
    printed = run_plain("csv", ["table", str(folder / "my.geost")], answer.text)
    want(snippet.block.text, printed, "what tools/csv prints")


def check_explained(setting: Setting, snippet: Snippet, words: list[str], folder: Path) -> None:
    folder.mkdir()
    files = []
    for name, text in (("my.geost", snippet.problem), ("my.plan", snippet.plan)):
        if text:
            (folder / name).write_text(text)
            files.append(str(folder / name))
    printed, _ = run_tool("explain", setting, [*words, *files])
    want(snippet.block.text, printed.replace(f"{folder}/", ""), "what explain prints")


# docs/FORMAT.md: its indented blocks of statements are one problem, in two dimensions


def statement_blocks() -> list[str]:
    document = (TOP / "docs" / "FORMAT.md").read_text(encoding="utf-8")
    blocks = re.findall(r"(?:^    .*\n)+", document, re.MULTILINE)
    starts = ("    shape ", "    object ", "    order ", "    rule ", "    macro ")
    return [
        re.sub("^    ", "", block, flags=re.MULTILINE)
        for block in blocks
        if block.startswith(starts)
    ]


def check_format(setting: Setting) -> None:
    """All statements of the document are one problem, whose first layout stands in it."""
    text = "geost 1 dims 2\n" + "".join(statement_blocks()) + "end\n"
    try:
        want(
            setting.program.ask(["show"], text.encode()).text,
            print_problem(read_problem(text.encode())),
            "the canonical text",
        )
    except TextFault as fault:
        raise Failed(f"the statements are no problem: {fault}") from fault
    answer = setting.program.ask(["first", "1000"], text.encode())
    document = (TOP / "docs" / "FORMAT.md").read_text(encoding="utf-8")
    shown = "".join(f"    {line}\n" for line in answer.text.splitlines())
    if answer.status != 0 or shown not in document:
        raise Failed(f"the document has another layout than\n{answer.text}")
    want(
        oracle.broken_rules(read_problem(text.encode()), read_layout(answer.text.encode())),
        [],
        "broken rules",
    )


# docs/SPEED.md: its tables of steps


@dataclass(frozen=True)
class Steps:
    """A row: with this order and these sides, so many steps are the least that give a layout."""

    problem: str
    order: str
    sides: tuple[str, ...]
    steps: int


def rows_of_steps() -> list[Steps]:
    document = (TOP / "docs" / "SPEED.md").read_text(encoding="utf-8")
    found = []
    for line in document.splitlines():
        cells = [cell.strip() for cell in line.strip("|").split("|")]
        if line.startswith("| `") and len(cells) == 4 and not cells[2].startswith("zones"):
            large = cells[0].startswith("`large/")
            steps, sides = (cells[2], ()) if large else (cells[3], tuple(cells[2].split()))
            found.append(Steps(cells[0].strip("`"), cells[1].partition(" (")[0], sides, int(steps)))
    return found


def check_steps(setting: Setting, row: Steps) -> None:
    problem = read_problem((TOP / "examples" / f"{row.problem}.geost").read_bytes())
    order = next(order for name, order in stated_orders(problem) if name == row.order)
    text = print_problem(replace(problem, order=order, sides=row.sides or problem.sides)).encode()
    want(
        setting.program.ask(["first", str(row.steps)], text).status,
        0,
        f"the status of first {row.steps}",
    )
    want(
        setting.program.ask(["first", str(row.steps - 1)], text).status,
        3,
        f"the status of first {row.steps - 1}",
    )


def check_zones(setting: Setting, cells: list[str]) -> None:
    """With this order and these zones, so many steps are the least that give a layout, and it is one
    of the problem as stated."""
    name, order, zones, steps = cells
    problem = read_problem((TOP / "examples" / f"{name.strip('`')}.geost").read_bytes())
    way = next(way for way in narrower(problem) if way.name == f"{order}, {zones}")
    text = print_problem(way.of(problem)).encode()
    found = setting.program.ask(["first", steps], text)
    want(found.status, 0, f"the status of first {steps}")
    less = setting.program.ask(["first", str(int(steps) - 1)], text)
    want(less.status, 3, f"the status of first {int(steps) - 1}")
    layout = print_layout(read_layout(found.text.encode()))
    want(setting.program.judge(print_problem(problem), layout).text, "good\n", "the verdict")


def rows_of_zones() -> list[list[str]]:
    document = (TOP / "docs" / "SPEED.md").read_text(encoding="utf-8")
    rows = [[cell.strip() for cell in line.strip("|").split("|")] for line in document.splitlines()]
    return [cells for cells in rows if len(cells) == 4 and cells[2].startswith("zones")]


def check_links(document: Path) -> None:
    """The files that a document names are there."""
    named = re.findall(
        r"`((?:docs|examples|tools|bench)/[A-Za-z0-9_./]+)`", document.read_text(encoding="utf-8")
    )
    missing = [name for name in named if not (TOP / name).exists()]
    want(missing, [], "files that are named and not there")


def check_columns(document: Path) -> None:
    """No line of a document is wider than MOST_COLUMNS characters."""
    lines = enumerate(document.read_text(encoding="utf-8").splitlines(), 1)
    wide = [f"line {number}: {len(line)}" for number, line in lines if len(line) > MOST_COLUMNS]
    want(wide, [], f"lines of more than {MOST_COLUMNS} columns")


def all_documents() -> list[Path]:
    return sorted([*TOP.glob("*.md"), *TOP.glob("docs/*.md"), *TOP.glob("*/README.md")])


def cases(setting: Setting, folder: Path) -> Cases:
    number = 0
    for name in DOCUMENTS:
        if not (TOP / "docs" / name).exists():
            yield Case(f"document {name}", missing)
            continue
        for snippet in snippets_of(name):
            number += 1
            own = folder / f"document{number}"
            yield Case(
                snippet.name(),
                lambda snippet=snippet, own=own: check_snippet(setting, snippet, own),
            )
    yield Case("document FORMAT.md: its statements", lambda: check_format(setting))
    for cells in rows_of_zones():
        name = f"document SPEED.md: {cells[0]}, {cells[1]}, zones"
        yield Case(name, lambda cells=cells: check_zones(setting, cells))
    for row in rows_of_steps():
        yield Case(
            f"document SPEED.md: {row.problem}, {row.order}",
            lambda row=row: check_steps(setting, row),
        )
    for path in all_documents():
        name = path.relative_to(TOP)
        yield Case(f"document {name}: files that it names", lambda path=path: check_links(path))
        yield Case(f"document {name}: columns", lambda path=path: check_columns(path))


def missing() -> None:
    raise Skipped("the document is not there")
