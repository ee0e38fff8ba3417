"""The Python package: its types, its tests, its wheel in an empty environment, its documents."""

from __future__ import annotations

import json
import os
import re
import shutil
import subprocess
import sys
from functools import cache
from itertools import combinations
from pathlib import Path

import oracle
from geost.text import Apart, Placed, Problem, Quantified, read_layout, read_problem
from harness import TOOLS, TOP, Case, Cases, Failed, Setting, Skipped
from harness import is_unproved, want, want_in

PYTHON = "/usr/bin/python3"  # modules of Debian's packages are those of Debian's Python
PACKAGE = TOP / "python"
PARCELS = PACKAGE / "examples" / "parcels.csv"
PACKAGES = {
    "mypy": "python3-mypy",
    "pytest": "python3-pytest",
    "hypothesis": "python3-hypothesis",
    "openpyxl": "python3-openpyxl",
    "matplotlib": "python3-matplotlib",
    "ezdxf": "python3-ezdxf",
    "stl": "python3-stl",
    "ensurepip": "python3-venv",
}
MODULES = {
    "test_sheets": ("openpyxl",),
    "test_pictures": ("matplotlib",),
    "test_cad": ("ezdxf", "stl"),
}
FENCE = re.compile(r"^```(.*)\n((?:.*\n)*?)```$", re.MULTILINE)
SKIPPED = re.compile(r"^SKIPPED \[\d+\] \S+: (.*)$", re.MULTILINE)
MOST_SECONDS, RUNS = 1.0, 3


@cache
def has_module(name: str) -> bool:
    return (
        Path(PYTHON).exists()
        and subprocess.run([PYTHON, "-c", f"import {name}"], capture_output=True).returncode == 0
    )


def needed(*modules: str) -> None:
    missing = [PACKAGES[name] for name in modules if not has_module(name)]
    if missing:
        raise Skipped(f"{', '.join(missing)} is not installed")


def environment(setting: Setting) -> dict[str, str]:
    """What tests are run with; an unproved build is too slow for a thousand random problems."""
    counts = {"GEOST_SPREAD_PROBLEMS": "5000" if setting.long else "60"}
    if is_unproved(setting.program):
        counts = {"GEOST_RANDOM_PROBLEMS": "50", "GEOST_SPREAD_PROBLEMS": "60"}
    return {**os.environ, "GEOST_PROGRAM": setting.program.path, **counts}


def check_types(folder: Path) -> None:
    needed("mypy", "pytest", "hypothesis")
    words = ["--strict", "--cache-dir", str(folder), "src/geost", "tests", "wheel_of_geost.py"]
    done = subprocess.run(
        [PYTHON, "-m", "mypy", *words], cwd=PACKAGE, capture_output=True, text=True
    )
    want((done.stdout.strip().partition(":")[0], done.returncode), ("Success", 0), done.stdout)


def check_file(setting: Setting, file: Path) -> None:
    """The tests of a file. What they skip is named, beside how many have passed."""
    needed("pytest", "hypothesis", *MODULES.get(file.stem, ()))
    words = [PYTHON, "-B", "-m", "pytest", "-q", "-rs", str(file)]
    done = subprocess.run(
        words, cwd=PACKAGE, env=environment(setting), capture_output=True, text=True
    )
    if done.returncode != 0:
        raise Failed(done.stdout[-4000:] + done.stderr[-1000:])
    reasons = list(dict.fromkeys(SKIPPED.findall(done.stdout)))
    if reasons:
        raise Skipped(f"{'; '.join(reasons)}; of the others {done.stdout.splitlines()[-1]}")


# The wheel


def make_wheel(setting: Setting, folder: Path) -> tuple[Path, str]:
    words = [sys.executable, str(TOOLS / "wheel"), "--program", setting.program.path, str(folder)]
    done = subprocess.run(words, capture_output=True, text=True)
    want(done.returncode, 0, f"the status of tools/wheel: {done.stderr}")
    return next(folder.glob("*.whl")), done.stdout


def bare(folder: Path) -> dict[str, str]:
    """Variables of which none says where a package or a program is."""
    return {"PATH": "/usr/bin:/bin", "HOME": str(folder)}


def alone(python: Path, words: list[str], folder: Path, text: str = "") -> str:
    """What Python prints that knows of nothing but its environment."""
    done = subprocess.run(
        [str(python), *words],
        cwd=folder,
        env=bare(folder),
        input=text,
        capture_output=True,
        text=True,
    )
    if done.returncode != 0:
        raise Failed(f"{words}: {done.stderr[-2000:]}")
    return done.stdout


def processor_seconds(python: Path, script: str, folder: Path) -> float:
    """The seconds of a processor that a script takes, and the programs that it runs."""
    process = subprocess.Popen([str(python), script], cwd=folder, env=bare(folder))
    _, status, usage = os.wait4(process.pid, 0)
    process.returncode = os.waitstatus_to_exitcode(status)
    want(process.returncode, 0, f"the status of {script}")
    return usage.ru_utime + usage.ru_stime


def installed(setting: Setting, folder: Path) -> Path:
    """The Python of an empty environment into which the wheel was installed."""
    needed("ensurepip")
    folder.mkdir(parents=True)
    wheel, _ = make_wheel(setting, folder / "wheel")
    subprocess.run([PYTHON, "-m", "venv", str(folder / "empty")], check=True)
    python = folder / "empty" / "bin" / "python"
    words = ["-m", "pip", "install", "--quiet", "--no-index", "--disable-pip-version-check"]
    alone(python, [*words, str(wheel)], folder)
    return python


def check_wheel(setting: Setting, folder: Path) -> None:
    """Twice the same bytes; it says whether its program is proved; installed, it answers as the
    program does, and the package has the version and finds its files."""
    python = installed(setting, folder)
    first, told = make_wheel(setting, folder / "wheel")
    again, _ = make_wheel(setting, folder / "again")
    want(first.read_bytes() == again.read_bytes(), True, "the same wheel twice")
    said = "built without its proofs" if is_unproved(setting.program) else "in it is proved"
    want_in(said, told)
    example = (TOP / "examples" / "two_boxes_on_a_line.geost").read_text()
    answer = setting.program.ask(["first", "100"], example.encode())
    want(alone(python, ["-m", "geost", "first", "100"], folder, example), answer.text, "first")
    asked = "import geost, importlib.metadata as m; print(geost.__file__, m.version('geost'))"
    place, version = alone(python, ["-c", asked], folder).split()
    want(version, (TOP / "VERSION").read_text().strip(), "the version")
    want_in(str(folder / "empty"), place)
    refused = (
        "import geost; p = geost.Problem(1); p.rule('r', 'a = 1')\n"
        "try: p.first(1)\nexcept geost.Refused as r: print(r)"
    )
    want_in("what to do: mend its spelling", alone(python, ["-c", refused], folder))


def readme_lines() -> str:
    """The lines of Python in README."""
    blocks = FENCE.findall((TOP / "README.md").read_text(encoding="utf-8"))
    return next(text for words, text in blocks if words == "python")


def check_readme(setting: Setting, folder: Path) -> None:
    """README's ten lines place thirty parcels in a truck, from the wheel, in a second where the
    program is proved; the layout keeps the rules as the program judges them."""
    python = installed(setting, folder)
    shutil.copy(PARCELS, folder / "parcels.csv")
    lines = readme_lines()
    want(len(lines.splitlines()), 10, "the lines")
    (folder / "truck.py").write_text(lines)
    runs = 1 if is_unproved(setting.program) else RUNS
    seconds = min(processor_seconds(python, "truck.py", folder) for _ in range(runs))
    rows = (folder / "loading.csv").read_text().splitlines()
    want(len(rows), 31, "rows of the loading sheet")
    want_in("PK-003/ö", (folder / "truck.svg").read_text())
    if is_unproved(setting.program):
        raise Skipped("an unproved build is too slow for a second; it places them all the same")
    judged = lines + "print(answer.status, plan.judge(answer.layout))\n"
    (folder / "judged.py").write_text(judged)
    want(alone(python, ["judged.py"], folder), "Status.LAYOUT good\n", "the verdict")
    if seconds > MOST_SECONDS:
        raise Failed(f"it took {seconds:.2f} seconds of a processor")


# docs/PYTHON.md


# keeps what the page judges, for the second meaning
KEPT = """
import json
judged = [answer.layout, answer.layout.moved("Regal", 0, 0, 0)]
items = {one.name: plan.objects.of(one.name) for one in answer.layout.spelled}
with open("judged.json", "w", encoding="utf-8") as kept:
    json.dump([plan.text(), [layout.block() for layout in judged], items], kept)
"""


def groups_that_break(problem: Problem, layout: list[Placed], name: str) -> list[tuple[str, ...]]:
    """The objects that break a rule together: two that share cells, or one for which what stands
    under the rule's quantifier is false."""
    plan = oracle.plan_of(problem, layout)
    body = next(rule.body for rule in problem.rules if rule.name == name)
    if isinstance(body, Apart):
        pairs = combinations(plan.cells, 2)
        return [pair for pair in pairs if plan.cells[pair[0]] & plan.cells[pair[1]]]
    assert isinstance(body, Quantified) and body.kind == "forall"
    known = [(one, {body.variable: one}) for one in plan.placed]
    return [(one,) for one, given in known if oracle.truth(plan, body.body, given) is False]


def second_verdict(problem: Problem, layout: list[Placed], items: dict[str, str]) -> str:
    """What the second meaning finds of a layout, in the words of the package's verdicts."""
    lines = []
    for name in oracle.broken_rules(problem, layout):
        groups = groups_that_break(problem, layout, name)
        lines.append(f"{name}: {'; '.join(' and '.join(items[one] for one in it) for it in groups)}\n")
    return "".join(lines) or "good\n"


def check_verdicts(folder: Path, wanted: list[str]) -> None:
    """The verdicts that stand in the page are worked out from the cells and by evaluating rules."""
    source, blocks, items = json.loads((folder / "judged.json").read_text(encoding="utf-8"))
    problem = read_problem(source.encode())
    layouts = [read_layout(block.encode()) for block in blocks]
    verdicts = "".join(second_verdict(problem, layout, items) for layout in layouts)
    if verdicts not in wanted:
        raise Failed(f"no block of the page has what the second meaning finds:\n{verdicts}")


def page_script(folder: Path) -> tuple[str, list[str]]:
    """The lines of Python of the page, and what each block of them is to print. Its tables become
    files."""
    script: list[str] = []
    wanted: list[str] = []
    document = (TOP / "docs" / "PYTHON.md").read_text(encoding="utf-8")
    for words, text in FENCE.findall(document):
        kind, *names = words.split()
        if kind == "csv":
            (folder / names[0]).write_text(text, encoding="utf-8")
        elif kind == "python":
            kept = KEPT if "plan.judge(" in text else ""
            script.append(f'{text}{kept}print("--")\n')
            wanted.append("")
        elif kind == "text":
            wanted[-1] += text
    return "".join(script), wanted


def check_document(setting: Setting, folder: Path) -> None:
    """Its lines of Python run one block after another, and what they print stands below them; the
    verdicts among that are those of the second meaning."""
    folder.mkdir()
    script, wanted = page_script(folder)
    (folder / "page.py").write_text(script, encoding="utf-8")
    env = {**environment(setting), "PYTHONPATH": str(PACKAGE / "src")}
    words = [PYTHON if has_module("openpyxl") else sys.executable, "-B", "page.py"]
    done = subprocess.run(words, cwd=folder, env=env, capture_output=True, text=True)
    want(done.returncode, 0, f"the status of the page's lines: {done.stderr[-2000:]}")
    want(done.stdout.split("--\n")[:-1], wanted, "what the page's lines print")
    check_verdicts(folder, wanted)


def cases(setting: Setting, folder: Path) -> Cases:
    yield Case("python: README", lambda: check_readme(setting, folder / "python_readme"))
    for file in sorted((PACKAGE / "tests").glob("test_*.py")):
        yield Case(f"python: {file.stem}", lambda file=file: check_file(setting, file))
    yield Case("python: types", lambda: check_types(folder / "python_types"))
    yield Case("python: wheel", lambda: check_wheel(setting, folder / "python_wheel"))
    yield Case("python: document", lambda: check_document(setting, folder / "python_document"))
