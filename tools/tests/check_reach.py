"""The least extent, rules that refuse together and loading orders, against a second meaning: random problems and plans, of
which all places are listed, and what is worked out by hand."""

from __future__ import annotations

import random
from concurrent.futures import ThreadPoolExecutor
from dataclasses import replace

import oracle
from check_absent import random_plan, random_problem
from geost.text import Problem, print_layout, print_problem, read_layout, read_problem
from harness import Case, Cases, Setting, first_of, run_tool, want, want_in

PROBLEMS = 300
MOST_PLACES = 20_000
STEPS = "100000"
LINE = """geost 1 dims 1 shape s box 0 size 2 ; object a as s at 0..3 ; object b as s at 0..3 ;
rule r : apart ; end
"""
ROWS = """geost 1 dims 2 shape s box 0 0 size 2 1 box 0 1 size 1 1 ; shape t box 0 0 size 1 1 ;
object lamp as t at 0..5 0..5 ; object sofa as s at 0..5 0..5 ; object chair as t at 0..5 0..5 ; end
"""
# no object stands at 9, and six boxes of two cells have no room in ten, which takes cases to see
TIGHT = """geost 1 dims 1 shape s box 0 size 2 ;
object a as s at 0..8 ; object b as s at 0..8 ; object c as s at 0..8 ;
object d as s at 0..8 ; object e as s at 0..8 ; object f as s at 0..8 ;
rule far : a.x1 = 9 ;
rule free : apart ;
end
"""


# Against the second meaning


def extent_asked(setting: Setting, problem: Problem, dimension: int) -> str | None:
    """What is wrong with the least extent of a problem; None where nothing is."""
    text = print_problem(problem)
    answer = setting.program.ask(["best", str(dimension), STEPS], text.encode())
    try:
        best = oracle.least_extent(problem, dimension, MOST_PLACES)
    except RuntimeError:
        return None
    if best is None:
        return None if answer.text.startswith("none\n") else f"{text}{answer.text} in place of none"
    end, layout = best
    head = f"best {'-' if end is None else end}\n{print_layout(layout)}"
    if not answer.text.startswith(head):
        return f"{text}{answer.text} in place of\n{head}"
    if end is None:
        return None
    return certificate_asked(setting, f"{text}\n{answer.text[answer.text.index('none'):]}", dimension, end)


def certificate_asked(setting: Setting, text: str, dimension: int, end: int) -> str | None:
    """The derivation shows that no layout ends before, and not that none ends there."""
    words = ["check_best", str(dimension)]
    said = setting.program.ask([*words, str(end)], text.encode()).text
    if said != "yes\n":
        return f"{text}the derivation is checked with {said!r}"
    more = setting.program.ask([*words, str(end + 1)], text.encode()).text
    return None if more.startswith("no ") else f"{text}one more is checked with {more!r}"


def check_least(setting: Setting) -> None:
    problems = [random_problem(f"extent {number}") for number in range(PROBLEMS)]
    asked = [(problem, d + 1) for problem in problems for d in range(problem.dims)]
    with ThreadPoolExecutor(setting.processors) as pool:
        wrong = [it for it in pool.map(lambda it: extent_asked(setting, *it), asked) if it]
    want(wrong[:1], [], f"{len(wrong)} of {len(asked)} answers")


def core_asked(setting: Setting, problem: Problem) -> str | None:
    """What is wrong with the rules that refuse; None where nothing is."""
    text = print_problem(problem)
    answer = setting.program.ask(["why", STEPS], text.encode())
    try:
        found = oracle.first_layout(problem, MOST_PLACES)
        names = oracle.core(problem, MOST_PLACES) if found is None else []
    except RuntimeError:
        return None
    if found is not None:
        wanted = (1, print_layout(found))
        return None if (answer.status, first_of(answer.text)) == wanted else f"{text}{answer.text}"
    head = [f"core {len(names)}", *(f"rule {name}" for name in names)]
    front, mark, derivation = answer.text.partition("\nnone\n")
    lines = front.splitlines()
    if lines[: len(head)] != head or not mark:
        return f"{text}{answer.text} in place of {head}"
    return without_asked(setting, problem, names, front, derivation)


def without_asked(
    setting: Setting, problem: Problem, names: list[str], front: str, derivation: str
) -> str | None:
    """Without each rule there is the layout, and with those that are left the derivation is valid."""
    kept = [rule for rule in problem.rules if rule.name in names]
    blocks = dict(block.split("\n", 1) for block in front.split("\nwithout ")[1:])
    for name in names:
        fewer = replace(problem, rules=tuple(rule for rule in kept if rule.name != name))
        broken = oracle.broken_rules(fewer, read_layout(f"{blocks[name]}\n".encode()))
        if broken:
            return f"{print_problem(problem)}without {name} the layout breaks {broken}"
    text = f"{print_problem(replace(problem, rules=tuple(kept)))}none\n{derivation}"
    said = setting.program.ask(["check"], text.encode()).text
    return None if said == "yes\n" else f"{text}the derivation is checked with {said!r}"


def check_cores(setting: Setting) -> None:
    problems = [random_problem(f"core {number}") for number in range(PROBLEMS)]
    with ThreadPoolExecutor(setting.processors) as pool:
        wrong = [it for it in pool.map(lambda it: core_asked(setting, it), problems) if it]
    want(wrong[:1], [], f"{len(wrong)} of {len(problems)} answers")


def check_loading(setting: Setting) -> None:
    kinds = {"order": 0, "cycle": 0}
    for number in range(PROBLEMS):
        problem = random_problem(f"loading {number}")
        plan = random_plan(random.Random(f"loading plan {number}"), problem)
        for d in range(problem.dims):
            word, names = oracle.loading(problem, plan, d + 1)
            kinds[word] += 1
            text = print_problem(problem) + print_layout(plan)
            given = setting.program.ask(["load", str(d + 1)], text.encode()).text
            want(given, "\n".join([word, *names, ""]), text)
    want([kind for kind, count in kinds.items() if count < PROBLEMS // 10], [], f"{kinds}")


# By hand


def check_words(setting: Setting) -> None:
    """Two boxes of two cells take four cells; there is one dimension."""
    best = setting.program.ask(["best", "1", "4"], LINE.encode()).text
    want_in("best 4\nlayout\na as s at 0\nb as s at 2\ntoken 1,0/1,2\nnone\n", best)
    want(setting.program.ask(["best", "1", "3"], LINE.encode()).text, "budget 3\n", "three steps")
    for words in (["best", "2", "4"], ["check_best", "2", "4"], ["load", "2"]):
        answer = setting.program.ask(words, LINE.encode())
        want((answer.text, answer.status), ("bad dimension\n", 9), " ".join(words))


def check_explained(setting: Setting) -> None:
    printed, _ = run_tool("explain", setting, ["best", "1", "4", "-"], LINE)
    want_in("no layout ends before 4 in dimension 1", printed)
    printed, status = run_tool("explain", setting, ["best", "2", "4", "-"], LINE)
    want(status, 9, "the status")
    want_in("the problem has 1 dimensions, and 2 is none of them", printed)
    plan = "layout\nlamp as t at 3 0\nsofa as s at 0 0\nchair as t at 1 1\n"
    printed, _ = run_tool("explain", setting, ["load", "2", "-"], ROWS + plan)
    want(printed, "order\nlamp\nsofa\nchair\n", "the order")
    crossed = "layout\nlamp as t at 5 5\nsofa as s at 0 0\nchair as t at 0 0\n"
    printed, status = run_tool("explain", setting, ["load", "1", "-"], ROWS + crossed)
    want(status, 1, "the status")
    want_in("cycle\nsofa\nchair\n", printed)
    want_in("`chair` has to go in before `sofa`: in dimension 1 the cells 0..1 0..0 of `sofa`", printed)


def check_why(setting: Setting) -> None:
    """Without one rule there is no layout either, so that rule goes; where a round is spent the
    rules that are left refuse all the same."""
    printed, status = run_tool("explain", setting, ["why", "1000000", "-"], TIGHT)
    want(status, 0, "the status")
    want_in("core 1\nrule free\nwithout free\n", printed)
    want_in("no layout keeps these rules together; without any one", printed)
    printed, status = run_tool("explain", setting, ["why", "10", "-"], TIGHT)
    want(status, 3, "the status of a round that is spent")
    want_in("as many steps do not tell whether each is needed\n    line 4: rule far", printed)
    want_in("1 of 6 objects are enough for that: `a`\n`check` confirms it", printed)
    printed, _ = run_tool("explain", setting, ["why", "1", "-"], TIGHT.replace("= 9", "= 8"))
    want("together" in printed, False, "what is said where the first round is spent")


def check_portfolio(setting: Setting) -> None:
    """The portfolio comes to the same end, which is confirmed."""
    words = ["--best", "1", "--seconds", "20", "--without-z3", "-"]
    printed, status = run_tool("portfolio", setting, words, LINE)
    want(status, 0, "the status")
    want_in("a layout ends at 4\n", printed)
    _, _, answer = printed.partition("best 4\n")
    plan, _, derivation = answer.partition("none\n")
    said = setting.program.ask(["check_best", "1", "4"], f"{LINE}none\n{derivation}".encode()).text
    want(said, "yes\n", "what the program says of it")
    want(setting.program.judge(LINE, plan).text, "good\n", "the layout is judged")
    problem = read_problem(LINE.encode())
    want(oracle.least_extent(problem, 1), (4, oracle.first_layout(problem)), "the second meaning")


def cases(setting: Setting, folder: object) -> Cases:
    yield Case("reach: least extents by a second meaning", lambda: check_least(setting))
    yield Case("reach: loading orders by a second meaning", lambda: check_loading(setting))
    yield Case("reach: rules that refuse by a second meaning", lambda: check_cores(setting))
    yield Case("reach: words and statuses", lambda: check_words(setting))
    yield Case("reach: what tools/explain says", lambda: check_explained(setting))
    yield Case("reach: what tools/explain says of why", lambda: check_why(setting))
    yield Case("reach: the portfolio's least extent", lambda: check_portfolio(setting))
