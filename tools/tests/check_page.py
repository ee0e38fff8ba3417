"""The page: its program answers as the native one does, byte for byte, under node and in a browser;
its buttons, keys and marks do what they say; a new user finds the way; it needs no mouse."""

from __future__ import annotations

import base64
import json
import os
import random
import shutil
import subprocess
import threading
from collections.abc import Iterator
from concurrent.futures import ThreadPoolExecutor
from dataclasses import dataclass
from functools import cache
from pathlib import Path

from browser import (
    DELETE,
    ENTER,
    LEFT,
    RIGHT,
    TAB,
    Page,
    made_module,
    made_page,
    needed,
    opened,
)
from geost.program import Program
from harness import TOOLS, TOP, Case, Cases, Failed, Setting, want, want_in

EXAMPLES = TOP / "examples"
RANDOM_RUNS = 500
MOST_STOPPING = 10_000  # milliseconds until a search has stopped, on a busy machine
MOST_LOOPS = 12  # of ten million steps, for a picture of 200 boxes
SMALL = ("rack_of_four", "schedule", "kitchen", "too_narrow", "corners_in_a_container", "six_drums")
HARD = "large/container_from_the_smallest"
MARKS = "az09 ;:.,[]()@$#<=>-\u00e9\n"
WARMING = threading.Lock()


@dataclass(frozen=True)
class Run:
    """Words and the input of one run."""

    words: tuple[str, ...]
    text: str


@dataclass(frozen=True)
class Printed:
    status: int
    text: str


def read(name: str) -> str:
    return (EXAMPLES / name).read_text(encoding="utf-8")


def native(program: Program, run: Run) -> Printed:
    answer = program.ask(list(run.words), run.text.encode())
    return Printed(answer.status, answer.text)


def natives(setting: Setting, runs: list[Run]) -> list[Printed]:
    """What the native program prints for each run."""
    with ThreadPoolExecutor(setting.processors) as pool:
        return list(pool.map(lambda run: native(setting.program, run), runs))


# Runs


def mutated(text: str, chance: random.Random) -> str:
    """The text with a sign changed, a piece left out, or a word twice."""
    at = chance.randrange(len(text))
    match chance.randrange(3):
        case 0:
            return text[:at] + chance.choice(MARKS) + text[at + 1 :]
        case 1:
            return text[:at] + text[at + chance.randrange(1, 30) :]
    words = text.split(" ")
    place = chance.randrange(len(words))
    return " ".join([*words[:place], words[place], *words[place:]])


def random_run(chance: random.Random, texts: list[str]) -> Run:
    """A run of any command, on an example as it stands or changed at random."""
    text = chance.choice(texts)
    if chance.random() < 0.7:
        text = mutated(text, chance)
    steps = str(chance.choice([1, 7, 60, 1000]))
    layout = "layout\n" + "".join(f"{chance.choice('abc')} as s at {n}\n" for n in range(3))
    return chance.choice(
        [
            Run(("show",), text),
            Run(("first", steps), text),
            Run(("all", str(chance.randrange(1, 6)), steps), text),
            Run(("judge",), text + layout),
            Run(("draw",), text + layout),
            Run(("check",), text + "none\ndead 1\nqed\n"),
            Run(("make", str(chance.randrange(2**31)), "160"), ""),
            Run((chance.choice(["", "first", "show me", "all 1"]),), text),
        ]
    )


@cache
def random_runs() -> list[Run]:
    chance = random.Random("runs of the page")
    texts = [read(f"{name}.geost") for name in SMALL]
    return [random_run(chance, texts) for _ in range(RANDOM_RUNS)]


@cache
def wanted(setting: Setting) -> list[Printed]:
    return natives(setting, random_runs())


def wanted_once(setting: Setting) -> list[Printed]:
    with WARMING:
        return wanted(setting)


def compare(runs: list[Run], found: list[Printed], expected: list[Printed]) -> None:
    want(len(found), len(expected), "the number of runs")
    for run, one, other in zip(runs, found, expected):
        if one != other:
            raise Failed(f"{run.words}: {one} in place of {other}, on\n{run.text}")


def check_node(setting: Setting, folder: Path) -> None:
    """Random runs under node, all in one process."""
    needed("node", shutil.which("node") is not None)
    module = made_module()
    file = folder / "runs.json"
    runs = [{"words": run.words, "text": run.text} for run in random_runs()]
    file.write_text(json.dumps({"module": str(module), "runs": runs}), encoding="utf-8")
    driver = str(TOOLS / "tests" / "run_module.js")
    done = subprocess.run(["node", driver, str(file)], stdout=subprocess.PIPE, timeout=300)
    want(done.returncode, 0, "the status of node")
    printed = [
        Printed(one["status"], base64.b64decode(one["output"]).decode())
        for one in json.loads(done.stdout)
    ]
    compare(random_runs(), printed, wanted_once(setting))


def check_command_line(setting: Setting) -> None:
    """tools/page/run gives the module's answers as a command line does."""
    needed("node", shutil.which("node") is not None)
    module = made_module()
    text = read("schedule.geost").encode()
    for words in (["first", "1000"], ["first"], ["show"]):
        run = subprocess.run(
            [str(TOOLS / "page" / "run"), *words],
            input=text,
            stdout=subprocess.PIPE,
            env={**os.environ, "GEOST_WASM": str(module)},
        )
        answer = setting.program.ask(words, text)
        want((run.stdout.decode(), run.returncode), (answer.text, answer.status), " ".join(words))


def in_page(page: Page, runs: list[Run]) -> list[Printed]:
    """What the program in the page prints for each run."""
    found = page.later(
        "const found = []; for (const { words, text } of given[0]) {"
        "  const run = await Commands.quick.run(words, text);"
        "  found.push([run.status, run.text, run.fault || '']); } return found;",
        [{"words": run.words, "text": run.text} for run in runs],
    )
    return [Printed(status, text + fault) for status, text, fault in found]


def check_random(setting: Setting) -> None:
    """Random runs in the page."""
    expected = wanted_once(setting)
    with opened(made_page()) as page:
        compare(random_runs(), in_page(page, random_runs()), expected)


def example_runs(setting: Setting) -> Iterator[Run]:
    """Every example through every command."""
    for file in sorted(EXAMPLES.glob("*.geost")):
        text = file.read_text(encoding="utf-8")
        first = Run(("first", "5000"), text)
        yield from (first, Run(("show",), text), Run(("all", "2", "5000"), text))
        answer = native(setting.program, first)
        if answer.status == 0:
            token = answer.text.split()[-1]
            yield from (Run(("judge",), text + answer.text), Run(("draw",), text + answer.text))
            yield Run(("all", "2", "5000", token), text)
        if answer.status == 1:
            yield Run(("check",), text + answer.text)
    yield Run(("make", "1", "160"), "")


def check_examples(setting: Setting) -> None:
    runs = list(example_runs(setting))
    expected = natives(setting, runs)
    with opened(made_page()) as page:
        compare(runs, in_page(page, runs), expected)


# Buttons, keys and marks


def check_first(setting: Setting) -> None:
    """`first`, the picture, pages of all layouts, the derivation of `none`, more steps."""
    with opened(made_page(), "#warehouse") as page:
        page.told("the text is a problem")
        page.press("first", "the first layout")
        want(
            page.plan(),
            native(setting.program, Run(("first", "100000"), read("warehouse.geost"))).text,
            "the plan",
        )
        check_pages(setting, page)
        page.write(read("too_narrow.geost"))
        page.press("first", "no layout keeps all rules")
        page.picture("none")
        page.click("#checkit")
        page.told("the derivation is valid")
        page.write(read("kitchen.geost"))
        page.script("document.getElementById('steps').value = '2';")
        page.press("first", "2 steps did not suffice")
        page.click("#more")
        page.told("the first layout")
        want(page.script("return document.getElementById('steps').value;"), "20", "the steps")


def check_pages(setting: Setting, page: Page) -> None:
    page.script("document.getElementById('page').value = '3';")
    page.press("all", "layouts 1 to 3")
    wanted_pages = native(setting.program, Run(("all", "6", "100000"), read("warehouse.geost")))
    blocks = [
        "layout\n" + block
        for block in wanted_pages.text.rpartition("more\n")[0].split("layout\n")[1:]
    ]
    want(page.plan(), blocks[0], "the first layout of the first page")
    page.press("next", "layouts 4 to 6")
    page.click("#pages [data-at='1']")
    page.picture("pages")
    want(page.plan(), blocks[4], "the second layout of the second page")


def check_refusal(setting: Setting) -> None:
    """A fault is marked at its place while it is written, with what may be meant."""
    with opened(made_page(), "#warehouse") as page:
        page.told("the text is a problem")
        text = read("warehouse.geost").replace("as a_x, a_y at", "as a_x, a_z at", 1)
        page.write(text)
        page.told("refused, unknown")
        place = int(native(setting.program, Run(("show",), text)).text.split()[1])
        marks = page.script(
            "const editor = Editors.problem();"
            "return editor.getAllMarks().filter((mark) => mark.className === 'fault')"
            "  .map((mark) => editor.indexFromPos(mark.find().from));"
        )
        want(marks, [place], "the marked place")
        page.write(read("warehouse.geost"), "layout\na1 as a_q at 0 0 0\n")
        want_in("plan, line 2, column 7", page.told("refused, unknown"))


def check_words(setting: Setting) -> None:
    """Any words of the command line."""
    with opened(made_page(), "#schedule") as page:
        page.told("the text is a problem")
        page.find("#words").send_keys("show", ENTER)
        page.told("with status 0")
        shown = page.script("return document.querySelector('#flat pre').textContent;")
        want(
            shown,
            native(setting.program, Run(("show",), read("schedule.geost"))).text,
            "what is shown",
        )
        page.find("#words").clear()
        page.find("#words").send_keys("first many", ENTER)
        page.told("bad words")
        page.find("#words").clear()
        page.find("#words").send_keys("all 1 1000", ENTER)
        page.told("all 1 1000, in")
        want_in("cut as three_hours at 0 0", page.plan())
        check_loading(page)


def check_loading(page: Page) -> None:
    """An answer that lists objects in an order makes the steps of the picture go by it."""
    page.later("await Commands.showAnswer('order\\nweld\\ncut\\npack\\ntest\\npaint\\ndrill\\n');")
    page.script(
        "const step = document.getElementById('step'); step.value = 2;"
        "step.dispatchEvent(new Event('input'));"
    )
    names = page.script(
        "return [...document.querySelectorAll('#flat g.thing')].map((it) => it.dataset.name);"
    )
    want(sorted(names), ["cut", "weld"], "the first two that come in")


def check_drag(setting: Setting) -> None:
    """An object that is dragged is judged at once, also by keys, and put back."""
    with opened(made_page(), "#kitchen") as page:
        page.told("the text is a problem")
        page.press("first", "the first layout")
        line = next(line for line in page.plan().split("\n") if line.startswith("stove"))
        page.drag("#flat g[data-name=stove]", 300, 0)
        page.told("broken")
        moved = next(line for line in page.plan().split("\n") if line.startswith("stove"))
        if int(moved.split()[-2]) <= int(line.split()[-2]):
            raise Failed(f"{line} became {moved}")
        broken = native(
            setting.program, Run(("judge",), read("kitchen.geost") + page.plan())
        ).text.split()[1]
        want_in(broken, page.message())
        page.picture("dragged")
        # what was dragged is picked
        while next(one for one in page.plan().split("\n") if one.startswith("stove")) != line:
            page.keys(LEFT)
        page.told("every rule holds")


def check_link(setting: Setting) -> None:
    """A link carries the problem and the plan."""
    text = read("kitchen.geost").replace("sink", "basin")
    plan = native(setting.program, Run(("first", "1000"), text)).text
    with opened(made_page(), "#kitchen") as page:
        page.told("the text is a problem")
        page.write(text, plan)
        page.told("every rule holds")
        page.press("link", "the link that carries")
        address = page.script("return location.hash;")
    with opened(made_page(), address) as page:
        page.until(lambda: "basin" in page.script("return Editors.problemText();"), "the problem")
        want(page.script("return Editors.problemText();"), text, "the problem")
        want(page.plan(), plan, "the plan")


SAVED = """
const make = URL.createObjectURL;
let saved = null;
URL.createObjectURL = (blob) => { saved = blob; return make.call(URL, blob); };
document.getElementById('save').click();
URL.createObjectURL = make;
return saved.text();
"""


def check_files(setting: Setting, folder: Path) -> None:
    """A file with a problem and a plan is opened, and saved again; an example is chosen."""
    file = folder / "mine.geost"
    text, plan = read("schedule.geost"), read("schedule_wet.plan")
    file.write_text(text + plan, encoding="utf-8")
    with opened(made_page(), "#kitchen") as page:
        page.told("the text is a problem")
        page.find("#file").send_keys(str(file))
        page.told("broken dry")
        want(page.script("return document.title;"), "mine", "the title")
        saved = page.later(SAVED)
        want((text in saved, plan in saved), (True, True), "what is saved has both")
        page.script("document.getElementById('message').textContent = '';")
        page.find("#example").send_keys("warehouse")
        page.told("12 objects")
        want(page.script("return Editors.problemText();"), read("warehouse.geost"), "the example")


STOPPED = """
document.getElementById('steps').value = '1000000000000';
const said = () => document.getElementById('message').innerText;
const until = async (words) => {
  while (!said().includes(words)) await new Promise((done) => setTimeout(done, 10));
};
Commands.first();
await until('1000000000000');
await new Promise((done) => setTimeout(done, 700));
const began = performance.now();
document.getElementById('stop').click();
await until('stopped');
return performance.now() - began;
"""


def check_stop(setting: Setting) -> None:
    """A search of 10^12 steps is stopped within ten seconds, and the page answers again."""
    with opened(made_page(), "#kitchen") as page:
        page.told("the text is a problem")
        page.write(read(f"{HARD}.geost"))
        page.told("the text is a problem")
        # the best of three, since other processes may take the processor
        best = min(page.later(STOPPED) for _ in range(3))
        if best > MOST_STOPPING:
            raise Failed(f"it took {best:.0f} ms to stop")
        page.script("document.getElementById('steps').value = '1000';")
        page.write(read("schedule.geost"))
        page.press("first", "the first layout")


def boxes_200() -> tuple[str, str]:
    """200 boxes in a room of 20 by 10 by 4."""
    objects = [f"object o{n} as s at 0..39 0..19 0..4 ;" for n in range(200)]
    places = [(n % 20 * 2, n // 20 % 5 * 2, n // 100) for n in range(200)]
    lines = [f"o{n} as s at {x} {y} {z}" for n, (x, y, z) in enumerate(places)]
    head = ["geost 1 dims 3", "shape s box 0 0 0 size 1 1 1 ;"]
    tail = ["rule room : within 0..39 0..19 0..4 ;", "end", ""]
    return "\n".join([*head, *objects, *tail]), "\n".join(["layout", *lines, ""])


PAINTED = """
const timed = (work) => {
  const began = performance.now();
  work();
  return performance.now() - began;
};
let sum = 0;
const count = () => { for (let n = 0; n < 1e7; n++) sum = (sum * 3 + n) | 0; };
const paint = () => { Turning.turn(0.02, 0); Picture.paintNow(true); };
const best = [Infinity, Infinity];
for (let turn = 0; turn < 30; turn++) {
  best[0] = Math.min(best[0], timed(paint));
  best[1] = Math.min(best[1], timed(count));
}
return [best[0] / best[1], ...best, sum];
"""


def check_turning(setting: Setting) -> None:
    """200 boxes turn: a picture of them takes at most as long as twelve loops of ten million steps,
    each of which takes some ten milliseconds where nothing else runs."""
    problem, plan = boxes_200()
    with opened(made_page(), "#kitchen") as page:
        page.told("the text is a problem")
        page.write(problem, plan)
        page.told("every rule holds")
        loops, *_ = page.later(PAINTED)
        if loops > MOST_LOOPS:
            raise Failed(f"a picture of 200 boxes takes as long as {loops:.1f} loops")


# A new user


RACK = (
    "geost 1 dims 3\n"
    "shape crate box 0 0 0 size 2 1 1 ;\n"
    + "".join(f"object c{n} as crate at 0..5 0..1 0..1 ;\n" for n in range(1, 11))
    + "rule rack : within 0..5 0..1 0..1 ;\n"
    + "rule free : apart ;\n"
    + "end\n"
)
# the crates fill the rack from its lowest corner: x3 grows first, then x2, then x1
PLACES = [(x, y, z) for x in (0, 2, 4) for y in (0, 1) for z in (0, 1)]


def check_new_user(setting: Setting) -> None:
    """A rack of ten crates is written, a mistake is marked, the plan is seen, a crate is moved, and
    the rule that breaks is named."""
    with opened(made_page(), "#kitchen") as page:
        page.told("the text is a problem")
        page.click("#problem .CodeMirror-line")
        page.with_control("a")
        page.keys(DELETE)
        written = RACK.replace("c3 as crate", "c3 as crat")
        front, mark, rest = written.partition("object c4")
        page.keys(front)
        page.insert(mark + rest)
        said = page.told("refused, unknown")
        want_in("line 5, column 14", said)
        want_in("did you mean crate?", said)
        page.picture("mistake")
        page.script("const e = Editors.problem(); e.focus(); e.setCursor({ line: 4, ch: 17 });")
        page.keys("e")
        page.told("the text is a problem: 10 objects, 2 rules, 3 dimensions")
        want(page.script("return Editors.problemText();"), RACK, "what was written")
        page.press("first", "the first layout")
        lines = [f"c{n + 1} as crate at {x} {y} {z}" for n, (x, y, z) in enumerate(PLACES[:10])]
        want(page.plan().split("\n")[1:11], lines, "the plan")
        page.picture("plan")
        page.click("[data-view=plan]")
        page.click("#flat g[data-name=c10]")
        page.click("[data-view=solid]")
        page.keys(LEFT)
        page.told("broken free")
        want_in("c6 and c10", page.script("return document.getElementById('verdict').innerText;"))
        page.picture("moved")
        page.keys(RIGHT)
        page.told("every rule holds")


# Without a mouse, and read aloud

NAMELESS = """
const labelled = (node) => {
  const name = node.getAttribute('aria-label') || node.title || node.textContent.trim();
  return name || (node.labels && node.labels.length) || node.getAttribute('aria-labelledby');
};
const shown = (node) => node.offsetParent !== null;
return [...document.querySelectorAll('button, select, input, textarea, canvas, svg')]
  .filter((node) => shown(node) && !labelled(node)).map((node) => node.outerHTML.slice(0, 120));
"""


def check_reading(setting: Setting) -> None:
    """Each control has a name, the plan is there as a table, and the keyboard alone suffices."""
    with opened(made_page(), "#warehouse") as page:
        page.told("the text is a problem")
        page.script("Editors.problem().focus();")
        page.with_control(ENTER)
        page.told("the first layout")
        for view in ("solid", "plan", "layers", "sides", "time", "table"):
            page.click(f"[data-view={view}]")
            want(page.script(NAMELESS), [], f"controls without a name beside the view {view}")
            rows = page.script("return document.querySelectorAll('table.objects tbody tr').length;")
            want(rows, 12, f"rows of the table beside the view {view}")
        want_in("a1 a_x 0 0 0", " ".join(page.find("table.objects tbody tr").text.split()))
        check_tabs(page)


def check_tabs(page: Page) -> None:
    """Tab goes through the editors and the controls, and back to where it was."""
    page.script("document.getElementById('example').focus();")
    seen: list[str] = []
    for _ in range(60):
        seen.append(
            page.script(
                "const e = document.activeElement; return e.id || e.dataset.view || e.tagName;"
            )
        )
        page.keys(TAB)
    wanted_ids = {
        "open",
        "save",
        "link",
        "print",
        "first",
        "steps",
        "all",
        "judge",
        "words",
        "table",
        "colour",
        "step",
    }
    want(wanted_ids - set(seen), set(), "controls that Tab does not reach")
    want("TEXTAREA" in seen, True, "the editor is reached by Tab")


def check_print(setting: Setting) -> None:
    """The sheet for print has the picture, the layers with the objects, the table and the rules."""
    with opened(made_page(), "#kitchen") as page:
        page.told("the text is a problem")
        page.write(read("warehouse.geost"), read("warehouse.plan"))
        page.told("every rule holds")
        page.click("#print")
        paper = page.script("return document.getElementById('paper').textContent;")
        for part in ("layer x3 = 0", "a1 as a_x at 0 0 0", "rule heavy"):
            want_in(part, paper)
        pieces = page.script("return document.querySelectorAll('#paper .sheets g.thing').length;")
        # seven objects reach into the lowest layer, seven into the next, and two into the highest
        want(pieces, 7 + 7 + 2, "objects in the layers")


CHECKS = {
    "random runs in a browser": check_random,
    "examples through every command": check_examples,
    "first, all, next, none, more steps": check_first,
    "refusals": check_refusal,
    "any words": check_words,
    "a drag": check_drag,
    "a link": check_link,
    "a stop": check_stop,
    "200 boxes turn": check_turning,
    "a new user": check_new_user,
    "keyboard and screen reader": check_reading,
    "print": check_print,
}


def cases(setting: Setting, folder: Path) -> Cases:
    own = folder / "page"
    own.mkdir()
    yield Case("page: random runs under node", lambda: check_node(setting, own))
    yield Case("page: command line under node", lambda: check_command_line(setting))
    yield Case("page: files", lambda: check_files(setting, own))
    for name, check in CHECKS.items():
        yield Case(f"page: {name}", lambda check=check: check(setting))
