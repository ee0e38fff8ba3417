"""The front door: the script `geost`, what README and the files beside it say, and the layers."""

from __future__ import annotations

import os
import re
import shutil
import signal
import subprocess
import time
from collections.abc import Iterator
from dataclasses import dataclass
from pathlib import Path

from harness import TOP, Case, Cases, Failed, Setting, hear_interrupts, want, want_in

MOST_README_LINES = 80
LONGEST_WAIT = 30
# what the script says of words that the program does not know
HINTS = {
    "": "no such command (./geost help)",
    "solve": "no such command (./geost help)",
    "first": "digits alone, as in first 1000",
    "first 1e6": "digits alone, as in first 1000",
    "all 10 x": "digits alone, as in first 1000",
    f"first 100 {__file__}": f"./geost first 100 < {__file__}",
}
LAWS, TESTS = "laws", "tests and measurement"
CHANGING = "crates/geo_base/src/lib.rt"

# Stands for the kit's `rt`: builds a program that answers as geost_cli does to an empty word, and
# runs it until it is told to stop. Each build is a line of the file `builds`.
BUILDER = """#!/usr/bin/env bash
set -eu
echo "$*" >>"{builds}"
{fault}
mkdir "$TMPDIR/native"
printf '%s\\n' '#!/usr/bin/env bash' '[ -n "$1" ] || {{ echo bad words; exit 4; }}' \
  'echo "asked $*"; exit 3' >"$TMPDIR/native/program"
chmod +x "$TMPDIR/native/program"
exec sleep 60
"""


@dataclass(frozen=True)
class Said:
    """What a call printed, what it said on standard error, and its status."""

    printed: str
    told: str
    status: int


@dataclass(frozen=True)
class Checkout:
    """A copy of what the script needs, beside a builder that stands for the kit."""

    top: Path

    @property
    def builds(self) -> Path:
        return self.top.parent / "builds"

    def surroundings(self) -> dict[str, str]:
        """The environment in which the builder stands first in the search path."""
        return {**os.environ, "PATH": f"{self.top.parent}{os.pathsep}{os.environ['PATH']}"}

    def call(self, *words: str) -> Said:
        done = subprocess.run(
            [self.top / "geost", *words],
            stdin=subprocess.DEVNULL,
            capture_output=True,
            text=True,
            env=self.surroundings(),
        )
        return Said(done.stdout, done.stderr, done.returncode)

    def built(self) -> int:
        """How often a program was built."""
        return len(self.builds.read_text().splitlines()) if self.builds.exists() else 0


def copy_checkout(folder: Path, fault: str = "") -> Checkout:
    """The script with the code of all crates, and a builder that does `fault` first."""
    top = folder / "check out"
    top.mkdir(parents=True)
    for name in ("geost", "crates.txt", "VERSION"):
        shutil.copy(TOP / name, top / name)
    for crate in crates_by_layer_of((TOP / "crates.txt").read_text()):
        shutil.copytree(TOP / "crates" / crate / "src", top / "crates" / crate / "src")
    shutil.copytree(TOP / "examples" / "large", top / "examples" / "large")
    checkout = Checkout(top)
    builder = folder / "rt"
    builder.write_text(BUILDER.format(builds=checkout.builds, fault=fault))
    builder.chmod(0o755)
    return checkout


def want_unproved(said: Said, what: str) -> None:
    """The answer comes from the kept program, and one line says that it is not proved."""
    want((said.printed, said.status), ("asked first 100\n", 3), what)
    want(said.told.count("\n"), 1, f"lines on standard error, {what}")
    want_in("not proved", said.told)


def check_kept(folder: Path) -> None:
    """The first call builds, the next ones do not, and a change of the code builds again."""
    checkout = copy_checkout(folder)
    want_unproved(checkout.call("first", "100"), "the first call")
    want_unproved(checkout.call("first", "100"), "the second call")
    want(checkout.built(), 1, "builds after two calls")
    (checkout.top / CHANGING).touch()
    want_unproved(checkout.call("first", "100"), "a call behind a file that was touched")
    want(checkout.built(), 1, "builds where no text changed")
    with (checkout.top / CHANGING).open("a") as file:
        file.write("// another line\n")
    want_unproved(checkout.call("first", "100"), "a call behind a file that changed")
    want(checkout.built(), 2, "builds where a text changed")
    named = Path(checkout.call("--program").printed.strip())
    want(named.name, "geost_cli_unproved", "the program that is kept")
    left = [path.name for path in checkout.top.parent.iterdir()]
    want(sorted(left), ["builds", "check out", "rt"], "what is left beside the checkout")


def check_side_by_side(folder: Path) -> None:
    """Of several calls at once one builds."""
    checkout = copy_checkout(folder)
    calls = [
        subprocess.Popen(
            [checkout.top / "geost", "first", "100"],
            stdin=subprocess.DEVNULL,
            stdout=subprocess.PIPE,
            stderr=subprocess.DEVNULL,
            env=checkout.surroundings(),
        )
        for _ in range(3)
    ]
    answers = [call.communicate(timeout=60)[0] for call in calls]
    want(answers, [b"asked first 100\n"] * 3, "the answers")
    want(checkout.built(), 1, "builds of three calls at once")


def check_failed_build(folder: Path) -> None:
    """Where nothing can be built the call fails, says what the builder said, and keeps nothing."""
    checkout = copy_checkout(folder, "echo no such crate >&2; exit 2")
    said = checkout.call("first", "100")
    want((said.printed, said.status), ("", 70), "the answer")
    want_in("no such crate", said.told)
    want(checkout.call("first", "100").status, 70, "the status of a second call")
    want(checkout.built(), 2, "builds")


def check_stopped(folder: Path) -> None:
    """A build that is stopped leaves neither a process nor a program nor a folder behind."""
    pid = folder / "pid"
    rooms = folder / "rooms"
    checkout = copy_checkout(folder, f'echo $$ >"{pid}.new"; mv "{pid}.new" "{pid}"; exec sleep 60')
    rooms.mkdir()
    call = subprocess.Popen(
        [checkout.top / "geost", "first", "100"],
        stdin=subprocess.DEVNULL,
        stdout=subprocess.PIPE,
        stderr=subprocess.DEVNULL,
        env={**checkout.surroundings(), "TMPDIR": str(rooms)},
        preexec_fn=hear_interrupts,
        start_new_session=True,
    )
    until = time.monotonic() + LONGEST_WAIT
    while not pid.exists() and time.monotonic() < until:
        time.sleep(0.05)
    builder = int(pid.read_text())
    os.killpg(call.pid, signal.SIGINT)  # as Ctrl-C does
    want(call.communicate(timeout=LONGEST_WAIT)[0], b"", "what is printed")
    want(call.returncode != 0, True, "a status of failure")
    want(Path(f"/proc/{builder}").exists(), False, "the builder is there still")
    want(list(rooms.iterdir()), [], "folders that are left")
    kept = checkout.top / "crates" / "geost_cli" / "out"
    want([path.name for path in kept.iterdir() if path.suffix != ".lock"], [], "what is kept")


def check_proved(folder: Path) -> None:
    """A program that was built behind the sources answers and says no more; an unproved build in
    its place does not."""
    checkout = copy_checkout(folder)
    want(checkout.call("--proved").status, 1, "the status of --proved where nothing is proved")
    kept = checkout.top / "crates" / "geost_cli" / "out"
    kept.mkdir(exist_ok=True)
    program = kept / "geost_cli"
    write_program(program, "echo proved; exit 1")
    want(checkout.call("first", "100"), Said("proved\n", "", 1), "the answer of the proved program")
    want(checkout.call("--proved"), Said(f"{program}\n", "", 0), "what --proved prints")
    for words, hint in HINTS.items():
        want_in(hint, checkout.call(*words.split()).told)
    want(checkout.built(), 0, "builds")
    write_program(program, "echo unproved; exit # __asan_init")
    want(checkout.call("--proved").status, 1, "the status of --proved for an unproved build")
    want_unproved(checkout.call("first", "100"), "a call where an unproved build took its place")
    write_program(program, "echo proved; exit 1")
    later = time.time() + 60
    os.utime(checkout.top / CHANGING, (later, later))
    want(checkout.call("--proved").status, 1, "the status of --proved behind a change")


def write_program(path: Path, lines: str) -> None:
    path.write_text(f"#!/usr/bin/env bash\n{lines}\n")
    path.chmod(0o755)


# What .ci/run calls beside the kit and `geost`, each with what it says.
STEPS = {
    "examples/check": "true",
    ".ci/try_geost": "echo tried",
    "tools/setup": "echo 'missing: vim (a test)'; exit 1",
    "tools/page/wasm": 'echo a module >"$1"',
    "tools/test": "printf 'skipped: a test: no vim\\n1 skipped\\n9 passed, 0 failed\\n'",
}
GATE = """#!/usr/bin/env bash
mkdir -p crates/geost_cli/out
printf '#!/usr/bin/env bash\n# {mark}\n' >crates/geost_cli/out/geost_cli
chmod +x crates/geost_cli/out/geost_cli
"""


def run_gate(folder: Path, mark: str, **steps: str) -> subprocess.CompletedProcess[str]:
    """Runs .ci/run where the kit builds a program with this mark in it, and some steps say other
    things than usual."""
    checkout = copy_checkout(folder)
    for name, usual in STEPS.items():
        lines = steps.get(Path(name).name, usual)
        (checkout.top / name).parent.mkdir(parents=True, exist_ok=True)
        write_program(checkout.top / name, lines)
    shutil.copy(TOP / ".ci" / "run", checkout.top / ".ci" / "run")
    write_program(folder / "rt", GATE.format(mark=mark).partition("\n")[2])
    return subprocess.run(
        [checkout.top / ".ci" / "run"],
        env={**checkout.surroundings(), "GEOST_CASES": str(folder / "none")},
        capture_output=True,
        text=True,
    )


def check_gate(folder: Path) -> None:
    """The gate names last what was skipped, and neither an unproved build passes in it nor a
    program of which the page's module is not made."""
    done = run_gate(folder / "proved", "proved")
    want(done.returncode, 0, f"the status of the gate: {done.stderr}")
    last = [
        "missing: vim (a test)",
        "skipped: a test: no vim",
        "skipped: acceptance cases: there is no folder of them",
        "2 skipped",
    ]
    want(done.stdout.splitlines()[-4:], last, "the last lines")
    want("page: its module was made of the program in" in done.stdout, True, "the step is named")
    refused = run_gate(folder / "unproved", "__asan_init")
    want(refused.returncode, 1, "the status of the gate with an unproved build")
    want("tried" in refused.stdout, False, "whether it went on")
    without = run_gate(folder / "without", "proved", wasm="exit 1")
    want(without.returncode, 1, "the status of the gate without the page's module")
    want("passed" in without.stdout, False, "whether it went on to the tests")


def check_help(setting: Setting) -> None:
    """The script answers `help`, which names each command, and the version."""
    printed = [run_script(word) for word in ("help", "--help", "-h")]
    want(printed, [printed[0]] * 3, "what help prints")
    named = set(re.findall(r"geost ([a-z_]+)", printed[0])) - {"help", "places", "prove"}
    searches = {"first", "all", "best", "make", "spread", "why"}
    commands = searches | {"judge", "check", "check_best", "draw", "load", "show"}
    commands |= {"to_json", "from_json", "first_json"}
    want(named, commands, "commands of the help")
    version = (TOP / "VERSION").read_text().strip()
    want(run_script("--version").splitlines()[0], f"geost {version}", "the version")
    for word in ("help", "--help", "--version"):
        answer = setting.program.ask([word], b"")
        want(answer.text, "bad words\n", f"the program's answer to {word}")


def run_script(*words: str) -> str:
    done = subprocess.run([TOP / "geost", *words], stdin=subprocess.DEVNULL, capture_output=True)
    want(done.returncode, 0, f"the status of geost {' '.join(words)}")
    return done.stdout.decode()


# What the documents at the top say


def check_readme() -> None:
    """README is short, and begins with the smallest example and its answer."""
    readme = (TOP / "README.md").read_text()
    if len(readme.splitlines()) >= MOST_README_LINES:
        raise Failed(f"README has {len(readme.splitlines())} lines")
    blocks = re.findall(r"(?:^    .*\n)+", readme, re.MULTILINE)
    texts = [re.sub("^    ", "", block, flags=re.MULTILINE) for block in blocks]
    example = TOP / "examples" / "two_boxes_on_a_line"
    want(texts[0], example.with_suffix(".geost").read_text(), "the first block of README")
    want(texts[1], example.with_suffix(".answer").read_text(), "the second block of README")


def check_version() -> None:
    """CHANGELOG begins with the version, or with what comes behind it."""
    version = (TOP / "VERSION").read_text()
    want(re.fullmatch(r"\d+\.\d+\.\d+\n", version) is not None, True, f"a version: {version!r}")
    headings = re.findall(r"^## (.*)$", (TOP / "CHANGELOG.md").read_text(), re.MULTILINE)
    newest = [heading for heading in headings if heading != "Not released yet"][0]
    want(newest, version.strip(), "the newest version of CHANGELOG")


def check_notices() -> None:
    """NOTICES names each library of others that a crate of the program stands on."""
    crates = crates_by_layer_of((TOP / "crates.txt").read_text())
    cited = {library for crate in crates.values() for library in crate.below}
    others = sorted(cited - set(crates) - {"core", "std_alloc"})
    notices = (TOP / "NOTICES.md").read_text()
    unnamed = [name for name in others if f"- `{name}`" not in notices]
    want(unnamed, [], "libraries without a notice")


def check_measurements() -> None:
    """CONTRIBUTING names each measurement of bench/."""
    text = (TOP / "CONTRIBUTING.md").read_text()
    scripts = [path for path in (TOP / "bench").iterdir() if path.is_file() and not path.suffix]
    unnamed = [path.name for path in scripts if not re.search(rf"`(bench/)?{path.name}`", text)]
    want(sorted(unnamed), [], "measurements that are not named")


# Layers


@dataclass(frozen=True)
class Listed:
    """A crate of crates.txt with its layer and the libraries that it stands on."""

    layer: str
    below: tuple[str, ...]


def crates_by_layer_of(listing: str) -> dict[str, Listed]:
    found: dict[str, Listed] = {}
    layer = ""
    for line in listing.splitlines():
        name, colon, below = line.partition(":")
        if line.startswith("#"):
            layer = line.strip("# ")
        elif colon:
            found[name] = Listed(layer, tuple(below.split()))
    return found


def layers_of(crates: dict[str, Listed]) -> dict[str, list[str]]:
    found: dict[str, list[str]] = {}
    for name, crate in crates.items():
        found.setdefault(crate.layer, []).append(name)
    return found


def described_layers() -> Iterator[tuple[str, list[str]]]:
    """The headings of docs/ARCHITECTURE.md that list crates, in small letters, with the crates."""
    text = (TOP / "docs" / "ARCHITECTURE.md").read_text()
    for section in re.split(r"^## ", text, flags=re.MULTILINE)[1:]:
        heading, _, body = section.partition("\n")
        names = re.findall(r"^- `(\w+)`: ", body, re.MULTILINE)
        if names:
            yield heading.lower(), names


def check_layers() -> None:
    """crates.txt and docs/ARCHITECTURE.md have the same layers."""
    layers = layers_of(crates_by_layer_of((TOP / "crates.txt").read_text()))
    want(dict(described_layers()), layers, "the layers of docs/ARCHITECTURE.md")
    want([name for name, _ in described_layers()], list(layers), "the order of the layers")
    folders = sorted(path.name for path in (TOP / "crates").iterdir() if path.is_dir())
    want(sorted(name for names in layers.values() for name in names), folders, "the crates")


def check_order_of_layers() -> None:
    """Each crate stands on crates of its own layer and of those above it in the list."""
    crates = crates_by_layer_of((TOP / "crates.txt").read_text())
    places = {layer: place for place, layer in enumerate(layers_of(crates))}
    wrong = [
        f"{name} on {below}"
        for name, crate in crates.items()
        for below in crate.below
        if below in crates and LAWS not in (crate.layer, crates[below].layer)
        if places[crates[below].layer] > places[crate.layer]
    ]
    want(wrong, [], "crates that stand on a higher layer")
    cited = [other for crate in crates.values() for other in crate.below if is_test(crates, other)]
    want(cited, [], "crates of tests that others stand on")


def is_test(crates: dict[str, Listed], name: str) -> bool:
    return name in crates and crates[name].layer == TESTS


def check_ways() -> None:
    """Each call of a table of docs/ARCHITECTURE.md is a function of the file beside it."""
    text = (TOP / "docs" / "ARCHITECTURE.md").read_text()
    rows = re.findall(r"^\| [\d.]* ?\| `(\w+)` \| `([\w/.]+)` \|", text, re.MULTILINE)
    if len(rows) < 20:
        raise Failed(f"the tables have {len(rows)} rows")
    wrong = [f"{call} in {file}" for call, file in rows if not has_function(file, call)]
    want(wrong, [], "calls that do not stand in their file")


def has_function(name: str, call: str) -> bool:
    file = TOP / "crates" / name
    return file.is_file() and re.search(rf"\bfn {call}\b", file.read_text()) is not None


def defined_names() -> Iterator[str]:
    """The names at the front of each item of docs/DEFINITIONS.md."""
    text = (TOP / "docs" / "DEFINITIONS.md").read_text()
    for item in re.findall(
        r"^- ((?:`[^`]+`(?: \([^)]*\))?,?\s+(?:and )?)*`[^`]+`)", text, re.MULTILINE
    ):
        yield from re.findall(r"`(\w+)`", item)


def check_definitions() -> None:
    """Each name that docs/DEFINITIONS.md explains stands in the definitions or in the code."""
    files = [*(TOP / "crates").glob("*/specs/**/*.antt"), *(TOP / "crates").glob("*/src/**/*.rt")]
    known = {word for file in files for word in re.findall(r"\w+", file.read_text())}
    names = list(defined_names())
    if len(names) < 400:
        raise Failed(f"docs/DEFINITIONS.md explains {len(names)} names")
    want([name for name in names if name not in known], [], "names that are defined nowhere")


def cases(setting: Setting, folder: Path) -> Cases:
    tried = [
        ("a program that is kept", check_kept),
        ("calls side by side", check_side_by_side),
        ("a build that fails", check_failed_build),
        ("a build that is stopped", check_stopped),
        ("the proved program", check_proved),
        ("the gate around it", check_gate),
    ]
    for number, (name, check) in enumerate(tried):
        own = folder / f"front{number}"
        yield Case(f"geost: {name}", lambda check=check, own=own: check(own))
    yield Case("geost: help and version", lambda: check_help(setting))
    yield Case("front: README", check_readme)
    yield Case("front: VERSION and CHANGELOG", check_version)
    yield Case("front: NOTICES", check_notices)
    yield Case("front: measurements", check_measurements)
    yield Case("front: layers", check_layers)
    yield Case("front: what stands on what", check_order_of_layers)
    yield Case("front: the way of a text", check_ways)
    yield Case("front: definitions", check_definitions)
