"""tools/setup installs what is missing, where it may, and names what is left."""

from __future__ import annotations

import re
import shutil
import subprocess
from dataclasses import dataclass
from pathlib import Path

from harness import TOOLS, TOP, Case, Cases, Setting, Skipped, want, want_in

SETUP = TOOLS / "setup"
NEEDED = ("awk", "bash", "cat", "dirname", "env", "sed", "sort")
# what is looked for by scripts and is no package of an optional thing: the kit, and a bare system
OTHERS = {"rt", "bash", "chroot", "cc"}
USER = "#!/usr/bin/env bash\necho {}\n"
INSTALLER = """#!/usr/bin/env bash
echo "$*" >>"{log}"
case " $* " in
*" install "*valgrind*) printf '#!/bin/sh\\n' >"{bin}/valgrind"; chmod +x "{bin}/valgrind" ;;
esac
"""


@dataclass(frozen=True)
class Machine:
    """A search path with few commands, a user, and an apt-get that installs valgrind alone."""

    folder: Path

    @property
    def log(self) -> Path:
        return self.folder / "log"

    def call(self, *words: str) -> subprocess.CompletedProcess[str]:
        room = self.folder / "bin"
        return subprocess.run(
            [str(room / "bash"), str(SETUP), *words],
            env={"PATH": str(room)},
            capture_output=True,
            text=True,
        )

    def installed(self) -> str:
        return self.log.read_text() if self.log.exists() else ""


def machine(folder: Path, user: int) -> Machine:
    room = folder / "bin"
    room.mkdir(parents=True)
    for name in NEEDED:
        real = shutil.which(name)
        if real is None:
            raise Skipped(f"{name} is not installed")
        (room / name).symlink_to(Path(real).resolve())
    made = Machine(folder)
    write(room / "id", USER.format(user))
    write(room / "apt-get", INSTALLER.format(log=made.log, bin=room))
    return made


def write(path: Path, text: str) -> None:
    path.write_text(text)
    path.chmod(0o755)


def check_installs(folder: Path) -> None:
    """As root it installs what is missing, and names what is missing still."""
    plain = machine(folder, 0)
    done = plain.call("bench")
    want(done.returncode, 1, "the status where something is left")
    want_in("update", plain.installed())
    for package in ("valgrind", "minizinc", "flatzinc", "gcc"):
        want_in(package, plain.installed())
    want("missing: valgrind" in done.stdout, False, "valgrind is missing still")
    want_in("missing: minizinc (bench/minizinc)", done.stdout)
    want("debootstrap" in plain.installed(), False, "another group is installed")


def check_lists(folder: Path) -> None:
    """With --list, and as a user who may not, it installs nothing and names what is missing."""
    for name, user, words in (("list", 0, ["--list", "bench"]), ("user", 1000, ["bench"])):
        plain = machine(folder / name, user)
        done = plain.call(*words)
        want(done.returncode, 1, f"the status of {name}")
        want_in("missing: valgrind (bench/counts)", done.stdout)
        want(plain.installed(), "", f"what {name} installs")


def check_words(folder: Path) -> None:
    want(machine(folder, 0).call("everything").returncode, 2, "the status of another group")


def check_known() -> None:
    """What scripts and tests look for in the search path is what tools/setup installs."""
    named = set(re.findall(r"^\w+ +(\S+) +\S+ +\S", SETUP.read_text(), re.MULTILINE))
    looked_for: set[str] = set()
    for path in [*TOOLS.rglob("*"), *(TOP / "bench").iterdir()]:
        if path.is_file() and path.suffix in ("", ".py"):
            text = path.read_text(encoding="utf-8", errors="replace")
            looked_for |= set(re.findall(r'shutil\.which\("([\w-]+)"\)', text))
    want(sorted(looked_for - named - OTHERS), [], "commands that tools/setup does not know")


def cases(setting: Setting, folder: Path) -> Cases:
    tried = [("what is missing", check_installs), ("a list", check_lists), ("words", check_words)]
    for number, (name, check) in enumerate(tried):
        own = folder / f"setup{number}"
        yield Case(f"setup: {name}", lambda check=check, own=own: check(own))
    yield Case("setup: what scripts look for", check_known)
