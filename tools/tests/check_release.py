"""A release archive is whole, and runs without the kit: beside the C library alone, and, where long
tests are wanted, on a bare Debian."""

from __future__ import annotations

import os
import re
import shutil
import subprocess
import sys
from dataclasses import dataclass
from pathlib import Path

from harness import TOOLS, TOP, Case, Cases, Failed, Setting, Skipped
from harness import is_unproved, want, want_in

MIRROR = "http://deb.debian.org/debian"
C_LIBRARY = {"libc.so.6", "libm.so.6", "libgcc_s.so.1", "ld-linux-x86-64.so.2"}
EXAMPLE = TOP / "examples" / "two_boxes_on_a_line"


@dataclass(frozen=True)
class Release:
    """An archive, and the folder into which it was unpacked."""

    archive: Path
    folder: Path

    @property
    def program(self) -> Path:
        return self.folder / "libexec" / "geost_cli"


def make(setting: Setting, folder: Path) -> subprocess.CompletedProcess[str]:
    words = [sys.executable, str(TOOLS / "release"), "--program", setting.program.path, str(folder)]
    return subprocess.run(words, capture_output=True, text=True)


def released(setting: Setting, folder: Path) -> Release:
    """The archive of the program that is tested, unpacked."""
    if shutil.which("rt") is None:
        raise Skipped("the kit's rt is not in the search path")
    if is_unproved(setting.program):
        raise Skipped("the program that is tested was built without its proofs")
    done = make(setting, folder)
    want((done.stderr, done.returncode), ("", 0), "what tools/release says")
    archive = next(folder.glob("geost-*.tar.gz"))
    subprocess.run(["tar", "-xzf", archive, "-C", folder], check=True)
    return Release(archive, folder / archive.name.removesuffix(".tar.gz"))


def check_refused(setting: Setting, folder: Path) -> None:
    """A program that was built without its proofs is not released."""
    folder.mkdir()
    unproved = folder / "geost_cli"
    unproved.write_bytes(b"#!/bin/sh\n# __asan_init\n")
    unproved.chmod(0o755)
    words = [sys.executable, str(TOOLS / "release"), "--program", str(unproved), str(folder)]
    done = subprocess.run(words, capture_output=True, text=True)
    want(done.returncode, 1, "the status")
    want_in("without its proofs", done.stderr)
    want(list(folder.glob("*.gz")), [], "archives")


def check_archive(setting: Setting, folder: Path) -> None:
    """Twice the same bytes; the sums hold; it has what README says, and answers without the kit."""
    release = released(setting, folder / "one")
    make(setting, folder / "two")
    again = folder / "two" / release.archive.name
    want(again.read_bytes() == release.archive.read_bytes(), True, "the same archive twice")
    sums = ["sha256sum", "--quiet", "--check", "SHA256SUMS"]
    done = subprocess.run(sums, cwd=release.folder, capture_output=True, text=True)
    want((done.stdout, done.returncode), ("", 0), "what sha256sum says")
    summed = re.findall(r"  (.*)$", (release.folder / "SHA256SUMS").read_text(), re.MULTILINE)
    files = [path for path in release.folder.rglob("*") if path.is_file()]
    want(len(summed), len(files) - 1, "files with a sum")
    wanted = ["KIT", "VERSION", "NOTICES.md", "docs/TUTORIAL.md", "tools/explain", "tools/lint"]
    missing = [name for name in wanted if not (release.folder / name).is_file()]
    want(missing, [], "files that are not in the archive")
    check_answers(release)


def check_answers(release: Release) -> None:
    """The script of the archive and its tools answer where nothing of the kit is in sight."""
    plain = {"PATH": "/usr/bin:/bin", "LANG": "C.UTF-8"}
    answer = EXAMPLE.with_suffix(".answer").read_text()
    for words in (["./geost", "first", "100"], ["tools/explain", "first", "100"]):
        done = subprocess.run(
            words,
            cwd=release.folder,
            env=plain,
            input=EXAMPLE.with_suffix(".geost").read_text(),
            capture_output=True,
            text=True,
        )
        want((done.stdout, done.stderr), (answer, ""), f"the answer of {words[0]}")
    told = subprocess.run(
        ["./geost", "--version"], cwd=release.folder, env=plain, capture_output=True, text=True
    )
    want_in((release.folder / "KIT").read_text(), told.stdout)
    want_in("rattle-kit", told.stdout)


def libraries(program: Path) -> list[Path]:
    """The libraries that a program loads, and the loader."""
    told = subprocess.run(["ldd", program], stdout=subprocess.PIPE, text=True).stdout
    found = [Path(path) for path in re.findall(r"(/\S+) \(0x", told)]
    if not found:
        raise Skipped("ldd names no library")
    return found


def newest_glibc(program: Path) -> tuple[int, int]:
    """The newest version of the C library that a program asks for."""
    found = re.findall(rb"GLIBC_(\d+)\.(\d+)", program.read_bytes())
    return max((int(major), int(minor)) for major, minor in found)


def check_alone(setting: Setting, folder: Path) -> None:
    """The program runs in a folder that has the C library and nothing else."""
    release = released(setting, folder)
    needed = libraries(release.program)
    want({path.name for path in needed} - C_LIBRARY, set(), "libraries beside the C library")
    said = re.search(r"glibc (\d+)\.(\d+) or newer", (TOP / "README.md").read_text())
    if said is None or newest_glibc(release.program) > (int(said[1]), int(said[2])):
        raise Failed(f"it wants glibc {newest_glibc(release.program)}, and README says otherwise")
    if os.geteuid() != 0 or shutil.which("chroot") is None:
        raise Skipped("chroot needs the rights of root")
    room = folder / "room"
    for path in needed:
        target = room / path.relative_to("/")
        target.parent.mkdir(parents=True, exist_ok=True)
        shutil.copy(path, target)
    shutil.copy(release.program, room / "geost_cli")
    done = subprocess.run(
        ["chroot", str(room), "/geost_cli", "first", "100"],
        input=EXAMPLE.with_suffix(".geost").read_bytes(),
        capture_output=True,
    )
    want(done.stdout, EXAMPLE.with_suffix(".answer").read_bytes(), "the answer")


def check_bare_debian(setting: Setting, folder: Path) -> None:
    """On a Debian of nothing but its least packages the sums hold and all examples are answered."""
    if not setting.long:
        raise Skipped("a bare Debian is made with --long alone")
    if os.geteuid() != 0 or shutil.which("debootstrap") is None:
        raise Skipped("debootstrap is not installed, or the rights of root are missing")
    release = released(setting, folder)
    room = folder / "debian"
    made = subprocess.run(
        ["debootstrap", "--variant=minbase", "bookworm", str(room), MIRROR], capture_output=True
    )
    if made.returncode != 0:
        raise Skipped("debootstrap made no system, for want of a mirror or of rights")
    shutil.copytree(release.folder, room / "opt" / "geost")
    lines = "cd /opt/geost && sha256sum --quiet -c SHA256SUMS && examples/check ./geost"
    done = subprocess.run(["chroot", str(room), "/bin/bash", "-c", lines], capture_output=True)
    if done.returncode != 0 or done.stdout or done.stderr:
        raise Failed(f"on a bare Debian: {(done.stdout + done.stderr).decode()[-2000:]}")


def cases(setting: Setting, folder: Path) -> Cases:
    tried = [
        ("an unproved build", check_refused),
        ("the archive", check_archive),
        ("beside the C library alone", check_alone),
        ("a bare Debian", check_bare_debian),
    ]
    for number, (name, check) in enumerate(tried):
        own = folder / f"release{number}"
        yield Case(f"release: {name}", lambda check=check, own=own: check(setting, own))
