"""Makes the wheel of the package: the build backend that pyproject.toml names, and `tools/wheel`.

The wheel has the package, the program that is kept in this checkout, and the files of the
repository that the package reads, which stand there as they stand here, below `geost/files`. The
same program and sources make the same wheel, byte by byte. It takes the standard library alone.
"""

from __future__ import annotations

import base64
import hashlib
import io
import subprocess
import sys
import time
import tomllib
import zipfile
from collections.abc import Iterator
from pathlib import Path

HERE = Path(__file__).resolve().parent
TOP = HERE.parent
sys.path[:0] = [str(HERE / "src"), str(TOP / "tools")]

from packing import (  # noqa: E402
    RUNS,
    UNPROVED_MARK,
    Member,
    NoRelease,
    commit_time,
    kit_folder,
    licence_members,
)

SOURCE = HERE / "src" / "geost"
# the files of the repository that the package reads
FILES = ("docs/FORMAT.md", "VERSION", "NOTICES.md")
FOLDER = "tools/page/source"
KINDS = (".css", ".html", ".js")
PROGRAM = "geost/files/libexec/geost_cli"
# the program is linked with glibc 2.34
TAG = "py3-none-manylinux_2_34_x86_64"
WHEEL = f"Wheel-Version: 1.0\nGenerator: geost\nRoot-Is-Purelib: false\nTag: {TAG}\n"


def version() -> str:
    return (TOP / "VERSION").read_text(encoding="utf-8").strip()


def kept_program(named: str | None = None) -> Path:
    """The program by its path, else the one that is kept: the proved one where it is proved."""
    if named is None:
        done = subprocess.run([TOP / "geost", "--program"], stdout=subprocess.PIPE, text=True)
        if done.returncode != 0:
            raise NoRelease("there is no program: ./geost --program builds one")
        named = done.stdout.strip()
    return Path(named)


def is_proved(program: Path) -> bool:
    return UNPROVED_MARK not in program.read_bytes()


def said_of(program: Path) -> str:
    """What is said of the program in a wheel."""
    if is_proved(program):
        return "the program in it is proved"
    return "the program in it was built without its proofs, and is slow"


def metadata(program: Path) -> str:
    """What installers read of the package, from pyproject.toml and VERSION."""
    project = tomllib.loads((HERE / "pyproject.toml").read_text(encoding="utf-8"))["project"]
    lines = [
        "Metadata-Version: 2.1",
        f"Name: {project['name']}",
        f"Version: {version()}",
        f"Summary: {project['description']}",
        f"Requires-Python: {project['requires-python']}",
        "Description-Content-Type: text/plain",
    ]
    for extra, needs in project["optional-dependencies"].items():
        lines.append(f"Provides-Extra: {extra}")
        lines += [f'Requires-Dist: {need} ; extra == "{extra}"' for need in needs]
    return "\n".join(lines) + f"\n\n{project['description']}; {said_of(program)}.\n"


def licences() -> Iterator[Member]:
    """The licences of what a proved program links, where the kit is there."""
    try:
        yield from licence_members(kit_folder())
    except NoRelease as missing:
        print(f"wheel: no licences: {missing}", file=sys.stderr)


def members(program: Path) -> Iterator[Member]:
    for path in sorted(SOURCE.rglob("*")):
        if path.is_file() and "__pycache__" not in path.parts:
            yield Member(f"geost/{path.relative_to(SOURCE)}", path.read_bytes())
    pages = sorted(path for path in (TOP / FOLDER).iterdir() if path.suffix in KINDS)
    for path in [*(TOP / name for name in FILES), *pages]:
        yield Member(f"geost/files/{path.relative_to(TOP)}", path.read_bytes())
    yield Member(PROGRAM, program.read_bytes(), RUNS)


def described(program: Path) -> Iterator[Member]:
    """The files that describe the wheel, without the list of all of them."""
    folder = f"geost-{version()}.dist-info"
    yield Member(f"{folder}/METADATA", metadata(program).encode())
    yield Member(f"{folder}/WHEEL", WHEEL.encode())
    for licence in licences():
        yield Member(f"{folder}/{licence.name}", licence.content)


def record_line(member: Member) -> str:
    digest = base64.urlsafe_b64encode(hashlib.sha256(member.content).digest()).rstrip(b"=")
    return f"{member.name},sha256={digest.decode()},{len(member.content)}\n"


def moment() -> tuple[int, int, int, int, int, int]:
    """When the last commit was made, as archives write it; without git the first they can."""
    try:
        made = time.gmtime(commit_time())
    except (OSError, subprocess.CalledProcessError):
        return (1980, 1, 1, 0, 0, 0)
    return (made.tm_year, made.tm_mon, made.tm_mday, made.tm_hour, made.tm_min, made.tm_sec)


def packed(program: Path) -> bytes:
    """The wheel of the package and this program."""
    packing, date = io.BytesIO(), moment()
    listed = [*members(program), *described(program)]
    name = f"geost-{version()}.dist-info/RECORD"
    record = "".join(map(record_line, listed)) + f"{name},,\n"
    with zipfile.ZipFile(packing, "w", zipfile.ZIP_DEFLATED) as archive:
        for member in [*listed, Member(name, record.encode())]:
            entry = zipfile.ZipInfo(member.name, date)
            entry.compress_type = zipfile.ZIP_DEFLATED
            entry.external_attr = (0o100000 | member.mode) << 16
            archive.writestr(entry, member.content)
    return packing.getvalue()


def wheel_name() -> str:
    return f"geost-{version()}-{TAG}.whl"


def write_wheel(folder: Path, program: Path) -> Path:
    folder.mkdir(parents=True, exist_ok=True)
    file = folder / wheel_name()
    file.write_bytes(packed(program))
    return file


# What installers call


def build_wheel(
    wheel_directory: str, config_settings: object = None, metadata_directory: object = None
) -> str:
    program = kept_program()
    print(f"wheel: {said_of(program)}")
    return write_wheel(Path(wheel_directory), program).name


def get_requires_for_build_wheel(config_settings: object = None) -> list[str]:
    return []


def build_sdist(sdist_directory: str, config_settings: object = None) -> str:
    raise NotImplementedError("the sources are those of the whole repository: make a wheel")
