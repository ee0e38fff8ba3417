"""Files of the repository that the package reads: a wheel has them beside its modules, in a
checkout they are where the repository has them."""

from __future__ import annotations

from pathlib import Path

PACKAGE = Path(__file__).resolve().parent
# the folder from which `import geost` finds this package
IMPORTED_FROM = PACKAGE.parent
TOP = PACKAGE.parents[2]
IN_A_WHEEL = PACKAGE / "files"


def file_of(name: str) -> Path:
    """The file of this name, which is counted from the top of the repository."""
    return (IN_A_WHEEL if IN_A_WHEEL.is_dir() else TOP) / name


def text_of(name: str) -> str:
    return file_of(name).read_text(encoding="utf-8")
