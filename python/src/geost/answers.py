"""What the program says of a problem: layouts, verdicts, and why there is none."""

from __future__ import annotations

from collections.abc import Callable, Mapping
from dataclasses import dataclass, field
from enum import Enum
from functools import cached_property

from geost.layouts import Layout
from geost.where import Where

MOST_GROUPS = 6


class Status(Enum):
    """What a search found."""

    LAYOUT = "layout"  # a layout, which keeps every rule
    NONE = "none"  # that there is no layout; a derivation shows it
    UNKNOWN = "unknown"  # neither, within the steps or the seconds

    def __bool__(self) -> bool:
        return self is Status.LAYOUT


class NoSuchCommand(RuntimeError):
    """The program that answers does not know a command."""


class ProgramFailed(RuntimeError):
    """The program ended without an answer: memory ran out, or it was ended from outside."""


class NoDerivation(ValueError):
    """A derivation is asked of an answer that has none."""


Derive = Callable[[], str]
Check = Callable[[str], bool]


def underived() -> str:
    raise NoDerivation("a derivation shows that there is no layout: this answer has none")


def unchecked(_: str) -> bool:
    raise NoDerivation("there is no derivation to be checked")


@dataclass(frozen=True)
class Derived:
    """An answer that may have a derivation: at hand, and checked where it is asked for."""

    derive: Derive = field(default=underived, repr=False, kw_only=True)
    checked: Check = field(default=unchecked, repr=False, kw_only=True)

    @cached_property
    def derivation(self) -> str:
        """The derivation that there is no layout, as the program prints it."""
        return self.derive()

    def check(self) -> bool:
        """Whether the program finds the derivation valid; it is then, whoever wrote it."""
        return self.checked(self.derivation)


@dataclass(frozen=True)
class Solution(Derived):
    """The answer of a search: it is true where there is a layout. `way` names the order that found
    it, `tried` how many steps each way was searched, `is_stopped` that it was ended early."""

    status: Status
    layout: Layout | None = None
    steps: int = 0
    seconds: float = 0.0
    way: str = ""
    tried: Mapping[str, int] = field(default_factory=dict)
    is_stopped: bool = False

    def __bool__(self) -> bool:
        return bool(self.status)


@dataclass(frozen=True)
class Best(Derived):
    """The layout of the least extent in a dimension; the derivation shows that no layout has a
    lesser one."""

    status: Status
    extent: int | None = None
    layout: Layout | None = None

    def __bool__(self) -> bool:
        return bool(self.status)


@dataclass(frozen=True)
class Core(Derived):
    """Rules that refuse all layouts together, and without each of which there is one. Where the
    problem has a layout, `layout` is it, and there are no such rules."""

    status: Status
    rules: tuple[str, ...] = ()
    without: Mapping[str, Layout] = field(default_factory=dict)
    layout: Layout | None = None
    wheres: Mapping[str, Where | None] = field(default_factory=dict)

    def __str__(self) -> str:
        if self.status is not Status.NONE:
            return "there is a layout" if self else "the steps did not suffice"
        places = [f"{rule} ({self.wheres.get(rule)})" for rule in self.rules]
        return f"no layout keeps these rules: {', '.join(places)}"

    def __bool__(self) -> bool:
        return bool(self.status)


@dataclass(frozen=True)
class Loading:
    """An order in which the items can be loaded along a dimension, or items that block each other
    in a ring."""

    order: tuple[str, ...] = ()
    cycle: tuple[str, ...] = ()

    def __bool__(self) -> bool:
        return not self.cycle


@dataclass(frozen=True)
class Broken:
    """A rule that a layout breaks, the items that break it together, and where it was made."""

    rule: str
    items: tuple[tuple[str, ...], ...]
    where: Where | None = None

    def __str__(self) -> str:
        groups = [" and ".join(group) or "all items together" for group in self.items]
        more = len(groups) - MOST_GROUPS
        return f"{self.rule}: {'; '.join(groups[:MOST_GROUPS])}" + (
            f" and {more} more" if more > 0 else ""
        )


@dataclass(frozen=True)
class Verdict:
    """Whether a layout keeps every rule, and each one that it breaks."""

    broken: tuple[Broken, ...] = ()

    def __bool__(self) -> bool:
        return not self.broken

    def __str__(self) -> str:
        return "good" if self else "\n".join(map(str, self.broken))
