"""A search by many orders that goes on beside the program that began it."""

from __future__ import annotations

import atexit
import os
import threading
from collections.abc import Callable, Generator
from concurrent.futures import Future
from dataclasses import replace
from typing import TYPE_CHECKING, Any

from geost.answers import ProgramFailed, Solution, Status
from geost.candidates import Candidate
from geost.portfolio import Found, Options, Portfolio, derived
from geost.program import NO
from geost.runs import Progress

if TYPE_CHECKING:
    from geost.model import Problem

Tell = Callable[[str], None]
PATIENCE = 10  # seconds until what is stopped has ended
GOING: set[Search] = set()


@atexit.register
def end_all() -> None:
    """Ends the searches that go on where Python ends, with what they have started."""
    for search in list(GOING):
        search.stop()
        search.join(PATIENCE)


class Told(Progress):
    """What is done now, told to a function."""

    def __init__(self, tell: Tell | None):
        super().__init__()
        self.tell = tell

    def show(self, what: str) -> None:
        if self.tell is not None:
            self.tell(f"{self.seconds():.1f} s, {what}")

    def end(self) -> None:
        pass


class Search:
    """A search that has begun. It is waited for by `result`, in coroutines by `await`, and ended
    early by `stop`; a program that ends ends it too."""

    def __init__(self, problem: Problem, options: Options, tell: Tell | None):
        self.problem = problem
        self.options = replace(options, processors=options.processors or os.cpu_count() or 1)
        self._tree = problem.shown()
        self._program = problem.program
        self._stopped = threading.Event()
        self._told = Told(tell)
        self._found: Future[Solution] = Future()
        self._thread = threading.Thread(target=self._run, daemon=True)
        GOING.add(self)
        self._thread.start()

    def _run(self) -> None:
        try:
            portfolio = Portfolio(
                self._program, self._tree, self.options, self._told, self._stopped.is_set
            )
            self._found.set_result(self._solution(portfolio, portfolio.run()))
        except BaseException as fault:
            self._found.set_exception(fault)
        finally:
            GOING.discard(self)

    def _solution(self, portfolio: Portfolio, found: Found | None) -> Solution:
        if found is None:
            made = Solution(Status.UNKNOWN, is_stopped=self._stopped.is_set())
        elif found.layout is None:
            search = found.search
            made = self.problem.without_layout(lambda: self._derivation(search.way))
        else:
            made = Solution(Status.LAYOUT, self.problem.layout_of(found.layout))
        return replace(
            made,
            steps=found.search.effort.steps if found else 0,
            seconds=portfolio.seconds(),
            way=found.search.way.name if found else "",
            tried=dict(portfolio.tried),
        )

    def _derivation(self, way: Candidate) -> str:
        """The derivation that the order gives which found that there is no layout."""
        answered = derived(self._program, self._tree, way)
        if answered.status != NO:
            raise ProgramFailed(f"`first` ended with status {answered.status}")
        return answered.text

    def stop(self) -> None:
        """Ends the search; its result is then what is known so far."""
        self._stopped.set()

    def join(self, seconds: float) -> None:
        """Waits for the search to end, so many seconds at most."""
        self._thread.join(seconds)

    def is_done(self) -> bool:
        return self._found.done()

    def result(self) -> Solution:
        """What the search found, when it has ended. Ctrl-C ends it."""
        try:
            return self._found.result()
        except KeyboardInterrupt:
            self.stop()
            raise

    async def _awaited(self) -> Solution:
        import asyncio  # which takes as long to import as all else here

        try:
            return await asyncio.shield(asyncio.wrap_future(self._found))
        except asyncio.CancelledError:
            self.stop()
            raise

    def __await__(self) -> Generator[Any, None, Solution]:
        return self._awaited().__await__()
