"""How a script ends: with its status, or with one line for what stopped it."""

from __future__ import annotations

import os
import sys
from collections.abc import Callable

from geost.tokens import TextFault

CANNOT, STOPPED = 70, 130


def status_of(name: str, main: Callable[[], int | None]) -> int:
    """The status of a script's `main`. A fault of a file or of the program is said in a line;
    Ctrl-C leaves what was printed so far, says that it was stopped, and gives 130."""
    try:
        status = main()
        sys.stdout.flush()
        return status or 0
    except KeyboardInterrupt:
        print(f"\n{name}: stopped; what is known so far stands above", file=sys.stderr)
        return STOPPED
    except BrokenPipeError:
        os.dup2(os.open(os.devnull, os.O_WRONLY), sys.stdout.fileno())
        return CANNOT
    except (OSError, RuntimeError, TextFault) as fault:
        print(f"{name}: {fault}", file=sys.stderr)
        return CANNOT
