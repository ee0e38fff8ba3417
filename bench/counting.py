"""What a first layout costs, counted by valgrind."""

from __future__ import annotations

import re
import subprocess

STEPS = "1000000"


def instructions(program: str, text: str) -> int:
    """How many instructions the program takes to the first layout of the problem."""
    tool = ["valgrind", "--tool=callgrind", "--callgrind-out-file=/dev/null"]
    command = [*tool, program, "first", STEPS]
    ran = subprocess.run(command, input=text.encode(), capture_output=True, check=False)
    if not ran.stdout.startswith(b"layout"):
        raise RuntimeError(f"no layout: {ran.stdout[:80]!r}")
    return int(re.findall(rb"Collected : (\d+)", ran.stderr)[0])
