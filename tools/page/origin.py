"""From which program a module was made: a section of the module says so."""

from __future__ import annotations

import hashlib
from collections.abc import Iterator

HEAD = 8  # bytes before the first section
CUSTOM = 0
NAME = b"geost.program"


def number(value: int) -> bytes:
    """A number as WebAssembly spells it: seven bits a byte, the lowest first."""
    low, rest = value & 127, value >> 7
    return bytes([low]) if rest == 0 else bytes([low | 128]) + number(rest)


def read_number(data: bytes, at: int) -> tuple[int, int]:
    """The number at a place, and the place behind it."""
    low = data[at]
    if low < 128:
        return low, at + 1
    rest, behind = read_number(data, at + 1)
    return (low & 127) | rest << 7, behind


def with_origin(module: bytes, program: bytes) -> bytes:
    """The module with the SHA-256 of the program in a section of its own."""
    digest = hashlib.sha256(program).hexdigest().encode()
    content = number(len(NAME)) + NAME + digest
    return module + bytes([CUSTOM]) + number(len(content)) + content


def custom_sections(module: bytes) -> Iterator[bytes]:
    at = HEAD
    while at < len(module):
        size, begin = read_number(module, at + 1)
        if module[at] == CUSTOM:
            yield module[begin : begin + size]
        at = begin + size


def origin_of(module: bytes) -> str | None:
    """The SHA-256 of the program that a module names; None where it names none."""
    head = number(len(NAME)) + NAME
    found = [content for content in custom_sections(module) if content.startswith(head)]
    return found[0][len(head) :].decode("ascii") if found else None
