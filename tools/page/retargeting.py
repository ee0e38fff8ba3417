"""Rewrites the program's LLVM module, which was made for x86-64, for WebAssembly.

The target and the data layout become WebAssembly's, with a memory of 32 bits; the names of x86-64's
processors and its stack probes are left out, and the entry is the program's start behind the test
of the processor and the signal that stand before it in x86-64's `main`.

Each pointer in memory keeps its eight bytes: it is stored as a number of 64 bits and read back from
one, so sizes and places of everything stay what they are. Any line that would lay a pointer out in
another way stops the rewriting.

The one instruction of x86-64 that the module names, which takes bytes by their places, becomes a
function of the module; any other stops the rewriting.
"""

from __future__ import annotations

import re
from collections.abc import Callable
from dataclasses import dataclass

LAYOUT = "e-m:e-p:32:32-p10:8:8-p20:8:8-i64:64-i128:128-n32:64-S128-ni:1:10:20"
TRIPLE = "wasm32-unknown-unknown"
ENTRY = '"geost_cli::main+start"'
# what the libraries of the program ask x86-64 for: bytes by their places
OF_X86 = "@llvm.x86."
BY_PLACES = "@llvm.x86.ssse3.pshuf.b.128"
BYTES_BY_PLACES = "@bytes_by_places"
BYTES = 16
CONSTANT = r"(?:getelementptr \(i8, ptr @[\w.]+, i64 -?\d+\)|@[\w.]+|@\"[^\"]*\"|null)"
VALUE = rf"(?:%[\w.]+|{CONSTANT})"
PLACE = r"ptr (\S+), align (\d+)"


class UnknownLine(Exception):
    """A line of the module that is not known here."""


@dataclass(frozen=True)
class Step:
    """Lines of a function of one form, and what they become; `number` is a fresh one for names."""

    form: re.Pattern[str]
    make: Callable[[re.Match[str], int], list[str]]


def loaded_pointer(it: re.Match[str], number: int) -> list[str]:
    name, place, align = it[1], it[2], it[3]
    return [
        f"  {name}.wide = load i64, ptr {place}, align {align}",
        f"  {name} = inttoptr i64 {name}.wide to ptr",
    ]


def stored_pointer(it: re.Match[str], number: int) -> list[str]:
    value, place, align = it[1], it[2], it[3]
    if not value.startswith("%"):
        return [f"  store i64 ptrtoint (ptr {value} to i64), ptr {place}, align {align}"]
    return [
        f"  %wide.{number} = ptrtoint ptr {value} to i64",
        f"  store i64 %wide.{number}, ptr {place}, align {align}",
    ]


def loaded_pair(it: re.Match[str], number: int) -> list[str]:
    """A byte or a pointer, and a pointer, which lies eight bytes behind it."""
    name, kind, place, align = it[1], it[2], it[3], it[4]
    first = [f"  {name}.first = load i8, ptr {place}, align {align}"]
    if kind == "ptr":
        first = [
            f"  {name}.low = load i64, ptr {place}, align {align}",
            f"  {name}.first = inttoptr i64 {name}.low to ptr",
        ]
    return [
        *first,
        f"  {name}.place = getelementptr i8, ptr {place}, i64 8",
        f"  {name}.wide = load i64, ptr {name}.place, align 8",
        f"  {name}.second = inttoptr i64 {name}.wide to ptr",
        f"  {name}.half = insertvalue {{ {kind}, ptr }} undef, {kind} {name}.first, 0",
        f"  {name} = insertvalue {{ {kind}, ptr }} {name}.half, ptr {name}.second, 1",
    ]


def own_place(it: re.Match[str], number: int) -> list[str]:
    return [f"  {it[1]} = alloca i64, align {it[2]}"]


def moved_bytes(it: re.Match[str], number: int) -> list[str]:
    """A call that moves or sets bytes takes its length as 32 bits."""
    front, rest, length, tail = it[1], it[2], it[3], it[4]
    if not length.startswith("%"):
        return [f"{front}i32{rest}, i32 {length}, i1 false){tail}"]
    return [
        f"  %length.{number} = trunc i64 {length} to i32",
        f"{front}i32{rest}, i32 %length.{number}, i1 false){tail}",
    ]


def address(it: re.Match[str], number: int) -> list[str]:
    return [f"  {it[1]} = ptrtoint ptr {it[2]} to i64"]


def as_it_stands(it: re.Match[str], number: int) -> list[str]:
    return [it.string]


STEPS = [
    Step(re.compile(rf"  (%[\w.]+) = load ptr, {PLACE}(?:, !noundef ![0-9]+)?"), loaded_pointer),
    Step(re.compile(rf"  store ptr ({VALUE}), {PLACE}"), stored_pointer),
    Step(re.compile(rf"  (%[\w.]+) = load {{ (i8|ptr), ptr }}, {PLACE}(?:, .*)?"), loaded_pair),
    Step(re.compile(r"  (%[\w.]+) = alloca ptr, align (\d+)"), own_place),
    Step(
        re.compile(
            r"(  call void @llvm\.mem(?:move|set)\.[a-z0-9.]*)i64(\(.*), i64 (\S+), i1 false\)(.*)"
        ),
        moved_bytes,
    ),
    Step(re.compile(r"  (%[\w.]+) = ptrtoaddr ptr (\S+) to i64"), address),
    # the number of such a pair has its place already, and the pointer the first half of its own
    Step(
        re.compile(r"  %[\w.]+ = load \{ (?:ptr, i64|i64, ptr) \}, ptr \S+, align \d+.*"),
        as_it_stands,
    ),
]
NAME = re.compile(r'"[^"]*"')
POINTER_IN_MEMORY = re.compile(
    r"\b(?:load|store)\b.*\bptr\b.*, ptr |alloca .*ptr|\[\d+ x ptr\]|(?:inttoptr|ptrtoint) "
)


def bytes_by_places() -> list[str]:
    """A function as that instruction: byte i is the one at place i's low half, or 0 where the place
    is negative."""
    lines = [f"define internal <16 x i8> {BYTES_BY_PLACES}(<16 x i8> %from, <16 x i8> %places) {{"]
    before = "zeroinitializer"
    for i in range(BYTES):
        lines += [
            f"  %place.{i} = extractelement <16 x i8> %places, i32 {i}",
            f"  %low.{i} = and i8 %place.{i}, {BYTES - 1}",
            f"  %byte.{i} = extractelement <16 x i8> %from, i8 %low.{i}",
            f"  %none.{i} = icmp slt i8 %place.{i}, 0",
            f"  %one.{i} = select i1 %none.{i}, i8 0, i8 %byte.{i}",
            f"  %all.{i} = insertelement <16 x i8> {before}, i8 %one.{i}, i32 {i}",
        ]
        before = f"%all.{i}"
    return [*lines, f"  ret <16 x i8> {before}", "}"]


def rewritten_line(line: str, number: int) -> list[str]:
    """A line of a function."""
    if OF_X86 in line:
        line = line.replace(f"{BY_PLACES}(", f"{BYTES_BY_PLACES}(")
        if OF_X86 in line:
            raise UnknownLine(f"an instruction of x86-64: {line}")
        return [line]
    for step in STEPS:
        match = step.form.fullmatch(line)
        if match:
            return step.make(match, number)
    # (a name may have the words of an instruction in it)
    if POINTER_IN_MEMORY.search(NAME.sub("", line)):
        raise UnknownLine(f"a pointer in memory: {line}")
    return [line]


def rewritten_constant(line: str) -> str:
    """A constant, each pointer of which keeps its eight bytes."""
    if not re.search(r"\bptr\b", line):
        return line
    form = r"(@[\w.]+ = private (?:unnamed_addr )?constant) <\{ (.*?) \}> <\{ (.*) \}>(, align \d+)"
    it = re.fullmatch(form, line)
    if not it:
        raise UnknownLine(f"a constant with a pointer: {line[:200]}")
    kinds = ["ptr, i32" if kind == "ptr" else kind for kind in it[2].split(", ")]
    values = re.sub(rf"\bptr ({CONSTANT})(?=, |$)", r"ptr \1, i32 0", it[3])
    if values.count(", i32 0") != kinds.count("ptr, i32"):
        raise UnknownLine(f"a constant with a pointer: {line[:200]}")
    return f"{it[1]} <{{ {', '.join(kinds)} }}> <{{ {values} }}>{it[4]}"


def rewritten_head(line: str) -> str:
    """A line outside of functions and constants."""
    if line.startswith("declare ") and f" {BY_PLACES}(" in line:
        return "\n".join(bytes_by_places())
    if line.startswith("target datalayout"):
        return f'target datalayout = "{LAYOUT}"'
    if line.startswith("target triple"):
        return f'target triple = "{TRIPLE}"'
    if line.startswith("attributes #"):
        return re.sub(r' "[a-z-]+"="[^"]*"', "", line)
    if line.startswith("define internal") and ENTRY in line:
        return line.replace("internal ", "", 1)
    if line.startswith("declare void @llvm.mem"):
        return line.replace(".i64(", ".i32(").replace(", i64, i1", ", i32, i1")
    return line


def retargeted(module: str) -> str:
    """The module for WebAssembly; raises UnknownLine at what is not known here."""
    found: list[str] = []
    for number, line in enumerate(module.split("\n")):
        if line.startswith("  "):
            found.extend(rewritten_line(line, number))
        else:
            found.append(rewritten_constant(line) if line.startswith("@") else rewritten_head(line))
    if not any(ENTRY in line and line.startswith("define ") for line in found):
        raise UnknownLine("the entry is not there")
    return "\n".join(found)
