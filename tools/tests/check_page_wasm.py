"""What stands under the program in the page: lines of the LLVM module are rewritten as they have to
be or stop the rewriting, numbers of 128 bits are multiplied and shifted as Python does it, and
bytes are taken by their places as x86-64 takes them."""

from __future__ import annotations

import hashlib
import json
import os
import random
import runpy
import shutil
import subprocess
import sys
from pathlib import Path

from browser import needed
from harness import TOOLS, Case, Cases, Failed, Setting, want, want_in

PAGE = TOOLS / "page"
sys.path.insert(0, str(PAGE))

import origin  # noqa: E402
import retargeting  # noqa: E402

# (once, since cases run side by side and each run of a script has the same name)
WASM = runpy.run_path(str(PAGE / "wasm"))
CLANG = Path(os.environ.get("RATTLE_KIT", "/opt/rattle")) / "toolchain" / "bin" / "clang"
TARGET = "--target=wasm32-unknown-unknown -O2 -nostdlib --no-default-config".split()
LINKED = "--no-entry --export-all".split()
NUMBERS = 400
LINES = [
    (
        "  %a = load ptr, ptr %b, align 8, !noundef !3",
        ["  %a.wide = load i64, ptr %b, align 8", "  %a = inttoptr i64 %a.wide to ptr"],
    ),
    (
        "  store ptr %a, ptr %b, align 8",
        ["  %wide.7 = ptrtoint ptr %a to i64", "  store i64 %wide.7, ptr %b, align 8"],
    ),
    (
        "  store ptr @name, ptr %b, align 8",
        ["  store i64 ptrtoint (ptr @name to i64), ptr %b, align 8"],
    ),
    ("  %a = alloca ptr, align 8", ["  %a = alloca i64, align 8"]),
    (
        "  call void @llvm.memmove.p0.p0.i64(ptr %a, ptr %b, i64 %n, i1 false)",
        [
            "  %length.7 = trunc i64 %n to i32",
            "  call void @llvm.memmove.p0.p0.i32(ptr %a, ptr %b, i32 %length.7, i1 false)",
        ],
    ),
    (
        "  %a = load { ptr, ptr }, ptr %b, align 8",
        [
            "  %a.low = load i64, ptr %b, align 8",
            "  %a.first = inttoptr i64 %a.low to ptr",
            "  %a.place = getelementptr i8, ptr %b, i64 8",
            "  %a.wide = load i64, ptr %a.place, align 8",
            "  %a.second = inttoptr i64 %a.wide to ptr",
            "  %a.half = insertvalue { ptr, ptr } undef, ptr %a.first, 0",
            "  %a = insertvalue { ptr, ptr } %a.half, ptr %a.second, 1",
        ],
    ),
    (
        "  %a = load { i64, ptr }, ptr %b, align 8",
        ["  %a = load { i64, ptr }, ptr %b, align 8"],
    ),
    # (the words of an instruction in a name are none)
    (
        '  call void @"a::load::b::store"(ptr %a, ptr %b)',
        ['  call void @"a::load::b::store"(ptr %a, ptr %b)'],
    ),
    ("  %a = add i64 %b, 1", ["  %a = add i64 %b, 1"]),
    ("  %a = load i64, ptr %b, align 8", ["  %a = load i64, ptr %b, align 8"]),
]
UNKNOWN = [
    "  %a = load { ptr, i8 }, ptr %b, align 8",
    "  store { i8, ptr } %a, ptr %b, align 8",
    "  %a = alloca { ptr, i64 }, align 8",
    "  %a = alloca [4 x ptr], align 8",
    "  %a = inttoptr i64 %b to ptr",
    "  %a = ptrtoint ptr %b to i32",
    "  %a = call <16 x i8> @llvm.x86.ssse3.psign.b.128(<16 x i8> %b, <16 x i8> %c)",
]


def check_lines() -> None:
    for line, wanted in LINES:
        want(retargeting.rewritten_line(line, 7), wanted, line)
    constant = (
        "@a = private constant <{ ptr, [8 x i8] }> <{ ptr @b, [8 x i8] zeroinitializer }>, align 8"
    )
    wide = constant.replace("<{ ptr,", "<{ ptr, i32,").replace("ptr @b,", "ptr @b, i32 0,")
    want(retargeting.rewritten_constant(constant), wide, "a constant")


def check_unknown() -> None:
    for line in UNKNOWN:
        try:
            retargeting.rewritten_line(line, 1)
        except retargeting.UnknownLine:
            continue
        raise Failed(f"{line} is taken")
    for module in ("", "define i32 @main() {\n  ret i32 0\n}\n"):
        try:
            retargeting.retargeted(module)
        except retargeting.UnknownLine:
            continue
        raise Failed("a module without the entry is taken")
    entry = f"define i32 @{retargeting.ENTRY}()"
    made = retargeting.retargeted(entry.replace("define", "define internal"))
    want(made, entry, "the entry")


def check_origin() -> None:
    """A module names the program that it was made from, and is the same module otherwise."""
    empty = b"\0asm\1\0\0\0"
    named = origin.with_origin(empty, b"abc")
    content = b"\x0dgeost.program" + hashlib.sha256(b"abc").hexdigest().encode()
    want(named, empty + b"\0" + bytes([len(content)]) + content, "a module that names its origin")
    want(origin.origin_of(empty), None, "the origin of a module that names none")
    long = empty + b"\1" + origin.number(300) + bytes(300)
    digest = hashlib.sha256(b"x" * 1000).hexdigest()
    want(origin.origin_of(origin.with_origin(long, b"x" * 1000)), digest, "the origin")


def module_of_numbers(folder: Path) -> Path:
    """c/numbers.c as a module of its own, whose functions take and give halves of numbers."""
    parts = []
    for file in (PAGE / "c" / "numbers.c", TOOLS / "tests" / "try_numbers.c"):
        parts.append(folder / f"{file.stem}.o")
        subprocess.run([str(CLANG), *TARGET, "-c", str(file), "-o", str(parts[-1])], check=True)
    linker = folder / "wasm-ld"
    linker.symlink_to(CLANG)
    module = folder / "numbers.wasm"
    subprocess.run([str(linker), *LINKED, "-o", str(module), *map(str, parts)], check=True)
    return module


def halves(number: int) -> list[str]:
    return [str(number % 2**64), str(number // 2**64 % 2**64)]


def wanted_of(name: str, one: int, other: int) -> int:
    signed = one - 2**128 if one >= 2**127 else one
    results = {
        "multiply": one * other,
        "left": one << (other % 128),
        "right": one >> (other % 128),
        "right_signed": signed >> (other % 128),
    }
    return results[name] % 2**128


def check_numbers(folder: Path) -> None:
    needed("node", shutil.which("node") is not None)
    needed("the Rattle kit", CLANG.exists())
    chance = random.Random("numbers")
    asked = []
    for _ in range(NUMBERS):
        name = chance.choice(["multiply", "left", "right", "right_signed"])
        one = chance.getrandbits(chance.choice([8, 63, 64, 65, 127, 128]))
        other = chance.getrandbits(128) if name == "multiply" else chance.randrange(128)
        asked.append((name, one, other))
    file = folder / "numbers.json"
    given = [
        {"name": name, "one": halves(one), "other": halves(other)} for name, one, other in asked
    ]
    file.write_text(json.dumps({"module": str(module_of_numbers(folder)), "asked": given}))
    driver = str(TOOLS / "tests" / "try_numbers.js")
    done = subprocess.run(["node", driver, str(file)], stdout=subprocess.PIPE, check=True)
    for (name, one, other), (low, high) in zip(asked, json.loads(done.stdout), strict=True):
        want(int(high) * 2**64 + int(low), wanted_of(name, one, other), f"{name} {one} {other}")


# the function of bytes by their places, called on halves as tests/try_numbers.js calls
BYTES = """@answer = global [16 x i8] zeroinitializer, align 16
define ptr @place() {
  ret ptr @answer
}
define void @bytes(i64 %a, i64 %b, i64 %c, i64 %d) {
  %half.from = insertelement <2 x i64> zeroinitializer, i64 %a, i32 0
  %whole.from = insertelement <2 x i64> %half.from, i64 %b, i32 1
  %from = bitcast <2 x i64> %whole.from to <16 x i8>
  %half.places = insertelement <2 x i64> zeroinitializer, i64 %c, i32 0
  %whole.places = insertelement <2 x i64> %half.places, i64 %d, i32 1
  %places = bitcast <2 x i64> %whole.places to <16 x i8>
  %all = call <16 x i8> @llvm.x86.ssse3.pshuf.b.128(<16 x i8> %from, <16 x i8> %places)
  store <16 x i8> %all, ptr @answer, align 16
  ret void
}
declare <16 x i8> @llvm.x86.ssse3.pshuf.b.128(<16 x i8>, <16 x i8>)
"""


def module_of_bytes(folder: Path) -> Path:
    """That text, rewritten line by line, as a module."""
    made = [
        "\n".join(retargeting.rewritten_line(line, number))
        if line.startswith("  ")
        else retargeting.rewritten_head(line)
        for number, line in enumerate(BYTES.splitlines())
    ]
    text, part, module = folder / "bytes.ll", folder / "bytes.o", folder / "bytes.wasm"
    text.write_text("\n".join(made))
    words = [str(CLANG), *TARGET, "-Wno-override-module", "-x", "ir", "-c", str(text)]
    subprocess.run([*words, "-o", str(part)], check=True)
    linker = folder / "bytes-wasm-ld" / "wasm-ld"
    linker.parent.mkdir()
    linker.symlink_to(CLANG)
    subprocess.run([str(linker), *LINKED, "-o", str(module), str(part)], check=True)
    return module


def bytes_by_places(one: int, places: int) -> int:
    """What x86-64 says: a byte for each place, 0 where its highest bit is set."""
    source = one.to_bytes(16, "little")
    taken = [0 if place > 127 else source[place % 16] for place in places.to_bytes(16, "little")]
    return int.from_bytes(taken, "little")


def check_bytes(folder: Path) -> None:
    needed("node", shutil.which("node") is not None)
    needed("the Rattle kit", CLANG.exists())
    chance = random.Random("bytes")
    asked = [(chance.getrandbits(128), chance.getrandbits(128)) for _ in range(NUMBERS)]
    given = [{"name": "bytes", "one": halves(one), "other": halves(two)} for one, two in asked]
    file = folder / "bytes.json"
    file.write_text(json.dumps({"module": str(module_of_bytes(folder)), "asked": given}))
    driver = str(TOOLS / "tests" / "try_numbers.js")
    done = subprocess.run(["node", driver, str(file)], stdout=subprocess.PIPE, check=True)
    for (one, two), (low, high) in zip(asked, json.loads(done.stdout), strict=True):
        want(int(high) * 2**64 + int(low), bytes_by_places(one, two), f"bytes {one} {two}")


def make_module(top: Path, output: Path) -> str:
    """What the script says that makes the module of a checkout."""
    words = [str(PAGE / "wasm"), "--repository", str(top), str(output)]
    done = subprocess.run([sys.executable, *words], capture_output=True, text=True)
    return done.stdout if done.returncode == 0 else done.stderr


def check_kept(folder: Path) -> None:
    """A module that is kept is taken for its own program, and for no other."""
    out = folder / "checkout" / "crates" / "geost_cli" / "out"
    out.mkdir(parents=True)
    (folder / "checkout" / "crates.txt").write_text("geost_cli:\n")
    output = folder / "geost.wasm"
    want_in("not proved", make_module(folder / "checkout", output))
    (out / "geost_cli").write_bytes(b"a program")
    checkout = WASM["Checkout"](folder / "checkout")
    WASM["keep"](checkout.kept_module(), b"a module")
    want(make_module(folder / "checkout", output), f"{output}: 8 bytes\n", "the module")
    want(output.read_bytes(), b"a module", "the module that was kept")
    (out / "geost_cli").write_bytes(b"another one")
    want(checkout.kept_module().exists(), False, "a module of another program")


def script_at(file: Path, lines: str) -> None:
    file.parent.mkdir(parents=True, exist_ok=True)
    file.write_text(f"#!/bin/sh\nset -e\n{lines}\n")
    file.chmod(0o755)


def kit_that_builds(folder: Path) -> Path:
    """A kit whose `rattle build` hands one module to clang, and whose linker adds a line to it."""
    module, last = folder / "module.bc", 'for last in "$@"; do :; done'
    folder.mkdir(parents=True)
    module.write_text("a module\n")
    build = f'{last}\nwhile [ "$1" != --toolchain ]; do shift; done\n"$2/bin/clang" {module} "$last"'
    script_at(folder / "bin" / "rattle", build)
    script_at(folder / "toolchain" / "bin" / "clang", 'cp "$1" "$2"')
    script_at(folder / "bin" / "rattle-link", '(cat "$7"; echo linked) >"$6"')
    return folder


def check_compared(folder: Path) -> None:
    """A module is taken where what is linked of it is the program that was proved, and not else."""
    checkout, kit = WASM["Checkout"](folder), WASM["Kit"](kit_that_builds(folder / "kit"))
    checkout.program().parent.mkdir(parents=True)
    (folder / "crates.txt").write_text("geost_cli:\n")
    checkout.program().write_text("a module\nlinked\n")
    (folder / "room").mkdir()
    taken = WASM["module_of"](checkout, kit, folder / "room")
    want(taken.read_text(), "a module\n", "the module that clang was given")
    checkout.program().write_text("another module\nlinked\n")
    (folder / "again").mkdir()
    try:
        WASM["module_of"](checkout, kit, folder / "again")
    except WASM["NotMade"] as refused:
        want_in("differs from what was built now", str(refused))
        return
    raise Failed("a module of another program is taken")


def cases(setting: Setting, folder: Path) -> Cases:
    own = folder / "page_wasm"
    own.mkdir()
    yield Case("page module: kept for its program", lambda: check_kept(own))
    yield Case("page module: that of the program", lambda: check_compared(own / "compared"))
    yield Case("page module: lines that are rewritten", check_lines)
    yield Case("page module: lines that are not known", check_unknown)
    yield Case("page module: its origin", check_origin)
    yield Case("page module: numbers of 128 bits", lambda: check_numbers(own))
    yield Case("page module: bytes by their places", lambda: check_bytes(own))
