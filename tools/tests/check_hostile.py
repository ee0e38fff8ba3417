"""Texts that are made to hurt: each is answered or refused within a minute and within two gigabytes of memory."""

from __future__ import annotations

import re
import resource
import subprocess
from pathlib import Path

from harness import Case, Cases, Failed, Setting, Skipped, is_unproved, want

SECONDS = 60
MEMORY = 2 * 10**9
TOUCHING = "geost 1 dims 1 shape s box 0 size 2 ; object a as s at 0..3 ; object b as s at 0..3 ; rule r : apart ; end"
FALSE = "geost 1 dims 1 shape s box 0 size 1 ; object a as s at 0..9 ; rule r : false ; end\n"

# each construct of the format once
EVERYTHING = """
geost 1 dims 2 shape s box 0 -1 size 2 1 box 1 0 size 1 1 ; shape t box 0 0 size 1 1 ;
object a as s , t at 0 .. 3 0 .. 3 with w = 3 , v = -2 ; object b as t at 0 .. 3 -1 .. 3 ;
order b , a ; sides high low ;
macro near ( p : object , q : object , n : int ) means p . x1 - q . x1 <= n and q . x1 - p . x1 <= n ;
macro twice ( n : int ) is 2 * n ; macro top ( c : box ) is c . t1 + c . l1 ;
rule free : apart ; rule room : within 0 .. 9 -2 .. 9 ;
rule all : forall o in objects : [ o . w >= 0 or not o . x2 > min ( 3 , max ( 1 , o . id ) ) ] ;
rule some : exists o in objects ( a , b ) : @ near ( o , a , $ twice ( 1 + 1 ) ) ;
rule count : atleast 1 o in objects : atmost 2 c in boxes of o : $ top ( c ) div 2 = o . w mod 3 ;
rule last : true implies false iff a . sid != shape t ; end
"""


def answer(setting: Setting, words: list[str], text: str) -> tuple[str, int]:
    """What the program writes, in a process that gets no more memory, and its status."""
    if is_unproved(setting.program):
        raise Skipped("a build without proofs takes much address space for its checks")

    def bound() -> None:
        resource.setrlimit(resource.RLIMIT_AS, (MEMORY, MEMORY))

    try:
        done = subprocess.run([setting.program.path, *words], input=text.encode(), stdout=subprocess.PIPE, timeout=SECONDS, preexec_fn=bound)
    except subprocess.TimeoutExpired:
        raise Failed(f"no answer within {SECONDS} seconds") from None
    return done.stdout.decode(), done.returncode


def check(setting: Setting, words: list[str], text: str, printed: str, status: int) -> None:
    want(answer(setting, words, text), (printed, status), "the answer")


def check_refused(setting: Setting, words: list[str], text: str, rule: str, word: str) -> None:
    """The text is refused at the name of that rule."""
    place = text.index(f"rule {rule} :") + len("rule ")
    check(setting, words, text, f"refused {place} {word}\n", 2)


def many_objects(count: int, rules: str) -> str:
    """So many unit cubes on a line, under these rules."""
    objects = " ".join(f"object o{i} as s at 0..9 ;" for i in range(count))
    return f"geost 1 dims 1 shape s box 0 size 1 ; {objects} {rules} end"


def tower(levels: int) -> str:
    """Macros of which each calls the one before it twice."""
    macros = " ".join(f"macro m{i + 1}(n : int) means @m{i}(n) and @m{i}(n) ;" for i in range(levels))
    return f"geost 1 dims 1 macro m0(n : int) means n < 1 ; {macros} rule tall : @m{levels}(0) ; end"


def tower_of_unused(levels: int) -> str:
    """Macros that drop what they are given, over calls of the one before them as arguments."""
    macros = " ".join(f"macro v{i + 1}(n : int) is $v{i}($v{i}(n) + $v{i}(n)) ;" for i in range(levels))
    return f"geost 1 dims 1 macro v0(n : int) is 1 ; {macros} rule flat : $v{levels}(1) = 1 ; end"


def many_shapes() -> str:
    """Two hundred objects, each of one of sixteen shapes of sixteen boxes."""
    shapes = " ".join(f"shape s{i} " + " ".join(f"box {j} size 1" for j in range(16)) + " ;" for i in range(16))
    names = " , ".join(f"s{i}" for i in range(16))
    objects = " ".join(f"object o{i} as {names} at 0..1000000 ;" for i in range(200))
    return f"geost 1 dims 1 {shapes} {objects} rule free : apart ; end"


def cut_texts() -> list[str]:
    """The text of all constructs, cut behind each of its tokens but the last."""
    ends = [found.end() for found in re.finditer(r"\S+", EVERYTHING)]
    return [EVERYTHING[:end] for end in ends[:-1]]


def check_cut(setting: Setting) -> None:
    """Each text that ends too soon is refused at its end; the whole one is not."""
    want(answer(setting, ["show"], EVERYTHING)[1], 0, "the status of the whole text")
    for text in cut_texts():
        want(answer(setting, ["show"], text), (f"refused {len(text)} syntax\n", 2), f"the answer to a text of {len(text)} bytes")


def nested(depth: int, first: bool) -> str:
    """So many splits, each in the first part of the one before it, or in the second; one leaf more than splits."""
    split, leaf = "split a 1 upto 9\n", "dead 1\n"
    return split * depth + leaf * (depth + 1) if first else (split + leaf) * depth + leaf


def cases(setting: Setting, folder: Path) -> Cases:
    block = "layout\na as s at 0\nb as s at 2\ntoken 1,0/1,2\n"
    spaces = " " * 1_000_000
    tests: list[tuple[str, list[str], str, str, int]] = [
        ("a million spaces before a problem", ["first", "4"], spaces + TOUCHING, block, 0),
        ("a million spaces", ["show"], spaces, "refused 1000000 syntax\n", 2),
        ("a space too many", ["show"], " " * 1_048_577, "refused 1048576 long\n", 2),
        ("a comment of a million bytes", ["first", "4"], f"#{spaces}\n{TOUCHING}", block, 0),
        ("two million nodes, first in first", ["check"], FALSE + nested(2**20, True) + "qed\n", "yes\n", 0),
        ("two million nodes, second in second", ["check"], FALSE + nested(2**20, False) + "qed\n", "yes\n", 0),
        ("a million cuts in a cover", ["check"], FALSE + "drop a s " + "cut 1 9 " * 10**6 + "by 1 " * (10**6 + 1) + "dead 1 qed\n", "yes\n", 0),
        ("a word that is no text", ["first", "\udcff"], TOUCHING, "bad words\n", 4),
        ("sixty-three levels of brackets", ["show"], f"geost 1 dims 1 rule r : {'[' * 64}true{']' * 64} ; end", "geost 1 dims 1\nrule r : true ;\nend\n", 0),
    ]
    for name, words, text, printed, status in tests:
        yield Case(f"hostile: {name}", lambda words=words, text=text, printed=printed, status=status: check(setting, words, text, printed, status))
    deep = f"geost 1 dims 1 rule r : {'[' * 100_000}"
    at = deep.index("[") + 64
    yield Case("hostile: a hundred thousand brackets", lambda: check(setting, ["show"], deep, f"refused {at} deep\n", 2))
    four = many_objects(200, "rule large : forall p in objects : forall q in objects : forall r in objects : forall s in objects : true ;")
    three = many_objects(200, "rule large : forall p in objects : forall q in objects : forall r in objects : true ;")
    pair = "forall p in objects : forall q in objects : p.x1 + q.x1 >= 0 ;"
    leaves = many_objects(200, " ".join(f"rule r{i} : {pair}" for i in range(26)))
    yield Case("hostile: more visits than are allowed", lambda: check_refused(setting, ["first", "1"], four, "large", "ground"))
    yield Case("hostile: eight million visits", lambda: want(answer(setting, ["show"], three)[1], 0, "the status"))
    yield Case("hostile: more leaves than are allowed", lambda: check_refused(setting, ["first", "1"], leaves, "r25", "ground"))
    yield Case("hostile: a tower of macros", lambda: check_refused(setting, ["show"], tower(64), "tall", "expand"))
    yield Case("hostile: a tower of arguments that are not used", lambda: check(setting, ["first", "1"], tower_of_unused(90), "layout\ntoken -\n", 0))
    yield Case("hostile: shapes of boxes of objects", lambda: check_refused(setting, ["first", "1"], many_shapes(), "free", "ground"))
    yield Case("hostile: texts that end in the middle", lambda: check_cut(setting))
