"""What newcomers write is refused with a word of what to write instead."""

from __future__ import annotations

import re
from dataclasses import dataclass
from pathlib import Path

from geost.refusals import Kind, Source, explain_refusal
from geost.slips import compiled, known_slips, marked_statement
from geost.text import end_of_first_text
from geost.words import meant
from harness import Case, Cases, Failed, Setting, run_tool, want, want_in

FRONT = """geost 1 dims 2
shape tile box 0 0 size 2 1 ;
shape turned box 0 0 size 1 2 ;
object one as tile , turned at 0..5 0..3 with weight = 30 ;
object two as tile at 0..5 0..3 ;
macro flat(p : object) means p.x2 = 0 ;
macro twice(n : int) is n + n ;
rule free : apart ;
"""

# a rule, and what has to stand in the advice
RULES = {
    "0 < one.x1 < 4": "write `a < b and b < c`",
    "one.x1 >= two.x1 >= 1": "write `a >= b and b >= c`",
    "exists p, q in objects : p.x1 = q.x1": "write `exists p in objects : exists q in objects",
    "forall p : p.x1 = 0": "write `forall p in objects : ..`",
    "forall p in objects where p.weight > 3 : p.x2 = 0": "[ A implies B ]",
    "forall p in objects such that p.weight > 3 : p.x2 = 0": "[ A implies B ]",
    "forall p in objects p.x1 = 0": "write `.. in objects : p",
    "forall p in (one, two) : p.x1 = 0": "write `forall p in objects (a , b) : ..`",
    "forall p in tile : p.x1 = 0": "write `forall p in objects : [ p.sid = shape tile",
    "forall i in 1..3 : one.x1 = i": "write `forall i in objects : ..`",
    "forall s in boxes : s.l1 = 1": "write `boxes of p`",
    "for all p in objects : p.x1 = 0": "write `forall p in objects : ..`",
    "every p in objects : p.x1 = 0": "write `forall p in objects : ..`",
    "exactly 1 p in objects : p.x1 = 0": "atleast 2 p in objects : A and atmost 2 p in objects : A",
    "exists 2 p in objects : p.x1 = 0": "write `atleast 2 p in objects : ..`",
    "at most 2 p in objects : p.x1 = 0": "write `atmost`, in one word",
    "atmost 1 objects : one.x1 = 0": "write `atmost 1 p in objects : ..`",
    "atleast p in objects : p.x1 = 0": "write `atleast 2 p in objects : ..`",
    "count(p in objects : p.x1 = 0) <= 2": "write `atleast 2 p in objects : ..`",
    "sum(p in objects : p.weight) <= 40": "write the terms out",
    "one.weight + sum(two.weight) <= 40": "write the terms out",
    "abs(one.x1 - two.x1) <= 2": "write `[ e <= n and - n <= e ]`",
    "|one.x1 - two.x1| <= 2": "write `[ e <= n and - n <= e ]`",
    "sqrt(one.weight) = 3": "write it with `+`, `-`, `*`, `div`",
    "max(one.weight, two.weight, 3) = 4": "write `max(a, max(b, c))`",
    "mod(one.weight, 2) = 0": "write `e mod 3`",
    "one.x1 = 0 AND two.x1 = 0": "write `and`",
    "NOT one.x1 = 0": "write `not`",
    "Forall p in objects : p.x1 = 0": "write `forall`",
    "one.x1 = 0 => two.x1 = 2": "write `implies`",
    "one.x1 = 0 -> two.x1 = 2": "write `implies`",
    "one.x1 = 0 <-> two.x1 = 2": "write `iff`",
    "one.x1 == 3": "write `=` once",
    "one.x1 =< 3": "write `<=`",
    "one.x1 <> 3": "write `!=`",
    "one.x1 ≤ 3": "write `<=`",
    "∀ p in objects : p.x1 = 0": "write `forall",
    "one.x1 = 0 && two.x1 = 0": "write `and`",
    "one.x1 = 0 || two.x1 = 0": "write `or`",
    "if one.x1 = 0 then two.x1 = 2": "write `[ A implies B ]`",
    "one.x1 = 0 unless two.x1 = 2": "write `[ B or A ]`",
    "one.x1 = 0 xor two.x1 = 0": "write `not [ A iff B ]`",
    "(one.x1 = 0) or (two.x1 = 0)": "write `[ .. ]`",
    "not (one.x1 = 0 or two.x1 = 1)": "write `[ .. ]`",
    "(not one.x1 = 0)": "write `[ not .. ]`",
    "one.x1 = [ 1 + 2 ]": "write `( .. )`",
    "[ one.x1 = 0 or two.x1 = 0": "write its `]`",
    "one.x1 = 0 implies two.x1 = 0 implies one.x2 = 0": "write `[ A implies B ] implies C`",
    "one.x1 in 0..3": "write `[ 0 <= e and e <= 3 ]`",
    "one.x1 in {0, 3}": "write `[ e = 0 or e = 3 ]`",
    "one.x1 between 1 and 3": "write `[ 1 <= e and e <= 3 ]`",
    "one.x1 not in 0..3": "write `[ a.x1 < 0 or a.x1 > 3 ]`",
    "one.x1 is 3": "write `=`",
    "one.x1 greater than 3": "write `<`, `<=`, `>` or `>=`",
    "one at 3 2": "write `one.x1 = 3 and one.x2 = 2`",
    "one above two": "write it with coordinates",
    "one.x1 + 1": "write `e = 1`",
    "one.x1 = 0, two.x1 = 0": "write `and`",
    "one.x1 = 1.5": "in a smaller unit",
    "one.x1 = 1e3": "write the zeros out",
    "one.x1 = 12cm": "write `12`",
    "2 one.x1 = 4": "write `2`, or `2 * one`",
    "one.x1 / 2 = 1": "write `div`",
    "one.x1 ** 2 = 4": "write a product of numbers",
    "one.x1 * two.x1 = 0": "write `[ a.x1 = 0 or b.x1 = 0 ]`",
    "one.x1 div 3 = 1": "in place of `e div 3 = 2`",
    "min(one.x1, two.x1) = 0": "in place of `max(a.x1, b.x1) <= 3`",
    "flat(one)": "write `@flat(..)`",
    "twice(3) = 6": "`$` in place of `@` for a number",
    "@twice(3) = 6": "write `$twice(..)`",
    "@flat one": "write `@flat(..)`",
    "@flat(one, two)": "write one argument for each parameter",
    "@tall(one)": "write `macro tall(..)` further up",
    "one.shape = tile": "write `one.sid = shape NAME`",
    "one.sid = tile": "write `shape tile`",
    "one.l1 <= 3": "write `exists s in boxes of one : [ .. s.l1 .. ]`",
    "one.width <= 3": "write `exists s in boxes of one : [ .. s.l1 .. ]`",
    "one.x <= 3": "write `one.x1`",
    "one.y <= 3": "write `one.x2`",
    "one.x[1] <= 3": "write `x1`",
    "x1(one) <= 3": "write `one.x1`",
    "weight <= 3": "write `p.weight`",
    "p.weight <= 3": "write `forall p in objects :` before",
    "one.kind = food": "write a number for each word",
    'one.kind = "food"': "names stand without quotes: write",
    "one = two": "write `one.id = two.id`",
    "one < 3": "write a field of it, such as `one.x1 < 3`",
    "apart(one, two)": "write `apart` alone",
    "within one 0..5 0..3": "write `[ 0 <= one.x1 and one.x1 <= 5 ]`",
    "within 0..5, 0..3": "write `within 0..9 0..9`",
    "one within 0..5 0..3": "write `rule NAME : within ..`",
    "forall p in objects : p.x1 >= 0 and p.x2 >= 0": "write `: [ .. ]`",
}

# statements, and what has to stand in the advice
STATEMENTS = {
    "object box-1 as tile at 0..5 0..3 ;": "`box` is a reserved word",
    "object crate-1 as tile at 0..5 0..3 ;": "write `crate_..` with `_`",
    "object crate 1 as tile at 0..5 0..3 ;": "write `crate_1`",
    "object 2nd as tile at 0..5 0..3 ;": "write `_2nd` or `nd2`",
    "object c[3] as tile at 0..5 0..3 ;": "write `object c_1 ..`",
    "object c, d as tile at 0..5 0..3 ;": "each object has a statement of its own: write",
    "object c tile at 0..5 0..3 ;": "write `object c as tile at RANGES`",
    "object c : tile at 0..5 0..3 ;": "with `as` in place of `:`",
    "object c as tile 0..5 0..3 ;": "write `at 0..9 0..9`",
    "object c as tile or turned at 0..5 0..3 ;": "write `as SHAPE , SHAPE at RANGES`",
    "object c as tile at 3 2 ;": "write `3..3 2..2` for one place",
    "object c as tile at 0..5 0 ;": "write `0..0` for one place",
    "object c as tile at 0-5 0-3 ;": "write `0..5`",
    "object c as tile at 0..5, 0..3 ;": "write `at 0..9 0..9`",
    "object c as tile at (0..5) (0..3) ;": "without brackets: write",
    "object c as tile at 5..0 0..3 ;": "`0..5` may be meant: write that",
    "object c as tile at 0..5 0..3 with weight 3 ;": "write `weight = 3`",
    "object c as tile at 0..5 0..3 with weight = 3.5 ;": "in a smaller unit",
    "object c as tile at 0..5 0..3 with weight = heavy ;": "write a number for each word",
    "object c as tile at 0..5 0..3 with weight = 3 high = 1 ;": "here may stand `,`, `;`",
    "object c as tile at 0..5 0..3 with weight = 3 tall = 1 ;": "write `, tall = ..`",
    "object c as tile at 0..5 0..3 with weight = 3 kg ;": "write `weight = 3`",
    "object c as tile at 0..5 0..3 weight = 3 ;": "write `with weight = ..`",
    "object c as crate at 0..5 0..3 ;": "write `shape crate box ..` somewhere",
    "shape s 2 1 ;": "write `shape s box 0 0 size 2 1`",
    "shape s box 2 1 ;": "write `box 0 0 size 2 1`",
    "shape s box (0,0) size (2,1) ;": "without brackets: write `box 0 0`",
    "shape s box 0 0 size 2x1 ;": "`2 1`",
    "shape s box 0 0 size 2.5 1 ;": "in a smaller unit",
    "shape s box 0 0 size 2 1, box 2 0 size 1 1 ;": "write `box .. size .. box .. size ..`",
    "shape s box 0 0 size 0 1 ;": "write 1 or more",
    "order two one ;": "write `order a , b`",
    "order two ;": "write them too; it leaves out: `one`",
    "sides left right ;": "write `sides low high`",
    "macro k(p) means p.x1 = 0 ;": "write `p : object`",
    "macro k(object p) means p.x1 = 0 ;": "write `p : object`",
    "macro k means one.x1 = 0 ;": "write `macro k() means ..`",
    "macro k(p : object) is p.x1 = 0 ;": "write `means` in place of `is`",
    "macro k(p : object) means p.x1 + 1 ;": "write `is` in place of `means`",
    "rule my rule : apart ;": "write `rule my_rule : ..`",
    "rule q apart ;": "write `rule q : apart ..`",
    "rule one.x1 = 0 ;": "write `rule NAME : one. ..`",
    "constraint one.x1 = 0 ;": "write `rule NAME : ..`",
    "forall p in objects : p.x1 = 0 ;": "write `rule NAME : forall ..`",
    "minimize one.x1 ;": "a problem states no goal",
    "container 0..5 0..3 ;": "write `rule NAME : within 0..9 0..9 ;`",
    "// a comment": "write `#` in place of `//`",
    "% a comment": "write `#` in place of `%`",
    "rule q : apart": "a `;` is missing behind `apart`",
}

WHOLE = FRONT + "end\n"
HARD_SPACE = WHOLE.replace("object one", "object\u00a0one")
ENDED_HEAD = WHOLE.replace("dims 2", "dims 2 ;")
TEXTS: dict[str, tuple[bytes, str]] = {
    "a byte order mark": (b"\xef\xbb\xbf" + WHOLE.encode(), "write it as UTF-8 without one"),
    "UTF-16": (WHOLE.encode("utf-16"), "the file is UTF-16: write it as UTF-8"),
    "UTF-16 without a mark": (WHOLE.encode("utf-16-be"), "the file is UTF-16"),
    "Latin-1": (WHOLE.replace("one", "öne").encode("latin-1"), "the file is not UTF-8"),
    "a no-break space": (HARD_SPACE.encode(), "write a plain space"),
    "quotes": (WHOLE.replace(" one", " “one”").encode(), "names stand without quotes: write"),
    "no end": (FRONT.encode(), "write `end` behind the last statement"),
    "a large END": ((FRONT + "END\n").encode(), "write `end`"),
    "something behind the end": ((FRONT + "end ;\n").encode(), "write `end` alone"),
    "no first line": (WHOLE.partition("\n")[2].encode(), "write `geost 1 dims 2`"),
    "dims alone": (WHOLE.replace("geost 1 ", "").encode(), "write `geost 1 dims 2`"),
    "a semicolon in front": (ENDED_HEAD.encode(), "none behind the first line"),
    "five dimensions": (b"geost 1 dims 7\nend\n", "write `geost 1 dims K`"),
}

PLANS = {
    "one as tile at 0 0\ntwo as tile at 2 0\n": "write `layout` first",
    "layout\none at 0 0\ntwo as tile at 2 0\n": "write `one as SHAPE at 0 0`",
    "layout\none as tile 0 0\ntwo as tile at 2 0\n": "write `as tile at 0 0`",
    "layout\none as tile at 0, 0\ntwo as tile at 2 0\n": "write `at 0 0`",
    "layout\none as tile at 0..0 0\ntwo as tile at 2 0\n": "write one number for each coordinate",
    "layout\none as tile at 0 0\ntwo as tile at 2 0\nend\n": "leave it out; write one line for",
}

WORDS = {
    "first 1e6": "write 1000000 in place of `1e6`",
    "first 10^6": "write 1000000 in place of `10^6`",
    "first 1,000": "write 1000 in place of `1,000`",
    "first 0100": "write 100 in place of `0100`",
    "first 0": "write 1000 to begin with",
    "first many": "write digits alone",
    "first": "write `first 1000`",
    "first 100 my.geost": "write `geost first 100 < my.geost`",
    "judge my.geost my.plan": "write `cat my.geost my.plan | geost judge`",
    "frist 100": "write `first`",
    "solve": "write `first 1000`",
    "all 10": "write `all 10 1000`",
    "first 2000000000000": "write a lesser number",
    "": "write a command first",
}


@dataclass(frozen=True)
class Told:
    """A text that is refused, and what has to stand in the lines that explain it."""

    name: str
    text: bytes
    wanted: str


def explained(setting: Setting, text: bytes, second_from: int | None, words: list[str]) -> str:
    answer = setting.program.ask(words, text)
    if answer.status != 2:
        raise Failed(f"it is not refused: {answer.text}")
    _, place, word = answer.words()
    lines = explain_refusal(word, int(place), [Source("my.geost", text)], second_from)
    return "\n".join(lines)


def check_told(setting: Setting, told: Told) -> None:
    want_in(told.wanted, explained(setting, told.text, None, ["show"]))


def check_plan(setting: Setting, plan: str, wanted: str) -> None:
    text = (WHOLE + plan).encode()
    want_in(wanted, explained(setting, text, end_of_first_text(text), ["judge"]))


def check_words(setting: Setting) -> None:
    """tools/explain runs words that have no form, and says what to write instead of them."""
    printed, status = run_tool("explain", setting, ["first", "1e6"], WHOLE)
    want(status, 4, "the status")
    want(printed.splitlines()[0], "bad words", "what the program prints")
    want_in("write 1000000 in place of `1e6`", printed)
    want_in("    geost first N\n", printed)


def check_derivation(setting: Setting) -> None:
    """What stands in a derivation is no slip of a plan, and its faults are those of derivations."""
    text = (WHOLE + "none\ngone three [ ]\nqed\n").encode()
    _, place, word = setting.program.ask(["check"], text).words()
    source = Source("my.geost", text)
    lines = explain_refusal(word, int(place), [source], end_of_first_text(text), Kind.DERIVATION)
    want(word, "unknown", "the word")
    want_in("a name of no object, a shape that is not in the object's list", "\n".join(lines))


def check_long_line(setting: Setting) -> None:
    """Of a very long line what stands around the fault is shown, and the mark stands under it."""
    for before, behind in ((400, 400), (10, 400), (400, 0)):
        line = f"rule r : {'true and ' * (before // 9)}nobody.x1 = 0 {'and true ' * (behind // 9)};"
        text = f"{FRONT}{line}\nend\n".encode()
        printed = explained(setting, text, None, ["show"]).split("\n")
        want(len(printed[1]) <= 160, True, f"a line of {len(printed[1])} columns is shown")
        column = printed[2].index("^")
        want(printed[1][column : column + 6], "nobody", "what stands over the mark")
        want(printed[2].strip(), "^" * 6, "the mark")
        want(int(printed[0].split(":")[2]), line.index("nobody") + 1, "the column")
        shown = printed[1].strip().removeprefix(".. ").removesuffix(" ..")
        want_in(shown, line)


REFUSALS = "syntax syntax-first unknown unknown-far byte number size kind limit order".split()


def check_patterns() -> None:
    """Each slip is of a known refusal, marks its token, and fills what its advice names."""
    for slip in known_slips():
        plain = [refusal.removeprefix("plan:") for refusal in slip.refusals]
        want([word for word in plain if word not in REFUSALS], [], "words that are no refusal")
        want_in("▮", slip.pattern)
        want_in("write", slip.advice)
        groups = re.compile(compiled(slip.pattern, {"object": ["a"]}).pattern).groups
        named = [int(number) for number in re.findall(r"\{(\d)\}", slip.advice)]
        want([number for number in named if number > groups], [], f"groups of {slip.pattern}")


def check_statement() -> None:
    """The statement of a place, with the mark in front of its token."""
    text = FRONT.encode() + b"rule r : one.x1 = 0 ; # here\nrule q : 0 <= one.x1 <= 9 ;\nend\n"
    place = text.index(b"<= 9")
    want(marked_statement(text, place), "rule q : 0 <= one . x1 ▮<= 9 ; end", "the statement")
    want(marked_statement(text, len(text)), "end ▮", "the end of the text")
    want(marked_statement(text, 6)[:18], "geost ▮1 dims 2 sh", "the first line")


def cases(setting: Setting, folder: Path) -> Cases:
    lines = [(f"rule r : {rule} ;", wanted) for rule, wanted in RULES.items()]
    lines += STATEMENTS.items()
    told = [Told(line, f"{FRONT}{line}\nend\n".encode(), wanted) for line, wanted in lines]
    told += [Told(name, text, wanted) for name, (text, wanted) in TEXTS.items()]
    for slip in told:
        yield Case(f"slip: {slip.name}", lambda slip=slip: check_told(setting, slip))
    for plan, wanted in PLANS.items():
        name = plan.replace("\n", " ")
        yield Case(f"slip: {name}", lambda p=plan, w=wanted: check_plan(setting, p, w))
    for words, wanted in WORDS.items():
        said = "\n".join(meant(words.split()))
        yield Case(f"slip: the words {words!r}", lambda w=wanted, said=said: want_in(w, said))
    yield Case("slip: words that tools/explain runs", lambda: check_words(setting))
    yield Case("slip: a derivation", lambda: check_derivation(setting))
    yield Case("slip: a very long line", lambda: check_long_line(setting))
    yield Case("slip: the patterns", check_patterns)
    yield Case("slip: the statement of a place", check_statement)
