"""Refusals of every word are explained at the right line and column."""

from __future__ import annotations

from dataclasses import dataclass
from pathlib import Path

from harness import Case, Cases, Setting, run_tool, want, want_in

MARK = "▮"
MOST_COLUMNS = 160


@dataclass(frozen=True)
class Refusal:
    """A text in which a mark stands in front of the fault, its word, the sentence of FORMAT.md that is meant and a hint."""

    name: str
    text: str
    word: str
    sentence: str
    hint: str = ""
    plan: str | None = None


HEAD = "geost 1 dims 2 # Größe: zwei\r\n"
ONE = "shape s box 0 0 size 2 1 ;\n\tobject a as s at 0..9 0..9 with weight = 3 ; # Müll\r\n"
SECOND = "geost 2 dims 2\r\nshape s box 0 0 size 1 1 ;\n"
RULE = HEAD + ONE + "# über allem\nrule\tr : "
MACRO = HEAD + ONE + "macro on(p : object, n : int) means p.x1 > n ;\nmacro twice(n : int) is n + n ;\n"


def many(count: int, line: str) -> str:
    return "".join(line.replace("#", str(number)) for number in range(1, count + 1))


PROBLEMS = [
    Refusal("byte", HEAD + "# ä\n\tshape gr▮öße box 0 0 size 1 1 ;", "byte", "begins no token", "is no letter of names"),
    Refusal("byte of another language", RULE + "a.x1 > 1 ▮&& a.x2 > 1 ;\nend", "byte", "begins no token", "write `and`"),
    Refusal("number", HEAD + "\tshape s box 0 0 size ▮2000000000 1 ;", "number", "a run of digits", "above 1000000000"),
    Refusal("number with a unit", HEAD + "shape s box 0 0 size ▮12m 1 ;", "number", "a letter right behind", "units are not written"),
    Refusal("name", HEAD + f"\t\tshape ▮{'n' * 41} box 0 0 size 1 1 ;", "name", "more than 40 bytes", "41 bytes"),
    Refusal("syntax", HEAD + "# Ä\n\tobject a as s ▮on 0..9 0..9 ;", "syntax", "goes on in no problem", "`at`"),
    Refusal("syntax: misspelled", HEAD + ONE + "▮rul r : apart ;\nend", "syntax", "goes on in no problem", "did you mean `rule`?"),
    Refusal("syntax: reserved", HEAD + "shape ▮box box 0 0 size 1 1 ;", "syntax", "goes on in no problem", "reserved word"),
    Refusal("syntax: no semicolon", HEAD + "shape s box 0 0 size 2 1 # Höhe\n\t▮object a as s at 0..1 0..1 ;\nend", "syntax", "goes on", "a `;` is missing behind `1`"),
    Refusal("syntax: a double mark", RULE + "a.x1 =▮= 4 ;\nend", "syntax", "goes on in no problem", "one mark"),
    Refusal("syntax: round brackets", RULE + "not (a.x1 ▮= 4 or a.x1 = 5) ;\nend", "syntax", "goes on in no problem", "`)`"),
    Refusal("syntax: a bare range", HEAD + "object a as s at 0▮-9 0..9 ;", "syntax", "goes on in no problem", "with `..`"),
    Refusal("syntax: no end", HEAD + ONE + "▮", "syntax", "the end of the text", "`end`"),
    Refusal("deep", RULE + "[" * 64 + "▮[" + "true" + "]" * 65 + " ;\nend", "deep", "a 65th level"),
    Refusal("version", "# Dritte Fassung\r\ngeost ▮3 dims 2 end", "limit", "a version that is", "geost 1 dims K"),
    Refusal("dims of the second version", "geost 2\r\n\tdims ▮7 end", "limit", "a version that is", "where K is 1 to 6"),
    Refusal("pieces in the first version", HEAD + "shape s box 0 0 size 1 1 ;\nobject a as s at 0..1▮, 3..4 0..9 ;\nend", "syntax", "goes on in no problem"),
    Refusal("a ninth piece", SECOND + "object a as s at " + ", ".join(f"{3 * i}..{3 * i}" for i in range(8)) + ", ▮24..24 0..9 ;\nend", "limit", "9th piece", "at most 8 pieces"),
    Refusal("pieces that touch", SECOND + "object a as s at 0..9 0..1, ▮2..3 ;\nend", "range", "at most one above", "write one that begins at 3"),
    Refusal("a piece upside down", SECOND + "object a as s at 0..1, ▮9..5 0..9 ;\nend", "range", "low end is above", "`5..9` may be meant"),
    Refusal("a range too few, in pieces", SECOND + "object a as s at ▮0..1, 5..9 ;\nend", "limit", "are not exactly K", "1 stand there, and 2 are wanted"),
    Refusal("absent in the first version", HEAD + "shape s box 0 0 size 1 1 ;\nobject a as s, ▮absent at 0..1 0..9 ;\nend", "syntax", "goes on in no problem", "write `geost 2 dims K` at the front"),
    Refusal("absent without a shape", SECOND + "object a as ▮absent at 0..1 0..9 ;\nend", "syntax", "goes on in no problem", "write `object a as SHAPE, absent`"),
    Refusal("absent before a shape", SECOND + "object a as s, absent▮, s at 0..1 0..9 ;\nend", "syntax", "goes on in no problem", "behind all shapes of `a`"),
    Refusal("absent as a 17th shape", SECOND + many(16, "shape s# box 0 0 size 1 1 ;\n") + f"object a as {', '.join(f's{n}' for n in range(1, 17))}, ▮absent at 0..1 0..9 ;\nend", "limit", "the word `absent` behind 16 shapes"),
    Refusal("dims", "geost 1\r\n\tdims ▮5 end", "limit", "dims that is not 1 to 4"),
    Refusal("a size too few", HEAD + "\tshape s box 0 0 size ▮2 ;\nend", "limit", "are not exactly K", "1 stand there, and 2 are wanted"),
    Refusal("a range too many", HEAD + "shape s box 0 0 size 1 1 ;\nobject a as s at ▮0..9 -1..9 0..9 ;\nend", "limit", "are not exactly K", "3 stand there"),
    Refusal("an end too far", HEAD + "shape s box 0 0 size 1 1 ;\nobject a as s at 0..▮1000001 0..9 ;\nend", "limit", "an end of a range or an offset"),
    Refusal("the 17th box", HEAD + "shape s" + " box 0 0 size 1 1" * 16 + "\n\t▮box 0 0 size 1 1 ;\nend", "limit", "the word `box` of a 17th box"),
    Refusal("the 201st object", HEAD + "shape s box 0 0 size 1 1 ;\n" + many(200, "object o# as s at 0..9 0..9 ;\n") + "object ▮last as s at 0..9 0..9 ;\nend", "limit", "201st object"),
    Refusal("div by 0", RULE + "7 div ▮0 = 0 ;\nend", "limit", "behind `div` or `mod`"),
    Refusal("twice", HEAD + ONE + "# nochmal, größer\n\tobject ▮a as s at 0..9 0..9 ;\nend", "twice", "a name that its list has", "in line 3, column 9"),
    Refusal("twice: a field", HEAD + "shape s box 0 0 size 1 1 ;\nobject a as s at 0..9 0..9 with ▮sid = 1 ;\nend", "twice", "an attribute called", "has the field `sid` anyway"),
    Refusal("twice: order", HEAD + ONE + "order a ;\n▮order a ;\nend", "twice", "a second `order`", "in line 4, column 1"),
    Refusal("unknown shape", HEAD + "shape crate box 0 0 size 1 1 ;\n# Kiste\r\n\tobject a as ▮crat at 0..9 0..9 ;\nend", "unknown", "a shape behind `as`", "did you mean `crate`?"),
    Refusal("range", HEAD + "shape s box 0 0 size 1 1 ;\nobject a as s at 0..9 ▮9..-3 ;\nend", "range", "whose low end is above", "`-3..9` may be meant"),
    Refusal("size", HEAD + "# öde\n\tshape s box 0 0 size 1 ▮0 ;\nend", "size", "a size that is not 1"),
    Refusal("order", HEAD + ONE + "object b as s at 0..9 0..9 ;\r\n\t▮order a ;\nend", "order", "leaves an object out", "it leaves out: `b`"),
    Refusal("unknown name", RULE + "a.x1 > 1 or ▮b.x1 > 1 ;\nend", "unknown", "a name of no variable", "objects: `a`"),
    Refusal("a quantifier that has ended", RULE + "forall p in objects : p.x1 > 1 and ▮p.x2 > 1 ;\nend", "unknown", "a name of no variable", "put a compound body in `[ ]`"),
    Refusal("unknown macro", MACRO + "rule r : @▮onn(a, 1) ;\nend", "unknown", "a macro that is not made before", "did you mean `on`?"),
    Refusal("a macro further down", HEAD + ONE + "rule r : true ;\nmacro f(p : object) is $▮g(p) ;\nmacro g(p : object) is p.x1 ;\nend", "unknown", "a macro that is not made before", "further down"),
    Refusal("a listed name twice", RULE + "exists p in objects (a, ▮a) : p.x1 > 1 ;\nend", "twice", "that `objects ( )` has"),
    Refusal("kind", RULE + "▮a <= 4 ;\nend", "kind", "a name alone that is no `int`", "such as `a.x1`"),
    Refusal("kind: the mark", MACRO + "\trule r : ▮@twice(1) ;\nend", "kind", "the mark of a call", "called with `$`"),
    Refusal("args", MACRO + "rule r : ▮@on(a) ;\nend", "args", "another number of arguments", "macro on ( p : object , n : int )"),
    Refusal("unknown field", RULE + "a.▮wieght > 1 ;\nend", "unknown", "a field that the object", "did you mean `weight`?"),
    Refusal("expand", HEAD + ONE + "macro m0() is 1 ;\n" + "".join(f"macro m{i}() is $m{i - 1}() + $m{i - 1}() ;\n" for i in range(1, 16)) + "\trule ▮r : $m15() <= a.x1 ;\nend", "expand", "20,000 formulas"),
    Refusal("product", HEAD + ONE + "# ß\n\trule ▮r : a.x1 * a.x2 <= 4 ;\nend", "product", "multiplies two expressions", "see `a.x1 * a.x2`"),
    Refusal("overflow", HEAD + ONE + "# ß\n\trule ▮r : 1000000000 * 1000000000 <= a.x1 ;\nend", "overflow", "passes 10^15"),
    Refusal("long", "#" + "x" * 1048575 + "▮\nend", "long", "more bytes than that"),
]

SOLVED = HEAD + ONE + "object b as s at 0..9 0..9 ;\nend\n"
PLANS = [
    Refusal("plan: byte", SOLVED, "byte", "begins no token", "", "# Plan für heute\r\nlayout\n\ta as s at 0 0 ▮{ }"),
    Refusal("plan: syntax", SOLVED, "syntax", "goes on in no problem", "`at`", "layout\r\n\ta as s ▮in 0 0"),
    Refusal("plan: order", SOLVED, "order", "the first name that is not", "the line of `a`", "# ü\r\nlayout\n\t▮b as s at 0 0\na as s at 0 0"),
    Refusal("plan: a line is missing", SOLVED, "order", "where one is missing", "the line of `b`", "layout\na as s at 0 0\n▮token 1,0,0"),
    Refusal("plan: one too many", SOLVED, "order", "is one too many", "2 objects", "layout\na as s at 0 0\nb as s at 2 0\n▮c as s at 4 0"),
    Refusal("plan: unknown", SOLVED, "unknown", "a shape that the object may not take", "shapes of `b`: `s`", "layout a as s at 0 0 # ö\r\n\tb as ▮ss at 2 0"),
    Refusal("plan: limit", SOLVED, "limit", "coordinates that are not exactly K", "2 coordinates are wanted", "layout\na as s at ▮0 0 0\nb as s at 2 0"),
    Refusal("plan: range", SOLVED, "range", "in no piece of the object's range", "x2 of `b` lies in 0..9", "layout\na as s at 0 0\n\tb as s at 0 ▮-4"),
    Refusal("plan: token", SOLVED, "token", "says another layout", "", "layout\na as s at 0 0\nb as s at 2 0\n▮token 1,0,0/1,2,1"),
]

OPTIONAL = SECOND + "object a as s at 0..9 0..9 ;\nobject b as s, absent at 0..9 0..9 ;\nend\n"
PLANS += [
    Refusal("plan: absent of what has to be there", OPTIONAL, "unknown", "of one that may not be left out", "write `a as s at ..`", "layout\na ▮absent\nb absent"),
    Refusal("plan: as absent", OPTIONAL, "syntax", "goes on in no problem", "write `b absent`", "layout\na as s at 0 0\nb as ▮absent"),
    Refusal("plan: a line too many behind absent", OPTIONAL, "order", "is one too many", "2 objects", "layout\na as s at 0 0\nb absent\n▮c absent"),
    Refusal("plan: a line is missing behind absent", OPTIONAL, "order", "the first name that is not", "the line of `a`", "layout\n▮b absent\na as s at 0 0"),
]

# `ground` takes the program long to find, so its answer is given
GROUND = Refusal("ground", HEAD + ONE + "\trule ▮r : forall p in objects : p.x1 > 1 ;\nend", "ground", "conditions are too many")


def marked_spot(text: str) -> tuple[int, int, int]:
    """Line and column of the mark in characters, and its place in bytes."""
    before = text[: text.index(MARK)]
    return before.count("\n") + 1, len(before) - before.rfind("\n"), len(before.encode())


def check(setting: Setting, case: Refusal, folder: Path) -> None:
    files = [(f"{folder}/problem.geost", case.text)]
    if case.plan is not None:
        files.append((f"{folder}/plan.plan", case.plan))
    for name, text in files:
        with open(name, "w", encoding="utf-8", newline="") as file:
            file.write(text.replace(MARK, ""))
    marked = files[-1]
    line, column, place = marked_spot(marked[1])
    words = ["judge"] if case.plan is not None else ["show"]
    if case is GROUND:
        words = ["--answer", f"refused {place} ground"]
    printed, status = run_tool("explain", setting, [*words, *(name for name, _ in files)])
    want(status, 2, "status")
    want_in(f"{marked[0]}:{line}:{column}: {case.word}\n", printed)
    want_in("this is: ", printed)
    want_in(case.sentence, printed)
    want_in(case.hint, printed)
    check_caret(printed, marked[1], line, column)


def check_caret(printed: str, text: str, line: int, column: int) -> None:
    """The line stands there as it is written, and under it the mark at the same width of tabs and
    signs; of a very long line a part stands there."""
    content = text.replace(MARK, "").split("\n")[line - 1].rstrip("\r")
    lines = printed.split("\n")
    at = next(number for number, found in enumerate(lines) if f":{line}:{column}: " in found)
    lead = lines[at + 2][4:].partition("^")[0]
    if len(content) > MOST_COLUMNS:
        part = lines[at + 1][4:].removeprefix(".. ").removesuffix(" ..")
        want_in(part, content)
        want(lines[at + 1][4 : 4 + len(lead)][-20:], content[: column - 1][-20:], "before the caret")
        return
    want(lines[at + 1], "    " + content, "the line")
    blanks = "".join("\t" if sign == "\t" else " " for sign in content[: column - 1])
    want(lead, blanks, "what stands before the caret")


def cases(setting: Setting, folder: Path) -> Cases:
    for number, refusal in enumerate([*PROBLEMS, *PLANS, GROUND]):
        own = folder / f"explain{number}"
        own.mkdir()
        yield Case(f"explain {refusal.name}", lambda refusal=refusal, own=own: check(setting, refusal, own))
