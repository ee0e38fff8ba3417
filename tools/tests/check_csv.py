"""Tables of items become problems that the program takes, and layouts become tables again."""

from __future__ import annotations

import csv
import io
import subprocess
import sys
from collections import Counter
from pathlib import Path

import oracle
from geost.items import TableFault, object_names, problem_lines, read_table
from geost.names import name_for, names_for
from geost.rows import rows_of
from geost.text import read_layout, read_problem
from harness import TOOLS, Case, Cases, Failed, Setting, want, want_in

ITEMS = """name,size,count,turnable,weight,kind
Kühlschrank (groß),3x2,1,no,80,weiß
"Kiste ""Wein"", rot",2x1,2,yes,12,glas
end,1x1,1,,,weiß
"""
SPACE = (4, 3)
PROBLEM = """geost 1 dims 2
# word of kind: 1 = weiß
# word of kind: 2 = glas
shape s3x2 box 0 0 size 3 2 ;
shape s2x1 box 0 0 size 2 1 ;
shape s1x2 box 0 0 size 1 2 ;
shape s1x1 box 0 0 size 1 1 ;
# Kühlschrank (groß)
object Kuehlschrank_gross as s3x2 at 0..1 0..1 with weight = 80, kind = 1 ;
# Kiste "Wein", rot
object Kiste_Wein_rot_1 as s2x1, s1x2 at 0..3 0..2 with weight = 12, kind = 2 ;
object Kiste_Wein_rot_2 as s2x1, s1x2 at 0..3 0..2 with weight = 12, kind = 2 ;
# end
object _end as s1x1 at 0..3 0..2 with kind = 1 ;
rule free : apart ;
rule room : within 0..3 0..2 ;
end
"""
# the large one at the corner, a crate along the free row, one turned in the free column, the rest
LAYOUT = """layout
Kuehlschrank_gross as s3x2 at 0 0
Kiste_Wein_rot_1 as s2x1 at 0 2
Kiste_Wein_rot_2 as s1x2 at 3 0
_end as s1x1 at 2 2
"""
ROWS = """name,object,shape,x1,x2,l1,l2,weight,kind
Kühlschrank (groß),Kuehlschrank_gross,s3x2,0,0,3,2,80,weiß
"Kiste ""Wein"", rot",Kiste_Wein_rot_1,s2x1,0,2,2,1,12,glas
"Kiste ""Wein"", rot",Kiste_Wein_rot_2,s1x2,3,0,1,2,12,glas
end,_end,s1x1,2,2,1,1,,weiß
"""
FAULTS = {
    "name,size\n": "write both",
    "name,weight\na,3\n": "write a column `size`",
    "size\n3x2\n": "write a column `name`",
    "name,size\na,3x2.5\n": "line 2: 2.5 is no whole number: write --times 10",
    "name,size\na,3xb\n": "line 2: 'b' is no size",
    "name,size\na,3x0\n": "line 2: 0 is not within 1 to 1000000",
    "name,size\na,3x2x1\n": "line 2: 3 sizes, and the space has 2",
    "name,size\na,5x1\n": "line 2: 'a' has no room in the space",
    "name,size,count\na,1x1,some\n": "line 2: 'some' is no count",
    "name,size,count\na,1x1,201\n": "201 objects, and 200 are the most",
    "name,size,turnable\na,1x1,maybe\n": "line 2: write `no`, `floor` or `all`",
    "name,size,weight\na,1x1,2.5\n": "line 2: weight is no whole number",
    "name,size,weight\nb,1x1,3\na,1x1,5000000000\n": "line 3: weight passes 1000000000",
}
NAMES = {
    "crate": "crate",
    "Crate 12/3": "Crate_12_3",
    "high": "_high",
    "2nd shelf": "_2nd_shelf",
    "Œuvre d'Été": "uvre_d_Ete",
    "キッチン": "item",
    "--": "item",
    "x" * 50: "x" * 36,
}


def problem_of(content: bytes, space: tuple[int, ...] = SPACE, times: int = 1) -> str:
    return "".join(f"{line}\n" for line in problem_lines(read_table(content, times), space))


def check_problem() -> None:
    """The problem of a table, as it was written by hand, from each way of writing the table."""
    want(problem_of(ITEMS.encode()), PROBLEM, "the problem")
    want(problem_of(b"\xef\xbb\xbf" + ITEMS.encode()), PROBLEM, "with a byte order mark")
    want(problem_of(ITEMS.encode("utf-16")), PROBLEM, "as UTF-16")
    want(problem_of(ITEMS.encode("cp1252")), PROBLEM, "with the letters of Windows")
    want(problem_of(ITEMS.replace("\n", "\r\n").encode()), PROBLEM, "with ends of lines of Windows")
    rows = list(csv.reader(io.StringIO(ITEMS)))
    for mark in (";", "\t"):
        written = io.StringIO()
        csv.writer(written, delimiter=mark).writerows(rows)
        want(problem_of(written.getvalue().encode()), PROBLEM, f"with {mark!r} between columns")


def check_columns() -> None:
    """Sizes in columns of their own, in another unit, and items that lie on each side."""
    table = "Artikel;Länge (m);Breite;Höhe;Anzahl;drehbar\nKiste;1,5 m;2;0.5;2;all\n"
    shapes = "s15x20x5, s15x5x20, s20x15x5, s20x5x15, s5x15x20, s5x20x15"
    wanted = f"object Kiste_2 as {shapes} at 0..15 0..15 0..15 ;\n"
    want_in(wanted, problem_of(table.encode(), (20, 20, 20), 10))
    low = problem_of(table.encode(), (20, 20, 5), 10)
    want_in("object Kiste_1 as s15x20x5, s20x15x5 at 0..5 0..5 0..0 ;", low)
    want("s5x15x20" in low, False, "a side on which it has no room is a shape")


def check_table() -> None:
    """The table of a layout, as it was written by hand."""
    written = io.StringIO()
    rows = rows_of(read_problem(PROBLEM.encode()), PROBLEM, read_layout(LAYOUT.encode()))
    csv.writer(written, lineterminator="\n").writerows(rows)
    want(written.getvalue(), ROWS, "the table")


def check_names() -> None:
    want({words: name_for(words, False) for words in NAMES}, NAMES, "the names")
    want(name_for("x1", True), "_x1", "the name of an attribute like a field")
    want(names_for(["a b", "a-b", "a_b"]), ["a_b", "a_b_2", "a_b_3"], "names of equal words")
    table = read_table(b"name,size,count\na,1x1,2\na 1,1x1,1\na,1x1,1\n")
    want(object_names(table.items), [["a_1", "a_2"], ["a_1_2"], ["a"]], "names of objects")


def check_fault(table: str, wanted: str) -> None:
    try:
        problem_of(table.encode())
    except TableFault as fault:
        want_in(wanted, str(fault))
        want_in("write", str(fault))
        return
    raise Failed("the table is taken")


def check_round_trip(setting: Setting, folder: Path) -> None:
    """The program takes the problem, and the table of its layout has each item as often as the
    table of items, without overlap and inside the space."""
    folder.mkdir()
    (folder / "items.csv").write_text(ITEMS)
    words = [str(folder / "items.csv")]
    problem = run_script(["problem", "--space", "4x3", *words])
    want(problem, PROBLEM, "what tools/csv prints")
    answer = setting.program.ask(["first", "1000"], problem.encode())
    want(answer.status, 0, "the status of first")
    (folder / "items.geost").write_text(problem)
    (folder / "items.plan").write_text(answer.text)
    files = [str(folder / "items.geost"), str(folder / "items.plan")]
    rows = list(csv.DictReader(io.StringIO(run_script(["table", *files]))))
    given = Counter({row["name"]: int(row["count"]) for row in csv.DictReader(io.StringIO(ITEMS))})
    want(Counter(row["name"] for row in rows), given, "the names of the table")
    layout = read_layout(answer.text.partition("token")[0].encode())
    want(oracle.broken_rules(read_problem(problem.encode()), layout), [], "broken rules")
    (folder / "none").write_text("budget 3\n")
    told, status = run_plain(["table", str(folder / "items.geost"), str(folder / "none")])
    want(status, 1, "the status where there is no layout")
    want_in("no layout, but 'budget 3'", told)


def run_script(words: list[str]) -> str:
    printed, status = run_plain(words)
    want(status, 0, f"the status of tools/csv: {printed}")
    return printed


def run_plain(words: list[str]) -> tuple[str, int]:
    """What tools/csv prints on both streams, and its status."""
    command = [sys.executable, str(TOOLS / "csv"), *words]
    done = subprocess.run(command, stdout=subprocess.PIPE, stderr=subprocess.STDOUT)
    return done.stdout.decode(), done.returncode


def cases(setting: Setting, folder: Path) -> Cases:
    yield Case("csv: a problem", check_problem)
    yield Case("csv: columns", check_columns)
    yield Case("csv: a table", check_table)
    yield Case("csv: names", check_names)
    for table, wanted in FAULTS.items():
        name = table.replace("\n", " ")
        yield Case(f"csv: {name}", lambda table=table, wanted=wanted: check_fault(table, wanted))
    yield Case("csv: there and back", lambda: check_round_trip(setting, folder / "csv"))
