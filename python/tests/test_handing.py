"""Tables, plans, drawings and pages that the standard library writes, read back by others."""

from __future__ import annotations

import json
import re
import shutil
import subprocess
import xml.etree.ElementTree as tree
from pathlib import Path

import pytest

import geost
from geost import rules
from geost.page import source

SVG = "{http://www.w3.org/2000/svg}"


def needed(program: str) -> None:
    if shutil.which(program) is None:
        pytest.skip(f"{program} is not installed")


def small(dims: int = 3) -> geost.Layout:
    items = [
        geost.Item("PK-1/ä & <b>", (2, 1, 1)[:dims], {"stop": 1, "kind": 2}),
        geost.Item('Kiste "2", rot', (1, 1, 1)[:dims], {"stop": 2, "kind": 1}),
    ]
    known = geost.Items(items, {"kind": {"groß": 1, "klein": 2}}, geost.Unit("5 cm"))
    layout = geost.Room((3, 2, 2)[:dims]).problem(known).first(100).layout
    assert layout is not None
    return layout


def test_a_table_is_read_by_another_program(tmp_path: Path) -> None:
    needed("sqlite3")
    file = tmp_path / "layout.csv"
    small(2).save(str(file))
    asked = "select item, x1, l1, stop, kind from layout order by number;"
    words = ["sqlite3", "-json", ":memory:", f".import --csv {file} layout", asked]
    done = subprocess.run(words, capture_output=True, check=True)
    assert json.loads(done.stdout) == [
        {"item": "PK-1/ä & <b>", "x1": "0", "l1": "10", "stop": "1", "kind": "klein"},
        {"item": 'Kiste "2", rot', "x1": "0", "l1": "5", "stop": "2", "kind": "groß"},
    ]


def test_a_plan_is_read_by_the_program(tmp_path: Path) -> None:
    layout = small()
    layout.save(str(tmp_path / "my.plan"))
    block = (tmp_path / "my.plan").read_text()
    assert layout.problem.ask(["judge"], behind=block).text == "good\n"
    assert layout.problem.layout_of(block).block() == block


@pytest.mark.parametrize("dims", [1, 2, 3])
def test_a_drawing_is_read_by_another_program(tmp_path: Path, dims: int) -> None:
    layout = small(dims)
    layout.save(str(tmp_path / "layout.svg"), by="stop")
    drawn = tree.parse(tmp_path / "layout.svg").getroot()
    words = "".join(drawn.itertext())
    assert drawn.tag == f"{SVG}svg" and "PK-1/ä & <b>" in words and "stop = 2" in words
    assert layout._repr_svg_().startswith("<svg")
    needed("rsvg-convert")
    words_of = ["rsvg-convert", str(tmp_path / "layout.svg"), "-o", str(tmp_path / "layout.png")]
    subprocess.run(words_of, check=True)
    assert (tmp_path / "layout.png").read_bytes().startswith(b"\x89PNG")


def test_a_page_is_whole(tmp_path: Path) -> None:
    """The page has the layout and nothing from outside; node reads its scripts."""
    small().save(str(tmp_path / "layout.html"), by="stop")
    page = (tmp_path / "layout.html").read_text()
    assert "every rule holds" in page and "<title>PK-1/ä &amp; &lt;b&gt;" in page
    assert '"labels": {"PK_1_ae_b": "PK-1/\\u00e4 & <b>"' in page
    assert re.findall(r'(?:src|href)="(?!#|data:)[^"]*"', page) == []
    needed("node")
    scripts = "\n".join(re.findall(r"<script>(.*?)</script>", page, re.DOTALL))
    (tmp_path / "page.js").write_text(scripts)
    subprocess.run(["node", "--check", str(tmp_path / "page.js")], check=True)
    assert shown_by_node(page, tmp_path) == ["PK-1/ä & <b>", 'Kiste "2", rot']


def shown_by_node(page: str, folder: Path) -> list[str]:
    """The names that the scripts of the page show, of which only the picture is not there."""
    (scripts,) = re.findall(r"<script>(.*?)</script>", page, re.DOTALL)
    told = (
        "globalThis.document = { getElementById: () => ({ addEventListener() {} }) };\n"
        "const Turning = { start() {} };\n"
        "const Picture = { state: {}, show: (it) => console.log(JSON.stringify(it.things)) };\n"
    )
    (plan,) = re.findall(r"^const PLAN = .*$", scripts, re.MULTILINE)
    (folder / "shown.js").write_text(
        told + "\n".join([plan, source("cells.js"), source("plan.js")])
    )
    done = subprocess.run(["node", str(folder / "shown.js")], capture_output=True, check=True)
    return [thing["name"] for thing in json.loads(done.stdout)]


def test_a_broken_layout_is_said_on_its_page(tmp_path: Path) -> None:
    layout = small()
    moved = layout.moved('Kiste "2", rot', 0, 0, 0)
    moved.save(str(tmp_path / "layout.html"))
    assert "the plan breaks 1 of 2 rules" in (tmp_path / "layout.html").read_text()


def test_another_ending_is_refused(tmp_path: Path) -> None:
    with pytest.raises(ValueError, match="write one of plan, csv, xlsx, json, svg"):
        small().save(str(tmp_path / "layout.docx"))


def test_lengths_of_a_table_are_in_the_unit() -> None:
    row = small(2).records()[0]
    assert (row["x1"], row["l1"], row["l2"]) == (0, 10, 5)
    plan = geost.Room((4,)).problem([geost.Item("a", (3,))], [rules.in_sequence(9, dims=1)])
    layout = plan.first(10).layout
    assert layout is not None and layout.records() == [{"number": 1, "item": "a", "x1": 0, "l1": 3}]
