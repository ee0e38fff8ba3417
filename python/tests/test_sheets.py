"""Spreadsheets, read and written by openpyxl, and read back by another program."""

from __future__ import annotations

import csv
import io
import shutil
import subprocess
from pathlib import Path

import openpyxl
import pytest

import geost

ROWS: list[list[object]] = [
    ["parcel", "length", "width", "weight", "kind"],
    ["Kühlschrank", 60, 0.6, 80.0, "groß"],
    ["=Kiste", "30 cm", 30, None, "klein"],
]


def sheet(file: Path, rows: list[list[object]]) -> Path:
    book = openpyxl.Workbook()
    book.active.title = "other"
    made = book.create_sheet("parcels")
    for row in rows:
        made.append(row)
    for cell in made["A"]:
        cell.data_type = "s"
    book.save(file)
    return file


def read(file: Path, sheet: str = "parcels") -> geost.Items:
    return geost.read_items(
        file,
        name="parcel",
        size=("length", "width"),
        numbers=("weight",),
        words=("kind",),
        sheet=sheet,
    )


def test_a_sheet_becomes_items(tmp_path: Path) -> None:
    items = read(sheet(tmp_path / "parcels.xlsx", ROWS))
    assert [(item.name, item.size) for item in items] == [
        ("Kühlschrank", (60, 1)),
        ("=Kiste", (30, 30)),
    ]
    assert items[0]["weight"] == 80 and items[1]["weight"] == 0
    assert items.words == {"kind": {"groß": 1, "klein": 2}}


def test_faults_of_a_sheet_name_its_row(tmp_path: Path) -> None:
    bad = [*ROWS, ["Fass", 30, "wide", 1, ""]]
    with pytest.raises(geost.TableFault, match=r"parcels.xlsx:4: column 'width': 'wide'"):
        read(sheet(tmp_path / "parcels.xlsx", bad))
    with pytest.raises(geost.TableFault, match="no sheet 'rooms'"):
        read(sheet(tmp_path / "parcels.xlsx", ROWS), "rooms")


def test_a_layout_as_a_sheet_is_read_by_another_program(tmp_path: Path) -> None:
    if shutil.which("xlsx2csv") is None:
        pytest.skip("xlsx2csv is not installed")
    items = read(sheet(tmp_path / "parcels.xlsx", ROWS))
    layout = geost.Room((60, 40)).problem(items).first(100).layout
    assert layout is not None
    layout.save(str(tmp_path / "layout.xlsx"))
    done = subprocess.run(
        ["xlsx2csv", str(tmp_path / "layout.xlsx")], capture_output=True, check=True
    )
    rows = list(csv.DictReader(io.StringIO(done.stdout.decode())))
    assert rows == [
        {
            "number": "1", "item": "Kühlschrank", "x1": "0", "x2": "0", "l1": "60", "l2": "1",
            "weight": "80", "kind": "groß",
        },
        {
            "number": "2", "item": "=Kiste", "x1": "0", "x2": "1", "l1": "30", "l2": "30",
            "weight": "", "kind": "klein",
        },
    ]  # fmt: skip
