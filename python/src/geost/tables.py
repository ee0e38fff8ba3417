"""Tables as rows of cells: texts by the standard library, spreadsheets where openpyxl is there."""

from __future__ import annotations

import csv
import io
from collections.abc import Iterable
from pathlib import Path

Cells = list[str]
Rows = list[tuple[int, Cells]]
SHEETS = (".xlsx", ".xlsm")


class TableFault(ValueError):
    """What is wrong in a table, and what to write instead, with the file, the line from 1 and the
    title of the column where they are known."""

    def __init__(self, said: str, file: str = "", line: int = 0, column: str = ""):
        place = f"{file}:{line}: " if file else ""
        super().__init__(f"{place}column {column!r}: {said}" if column else place + said)
        self.said, self.file, self.line, self.column = said, file, line, column


def decoded(content: bytes) -> str:
    """The text of a table as spreadsheets write one: UTF-8 with or without a mark, UTF-16, or the
    letters of western Windows."""
    if content.startswith((b"\xff\xfe", b"\xfe\xff")):
        return content.decode("utf-16")
    try:
        return content.decode("utf-8-sig")
    except UnicodeDecodeError:
        return content.decode("cp1252", errors="replace")


def separator(head: str) -> str:
    """What stands between two columns: that of `;`, a tab and `,` which the first line has most."""
    return max(";\t,", key=head.count)


def rows_of_text(content: bytes) -> Rows:
    """The rows that have something, each with the line at which it ends."""
    text = decoded(content)
    reader = csv.reader(io.StringIO(text), delimiter=separator(text.partition("\n")[0]))
    rows = [(reader.line_num, [cell.strip() for cell in row]) for row in reader]
    return [(line, row) for line, row in rows if any(row)]


def rows_of_sheet(file: Path, sheet: str | None = None) -> Rows:
    """The rows of a sheet that have something, with their numbers: of this one, else of the first
    that is shown."""
    import openpyxl

    book = openpyxl.load_workbook(file, data_only=True)
    if sheet is not None and sheet not in book.sheetnames:
        raise TableFault(
            f"there is no sheet {sheet!r}: name one of {book.sheetnames}", str(file), 1
        )
    found = book.active if sheet is None else book[sheet]
    lines = enumerate(found.iter_rows(values_only=True), 1)
    rows = [(line, list(map(cell_text, cells))) for line, cells in lines]
    return [(line, row) for line, row in rows if any(row)]


def cell_text(cell: object) -> str:
    """A cell as a text table has it; 3.0 is 3."""
    if cell is None:
        return ""
    if isinstance(cell, float) and cell.is_integer():
        return str(int(cell))
    return str(cell).strip()


def rows_of(file: Path, sheet: str | None = None) -> Rows:
    """The rows of a table by the ending of its file."""
    if file.suffix.lower() in SHEETS:
        return rows_of_sheet(file, sheet)
    return rows_of_text(file.read_bytes())


def csv_text(rows: Iterable[Iterable[object]]) -> str:
    target = io.StringIO()
    csv.writer(target, lineterminator="\n").writerows(rows)
    return target.getvalue()


def write_sheet(rows: Iterable[Iterable[object]], file: str | Path, title: str) -> None:
    """Writes rows as a spreadsheet with one sheet, whose row of titles stays in sight. A text is no
    formula, also where it begins like one."""
    import openpyxl

    book = openpyxl.Workbook()
    sheet = book.active
    sheet.title = title
    for line, row in enumerate(rows, 1):
        for column, value in enumerate(row, 1):
            cell = sheet.cell(line, column, value)
            if isinstance(value, str):
                cell.data_type = "s"
    sheet.freeze_panes = "A2"
    book.save(file)
