"""Figures by matplotlib as PNG and PDF, read back by other programs."""

from __future__ import annotations

import shutil
import subprocess
from pathlib import Path

import matplotlib
import pytest

import geost

matplotlib.use("agg")


def layout(dims: int) -> geost.Layout:
    items = [geost.Item(f"item {n}", (2, 1, 1)[:dims], {"stop": n}) for n in range(1, 4)]
    found = geost.Room((6, 2, 2)[:dims]).problem(items).first(100).layout
    assert found is not None
    return found


def colours(file: Path) -> set[bytes]:
    """The colours of a picture, as another program reads it."""
    done = subprocess.run(["pngtopnm", str(file)], capture_output=True, check=True)
    kind, sizes, most, pixels = done.stdout.split(b"\n", 3)
    width, height = map(int, sizes.split())
    assert (kind, most, len(pixels)) == (b"P6", b"255", 3 * width * height)
    assert width >= 1000 and height >= 700
    return {pixels[at : at + 3] for at in range(0, len(pixels), 3)}


@pytest.mark.parametrize("dims", [1, 2, 3])
def test_a_picture_has_the_colours_of_its_items(tmp_path: Path, dims: int) -> None:
    if shutil.which("pngtopnm") is None:
        pytest.skip("netpbm is not installed")
    file = tmp_path / "layout.png"
    layout(dims).save(str(file), by="stop")
    found = colours(file)
    if dims < 3:
        ramp = {bytes((253, 231, 37)), bytes((68, 1, 84))}
        assert ramp <= found, "the least and the greatest stop"
    assert len(found) > 5


@pytest.mark.parametrize("dims", [1, 2])
def test_a_document_has_the_names(tmp_path: Path, dims: int) -> None:
    if shutil.which("pdftotext") is None:
        pytest.skip("poppler-utils is not installed")
    file = tmp_path / "layout.pdf"
    layout(dims).save(str(file))
    done = subprocess.run(["pdftotext", str(file), "-"], capture_output=True, check=True)
    assert all(f"item {n}" in done.stdout.decode() for n in range(1, 4))
