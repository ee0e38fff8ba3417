"""Solids for programs of construction, read back by other programs."""

from __future__ import annotations

import re
import shutil
import subprocess
from pathlib import Path

import ezdxf
import pytest
from stl import mesh

import geost


def layout() -> geost.Layout:
    """A box of 4 by 2 by 1 and a corner of three cells beside each other."""
    plan = geost.Problem(3)
    plan.shape("slab", (4, 2, 1))
    plan.shape("corner", (2, 1, 1), ((0, 1, 0), (1, 1, 1)))
    plan.object("PK/1", "slab", [(0, 0), (0, 0), (0, 0)])
    plan.object("pk:1", "corner", [(0, 9), (0, 9), (1, 1)])
    plan.rule("free", geost.apart())
    found = plan.first(100).layout
    assert found is not None
    return found


def test_solids_are_closed_and_have_their_volume(tmp_path: Path) -> None:
    layout().save(str(tmp_path / "layout.stl"))
    solid = mesh.Mesh.from_file(str(tmp_path / "layout.stl"))
    volume, _, _ = solid.get_mass_properties()
    assert len(solid.vectors) == 36 and volume == pytest.approx(8 + 3)
    if shutil.which("admesh") is None:
        pytest.skip("admesh is not installed")
    words = ["admesh", str(tmp_path / "layout.stl")]
    done = subprocess.run(words, capture_output=True, text=True, check=True)
    found = dict(re.findall(r"([A-Z][A-Za-z ]*?)\s*[:=]\s*(-?\d+\.?\d*)", done.stdout))
    assert (found["Number of facets"], found["Total disconnected facets"]) == ("36", "0")
    assert (found["Facets reversed"], found["Normals fixed"]) == ("0", "0")
    assert float(found["Volume"]) == pytest.approx(11, abs=0.001)
    assert [float(found[f"Max {axis}"]) for axis in "XYZ"] == [4, 2, 2]


def test_a_drawing_has_the_sides_on_layers_of_the_items(tmp_path: Path) -> None:
    layout().save(str(tmp_path / "layout.dxf"))
    drawing = ezdxf.readfile(tmp_path / "layout.dxf")
    assert not drawing.audit().has_errors
    faces = drawing.modelspace().query("3DFACE")
    layers = [face.dxf.layer for face in faces]
    assert (layers.count("PK_1"), layers.count("pk_1 (2)")) == (6, 12)
    if shutil.which("assimp") is None:
        pytest.skip("assimp-utils is not installed")
    words = ["assimp", "info", str(tmp_path / "layout.dxf")]
    done = subprocess.run(words, capture_output=True, text=True, check=True)
    # it turns the axis upwards, x3, to its second one
    ends = re.findall(r"(?:Min|Max)imum point\s*\((.*)\)", done.stdout)
    assert [[float(at) for at in end.split()] for end in ends] == [[0, 0, -2], [4, 2, 0]]
    meshes = re.findall(r"\d \((.*)\): \[\d+ / \d+ / (\d+) \| triangle\]", done.stdout)
    assert meshes == [("PK_1", "12"), ("pk_1 (2)", "24")]
