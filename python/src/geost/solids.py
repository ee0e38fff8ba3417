"""Layouts as solids for programs of construction: DXF by ezdxf, STL by numpy-stl."""

from __future__ import annotations

from collections.abc import Iterator
from itertools import product
from typing import TYPE_CHECKING

from geost.text import Box

if TYPE_CHECKING:
    from geost.layouts import Layout

Point = tuple[float, float, float]
CORNERS = tuple(product((0, 1), repeat=3))
# the sides of a box by the places of their corners in CORNERS, each seen from outside
# counterclockwise
SIDES = ((0, 2, 6, 4), (1, 5, 7, 3), (0, 4, 5, 1), (2, 3, 7, 6), (0, 1, 3, 2), (4, 6, 7, 5))
MOST_COLOURS = 250
LONGEST_LAYER = 255


def boxes_of(layout: Layout) -> Iterator[tuple[str, tuple[Point, ...]]]:
    """The corners of each box with its item; dimensions that are missing have one cell."""
    for item, placed in layout.items():
        for box in placed.boxes:
            yield item, corners_of(box)


def corners_of(box: Box) -> tuple[Point, ...]:
    low = (*box.offsets, 0, 0)[:3]
    sizes = (*box.sizes, 1, 1)[:3]
    return tuple(
        (
            float(low[0] + sizes[0] * corner[0]),
            float(low[1] + sizes[1] * corner[1]),
            float(low[2] + sizes[2] * corner[2]),
        )
        for corner in CORNERS
    )


def layer_name(item: str) -> str:
    """A name that DXF allows for a layer."""
    plain = "".join(sign if sign.isalnum() or sign in "-_ " else "_" for sign in item)
    return plain[:LONGEST_LAYER].strip() or "_"


def write_dxf(layout: Layout, file: str) -> None:
    """Writes the sides of each box, on a layer of its item."""
    import ezdxf

    drawing = ezdxf.new("R2010")
    space = drawing.modelspace()
    layers: dict[str, str] = {}
    for item, corners in boxes_of(layout):
        if item not in layers:
            stem = layer_name(item)
            taken = {name.lower() for name in layers.values()}
            layer = stem if stem.lower() not in taken else f"{stem[:200]} ({len(layers) + 1})"
            drawing.layers.add(layer, color=1 + len(layers) % MOST_COLOURS)
            layers[item] = layer
        for side in SIDES:
            space.add_3dface([corners[place] for place in side], {"layer": layers[item]})
    drawing.saveas(file)


def triangles(layout: Layout) -> list[tuple[Point, Point, Point]]:
    """Two for each side of each box, seen from outside counterclockwise."""
    found: list[tuple[Point, Point, Point]] = []
    for _, corners in boxes_of(layout):
        for a, b, c, d in SIDES:
            found.append((corners[a], corners[b], corners[c]))
            found.append((corners[a], corners[c], corners[d]))
    return found


def write_stl(layout: Layout, file: str) -> None:
    """Writes the boxes as one solid, in binary."""
    import numpy
    from stl import mesh

    made = triangles(layout)
    solid = mesh.Mesh(numpy.zeros(len(made), dtype=mesh.Mesh.dtype))
    solid.vectors[:] = numpy.array(made, dtype=float)
    solid.update_normals()
    solid.normals /= numpy.linalg.norm(solid.normals, axis=1, keepdims=True)
    solid.save(file, update_normals=False)
