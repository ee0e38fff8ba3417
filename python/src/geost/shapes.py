"""Boxes of shapes, turned by quarters about axes."""

from __future__ import annotations

from collections.abc import Iterable, Sequence
from operator import index

from geost.text import Box

MOST_AXES = 3


def whole(number: object) -> int:
    """A whole number as it is given, of any type that counts as one."""
    if isinstance(number, bool):
        raise TypeError(f"{number} is no number")
    try:
        return index(number)  # type: ignore[arg-type]
    except TypeError:
        raise TypeError(
            f"{number!r} is no whole number: geost counts in whole numbers, so give it in a"
            " smaller unit"
        ) from None


def numbers(given: Iterable[object]) -> tuple[int, ...]:
    return tuple(map(whole, given))


def box_of(given: Sequence[object] | Box) -> Box:
    """A box of its sizes alone, or of a pair of its offsets and its sizes."""
    if isinstance(given, Box):
        return given
    if len(given) == 2 and all(isinstance(part, Sequence) for part in given):
        offsets, sizes = given
        return Box(numbers(offsets), numbers(sizes))  # type: ignore[arg-type]
    sizes = numbers(given)
    return Box((0,) * len(sizes), sizes)


Boxes = tuple[Box, ...]


def settled(boxes: Boxes) -> Boxes:
    """The boxes moved so that the least offset of each dimension is 0."""
    low = [min(box.offsets[d] for box in boxes) for d in range(len(boxes[0].sizes))]
    return tuple(Box(tuple(o - a for o, a in zip(box.offsets, low)), box.sizes) for box in boxes)


def quarter(boxes: Boxes, axis: int) -> Boxes:
    """The boxes turned by a quarter about an axis, from 1. In two dimensions the axis is 3."""
    one, other = (d for d in range(MOST_AXES) if d != axis - 1)

    def turned(box: Box) -> Box:
        offsets, sizes = list(box.offsets), list(box.sizes)
        offsets[one], offsets[other] = -box.offsets[other] - box.sizes[other], box.offsets[one]
        sizes[one], sizes[other] = box.sizes[other], box.sizes[one]
        return Box(tuple(offsets), tuple(sizes))

    return settled(tuple(map(turned, boxes)))


def axes_of(given: str | Iterable[int]) -> tuple[int, ...]:
    """Axes as they are written: `none`, `upright` (about x3), `any`, or `x1`, `x3` and so on."""
    if not isinstance(given, str):
        return numbers(given)
    words = given.replace(",", " ").replace("+", " ").lower().split()
    known = {"none": (), "upright": (3,), "any": (1, 2, 3), "x1": (1,), "x2": (2,), "x3": (3,)}
    if any(word not in known for word in words):
        raise ValueError(f"{given!r} is no way of turning: write none, upright, any, or x1, x2, x3")
    return tuple(dict.fromkeys(axis for word in words for axis in known[word]))


def turned(boxes: Sequence[Box], axes: str | Iterable[int]) -> list[Boxes]:
    """Each form that quarters about these axes give, once, that of the boxes first. Axes that the
    boxes do not have turn nothing: a line is not turned, and a plane about x3 alone."""
    dims = len(boxes[0].sizes)
    about = [axis for axis in axes_of(axes) if dims >= 3 or dims == 2 and axis == 3]
    found = {frozenset(settled(tuple(boxes))): tuple(boxes)}
    waiting = [tuple(boxes)]
    for form in waiting:
        for axis in about:
            made = quarter(form, axis)
            if frozenset(made) not in found:
                found[frozenset(made)] = made
                waiting.append(made)
    return list(found.values())
