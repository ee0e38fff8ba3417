"""geost from Python: problems from data, layouts as data, plans judged with what breaks them."""

from geost.answers import (
    Best,
    Broken,
    Core,
    Loading,
    NoDerivation,
    NoSuchCommand,
    ProgramFailed,
    Solution,
    Status,
    Verdict,
)
from geost.building import Ready
from geost.cargo import Item, Items, read_items
from geost.formula import (
    Box,
    Macro,
    Rule,
    Thing,
    Undecided,
    Value,
    all_boxes,
    apart,
    at_least,
    at_most,
    exists,
    forall,
    greatest,
    least,
    macro,
    shape_number,
    some_boxes,
    within,
)
from geost.layouts import Layout, Placed
from geost.model import OutOfSteps, Problem
from geost.program import ProgramMissing
from geost.refused import Refused
from geost.rooms import NoRoom, Room
from geost.searching import Search
from geost.shapes import turned
from geost.tables import TableFault
from geost.units import BadLength, Unit
from geost.where import Where

__all__ = [
    "BadLength",
    "Best",
    "Box",
    "Broken",
    "Core",
    "Item",
    "Items",
    "Layout",
    "Loading",
    "Macro",
    "NoDerivation",
    "NoRoom",
    "NoSuchCommand",
    "OutOfSteps",
    "Placed",
    "Problem",
    "ProgramFailed",
    "ProgramMissing",
    "Ready",
    "Refused",
    "Room",
    "Rule",
    "Search",
    "Solution",
    "Status",
    "TableFault",
    "Thing",
    "Undecided",
    "Unit",
    "Value",
    "Verdict",
    "Where",
    "all_boxes",
    "apart",
    "at_least",
    "at_most",
    "exists",
    "forall",
    "greatest",
    "least",
    "macro",
    "read_items",
    "shape_number",
    "some_boxes",
    "turned",
    "within",
]
