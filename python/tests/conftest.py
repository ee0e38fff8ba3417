"""The package of this checkout, where it is not installed; the program is that of GEOST_PROGRAM."""

from __future__ import annotations

import sys
from pathlib import Path

from hypothesis import settings

# no examples are kept in the repository
settings.register_profile("here", database=None)
settings.load_profile("here")
sys.dont_write_bytecode = True
HERE = Path(__file__).resolve().parent
if not any((Path(folder) / "geost" / "files").is_dir() for folder in sys.path if folder):
    sys.path.insert(0, str(HERE.parent / "src"))
sys.path.append(str(HERE.parents[1] / "tools"))
