"""`python -m geost WORDS ..` runs the program that came with the package, with these words;
`python -m geost spread ..` is `geost spread`."""

import os
import sys

from geost.main import status_of
from geost.program import Program, usual_program
from geost.spreading import main

if sys.argv[1:2] == ["spread"]:
    sys.exit(status_of("geost spread", lambda: main(sys.argv[2:])))
found = Program(usual_program()).path
os.execv(found, [found, *sys.argv[1:]])
