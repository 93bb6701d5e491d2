#!/usr/bin/env python3
"""Tests the command tgrep, with GNU grep and ripgrep as the judges.

Usage: tests/tgrep.py [--compiled] [PART..]   --compiled tests with the program that is compiled with checks, PART a part of PARTS alone.
The last line counts: N passed, M failed.
"""

import sys

from built import PROGRAM, TOP, need_program
from counted import Counted
from terminal import calls, faults, forms, past, screen

PARTS = {"calls": calls.check, "forms": forms.check, "faults": faults.check, "past": past.check, "screen": screen.check}


def main():
    words = sys.argv[1:]
    is_compiled = "--compiled" in words
    program = TOP / "out/compiled/tsearch" if is_compiled else PROGRAM
    need_program(program, "./tsearch" if is_compiled else "./tsearch --prove")
    counted = Counted()
    for part in [word for word in words if word != "--compiled"] or PARTS:
        found = PARTS[part](program)
        counted.passed += found.passed
        counted.failed += found.failed
    counted.end()


if __name__ == "__main__":
    main()
