"""How much stack one level of a tree or of a query takes: python3 bench/levels.py [CHECKOUT..].

For trees and queries that are far higher than those of patterns: the least `ulimit -s` with which a call returns, at two
heights, and from these the bytes for one level. In brackets the same for the program that Rattle's own compiler makes.
Each program also makes its tree and drops it, so no call takes less here than a drop. It builds a small program of its own,
in a few minutes.
"""
import os
import tempfile

import build
import command
import timed

CALLS = {
    "repeats": ["drop", "clone", "==", "within_limits", "is_quick"],
    "cats": ["drop", "clone", "==", "within_limits", "is_quick"],
    "alternatives": ["drop", "clone", "==", "within_limits", "is_quick"],
    "query": ["drop", "clone", "==", "simplify"],
}
HEIGHTS = (20000, 60000)
MOST_KIB = 1 << 20


def bytes_of_level(program, kind, call):
    few, many = [timed.least_stack([program, kind, call, str(height)], MOST_KIB, 1) for height in HEIGHTS]
    return (many - few) * 1024 / (HEIGHTS[1] - HEIGHTS[0])


def main():
    roots = command.words(__doc__, 0, None)
    with tempfile.TemporaryDirectory() as folder:
        for i, root in enumerate(roots or [build.TOP]):
            programs = build.build_both("levels", os.path.join(folder, str(i)), root)
            command.head(["tree", "call", "bytes of stack for a level"], "Levels")
            for kind, calls in CALLS.items():
                for call in calls:
                    command.row(kind, call, "%.0f (%.0f)" % tuple(bytes_of_level(program, kind, call) for program in programs))


if __name__ == "__main__":
    main()
