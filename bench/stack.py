"""How much stack `matches` takes for the highest trees: python3 bench/stack.py [CHECKOUT..].

For several kinds of trees of height 64, and for lines up to the greatest length: the least `ulimit -s` with which the
program answers, less that for a tree of one set. In brackets the same for the program that Rattle's own compiler makes,
whose frames are larger. It builds a small program of its own over the crates `ere`, `lines` and `matcher`, in a few minutes.
"""
import os
import tempfile

import build
import command
import timed
from corpus import nested

ONE_SET = "a"

# Each of height 64.
TREES = [
    ("stars in a star", "a" + 61 * "*" + "?*"),
    ("`+` in a star", "a" + 61 * "+" + "?*"),
    ("`?` in a star", "a" + 62 * "?" + "*"),
    ("`?` alone", "a" + 63 * "?"),
    ("`{0,2}` and `?`", "a" + 12 * "{0,2}" + 51 * "?"),
    ("alternatives", nested(63, "a", "(b|%s)")),
    ("cats", nested(63, "a", "(a%s)")),
    ("stars in cats", nested(31, "aa", "(a%s*)") + "*"),
    ("stars in alternatives", nested(31, "a", "(b|%s*)") + "*"),
]
LENGTHS = [63, 1000, 4159, 16384]
MOST_KIB = 1 << 16


def more(program, pattern, length):
    """How many KiB more a pattern takes than one set."""
    whole, one = (timed.least_stack([program, asked, str(length)], MOST_KIB, 4) for asked in (pattern, ONE_SET))
    return whole - one


def main():
    roots = command.words(__doc__, 0, None)
    with tempfile.TemporaryDirectory() as folder:
        for i, root in enumerate(roots or [build.TOP]):
            programs = build.build_both("stack", os.path.join(folder, str(i)), root)
            command.head(["tree"] + ["KiB, a line of %d bytes" % length for length in LENGTHS], "Stack")
            for name, pattern in TREES:
                cells = ["%d (%d)" % tuple(more(program, pattern, length) for program in programs) for length in LENGTHS]
                command.row(name, *cells)


if __name__ == "__main__":
    main()
