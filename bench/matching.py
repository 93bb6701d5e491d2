"""How fast `matches` is, a line at a time: python3 bench/matching.py FOLDER [CHECKOUT..].

Builds a small program over the crates `ere`, `lines` and `matcher`, in a few minutes, and runs it on lines of the folder's files,
next to `grep -E`. If checkouts of the repository are named, it does so for the crates of each, in one run: for example one from
before a change and one from after it.
"""
import os
import subprocess
import tempfile

import build
import command
import corpus
import timed
from corpus import nested


def seconds_of(program, path, pattern):
    """The seconds of one round over the lines of a file, the best of three runs of a quarter second, and the lines found."""
    rounds = 1
    while True:
        runs = []
        for _ in range(3):
            words = subprocess.run([program, path, str(rounds), pattern], capture_output=True, check=True, text=True).stdout.split()
            runs.append(int(words[0]))
            if runs[0] > 2e9:
                break
        if min(runs) > 2.5e8 or rounds >= 4**8:
            return min(runs) / rounds / 1e9, words[1]
        rounds *= 4


def write(path, text):
    with open(path, "wb") as file:
        file.write(text)


def show_lines(programs, found, path):
    write(path, b"\n".join(found))
    size = sum(len(line) + 1 for line in found)
    print("lines %d, bytes %d" % (len(found), size))
    command.head(["pattern", "lines found"] + ["ns a line", "MB/s"] * len(programs) + ["grep -E ms"])
    env = dict(os.environ, LC_ALL="C")
    for pattern in corpus.PATTERNS:
        runs = [seconds_of(program, path, pattern) for program in programs]
        assert len({count for _, count in runs}) == 1
        grep = min(timed.run(["grep", "-cE", pattern, path], env=env)["seconds"] for _ in range(3))
        cells = ["%.0f" % cell for spent, _ in runs for cell in (1e9 * spent / len(found), size / spent / 1e6)]
        command.row(command.code(pattern), runs[0][1], *cells, "%.1f" % (1000 * grep))


DEPTHS = [1, 2, 4, 8, 12, 16, 20]
NESTS = [
    ("`((a*\\|b)*\\|c)*`", lambda n: "^(aa)*" + nested(n, "a*", "(%s|b)*") + "c$"),
    ("`((a*a)*a)*`", lambda n: "^(aa)*" + nested(n, "a*", "(%sa)*") + "c$"),
]


def show_nests(program, path, length, most=2.0):
    command.head(["nestings"] + [name for name, _ in NESTS], "Microseconds for a line of %d bytes `a` that is not matched, after `^(aa)*`" % length)
    write(path, b"a" * length)
    over = set()
    for depth in DEPTHS:
        cells = []
        for name, pattern in NESTS:
            spent = 0 if name in over else seconds_of(program, path, pattern(depth))[0]
            cells.append("over" if name in over else "%.2f" % (1e6 * spent))
            if spent > most:
                over.add(name)
        command.row(depth, *cells)


# A star whose body is plain, with large counts in a row.
LONG = "x([ab]|a([ab]{250}){15}c)*e"


def show_long_line(programs, path):
    line = b"x" + b"ab" * 8000
    write(path, line)
    command.head(["pattern"] + ["ms"] * len(programs), "A line of %d bytes `a` and `b` in turns after `x`, which is not matched" % len(line))
    command.row(command.code(LONG), *("%.1f" % (1000 * seconds_of(program, path, LONG)[0]) for program in programs))


def main():
    source, *roots = command.words(__doc__, 1, None)
    with tempfile.TemporaryDirectory() as folder:
        programs = build.build_each("matching", folder, roots)
        path = os.path.join(folder, "text")
        show_lines(programs, corpus.lines_of(source, 20000), path)
        for program in programs:
            for length in (100, 1000, 4000):
                show_nests(program, path, length)
        show_long_line(programs, path)


if __name__ == "__main__":
    main()
