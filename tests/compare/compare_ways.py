#!/usr/bin/env python3
"""Compares the three ways in which the built program finds lines, on random patterns and lines.

Each pattern is searched, with its case or with case ignored, in two documents with the same lines: a small one, which the
matcher goes through line by line, and one that repeats them and is so large that the pattern is compiled and searched from
match to match. Then both are searched with an alternative that matches nothing, and with which the simulation goes through
them. (A pattern that is not quick is searched in one way in both, and one that is too large with the alternative is not
searched with it.) All ways implement one contract, so any difference is a fault. As many runs go on at once as there are
processors.

Usage: tests/compare/compare_ways.py [--patterns N] [--lines N] [--seed N]   The last line counts: N passed, M failed.
"""

import argparse
import concurrent.futures
import os
import pathlib
import random
import re
import subprocess
import sys

sys.path.insert(0, str(pathlib.Path(__file__).resolve().parent.parent))

from built import PROGRAM, need_program  # noqa: E402
from compare.compare_with_grep import BYTES, Patterns  # noqa: E402
from counted import Counted  # noqa: E402

# This many bytes of the first candidates are matched line by line.
FEW_BYTES = 8192
PATTERNS_OF_A_RUN = 500
# It matches nothing, since no byte is behind the end of a line. It has stars inside stars, and its tables are large.
FOR_THE_SIMULATION = rb"|$.[acegikmoqsuwyACEGIKMOQSUWY]{80}((c*d)*e)*"


def small_body(chance, count):
    """Random lines, in less than half of the bytes that are matched line by line."""
    lines = []
    for _ in range(count):
        length = chance.choice([0, 1, 2, 3, 5, 8, 20, 60])
        line = bytes(chance.choice(BYTES) for _ in range(length))
        if sum(map(len, lines)) + len(lines) + length < FEW_BYTES // 2:
            lines.append(line)
    return lines


def hits_of(output):
    """For each search, its hits by document, as pairs of a line's number and its text; None if it was refused."""
    hits, now = [], None
    for row in output.split(b"\n"):
        if row.startswith(b"search ") and re.match(rb"search \d+ version \d+ lines \d+$", row):
            now = {b"a": [], b"b": []}
            hits.append(now)
        elif row.startswith(b"search ") and b" refused: " in row:
            hits.append(None)
        elif now is not None and row[:2] in (b"a:", b"b:"):
            name, line, text = row.split(b":", 2)
            now[name].append((int(line), text))
    return hits


def differs(found, count, times):
    """Whether the large document's hits differ from those of the small one, repeated as often as its lines."""
    want = [(line + count * time, text) for time in range(times) for line, text in found[b"a"]]
    return found[b"b"] != want


def compare(chance, patterns, lines):
    """The patterns of a run whose ways differ, and how many of them were searched."""
    texts = [line + b"\n" for line in small_body(chance, lines)]
    small = b"".join(texts)
    times = FEW_BYTES // len(small) + 1
    script = b"put a %d\n%s\nput b %d\n%s\npublish\n" % (len(small), small, len(small) * times, small * times)
    made = [pattern for pattern in patterns if b"\n" not in pattern and b"\0" not in pattern]
    for pattern in made:
        search = chance.choice([b"search ", b"isearch "]) + pattern
        script += search + b"\n" + search + FOR_THE_SIMULATION + b"\n"
    run = subprocess.run([PROGRAM, "--readers", "0"], input=script, stdout=subprocess.PIPE, check=False)
    hits = hits_of(run.stdout)
    assert len(hits) == 2 * len(made), "%d answers to %d searches" % (len(hits), 2 * len(made))
    searched = [(pattern, *found) for pattern, *found in zip(made, hits[::2], hits[1::2]) if found[0] is not None]
    different = [
        pattern
        for pattern, found, simulated in searched
        if differs(found, len(texts), times) or simulated not in (None, found)
    ]
    return different, len(searched)


def compare_some(seed, number, patterns, lines):
    """The same as `compare`, for so many patterns and lines that a seed and a number give."""
    chance = random.Random(f"{seed} {number}")
    source = Patterns(chance)
    return compare(chance, [source.alternatives(chance.randint(0, 3))[0] for _ in range(patterns)], lines)


def main():
    words = argparse.ArgumentParser(description="Compares the ways of finding lines.")
    words.add_argument("--patterns", type=int, default=5000)
    words.add_argument("--lines", type=int, default=300)
    words.add_argument("--seed", type=int, default=1)
    given = words.parse_args()
    need_program()
    counted, refused = Counted(), 0
    with concurrent.futures.ThreadPoolExecutor(os.cpu_count()) as pool:
        starts = range(0, given.patterns, PATTERNS_OF_A_RUN)
        counts = [min(PATTERNS_OF_A_RUN, given.patterns - start) for start in starts]
        jobs = [pool.submit(compare_some, given.seed, number, count, given.lines) for number, count in enumerate(counts)]
        for count, job in zip(counts, jobs):
            different, searched = job.result()
            counted.passes(searched - len(different))
            refused += count - searched
            for pattern in different:
                counted.fails("the ways differ: %r" % pattern)
    print("%d patterns, of which %d were not searched" % (given.patterns, refused))
    counted.end()


if __name__ == "__main__":
    main()
