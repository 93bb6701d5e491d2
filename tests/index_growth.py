#!/usr/bin/env python3
"""Compares the work and the memory of each operation of segments, of names and of an index over N and over 4N bodies.

A small program over `segments`, `names` and `versions`, index_growth.rt.txt, makes them and carries out one operation on them. What it
takes to make them is taken off. growth.py says how work and memory are counted. What is left may grow to 4.8 times, or to what the row
says.

The program is compiled with checks, as ./tsearch does it at its first call.

Usage: tests/index_growth.py [--show]   The last line counts: N passed, M failed.
"""

import collections
import concurrent.futures
import functools
import os
import re
import subprocess
import sys
import tempfile

import copies
from built import script_name
from counted import Counted
from growth import COUNTING, LEVEL, MOST

# An operation, the one that makes what it is carried out on, N, and to how many times its work and its memory may grow.
Row = collections.namedtuple("Row", "operation base n work memory", defaults=(MOST, MOST))

ROWS = [
    Row("bodies analysed by marks", "bodies and marks", 1_000),
    Row("bodies analysed by sorting", "bodies", 1_000),
    Row("segments as one", "segments", 1_000),
    Row("segments as one of half of them", "segments", 1_000),
    Row("segment searched for a rare one", "segment", 1_000, LEVEL, LEVEL),
    Row("segment searched for a common one", "segment", 1_000),
    Row("segment searched for either of two", "segment", 1_000),
    Row("names", "names to put", 1_000),
    Row("names put again", "names", 1_000),
    # One chunk of up to 128 names is made anew, and each of the others takes two handles: 8 of them with 1,000 names, and 32 with 4,000.
    Row("names and one more put", "names", 1_000, LEVEL, LEVEL),
    Row("names and one removed", "names", 1_000, LEVEL, LEVEL),
    Row("names and one looked up", "names", 1_000, LEVEL, LEVEL),
    Row("names of which half is removed", "names", 1_000),
    Row("names of which half is copied", "names", 1_000),
    Row("names of which half is copied over the others", "names", 1_000),
    Row("names since the last one", "names", 1_000, LEVEL, LEVEL),
    Row("draft", "updates", 1_000),
    Row("index", "draft", 1_000),
    Row("index and one more put", "index", 1_000, LEVEL, LEVEL),
    Row("index and one removed", "index", 1_000, LEVEL, LEVEL),
    Row("index searched for a rare one", "index", 1_000, LEVEL, LEVEL),
    Row("index searched for a common one", "index", 1_000),
    Row("index searched under a name", "index", 1_000),
    # Each content goes into another segment once for each eightfold of their number, and each round takes handles of all chunks of names.
    Row("rounds", "nothing", 256, 5.5, 5.2),
    Row("rounds of one name", "nothing", 256),
]

# How long one run may take, also where other work has the processors.
SECONDS = 1800

# What is counted, and how much of it is so little that it does not matter how it grew.
COUNTS = [("instructions", 50_000), ("requests for memory", 50), ("bytes requested", 65_536), ("bytes in use at once", 65_536)]


def run(command, env=None):
    done = subprocess.run(command, env=env, capture_output=True, text=True, timeout=SECONDS, check=False)
    if done.returncode != 0 or not re.fullmatch(r"\d+\n", done.stdout):
        sys.exit(f"{script_name()}: {command[-2:]} ends with status {done.returncode}, {done.stdout!r}, {done.stderr[-300:]!r}")
    return done.stderr


@functools.lru_cache(None)
def counts_of(program, library, *words):
    """What a run of the program on these words takes: instructions, requests, bytes, and bytes in use at once."""
    words = [str(program), *map(str, words)]
    tool = ["valgrind", "--tool=cachegrind", "--cache-sim=no", "--cachegrind-out-file=/dev/null"]
    instructions = re.search(r"I +refs: +([\d,]+)", run([*tool, *words]))[1].replace(",", "")
    told = re.search(r"counts ([\d ]+)", run(words, dict(os.environ, LD_PRELOAD=library)))[1].split()
    return [int(instructions), *map(int, told[:3])]


def beyond(program, library, row, n):
    """What the operation takes beyond the making of what it is carried out on."""
    whole, base = (counts_of(program, library, operation, n) for operation in (row.operation, row.base))
    return [more - less for more, less in zip(whole, base)]


def faults_of(program, library, row, show):
    """For each count of a row, what is wrong, or None."""
    small, large = (beyond(program, library, row, n) for n in (row.n, 4 * row.n))
    if show:
        ratios = ["%.2f" % (more / less) if less > 0 else "-" for less, more in zip(small, large)]
        print(f"{row.operation:48} {small} {large} {' '.join(ratios)}", flush=True)
    faults = []
    for (what, few), times, less, more in zip(COUNTS, (row.work, row.memory, row.memory, row.memory), small, large):
        told = f"{row.operation}: {less} {what} with {row.n}, and {more} with {4 * row.n}"
        faults.append(told if more > max(few, times * less) else None)
    return faults


def main():
    counted = Counted()
    with tempfile.TemporaryDirectory() as folder:
        used = ["documents", "query", "prefixes", "watch", "segments", "names", "versions"]
        program = copies.build_program(os.path.join(folder, "copy"), copies.beside(__file__), used, "-O2")
        library = os.path.join(folder, "counting.so")
        subprocess.run(["cc", "-O2", "-shared", "-fPIC", "-x", "c", "-", "-o", library], input=COUNTING, text=True, check=True)
        with concurrent.futures.ThreadPoolExecutor(os.cpu_count()) as pool:
            for faults in pool.map(lambda row: faults_of(program, library, row, "--show" in sys.argv[1:]), ROWS):
                counted.judge(faults)
    counted.end()


if __name__ == "__main__":
    main()
