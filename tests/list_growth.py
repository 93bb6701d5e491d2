#!/usr/bin/env python3
"""Compares the work and the memory of each operation of the lists over sets of N and of 4N numbers.

A small program over `posting`, list_growth.rt.txt, makes sets and carries out one operation on them. What it takes to make the sets
is taken off. growth.py says how work and memory are counted. What is left may grow to 4.8 times, or to what the row says. PAIRS
compares an operation with another one.

The program is compiled with checks, as ./tsearch does it at its first call.

Usage: tests/list_growth.py [--show]   The last line counts: N passed, M failed. --show prints all counts.
"""

import collections
import concurrent.futures
import os
import subprocess
import sys
import tempfile

import copies
from counted import Counted
from growth import COUNTING, LEVEL, MOST
from index_growth import COUNTS, beyond

# An operation, the one that makes what it is carried out on, N, and to how many times its work and memory may grow.
Row = collections.namedtuple("Row", "operation base n most", defaults=(MOST,))

ROWS = [
    Row("set", "nothing", 4_000),
    Row("set numbers", "set", 4_000),
    Row("set has", "set", 4_000),
    Row("set lookup", "set", 4_000),
    Row("set first removed", "set", 4_000),
    Row("set middle removed", "set", 4_000),
    Row("set last removed", "set", 4_000, LEVEL),
    Row("set middle inserted", "set", 4_000),
    Row("set all removed from the end", "set", 4_000),
    Row("two met", "two", 4_000),
    Row("two joined", "two", 4_000),
    Row("two apart", "two", 4_000),
    Row("few met", "few", 4_000),
    Row("few joined", "few", 4_000),
    Row("few apart", "few", 4_000),
    Row("trigrams kept", "trigrams", 4_000),
    Row("trigrams with sets", "trigrams", 2_000),
    Row("trigrams taken out one by one", "trigrams", 5_000),
    Row("documents", "nothing", 500),
    Row("late documents", "nothing", 500),
    Row("documents withdrawn", "documents", 500),
    Row("documents with all", "documents", 500),
    Row("documents with some", "documents", 500),
    Row("scores", "trigrams", 200),
]

# An operation and the one that makes what it is carried out on, another two, N, and to how many times the work and the memory of the
# second the first may come.
Pair = collections.namedtuple("Pair", "operation base other other_base n most")

PAIRS = [
    # numbers from 100,000 on, and from 1 on
    Pair("later documents apart", "nothing", "documents apart", "nothing", 500, 1.1),
    Pair("like apart", "like", "set numbers", "set", 16_000, 1),
]

# Operations, and how many bytes may be in use at once for each number of 4N: a set has a quarter more room than bytes, and eleven bytes.
# Each of the sets of twenty numbers has a slot, a list and its room.
BYTES_EACH = {"set": 1.3, "scores": 120}


def faults_of(program, library, row, show):
    """For each count of a row, what is wrong, or None."""
    small, large = (beyond(program, library, row, n) for n in (row.n, 4 * row.n))
    faults = faults_beyond(f"{row.operation} with {4 * row.n}", large, f"{row.operation} with {row.n}", small, row.most, show)
    if row.operation in BYTES_EACH:
        most = int(BYTES_EACH[row.operation] * 4 * row.n) + 64
        faults.append(f"{row.operation}: {large[3]} {COUNTS[3][0]}, and at most {most} are allowed" if large[3] > most else None)
    return faults


def faults_of_pair(program, library, pair, show):
    """For each count of a pair, what is wrong, or None."""
    rows = Row(pair.operation, pair.base, pair.n), Row(pair.other, pair.other_base, pair.n)
    own, other = (beyond(program, library, row, pair.n) for row in rows)
    return faults_beyond(pair.operation, own, pair.other, other, pair.most, show)


def faults_beyond(what, counts, other, others, most, show):
    """What is wrong where a count is over so many times that of the other, or None."""
    if show:
        print(f"{other:32} {others} {what} {counts}", flush=True)
    faults = []
    for (name, few), less, more in zip(COUNTS, others, counts):
        faults.append(f"{more} {name} of {what}, and {less} of {other}" if more > max(few, most * less) else None)
    return faults


def main():
    counted = Counted()
    with tempfile.TemporaryDirectory() as folder:
        program = copies.build_program(os.path.join(folder, "copy"), copies.beside(__file__), ["query", "posting", "watch"])
        library = os.path.join(folder, "counting.so")
        subprocess.run(["cc", "-O2", "-shared", "-fPIC", "-x", "c", "-", "-o", library], input=COUNTING, text=True, check=True)
        with concurrent.futures.ThreadPoolExecutor(os.cpu_count()) as pool:
            jobs = [(faults_of, row) for row in ROWS] + [(faults_of_pair, pair) for pair in PAIRS]
            for faults in pool.map(lambda job: job[0](program, library, job[1], "--show" in sys.argv[1:]), jobs):
                counted.judge(faults)
    counted.end()


if __name__ == "__main__":
    main()
