#!/usr/bin/env python3
"""Refuses each request for memory of a small program over the libraries in turn, and checks what the calls answer.

The program, refused_calls.rt.txt, makes the calls of `index`, `search` and `published` that take memory. If a call is refused, it must
say that memory ran out and nothing else, give back what it was given, and leave everything as it was; the same call must then do
its work. The program writes the same text whatever is refused, unless something is wrong.

The toolchain's tests cannot refuse a request, so this is not part of `rt ci`. The program is compiled with checks, as ./tsearch
does it at its first call. The library of counting.py counts the requests and refuses one.

Usage: tests/refused/refused_calls.py [--every N]   The last line counts: N passed, M failed. With --every, only each Nth request is refused.
"""

import argparse
import concurrent.futures
import os
import pathlib
import subprocess
import sys
import tempfile

sys.path.insert(0, str(pathlib.Path(__file__).resolve().parent.parent))

import copies  # noqa: E402
from counted import Counted  # noqa: E402
from refused import counting  # noqa: E402

USES = ["ere", "query", "prefixes", "documents", "index", "prepare", "views", "search", "published"]
WANTED = b"each call did its work, at once or after a refusal\n"


def run(library, program, refused):
    """The status and the output of the run whose request with this number is refused, and how many there were."""
    env = dict(os.environ, LD_PRELOAD=library, REFUSED=str(refused))
    done = subprocess.run([program], env=env, stdin=subprocess.DEVNULL, capture_output=True, check=False, timeout=300)
    return (done.returncode, done.stdout), int(done.stderr.split()[-1])


def fault_of(library, program, refused):
    """What is wrong with the run whose request with this number is refused, or None."""
    result, _ = run(library, program, refused)
    return None if result == (0, WANTED) else "request %d refused: %r" % (refused, result)


def main():
    every = argparse.ArgumentParser(description="Refuses each request for memory of calls in turn.")
    every.add_argument("--every", type=int, default=1)
    every = every.parse_args().every
    counted = Counted()
    with tempfile.TemporaryDirectory() as folder, concurrent.futures.ThreadPoolExecutor(os.cpu_count()) as pool:
        program, library = copies.build_program(os.path.join(folder, "copy"), copies.beside(__file__), USES), counting.build(folder)
        _, requests = run(library, program, 0)
        counted.judge(pool.map(lambda refused: fault_of(library, program, refused), range(0, requests + 1, every)))
    counted.end()


if __name__ == "__main__":
    main()
