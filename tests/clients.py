#!/usr/bin/env python3
"""Runs the tests of clients/python on the built program, several modules at once.

They need the Debian packages python3-aiohttp, python3-selenium, chromium and chromium-driver for the page, and python3-distributed for
clusters; without one of them the tests of that part are left out, and named. Of the
Python of the variable PYTHON, python3 on the PATH and /usr/bin/python3, which has Debian's packages, the one with the most of these
libraries runs them.

What fails is run again by itself once all others have ended. It stays failed, but what passes then is named: it hangs on time, or on
what runs beside it, which is a defect of the test or of what it tests.

Usage: tests/clients.py [--compiled] [MODULE..]   --compiled tests with the program that is compiled with checks. The last line
counts: N passed, M failed.
"""

import concurrent.futures
import os
import re
import shutil
import subprocess
import sys

from built import PROGRAM, TOP, need_program
from counted import Counted

TESTS = TOP / "clients/python/tests"
# The longest first, so that no processor waits for it.
MODULES = ["test_nothing_runs", "test_links", "test_shared", "test_cluster", "test_operators", "test_visitors", "test_access", "test_session", "test_git", "test_browser", "test_aio", "test_networks", "test_not_seen", "test_host", "test_apart", "test_web", "test_warm", "test_warm_server", "test_mcp", "test_tgrep", "test_folder", "test_ignored", "test_paths", "test_readme", "test_review", "test_package", "test_hints", "test_core", "test_feeding", "test_bounds", "test_views", "test_comparisons"]
LIBRARIES = ["aiohttp", "selenium", "distributed"]
LEAST_VERSION = (3, 11)
SECONDS = 1800
COUNTS = re.compile(r"(\d+) passed, (\d+) failed")
FAILED = re.compile(r"^FAILED (\w+\.\w+\.\w+)", re.MULTILINE)


def libraries_of(python):
    """How many of the libraries a Python has; -1 for one that is too old."""
    code = f"""
import sys
from importlib.util import find_spec
print(-1 if sys.version_info < {LEAST_VERSION} else sum(find_spec(name) is not None for name in {LIBRARIES}))
"""
    done = subprocess.run([python, "-c", code], capture_output=True, check=False)
    return int(done.stdout) if done.returncode == 0 else -1


def find_python():
    """The first Python that has the most, or None."""
    found = [os.environ.get("PYTHON"), shutil.which("python3"), "/usr/bin/python3"]
    pythons = {python: libraries_of(python) for python in found if python and shutil.which(python)}
    most = max(pythons.values(), default=-1)
    return None if most < 0 else next(python for python, count in pythons.items() if count == most)


def run_module(python, program, module):
    """What the tests of a module write, and their counts. It may be the name of a single test too."""
    environment = {**os.environ, "TSEARCH": str(program)}
    environment.pop("PYTHONPATH", None)
    command = [python, "-B", "counting.py", module]
    try:
        done = subprocess.run(
            command, cwd=TESTS, env=environment, stdin=subprocess.DEVNULL, stdout=subprocess.PIPE, stderr=subprocess.STDOUT,
            timeout=SECONDS, check=False, text=True, errors="replace",
        )  # fmt: skip
    except subprocess.TimeoutExpired as late:
        return f"{(late.stdout or b'').decode(errors='replace')}{module} has not ended in {SECONDS} seconds\n", (0, 1)
    rows = done.stdout.splitlines()
    # a library may write of what it has left open behind the counts
    counts = next((found for row in reversed(rows) if (found := COUNTS.fullmatch(row))), None)
    if not counts or done.returncode not in (0, 1):
        return done.stdout + f"{module} has ended with status {done.returncode}{'' if counts else ' and no counts'}\n", (0, 1)
    return "".join(row + "\n" for row in rows if row != counts[0]), (int(counts[1]), int(counts[2]))


def main():
    words = sys.argv[1:]
    is_compiled = "--compiled" in words
    program = TOP / "out/compiled/tsearch" if is_compiled else PROGRAM
    need_program(program, "./tsearch" if is_compiled else "./tsearch --prove")
    modules = [word for word in words if word != "--compiled"] or MODULES
    missing = sorted(set(modules) - set(MODULES))
    if missing:
        sys.exit(f"tests/clients.py: no such module: {', '.join(missing)}")
    counted = Counted()
    python = find_python()
    if python is None:
        print("there is no Python of version 3.11 or later, so the tests of clients/python are left out")
        counted.end()
    failed = []
    with concurrent.futures.ThreadPoolExecutor(os.cpu_count()) as pool:
        for module, (text, (passed, count)) in zip(modules, pool.map(lambda module: run_module(python, program, module), modules)):
            sys.stdout.write(text)
            counted.passed += passed
            counted.failed += count
            failed += FAILED.findall(text) or ([module] if count else [])
    for test in sorted(set(failed)):
        _, (_, again) = run_module(python, program, test)
        print(f"{test} was run again by itself: {'it failed again' if again else 'it passed, so it hangs on time or on what runs beside it'}")
    counted.end()


if __name__ == "__main__":
    main()
