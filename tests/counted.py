"""The counts of a script of tests/: what has passed and what has failed. The last line that it writes reports them; ./test reads it."""

import concurrent.futures
import subprocess
import sys

from built import need_program, script_name


class Wrong(Exception):
    """A test did not come out as it should."""


class Counted:
    """The counts so far."""

    def __init__(self):
        self.passed = self.failed = 0

    def passes(self, count=1):
        """Counts one more that has passed, or `count` more."""
        self.passed += count

    def fails(self, what):
        """Counts one more that has failed, and says what."""
        self.failed += 1
        print(f"FAILED {what}", flush=True)

    def judge(self, faults):
        """Counts each of these as failed, or as passed if it is None."""
        for fault in faults:
            if fault is None:
                self.passes()
            else:
                self.fails(fault)

    def end(self):
        """Writes the counts, and ends the script with status 1 if anything has failed."""
        print(f"{self.passed} passed, {self.failed} failed", flush=True)
        sys.exit(1 if self.failed else 0)


def faults_of_call(test):
    """Calls a test. What is wrong: the error with which the call ends, or None."""
    try:
        test()
    except (Wrong, OSError, IndexError, ValueError, subprocess.TimeoutExpired) as wrong:
        return [f"{test.__name__}: {wrong!r}"]
    return [None]


def run_tests(tests, faults_of=faults_of_call, at_once=1, wanted=None):
    """Runs the tests of a script that has the names of tests as its arguments, unless they are given as `wanted`: all of them, or
    those that are named, so many at once. Counts what is wrong with each by `faults_of`, and ends the script."""
    need_program()
    wanted = sys.argv[1:] if wanted is None else wanted
    missing = sorted(set(wanted) - {test.__name__ for test in tests})
    if missing:
        sys.exit(f"{script_name()}: no such test: {', '.join(missing)}")
    counted = Counted()
    with concurrent.futures.ThreadPoolExecutor(at_once) as pool:
        for faults in pool.map(faults_of, [test for test in tests if not wanted or test.__name__ in wanted]):
            counted.judge(faults)
    counted.end()
