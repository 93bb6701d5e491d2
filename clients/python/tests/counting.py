"""Runs the tests of the modules that are named, and counts them: the last line is N passed, M failed."""

from __future__ import annotations

import collections
import logging
import sys
import unittest

import helpers  # puts the package on the path of modules


class Counting(unittest.TestResult):
    """Counts the tests, and says what fails and what is left out."""

    passed = 0

    def addSuccess(self, test: unittest.TestCase) -> None:
        super().addSuccess(test)
        self.passed += 1

    def addError(self, test: unittest.TestCase, err: object) -> None:
        super().addError(test, err)  # type: ignore[arg-type]
        print(f"FAILED {test.id()}: {self.errors[-1][1]}", flush=True)

    def addFailure(self, test: unittest.TestCase, err: object) -> None:
        super().addFailure(test, err)  # type: ignore[arg-type]
        print(f"FAILED {test.id()}: {self.failures[-1][1]}", flush=True)

    def addSubTest(self, test: unittest.TestCase, subtest: unittest.TestCase, err: object) -> None:
        super().addSubTest(test, subtest, err)  # type: ignore[arg-type]
        if err is not None:
            found = self.failures or self.errors
            print(f"FAILED {subtest.id()}: {found[-1][1]}", flush=True)


class Complaints(logging.Handler):
    """What asyncio complains of, such as an exception that nobody has taken. Each is a failure."""

    def __init__(self) -> None:
        super().__init__(logging.ERROR)
        self.count = 0

    def emit(self, record: logging.LogRecord) -> None:
        self.count += 1
        print(f"FAILED asyncio: {record.getMessage()} {record.exc_info}", flush=True)


def main() -> None:
    assert helpers.PACKAGE.is_dir()
    complaints = Complaints()
    logging.getLogger("asyncio").addHandler(complaints)
    logging.getLogger("asyncio").propagate = False
    suite = unittest.defaultTestLoader.loadTestsFromNames(sys.argv[1:])
    result = Counting()
    suite.run(result)
    failed = len(result.failures) + len(result.errors) + complaints.count
    left_out = collections.Counter((test.id().split(".")[0], reason) for test, reason in result.skipped)
    for (module, reason), count in left_out.items():
        print(f"left out: {count} tests of {module}: {reason}", flush=True)
    print(f"{result.passed} passed, {failed} failed", flush=True)
    sys.exit(1 if failed else 0)


if __name__ == "__main__":
    main()
