#!/usr/bin/env python3
"""Tests the plugin for Neovim, in a Neovim that runs, and other programs that search through tgrep.

They need the Debian packages neovim and python3-msgpack, and golang-1.19-src for a large tree; fzf and emacs-nox. Without one of them its
tests are left out, and named; without Go's sources the tree is one that is made.

Usage: tests/editor.py [--compiled] [TEST..]   --compiled tests with the program that is compiled with checks, TEST a test alone.
The last line counts: N passed, M failed.
"""

import importlib.util
import os
import shutil
import subprocess
import sys

from built import PROGRAM, TOP, need_program
from counted import Counted


# That of Debian's packages.
PYTHON = "/usr/bin/python3"


def has_library(python):
    """Whether a Python has the library that speaks to Neovim."""
    return shutil.which(python) is not None and subprocess.run([python, "-c", "import msgpack"], capture_output=True, check=False).returncode == 0


def main():
    if importlib.util.find_spec("msgpack") is None and has_library(PYTHON):
        os.execv(PYTHON, [PYTHON, *sys.argv])
    words = sys.argv[1:]
    is_compiled = "--compiled" in words
    program = TOP / "out/compiled/tsearch" if is_compiled else PROGRAM
    need_program(program, "./tsearch" if is_compiled else "./tsearch --prove")
    wanted = [word for word in words if word != "--compiled"]
    counted = Counted()
    from editors import others

    checks = [others.check]
    if shutil.which("nvim") is None:
        print("tests/editor.py: there is no command nvim on the PATH, so the tests of the plugin are left out")
    elif importlib.util.find_spec("msgpack") is None:
        print("tests/editor.py: there is no library msgpack (python3-msgpack), so the tests of the plugin are left out")
    else:
        from editors import plugin

        checks.append(plugin.check)
    for check in checks:
        found = check(program, wanted)
        counted.passed += found.passed
        counted.failed += found.failed
    counted.end()


if __name__ == "__main__":
    main()
