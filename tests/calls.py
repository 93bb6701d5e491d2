#!/usr/bin/env python3
"""Calls the libraries: the tests of tests/calls, a folder for each area, which are compiled together, with checks and without proofs.

They show what no contract says: that each public function does its work if memory is ample, over inputs of many kinds and sizes. Each
file NAME.rt.txt of a folder AREA is a module AREA::NAME of one crate over copies of the program's crates.

Usage: tests/calls.py [AREA..]   The last line counts: N passed, M failed.
"""

import pathlib
import re
import subprocess
import sys
import tempfile

import copies
from built import TOP, script_name
from counted import Counted

CALLS = TOP / "tests/calls"
# The areas may use all crates of the program, and the standard library's threads and waiting.
OWN, RIGHTS = "calls", "tests_may=Threads+Wait"
# How long one test may take, also where other work has the processors.
SECONDS = 3600


def areas_of(words):
    areas = sorted(path.name for path in CALLS.iterdir() if path.is_dir())
    unknown = sorted(set(words) - set(areas))
    if unknown:
        sys.exit(f"{script_name()}: there is no folder tests/calls/{unknown[0]}")
    return words or areas


def libraries():
    """The crates of the program that another crate can use, and what each of them uses from the toolchain."""
    lines = copies.lines_of_crates()
    own = [name for name in lines if (TOP / "crates" / name / "src/lib.rt").is_file() and not name.endswith("_tests")]
    used = {name for line in lines.values() for name in line.split(":")[1].split()}
    return own + sorted(used - set(lines))


def write_modules(sources, names):
    """Writes the root of a crate, or of an area, with these modules."""
    sources.write_text("".join(f"#[cfg(test)]\nmod {name};\n" for name in names), encoding="utf-8")


def copy_tests(folder, areas):
    """Copies the crates, and the tests of these areas as a crate that uses them. Returns its path."""
    copies.copy_crates(folder, libraries(), OWN, rights=RIGHTS)
    crate = pathlib.Path(folder, "crates", OWN)
    for area in areas:
        (crate / "src" / area).mkdir(parents=True)
        files = sorted((CALLS / area).glob("*.rt.txt"))
        for file in files:
            (crate / "src" / area / file.name[: -len(".txt")]).write_bytes(file.read_bytes())
        write_modules(crate / "src" / f"{area}.rt", [file.name.split(".")[0] for file in files])
    root = crate / "src/lib.rt"
    write_modules(root, areas)
    root.write_text("#![tactic(auto)]\n" + root.read_text(encoding="utf-8"), encoding="utf-8")
    return crate


def main():
    areas, counted = areas_of(sys.argv[1:]), Counted()
    with tempfile.TemporaryDirectory() as folder:
        crate = copy_tests(folder, areas)
        done = subprocess.run(["rt", "try", "--test", "--seconds", str(SECONDS)], cwd=crate, capture_output=True, text=True, check=False)
    lines = (done.stdout + done.stderr).splitlines()
    outcomes = [found.groups() for found in (re.fullmatch(r"test (\S+) \.\.\. (.*)", line) for line in lines) if found]
    for name, outcome in outcomes:
        counted.judge([None if outcome == "ok" else f"{name}: {outcome}"])
    missing = sorted(set(areas) - {name.split("::")[0] for name, _ in outcomes})
    if missing or done.returncode != 0:
        print("\n".join(lines[-40:]))
        counted.judge([f"the tests of {', '.join(missing or areas)} did not all run and pass; rt ended with {done.returncode}"])
    counted.end()


if __name__ == "__main__":
    main()
