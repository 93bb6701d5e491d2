#!/usr/bin/env python3
"""Has the prover refuse the edits of tests/wrong_bodies, a folder for each crate, in a copy of the crates.

They are edits like those of must-fail, which each call of ./test tries. A crate's first one costs a second check of all of the crate,
so some crates have theirs here. What `rt` keeps of the crates' proofs is used; without it, the copy is proved first.

Usage: tests/wrong_bodies.py [CRATE..]   The last line counts: N passed, M failed.
"""

import pathlib
import re
import shutil
import subprocess
import sys
import tempfile

import copies
from built import TOP, script_name
from counted import Counted

EDITS = TOP / "tests/wrong_bodies"


def crates_of(words):
    crates = sorted(path.name for path in EDITS.iterdir())
    unknown = sorted(set(words) - set(crates))
    if unknown:
        sys.exit(f"{script_name()}: there is no folder tests/wrong_bodies/{unknown[0]}")
    return words or crates


def put_edits(folder, crates):
    """In this copy of the crates, these have the edits as their must-fail, and no other crate has any."""
    for crate in pathlib.Path(folder, "crates").iterdir():
        shutil.rmtree(crate / "must-fail", ignore_errors=True)
        if crate.name in crates:
            shutil.copytree(EDITS / crate.name, crate / "must-fail")


def said_of_edits(folder):
    """What rt says of each edit, by names CRATE/NAME.edit. What it says besides is shown as it comes."""
    said = {}
    with subprocess.Popen(["rt", "ci"], cwd=folder, stdout=subprocess.PIPE, stderr=subprocess.STDOUT, text=True) as running:
        for line in running.stdout:
            if line.startswith("rt: "):
                print(line, end="", flush=True)
            found = re.match(r"rt: must-fail (\S+): (.*)", line)
            if found:
                said[found[1]] = found[2]
    return said


def main():
    crates, counted = crates_of(sys.argv[1:]), Counted()
    with tempfile.TemporaryDirectory() as folder:
        copies.copy_crates(folder, crates)
        put_edits(folder, crates)
        said = said_of_edits(folder)
    for path in [path for crate in crates for path in sorted((EDITS / crate).glob("*.edit"))]:
        edit = f"{path.parent.name}/{path.name}"
        outcome = said.get(edit, "rt said nothing of it")
        counted.judge([None if outcome.startswith("refused") else f"{edit}: {outcome}"])
    counted.end()


if __name__ == "__main__":
    main()
