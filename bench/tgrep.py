#!/usr/bin/env python3
"""Whole commands of tgrep beside those of rg, ugrep, grep and csearch: the median and the least of so many calls after the first.

Usage: bench/tgrep.py [--calls N] FOLDER..     The outputs go to a pipe that is read. All begin in the folder, and search it whole.

For each folder: the first call, with the start of its server; a rare word and a common one; a rare word right after a file has changed
(the file is one of a copy of the folder). csearch has its index made before, and knows of no change. It says how loaded the machine
is, and takes no quiet one for granted.
"""

import argparse
import os
import pathlib
import shutil
import statistics
import subprocess
import sys
import tempfile
import time

TOP = pathlib.Path(__file__).resolve().parent.parent
TGREP = [str(TOP / "tgrep")]
RARE, COMMON = "sched_setaffinity", "return"
# What stands for the pattern in a command.
PATTERN = "PATTERN"
OTHERS = {
    "rg": ["rg", "-uuu", "-a", "--no-unicode", "-n", PATTERN, "."],
    "rg -j1": ["rg", "-j1", "-uuu", "-a", "--no-unicode", "-n", PATTERN, "."],
    "ugrep": ["ugrep", "-rnE", "-a", "-U", "--hidden", PATTERN, "."],
    "grep": ["grep", "-rnE", PATTERN, "."],
    "csearch": ["csearch", "-n", PATTERN],
}


def seconds_of(command, folder):
    """How long a command takes, and how many lines it writes."""
    began = time.perf_counter()
    done = subprocess.run(command, cwd=folder, stdin=subprocess.DEVNULL, stdout=subprocess.PIPE, stderr=subprocess.DEVNULL, check=False)
    return time.perf_counter() - began, done.stdout.count(b"\n")


def row_of(command, folder, calls, before=lambda number: None):
    """The median and the least in milliseconds, and the number of lines, after a call that is not counted."""
    seconds_of(command, folder)
    times = []
    for number in range(calls):
        before(number)
        spent, lines = seconds_of(command, folder)
        times.append(spent * 1_000)
    return f"{statistics.median(times):8.1f} {min(times):8.1f} {lines:9,}"


def changed_in(folder):
    """What writes one more line into a file of the folder."""
    path = next(path for path in sorted(pathlib.Path(folder).rglob("*.[ch]")) if path.is_file() and path.stat().st_size < 100_000)

    def change(number):
        with open(path, "a", encoding="ascii") as file:
            file.write(f"// changed_line {number}\n")

    return change


def measure(folder, calls):
    """All rows of a folder."""
    tgrep = TGREP
    subprocess.run([*tgrep, "--stop"], cwd=folder, stdin=subprocess.DEVNULL, capture_output=True, check=False)
    first, _ = seconds_of([*tgrep, RARE], folder)
    print(f"{folder}: first call {first:.2f} s\n{'':28}  median    least     lines")
    if shutil.which("cindex"):
        subprocess.run(["cindex", "-reset", folder], stdin=subprocess.DEVNULL, capture_output=True, check=False)
    for pattern in RARE, COMMON:
        print(f"{pattern:18} {'tgrep':8} {row_of([*tgrep, pattern], folder, calls)}")
        for name, words in OTHERS.items():
            if shutil.which(words[0]):
                command = [pattern if word == PATTERN else word for word in words]
                print(f"{pattern:18} {name:8} {row_of(command, folder, calls)}")
    change = changed_in(folder)
    print(f"{'changed right before':18} {'tgrep':6} {row_of([*tgrep, 'changed_line'], folder, calls, change)}")
    subprocess.run([*tgrep, "--stop"], cwd=folder, stdin=subprocess.DEVNULL, capture_output=True, check=False)


def main():
    parser = argparse.ArgumentParser(description=__doc__, formatter_class=argparse.RawDescriptionHelpFormatter)
    parser.add_argument("folders", nargs="+", metavar="FOLDER")
    parser.add_argument("--calls", type=int, default=20)
    given = parser.parse_args()
    version = subprocess.run([str(TOP / "tsearch"), "--version"], stdout=subprocess.PIPE, check=False).stdout.decode().strip()
    print(f"{version}; load {os.getloadavg()[0]:.1f} before")
    with tempfile.TemporaryDirectory() as room:
        os.environ["CSEARCHINDEX"] = os.path.join(room, "csearchindex")
        for number, folder in enumerate(given.folders):
            copy = os.path.join(room, str(number))
            shutil.copytree(folder, copy, symlinks=True)
            measure(os.path.realpath(copy), given.calls)
    print(f"load {os.getloadavg()[0]:.1f} after")


if __name__ == "__main__":
    sys.exit(main())
