"""The calls of calls.rows, with GNU grep and ripgrep as the judges. The order of lines is not compared."""

import collections
import os
import re
import shlex
import shutil
import tempfile

from built import TOP
from counted import Counted
from terminal.trees import environment_in, make_trees, run, stop_all

ROWS = TOP / "tests/terminal/calls.rows"
# Each with what comes before the words, and behind them.
GREP = ["grep", "-rnI", "--color=never", "-Dskip"], ["--exclude=binary"]
RG = ["rg", "-n", "--no-heading", "--hidden", "--no-unicode", "--color=never"], ["-g!.git"]
COUNTS = {"-c", "--count", "-cZ"}
ZERO = re.compile(rb"^((line\n)?[^\n]*[:\0])?0\n", re.MULTILINE)
SPLIT = re.compile(rb"[\n\0]")


def rows():
    """The rows of the table."""
    with open(ROWS, encoding="utf-8") as file:
        return [line.rstrip("\n").split("\t") for line in file if not line.startswith("#")]


def judged_by(judge, words, own, cwd, environment):
    """The status and the lines that a judge gives. grep shows files without a line in its counts."""
    is_pattern = judge is GREP and not any(word.startswith("-") and "F" in word for word in own)
    (command, *first), last = judge
    at = words.index("--") if "--" in words else len(words)
    all_words = [*first, *["-E"] * is_pattern, *words[:at], *last, *words[at:]]
    status, shown, _ = run(all_words, cwd, environment, command=command)
    if judge is GREP and COUNTS & set(own):
        shown = ZERO.sub(b"", shown)
    return status, lines_of(shown)


def lines_of(shown):
    """What is written, without its order. A byte 0 ends a path with -Z, and -l then ends no line."""
    return sorted(part for part in SPLIT.split(shown) if part)


def faults_of(row, folder, environment):
    """What is wrong with a call: a text for each judge, None where it is as the judge says."""
    tree, inside, *calls = row
    own, *others = (words if words in ("=", "-") else shlex.split(words) for words in calls)
    cwd = os.path.join(folder, tree, inside)
    status, shown, said = run(own, cwd, environment)
    found = status, lines_of(shown)
    for judge, words in zip((GREP, RG), others):
        if words != "-" and shutil.which(judge[0][0]):
            wanted = judged_by(judge, own if words == "=" else words, own, cwd, environment)
            yield None if found == wanted else f"{tree}/{inside} {shlex.join(own)}: {difference(found, wanted)} of {judge[0][0]}; {said}"


def difference(found, wanted):
    """What is found and not wanted, and what is wanted and not found."""
    more, less = collections.Counter(found[1]), collections.Counter(wanted[1])
    return f"status {found[0]}, {list((more - less).elements())} in place of status {wanted[0]}, {list((less - more).elements())}"


def check(program):
    """Checks all rows, and gives the counts."""
    counted = Counted()
    with tempfile.TemporaryDirectory(ignore_cleanup_errors=True) as folder:
        folder = os.path.realpath(folder)
        make_trees(folder)
        environment = environment_in(folder, program)
        try:
            for row in rows():
                counted.judge(faults_of(row, folder, environment))
        finally:
            stop_all(environment)
    return counted
