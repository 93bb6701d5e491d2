#!/usr/bin/env python3
"""Refuses each request for memory of the built program in turn, in a run and in sessions without readers and with two, and judges
what it answers.

The script puts a small document and one of 19 KB, and searches them line by line, by the compiled pattern, with stars inside
stars, and with a pattern that is too large to be compiled, and under some prefixes. With the Nth request refused, each search's answer is the same or
`refused: out of memory`, each other line does its work or is refused with the same words, or the program says that memory ran
out. What it has written then is the beginning of such a text. At most one item is refused. If it is a put or the publish, the
answers are those to the script without it. The judge (judge/transcripts.py) knows where the entries may come. The library of
counting.py counts the requests and refuses one.

Usage: tests/refused/refused_memory.py [--every N]   The last line counts: N passed, M failed. With --every, only each Nth request is refused.
"""

import argparse
import collections
import concurrent.futures
import functools
import os
import pathlib
import re
import subprocess
import sys
import tempfile

sys.path.insert(0, str(pathlib.Path(__file__).resolve().parent.parent))

from built import PROGRAM, need_program, put  # noqa: E402
from counted import Counted  # noqa: E402
from judge import transcripts  # noqa: E402
from refused import counting  # noqa: E402

SEARCHES = [b"xy|ca", b"line 44[0-3] .* 0x[0-3]{2}", b"^$", b"((a*|b)*|c)*d$|^line (0*)*7", b"e 44[0-2]|z$", b".{211}.{212}.{211}|line 7 of the body, int x"]
# Some begin no name, and some are under others.
PREFIXES = b"".join(b"--under %s%d --not-under %d " % (name, number, number) for name in (b"a", b"b/") for number in range(9))
OUT_OF_MEMORY = re.compile(rb"^(search|line) (\d+) refused: out of memory$", re.MULTILINE)
NO_MEMORY = b"tsearch: out of memory\n"
# The words that the program is started with, and what they mean to the judge.
WAYS = {
    ("--readers", "0"): {"readers": 0},
    ("--live", "--readers", "0"): {"readers": 0, "session": True},
    ("--live", "--readers", "2"): {"readers": 2, "session": True},
}


def items_of_script():
    small = b"ab\ncad\n\nxyz"
    large = b"".join(b"line %d of the body, int x = 0x%08x;\n" % (i, i * 7919) for i in range(450))
    finds = [b"find %s--under a -- %s\n" % (PREFIXES, pattern) for pattern in SEARCHES[:2]]
    return [put(b"a", small), put(b"b", large), b"publish\n"] + [b"search " + pattern + b"\n" for pattern in SEARCHES] + finds


ITEMS = items_of_script()
SCRIPT = b"".join(ITEMS)


@functools.lru_cache(None)
def answers_without(line):
    """What a run writes for the script without the item on this line, with enough memory. No item is on line 0."""
    lines = [1 + b"".join(ITEMS[:place]).count(b"\n") for place in range(len(ITEMS))]
    left = [item for item, number in zip(ITEMS, lines) if number != line]
    return subprocess.run([PROGRAM, "--readers", "0"], input=b"".join(left), stdout=subprocess.PIPE, check=False, timeout=300).stdout


def run(library, script, words, refused):
    """The status, the output and the messages of the run whose request with this number is refused, and how many there were."""
    env = dict(os.environ, LD_PRELOAD=library, REFUSED=str(refused))
    done = subprocess.run([PROGRAM, *words, script], env=env, capture_output=True, check=False, timeout=300)
    messages, count = re.fullmatch(rb"(.*)requests (\d+)\n", done.stderr, re.DOTALL).groups()
    return done.returncode, done.stdout, messages, int(count)


def fault_of_beginning(how, text):
    """What is wrong with a text that is written before memory runs out for the program itself, or None."""
    if "session" in how:
        return transcripts.fault_of(SCRIPT, text, 2, **how, known=answers_without(0), whole=False)
    return None if answers_without(0).startswith(text) else "no beginning"


def outcome(how, status, text, messages):
    """What became of a run, and what is wrong, or None."""
    if messages == NO_MEMORY:
        return "the run refused", "the status" if status != 2 else fault_of_beginning(how, text)
    refused = OUT_OF_MEMORY.findall(text)
    if messages or len(refused) > 1:
        return "other words", "several items are refused, or there are other messages"
    word, number = refused[0] if refused else (b"", b"0")
    line = int(number) if word == b"line" else 0
    fault = transcripts.fault_of(SCRIPT, text, status, **how, known=answers_without(line), scarce=bool(refused))
    return "a %s refused" % word.decode() if refused else "the same", fault


def fault_of(library, script, words, refused):
    """What became of the run whose request with this number is refused, and what is wrong, or None."""
    status, text, messages, count = run(library, script, words, refused)
    what, fault = outcome(WAYS[words], status, text, messages)
    if refused > count and what != "the same":
        fault = "nothing is refused"
    told = "request %d refused with %s: %s: status %d, %r, %r" % (refused, " ".join(words), fault, status, messages, text[:500])
    return what, told if fault else None


def main():
    every = argparse.ArgumentParser(description="Refuses each request for memory of the program in turn.")
    every.add_argument("--every", type=int, default=1)
    every = every.parse_args().every
    need_program()
    counted = Counted()
    with tempfile.TemporaryDirectory() as folder, concurrent.futures.ThreadPoolExecutor(os.cpu_count()) as pool:
        library, script = counting.build(folder), pathlib.Path(folder, "script")
        script.write_bytes(SCRIPT)
        for words in WAYS:
            *_, requests = run(library, script, words, 0)
            counts = collections.Counter()
            for what, fault in pool.map(lambda refused: fault_of(library, script, words, refused), range(1, requests + 1, every)):
                counts[what] += 1
                counted.judge([fault])
            told = ", ".join("%s %d" % pair for pair in sorted(counts.items()))
            print("%s: %d requests refused in turn: %s" % (" ".join(words), sum(counts.values()), told))
    counted.end()


if __name__ == "__main__":
    main()
