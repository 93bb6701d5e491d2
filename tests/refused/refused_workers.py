#!/usr/bin/env python3
"""Refuses each request for memory of a run with a gate in turn, and checks that its readers do not call the gate after the run.

The built program's gate is open and reports nothing. So a small program over the library, refused_workers.rt.txt, runs a script with
no readers and with two. Its gate holds each search for a while at each point. After each run it waits for ten times as long, and
reports whether the gate was called again. What the runs write is judged as in refused_runs.py.

The program is compiled with checks, as ./tsearch does it at its first call. The library of counting.py counts the requests and
refuses one.

Usage: tests/refused/refused_workers.py [TIMES]   The last line counts: N passed, M failed.
"""

import collections
import os
import pathlib
import re
import subprocess
import sys
import tempfile

sys.path.insert(0, str(pathlib.Path(__file__).resolve().parent.parent))

import copies  # noqa: E402
from counted import Counted  # noqa: E402
from judge import transcripts  # noqa: E402
from judge.check_transcripts import REPLACEMENT  # noqa: E402
from refused import counting, refused_runs  # noqa: E402

# what the run writes with memory
WHOLE = refused_runs.SCRIPTS[REPLACEMENT]
WRITTEN = WHOLE + b"tsearch: written\n"
WANTED = b"no readers\n" + WRITTEN + b"readers\n" + WRITTEN
FORM = re.compile(rb"no readers\n(.*?)(tsearch: [^\n]*\n)readers\n(.*?)(tsearch: [^\n]*\n)", re.DOTALL)


def run(library, program, refused):
    """The status and the output of the run whose request with this number is refused, and how many there were."""
    env = dict(os.environ, LD_PRELOAD=library, REFUSED=str(refused))
    done = subprocess.run([program], env=env, stdin=subprocess.DEVNULL, capture_output=True, check=False, timeout=300)
    return done.returncode, done.stdout, int(done.stderr.split()[-1])


def outcome(readers, text, word):
    """What became of one of the two runs, and what is wrong with it, or None."""
    if word == refused_runs.NO_MEMORY:
        return "the run refused", None if WHOLE.startswith(text) else "%r is written" % text
    if word != b"tsearch: written\n":
        return "other words", repr(word)
    if text == WHOLE:
        return "the same", None
    return "an item refused", transcripts.fault_of(REPLACEMENT, text, 2, readers=readers, scarce=True)


def main():
    times = int(sys.argv[1]) if len(sys.argv) > 1 else 3
    outcomes, counted = collections.Counter(), Counted()
    with tempfile.TemporaryDirectory() as folder:
        program, library = copies.build_program(os.path.join(folder, "copy"), copies.beside(__file__), ["documents", "transcript", "tsearch"]), counting.build(folder)
        for _ in range(times):
            refused = count = 0
            while refused <= count:
                status, output, count = run(library, program, refused)
                form = FORM.fullmatch(output)
                ends = [outcome(0, form[1], form[2]), outcome(2, form[3], form[4])] if form and status == 0 else [("other words", repr(output))]
                if not 0 < refused <= count and output != WANTED:
                    ends.append(("other words", "nothing is refused"))
                outcomes.update(what for what, _ in ends)
                faults = [fault for _, fault in ends if fault]
                counted.judge(["request %d: %s" % (refused, "; ".join(faults)) if faults else None])
                refused += 1
    print(", ".join("%s %d" % pair for pair in sorted(outcomes.items())))
    counted.end()


if __name__ == "__main__":
    main()
