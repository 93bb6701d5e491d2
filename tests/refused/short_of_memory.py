#!/usr/bin/env python3
"""Runs sessions and runs of the built program in so little address space that it is used up, again and again, and goes on after that.

Documents are put until they are refused for memory. Then publishes and searches are refused too, or are carried out; some documents
are removed, which gives memory back to the program though not to the system, and searches follow whose patterns take most of the
stack, and then the next documents. So the stack would have to grow while no address space is left. Each item that is refused has its
entry, and what is written is judged (judge/transcripts.py). Some sessions end as `out of memory`, since there is no memory for a line or
for a text, and some runs, since there is none for the script; many must go on. None ends by a signal. The limits differ by little, so
that memory is used up in the middle of different items. As many programs run at once as there are processors.

Usage: tests/refused/short_of_memory.py   The last line counts: N passed, M failed.
"""

import collections
import concurrent.futures
import os
import pathlib
import random
import re
import subprocess
import sys

sys.path.insert(0, str(pathlib.Path(__file__).resolve().parent.parent))

from built import PROGRAM, need_program, put  # noqa: E402
from counted import Counted  # noqa: E402
from judge import transcripts  # noqa: E402

SECONDS = 300
NO_MEMORY = b"tsearch: out of memory\n"
# Puts or publishes were refused, and searches, again and again, and each item has its entry.
GOES_ON = "went on"
# Patterns of the greatest height over the longest lines, which take more stack than anything else that is known, each with
# a simpler one that finds the same lines of the documents.
DEEP = {
    b"^((.{64}){63}%s)*x$" % (b"?" * 59): b"^a*x$",
    b"a" + b"{0,2}" * 12 + b"?" * 51: b"^",
}
LINE = b"a" * 16_128 + b"x\n"
FEW, ROUNDS = 200, 4
# So many KB, and so many documents, which use them up: for sessions, for runs, which have their script in memory too, and for sessions with
# readers, each of which has a stack. The C library keeps address space for each thread unless it is told to share it; then little is left
# for anything, and sessions with readers end before much is refused.
SHARED = {"MALLOC_ARENA_MAX": "1"}
SESSION, RUN, READING = ["--live", "--readers", "0"], ["--readers", "0"], ["--live", "--readers", "2"]
LIMITS = [(SESSION, 13_700, 150, 4_000), (RUN, 31_000, 400, 4_000), (READING, 24_000, 500, 4_000)]
TIMES = 14


def documents(name, count):
    """Documents of some 700 bytes, each with many trigrams of its own."""
    chance = random.Random(name)
    lines = (b"%s\n" % bytes(chance.choices(b"abcdefghijklmnopqrstuvwxyz ", k=70)) for _ in range(10 * count))
    return b"".join(put(b"%s%d" % (name, number), b"".join(next(lines) for _ in range(10))) for number in range(count))


def script_of(count):
    items = [put(b"long", LINE), documents(b"shown", count // 4), b"publish\npublish\n", documents(b"first", count)]
    for number in range(ROUNDS):
        items += [b"publish\nsearch [a-z]\npublish\nsearch ab.*cd\nstatus\n"]
        items += [b"remove first%d\n" % (number * FEW + at) for at in range(FEW)] + [b"publish\n"]
        items += [b"search %s\nfind -c -- %s\npublish\n" % (pattern, pattern) for pattern in DEEP]
        items += [documents(b"more%d-" % number, FEW)]
    return b"".join(items) + b"publish\nsearch b.*c\nstatus\n"


SCRIPTS = {count: script_of(count) for *_, count in LIMITS}


def limited(kilobytes, words, script):
    """The status, the output and the messages of a program with so much address space."""
    command = ["bash", "-c", 'ulimit -c 0; ulimit -s 2048; ulimit -v "$0" && exec "$@"', str(kilobytes), PROGRAM, *words]
    done = subprocess.run(command, input=script, capture_output=True, check=False, timeout=SECONDS, env={**os.environ, **SHARED})
    return done.returncode, done.stdout, done.stderr


def outcome(words, kilobytes, count):
    """What became of a program, and what is wrong with it, or None."""
    script, is_session = SCRIPTS[count], "--live" in words
    try:
        status, text, messages = limited(kilobytes, words, script)
    except subprocess.TimeoutExpired:
        return "did not end", f"it did not end in {SECONDS} seconds"
    if (status, messages) == (2, NO_MEMORY):
        return "ended as out of memory", None
    if (status, messages) != (2, b""):
        return "other words", f"status {status}, {messages!r}"
    fault = transcripts.fault_of(script, text, status, session=is_session, readers=int(words[-1]), scarce=True, table=DEEP)
    refused = [what for what in (b"line", b"search") if re.search(rb"^%s \d+ refused: out of memory$" % what, text, re.MULTILINE)]
    return GOES_ON if len(refused) == 2 else "little was refused", fault and fault[:300]


def main():
    need_program()
    counted = Counted()
    jobs = [(words, least + step * number, count) for words, least, step, count in LIMITS for number in range(TIMES)]
    with concurrent.futures.ThreadPoolExecutor(os.cpu_count()) as pool:
        seen = list(pool.map(lambda job: outcome(*job), jobs))
    for (words, kilobytes, _), (_, fault) in zip(jobs, seen):
        counted.judge([f"{' '.join(words)} in {kilobytes} KB: {fault}" if fault else None])
    for words, *_ in LIMITS:
        outcomes = collections.Counter(what for (how, *_), (what, _) in zip(jobs, seen) if how == words)
        print("%s: %s" % (" ".join(words), ", ".join("%s %d" % pair for pair in sorted(outcomes.items()))))
        if words != RUN:
            counted.judge([None if outcomes[GOES_ON] >= TIMES // 4 else f"{' '.join(words)}: {outcomes[GOES_ON]} of {TIMES} go on"])
    counted.end()


if __name__ == "__main__":
    main()
