#!/usr/bin/env python3
"""Refuses the large requests for memory of a session, until a publish is refused, and then lets the session wait.

The copy of the index that no reader sees could have more of the commands only if there were memory. The session does not ask for it again
and again while nothing comes. The library of counting.py counts the requests.

Usage: tests/refused/refused_pieces.py   The last line counts: N passed, M failed.
"""

import os
import pathlib
import re
import subprocess
import sys
import tempfile
import time

sys.path.insert(0, str(pathlib.Path(__file__).resolve().parent.parent))

from built import PROGRAM, need_program, own_body, put  # noqa: E402
from counted import Counted  # noqa: E402
from refused import counting  # noqa: E402

# No buffer has so many bytes, but the table of some thousand documents has.
LEAST = 150_000
# A batch is put and published at a time.
BATCH, BATCHES = 100, 200
# For how many seconds nothing comes, and how many requests may be refused in all.
SECONDS, MOST = 1, 100


def ask(session, items):
    """Sends items and a line of no known form. Returns the lines up to its refusal."""
    session.stdin.write(items + b"what\n")
    session.stdin.flush()
    lines = [session.stdout.readline()]
    while lines[-1] and not lines[-1].endswith(b" refused: bad line\n"):
        lines.append(session.stdout.readline())
    return lines


def is_refused(session):
    """Whether a publish is refused for memory in the end."""
    for batch in range(BATCHES):
        puts = (put(b"f%d-%d" % (batch, number), own_body(b"x", batch * BATCH + number)) for number in range(BATCH))
        if any(line.endswith(b" refused: out of memory\n") for line in ask(session, b"".join(puts) + b"publish\n")):
            return True
    return False


def fault_of(library):
    env = dict(os.environ, LD_PRELOAD=library, LEAST=str(LEAST), REFUSED="1000000000")
    words, pipes = [PROGRAM, "--live", "--readers", "1"], dict.fromkeys(("stdin", "stdout", "stderr"), subprocess.PIPE)
    with subprocess.Popen(words, env=env, **pipes) as session:
        refused = is_refused(session)
        time.sleep(SECONDS)
        _, messages = session.communicate(timeout=300)
    if not refused:
        return "no publish is refused"
    requests = int(re.fullmatch(rb"requests (\d+)\n", messages)[1])
    return None if requests <= MOST else f"{requests} requests are refused, of which most come while the session waits"


def main():
    need_program()
    counted = Counted()
    with tempfile.TemporaryDirectory() as folder:
        counted.judge([fault_of(counting.build(folder))])
    counted.end()


if __name__ == "__main__":
    main()
