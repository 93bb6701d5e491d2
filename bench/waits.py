"""Measures how long a status waits while a session brings its second copy of the index up to date.

Usage: python3 bench/waits.py FOLDER..

For each folder a session with two readers gets all files that may be documents, a publish and a search. From its answer on, a status is
asked every five milliseconds until the session has nothing left to do, as its processor time shows. Then one file is changed and
published, and statuses are asked once more.
"""
import os
import sys
import time

import build
import client
import command
import corpus

PAUSE = 0.005
# So long without processor time means that the session has nothing left to do.
IDLE = 0.5
MOST = 120


def used(session):
    """The processor seconds of a session's main thread."""
    with open("/proc/%d/stat" % session.process.pid) as stat:
        fields = stat.read().rpartition(")")[2].split()
    return (int(fields[11]) + int(fields[12])) / os.sysconf("SC_CLK_TCK")


def wait_of_status(session):
    """The seconds from a status until its line is read."""
    start = time.perf_counter()
    session.process.stdin.write(b"status\n")
    line = b""
    while not line.endswith(b"\n"):
        line += session.process.stdout.read(4096)
    if b" status " not in line:
        sys.exit("%s: not a status: %r" % (build.called(), line))
    return time.perf_counter() - start


def waits(session):
    """The waits of statuses until the session is idle, and how many seconds that took."""
    found, start = [], time.perf_counter()
    mark, since = used(session), start
    while time.perf_counter() - since < IDLE and time.perf_counter() - start < MOST:
        found.append(wait_of_status(session))
        time.sleep(PAUSE)
        if used(session) - mark > 0.1 * (time.perf_counter() - since):
            mark, since = used(session), time.perf_counter()
    return found, since - start


def measure(documents):
    """Measures a session with these documents."""
    session = client.Session("--readers", "2", "--max-commands", "4294967294")
    _, first = session.put_all(documents, b"search zzqqxxyy\n")
    found, seconds = waits(session)
    print("\n%d files, %.1f MB; to the first answer %.2f s" % (len(documents), sum(map(len, documents.values())) / 1e6, first))
    command.head(["statuses after", "how many", "least / median / 99% / most, ms", "busy, s"])
    command.row("the first publish", len(found), command.shown(command.times(found)), "%.2f" % seconds)
    name = next(iter(documents))
    _, change = session.ask(corpus.put(name, documents[name] + b"\nchanged\n") + b"publish\nsearch zzqqxxyy\n")
    found, seconds = waits(session)
    command.row("a change, which took %.2f ms" % (1000 * change), len(found), command.shown(command.times(found)), "%.2f" % seconds)
    session.end()


def main():
    folders = command.words(__doc__, 1, None)
    build.need_program()
    for folder in folders:
        print("\n%s" % folder)
        measure(corpus.documents_of(folder))


if __name__ == "__main__":
    main()
