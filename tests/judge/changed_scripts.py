#!/usr/bin/env python3
"""Runs every beginning of the scripts of examples/, of one with cancels and statuses, and of one of finds, and every change of one byte of them, and judges
what is written. One after the other is run without readers, run with two, and sent to a session with two.

Each byte is left out, doubled, and replaced by each byte of a list or, with --all, by each other byte. Each run must end within ten
seconds with one of the program's statuses and no message, and its text must be legal by transcripts.py. As many scripts run at once as there are processors. With --every only each Nth script is run,
as ./test does; with --all there are about ten times as many.

Then the texts of these scripts as they are, and the legal ones of check_transcripts.py, are changed, and the judge must refuse each
change: an entry that is left out or comes twice, another search that is cancelled, a cancelled search that is answered as well or is
cancelled in another item's turn, a search that is too slow without a limit of time, a status with one number off by one, and an answer
with another header, or with a row that is left out, comes twice, in another's place, or as what it is not.

Usage: tests/judge/changed_scripts.py [--all] [--every N] [NAME..]   The last line counts: N passed, M failed.
"""

import argparse
import concurrent.futures
import os
import pathlib
import re
import subprocess
import sys

sys.path.insert(0, str(pathlib.Path(__file__).resolve().parent.parent))

from built import PROGRAM, TOP, need_program  # noqa: E402
from counted import Counted  # noqa: E402
from judge import check_transcripts, transcripts  # noqa: E402

BYTES = b"\0\n\r #09azp.*+?[]({|^$\\-\x7f\x80\xff"
SECONDS = 10
# So many entries of a text are changed, or fewer than twice as many, and so many rows of each.
MOST_ENTRIES, MOST_ROWS = 20, 10

# Searches that may be open at their cancels or at a status, beside cancels that find none open or have no search.
CANCELS = b"""put a.txt 8
one
two

publish
search one
cancel 1
search (o|e)$
status
searchin ^a n
cancel 2
cancel 9
sync
cancel 3
status
remove a.txt
search .
cancel 4
publish
status
cancel 0
"""

def changed(script, every):
    """The beginnings and the changes of a script, each with a description."""
    for at in range(len(script) + 1):
        yield "the first %d bytes" % at, script[:at]
    for at in range(len(script)):
        yield "byte %d left out" % at, script[:at] + script[at + 1 :]
        yield "byte %d doubled" % at, script[: at + 1] + script[at:]
        for byte in range(256) if every else BYTES:
            if byte != script[at]:
                yield "byte %d as %d" % (at, byte), script[:at] + bytes([byte]) + script[at + 1 :]


# A search for each view of `find`, and with each option.
FINDS = b"""put a.txt 18
one
two
one

three

put b 7
ONE one
publish
find -C 1 -m 3 -- one
find --spans -i -- o|on|ne?
find --column -w -N t$ -- one
find -l -Z -n a|b -- e
find -c -I -n B -v -- t
find -q -x -F -- one
find -v -m 2 -- [a-n]
"""

# The words that the program is started with, and what they mean to the judge.
WAYS = [
    (["--readers", "0"], {"readers": 0}),
    (["--readers", "2"], {"readers": 2}),
    (["--live", "--readers", "2"], {"readers": 2, "session": True}),
]


def judge(script, words, how):
    """Runs a script, and returns what is wrong or None."""
    try:
        done = subprocess.run([PROGRAM, *words], input=script, cwd=TOP, capture_output=True, check=False, timeout=SECONDS)
    except subprocess.TimeoutExpired:
        return "did not end in %d seconds" % SECONDS
    if done.stderr or done.returncode not in (0, 1, 2):
        return "status %d, %r" % (done.returncode, done.stderr)
    return transcripts.fault_of(script, done.stdout, done.returncode, **how, files=transcripts.Files())


def fault_of(name, what, script, way):
    words, how = way
    fault = judge(script, words, how)
    return "%s, %s, with %s: %s" % (name, what, " ".join(words), fault) if fault else None


def written(script, words, how):
    """A script with its text, and with what the judge takes them by."""
    done = subprocess.run([PROGRAM, *words], input=script, cwd=TOP, capture_output=True, check=False, timeout=SECONDS)
    return script, dict(how, files=transcripts.Files()), done.stdout, done.returncode


def legal_texts(scripts):
    """The legal texts that are changed: those of these scripts, and those of the tables, unless their sessions ended early."""
    for script in scripts:
        for words, how in WAYS:
            yield written(script, words, how)
    for is_session, table in (False, check_transcripts.LEGAL), (True, check_transcripts.LEGAL_SESSIONS):
        for script, how, text, status in table:
            if how.get("whole", True):
                yield script, dict(how, session=is_session), text, status


def with_more(text, place, more):
    """The text of a status with another of its numbers, counted from that of its line, or None if it would be below 0."""
    numbers = list(re.finditer(rb"\d+", text))
    number = int(numbers[place][0]) + more
    return text[: numbers[place].start()] + b"%d" % number + text[numbers[place].end() :] if number >= 0 else None


def changed_statuses(entry, is_exact):
    """What may not be written in place of a status. Whether the number of open searches is known from the text is `is_exact`."""
    for place in range(7 if is_exact else 6):
        for more in 1, -1:
            changed = with_more(entry.text, place, more)
            if changed:
                yield "number %d of a status, by %d" % (place, more), changed


def changed_searches(entry, items, how):
    """What may not be written in place of the entry of a search."""
    number, reason = entry.number, entry.reason
    cancelled = [item.words["search"] for item in items if item.kind == "cancel"]
    for other in number - 1, number + 1:
        yield "search %d in place of search %d" % (other, number), re.sub(rb"\d+", b"%d" % other, entry.text, count=1)
    if reason != "cancelled" and (number not in cancelled or how["readers"] == 0):
        yield "search %d cancelled" % number, b"search %d refused: cancelled\n" % number
    if reason != "too slow" and not how.get("timed"):
        yield "search %d too slow" % number, b"search %d refused: too slow\n" % number
    if entry.version is not None:
        yield from changed_answers(entry)
    if reason is not None:
        answer = b"search %d version 0 lines 0\n" % number
        yield "search %d answered as well" % number, entry.text + answer
        yield "search %d answered before" % number, answer + entry.text


def with_less(head, kind, more):
    """A header with another number of lines, names or rows, or None if it would be below 0 or has no such number."""
    found = re.search(rb" (?:%s) (\d+)" % kind, head)
    number = int(found[1]) + more if found else -1
    return head[: found.start(1)] + b"%d" % number + head[found.end(1) :] if number >= 0 else None


def changed_heads(head):
    """What may not be the header of an answer, with the same rows behind it or with none."""
    yield head.replace(b" and more", b"") if b" and more" in head else re.sub(rb"((?:lines|names) \d+)", rb"\1 and more", head)
    yield head.replace(b" lines ", b" names ") if b" lines " in head else head.replace(b" names ", b" lines ")
    yield re.sub(rb" rows \d+", b"", head) if b" rows " in head else re.sub(rb"( version \d+ [a-z]+ (\d+)(?: and more)?)", rb"\1 rows \2", head)
    for kind in b"lines|names", b"rows":
        for more in 1, -1:
            yield with_less(head, kind, more)


def changed_answers(entry):
    """What may not be written in place of an answer."""
    head, *rows = entry.text.splitlines(keepends=True)
    for changed in changed_heads(head):
        if changed:
            yield "the header %r" % changed, changed + b"".join(rows)
    for at, row in enumerate(rows[:MOST_ROWS]):
        for more, others in (-1, rows[:at] + rows[at + 1 :]), (1, rows[: at + 1] + rows[at:]):
            counted = [with_less(head, kind, more) for kind in (b"lines|names", b"rows")]
            counted.append(counted[0] and with_less(counted[0], b"rows", more))
            for changed in filter(None, counted):
                yield "row %d left out or twice, and counted so" % at, changed + b"".join(others)
        for other in changed_rows(row):
            yield "row %d as %r" % (at, other), head + b"".join([*rows[:at], other, *rows[at + 1 :]])
        if at + 1 < len(rows) and rows[at + 1] != row:
            yield "rows %d and %d in each other's place" % (at, at + 1), head + b"".join([*rows[:at], rows[at + 1], row, *rows[at + 2 :]])


def changed_rows(row):
    """What may not be in place of a row: one with another byte behind the name, without that byte, or with one number off by one."""
    for mark in b":", b"-", b"\0":
        for other in {b":", b"-", b"\0", b""} - {mark}:
            if mark in row:
                yield row.replace(mark, other, 1)
    for found in re.finditer(rb"\d+", row):
        for more in 1, -1:
            yield row[: found.start()] + b"%d" % (int(found[0]) + more) + row[found.end() :]


def changed_texts(script, how, text):
    """Texts that the judge must refuse, since this one is legal, each with a description."""
    items = transcripts.items_of(script)
    entries = transcripts.entries_of(text, items)
    how = {"readers": 2, **how}
    is_exact = how.get("session") or how["readers"] == 0
    for at in range(0, len(entries), len(entries) // MOST_ENTRIES + 1):
        entry = entries[at]
        before, after = [b"".join(other.text for other in part) for part in (entries[:at], entries[at + 1 :])]
        changes = [("entry %d left out" % at, b""), ("entry %d twice" % at, entry.text * 2)]
        if entry.what == "search":
            changes += changed_searches(entry, items, how)
        elif entry.reason is None:
            changes += changed_statuses(entry, is_exact)
        for what, changed in changes:
            yield what, before + changed + after
    for at, (entry, other) in enumerate(zip(entries, entries[1:])):
        if is_in_turn(entry, items) and is_in_turn(other, items):
            order = entries[:at] + [other, entry] + entries[at + 2 :]
            yield "entries %d and %d in each other's place" % (at, at + 1), b"".join(one.text for one in order)


def is_in_turn(entry, items):
    """Whether the entry can come in the turn of one item alone: that of its line, or of the one cancel of its search."""
    return entry.what == "line" or entry.reason == "cancelled" and sum(item.cancels(entry.number) for item in items) == 1


def is_legal(script, text, session=False, **how):
    try:
        transcripts.check_session(script, text, **how) if session else transcripts.check(script, text, **how)
    except transcripts.Illegal:
        return False
    return True


def faults_of_changes(scripts):
    """What is wrong with the judge: a text that it refuses, or a changed one that it takes. None if it judges as it should."""
    for script, how, text, status in legal_texts(scripts):
        fault = transcripts.fault_of(script, text, status, **how)
        yield fault and "%r of %r with %s: %s" % (text, script, how, fault)
        for what, changed in changed_texts(script, how, text):
            yield "takes %r of %r with %s: %s" % (changed, script, how, what) if is_legal(script, changed, **how) else None


def main():
    words = argparse.ArgumentParser(description="Judges runs of changed examples.")
    words.add_argument("--all", action="store_true")
    words.add_argument("--every", type=int, default=1)
    words.add_argument("names", nargs="*")
    given = words.parse_args()
    need_program()
    counted = Counted()
    originals = {path.stem: path.read_bytes() for path in sorted(TOP.glob("examples/*.script"))}
    originals = {name: script for name, script in {**originals, "cancels": CANCELS, "finds": FINDS}.items() if not given.names or name in given.names}
    scripts = [(name, *change) for name, script in originals.items() for change in changed(script, given.all)]
    with concurrent.futures.ThreadPoolExecutor(os.cpu_count()) as pool:
        chosen = scripts[:: given.every]
        counted.judge(pool.map(lambda job: fault_of(*job[1], WAYS[job[0] % len(WAYS)]), enumerate(chosen)))
    counted.judge(faults_of_changes(originals.values()))
    counted.end()


if __name__ == "__main__":
    main()
