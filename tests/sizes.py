#!/usr/bin/env python3
"""Runs scripts and sessions with more of everything than 65,536, 100,000 and 2^20: items, commands, searches, publishes, documents, lines,
hits, and reads of a line or a body.

Each test makes a script and the text that must be written for it, and names the ways in which it is run: with a number of readers or as a
session, with or without readers. With readers a session's answers may come in another order. What comes in many reads is sent through a pipe
that gives the program one byte for each read. As many tests run at once as there are processors. The memory of a run's entries is measured
with as many entries as a script can have, and that of an answer with 2^24 hits.

Usage: tests/sizes.py [NAME..]   The last line counts: N passed, M failed.
"""

import fcntl
import itertools
import os
import pathlib
import subprocess
import tempfile
import threading

from built import PROGRAM, TOP, put
from counted import run_tests
from judge.transcripts import Illegal, entries_of

SECONDS = 300

# Above 65,536; above 100,000; above 2^20 = 1,048,576; above 2^24 = 16,777,216.
OVER_16_BITS, OVER_100_000, OVER_20_BITS, OVER_24_BITS = 70_000, 110_000, 1_100_000, 16_800_000
GREATEST_BODY, GREATEST_SCRIPT = 1_048_576, 67_108_864
ALONE, ONE_READER, TWO_READERS = ["--readers", "0"], ["--readers", "1"], ["--readers", "2"]
SESSION, READING = ["--live", "--readers", "0"], ["--live", "--readers", "2"]
# With one reader a session's answers come in order.
SESSION_OF_ONE = ["--live", "--readers", "1"]
# How many bytes an entry of a run may take, and how many the program beside the script and the entries.
MOST_OF_AN_ENTRY, MOST_BESIDE = 48, 16 * 1_048_576
MANY_COMMANDS, ALL_COMMANDS = ["--max-commands", "1000000"], ["--max-commands", "4294967294"]
# The most bytes that the program may take for 16,777,216 hits, whose places take 268,435,456.
MOST_OF_MANY_HITS = 320 * 1_048_576


class Case:
    """A script, the text that must be written for it, the ways in which it is run, its status, and whether each read gives
    one byte of the script."""

    def __init__(self, script, wanted, ways, status=0, one_by_one=False):
        self.script = script
        self.wanted = wanted
        self.ways = ways
        self.status = status
        self.one_by_one = one_by_one


def answers(count, version, hits, first=1):
    """The texts of searches with the same hits."""
    lines = b"".join(hit + b"\n" for hit in hits)
    return b"".join(b"search %d version %d lines %d\n%s" % (number, version, len(hits), lines) for number in range(first, first + count))


def puts_before_a_publish():
    count = OVER_100_000
    script = b"".join(put(b"a", b"%d" % number) for number in range(count)) + b"publish\nsearch .\n"
    return Case(script, answers(1, count, [b"a:1:%d" % (count - 1)]), [MANY_COMMANDS + ALONE, MANY_COMMANDS + TWO_READERS, SESSION, READING])


def all_commands_there_are():
    count = 1_000_000
    script = b"put a 1\nx\n" * count + b"publish\nsearch x\nput a 1\ny\npublish\nsearch x\n"
    full = b"line %d refused: full\n" % (2 * count + 3)
    return Case(script, answers(1, count, [b"a:1:x"]) + full + answers(1, count, [b"a:1:x"], 2), [MANY_COMMANDS + SESSION, READING], 2)


def publishes_of_a_put():
    count = OVER_100_000
    script = b"".join(put(b"a", b"%d" % number) + b"publish\n" for number in range(count)) + b"search .\n"
    return Case(script, answers(1, count, [b"a:1:%d" % (count - 1)]), [MANY_COMMANDS + ALONE, SESSION, READING])


def very_many_publishes_of_a_put():
    count = OVER_20_BITS
    script = b"put a 1\nx\npublish\n" * count + b"put a 1\ny\npublish\nsearch .\n"
    return Case(script, answers(1, count + 1, [b"a:1:y"]), [["--max-commands", "2000000"] + SESSION])


def publishes_of_nothing():
    return Case(b"put a 1\nx\n" + b"publish\n" * OVER_20_BITS + b"search x\n", answers(1, 1, [b"a:1:x"]), [TWO_READERS, SESSION, READING])


def documents():
    count = OVER_100_000
    names = sorted(b"f%d" % number for number in range(count))
    script = b"".join(put(b"f%d" % number, b"text %d" % number) for number in range(count)) + b"publish\nsearch ^text\nsearch xt 77777$\n"
    hits = [b"%s:1:text %s" % (name, name[1:]) for name in names]
    wanted = answers(1, count, hits) + answers(1, count, [b"f77777:1:text 77777"], 2)
    return Case(script, wanted, [MANY_COMMANDS + ALONE, MANY_COMMANDS + TWO_READERS, SESSION, READING])


def documents_over_20_bits():
    count = OVER_20_BITS
    script = b"".join(put(b"%d" % number, b"xyz") for number in range(count)) + b"publish\nsearchin ^777777$ xyz\n"
    return Case(script, answers(1, count, [b"777777:1:xyz"]), [ALL_COMMANDS + ALONE, ALL_COMMANDS + SESSION])


def removes():
    count = OVER_16_BITS
    puts = b"".join(b"put f%d 1\nx\n" % number for number in range(count))
    script = puts + b"publish\n" + b"".join(b"remove f%d\n" % number for number in reversed(range(1, count))) + b"publish\nsearch x\n"
    return Case(script, answers(1, 2 * count - 1, [b"f0:1:x"]), [MANY_COMMANDS + ALONE, SESSION, READING])


def loads():
    count = OVER_100_000
    script = b"load a examples/tree/README\n" * count + b"load a nothing/here\n" * count + b"publish\nsearch NULL at the end\n"
    refused = b"".join(b"line %d refused: cannot load\n" % line for line in range(count + 1, 2 * count + 1))
    return Case(script, refused + answers(1, count, []), [MANY_COMMANDS + ALONE, SESSION, READING], 2)


def searches_of_a_script():
    count = OVER_100_000
    return Case(b"put a 1\nx\npublish\n" + b"search x\n" * count, answers(count, 1, [b"a:1:x"]), [ALONE, ONE_READER, TWO_READERS])


def searches_of_a_session():
    count = OVER_20_BITS
    return Case(b"put a 1\nx\npublish\n" + b"search x\n" * count, answers(count, 1, [b"a:1:x"]), [SESSION, READING, SESSION_OF_ONE])


def searches_within_names():
    count = OVER_16_BITS
    script = b"put a 1\nX\npublish\n" + b"searchin a X\nisearch x\nisearchin b x\n" * (count // 3 + 1)
    texts = [b"search %%d version 1 lines %s\n" % lines for lines in (b"1\na:1:X", b"1\na:1:X", b"0")]
    wanted = b"".join(texts[number % 3] % (number + 1) for number in range(count // 3 * 3 + 3))
    return Case(script, wanted, [ALONE, TWO_READERS, SESSION, READING])


def searches_that_are_refused():
    count = OVER_100_000
    wanted = b"".join(b"search %d refused: group not closed at 0\n" % number for number in range(1, count + 1))
    return Case(b"search (\n" * count, wanted, [ALONE, TWO_READERS, SESSION, READING], 2)


def syncs():
    return Case(b"put a 1\nx\npublish\n" + b"sync\n" * OVER_20_BITS + b"search x\n", answers(1, 1, [b"a:1:x"]), [TWO_READERS, SESSION, READING])


def items_of_a_session():
    """More than 2^24 of them."""
    count = OVER_24_BITS
    return Case(b"sync\n" * count + b"what\n", b"line %d refused: bad line\n" % (count + 1), [SESSION], 2)


def comments_and_empty_lines():
    count = OVER_20_BITS
    wanted = b"line %d refused: bad line\n" % (2 * count + 1)
    return Case(b"# comment\n\n" * count + b"what\n", wanted, [ALONE, SESSION, READING], 2)


def lines_that_are_refused():
    count = OVER_20_BITS
    wanted = b"".join(b"line %d refused: bad line\n" % line for line in range(1, count + 1))
    return Case(b"what\n" * count, wanted, [ALONE, SESSION, READING], 2)


def body_of_line_feeds():
    """Its lines are counted for the items after it, and as lines of a document."""
    script = put(b"a", b"\n" * GREATEST_BODY) + b"what\npublish\nsearch .\nsync\nput b 70002\n" + b"\n" * 70_001 + b"x\npublish\nsearch x\nwhat\n"
    wanted = b"line %d refused: bad line\n" % (GREATEST_BODY + 3) + answers(1, 1, []) + answers(1, 2, [b"b:70002:x"], 2)
    wanted += b"line %d refused: bad line\n" % (GREATEST_BODY + 70_012)
    return Case(script, wanted, [ALONE, TWO_READERS, SESSION, READING], 2)


def lines_of_a_session():
    """More than 2^24 of them, in bodies."""
    count = 17
    wanted = b"line %d refused: bad line\n" % (count * (GREATEST_BODY + 2) + 1)
    return Case(put(b"a", b"\n" * GREATEST_BODY) * count + b"what\n", wanted, [ALONE, SESSION, READING], 2)


def lines_of_an_answer():
    half = OVER_20_BITS // 2
    hits = [b"%s:%d:" % (name, line) for name in (b"a", b"b") for line in range(1, half + 1)]
    script = put(b"a", b"\n" * half) + put(b"b", b"\n" * half) + b"publish\nsearch ^\nsearch ^$\n"
    return Case(script, answers(2, 2, hits), [ALONE, TWO_READERS, SESSION, READING])


def reads_of_a_line():
    """A comment and an item that come in more than 2^20 reads each, and an item after them. A run reads its script in as many."""
    script = b"#" + b"x" * OVER_20_BITS + b"\nsearch " + b"y" * OVER_20_BITS + b"\nsearch x\n"
    wanted = b"search 1 refused: pattern too long at 1024\nsearch 2 version 0 lines 0\n"
    return Case(script, wanted, [SESSION, READING, ALONE], 2, True)


def reads_of_a_body():
    """The longest body and one that is too long, in one read for each byte, and items after them."""
    line = b"x" * 15 + b"\n"
    count = GREATEST_BODY // len(line)
    script = put(b"a", line * count) + put(b"b", line * 70_000) + put(b"a", line) + b"publish\nsearch x{15}\n"
    refused = b"line %d refused: body too long\n" % (count + 3)
    return Case(script, refused + answers(1, 2, [b"a:1:" + line[:-1]]), [SESSION, READING], 2, True)


CASES = [
    reads_of_a_line,
    reads_of_a_body,
    searches_of_a_session,
    lines_of_an_answer,
    documents,
    documents_over_20_bits,
    puts_before_a_publish,
    all_commands_there_are,
    publishes_of_a_put,
    very_many_publishes_of_a_put,
    publishes_of_nothing,
    removes,
    loads,
    searches_of_a_script,
    searches_within_names,
    searches_that_are_refused,
    syncs,
    items_of_a_session,
    comments_and_empty_lines,
    lines_that_are_refused,
    body_of_line_feeds,
    lines_of_a_session,
]


def difference(got, wanted):
    """Where two texts differ, with what follows there."""
    at = next((at for at, pair in enumerate(zip(got, wanted)) if pair[0] != pair[1]), min(len(got), len(wanted)))
    start = max(at - 40, 0)
    return f"at byte {at} of {len(got)} is {got[start : at + 80]!r}, and should be {wanted[start : at + 80]!r}"


def difference_of_entries(got, wanted):
    """How the text of a session with readers differs from that of a run: it must have the same entries, and those of lines in the same
    order. The order in which answers may come is judged elsewhere."""
    try:
        # No script here has a search whose lines are counted and not shown, so its items are not needed.
        entries, others = entries_of(got, []), entries_of(wanted, [])
    except Illegal as illegal:
        return str(illegal)
    for text, other in itertools.zip_longest(sorted(entry[4] for entry in entries), sorted(entry[4] for entry in others)):
        if text != other:
            return f"has the entry {str(text)[:200]}, and should have {str(other)[:200]}"
    in_order = [entry for entry in entries if entry[0] == "line"] == [entry for entry in others if entry[0] == "line"]
    return None if in_order else "has its refusals of lines in another order"


def send(descriptor, script):
    """Sends each byte of a script by itself."""
    try:
        for at in range(len(script)):
            os.write(descriptor, script[at : at + 1])
    except BrokenPipeError:
        pass  # the session has ended, which its status shows
    finally:
        os.close(descriptor)


def run_one_by_one(case, words):
    """Runs a script that comes through a pipe on which no read gives more than one write."""
    taken, given = os.pipe2(os.O_DIRECT | os.O_CLOEXEC)
    fcntl.fcntl(given, fcntl.F_SETPIPE_SZ, 1_048_576)
    with subprocess.Popen([str(PROGRAM), *words], cwd=TOP, stdin=taken, stdout=subprocess.PIPE, stderr=subprocess.PIPE) as process:
        os.close(taken)
        sender = threading.Thread(target=send, args=(given, case.script))
        sender.start()
        try:
            stdout, stderr = process.communicate(timeout=SECONDS)
        except subprocess.TimeoutExpired:
            process.kill()
            raise
        finally:
            sender.join()
    return process.returncode, stdout, stderr


def run_whole(case, words):
    with tempfile.TemporaryFile() as script:
        script.write(case.script)
        script.seek(0)
        done = subprocess.run([str(PROGRAM), *words], cwd=TOP, stdin=script, capture_output=True, check=False, timeout=SECONDS)
    return done.returncode, done.stdout, done.stderr


def check(test, words, case):
    """What is wrong with a run of a case, or None."""
    try:
        status, stdout, stderr = run_one_by_one(case, words) if case.one_by_one else run_whole(case, words)
    except subprocess.TimeoutExpired:
        return f"did not end in {SECONDS} seconds"
    if stderr:
        return f"standard error is {stderr[:200]!r}"
    differs = difference_of_entries if words[-len(READING) :] in (READING, SESSION_OF_ONE) else difference
    fault = stdout != case.wanted and differs(stdout, case.wanted)
    if fault:
        return fault
    return None if status == case.status else f"the status is {status}, and should be {case.status}"


def memory_when_it_writes(script, words):
    """The most bytes that a run has had when it begins to write, which is after its last item. It is ended then."""
    with tempfile.TemporaryFile() as file:
        file.write(script)
        file.seek(0)
        with subprocess.Popen([str(PROGRAM), *words], stdin=file, stdout=subprocess.PIPE) as process:
            process.stdout.read(1)
            status = pathlib.Path(f"/proc/{process.pid}/status").read_text()
            process.kill()
    return 1024 * int(status.split("VmHWM:")[1].split()[0])


def memory_of_entries():
    """As many lines of no known form as a script can have, 33,554,432. None of them has a pattern or a body."""
    script = b"x\n" * (GREATEST_SCRIPT // 2)
    faults = []
    for words in ALONE, TWO_READERS:
        most = memory_when_it_writes(script, words)
        allowed = len(script) + MOST_BESIDE + MOST_OF_AN_ENTRY * (len(script) // 2)
        faults.append(f"memory_of_entries with {' '.join(words)}: {most} bytes, and at most {allowed} are allowed" if most > allowed else None)
    return faults


def memory_near_its_end(path, words, length):
    """The most bytes that the program has had when all of its text but the last 200,000 bytes are read, of which a pipe holds the
    first. It is ended then."""
    with subprocess.Popen([str(PROGRAM), *words, path], stdout=subprocess.PIPE) as process:
        left = length - 200_000
        while left > 0:
            text = process.stdout.read(min(left, 1_048_576))
            if not text:
                return None
            left -= len(text)
        status = pathlib.Path(f"/proc/{process.pid}/status").read_text()
        process.kill()
    return 1024 * int(status.split("VmHWM:")[1].split()[0])


def memory_of_many_hits():
    """A search with 16,777,216 hits: all lines of 16 of the longest bodies, which are empty. Its text has 200 MB."""
    names = [b"f%02d" % number for number in range(16)]
    script = b"".join(put(name, b"\n" * GREATEST_BODY) for name in names) + b"publish\nsearch ^\n"
    numbers = sum(len(b"%d" % line) for line in range(1, GREATEST_BODY + 1))
    length = len(b"search 1 version 16 lines 16777216\n") + len(names) * (numbers + GREATEST_BODY * len(b"f00::\n"))
    faults = []
    with tempfile.NamedTemporaryFile() as file:
        file.write(script)
        file.flush()
        for words in ALONE, TWO_READERS, SESSION, READING:
            most = memory_near_its_end(file.name, words, length)
            wrong = most is None or most > MOST_OF_MANY_HITS
            faults.append(f"memory_of_many_hits with {' '.join(words)}: {most} bytes, and at most {MOST_OF_MANY_HITS} are allowed" if wrong else None)
    return faults


MEMORY = [memory_of_entries, memory_of_many_hits]


def faults_of(test):
    """For each way of a test, what is wrong, or None."""
    if test in MEMORY:
        return test()
    case = test()
    faults = []
    for words in case.ways:
        fault = check(test, words, case)
        faults.append(f"{test.__name__} with {' '.join(words)}: {fault}" if fault else None)
    return faults


if __name__ == "__main__":
    run_tests(CASES + MEMORY, faults_of, os.cpu_count())
