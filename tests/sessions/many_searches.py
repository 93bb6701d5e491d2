#!/usr/bin/env python3
"""Sends many searches to sessions of the built program, without waiting for the answers, and checks the answers and the memory.

A client that reads slowly or not at all stops the session from taking more items, so the session keeps few answers.
Once the client reads, each search must be answered once, with the lines that match.

Usage: tests/sessions/many_searches.py [--searches N] [NAME..]   The last line counts: N passed, M failed. N is the number of searches
of a client that reads.
"""

import argparse
import os
import pathlib
import re
import subprocess
import sys
import threading
import time

sys.path.insert(0, str(pathlib.Path(__file__).resolve().parent.parent))

from built import PROGRAM, own_body, put  # noqa: E402
from counted import Wrong, run_tests  # noqa: E402
from live import MEBIBYTE, SECONDS, Session, faults_with_each  # noqa: E402
from sessions.slow_searches import SLOW, slow_body  # noqa: E402


def words_given():
    words = argparse.ArgumentParser(description="Sends many searches to sessions.")
    words.add_argument("--searches", type=int, default=1_000_000)
    words.add_argument("names", nargs="*")
    return words.parse_args()


GIVEN = words_given()
# Searches that nobody reads the answers of. They are more bytes than the pipe and the session's buffer take.
UNREAD = 40_000
PART = 1 << 20
# While so many searches are open, no item is taken.
MOST_OPEN = 1_024
HEAD = re.compile(rb"search (\d+) version (\d+) lines (\d+)\n")


class Sender(threading.Thread):
    """Sends texts while others read. `sent` is how many bytes were taken so far."""

    def __init__(self, session, texts):
        super().__init__(daemon=True)
        self.session, self.texts, self.sent, self.fault = session, texts, 0, None

    def run(self):
        try:
            for text in self.texts:
                self.session.send(text)
                self.sent += len(text)
        except (OSError, ValueError, Wrong) as fault:
            self.fault = fault

    def wait_until_stuck(self):
        """Waits until no text was taken for a while."""
        before = -1
        while before != self.sent:
            before = self.sent
            time.sleep(1)
        if not self.is_alive():
            raise Wrong(f"all {self.sent} bytes were taken, and nobody read: {self.fault}")


class Answers:
    """Reads answers that all have the same lines, and notes their numbers."""

    def __init__(self, session, count, lines):
        self.session, self.lines, self.rest = session, lines, b""
        self.head_end, self.seen, self.missing = b" lines %d\n" % lines.count(b"\n"), bytearray(count + 1), count

    def take(self):
        """Takes what the session has written."""
        text = self.session.read(PART)
        if not text:
            raise Wrong(f"the output ends, and {self.missing} searches have no answer")
        self.rest += text
        at = 0
        while (head := HEAD.match(self.rest, at)) and len(self.rest) >= head.end() + len(self.lines):
            self.note(int(head[1]), head[0].endswith(self.head_end) and self.rest.startswith(self.lines, head.end()))
            at = head.end() + len(self.lines)
        self.rest = self.rest[at:]
        if len(self.rest) > PART + len(self.lines):
            raise Wrong(f"no answer begins as {self.rest[:200]!r}")

    def note(self, number, is_right):
        if not is_right or not 0 < number < len(self.seen) or self.seen[number]:
            raise Wrong(f"search {number} has another answer, or a second one")
        self.seen[number] = 1
        self.missing -= 1


def client_that_stops_reading(start):
    """A session whose answers nobody reads takes no more items, and its memory stays level. All answers come when they are read."""
    lines = b"".join(b"line %d of a document\n" % number for number in range(300))
    found = b"".join(b"a:%d:%s\n" % pair for pair in enumerate(lines.split(b"\n")[:-1], 1))
    with start() as session:
        session.send(put(b"a", lines) + b"publish\n")
        session.ask(b"search nothing\n", b"search 1 version 1 lines 0\n")
        early = session.memory("VmRSS")
        sender = Sender(session, [b"search of a\n" * 10] * (UNREAD // 10))
        sender.start()
        sender.wait_until_stuck()
        stuck = session.memory("VmRSS")
        if stuck - early > 8 * MEBIBYTE:
            raise Wrong(f"{early} bytes before the searches, and {stuck} when no more are taken")
        answers = Answers(session, UNREAD + 1, found)
        answers.seen[1], answers.missing = 1, UNREAD
        while answers.missing:
            answers.take()
        sender.join(SECONDS)
        most = session.memory("VmHWM")
        if most - early > 24 * MEBIBYTE:
            raise Wrong(f"{early} bytes before the searches, and {most} at most")
        session.end(0)


def client_that_reads(start):
    """A client that reads while it sends: memory stays level, and each search is answered once."""
    with start() as session:
        session.send(put(b"a", b"hi") + b"publish\n")
        sender = Sender(session, [b"search h\n" * 1_000] * (GIVEN.searches // 1_000))
        answers = Answers(session, GIVEN.searches, b"a:1:hi\n")
        sender.start()
        early = None
        while answers.missing:
            answers.take()
            if early is None and answers.missing < GIVEN.searches * 9 // 10:
                early = session.memory("VmRSS")
        late = session.memory("VmRSS")
        if late - early > 2 * MEBIBYTE:
            raise Wrong(f"{early} bytes after a tenth of the searches, and {late} after all")
        sender.join(SECONDS)
        session.end(0)


def searches_beside_replacements(start):
    """Searches and publishes are sent and not waited for. Each answer must be that of its version, which is not older than the last publish
    before its search, and memory stays level."""
    rounds = GIVEN.searches // 20
    item = b"put a 10\n%010d\npublish\nsearch [0-9]\nsearchin ^a 5$|[^5]$\n"
    head = re.compile(rb"search (\d+) version (\d+) lines 1\na:1:(\d{10})\n")
    with start() as session:
        sender = Sender(session, (item % number for number in range(1, rounds + 1)))
        sender.start()
        seen, rest, early, left = bytearray(2 * rounds + 1), b"", None, 2 * rounds
        while left:
            text = session.read(PART)
            if not text:
                raise Wrong(f"the output ends, and {left} searches have no answer")
            rest += text
            at = 0
            while answer := head.match(rest, at):
                number, version, found = int(answer[1]), int(answer[2]), int(answer[3])
                if seen[number] or version != found or not (number + 1) // 2 <= version <= rounds:
                    raise Wrong(f"search {number} is answered by {answer[0]!r}")
                seen[number], left, at = 1, left - 1, answer.end()
            rest = rest[at:]
            if len(rest) > 100:
                raise Wrong(f"no answer begins as {rest[:200]!r}")
            if early is None and left < rounds:
                early = session.memory("VmRSS")
        late = session.memory("VmRSS")
        if late - early > 2 * MEBIBYTE:
            raise Wrong(f"{early} bytes after half of the searches, and {late} after all")
        session.end(0)


def open_searches_of_ten_lanes(start):
    """A thousand searches are open, some of them slow, in ten lanes. Each is answered once."""
    slow = b"-n ^slow$ -- " + SLOW
    with start() as session:
        session.send(put(b"slow", slow_body(1, 4_000)) + put(b"a", b"end") + b"publish\n")
        for number in range(1, 1_001):
            session.send(b"find --lane %d %s\n" % (number % 10, slow if number % 7 == 0 else b"-n ^a$ -- ^end$"))
        missing, rest = set(range(1, 1_001)), b""
        while missing:
            rest += session.read(PART)
            while (end := rest.find(b"\n", rest.find(b"\n") + 1)) >= 0:
                head, line = rest[:end].split(b"\n")
                number = int(head.split()[1])
                if not head.endswith(b" version 2 lines 1") or line != (b"slow:2:end" if number % 7 == 0 else b"a:1:end"):
                    raise Wrong(f"not an answer: {rest[:end]!r}")
                missing.remove(number)
                rest = rest[end + 1 :]
        session.end(0)


def large_answers_that_nobody_reads(start):
    """Of 60 answers, each of which takes two or three MiB, few are in memory while nobody reads. All come once they are read."""
    count, lines = 60, 100_000
    with start() as session:
        session.send(put(b"a", b"some text\n" * lines) + b"publish\n")
        session.ask(b"search nothing\n", b"search 1 version 1 lines 0\n")
        early = session.memory("VmRSS")
        session.send(b"search x\n" * count)
        before, stuck = 0, early
        while before != stuck:
            before = stuck
            time.sleep(0.5)
            stuck = session.memory("VmRSS")
        if stuck - early > 64 * MEBIBYTE:
            raise Wrong(f"{early} bytes before the searches, and {stuck} while nobody reads")
        answers = Answers(session, count + 1, b"".join(b"a:%d:some text\n" % number for number in range(1, lines + 1)))
        answers.seen[1], answers.missing = 1, count
        while answers.missing:
            answers.take()
        session.end(0)


def few_of_many_searches_are_open(*words):
    """A status behind a slow search and 3,000 quick ones is taken while at most 1,023 of them are open."""
    script = put(b"slow", slow_body(4, 16_000)) + b"publish\nsearchin ^slow$ " + SLOW + b"\n" + b"searchin ^b h\n" * 3_000 + b"status\n"
    done = subprocess.run([PROGRAM, *words, "--readers", "1"], input=script, capture_output=True, check=False, timeout=SECONDS)
    found = re.search(rb"^line \d+ status .* open (\d+)\n", done.stdout, re.MULTILINE)
    if not found or int(found[1]) > MOST_OPEN - 1:
        raise Wrong(f"the status is {found and found[0]}")


def few_searches_of_a_session_are_open():
    few_of_many_searches_are_open("--live")


def few_searches_of_a_run_are_open():
    few_of_many_searches_are_open()


def bodies_behind_a_sync(start):
    """While a search is at work, at most 16 of the items behind a sync are read ahead. Each body has a byte 0, so none of them is kept."""
    count, body = 100, b"x" * (MEBIBYTE - 1) + b"\0"
    documents = b"".join(put(b"slow%d" % number, own_body(slow_body(2, 16_000), number)) for number in range(8)) + b"publish\n"
    with start() as session:
        session.send(documents)
        session.ask(b"search nothing\n", b"search 1 version 8 lines 0\n")
        early = session.memory("VmHWM")
        Sender(session, [b"searchin ^slow " + SLOW + b"\nsync\n"] + [put(b"a", body)] * count).start()
        session.expect(b"search 2 version 8 lines 8\n" + b"".join(b"slow%d:3:end\n" % number for number in range(8)))
        line = documents.count(b"\n") + 4
        for number in range(count):
            session.expect(b"line %d refused: byte 0 in body\n" % (line + 2 * number))
        most = session.memory("VmHWM")
        if most - early > 40 * MEBIBYTE:
            raise Wrong(f"{early} bytes before the search, and {most} at most")
        session.end(2)


def few_items_behind_a_sync_are_read():
    """While a search is at work, a session reads at most 16 items ahead: a sync behind the search, and 15 puts."""
    body = slow_body(60, 16_000)
    documents = b"".join(put(b"slow%d" % number, own_body(body, number)) for number in range(20)) + b"publish\n"
    text = put(b"a", b"x" * (MEBIBYTE - 1))
    with Session("--readers", "1") as session:
        session.send(documents + b"searchin ^slow " + SLOW + b"\nsync\n")
        sender = Sender(session, [text] * 40)
        sender.start()
        sender.wait_until_stuck()
        if sender.sent > 15 * len(text):
            raise Wrong(f"behind a sync {sender.sent // len(text)} puts were read")


TESTS = [client_that_stops_reading, client_that_reads, searches_beside_replacements]
FEW_READERS = [large_answers_that_nobody_reads, bodies_behind_a_sync, open_searches_of_ten_lanes]
ONCE = [few_searches_of_a_session_are_open, few_searches_of_a_run_are_open, few_items_behind_a_sync_are_read]


def faults_of(test):
    return faults_with_each(TESTS + FEW_READERS, ["2", "0", "1"] if test in FEW_READERS else ["2", "0", "16"])(test)


if __name__ == "__main__":
    run_tests(TESTS + FEW_READERS + ONCE, faults_of, os.cpu_count(), GIVEN.names)
