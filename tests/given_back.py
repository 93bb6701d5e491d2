#!/usr/bin/env python3
"""Loses documents in sessions of the built program (--live), and compares the memory before and after.

A session has two copies of its documents, and a publish brings one of them up to date. So what was removed is gone from
both after two publishes. Then most of the memory that the documents took must be given back, or used for others. Each test is
made with sessions without readers and with two. A session with readers that has nothing else to do needs one publish.

Usage: tests/given_back.py [NAME..]   The last line counts: N passed, M failed.
"""

import random
import time

from built import own_body, put
from counted import Wrong, run_tests
from live import MEBIBYTE, READERS, SECONDS, Session, faults_with_each
from sessions.slow_searches import SLOW, slow_body

# The part of the memory that may stay.
PART = 1 / 4
SLOW_SEARCH = b"searchin ^stays-0$ " + SLOW + b"\n"


def random_body(source, length):
    """Random bytes, none of them 0: of 16,581,375 trigrams a MiB has nearly a million."""
    return bytes(source.choices(range(1, 256), k=length))


def words(source, count):
    return b" ".join(b"%x" % source.getrandbits(32) for _ in range(count)) + b"\n"


class Documents:
    """A session with documents that stay, `stays` among them, and others that come and go."""

    def __init__(self, session, kept):
        self.session, self.searches = session, 0
        puts = [put(b"stays-%d" % number, body) for number, body in enumerate(kept)]
        self.begin = self.memory(put(b"stays", b"who\n") + b"".join(puts))

    def memory(self, script):
        """The session's memory after a script and two publishes, once a search has been answered."""
        self.searches += 1
        self.session.send(script + b"publish\npublish\nsearchin ^stays$ .\n")
        head = self.session.read_line()
        if not head.startswith(b"search %d version " % self.searches) or not head.endswith(b" lines 1\n"):
            raise Wrong(f"search {self.searches} is answered by {head!r}")
        self.session.read_line()
        return self.session.memory("VmRSS")

    def come_and_go(self, bodies):
        """The memory while documents with these bodies are there, and after they have been removed."""
        names = [b"%d" % number for number in range(len(bodies))]
        full = self.memory(b"".join(map(put, names, bodies)))
        if full - self.begin < 16 * MEBIBYTE:
            raise Wrong(f"the documents take only {full - self.begin} bytes")
        # from the last one on, since their numbers are then at the ends of lists
        return full, self.memory(b"".join(b"remove %s\n" % name for name in reversed(names)))


def lists_of_many_trigrams(start):
    """Each of nearly four million trigrams has a list, in both copies. They come and go, and come again and again.

    What is given back the second time is in many small pieces, of which the system need not see all. But the next lists must use them.
    """
    source = random.Random(1)
    bodies = [random_body(source, MEBIBYTE) for _ in range(4)]
    with start() as session:
        documents = Documents(session, [])
        first, left = documents.come_and_go(bodies)
        if left - documents.begin > PART * (first - documents.begin):
            raise Wrong(f"{documents.begin} bytes before the documents, {first} with them, and {left} when they are gone")
        later = [documents.come_and_go(bodies)[0] for _ in range(3)]
        if max(later) - first > 2 * PART * (first - documents.begin):
            raise Wrong(f"{documents.begin} bytes before the documents, {first} with them, and {later} each further time")
        session.end(0)


def lists_of_many_numbers(start):
    """The lists of one text after the other get 3,000 numbers and lose them. A document of each text stays.

    What is given back is in many small pieces, so the system need not see it. But the next text's lists must use it.
    """
    source = random.Random(2)
    texts = [words(source, 200) for _ in range(4)]
    with start() as session:
        documents = Documents(session, texts)
        first, *later = [documents.come_and_go([own_body(text, number) for number in range(3_000)])[0] for text in texts]
        if later[-1] - first > PART * (first - documents.begin):
            raise Wrong(f"{documents.begin} bytes before the documents, {first} with those of a text, and {later} with those of others")
        session.end(0)


def bodies_while_a_session_is_idle():
    """They are replaced, and published once. No item follows."""
    replace_and_wait()


def bodies_while_a_session_is_idle_behind_a_search():
    """They are replaced, and published once. A search that takes a while comes right behind that, or is open meanwhile."""
    replace_and_wait(behind=SLOW_SEARCH)
    replace_and_wait(before=SLOW_SEARCH)


def replace_and_wait(before=b"", behind=b""):
    """Replaces large bodies, and publishes once, with a search before or behind it or none. Then it waits until most of the memory is given
    back."""
    body = b"some text\n" * 100_000
    with Session("--readers", "2") as session:
        documents = Documents(session, [slow_body(2, 16_000)])
        full = documents.memory(b"".join(put(b"%d" % number, own_body(body, number)) for number in range(40)))
        session.send(before + b"".join(put(b"%d" % number, b"x") for number in range(40)) + b"publish\n" + behind)
        if before or behind:
            head, line = session.read_line(), session.read_line()
            if not head.startswith(b"search 3 version ") or line != b"stays-0:3:end\n":
                raise Wrong(f"the slow search is answered by {head!r}, {line!r}")
        left, end = full, time.monotonic() + SECONDS
        while left - documents.begin > PART * (full - documents.begin):
            if time.monotonic() > end:
                raise Wrong(f"{documents.begin} bytes before the documents, {full} with them, and {left} after they were replaced")
            time.sleep(0.05)
            left = session.memory("VmRSS")
        session.end(0)


if __name__ == "__main__":
    TESTS = [lists_of_many_trigrams, lists_of_many_numbers]
    ONCE = [bodies_while_a_session_is_idle, bodies_while_a_session_is_idle_behind_a_search]
    run_tests(TESTS + ONCE, faults_with_each(TESTS, READERS), len(TESTS))
