#!/usr/bin/env python3
"""Sends items to sessions of the built program while searches that take long are at work.

With readers, such a search holds up neither the items after it nor their answers. The order of the texts shows it, and no time
is measured: the answer to a long search would take minutes, so if other texts waited for it, they would not come within the limit
of time. Such a session is ended when they have come. A slow search takes some tenths of a second. Then all texts are read, and
only what must come in one order is compared in its order.

Usage: tests/sessions/slow_searches.py [NAME..]   The last line counts: N passed, M failed.
"""

import os
import pathlib
import random
import re
import subprocess
import sys
import threading
import time

sys.path.insert(0, str(pathlib.Path(__file__).resolve().parent.parent))

from built import PROGRAM, TOP, own_body, put  # noqa: E402
from counted import Wrong, run_tests  # noqa: E402
from judge import transcripts  # noqa: E402
from live import GREATEST_LINE, MEBIBYTE, SECONDS, Session, expect_threads, faults_with_each, same, send_all  # noqa: E402

# Large counts in a row inside a star: the simulation, which is the way for such a pattern, looks at some 3,000 places for each
# byte, which takes seconds for each MB.
SLOW = rb"x(" + rb"([ab]{0,20}c?){3}" * 50 + rb"d$|[ab])*e|^end$"
# Another that finds the same lines in the bodies below.
TABLE = {SLOW: b"^end$"}
SLOW_SEARCH = b"searchin ^slow " + SLOW + b"\n"
# How many documents a long search goes through, of a MiB each. Readers that are idle share them.
LONG_DOCUMENTS = 64
REPLACEMENTS = 3_000
# How many seconds a session takes at most to end once nobody reads and nothing more comes.
SECONDS_TO_END = 30
# How many quick searches wait behind a slow one, and how many are answered before it at most.
WAITING, MOST_BEFORE = 500, 10_000


def slow_body(lines, length):
    """Random lines, in which the pattern looks at each byte, and the one line that it finds."""
    source = random.Random(1)
    return b"".join(b"x" + bytes(source.choices(b"ab", k=length - 2)) + b"\n" for _ in range(lines)) + b"end\n"


def long_bodies():
    """Bodies that differ, since one that several documents have is matched once."""
    body = slow_body(64, 16_000)
    return {b"slow%02d" % number: own_body(body, number) for number in range(LONG_DOCUMENTS)}


LONG_BODIES = long_bodies()

# A search of the first is slow, and one of the second long.
SHORT, LONG = put(b"slow", slow_body(2, 16_000)) + b"publish\n", b"".join(put(*pair) for pair in LONG_BODIES.items()) + b"publish\n"
FOUND = b"search %d version %d lines 1\nslow:3:end\n"
REFUSED = b"line %d refused: %s\n"
# The line of the first item after each body.
AFTER_SHORT, AFTER_LONG = SHORT.count(b"\n") + 1, LONG.count(b"\n") + 1


def texts_come_beside_a_long_search(start):
    """A put, a publish, a load and a search, and refusals, are not held up."""
    with start() as session:
        session.send(LONG + SLOW_SEARCH)
        line = AFTER_LONG + 1
        for number in range(2, 12):
            name = b"new%d" % number
            session.ask(
                put(name, b"hello %d" % number) + b"publish\nsearch ^hello %d$\n" % number,
                b"search %d version %d lines 1\n%s:1:hello %d\n" % (number, LONG_DOCUMENTS + number - 1, name, number),
            )
            session.ask(b"what\n", REFUSED % (line + 4, b"bad line"))
            line += 5
        session.ask(b"search (\n", b"search 12 refused: group not closed at 0\n")
        session.ask(b"remove b\n", REFUSED % (line + 1, b"no such file"))
        session.ask(b"load b nothing/here\n", REFUSED % (line + 2, b"cannot load"))
        session.expect_quiet()
        # the session goes on to wait for the answer, whose text may begin from here on
        session.ask(b"put b\n", REFUSED % (line + 3, b"bad put"))


def loads_and_removes_are_seen_beside_a_long_search(start):
    """They are carried out and published while the search is at work, and so are those under a prefix, and copies. The status says so."""
    text = (TOP / "examples/tree/README").read_bytes()
    with start() as session:
        session.send(LONG + SLOW_SEARCH)
        session.send(b"load new examples/tree/README\nremove slow00\ncopyunder new other\nremoveunder slow01\npublish\n")
        size = sum(map(len, LONG_BODIES.values())) - len(LONG_BODIES[b"slow00"]) - len(LONG_BODIES[b"slow01"]) + 2 * len(text)
        version = LONG_DOCUMENTS + 4
        shown = (AFTER_LONG + 6, version, LONG_DOCUMENTS, size, version)
        session.ask(b"status\n", b"line %d status version %d documents %d bytes %d accepted %d of 1000000 open 1\n" % shown)
        session.expect_quiet()


def items_are_taken_while_every_reader_is_at_work():
    """There are more long searches than readers. Searches after them are answered, in turn, and the other items are carried out."""
    for readers in 1, 2, 16:
        with Session("--readers", str(readers)) as session:
            session.send(LONG + SLOW_SEARCH * (readers + 2) + put(b"a", b"hi") + b"publish\n")
            number = readers + 3
            for _ in range(3):
                session.ask(b"searchin ^a i\n", b"search %d version %d lines 1\na:1:hi\n" % (number, LONG_DOCUMENTS + 1))
                number += 1
            session.ask(b"search (\n", b"search %d refused: group not closed at 0\n" % number)
            session.ask(b"remove b\n", REFUSED % (AFTER_LONG + readers + 9, b"no such file"))
            session.expect_quiet()


def slow_searches_are_stopped_for_later_ones():
    """They are stopped between documents, while others are published and found, and have the lines of their own version."""
    documents, body = [b"slow%d" % number for number in range(6)], slow_body(1, 16_000)
    for readers in 1, 2:
        with Session("--readers", str(readers)) as session:
            session.send(b"".join(put(name, own_body(body, number)) for number, name in enumerate(documents)) + b"publish\n" + SLOW_SEARCH * 4)
            for number in range(5, 25):
                session.send(put(b"new", b"hello %d" % number) + b"publish\nsearchin ^new hello\n")
            for _ in range(24):
                words = session.read_entry().split()
                number, version = int(words[1]), int(words[3])
                if number < 5:
                    same("a slow search", words[6:], [name + b":2:end" for name in documents])
                elif not len(documents) + number - 4 <= version <= len(documents) + 20:
                    raise Wrong(f"search {number} has version {version}")
                else:
                    same("a quick search", words[6:], [b"new:1:hello", b"%d" % (version - len(documents) + 4)])
            session.end(0)


def stopped_searches_go_on_beside_later_ones():
    """In one lane a slow search has its turns, although others that nobody has begun wait all the time: they come faster than they are
    answered. So it is answered before thousands of them are."""
    quick = b"searchin ^a$ e.*z\n"
    for readers in 1, 2:
        with Session("--readers", str(readers)) as session:
            session.send(put(b"slow", slow_body(2, 16_000)) + put(b"a", b"some text\n" * 3_000) + b"publish\n" + SLOW_SEARCH + quick * WAITING)
            for _ in range(MOST_BEFORE):
                if session.read_entry().startswith(b"search 1 "):
                    break
                session.send(quick)
            else:
                raise Wrong(f"{MOST_BEFORE} later searches are answered before a slow one, with {readers} readers")


def threads_of_stopped_searches_end():
    """Each slow search that is begun has a thread. Few of these stay once there is no search."""
    slow = 12
    with Session("--readers", "1") as session:
        session.send(put(b"slow", slow_body(2, 16_000)) + put(b"a", b"hi") + b"publish\n" + SLOW_SEARCH * slow + b"searchin ^a$ hi\n")
        same("the answer", session.read_entry(), b"search %d version 2 lines 1\na:1:hi\n" % (slow + 1))
        expect_threads(session, range(slow, 30), f"with {slow} slow searches")
        session.send(b"".join(b"cancel %d\n" % number for number in range(1, slow + 1)))
        for _ in range(slow):
            session.read_entry()
        expect_threads(session, range(slow), f"after {slow} slow searches")


def lanes_are_served_one_after_the_other():
    """Forty long searches of a lane hold up no search of another lane, and no item. Of their own lane few are begun at a time,
    so a further one is not answered."""
    long_search = b"find --lane a -n ^slow -- " + SLOW + b"\n"
    for readers in 1, 2, 16:
        with Session("--readers", str(readers)) as session:
            session.send(LONG + long_search * 40 + put(b"a", b"hi") + b"publish\nfind --lane a -n ^a -- i\n")
            for number in range(42, 52):
                lane = b"--lane %d " % number if number % 2 else b""
                session.ask(b"find %s-n ^a -- i\n" % lane, b"search %d version %d lines 1\na:1:hi\n" % (number, LONG_DOCUMENTS + 1))
            session.ask(b"cancel 41\n", b"search 41 refused: cancelled\n")
            session.expect_quiet()


def each_of_three_lanes_has_its_turns():
    """Behind a slow search many quick ones of three lanes wait, first those of one lane, then those of the next. No lane waits until the
    others have their answers."""
    quick = b"find --lane %d -n ^a$ -- e.*z\n"
    lanes, wait = 3, 200
    with Session("--readers", "1") as session:
        asked = b"".join(quick % lane * wait for lane in range(lanes))
        session.send(put(b"slow", slow_body(2, 16_000)) + put(b"a", b"some text\n" * 3_000) + b"publish\n" + SLOW_SEARCH + asked)
        answers = [0] * lanes
        while sum(answers) < lanes * wait // 2:
            number = int(session.read_entry().split()[1])
            if number > 1:
                answers[(number - 2) // wait] += 1
        # the first lanes are ahead by what is answered before all is read
        if min(answers) < wait // 20:
            raise Wrong(f"of the first {sum(answers)} answers the lanes have {answers}")


def times_are_shown():
    """With `--times` each answer says how long it waited and worked, and by which way. Two slow searches share a reader."""
    for words in ["--readers", "0"], ["--readers", "1"], ["--live", "--readers", "0"], ["--live", "--readers", "1"]:
        for _ in range(5):
            found = times_of(words)
            # the second may have been asked some time after the first had begun, and a thread may have had no processor for a while
            is_longest = found[1][1] >= 1_000 and found[3][1] <= found[1][1]
            has_waited = words[-1] == "0" or max(found[1][0], found[2][0]) >= min(found[1][1], found[2][1]) / 4
            if is_longest and has_waited:
                break
        else:
            raise Wrong(f"{words}: a slow search has not worked longest, or no one waited for the other: {found}")


def times_of(words):
    """How long each of three searches waited and worked, and by which way it went."""
    head = re.compile(rb"search (\d+) version 1 lines 1 waited (\d+) worked (\d+) by (engine|matcher|simulation)\n")
    script = SHORT + SLOW_SEARCH * 2 + b"searchin ^slow ^end$\n"
    begun = time.monotonic()
    done = subprocess.run([PROGRAM, "--times", *words], input=script, capture_output=True, check=True, timeout=SECONDS)
    taken = 1_000_000 * (time.monotonic() - begun)
    found = {int(number): (int(waited), int(worked), way) for number, waited, worked, way in head.findall(done.stdout)}
    same("the searches", sorted(found), [1, 2, 3])
    same("the ways", [found[number][2] for number in (1, 2)], [b"simulation"] * 2)
    if sum(worked for _, worked, _ in found.values()) > taken or any(waited + worked > taken for waited, worked, _ in found.values()):
        raise Wrong(f"{words}: {found} in {taken} microseconds")
    return found


def stars_at_the_front_go_by_the_engine():
    """`((a*|b)*|c)*d` is searched as `d`, for which the engine's tables are small."""
    script = put(b"a", b"abc\n" * 3_000 + b"d\n") + b"publish\nsearch ((a*|b)*|c)*d\n"
    done = subprocess.run([PROGRAM, "--times", "--readers", "0"], input=script, capture_output=True, check=True, timeout=SECONDS)
    same("the way", re.findall(rb" lines 1 waited \d+ worked \d+ by (\w+)\n", done.stdout), [b"engine"])


def search_is_answered_beside_long_ones_by_the_last_reader():
    with Session("--readers", "16") as session:
        session.send(LONG + SLOW_SEARCH * 15)
        for number in range(16, 40):
            session.ask(b"searchin ^b h\n", b"search %d version %d lines 0\n" % (number, LONG_DOCUMENTS))


def replacements_beside_a_long_search_leave_memory_level(start):
    """While a search is at work, documents of 120 MB in all replace each other. The search itself takes up to 20 MB."""
    filler = b"".join(b"of no use %d\n" % number for number in range(2_500))
    with start() as session:
        session.send(LONG + SLOW_SEARCH)
        early = late = 0
        for number in range(2, REPLACEMENTS + 2):
            items = put(b"f", filler + b"text %d\n" % number) + b"publish\nsearch ^text %d$\n" % number
            session.ask(items, b"search %d version %d lines 1\nf:2501:text %d\n" % (number, LONG_DOCUMENTS + number - 1, number))
            if number == REPLACEMENTS // 10:
                early = session.memory("VmRSS")
        late = session.memory("VmRSS")
        if late - early > 32 * MEBIBYTE:
            raise Wrong(f"{early} bytes after {REPLACEMENTS // 10} replacements, and {late} after {REPLACEMENTS}")


def nobody_reads_while_a_long_search_is_at_work(start):
    """The session ends at its next write, though the search is at work and the input is open."""
    with start() as session:
        session.send(LONG + SLOW_SEARCH)
        session.ask(b"what\n", REFUSED % (AFTER_LONG + 1, b"bad line"))
        session.process.stdout.close()
        session.send(b"what\n")
        session.end(2, close=False)


def client_that_is_gone_while_long_searches_are_at_work(start):
    """Once both the input and the output are closed, at once or one after the other, the searches are given up, also if others wait
    behind a sync."""
    for items in SLOW_SEARCH, SLOW_SEARCH * 20, SLOW_SEARCH + b"sync\nwhat\n" + SLOW_SEARCH:
        for between in 0, 0.4:
            with start() as session:
                session.send(LONG + b"what\n" + items)
                session.expect(REFUSED % (AFTER_LONG, b"bad line"))
                # what is left of the items is taken
                time.sleep(0.2)
                session.process.stdin.close()
                time.sleep(between)
                session.process.stdout.close()
                began = time.monotonic()
                session.end(2, close=False)
                seconds = time.monotonic() - began
                if seconds > SECONDS_TO_END:
                    raise Wrong(f"it took {seconds:.1f} seconds to end, {between} between the input and the output")


def output_that_fails_after_the_end_of_the_input(start):
    """The same with an output that is full."""
    with open("/dev/full", "wb") as full, start(output=full) as session:
        session.send(LONG + SLOW_SEARCH)
        session.end(2, b"tsearch: cannot write\n")


def texts_begin_before_their_searches_end(start):
    """While a search takes long after the end of the input, its text is begun, byte by byte. Nothing comes twice, and nothing is missing."""
    with start() as session:
        session.send(LONG + SLOW_SEARCH)
        session.process.stdin.close()
        first = session.read()
        # more than a byte of it where this test had no processor for a while
        same("what comes first", (first[:1], b"search 1 version".startswith(first)), (b"s", True))
    documents = put(b"slow", slow_body(12, 16_000)) + b"publish\n"
    with start() as session:
        session.send(documents + SLOW_SEARCH)
        session.process.stdin.close()
        same("the text", b"".join(iter(session.read, b"")), b"search 1 version 1 lines 1\nslow:13:end\n")
        session.end(0)
    with start() as session:
        session.send(documents + SLOW_SEARCH + b"search h\n" + SLOW_SEARCH + b"sync\n" + SLOW_SEARCH + b"what\n" + SLOW_SEARCH)
        session.process.stdin.close()
        line = documents.count(b"\n") + 6
        found = b"search %d version 1 lines 1\nslow:13:end\n"
        for wanted in (found % 1, b"search 2 version 1 lines 0\n", found % 3), (REFUSED % (line, b"bad line"), found % 4, found % 5):
            entries_in_any_order(session, wanted)
        session.end(2)


def output_that_fails_while_the_input_is_open():
    """The same with an output that is full, while a search is at work, and while there is none."""
    for readers, before in ("0", b""), ("2", b""), ("2", LONG + SLOW_SEARCH), ("16", LONG + SLOW_SEARCH):
        with open("/dev/full", "wb") as full, Session("--readers", readers, output=full) as session:
            session.send(before + b"what\n")
            session.end(2, b"tsearch: cannot write\n", close=False)


def entries_in_any_order(session, wanted):
    same("the entries", sorted(session.read_entry() for _ in wanted), sorted(wanted))


def sync_waits_for_a_slow_search(start):
    """What comes after the sync is carried out once the search has its answer."""
    with start() as session:
        session.send(SHORT + SLOW_SEARCH + b"what\nsync\nwhat\n" + put(b"a", b"hi") + b"publish\nsearch h\nsync\n" + SLOW_SEARCH + b"sync\nsearch (\n")
        entries_in_any_order(session, [REFUSED % (AFTER_SHORT + 1, b"bad line"), FOUND % (1, 1)])
        for text in REFUSED % (AFTER_SHORT + 3, b"bad line"), b"search 2 version 2 lines 1\na:1:hi\n", FOUND % (3, 2):
            same("the next entry", session.read_entry(), text)
        session.expect(b"search 4 refused: group not closed at 0\n")
        session.end(2)


def many_items_wait_behind_a_sync(start):
    """They are carried out in their order once the search has its answer."""
    with start() as session:
        session.send(SHORT + SLOW_SEARCH + b"sync\n" + b"what\nsearch (\n" * 50)
        same("the next entry", session.read_entry(), FOUND % (1, 1))
        for number in range(50):
            session.expect(REFUSED % (AFTER_SHORT + 2 + 2 * number, b"bad line"))
            session.expect(b"search %d refused: group not closed at 0\n" % (number + 2))
        session.end(2)


def slow_search_without_readers():
    with Session("--readers", "0") as session:
        session.send(SHORT + SLOW_SEARCH + b"what\n" + put(b"a", b"hi") + b"publish\nsearch h\n")
        for text in FOUND % (1, 1), REFUSED % (AFTER_SHORT + 1, b"bad line"), b"search 2 version 2 lines 1\na:1:hi\n":
            same("the next entry", session.read_entry(), text)
        session.end(2)


# Items after the body, the entries that must come for them, in any order, and the status. The input ends after the items.
LAST_ITEMS = [
    (SLOW_SEARCH * 3, [FOUND % (1, 1), FOUND % (2, 1), FOUND % (3, 1)], 0),
    (b"search h\n" + SLOW_SEARCH, [b"search 1 version 1 lines 0\n", FOUND % (2, 1)], 0),
    (SLOW_SEARCH + b"sync\n" + SLOW_SEARCH, [FOUND % (1, 1), FOUND % (2, 1)], 0),
    (SLOW_SEARCH.replace(b"|^end$", b"") * 2, [b"search 1 version 1 lines 0\n", b"search 2 version 1 lines 0\n"], 1),
    (SLOW_SEARCH + b"what\n", [FOUND % (1, 1), REFUSED % (AFTER_SHORT + 1, b"bad line")], 2),
    (SLOW_SEARCH + b"put a 2\nh", [FOUND % (1, 1), REFUSED % (AFTER_SHORT + 1, b"truncated")], 2),
]


def input_that_ends_with_searches_open(start):
    """They are answered, and the status is that of all entries."""
    for items, wanted, status in LAST_ITEMS:
        with start() as session:
            session.send(SHORT + items)
            session.process.stdin.close()
            entries_in_any_order(session, wanted)
            session.end(status)


def fault_that_ends_a_session_with_a_search_open(start):
    """The search gets its answer, and the input stays open."""
    for last, reason in (b"put a\n", b"bad put"), (b"put a 1\nxy", b"body not closed"):
        with start() as session:
            session.send(SHORT + SLOW_SEARCH + last)
            entries_in_any_order(session, [REFUSED % (AFTER_SHORT + 1, reason), FOUND % (1, 1)])
            session.end(2, close=False)


def line_longer_than_any_after_a_slow_search(start):
    """The search gets its answer before the session ends."""
    with start() as session:
        line = SHORT + SLOW_SEARCH + b"x" * (GREATEST_LINE + 1)
        threading.Thread(target=send_all, args=(session, line), daemon=True).start()
        same("the answer", session.read_entry(), FOUND % (1, 1))
        session.end(2, b"tsearch: line too long\n", close=False)


# Scripts that begin with the short body, each with slow searches beside other items.
JUDGED = [
    SLOW_SEARCH + put(b"a", b"hi") + b"publish\nsearch h\nwhat\n" + put(b"a", b"ho") + b"publish\nsearch h\n",
    b"search h\n" + SLOW_SEARCH + b"sync\nsearch h\n" + put(b"a", b"hi") + b"publish\nsearch h\nsync\nwhat\n",
    SLOW_SEARCH * 3 + b"publish\nsearch end\n" + put(b"slow", b"end") + b"publish\nsearch end\n" + SLOW_SEARCH + b"remove slow\npublish\nsearch end\n",
    (SLOW_SEARCH + put(b"a", b"hi") + b"publish\nsearch h\nremove a\nremove a\npublish\nsearch h\n") * 2 + b"put b 2\nh\n",
]


def judge(readers, items):
    script = SHORT + items
    done = subprocess.run([PROGRAM, "--live", "--readers", str(readers)], input=script, capture_output=True, check=False, timeout=SECONDS)
    same("standard error", done.stderr, b"")
    fault = transcripts.fault_of(script, done.stdout, done.returncode, session=True, readers=readers, table=TABLE)
    if fault:
        raise Wrong(f"{readers} readers: {fault}: {done.stdout!r}")


def sessions_with_slow_searches_are_legal():
    for readers in 0, 1, 2, 16:
        for items in JUDGED:
            judge(readers, items)


WITH_READERS = [
    texts_come_beside_a_long_search,
    loads_and_removes_are_seen_beside_a_long_search,
    replacements_beside_a_long_search_leave_memory_level,
    nobody_reads_while_a_long_search_is_at_work,
    client_that_is_gone_while_long_searches_are_at_work,
    output_that_fails_after_the_end_of_the_input,
    texts_begin_before_their_searches_end,
    sync_waits_for_a_slow_search,
    many_items_wait_behind_a_sync,
    input_that_ends_with_searches_open,
    fault_that_ends_a_session_with_a_search_open,
    line_longer_than_any_after_a_slow_search,
]
ONCE = [
    items_are_taken_while_every_reader_is_at_work,
    slow_searches_are_stopped_for_later_ones,
    stopped_searches_go_on_beside_later_ones,
    threads_of_stopped_searches_end,
    lanes_are_served_one_after_the_other,
    each_of_three_lanes_has_its_turns,
    times_are_shown,
    stars_at_the_front_go_by_the_engine,
    search_is_answered_beside_long_ones_by_the_last_reader,
    output_that_fails_while_the_input_is_open,
    slow_search_without_readers,
    sessions_with_slow_searches_are_legal,
]


if __name__ == "__main__":
    run_tests(WITH_READERS + ONCE, faults_with_each(WITH_READERS, ["2", "16"]), os.cpu_count())
