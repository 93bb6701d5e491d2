#!/usr/bin/env python3
"""Cancels searches of the built program, gives searches a limit of time, and asks for statuses while searches are open.

A long search would take minutes. It goes through many documents, and each of them takes a tenth of a second or more. So what waits for the
whole search does not come within the limit of time, and what waits for one document does. The order of the texts shows which of the two
it is, and no time is measured. A slow search takes some tenths of a second, in a document with one long line, and a quick one next to
nothing. What a session has written is also judged (judge/transcripts.py): each search has one entry, and each status shows what is so.

Usage: tests/sessions/cancelled_searches.py [NAME..]   The last line counts: N passed, M failed.
"""

import os
import pathlib
import random
import re
import subprocess
import sys
import time

sys.path.insert(0, str(pathlib.Path(__file__).resolve().parent.parent))

from built import PROGRAM, TOP, own_body, put  # noqa: E402
from counted import Wrong, run_tests  # noqa: E402
from judge import transcripts  # noqa: E402
from live import MEBIBYTE, QUIET, SECONDS, Session, expect_threads, faults_with_each, same  # noqa: E402
from sessions.slow_searches import SLOW, TABLE, slow_body  # noqa: E402

# How many searches more than there are readers are begun.
MORE_BEGUN = 16
ROUNDS, OPEN, BATCHES = 2, 1_000, 80
# While so many searches are open, no item is taken.
MOST_OPEN = 1_024
MANY, LENGTH = 2_000, 15_000
MOST_LINE = 67_108_864
LETTERS = bytes(b"ab"[byte % 2] for byte in range(256))


def long_bodies():
    source = random.Random(1)
    body = b"".join(b"x" + source.randbytes(LENGTH).translate(LETTERS) + b"\n" for _ in range(2))
    return {b"long%04d" % number: own_body(body, number) for number in range(MANY)}


LONG_BODIES = long_bodies()
LONG_NAMES = list(LONG_BODIES)
BODIES = {**LONG_BODIES, b"slow": slow_body(2, 16_000), b"quick": b"hello\n"}
DOCUMENTS = b"".join(put(*pair) for pair in BODIES.items()) + b"publish\n"
VERSION, BYTES = len(BODIES), sum(map(len, BODIES.values()))

LONG_SEARCH, SLOW_SEARCH, QUICK_SEARCH = b"searchin ^long " + SLOW + b"\n", b"searchin ^slow$ " + SLOW + b"\n", b"searchin ^quick$ hello\n"
QUICK = b"search %%d version %d lines 1\nquick:1:hello\n" % VERSION
FOUND = b"search %%d version %d lines 1\nslow:3:end\n" % VERSION
CANCELLED, TOO_SLOW = b"search %d refused: cancelled\n", b"search %d refused: too slow\n"
REFUSED, BAD_LINE, NO_SUCH_SEARCH = b"line %d refused: %s\n", b"bad line", b"no such search"
STATUS = b"line %d status version %d documents %d bytes %d accepted %d of 1000000 open %d\n"


class Talk:
    """What was sent to a session and what it has written. It begins with the documents."""

    def __init__(self, session, readers, timed=False, documents=DOCUMENTS):
        self.session, self.how = session, {"readers": readers, "timed": timed}
        self.sent, self.written, self.line, self.searches = [], [], 1, 0
        self.send(documents)

    def send(self, items):
        """Sends items, and returns the line of the first."""
        self.session.send(items)
        self.sent.append(items)
        line, self.line = self.line, self.line + items.count(b"\n")
        self.searches += len(re.findall(rb"^search(?:in)? ", items, re.MULTILINE))
        return line

    def ask(self, *searches):
        """Sends searches, and returns their numbers."""
        first = self.searches + 1
        self.send(b"".join(searches))
        return list(range(first, self.searches + 1))

    def cancel(self, numbers):
        return self.send(b"".join(b"cancel %d\n" % number for number in numbers))

    def read(self):
        entry = self.session.read_entry()
        self.written.append(entry)
        return entry

    def expect(self, *wanted):
        """Reads as many entries as are wanted. They must be these, in this order."""
        for text in wanted:
            same("the next entry", self.read(), text)

    def expect_in_any_order(self, wanted):
        """Reads as many entries as are wanted. They must be these."""
        got = [self.read() for _ in wanted]
        same("the entries", sorted(got), sorted(wanted))
        return got

    def expect_open(self, count, version=VERSION, documents=VERSION, size=BYTES, accepted=VERSION):
        """Asks for the status, which must come next and show so many open searches."""
        line = self.send(b"status\n")
        self.expect(STATUS % (line, version, documents, size, accepted, count))

    def ask_until_answered(self, answer=QUICK):
        """Asks a quick search again and again while it is too slow."""
        for _ in range(100):
            number, = self.ask(QUICK_SEARCH)
            entry = self.read()
            if entry != TOO_SLOW % number:
                same("the answer", entry, answer % number)
                return
        raise Wrong("a quick search is too slow a hundred times")

    def judge(self, status, **how):
        script, text = b"".join(self.sent), b"".join(self.written)
        fault = transcripts.fault_of(script, text, status, session=True, table=TABLE, **self.how, **how)
        if fault:
            raise Wrong(f"{fault}: {text!r}")

    def end(self, status, close=True):
        """Ends the session, which has written all that must come."""
        self.session.end(status, close=close)
        self.judge(status)

    def leave(self):
        """Leaves the session while searches are open."""
        self.session.expect_quiet()
        self.judge(2, whole=False)


def readers_of(start):
    """With how many readers it starts a session."""
    return int(start.args[start.args.index("--readers") + 1])


def every_second_of_many_open_searches(start):
    """While there is a long search for each reader, a thousand more are asked: long ones, which are all cancelled, in their order, and quick
    ones, which are all answered."""
    readers = readers_of(start)
    with start() as session:
        talk = Talk(session, readers)
        for _ in range(ROUNDS):
            held = talk.ask(*[LONG_SEARCH] * readers)
            asked = talk.ask(*[LONG_SEARCH, QUICK_SEARCH] * (OPEN // 2))
            talk.cancel(asked[::2])
            talk.cancel(held)
            cancelled = [CANCELLED % number for number in asked[::2] + held]
            got = talk.expect_in_any_order(cancelled + [QUICK % number for number in asked[1::2]])
            same("the order of the cancelled searches", [entry for entry in got if entry in cancelled], cancelled)
            talk.expect_open(0)
        talk.end(2)


def cancelled_search_frees_its_reader(start):
    """As many long searches are begun as can be, and a quick one waits. Once the first is cancelled, the quick one is answered. Meanwhile the
    client asks for statuses, a thousand at most with a pause between them, so that a reader that goes on for minutes is found."""
    begun = readers_of(start) + MORE_BEGUN
    with start() as session:
        talk = Talk(session, readers_of(start))
        held, (quick,) = talk.ask(*[LONG_SEARCH] * begun), talk.ask(QUICK_SEARCH)
        session.expect_quiet()
        talk.cancel(held[:1])
        talk.expect(CANCELLED % held[0])
        for _ in range(1_000):
            time.sleep(QUIET)
            talk.send(b"status\n")
            entry = talk.read()
            if entry == QUICK % quick:
                break
        same("the entry of the quick search", entry, QUICK % quick)
        if b" status " not in talk.read():
            raise Wrong("the status has no entry")
        talk.expect_open(begun - 1)
        talk.leave()


def cancel_right_behind_its_search(start):
    """The search, its cancel and the next search are sent together, again and again."""
    with start() as session:
        talk = Talk(session, readers_of(start))
        for number in range(1, OPEN // 2, 2):
            talk.send(LONG_SEARCH + b"cancel %d\n" % number + QUICK_SEARCH)
            talk.expect(CANCELLED % number, QUICK % (number + 1))
        talk.end(2)


def spans_are_given_up_within_a_line():
    """The spans of a line of one letter take minutes, since each is looked for in all that follows it. The search is cancelled,
    and then one like it is too slow; each time its reader has the next search at once."""
    lines = (b"a" * 16_384 + b"\n") * 8
    find = b"find --spans -- (a|aa)*b|a\n"
    with Session("--readers", "1", "--search-ms", "2000") as session:
        session.send(put(b"a", lines) + b"publish\n" + find)
        session.ask(b"cancel 1\nsearchin ^c$ x\n", CANCELLED % 1 + b"search 2 version 1 lines 0\n")
        session.ask(find, TOO_SLOW % 3)
        session.ask(b"searchin ^c$ x\n", b"search 4 version 1 lines 0\n")
        session.end(2)


def a_search_is_given_up_within_one_long_line():
    """A line of 64 MiB would be read for minutes, by a simulation, as it is, for those that do not match, and for its spans. The search is
    cancelled, and in a session with a limit of time one like it is too slow; each time its reader has the next search at once."""
    source = random.Random(1)
    slow = b"x" + source.randbytes(MOST_LINE - 1).translate(LETTERS)
    bodies = put(b"slow", slow) + put(b"spans", b"a" * MOST_LINE)
    finds = b"search %s\n" % SLOW, b"find -c -v -- %s\n" % SLOW, b"find --spans -n ^spans$ -- (a|aa)*b|a\n"
    words = "--readers", "1", "--max-body", b"%d" % MOST_LINE, "--max-line", b"%d" % MOST_LINE
    answer = b"search %d version 2 lines 0\n"
    with Session(*words) as session:
        session.send(bodies + b"publish\n")
        for number in range(1, 2 * len(finds), 2):
            session.send(finds[number // 2])
            session.expect_quiet()
            session.ask(b"cancel %d\nsearchin ^c$ x\n" % number, CANCELLED % number + answer % (number + 1))
        session.end(2)
    with Session(*words, "--search-ms", "2000") as session:
        session.send(bodies + b"publish\n")
        for number in range(1, 2 * len(finds), 2):
            session.ask(finds[number // 2], TOO_SLOW % number)
            session.ask(b"searchin ^c$ x\n", answer % (number + 1))
        session.end(2)


def too_slow_within(documents, search):
    """A search that its documents take far longer than its time is given up."""
    for readers in "1", "0":
        with Session("--readers", readers, "--search-ms", "60") as session:
            session.send(documents + b"publish\n")
            session.ask(search, TOO_SLOW % 1)
            session.end(2)


def searches_are_given_up_within_a_document():
    """It is one large document, and nothing is found in it."""
    too_slow_within(put(b"large", slow_body(60, 16_000)[:-4]), b"search " + SLOW + b"\n")


def searches_are_given_up_before_columns():
    """To match the lines takes longer than the search has. No column is looked for then."""
    lines = slow_body(4, 16_000)[:-4].replace(b"\n", b"d\n")
    too_slow_within(put(b"lines", lines), b"find --column -- " + SLOW.replace(b"|^end$", b"|d$") + b"\n")


def searches_are_given_up_while_names_are_matched():
    source = random.Random(1)
    names = (b"x%s%d" % (bytes(source.choices(b"ab", k=230)), number) for number in range(3_000))
    too_slow_within(b"".join(put(name, b"y") for name in names), b"searchin " + SLOW + b" y\n")


def cancel_behind_a_sync(start):
    """It waits until the search has its answer, and then does nothing."""
    with start() as session:
        talk = Talk(session, readers_of(start))
        line = talk.send(SLOW_SEARCH + b"sync\ncancel 1\nwhat\n" + SLOW_SEARCH + QUICK_SEARCH + b"sync\ncancel 2\ncancel 3\nstatus\n")
        talk.expect(FOUND % 1, REFUSED % (line + 3, BAD_LINE))
        talk.expect_in_any_order([FOUND % 2, QUICK % 3])
        talk.expect(STATUS % (line + 9, VERSION, VERSION, BYTES, VERSION, 0))
        talk.end(2)


def cancel_of_a_search_that_has_its_entry(start):
    """It has no entry, whether the search was answered, refused for its pattern, or cancelled before."""
    with start() as session:
        talk = Talk(session, readers_of(start))
        talk.ask(QUICK_SEARCH)
        talk.expect(QUICK % 1)
        line = talk.send(b"cancel 1\ncancel 1\nwhat\nsearch (\ncancel 2\nwhat\n" + LONG_SEARCH + b"cancel 3\ncancel 3\ncancel 2\ncancel 1\nwhat\n")
        talk.expect(REFUSED % (line + 2, BAD_LINE), b"search 2 refused: group not closed at 0\n", REFUSED % (line + 5, BAD_LINE))
        talk.expect(CANCELLED % 3, REFUSED % (line + 11, BAD_LINE))
        session.expect_quiet()
        talk.ask(QUICK_SEARCH)
        talk.expect(QUICK % 4)
        talk.end(2)


def cancel_of_a_search_that_was_not_asked(start):
    """It is refused in its turn, also while searches are open, and cancels no other search."""
    with start() as session:
        talk = Talk(session, readers_of(start))
        line = talk.cancel([1])
        talk.expect(REFUSED % (line, NO_SUCH_SEARCH))
        talk.ask(LONG_SEARCH)
        for number in 0, 2, 3, 2**32, 2**32 + 1, 2**64 + 1, 10**4_000 + 1:
            line = talk.cancel([number])
            talk.expect(REFUSED % (line, NO_SUCH_SEARCH))
        talk.expect_open(1)
        talk.send(b"cancel " + b"0" * 5_000 + b"1\n")
        talk.expect(CANCELLED % 1)
        talk.end(2)


def cancel_comes_in_its_turn(start):
    """The refusal of a cancelled search comes between those of the items before and after its cancel."""
    with start() as session:
        talk = Talk(session, readers_of(start))
        talk.ask(LONG_SEARCH, LONG_SEARCH)
        line = talk.send(b"what\ncancel 2\nremove b\ncancel 1\ncancel 3\n")
        talk.expect(REFUSED % (line, BAD_LINE), CANCELLED % 2, REFUSED % (line + 2, b"no such file"), CANCELLED % 1)
        talk.expect(REFUSED % (line + 4, NO_SUCH_SEARCH))
        talk.end(2)


def answer_of_a_cancelled_search_is_dropped(start):
    """Its reader may have found the answer of a slow search, or gives it up. The reader then has another search, which has the only answer."""
    readers = readers_of(start)
    with start() as session:
        talk = Talk(session, readers)
        slow = talk.ask(*[SLOW_SEARCH] * readers)
        talk.cancel(slow)
        talk.expect(*(CANCELLED % number for number in slow))
        again = talk.ask(*[SLOW_SEARCH] * readers)
        talk.expect_in_any_order([FOUND % number for number in again])
        talk.end(2)


def many_cancels_leave_memory_level(start):
    """Quick searches, each with a cancel right behind it, and statuses. The searches of a first batch are all open at once, since as many long
    ones as can be are begun, each in a thread: so what the searches of a batch take at most does not depend on how busy the readers are."""
    readers = readers_of(start)
    begun = readers + MORE_BEGUN
    few = b"".join(put(name, BODIES[name]) for name in [b"quick", *LONG_NAMES[:50]])
    with start() as session:
        talk = Talk(session, readers, documents=few + b"publish\n")
        numbers = talk.ask(*[LONG_SEARCH] * begun, *[QUICK_SEARCH] * (OPEN - begun))
        # each in a thread, beside the first one, the one that reads and the one that starts others
        expect_threads(session, range(begun + 3, 2_000), f"with {begun} long searches")
        talk.cancel(numbers)
        for _ in numbers:
            talk.read()
        early = 0
        for batch in range(BATCHES):
            first = talk.searches + 1
            talk.send(b"".join(QUICK_SEARCH + b"cancel %d\n" % number for number in range(first, first + OPEN)) + b"status\nsync\nstatus\n")
            for _ in range(OPEN + 2):
                talk.read()
            if batch == BATCHES // 10:
                early = session.memory("VmRSS")
        late = session.memory("VmRSS")
        if late - early > 2 * MEBIBYTE:
            raise Wrong(f"{early} bytes after a tenth of the cancels, and {late} after all")
        talk.end(2)


def status_beside_open_searches(start):
    """It shows what is published, what is accepted, and how many searches are open, and waits for none of them."""
    with start() as session:
        talk = Talk(session, readers_of(start))
        talk.expect_open(0)
        for count in 1, 2, 3:
            talk.ask(LONG_SEARCH)
            talk.expect_open(count)
        talk.send(put(b"quick", b"bye") + b"remove slow\n")
        talk.expect_open(3, accepted=VERSION + 2)
        talk.send(b"publish\n")
        now = {"version": VERSION + 2, "documents": VERSION - 1, "accepted": VERSION + 2}
        now["size"] = BYTES - len(BODIES[b"slow"]) - len(b"hello\n") + len(b"bye")
        talk.expect_open(3, **now)
        talk.cancel([2])
        talk.expect(CANCELLED % 2)
        talk.expect_open(2, **now)
        talk.cancel([1, 3])
        talk.expect(CANCELLED % 1, CANCELLED % 3)
        talk.expect_open(0, **now)
        talk.end(2)


def items_wait_while_very_many_searches_are_open(start):
    """A status is taken while 1,023 are open. While 1,024 are, it waits, and so does a cancel."""
    with start() as session:
        talk = Talk(session, readers_of(start))
        talk.ask(*[LONG_SEARCH] * (MOST_OPEN - 1))
        talk.expect_open(MOST_OPEN - 1)
        talk.ask(LONG_SEARCH)
        talk.send(b"status\ncancel 1\n")
        talk.leave()


def input_that_ends_behind_cancels(start):
    """The session ends although the cancelled searches would take minutes."""
    for last, refused in (b"", []), (b"put a\n", [b"bad put"]), (b"put a 1\nxy", [b"body not closed"]):
        with start() as session:
            talk = Talk(session, readers_of(start))
            numbers = talk.ask(*[LONG_SEARCH] * 20)
            talk.cancel(numbers)
            line = talk.send(last)
            talk.expect(*(CANCELLED % number for number in numbers), *(REFUSED % (line, reason) for reason in refused))
            talk.end(2, close=not last)


def send_until_the_end(session, items):
    """Sends items one by one until the session ends. A process that another thread starts has the session's output open for a moment, so
    what is written then is taken although nobody reads it."""
    for item in items:
        try:
            session.send(item)
            session.process.wait(0.5)
        except (BrokenPipeError, subprocess.TimeoutExpired):
            pass


def output_that_fails_while_long_searches_are_at_work(start):
    """The session ends at its next text, which may be that of a cancel or a status, and does not wait for the searches."""
    for items in [b"cancel %d\n" % number for number in range(1, 21)], [b"status\n"] * 20, [b"cancel 99\n"] * 20:
        with start() as session:
            session.send(DOCUMENTS + LONG_SEARCH * 20)
            session.ask(b"what\n", REFUSED % (DOCUMENTS.count(b"\n") + 21, BAD_LINE))
            session.process.stdout.close()
            send_until_the_end(session, items)
            session.end(2, close=False)
        with open("/dev/full", "wb") as full, start(output=full) as session:
            session.send(DOCUMENTS + LONG_SEARCH * 20 + items[0])
            session.end(2, b"tsearch: cannot write\n", close=False)


def long_searches_are_too_slow(start):
    """Each is given up in time, and the session goes on."""
    readers = readers_of(start)
    with start("--search-ms", "50") as session:
        talk = Talk(session, readers, timed=True)
        numbers = talk.ask(*[LONG_SEARCH] * 20)
        talk.expect_in_any_order([TOO_SLOW % number for number in numbers])
        talk.expect_open(0)
        line = talk.send(b"cancel 1\nwhat\n")
        talk.expect(REFUSED % (line + 1, BAD_LINE))
        talk.ask_until_answered()
        talk.end(2)


def searches_have_much_time(start):
    """With a limit that none of them comes to, slow and quick searches are answered."""
    for limit in "60000", "65536", "100000", "4294967295":
        with start("--search-ms", limit) as session:
            talk = Talk(session, readers_of(start), timed=True)
            first, second = talk.ask(SLOW_SEARCH, QUICK_SEARCH)
            talk.expect_in_any_order([FOUND % first, QUICK % second])
            talk.end(0)


def time_of_a_search_that_waits_for_a_reader():
    """It counts too: behind long searches, each of which works in its turn until its time is over, a quick one is too slow, at least once in a
    hundred times: it is asked a little later than they are."""
    with Session("--readers", "1", "--search-ms", "10") as session:
        talk = Talk(session, 1, timed=True)
        for _ in range(100):
            *numbers, quick = talk.ask(*[LONG_SEARCH] * MORE_BEGUN, QUICK_SEARCH)
            got = [talk.read() for _ in (*numbers, quick)]
            is_late = TOO_SLOW % quick in got
            same("the entries", sorted(got), sorted([TOO_SLOW % number for number in numbers] + [(TOO_SLOW if is_late else QUICK) % quick]))
            if is_late:
                break
        same("that a quick search is too slow", is_late, True)
        talk.ask_until_answered()
        talk.end(2)


def status_behind_very_many_searches_that_are_too_slow():
    """It is taken once the first of 1,024 is given up, and shows how many are left."""
    with Session("--readers", "1", "--search-ms", "1000") as session:
        talk = Talk(session, 1, timed=True)
        numbers = talk.ask(*[LONG_SEARCH] * MOST_OPEN)
        talk.send(b"status\n")
        got = [talk.read() for _ in range(MOST_OPEN + 1)]
        same("the searches", {entry for entry in got if b"status" not in entry}, {TOO_SLOW % number for number in numbers})
        same("that the first entry is one of them", got[0] in [TOO_SLOW % number for number in numbers], True)
        talk.end(2)


def run(readers, *words, items):
    """The status and the text of a run that begins with the documents."""
    done = subprocess.run([PROGRAM, "--readers", str(readers), *words], input=DOCUMENTS + items, cwd=TOP, capture_output=True, check=False, timeout=2 * SECONDS)
    same("standard error", done.stderr, b"")
    return done.returncode, done.stdout


def run_that_cancels_long_searches():
    """Readers have the searches when the cancels are taken, and the run does not wait for them."""
    line = DOCUMENTS.count(b"\n") + 1
    cancels = b"".join(b"cancel %d\n" % number for number in range(1, 21))
    items = LONG_SEARCH * 20 + b"status\n" + cancels + b"status\ncancel 5\ncancel 21\n" + QUICK_SEARCH
    shown = [STATUS % (line + at, VERSION, VERSION, BYTES, VERSION, count) for at, count in ((20, 20), (41, 0))]
    cancelled = b"".join(CANCELLED % number for number in range(1, 21))
    for readers in 1, 2, 16:
        same("the run", run(readers, items=items), (2, cancelled + b"".join(shown) + REFUSED % (line + 43, NO_SUCH_SEARCH) + QUICK % 21))


def items_of_a_run_beside_a_long_search():
    """A put, a load, a remove and a publish do not wait for it, whatever the number of readers: each status shows that it is open."""
    line = DOCUMENTS.count(b"\n") + 2
    items = LONG_SEARCH + b"status\n" + put(b"new", b"hi") + b"load more examples/tree/README\nremove quick\npublish\nstatus\ncancel 1\n"
    size = BYTES + len(b"hi") + len((TOP / "examples/tree/README").read_bytes()) - len(BODIES[b"quick"])
    wanted = CANCELLED % 1 + STATUS % (line, VERSION, VERSION, BYTES, VERSION, 1) + STATUS % (line + 6, VERSION + 3, VERSION + 1, size, VERSION + 3, 1)
    for readers in 1, 2, 16:
        same("the run", run(readers, items=items), (2, wanted))


def run_whose_searches_are_too_slow():
    """A quick search is asked several times, as it is too slow itself where it has no processor for so long."""
    for readers in 0, 1, 2, 16:
        numbers = range(4, 14)
        script = LONG_SEARCH * 3 + b"sync\nstatus\n" + (QUICK_SEARCH + b"sync\n") * len(numbers)
        status, text = run(readers, "--search-ms", "1000", items=script)
        line = DOCUMENTS.count(b"\n") + 1
        begin = b"".join(TOO_SLOW % number for number in (1, 2, 3)) + STATUS % (line + 4, VERSION, VERSION, BYTES, VERSION, 0)
        late = {number for number in numbers if TOO_SLOW % number in text}
        same("the run", (status, text), (2, begin + b"".join((TOO_SLOW if number in late else QUICK) % number for number in numbers)))
        if len(late) == len(numbers):
            raise Wrong("each quick search is too slow")


# Scripts with slow searches beside cancels, statuses and other items.
SMALL = put(b"slow", slow_body(1, 3_000)) + b"publish\n"
JUDGED = [
    SLOW_SEARCH + b"cancel 1\nstatus\n" + put(b"a", b"hi") + b"publish\nstatus\nsearch h\ncancel 2\ncancel 1\nwhat\n" + SLOW_SEARCH + b"status\n",
    SLOW_SEARCH * 3 + b"status\ncancel 2\nstatus\nsync\ncancel 1\ncancel 4\nstatus\n" + SLOW_SEARCH * 2 + b"cancel 4\nstatus\n",
    (SLOW_SEARCH + b"search end\nstatus\n") * 3 + b"cancel 3\npublish\ncancel 6\nsearch (\nstatus\ncancel 1\ncancel 7\ncancel 8\nsync\nstatus\n",
    b"cancel 1\n" + SLOW_SEARCH + put(b"slow", b"end") + b"publish\ncancel 1\n" + SLOW_SEARCH + b"cancel 2\nstatus\nremove slow\npublish\nstatus\n" + SLOW_SEARCH,
]


def judge(words, readers, script):
    done = subprocess.run([PROGRAM, *words], input=script, capture_output=True, check=False, timeout=SECONDS)
    same("standard error", done.stderr, b"")
    how = {"session": "--live" in words, "timed": "--search-ms" in words, "readers": readers}
    fault = transcripts.fault_of(script, done.stdout, done.returncode, table=TABLE, **how)
    if fault:
        raise Wrong(f"{words}: {fault}: {done.stdout!r}")


def runs_and_sessions_with_slow_searches_are_legal():
    for readers in 0, 1, 2, 16:
        for words in [], ["--live"]:
            for limit in [], ["--search-ms", "1"], ["--search-ms", "300"]:
                for items in JUDGED:
                    judge(words + ["--readers", str(readers)] + limit, readers, SMALL + items)


# Tests with each number of readers but 0, and tests with each.
WITH_READERS = [
    every_second_of_many_open_searches,
    cancelled_search_frees_its_reader,
    cancel_right_behind_its_search,
    cancel_behind_a_sync,
    cancel_of_a_search_that_has_its_entry,
    cancel_of_a_search_that_was_not_asked,
    cancel_comes_in_its_turn,
    answer_of_a_cancelled_search_is_dropped,
    many_cancels_leave_memory_level,
    status_beside_open_searches,
    items_wait_while_very_many_searches_are_open,
    input_that_ends_behind_cancels,
    output_that_fails_while_long_searches_are_at_work,
]
WITH_EACH = [long_searches_are_too_slow, searches_have_much_time]
ONCE = [
    spans_are_given_up_within_a_line,
    a_search_is_given_up_within_one_long_line,
    searches_are_given_up_within_a_document,
    searches_are_given_up_before_columns,
    searches_are_given_up_while_names_are_matched,
    time_of_a_search_that_waits_for_a_reader,
    status_behind_very_many_searches_that_are_too_slow,
    run_that_cancels_long_searches,
    items_of_a_run_beside_a_long_search,
    run_whose_searches_are_too_slow,
    runs_and_sessions_with_slow_searches_are_legal,
]


def faults_of(test):
    numbers = ["0", "1", "2", "16"] if test in WITH_EACH else ["1", "2", "16"]
    return faults_with_each(WITH_READERS + WITH_EACH, numbers)(test)


if __name__ == "__main__":
    run_tests(WITH_READERS + WITH_EACH + ONCE, faults_of, os.cpu_count())
