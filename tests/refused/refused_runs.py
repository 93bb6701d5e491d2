#!/usr/bin/env python3
"""Refuses each request for memory of runs of the built program in turn, and judges what they write.

One script has a replacement, a pending put and syncs, another one a remove of several documents; each is run with no readers and with
two, and as a session with each. With the Nth request refused, a run says that memory ran out, or it writes a text that is legal
(transcripts.py) if any item may be refused for memory. A session that says that memory ran out has written a legal beginning, with whole
entries. None says that a reader has no place, since there are as many places as readers. The library of counting.py counts the requests.
With readers, the requests of the threads come in a different order each time, so these runs are repeated.

Then a body is searched that is so large that the pattern is compiled, which takes some hundreds of requests in a row. If one of
them is refused, the body is searched line by line and the answer stays the same, also with stars inside stars, in the pattern or in
the name pattern, where the simulation takes the lines.

Finally, large requests are refused and small ones are not. It is then known which item gets no memory, and so what must
be written: a put, a load or a search with no room is refused with its line or number, and the next item is carried out.
A script with no room ends the run. In a session, so does a line with no room. As many runs go on at once as there are processors.

Usage: tests/refused/refused_runs.py   The last line counts: N passed, M failed.
"""

import collections
import concurrent.futures
import itertools
import os
import pathlib
import re
import subprocess
import sys
import tempfile

sys.path.insert(0, str(pathlib.Path(__file__).resolve().parent.parent))

from built import PROGRAM, need_program, put  # noqa: E402
from counted import Counted  # noqa: E402
from judge import transcripts  # noqa: E402
from judge.check_transcripts import NEW, NO_OLD, OLD, OLD_AGAIN, REPLACEMENT  # noqa: E402
from refused import counting  # noqa: E402

# After a remove of names that are published and not yet published, another name is left.
REMOVES = put(b"a/x", b"x") + put(b"a/y", b"x") + put(b"b", b"x") + b"publish\n" + put(b"a/z", b"x") + b"removeunder a/\npublish\nsearch x\nsync\n"
# After a copy of names that are published and not yet published, over one that is there and to one that begins with the first text.
COPIES = put(b"a/x", b"x") + put(b"a/b/x", b"y") + put(b"b", b"x") + b"publish\n" + put(b"a/z", b"x") + b"copyunder a/ a/b/\npublish\nsearch x\nsync\n"
# Scripts, and what they write with memory.
SCRIPTS = {
    REPLACEMENT: OLD + OLD_AGAIN + NO_OLD + NEW,
    REMOVES: b"search 1 version 5 lines 1\nb:1:x\n",
    COPIES: b"search 1 version 5 lines 5\na/b/x:1:x\na/b/z:1:x\na/x:1:x\na/z:1:x\nb:1:x\n",
}
NO_MEMORY = b"tsearch: out of memory\n"
NO_READERS, TWO_READERS = ["--readers", "0"], ["--readers", "2"]
SESSION, READING = ["--live"] + NO_READERS, ["--live"] + TWO_READERS
# How often each request is refused.
TIMES = [(NO_READERS, 1), (TWO_READERS, 5), (SESSION, 1), (READING, 5)]
# With readers, a run can make some more requests than the one before.
MORE = 20
# How long a run may take, and the runs that have taken longer.
SECONDS, FEW_ENDLESS, ENDLESS = 120, 8, []

# A body that is too large to be matched line by line, and searches of it, with the outcome if there is no memory to compile the pattern,
# or in the last search the name pattern, and how many requests that takes at least.
LARGE = b"".join(b"line %d of the body, int x = 0x%08x;\n" % (number, number * 7919) for number in range(450))
SEARCHES = {
    b"search line 44[0-3] .* 0x00": ("the same", 400),
    b"isearch LINE 44[0-3] .* 0X00": ("the same", 400),
    b"search 0x((a*|b)*|c)*0034[0-3]": ("the same", 400),
    b"searchin ^((a*|b)*|c)*b$ 0x0034[0-3]": ("the same", 200),
}

# Requests of at least this many bytes are large: those for a body of LONG, for the hits of MANY, and for the texts below, and none for
# the sets of the index.
LARGE_REQUEST = 930_000
EVERY = 1_000_000
LONG = b"of no use\n" * 99_999 + b"last line\n"
MANY = b"x\n" * 50_000 + b"y\n"

# Puts of LONG over an older document of the same name. Its 100,000 line feeds count in the number of the last line.
LONG_PUT = put(b"a", LONG)
# A sync after each search makes the answers of a session with readers come in their order.
LONG_PUTS = b"put a 3\nold\npublish\n" + LONG_PUT + b"publish\nsearch old\nsync\n" + LONG_PUT + b"publish\nsearch ^last\nsync\nwhat\n"
NO_ROOM, OLD_LEFT = b"line 4 refused: out of memory\n", b"search 1 version 1 lines 1\na:1:old\n"
NO_ROOM_AGAIN, NOTHING_NEW = b"line 100009 refused: out of memory\n", b"search 2 version 1 lines 0\n"
NEW_LAST, BAD_LINE = b"search 2 version 2 lines 1\na:100000:last line\n", b"line 200014 refused: bad line\n"

# A line for whose text a session has no room, and an answer for whose text its reader has none, after an answer.
ANSWERED = b"put a 3\nold\npublish\nsearch old\nsync\n"
LONG_LINE = ANSWERED + b"#" * len(LONG) + b"\nsearch old\n"
WIDE_LINE = b"x" * 16_000
WIDE_ANSWER = ANSWERED + b"".join(b"put w%d 16000\n%s\n" % (number, WIDE_LINE) for number in range(60)) + b"publish\nsearch x\nsync\nsearch old\n"
WIDE_NAMES = sorted(b"w%d" % number for number in range(60))
WIDE_TEXT = b"search 2 version 61 lines 60\n" + b"".join(b"%s:1:%s\n" % (name, WIDE_LINE) for name in WIDE_NAMES)

# Searches of MANY, of which the second and the third have many hits.
MANY_HITS = b"put m %d\n%s\npublish\nsearch y\nsync\nsearch x\nsync\nsearch x\nsync\nsearch y\n" % (len(MANY), MANY)
FEW_FIRST, FEW_LAST = b"search 1 version 1 lines 1\nm:50001:y\n", b"search 4 version 1 lines 1\nm:50001:y\n"
HITS = b"version 1 lines 50000\n" + b"".join(b"m:%d:x\n" % number for number in range(1, 50_001))
SECOND, THIRD = b"search 2 " + HITS, b"search 3 " + HITS
SECOND_REFUSED, THIRD_REFUSED = b"search 2 refused: out of memory\n", b"search 3 refused: out of memory\n"


def run(library, script, words, refused, least=0):
    """The status, the output and the messages of the run whose request with this number is refused, and how many there were.
    With `least`, only requests of at least that many bytes count, and the first `refused` of them are refused. A run that does not
    end has no status. Once some runs have not ended, the others have less time."""
    env = dict(os.environ, LD_PRELOAD=library, REFUSED=str(refused), LEAST=str(least))
    limit = SECONDS if len(ENDLESS) < FEW_ENDLESS else 1
    try:
        done = subprocess.run([PROGRAM, *words], input=script, env=env, capture_output=True, check=False, timeout=limit)
    except subprocess.TimeoutExpired:
        ENDLESS.append(refused)
        return None, b"", b"it did not end\n", refused
    messages, count = re.fullmatch(rb"(.*)requests (\d+)\n", done.stderr, re.DOTALL).groups()
    return done.returncode, done.stdout, messages, int(count)


def judged(script, words, text, **options):
    """What is wrong with a text of the script that a run or a session has written, or None."""
    how = {"readers": 2 if words in (TWO_READERS, READING) else 0, "session": words in (SESSION, READING)}
    return transcripts.fault_of(script, text, 2 if b"refused" in text or options.get("whole") is False else 0, **how, **options)


def outcome(script, words, status, text, messages):
    """What became of a run of the script, and why that is not allowed, or None."""
    if messages == NO_MEMORY:
        is_session = words in (SESSION, READING)
        fault = judged(script, words, text, whole=False) if is_session else None if SCRIPTS[script].startswith(text) else "no beginning"
        return messages.decode().strip(), f"{fault}: status {status}, and {text!r} is written" if fault or status != 2 else None
    if messages:
        return "other words", repr(messages)
    if b"out of memory" not in text:
        return "the same", judged(script, words, text) or (f"the status is {status}" if status else None)
    if text.count(b"out of memory") != 1:
        return "several items refused", repr(text)
    return "an item refused", judged(script, words, text, scarce=True) or (None if status == 2 else f"the status is {status}")


def outcome_of_request(library, script, words, refused):
    """What became of the run of the script whose request with this number is refused, and what is wrong, or None."""
    status, text, messages, count = run(library, script, words, refused)
    what, fault = outcome(script, words, status, text, messages)
    if not 0 < refused <= count and what != "the same":
        fault = "nothing is refused"
    return what, "request %d with %s: %s" % (refused, " ".join(words), fault) if fault else None


def each_request(pool, library, script, words):
    """Refuses each request in turn, and some more than there are. Returns the outcomes, each with what is wrong with it or None."""
    *_, count = run(library, script, words, 0)
    return list(pool.map(lambda refused: outcome_of_request(library, script, words, refused), range(count + MORE)))


def outcome_of_a_search(library, script, wanted, refused):
    """What became of the run of a search whose request with this number is refused, and how many there were."""
    status, text, messages, count = run(library, script, NO_READERS, refused)
    if (status, text, messages) == (0, wanted, b""):
        return "the same", count
    if (status, text, messages) == (2, b"search 1 refused: out of memory\n", b""):
        return "the search refused", count
    if status == 2 and messages == NO_MEMORY and wanted.startswith(text):
        return "the run refused", count
    return "a line refused" if re.match(rb"line \d+ refused: out of memory\nsearch 1 ", text) and status == 2 else "wrong", count


def each_request_of_a_search(pool, library, search):
    """Refuses each request of a search of the large body in turn. Returns the outcomes in order."""
    word, _, pattern = search.partition(b" ")
    if word == b"searchin":
        pattern = pattern.partition(b" ")[2]
    flags = re.IGNORECASE if word == b"isearch" else 0
    lines = [b"b:%d:%s\n" % (number, line) for number, line in enumerate(LARGE.split(b"\n"), 1) if re.search(pattern, line, flags)]
    wanted = b"search 1 version 1 lines %d\n%s" % (len(lines), b"".join(lines))
    script = b"put b %d\n%s\npublish\n%s\n" % (len(LARGE), LARGE, search)
    _, count = outcome_of_a_search(library, script, wanted, 0)
    return list(pool.map(lambda refused: outcome_of_a_search(library, script, wanted, refused)[0], range(1, count + 2)))


def runs_of_no_room(folder):
    """For each run: its name, its script and words, how many large requests are refused, and what must come of it: the
    status, the text and the messages."""
    path = os.path.join(folder, "long")
    with open(path, "wb") as file:
        file.write(LONG)
    loads = b"put a 3\nold\npublish\nload a %s\npublish\nsearch old\n" % os.fsencode(path)
    no_room_once, no_room = NO_ROOM + OLD_LEFT + NEW_LAST + BAD_LINE, NO_ROOM + OLD_LEFT + NO_ROOM_AGAIN + NOTHING_NEW + BAD_LINE
    for words in SESSION, READING:
        yield "long puts", LONG_PUTS, words, 1, (2, no_room_once, b"")
        yield "long puts", LONG_PUTS, words, EVERY, (2, no_room, b"")
        yield "a long line", LONG_LINE, words, EVERY, (2, OLD_LEFT, NO_MEMORY)
    for words in NO_READERS, TWO_READERS:
        yield "a long script", LONG_PUTS, words, EVERY, (2, b"", NO_MEMORY)
    for words in NO_READERS, TWO_READERS, SESSION, READING:
        yield "a long load", loads, words, EVERY, (2, NO_ROOM + OLD_LEFT, b"")
        yield "many hits", MANY_HITS, words, EVERY, (2, FEW_FIRST + SECOND_REFUSED + THIRD_REFUSED + FEW_LAST, b"")
    # the reader that is refused, here the text of the first lines, leaves its search to reader 0, which needs no large request
    yield "a wide answer", WIDE_ANSWER, READING, EVERY, (0, OLD_LEFT + WIDE_TEXT + b"search 3 version 61 lines 1\na:1:old\n", b"")
    for words in TWO_READERS, READING:
        yield "many hits", MANY_HITS, words, 1, (0, FEW_FIRST + SECOND + THIRD + FEW_LAST, b"")


def fault_of_no_room(library, name, script, words, refused, wanted):
    """What is wrong with a run with no room, or None."""
    *done, count = run(library, script, words, refused, LARGE_REQUEST)
    what = "%s with %s and %d large requests refused" % (name, " ".join(words), refused)
    if count == 0:
        return "%s: there is no large request" % what
    return None if tuple(done) == wanted else "%s: %s, and should be %s" % (what, str(done)[:1000], str(wanted)[:1000])


def main():
    need_program()
    counted = Counted()
    with tempfile.TemporaryDirectory() as folder, concurrent.futures.ThreadPoolExecutor(os.cpu_count()) as pool:
        library = counting.build(folder)
        for script, (words, times) in itertools.product(SCRIPTS, TIMES):
            seen = [it for _ in range(times) for it in each_request(pool, library, script, words)]
            outcomes = collections.Counter(what for what, _ in seen)
            print("%s: %s" % (" ".join(words), ", ".join("%s %d" % pair for pair in sorted(outcomes.items()))))
            counted.judge(fault for _, fault in seen)
        for search, (wanted, least) in SEARCHES.items():
            seen = each_request_of_a_search(pool, library, search)
            length, what = max((len(list(group)), what) for what, group in itertools.groupby(seen))
            print("%s: %s, %d of them in a row" % (search.decode(), wanted, length))
            counted.judge("%s: a wrong outcome" % search.decode() if it == "wrong" else None for it in seen)
            short = what != wanted or length < least
            counted.judge(["%s: %d times %s in a row" % (search.decode(), length, what) if short else None])
        counted.judge(pool.map(lambda case: fault_of_no_room(library, *case), runs_of_no_room(folder)))
    counted.end()


if __name__ == "__main__":
    main()
