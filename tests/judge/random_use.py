#!/usr/bin/env python3
"""Random use at length: judges what the built program makes of random scripts, until a million searches are judged.

The scripts have every item and option (random_scripts.py). Each is run, sent to a session at once or in parts with pauses, and sent to
one that waits for its answers again and again, each with another number of readers; some runs and sessions read a file. Those with
little memory are run, and sent, in so little address space that it is used up somewhere: then a refusal for memory is legal, and a wrong
or a lost answer is not. Every text is judged by transcripts.py. What is seen is counted: searches by what becomes of them and by their
options, items that are accepted, and refusals by their reasons. Of each kind there must be so many at least. In some legal texts wrong
answers are planted, each wrong in one thing, and the judge must refuse them. As many scripts are tried at once as there are processors.

Usage: tests/judge/random_use.py [--searches N] [--seed N] [--only K]   The last line counts: N passed, M failed. N is how many searches
are judged at least. A fault names the number of its script: --only K tries that one alone, and shows it with each fault.
"""

import argparse
import collections
import concurrent.futures
import os
import pathlib
import random
import re
import resource
import subprocess
import sys
import tempfile
import threading
import time

sys.path.insert(0, str(pathlib.Path(__file__).resolve().parent.parent))

from built import PROGRAM, need_program  # noqa: E402
from counted import Counted, Wrong  # noqa: E402
from judge import random_scripts, searches, transcripts  # noqa: E402
from judge.changed_scripts import is_legal  # noqa: E402

SEARCHES, SECONDS, SECONDS_OF_PROGRESS = 1_000_000, 300, 30
NO_MEMORY = b"tsearch: out of memory\n"
# How many KB are tried until the program answers a search, and how many more it has then at least. Others are for the stack of each reader,
# and for each document with many trigrams. Each way of such a script is tried with several limits.
TRIED, MORE, STACK, OF_A_DOCUMENT, LIMITS_OF_A_WAY = range(4_000, 40_000, 200), 500, 2_100, 3, 3
A_SEARCH, ANSWERED = b"put a 1\nx\npublish\nsearch x\n", b"search 1 version 1 lines 1\na:1:x\n"
# An answer is long if it has so many rows.
LONG_ANSWER = 1_000
# Wrong answers are planted in the texts of scripts with a few items, and in one of so many others, unless they are longer than that.
ONE_IN, MOST_BYTES, ANSWERS_OF_A_TEXT = 15, 200_000, 3
# A fault is shown with so many characters.
MOST_SHOWN = 2_000
# Each kind that must be seen is seen at least once in so many searches; fewer ask for none.
SEARCHES_OF_A_KIND = 20_000

ACCEPTED = "put load remove removeunder copyunder publish sync status cancel".split()
# The reasons of docs/SCRIPT.md and docs/PATTERNS.md: for which lines are refused, and searches.
OF_LINES = ["bad put", "truncated", "body not closed", "bad line", "name empty", "name too long", "bad byte in name", "cannot load", "body too long", "byte 0 in body"]
OF_LINES += ["line too long", "no such file", "no such search", "full", "out of memory"]
OF_PATTERNS = ["bad byte", "bad escape", "bad interval", "bad range", "bracket not closed", "group not closed", "nothing to repeat", "pattern too long", "unknown class"]
OF_PATTERNS += ["too deep (over 64 levels)", "too large (over 4096 leaves)", "name pattern"]
OF_FINDS = ["bad option", "option twice", "option -n over 16 times", "option --not-under over 4096 times", "option -m needs a number from 1 to 4294967295"]
OF_FINDS += ["option -C needs a number from 0 to 1000", "option --lane needs a word of 1 to 64 bytes", "option --under needs a word of 1 byte or more"]
OF_FINDS += ["options exclude each other", "no -- before the pattern"]
OF_SEARCHES = ["cancelled", "too slow", "out of memory", *OF_PATTERNS, *OF_FINDS]
ANSWERS = ["lines", f"{LONG_ANSWER} rows or more", "more lines than are shown", "candidates", "times"]
INPUTS = ["of runs", "of sessions", "in a file"]
PLANTED = ["a row left out", "a row with another text", "an older version", "rows of an older version", "one of two names left out", "an entry left out"]
PLANTED += ["an entry twice", "an answer behind a sync", "an answer after its cancel", "a cancel of none", "a status off by one", "another reason"]
PLANTED += ["more candidates than documents"]
WANTED = [("scripts with", kind) for kind in random_scripts.KINDS]
WANTED += [("accepted", kind) for kind in ACCEPTED] + [("lines refused", reason) for reason in OF_LINES] + [("searches refused", reason) for reason in OF_SEARCHES]
WANTED += [("answers with", what) for what in ANSWERS] + [("found lines by", option.decode()) for option in [*searches.OPTIONS, *searches.OTHERS]]
WANTED += [("searches of", where) for where in ("runs", "sessions", "little memory")] + [("input", what) for what in INPUTS]
WANTED += [("planted and found", what) for what in PLANTED]
WANTED += [("ended", "as out of memory"), ("statuses", "with open searches")]

FOLDER = None


def make_folder():
    """Makes a folder for this process, with the files that are loaded."""
    global FOLDER
    FOLDER = tempfile.TemporaryDirectory()
    random_scripts.write_files(os.fsencode(FOLDER.name))


def least_memory():
    """In how many KB the program answers a search."""
    for kilobytes in TRIED:
        if talk([], [(A_SEARCH, 0)], kilobytes)[:2] == (0, ANSWERED):
            return kilobytes
    raise Wrong(f"the program answers no search in {TRIED.stop} KB")


def limit_memory(kilobytes):
    resource.setrlimit(resource.RLIMIT_CORE, (0, 0))
    resource.setrlimit(resource.RLIMIT_STACK, (2_048 << 10,) * 2)
    resource.setrlimit(resource.RLIMIT_AS, (kilobytes << 10,) * 2)


def talk(words, parts, kilobytes=None):
    """The status, the text and the messages of a program that is sent these parts. A part is bytes, and a mark that the text has when the
    next may be sent, or how many seconds to wait before it."""
    text, changed, is_open, seen = bytearray(), threading.Condition(), True, 0

    def has(mark):
        nonlocal seen
        seen, before = len(text), seen
        return not is_open or text.find(mark, max(before - len(mark), 0)) >= 0

    limit = (lambda: limit_memory(kilobytes)) if kilobytes else None
    environment = {**os.environ, "MALLOC_ARENA_MAX": "1"} if kilobytes else None

    def send():
        try:
            for part, mark in parts:
                program.stdin.write(part)
                program.stdin.flush()
                if isinstance(mark, bytes):
                    with changed:
                        changed.wait_for(lambda: has(mark))
                elif mark:
                    time.sleep(mark)
            program.stdin.close()
        except OSError:
            pass  # it has ended

    with tempfile.TemporaryFile() as messages:
        how = {"stderr": messages, "cwd": FOLDER.name, "preexec_fn": limit, "env": environment}
        program = subprocess.Popen([PROGRAM, *words], stdin=subprocess.PIPE, stdout=subprocess.PIPE, **how)
        ends, sender = threading.Timer(SECONDS, program.kill), threading.Thread(target=send)
        ends.start()
        sender.start()
        while chunk := program.stdout.read1():
            with changed:
                text += chunk
                changed.notify()
        with changed:
            is_open = False
            changed.notify()
        sender.join()
        status = program.wait()
        ends.cancel()
        program.stdout.close()
        try:
            program.stdin.close()
        except OSError:
            pass
        messages.seek(0)
        return status, bytes(text), messages.read()


def cut_anywhere(chance, script):
    """A script in a few parts, with short pauses behind them."""
    places = sorted(chance.randrange(len(script) + 1) for _ in range(chance.choice([0, 0, 1, 3, 10])))
    return [(script[start:end], chance.choice([0, 0, 0.001, 0.003])) for start, end in zip([0, *places], [*places, len(script)])]


def with_waits(chance, items, last):
    """The parts of a session that waits: behind some items until all searches are answered, which a status shows, and mostly no longer."""
    parts, part, line = [], b"", 1
    for item in items:
        part += item
        if chance.randrange(12) == 0:
            part += b"sync\nstatus\n"
            line += part.count(b"\n")
            parts += [(part, b"line %d status " % (line - 1)), (b"", chance.choice([0, 0, 0.01]))]
            part = b""
    return [*parts, (part + last, 0)]


class Way:
    """A way in which a script is tried: the words of the call, the script and its parts, and how the text is judged."""

    def __init__(self, options, readers, parts, is_session, is_file=False, kilobytes=None):
        self.script, self.parts, self.is_file, self.kilobytes = b"".join(part for part, _ in parts), parts, is_file, kilobytes
        self.words = ["--readers", str(readers), *["--live"] * is_session, *random_scripts.words_of(options), *["script"] * is_file]
        self.how = {name: value for name, value in options.items() if name != "search_ms"}
        self.how.update(readers=readers, session=is_session, timed=options.get("search_ms") == random_scripts.SEARCH_MS[0])
        self.how.update(files=random_scripts.LOADED, scarce=bool(kilobytes))

    def shown(self):
        return " ".join(self.words) + (f" in {self.kilobytes} KB" if self.kilobytes else "")


def ways_of(chance, kind, start):
    """The ways to try a new script. The program starts in so many KB."""
    items, last = random_scripts.Maker(chance, kind).items()
    script, options = b"".join(items) + last, random_scripts.random_options(chance, kind)
    for number in range(LIMITS_OF_A_WAY if kind == "little memory" else 1):
        readers = chance.sample(random_scripts.READERS, 3)
        limits = [start + MORE + chance.randrange(len(items) * OF_A_DOCUMENT + STACK * few) if kind == "little memory" else None for few in readers]
        yield Way(options, readers[0], [(script, 0)], False, chance.randrange(4) == 0, limits[0])
        yield Way(options, readers[1], cut_anywhere(chance, script), True, chance.randrange(4) == 0, limits[1])
        yield Way(options, readers[2], with_waits(chance, items, last), True, False, limits[2])


def reason_of(reason):
    """What is counted for a reason: one word for all numbers, options and patterns."""
    reason = re.sub(r" at \d+$", "", reason)
    reason = re.sub(r"^name pattern( \d+)?: .*", r"name pattern", reason)
    reason = re.sub(r"^bad option .*", "bad option", reason, flags=re.DOTALL)
    reason = re.sub(r"^option (\S+) twice", "option twice", reason)
    return re.sub(r"^-\S+ and -\S+ exclude", "options exclude", reason)


class Seen:
    """What is counted in legal texts, by what it is and its kind."""

    def __init__(self):
        self.counts = collections.Counter()

    def notes(self, what, kind, count=1):
        self.counts[what, kind] += count

    def takes(self, items, entries, how):
        lines = {item.number: item.words["line"] for item in items if item.is_search()}
        refused, where = refused_lines(entries), "little memory" if how["scarce"] else "sessions" if how["session"] else "runs"
        self.notes("searches of", where, len(lines))
        for entry in entries:
            if entry.version is not None:
                self.answer(entry, lines[entry.number])
            elif entry.reason is not None:
                self.notes("searches refused" if entry.what == "search" else "lines refused", reason_of(entry.reason))
            else:
                self.notes("statuses", "with open searches", not entry.text.endswith(b" open 0\n"))
        for item in items:
            if not item.is_search() and item.number not in refused:
                self.notes("accepted", item.kind)

    def answer(self, entry, line):
        head = transcripts.HEAD.match(entry.text)
        shown = [int(head[3]) > 0, entry.text.count(b"\n") > LONG_ANSWER, b" and more" in head[0], head[5] is not None, head[8] is not None]
        for what, is_shown in zip(ANSWERS, shown):
            self.notes("answers with", what, is_shown)
        word = line.split(b" ", 1)[0]
        for option in {option for option, _ in searches.said(line)[0]} if word == b"find" else [word]:
            self.notes("found lines by", option.decode(), int(head[3]) > 0)


def refused_lines(entries):
    """The numbers of the lines that are refused."""
    return {entry.number for entry in entries if entry.what == "line" and entry.reason}


def run_of(items, entries, how):
    """What a run or a session of these items accepted and published."""
    run, refused = transcripts.Run(how["files"], how["max_commands"], False, False, how.get("lengths", transcripts.USUAL)), refused_lines(entries)
    for place, item in enumerate(items):
        if not item.is_search() and item.number not in refused:
            run.reasons(item)  # which reads the body of a load
            run.carry_out(place, item)
    return run


def written(head, version, answer):
    """The text of an answer at a version in the place of one with this header."""
    return b"search %s version %d %s%s%s\n%s" % (head[1], version, answer[0], head[5] or b"", head[8] or b"", answer[1])


def wrong_answers(chance, item, entry, run, least):
    """What may not be in the place of an answer, by what is wrong with it. `least` is the version that it may have at least."""
    head, rows, search = transcripts.HEAD.match(entry.text), entry.text.splitlines(keepends=True)[1:], searches.read(item.words["line"])
    documents, right = run.states[entry.version], run.answer(item.words["line"], entry.version)
    if rows:
        at = chance.randrange(len(rows))
        found = re.sub(rb"\d+(?!.*\d)", lambda count: b"%d" % (int(count[0]) - 1), right[0])
        yield "a row left out", written(head, entry.version, (found, b"".join(rows[:at] + rows[at + 1 :])))
        yield "a row with another text", written(head, entry.version, (right[0], b"".join([*rows[:at], rows[at][:-1] + b"~\n", *rows[at + 1 :]])))
    if least:
        older = max((version for _, version in run.published if version < least), default=0)
        answer = run.answer(item.words["line"], older)
        yield "an older version", written(head, older, answer)
        if answer != right:
            yield "rows of an older version", written(head, entry.version, answer)
    names = collections.defaultdict(list)
    for name in search.hits(documents):
        names[documents[name]].append(name)
    for name in [chance.choice(same) for same in names.values() if len(same) > 1][:1]:
        answer = search.answer({other: body for other, body in documents.items() if other != name})
        if answer != right:
            yield "one of two names left out", written(head, entry.version, answer)
    if head[5]:
        counted = head[0].replace(head[5], b" candidates %d of %d" % (len(documents) + 1, len(documents)))
        yield "more candidates than documents", counted + b"".join(rows)


def wrong_texts(chance, items, entries, run):
    """Texts that are not legal since this one is, by what is wrong with them."""

    def changed(at, *texts):
        return b"".join([*(entry.text for entry in entries[:at]), *texts, *(entry.text for entry in entries[at + 1 :])])

    places = {("search" if item.is_search() else "line", item.number): place for place, item in enumerate(items)}
    answers = [at for at, entry in enumerate(entries) if entry.version is not None]
    for at in chance.sample(answers, min(len(answers), ANSWERS_OF_A_TEXT)):
        entry, place = entries[at], places["search", entries[at].number]
        for what, text in wrong_answers(chance, items[place], entry, run, run.last_published(place)):
            yield what, changed(at, text)
        if not any(item.cancels(entry.number) for item in items):
            yield "a cancel of none", changed(at, b"search %d refused: cancelled\n" % entry.number)
        sync = next((other for other in range(place, len(items)) if items[other].kind == "sync"), len(items))
        behind = [other for other in range(at + 1, len(entries)) if places[entries[other][:2]] > sync]
        if behind:
            order = [*entries[:at], *entries[at + 1 : behind[0] + 1], entry, *entries[behind[0] + 1 :]]
            yield "an answer behind a sync", b"".join(one.text for one in order)
    for at in chance.sample(range(len(entries)), min(len(entries), 1)):
        yield "an entry left out", changed(at)
        yield "an entry twice", changed(at, entries[at].text, entries[at].text)
    cancelled = [at for at, entry in enumerate(entries) if entry.reason == "cancelled"]
    for at in cancelled[:1]:
        entry, place = entries[at], places["search", entries[at].number]
        version = run.last_published(place)
        answer = b"search %d version %d %s\n%s" % (entry.number, version, *run.answer(items[place].words["line"], version))
        yield "an answer after its cancel", changed(at, entry.text, answer)
    statuses = [at for at, entry in enumerate(entries) if entry.reason is None and entry.version is None]
    for at in statuses[:1]:
        numbers = list(re.finditer(rb"\d+", entries[at].text))[:6]
        number, text = chance.choice(numbers), entries[at].text
        yield "a status off by one", changed(at, text[: number.start()] + b"%d" % (int(number[0]) + 1) + text[number.end() :])
    refused = [at for at, entry in enumerate(entries) if entry.reason and entry.reason not in transcripts.GIVEN_UP]
    for at in refused[:1]:
        reason = b"bad line" if entries[at].reason != "bad line" else b"bad put"
        yield "another reason", changed(at, b"%s %d refused: %s\n" % (entries[at].what.encode(), entries[at].number, reason))


def without_cut(text, items):
    """A text without the entry at its end that is cut, and whether there may be one such."""
    length = 0
    try:
        for entry in transcripts.each_entry(text, items):
            length += len(entry.text)
    except transcripts.Illegal:
        rest = text[length:]
        return text[:length], not (b"\n" in rest and not transcripts.HEAD.match(rest))
    return text, True


def fault_of(way, chance, seen, is_planted):
    """What is wrong with what the program writes, or None. Wrong answers are planted in it if it `is_planted`, which the judge must find."""
    if way.is_file:
        pathlib.Path(FOLDER.name, "script").write_bytes(way.script)
    status, text, messages = talk(way.words, [] if way.is_file else way.parts, way.kilobytes)
    seen.notes("input", INPUTS[way.how["session"]])
    seen.notes("input", INPUTS[2], way.is_file)
    if status == -9:
        return f"did not end in {SECONDS} seconds"
    if way.kilobytes and (status, messages) == (2, NO_MEMORY):
        seen.notes("ended", "as out of memory")
        if not way.how["session"]:
            return None
        text, is_so = without_cut(text, transcripts.items_of(way.script))
        fault = transcripts.fault_of(way.script, text, status, whole=False, **way.how)
        return fault or (None if is_so else "a text is cut that is none")
    if messages:
        return f"status {status}, {messages!r}"
    fault = transcripts.fault_of(way.script, text, status, **way.how)
    if fault:
        return fault
    items = transcripts.items_of(way.script)
    entries = transcripts.entries_of(text, items)
    seen.takes(items, entries, way.how)
    if is_planted and not way.kilobytes and len(text) <= MOST_BYTES:
        for what, wrong in wrong_texts(chance, items, entries, run_of(items, entries, way.how)):
            if is_legal(way.script, wrong, **way.how):
                return f"the judge takes a text with {what}: {wrong!r} of {way.script!r}"
            seen.notes("planted and found", what)
    return None


def tried(seed, number, start, is_shown):
    """What is wrong with the ways of a script, which is shown with it or not, how many texts are judged, and what is seen."""
    chance, seen, faults, texts = random.Random(f"{seed} {number}"), Seen(), [], 0
    kind = random_scripts.random_kind(chance, number)
    seen.notes("scripts with", kind)
    for way in ways_of(chance, kind, start):
        texts += 1
        try:
            fault = fault_of(way, chance, seen, kind == "a few items" or chance.randrange(ONE_IN) == 0)
        except (searches.Refused, AttributeError, LookupError, OSError, TypeError, ValueError) as wrong:
            fault = repr(wrong)
        if fault:
            shown = f"{fault}: {way.script!r}" if is_shown else fault[:MOST_SHOWN]
            faults.append(f"script {number}, {kind}, with {way.shown()}: {shown}")
    return faults, texts, seen.counts


def judged(counts):
    """How many searches are judged."""
    return sum(count for (what, _), count in counts.items() if what == "searches of")


def show(counts, took):
    """Writes what is seen, and how long it took."""
    print("scripts: %d" % sum(count for (what, _), count in counts.items() if what == "scripts with"))
    for what in dict.fromkeys(what for what, _ in WANTED):
        kinds = sorted(kind for other, kind in counts if other == what)
        print("%s: %s" % (what, ", ".join("%s %d" % (kind, counts[what, kind]) for kind in kinds)))
    print("%d searches are judged in %d seconds, %d a second" % (judged(counts), took, judged(counts) / took))


def main():
    words = argparse.ArgumentParser(description="Judges random use of the program.")
    words.add_argument("--searches", type=int, default=SEARCHES)
    words.add_argument("--seed", type=int, default=1)
    words.add_argument("--only", type=int)
    given = words.parse_args()
    need_program()
    counted, counts, began, shown = Counted(), collections.Counter(), time.monotonic(), 0
    with concurrent.futures.ProcessPoolExecutor(os.cpu_count(), initializer=make_folder) as pool:
        how = pool.submit(least_memory).result(), given.only is not None
        numbers = iter([given.only]) if given.only is not None else iter(range(10**9))
        jobs = {pool.submit(tried, given.seed, number, *how) for _, number in zip(range(4 * os.cpu_count()), numbers)}
        while jobs:
            done, jobs = concurrent.futures.wait(jobs, return_when=concurrent.futures.FIRST_COMPLETED)
            for job in done:
                faults, texts, seen = job.result()
                counts.update(seen)
                counted.judge(faults)
                counted.passes(texts - len(faults))
                if judged(counts) < given.searches and (number := next(numbers, None)) is not None:
                    jobs.add(pool.submit(tried, given.seed, number, *how))
            took = time.monotonic() - began
            if took > shown + SECONDS_OF_PROGRESS:
                shown = took
                print("%d of %d searches judged in %d s" % (judged(counts), given.searches, took), flush=True)
    show(counts, took)
    if given.only is None:
        least = judged(counts) // SEARCHES_OF_A_KIND
        counted.judge(None if counts[kind] >= least else "%s %s: %d, and should be %d or more" % (*kind, counts[kind], least) for kind in WANTED)
    counted.end()


if __name__ == "__main__":
    main()
