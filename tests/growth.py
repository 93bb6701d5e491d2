#!/usr/bin/env python3
"""Compares the work and the memory of N and of 4N items, documents, lines and the like, and counts what must be done once.

Work is counted in instructions, by `valgrind --tool=cachegrind`, and memory in requests, in the bytes that they ask for, in the most that
is in use at once, and in what is in use when the last text is written. A library of a few lines, which the command cc builds and which is
loaded before the C library, counts these. Runs have one thread, so every count is the same each time; where threads are counted, or what is
in use beside them, the count or its bound does not depend on which of them goes first.

GROWTHS has what may grow. Each row is run with N and with 4N, and what the rest of the script takes by itself is taken off. What is left
may grow to 4.8 times, or to what the row says: work that is quadratic grows to 16 times. CHECKS has exact counts: how often a body is
copied, a document analysed, a pattern compiled, a line matched and a text written, and how many threads are started. As many runs go on at
once as there are processors.

Usage: tests/growth.py [--show] [NAME..]   The last line counts: N passed, M failed. --show prints all counts.
"""

import collections
import concurrent.futures
import functools
import os
import pathlib
import random
import re
import subprocess
import sys
import tempfile
import time

from built import PROGRAM, TOP, need_program, own_body, put
from counted import Counted, Wrong
from lines import FOR_THE_SIMULATION
from live import Session
from sessions.slow_searches import SLOW, slow_body

SECONDS = 300
SCRIPT, SESSION = "script", "session"
# These have threads, which only CHECKS count.
SCRIPT_BESIDE, SESSION_BESIDE = "script with two readers", "session with two readers"
# It has one reader, and this one takes one command and refuses more.
SCRIPT_OF_ONE, SESSION_OF_ONE = "script with one reader", "session for one command"
SESSION_OF_ONE_READER, SESSION_IN_TIME = "session with one reader", "session with a limit of time"
SESSION_OF_LONG_LINES = "session with long lines"
WORDS = {
    SCRIPT: ["--readers", "0", "--max-commands", "1000000"],
    SESSION: ["--live", "--readers", "0"],
    SCRIPT_BESIDE: ["--readers", "2"],
    SESSION_BESIDE: ["--live", "--readers", "2"],
    SCRIPT_OF_ONE: ["--readers", "1"],
    SESSION_OF_ONE: ["--live", "--readers", "0", "--max-commands", "1"],
    SESSION_OF_ONE_READER: ["--live", "--readers", "1"],
    SESSION_OF_LONG_LINES: ["--live", "--readers", "0", "--max-body", "67108864", "--max-line", "67108864"],
    SESSION_IN_TIME: ["--live", "--readers", "1", "--search-ms", "4294967295"],
}
BOTH = (SCRIPT, SESSION)
PER_THREAD = ["valgrind", "--tool=callgrind", "--separate-threads=yes"]
MOST = 4.8
# What grows with a logarithm, or not at all.
LEVEL = 2
# What is counted, and how much of it is so little that it does not matter how it grew.
COUNTS = [("instructions", 200_000), ("requests for memory", 100), ("bytes requested", 65_536), ("bytes in use at once", 65_536)]

COUNTING = r"""
#define _GNU_SOURCE
#include <dlfcn.h>
#include <errno.h>
#include <malloc.h>
#include <pthread.h>
#include <stdatomic.h>
#include <stddef.h>
#include <stdio.h>
#include <stdlib.h>
#include <sys/syscall.h>
#include <time.h>
#include <unistd.h>
extern void *__libc_malloc(size_t), *__libc_realloc(void *, size_t);
extern void __libc_free(void *);
static _Atomic long requests, bytes, large, reads, writes, threads, looks, used, most, held, least;
static void count(size_t size) {
    if (!least) least = getenv("LEAST") ? atol(getenv("LEAST")) : -1;
    requests++;
    bytes += size;
    if (least > 0 && size >= (size_t)least) large++;
}
static void uses(long more) {
    long now = (used += more), seen = most;
    while (now > seen && !atomic_compare_exchange_weak(&most, &seen, now)) {}
}
void *malloc(size_t size) {
    count(size);
    void *made = __libc_malloc(size);
    if (made) uses(malloc_usable_size(made));
    return made;
}
void *realloc(void *old, size_t size) {
    count(size);
    long before = old ? malloc_usable_size(old) : 0;
    void *made = __libc_realloc(old, size);
    if (made) uses((long)malloc_usable_size(made) - before);
    return made;
}
void free(void *old) {
    if (old) used -= malloc_usable_size(old);
    __libc_free(old);
}
ssize_t write(int file, const void *from, size_t size) {
    if (file == 1) { writes++; held = used; }
    return syscall(SYS_write, file, from, size);
}
ssize_t read(int file, void *to, size_t size) {
    if (file == 0) reads++;
    return syscall(SYS_read, file, to, size);
}
int pthread_create(pthread_t *thread, const pthread_attr_t *how, void *(*run)(void *), void *with) {
    static int (*create)(pthread_t *, const pthread_attr_t *, void *(*)(void *), void *);
    if (!create) create = dlsym(RTLD_NEXT, "pthread_create");
    threads++;
    return create(thread, how, run, with);
}
int clock_gettime(clockid_t which, struct timespec *time) {
    long status = syscall(SYS_clock_gettime, which, time);
    long look = looks++;
    if (getenv("BROKEN")) return errno = EINVAL, -1;
    if (look && getenv("JUMP")) time->tv_sec += atol(getenv("JUMP"));
    if (getenv("STEP")) time->tv_sec += look * atol(getenv("STEP"));
    return status;
}
__attribute__((destructor)) static void tell(void) {
    dprintf(2, "counts %ld %ld %ld %ld %ld %ld %ld %ld %ld\n", requests, bytes, most, held, large, reads, writes, threads, looks);
}
void _exit(int status) { tell(); syscall(SYS_exit_group, status); __builtin_unreachable(); }
"""


# What a run has taken: the requests for memory and their bytes, the most bytes in use at once, those in use when the last text was
# written, the requests of at least so many bytes, how often the input was read and text was written, how many threads were started, how
# often the clock was looked at, and the text.
Memory = collections.namedtuple("Memory", "requests bytes most held large reads writes threads looks text")


class Runs:
    """Runs of the program with counts. No run is made twice."""

    def __init__(self, folder):
        self.folder = pathlib.Path(folder)
        library = self.folder / "counting.so"
        subprocess.run(["cc", "-O2", "-shared", "-fPIC", "-x", "c", "-", "-o", library], input=COUNTING, text=True, check=True)
        self.library = library
        self.instructions = functools.lru_cache(None)(self.count_instructions)
        self.memory = functools.lru_cache(None)(self.count_memory)

    def run(self, command, script, env=None):
        """Runs a command over a script, and returns what it writes to standard error and to standard output."""
        with tempfile.TemporaryFile(dir=self.folder) as file, tempfile.TemporaryFile(dir=self.folder) as text:
            file.write(script)
            file.seek(0)
            done = subprocess.run(command, cwd=TOP, stdin=file, stdout=text, stderr=subprocess.PIPE, env=env, check=False, timeout=SECONDS)
            text.seek(0)
            messages, written = done.stderr.decode(), text.read()
        if done.returncode not in (0, 1, 2) or "tsearch: " in messages or b"out of memory" in written:
            raise Wrong(f"{command} ends with status {done.returncode}, {messages[-300:]!r}")
        return messages, written

    def count_instructions(self, way, script):
        """How many instructions a run executes. The C library keeps no small pieces of memory aside: it joins them at some later request,
        which then takes as long as there are many, and would be counted for what comes then."""
        tool = ["valgrind", "--tool=cachegrind", "--cache-sim=no", "--cachegrind-out-file=/dev/null"]
        env = dict(os.environ, GLIBC_TUNABLES="glibc.malloc.mxfast=0")
        messages, _ = self.run([*tool, str(PROGRAM), *WORDS[way]], script, env)
        return int(re.search(r"I +refs: +([\d,]+)", messages)[1].replace(",", ""))

    def instructions_of_threads(self, way, script):
        """How many instructions each thread of a run executes, but for the first one, which takes the items."""
        return self.instructions_of_all_threads(way, script)[1:]

    def instructions_of_all_threads(self, way, script):
        """The same, with the first one."""
        return self.instructions_by_thread(way, lambda command: self.run(command, script))

    def instructions_by_thread(self, way, run):
        """The same of a program that `run` runs by a command."""
        with tempfile.TemporaryDirectory(dir=self.folder) as folder:
            out = pathlib.Path(folder) / "out"
            run([*PER_THREAD, f"--callgrind-out-file={out}", str(PROGRAM), *WORDS[way]])
            texts = [path.read_text(errors="replace") for path in sorted(out.parent.glob("out-*"))]
        return [int(re.search(r"^totals: (\d+)", text, re.MULTILINE)[1]) for text in texts]

    def instructions_of_a_talk(self, way, script, rounds):
        """How many instructions the thread that takes the items executes if a client sends a script, and then so many lines of no known
        form, each a while after the one before is refused. A thread that waits looks again some times before it sleeps; if the next line
        came meanwhile, the count would be of chance."""

        def talk(command):
            with Session(program=command) as session:
                session.send(script)
                for number in range(rounds):
                    session.ask(b"what\n", b"line %d refused: bad line\n" % (script.count(b"\n") + 1 + number))
                    time.sleep(0.02)
                session.process.stdin.close()
                session.process.wait(SECONDS)

        return self.instructions_by_thread(way, talk)[0]

    def counted(self, words, script, **more):
        """What the library counts of a run, with more words in its environment."""
        env = dict(os.environ, LD_PRELOAD=str(self.library), **more)
        messages, text = self.run([str(PROGRAM), *words], script, env)
        return Memory(*map(int, re.search(r"counts ([\d ]+)", messages)[1].split()), text)

    def with_a_clock(self, words, script, **clock):
        """The counts of a run whose clock goes on by JUMP seconds right after it is first read, or by STEP seconds each time that it is
        read, or can never be read if BROKEN is given."""
        return self.counted(words, script, **clock)

    def count_memory(self, way, script, least=0):
        """What memory a run takes, and how often it writes."""
        return self.counted(WORDS[way], script, LEAST=str(least))


def each(text, count, first=0):
    """A text for each number; its `#` is the number."""
    return b"".join(text.replace(b"#", b"%d" % number) for number in range(first, first + count))


def documents(count):
    """Documents with the same trigrams, but for every sixteenth part, which has others, and for four that have some of their own. Each has
    a body of its own."""
    bodies = [b"one abcd two defg", b"one abcd two defg three hijk"]
    made = [put(b"f%d" % number, own_body(bodies[number % 16 == 0], number)) for number in range(count)]
    for at in range(4):
        number = count * at // 4
        made[number] = put(b"f%d" % number, own_body(b"one abcd two defg four uvwxyz", number))
    return b"".join(made)


SMALL = put(b"a", b"hello world") + b"publish\n"
# The options of each view but that of lines alone.
VIEWS = [b"-C 0", b"-C 1", b"--column", b"--spans", b"-l", b"-c", b"-q"]


# Stars inside stars: columns and spans of these patterns go by the simulation. The first of them is in no line below.
STARS, STARS_OR_X, EMPTY_STARS = b"((a*b)*c)*d", b"((a*b)*c)*d|x", b"((a*b)*c)*"
# The same for whole lines: each word begins at the line's start.
STARS_AT_THE_START = b"^b[acegikmoqsuwyACEGIKMOQSUWY]{80}((c*d)*e)*f"


def published(count):
    """Documents in both copies of the index, with nothing pending."""
    return documents(count) + b"publish\n" * 3


# What may grow: functions of N that give a script that is not counted, and one that takes more.


def after(first, second):
    """For what comes after a script."""
    return first, first + second


def new_documents(n):
    return after(b"", documents(n) + b"publish\n")


def new_documents_that_are_filled_together(n):
    """Together they have over a MiB, so they are put into the sets of their trigrams at one go, and each number comes to the end of
    long lists."""
    text = b"".join(b"%d\n" % number for number in range(1_000, 1_400))
    return after(b"", b"".join(put(b"f%d" % number, own_body(text, number)) for number in range(n)) + b"publish\n")


def documents_beside_one_that_is_filled(n):
    """What comes has over a MiB, so it is put into the sets of its trigrams at one go. Those of the documents that were there stay."""
    text = text_of_many_trigrams(40)
    there = b"".join(put(b"f%d" % number, own_body(text, number)) for number in range(n))
    large = b"".join(put(b"g%d" % number, own_body(b"some text\n" * 55_000, number)) for number in range(2))
    return after(there + b"publish\n" * 3, large + b"publish\n")


def documents_in_both_copies(n):
    return after(b"", documents(n) + b"publish\n" * 3 + b"search x\n")


def replacements_of_a_document(n):
    return after(SMALL, each(b"put a 11\nhello world\n", n) + b"publish\n")


def replacements_that_are_published(n):
    return after(SMALL, each(b"put a 11\nhello world\npublish\n", n))


def names_of_one_body(n):
    """The index keeps the body once."""
    return after(b"", b"".join(put(b"f%d" % number, b"one abcd two defg") for number in range(n)) + b"publish\n" * 3)


def removes_of_names_of_one_body(n):
    """The body goes with its last name."""
    puts = b"".join(put(b"f%d" % number, b"one abcd two defg") for number in range(n)) + b"publish\n" * 3
    return after(puts, b"".join(b"remove f%d\n" % number for number in range(n)) + b"publish\n")


def second_names_for_a_while(n):
    """Each body is that of one document, then of two, and then of one again."""
    copies = b"".join(put(b"copy%d" % number, b"text %d" % number) for number in range(n)) + b"publish\n"
    texts = b"".join(put(b"f%d" % number, b"text %d" % number) for number in range(n)) + b"publish\n" * 3
    return after(texts, copies + b"".join(b"remove copy%d\n" % number for number in range(n)) + b"publish\n")


def older_documents_that_get_one_body(n):
    """Each is older than those that have the body already, whose names are many."""
    older = b"".join(put(b"f%d" % number, b"text %d" % number) for number in range(n))
    others = b"".join(put(b"g%d" % number, b"one abcd two defg") for number in range(n))
    puts = b"".join(put(b"f%d" % number, b"one abcd two defg") for number in reversed(range(n)))
    return after(older + others + b"publish\n" * 3, puts + b"publish\n" * 3)


def loads_of_a_file(n):
    return after(SMALL, b"load a examples/tree/README\n" * n + b"publish\n")


def loads_that_fail(n):
    return after(SMALL, b"load a nothing/here\n" * n)


def removes_of_nothing(n):
    return after(SMALL, each(b"remove f#\n", n))


def removes_from_the_end(n):
    return after(published(n), b"".join(b"remove f%d\n" % number for number in reversed(range(n))) + b"publish\n")


def removes_under_a_prefix(n):
    """Where all documents are under the prefix, each goes from an end of its sets."""
    puts = b"".join(put(b"f%04d" % number, own_body(b"one abcd two defg", number)) for number in range(n))
    return after(puts + b"publish\n" * 3, b"removeunder f\npublish\n")


def copies_under_a_prefix(n):
    """All documents are copied to other names, and again over these."""
    return after(published(n), b"copyunder f g\npublish\ncopyunder f g\npublish\n")


def copies_over_others(n):
    """Those go that had the names before, in the order of their names, which is not that in which they came."""
    others = b"".join(put(b"g%d" % number, own_body(b"one abcd two hijk", n + number)) for number in range(n))
    return after(others + published(n), b"copyunder f g\npublish\npublish\n")


def removes_under_one_prefix_after_another(n):
    """As many commands as documents, each of which removes one: those with longer names went before."""
    return after(published(n), b"".join(b"removeunder f%d\n" % number for number in reversed(range(n))) + b"publish\n")


def puts_and_removes(n):
    return after(SMALL, b"put f 11\nhello world\nremove f\n" * n + b"publish\n")


def publishes_of_nothing(n):
    return after(SMALL, b"publish\n" * n)


def searches(n):
    return after(SMALL, b"search o w\n" * n)


def searches_without_a_candidate(n):
    return after(SMALL, b"search xyz\n" * n)


def searches_in_names(n):
    return after(SMALL, b"searchin ^a o w\n" * n)


def searches_without_case(n):
    return after(SMALL, b"isearch O W\n" * n)


def searches_that_are_refused(n):
    return after(SMALL, b"search (\n" * n)


def syncs(n):
    return after(SMALL, b"sync\n" * n)


def comments(n):
    return after(SMALL, b"# a comment\n\n" * n)


def lines_of_no_known_form(n):
    return after(SMALL, b"what\n" * n)


def items_of_each_kind(n):
    return after(SMALL, b"put b 3\nabc\nload c nothing/here\nremove b\nput b/c 1\nx\nremoveunder b\npublish\nsearch o w\nsearchin a o\nisearch O\nsync\n#\nwhat\n" * n)


def length_of_a_comment(n):
    return after(SMALL, b"#" + b"x" * n + b"\n")


def length_of_a_body(n):
    return after(b"", put(b"a", b"some text\n" * n))


def different_trigrams_of_a_body(n):
    chance = random.Random(1)
    return after(b"", put(b"a", b"".join(bytes(chance.choices(range(33, 127), k=9)) + b"\n" for _ in range(n))))


def trigrams_of_two_documents(n):
    chance = random.Random(1)
    body = b"".join(bytes(chance.choices(range(33, 127), k=9)) + b"\n" for _ in range(n))
    return after(b"", put(b"a", body) + put(b"b", body) + b"publish\n")


def length_of_a_searched_body(n):
    return after(put(b"a", b"some text\n" * n) + b"publish\n", b"search e.*z\n")


def lines_searched_one_by_one(n):
    return after(put(b"a", b"some text\n" * n) + b"publish\n", b"search e.*z\n" * 20)


def length_of_a_searched_line(n):
    return after(put(b"a", b"x" * n) + b"publish\n", b"search x.*z\n" * 20)


def length_of_a_long_line(n):
    """Of lines that the matcher does not take: by the engine, by a simulation, and by one that is made for the line."""
    patterns = b"x.*z|y", b"^x*y$", b"((a*b)*c)*d|y", b"y|$.[acegikmoqsuwyACEGIKMOQSUWY]{255}"
    finds = b"".join(b"find %s -- %s\n" % (view, pattern) for view in (b"-c", b"-c -v", b"--column", b"--spans") for pattern in patterns)
    return after(put(b"a", (b"x" * n + b"y\n") * 2) + b"publish\n", finds)


def length_of_a_body_that_is_no_candidate(n):
    return after(put(b"a", b"some text\n" * n) + b"publish\n", b"search xyz\n" * 10)


def hits(n):
    return after(put(b"a", b"some text\n" * n) + b"publish\n", b"search t\n")


def documents_with_hits(n):
    return after(published(n), b"search abcd\n")


def documents_in_each_view(n):
    return after(published(n), b"".join(b"find %s -- abcd\n" % words for words in VIEWS))


def hits_in_each_view(n):
    return after(put(b"a", b"some text\nno\nno\nno\n" * n) + b"publish\n", b"".join(b"find %s -- t\n" % words for words in VIEWS))


def lines_behind_a_limit(n):
    return after(put(b"a", b"some text\n" * n) + b"publish\n", b"".join(b"find -m 1 %s -- t\n" % words for words in VIEWS if words != b"-c"))


def documents_whose_names_are_matched(n):
    return after(published(n), b"searchin 7$ abcd\n")


def candidates_that_are_few(n):
    return after(published(n), b"search uvwxyz\n" * 10)


def candidates_that_are_some(n):
    """A hundred documents are candidates, less than an eighth of all, so they are looked up."""
    some = b"".join(put(b"g%d" % number, own_body(b"uvwxyz", number)) for number in range(100))
    return after(some + published(n), b"search uvwxyz.*q\n" * 20)


def candidates_that_are_few_under_a_prefix(n):
    """All names begin with the prefix, and four documents are candidates: these are looked up."""
    return after(published(n), b"searchin ^f uvwxyz\n" * 10)


def names_after_a_prefix(n):
    """The names of all candidates begin with the prefix, and N others come after them."""
    first = b"".join(put(b"a/%d" % number, own_body(b"qrst", number)) for number in range(16))
    return after(first + published(n), b"searchin ^a/ qrst\n" * 10)


def candidates_behind_names_under_a_prefix(n):
    """400 names begin with the prefix, and N candidates come after them. There are over eight times as many documents."""
    first = b"".join(put(b"a/%d" % number, own_body(b"abcd", number)) for number in range(400))
    others = b"".join(put(b"g%d" % number, own_body(b"no", number)) for number in range(10 * n + 4_000))
    return after(first + others + documents(n) + b"publish\n" * 3, b"searchin ^a/ abcd\n" * 10)


def prefixes_of_a_find(n):
    """Half of them begin no name. Some are under others."""
    words = each(b"--under f# ", n) + each(b"--not-under g# ", n)
    return after(published(500), b"find %s-- abcd\n" % words)


def prefixes_that_are_too_many(n):
    """The last one is one more than can be given."""
    return after(SMALL, (b"find " + b"--under a " * 4_097 + b"-- x\n") * n)


def documents_under_as_many_prefixes(n):
    """Each prefix has one of the documents, all of which are candidates."""
    made = b"".join(put(b"r%d/a" % number, own_body(b"abcd", number)) for number in range(n))
    return after(made + b"publish\n" * 3, b"find %s-- abcd\n" % each(b"--under r#/ ", n))


def documents_that_are_left_out_by_prefixes(n):
    return after(published(n), b"find %s-- abcd\n" % each(b"--not-under f# ", 64))


def documents_beside_prefixes(n):
    """Few documents are under the prefixes, and N others have trigrams that these have not."""
    made = b"".join(put(b"r%d/a" % number, own_body(b"qrst", number)) for number in range(64))
    return after(made + published(n), b"find %s-- qrst\n" % each(b"--under r#/ ", 64))


def puts_and_removes_beside_documents(n):
    return after(published(n), b"put g 11\nhello world\nremove g\n" * 20 + b"publish\n")


def few_candidates_with_common_trigrams(n):
    return after(published(n), b"search abcd.*defg.*uvwxyz\n" * 10)


def few_candidates_of_alternatives(n):
    """Each alternative begins with trigrams that all documents have, and only four documents have a trigram that follows."""
    return after(published(n), b"search two defg (four|five)\n" * 10)


def few_candidates_beside_common_alternatives(n):
    return after(published(n), b"search (abcd|defg).*uvwxyz\n" * 10)


def union_of_lists(n):
    return after(published(n), b"searchin ^$ hijk|uvwx\n" * 10)


def intersection_of_lists(n):
    return after(published(n), b"searchin ^$ abcd.*hijk\n" * 10)


def documents_while_the_first_is_replaced(n):
    return after(published(n), b"".join(put(b"f0", own_body(b"one abcd two defg", n + round)) + b"publish\n" for round in range(2)))


def documents_while_the_last_is_replaced(n):
    return after(published(n), b"".join(put(b"f%d" % (n - 1), own_body(b"one abcd two defg", n + round)) for round in range(20)) + b"publish\n")


def documents_beside_many_publishes(n):
    return after(published(n), (put(b"g", b"abc") + b"publish\n") * 100)


def searches_behind_many_commands(n):
    """The numbers of a hundred documents are far from the first ones."""
    return after(b"put a 1\nx\nremove a\n" * n + published(100), b"search two\n" * 20)


def documents_while_some_are_replaced(n):
    return after(published(n), b"".join(put(b"f%d" % (n * at // 16), own_body(b"one abcd two defg", n + at)) for at in range(16)) + b"publish\n")


def documents_while_some_are_removed(n):
    return after(published(n), b"".join(b"remove f%d\n" % (n * at // 16) for at in range(16)) + b"publish\n")


def members_of_a_union(n):
    """A thousand documents, each with one of N texts, and searches for all texts. The same searches come first, when there are no
    documents."""
    letters = b"abcdefghijklmnopqrstuvwxyz"
    texts = [bytes([letters[number // 26], 48 + number % 10, letters[number % 26]]) for number in range(n)]
    puts = b"".join(put(b"f%d" % number, own_body(texts[number % n], number)) for number in range(1024)) + b"publish\n"
    asked = b"searchin ^$ %s\n" % b"|".join(texts) * 10
    return asked + puts, puts + asked


def columns_far_along_a_line(n):
    """The match of each line is at its end."""
    return after(put(b"a", (b"a" * n + b"x\n") * 10) + b"publish\n", b"find --column -- x\n")


def columns_far_along_a_line_by_the_simulation(n):
    return after(put(b"a", b"a" * n + b"x\n") + b"publish\n", b"find --column -- %s\n" % STARS_OR_X)


def columns_of_empty_matches(n):
    """Beyond a search for the same lines. The first match of each is empty and at its front."""
    lines = put(b"a", (b"a" * n + b"\n") * 20) + b"publish\n"
    return lines + b"find -- %s\n" % EMPTY_STARS, lines + b"find --column -- %s\n" % EMPTY_STARS


def spans_of_a_line_by_the_simulation(n):
    return after(put(b"a", b"x" * n) + b"publish\n", b"find --spans -- %s\n" % STARS_OR_X)


def spans_of_whole_words_in_a_long_line(n):
    """A match begins at each byte, and only the last is a whole word. Its start is found by halving, in passes whose number grows with the
    line's logarithm."""
    return after(put(b"a", b"a" * n + b" a\n") + b"publish\n", b"find -w --spans -- (([ab]{0,30}){31}c?)*d|a\n")


def spans_of_a_pattern_that_can_be_empty(n):
    """The empty text is the only match, at each byte, and no span."""
    return after(put(b"a", b"a" * n + b"\n") + b"publish\n", b"find --spans -- ((([ab]{0,5}){5}c?)*d)?\n")


def whole_words_in_long_lines(n):
    """The first match of each line is right before a word byte, and far from the last one."""
    return after(put(b"a", (b"xs " + b"a" * n + b" x\n") * 10) + b"publish\n", b"find -w --column -- x\n")


def lines_that_match_at_their_front(n):
    """The simulation reads no more of them."""
    return after(put(b"a", (b"x" + b"a" * n + b"\n") * 50) + b"publish\n", b"find -q -- x%s\n" % FOR_THE_SIMULATION)


def lines_in_which_nothing_begins_any_more(n):
    """The simulation leaves a line behind its first byte: no word can begin there, and none has begun."""
    return after(put(b"a", (b"x" + b"a" * n + b"\n") * 50) + b"publish\n", b"find -q -- %s\n" % STARS_AT_THE_START)


def counts_of_a_byte_that_is_in_no_line(n):
    """The matcher leaves a line, however much is still to be counted."""
    lines = put(b"a", (b"a" * 100 + b"\n") * 100) + b"publish\n"
    return after(lines, b"find -v -q -- ([b-d]{%d}){16}\n" % n)


def length_of_a_pattern_behind_words(n):
    """Beyond the same pattern without the words. It is refused as too long."""
    words = b"-n a " * 16 + b"-N b " * 16
    return SMALL + b"find -- %s\n" % (b"x" * n), SMALL + b"find %s-- %s\n" % (words, b"x" * n)


def whole_words_far_from_the_end_of_a_line(n):
    """Beyond a search for the same lines. Both matches of each line are at its front, and the first of them is no whole word."""
    lines = put(b"a", (b"xs x " + b"a" * n + b"\n") * 10) + b"publish\n"
    return lines + b"find -w -- x\n", lines + b"find -w --column -- x\n"


def lines_without_a_match_that_match_at_their_front(n):
    """Where lines without a match are asked for, no more of a line is read once a match is found in it."""
    return after(put(b"a", (b"x" + b"a" * n + b"\n") * 50) + b"publish\n", b"find -v -q -- x[a-z]*\n" * 5)


def sets_behind_one_that_is_in_no_line(n):
    """Beyond the same pattern for no document. The matcher leaves a line, however many sets come after the first."""
    lines, pattern = put(b"a", (b"a" * 50 + b"\n") * 150) + b"publish\n", b"-- %s\n" % (b"b" * n)
    return lines + (b"find -v -q -n ^$ " + pattern) * 4, lines + (b"find -v -q " + pattern) * 4


def stars(n):
    """A pattern of N stars, each inside the next one and after a letter. Without a compiled pattern each of them doubles the work."""
    return b"^(aa)*" + b"(a" * n + b"a*" + b")*" * n + b"b$"


def stars_inside_stars(n):
    return after(put(b"a", b"a" * 60 + b"c") + b"publish\n", b"search %s\n" % stars(n))


def stars_of_stars(n):
    """Each of N stars has the next one alone. They are as quick as one."""
    return after(put(b"a", b"a" * 5_000 + b"c") + b"publish\n", b"search %s\n" % (b"(" * n + b"a+" + b")+" * n + b"b") * 10)


def stars_inside_stars_for_names(n):
    return after(put(b"a" * 60 + b"c", b"x") + b"publish\n", b"searchin %s x\n" % stars(n))


# A function of N, the N, in which ways it is run, and to how many times the work and the memory of 4N may grow.
Row = collections.namedtuple("Row", "growth n ways work memory", defaults=(BOTH, MOST, MOST))

GROWTHS = [
    Row(new_documents, 500),
    Row(new_documents_that_are_filled_together, 600),
    Row(documents_beside_one_that_is_filled, 400, (SESSION,), LEVEL, LEVEL),
    Row(documents_in_both_copies, 500, (SESSION,)),
    Row(replacements_of_a_document, 1000),
    Row(replacements_that_are_published, 500),
    Row(names_of_one_body, 500),
    Row(removes_of_names_of_one_body, 500),
    Row(second_names_for_a_while, 500),
    Row(older_documents_that_get_one_body, 200, (SESSION,)),
    Row(loads_of_a_file, 500),
    Row(loads_that_fail, 500),
    Row(removes_of_nothing, 1000),
    Row(removes_from_the_end, 500),
    Row(removes_under_a_prefix, 500),
    Row(removes_under_one_prefix_after_another, 500, BOTH, 5.5),
    Row(copies_under_a_prefix, 500),
    Row(copies_over_others, 500, BOTH, 5.5),
    Row(puts_and_removes, 500),
    Row(publishes_of_nothing, 1000),
    Row(searches, 500),
    Row(searches_without_a_candidate, 500),
    Row(searches_in_names, 500),
    Row(searches_without_case, 500),
    Row(searches_that_are_refused, 1000),
    Row(syncs, 2000),
    Row(comments, 2000),
    Row(lines_of_no_known_form, 2000),
    Row(items_of_each_kind, 200),
    Row(length_of_a_comment, 1_000_000),
    Row(length_of_a_body, 10_000),
    Row(different_trigrams_of_a_body, 2_000, (SESSION,)),
    Row(trigrams_of_two_documents, 500, (SESSION,)),
    Row(length_of_a_searched_body, 10_000, (SESSION,)),
    Row(lines_searched_one_by_one, 200, (SESSION,)),
    Row(length_of_a_searched_line, 1_500, (SESSION,)),
    Row(length_of_a_long_line, 50_000, (SESSION_OF_LONG_LINES,)),
    Row(length_of_a_body_that_is_no_candidate, 10_000, (SESSION,), LEVEL, LEVEL),
    Row(hits, 10_000),
    Row(documents_with_hits, 500),
    Row(documents_in_each_view, 300, (SESSION,)),
    Row(hits_in_each_view, 2_000, (SESSION,)),
    Row(lines_behind_a_limit, 10_000, (SESSION,), LEVEL, LEVEL),
    Row(documents_whose_names_are_matched, 500, (SESSION,)),
    Row(candidates_that_are_few, 1000, (SESSION,), LEVEL, LEVEL),
    Row(candidates_that_are_some, 1_500, (SESSION,), LEVEL, LEVEL),
    Row(candidates_that_are_few_under_a_prefix, 400, (SESSION,), LEVEL, LEVEL),
    Row(names_after_a_prefix, 1000, (SESSION,), LEVEL, LEVEL),
    Row(prefixes_of_a_find, 1000, (SESSION,)),
    Row(prefixes_that_are_too_many, 4, (SESSION,)),
    Row(documents_under_as_many_prefixes, 1000, (SESSION,)),
    Row(documents_that_are_left_out_by_prefixes, 500, (SESSION,)),
    Row(documents_beside_prefixes, 500, (SESSION,), LEVEL, LEVEL),
    Row(candidates_behind_names_under_a_prefix, 500, (SESSION,), LEVEL, LEVEL),
    Row(puts_and_removes_beside_documents, 1000, (SESSION,), LEVEL, LEVEL),
    Row(few_candidates_with_common_trigrams, 1000, (SESSION,), LEVEL, LEVEL),
    Row(few_candidates_of_alternatives, 1000, (SESSION,), LEVEL, LEVEL),
    Row(few_candidates_beside_common_alternatives, 1000, (SESSION,), LEVEL, LEVEL),
    Row(union_of_lists, 1000, (SESSION,)),
    Row(intersection_of_lists, 1000, (SESSION,)),
    Row(members_of_a_union, 48, (SESSION,), 1.5),
    Row(documents_while_the_first_is_replaced, 1000, (SESSION,), LEVEL, LEVEL),
    Row(documents_while_the_last_is_replaced, 1000, (SESSION,), LEVEL, LEVEL),
    Row(documents_beside_many_publishes, 1000, (SESSION,), 1.3, LEVEL),
    Row(searches_behind_many_commands, 4_000, (SESSION,), LEVEL, LEVEL),
    Row(documents_while_some_are_replaced, 1000, (SESSION,)),
    Row(documents_while_some_are_removed, 1000, (SESSION,)),
    Row(columns_far_along_a_line, 3_000, (SESSION,), 6),
    Row(columns_far_along_a_line_by_the_simulation, 4_000, (SESSION,), 6),
    Row(columns_of_empty_matches, 1_000, (SESSION,), LEVEL),
    Row(spans_of_a_line_by_the_simulation, 1_000, (SESSION,)),
    Row(spans_of_whole_words_in_a_long_line, 400, (SESSION,), 6),
    Row(spans_of_a_pattern_that_can_be_empty, 400, (SESSION,)),
    Row(whole_words_in_long_lines, 3_000, (SESSION,), 6),
    Row(whole_words_far_from_the_end_of_a_line, 1_000, (SESSION,), LEVEL),
    Row(lines_that_match_at_their_front, 1_000, (SESSION,), LEVEL, LEVEL),
    Row(lines_in_which_nothing_begins_any_more, 1_000, (SESSION,), LEVEL, LEVEL),
    Row(lines_without_a_match_that_match_at_their_front, 1_000, (SESSION,), LEVEL, LEVEL),
    Row(sets_behind_one_that_is_in_no_line, 100, (SESSION,), LEVEL, LEVEL),
    Row(counts_of_a_byte_that_is_in_no_line, 60, (SESSION,), LEVEL, LEVEL),
    Row(length_of_a_pattern_behind_words, 250_000, (SESSION,), LEVEL, LEVEL),
    Row(stars_of_stars, 4, (SESSION,), LEVEL, LEVEL),
    Row(stars_inside_stars, 4, (SESSION,)),
    Row(stars_inside_stars_for_names, 4, (SESSION,)),
]


def counts_of(runs, growth, n, way):
    """What the second script of a row takes beyond the first: instructions, requests, bytes, and bytes in use at once."""
    base, whole = growth(n)
    less, more = runs.memory(way, base), runs.memory(way, whole)
    instructions = runs.instructions(way, whole) - runs.instructions(way, base)
    return instructions, more.requests - less.requests, more.bytes - less.bytes, more.most - less.most


def show_growth(name, way, small, large):
    ratios = ["%.2f" % (after / before) if before > 0 else "-" for before, after in zip(small, large)]
    print("%-40s %-8s %s  %s  %s" % (name, way, small, large, " ".join(ratios)), flush=True)


def faults_of_growth(runs, row, way, show):
    """For each count of a row, what is wrong, or None."""
    growth, n, most = row.growth, row.n, (row.work, row.memory, row.memory, row.memory)
    small, large = counts_of(runs, growth, n, way), counts_of(runs, growth, 4 * n, way)
    if show:
        show_growth(growth.__name__, way, small, large)
    faults = []
    for (what, few), times, fewer, more in zip(COUNTS, most, small, large):
        told = f"{growth.__name__} as a {way}: {fewer} {what} with {n}, and {more} with {4 * n}"
        faults.append(told if more > max(few, times * fewer) else None)
    return faults


# What is done once. Each check gives what it counts, the count, and the least and the greatest that it may be.


def copies_of_a_body(runs):
    """Requests for memory of at least a body's length: a session keeps the body where it was read. A run reads its script first, into
    memory that grows, and a load has its own room."""
    body = b"x\n" * 500_000
    path = runs.folder / "body"
    path.write_bytes(body)
    later = b"publish\n" * 3 + b"search y\nsearch x.*y\n" + put(b"a", b"") + b"publish\n" * 2
    yield "copies of a put's body in a session", runs.memory(SESSION, put(b"a", body) + later, len(body)).large, 1, 1
    load = b"load a %s\n" % bytes(path)
    for way in BOTH:
        yield f"copies of a load's body in a {way}", runs.memory(way, load + later, len(body)).large, 1, 1
    last = runs.memory(SESSION, put(b"a", body) + later + b"search y\n").held
    yield "bytes in use after the body is replaced", last, 0, len(body) // 2


def documents_are_analysed_once(runs):
    """The trigrams of a body are found when it is published first, not when it is put, and not again for the other copy of the index or
    for another document."""
    body = text_of_few_trigrams(50_000)
    for way in BOTH:
        nothing, pending, once, shown = (
            runs.instructions(way, script) for script in (b"", *(put(b"a", body) + b"publish\n" * count for count in (0, 1, 3)))
        )
        yield f"instructions of a put that is not published in a {way}", pending - nothing, 0, (once - pending) // 2
        yield f"instructions of two more publishes in a {way}", shown - once, 0, (once - pending) // 4
        replaced = put(b"a", b"x") + b"publish\n" * 3 + put(b"a", body) + b"publish\n"
        before, after_it = (runs.instructions(way, script) for script in (replaced, replaced + b"publish\n" * 2))
        yield f"instructions of two more publishes of a replacement in a {way}", after_it - before, 0, (once - pending) // 4
        copied = put(b"a", body) + b"publish\n" * 3 + put(b"b", body)
        before, after_it = (runs.instructions(way, copied + b"publish\n" * count) for count in (0, 3))
        yield f"instructions of publishes of a body that another document has in a {way}", after_it - before, 0, (once - pending) // 4


def text_of_few_trigrams(lines):
    """Lines of nine letters out of eight, so its sets are few and its analysis is long."""
    chance = random.Random(1)
    return b"".join(bytes(chance.choices(range(97, 105), k=9)) + b"\n" for _ in range(lines))


def bodies_of_a_publish_are_analysed_by_all_threads(runs):
    """Of bodies that are published together, each of three threads analyses a third, also where they are behind many small ones, and then
    puts the documents into a third of the sets. One body, and many small ones, are analysed without a thread."""
    text = text_of_few_trigrams(20_000)
    third = 1 / 4, 5 / 12, 5 / 12
    for what, few, many, (least, most, one) in ("nine", 0, 9, third), ("nine behind forty", 40, 9, third), ("ninety", 0, 90, third):
        puts = b"".join(put(b"f%d" % number, own_body(b"x" if number < few else text, number)) for number in range(few + many))
        work = runs.instructions(SCRIPT, puts + b"publish\n") - runs.instructions(SCRIPT, puts)
        pending, shown = (runs.instructions_of_all_threads(SCRIPT_BESIDE, puts + end) for end in (b"", b"publish\n"))
        yield f"instructions of the first thread for {what} bodies", shown[0] - pending[0], int(work * least), int(work * most)
        yield f"instructions of the others for {what} bodies", sum(shown[1:]) - sum(pending[1:]), work - int(work * most), work
        yield f"instructions of the one that does most for {what} bodies", max(shown[1:]), 0, int(work * one)
    nothing, one, small = (
        runs.memory(SCRIPT_BESIDE, script).threads
        for script in (b"publish\n", put(b"a", text_of_few_trigrams(90_000)) + b"publish\n", documents(1000) + b"publish\n")
    )
    yield "threads for a publish of one body", one - nothing, 0, 0
    yield "threads for a publish of a thousand small bodies", small - nothing, 0, 0
    puts = b"".join(put(b"f%d" % number, own_body(text_of_many_trigrams(20_000), number)) for number in range(9))
    alone, beside = (runs.memory(way, puts + b"publish\nsearch y\n").most for way in (SCRIPT, SCRIPT_BESIDE))
    yield "bytes in use at once where bodies are analysed side by side", beside, alone * 3 // 4, alone * 5 // 4


def documents_are_filled_together_as_fast(runs):
    """To put documents of over a MiB into the sets of their trigrams at one go takes little more than to put in one after the other."""
    puts = [put(b"f%d" % number, own_body(text_of_many_trigrams(400) * 5, number)) for number in range(64)]
    none, apart, together = (
        runs.instructions(SESSION, b"".join(puts[:32] + [between] + puts[32:] + [end]))
        for between, end in ((b"", b""), (b"publish\n", b"publish\n"), (b"", b"publish\n"))
    )
    yield "instructions to publish 1.3 MB at once", together - none, 0, (apart - none) * 3 // 2


def documents_that_wait_for_a_publish(runs):
    """Twenty documents that no publish has shown take the bytes of their bodies, and little more."""
    chance = random.Random(1)
    for length in 45, 75, 100, 140:
        bodies = [b"\n".join(bytes(chance.choices(range(33, 255), k=60)) for _ in range(length)) for _ in range(40)]
        puts, loads = [], []
        for number, body in enumerate(bodies):
            path = runs.folder / f"{length}-{number}"
            path.write_bytes(body)
            puts.append(put(b"f%d" % number, body))
            loads.append(b"load f%d %s\n" % (number, bytes(path)))
        least = sum(len(body) for body in bodies[20:])
        for what, items in ("put", puts), ("loaded", loads):
            few, many = (runs.memory(SESSION, b"".join(items[:count]) + b"search y\n").held for count in (20, 40))
            yield f"bytes of 20 documents with {length} lines that are {what}", many - few, least, least + 20 * 400


def text_of_many_trigrams(lines, letters=range(33, 127)):
    """Lines of nine letters, each of which has some seven trigrams of its own."""
    chance = random.Random(1)
    return b"".join(bytes(chance.choices(letters, k=9)) + b"\n" for _ in range(lines))


def trigrams_that_one_document_has(runs):
    """A document takes no more memory once it is replaced by the same body."""
    body = text_of_many_trigrams(4_000)
    none, once, twice = (runs.memory(SESSION, (put(b"a", body) + b"publish\n" * 3) * times + b"search y\n").held for times in (0, 1, 2))
    yield "bytes more of a document that is replaced by the same", twice - once, none - once, 65_536


def documents_that_are_gone(runs):
    """Little is left of 50,000 documents that came and went, a hundred with each publish. Two with the same text stay."""
    stay = put(b"a", b"some text") + put(b"b", b"some text") + b"publish\n" * 3
    come = b"".join(put(b"f%d" % number, own_body(b"some text", number)) + b"publish\n" * (number % 100 == 99) for number in range(50_000))
    go = b"".join(b"remove f%d\n" % number + b"publish\n" * (number % 100 == 99) for number in range(50_000))
    before, after_it = (runs.memory(SESSION, stay + script + b"publish\n" * 3 + b"search y\n").held for script in (b"", come + go))
    yield "bytes in use after 50,000 documents came and went", after_it - before, -before, 65_536


def removes_under_a_prefix_and_single_removes(runs):
    """To remove names by their beginning takes no more for each name than to remove them one after the other, and of the other names
    none is looked at."""
    first = each(b"put a# 1\nx\nput g# 1\nx\n", 2_000) + published(1_000)
    singly = b"".join(b"remove %s\n" % name for name in sorted(b"f%d" % number for number in range(1_000)))
    scripts = b"", singly, b"removeunder f\n", b"removeunder f999\n" * 1_000
    none, singly, together, refused = (runs.instructions(SESSION, first + script + b"publish\n") for script in scripts)
    yield "instructions to remove 1,000 names by their beginning", together - none, 0, singly - none
    yield "instructions to remove one name and be refused 999 times", refused - none, 0, 2 * (singly - none)


def much_that_goes_takes_no_longer_than_new_documents(runs):
    """The sets are filled anew where much goes from their middle, or gets other texts there. Else each document has half of the others before
    or behind it, which are passed in each of its sets."""
    texts = text_of_many_trigrams(30), text_of_many_trigrams(30).swapcase()
    first, second, third, others = (
        b"".join(put(b"%s%04d" % (part, number), own_body(text, first + number)) for number in range(1_000))
        for part, text, first in ((b"e", texts[0], 0), (b"f", texts[0], 1_000), (b"g", texts[0], 2_000), (b"f", texts[1], 3_000))
    )
    base = first + second + third + b"publish\n" * 3
    made = runs.instructions(SESSION, base)
    for what, items in ("remove the middle third of 3,000 documents", b"removeunder f\n"), ("replace it", others):
        taken = runs.instructions(SESSION, base + items + b"publish\n") - made
        yield f"instructions to {what}", taken, 0, made * 3 // 2


def pages_of_a_document_that_comes_and_goes(runs):
    """A document of some 3,000 trigrams that comes and goes beside one of more trigrams takes its pages once. (Where it has most of all
    trigrams, the sets are filled anew without it.)"""
    once = put(b"a", text_of_many_trigrams(440)) + b"publish\nremove a\npublish\n"
    other = put(b"b", text_of_many_trigrams(2_000, range(128, 256))) + b"publish\n"
    few, many = (runs.memory(SESSION, other + once * times).requests for times in (10, 110))
    yield "requests for 100 times that a document comes and goes", many - few, 0, 100 * 60


def names_that_are_kept(runs):
    """A document that is replaced keeps the memory of its name. Both copies of the index have the same."""
    puts, again = (
        b"".join(put(b"n" * 240 + b"%d" % number, own_body(text, number)) for number in range(1000)) + b"publish\n" * 3 for text in (b"x", b"z")
    )
    once, twice = (runs.memory(SESSION, items + b"search y\n").held for items in (puts, puts + again))
    yield "bytes more after 1,000 names of 240 bytes are replaced", twice - once, -once, 120_000
    short = b"".join(put(b"n%d" % number, own_body(b"x", number)) for number in range(1000))
    less, more = (runs.memory(SESSION, items + b"publish\n" * 3 + b"search y\n").held for items in (short, puts))
    yield "bytes more for 1,000 names of 240 bytes than for short ones", more - less, 200_000, 360_000


def room_under_a_prefix(runs):
    """Where one name begins with the prefix and 4,001 documents are candidates, no room is made for as many documents."""
    base = put(b"a/0", b"abcd") + documents(4_000) + b"publish\n" * 3
    before, after_it = (runs.memory(SESSION, base + search, 80_000).large for search in (b"", b"searchin ^a/ abcd\n"))
    yield "requests of at least 80,000 bytes for a name of 4,001", after_it - before, 0, 0
    # 200 names of 11,200 begin with it, and 1,200 documents are candidates
    others = documents(1_000) + b"".join(put(b"g%d" % number, own_body(b"no", number)) for number in range(10_000))
    for prefix in b"a/", b"f2/", b"z/":
        base = b"".join(put(prefix + b"%d" % number, own_body(b"abcd", number)) for number in range(200)) + others + b"publish\n" * 3
        before, after_it = (runs.memory(SESSION, base + search, 20_000).large for search in (b"", b"searchin ^%s abcd\n" % prefix))
        yield f"requests of at least 20,000 bytes for 200 names under {prefix.decode()}", after_it - before, 0, 0


def answers_without_hits(runs):
    """A run keeps its answers to its end: no document of which nothing is shown, and no room for hits that are not there."""
    path = runs.folder / "large"
    path.write_bytes(b"some text\n" * 100_000)

    def rounds(search):
        for number in range(3):
            names = [b"f%d-%d" % (number, at) for at in range(4)]
            yield b"".join(b"load %s %s\n" % (name, bytes(path)) for name in names) + b"publish\n" + search
            yield b"".join(b"remove %s\n" % name for name in names) + b"publish\n" * 3

    none, asked = (runs.memory(SCRIPT, b"".join(rounds(search))).most for search in (b"", b"search text.*some\n"))
    yield "bytes in use at once more if three times four MB that come and go are searched", asked - none, -none, 500_000
    base = documents(1_000) + b"publish\n"
    one, many = (runs.memory(SCRIPT, base + b"search defg.*abcd\n" * count).most for count in (1, 101))
    yield "bytes in use at once for 100 more answers of a run without a hit in 1,000 documents", many - one, 0, 100 * 2_000


def room_for_candidates(runs):
    """For 1,000 candidates, which are a sixth of the documents, no room is made for as many as there are documents."""
    others = b"".join(put(b"g%d" % number, own_body(b"no", number)) for number in range(5_000))
    base = documents(1_000) + others + b"publish\n" * 3
    before, after_it = (runs.memory(SESSION, base + search, 80_000).large for search in (b"", b"search abcd.*q\n"))
    yield "requests of at least 80,000 bytes for 1,000 candidates of 6,000", after_it - before, 0, 0


def lists_are_passed_in_blocks(runs):
    """A search for a text that four of 16,000 documents have goes through the lists of two more trigrams, and through that of all documents."""
    few, many = (counts_of(runs, candidates_with_two_common_trigrams, count, SESSION)[0] for count in (4_000, 16_000))
    yield "instructions for 20 times 36,000 bytes of lists", many - few, 0, 3_000_000


def candidates_with_two_common_trigrams(n):
    return after(published(n), b"search abcd.*uvwxyz\n" * 20)


def documents_behind_a_limit(n):
    """No trigram is asked for, so that no lists are gone through but that of all documents."""
    return after(published(n), b"".join(b"find -m 1 %s -- b\n" % words for words in VIEWS))


def candidates_behind_a_limit_are_not_taken(runs):
    """A search with a limit takes the candidates with the first names. Each further one is only counted, and put into a table of numbers."""
    few, many = (counts_of(runs, documents_behind_a_limit, count, SESSION) for count in (2_000, 10_000))
    yield "instructions of seven searches with a limit for 8,000 more candidates", many[0] - few[0], 0, 7 * 8_000 * 200
    yield "bytes in use at once for 8,000 more candidates of a search with a limit", many[3] - few[3], 0, 8_000 * 10


def limits_are_reached_early(runs):
    """Of the first candidates of a search with a limit about a MiB is looked through in vain, if they are not enough. Once there are more lines
    than are shown, no further body is matched that several documents have."""
    large = b"".join(put(b"f%02d" % number, own_body(b"some text\n" * 6_000 + b"end\n" * (number == 79) * 10, number)) for number in range(80))
    large += b"publish\n" * 3
    none, whole, limited = (runs.instructions(SESSION, large + search) for search in (b"", b"find -- n.*d\n", b"find -m 1 -- n.*d\n"))
    yield "instructions of a search with a limit that 80 documents of 60 KB do not reach", limited - none, 0, (whole - none) * 3 // 2
    texts = [own_body((b"some end\n" if number == 0 else b"some text\n") * 20_000, number) for number in range(20)]
    twice = b"".join(put(b"%s%02d" % (name, number), text) for number, text in enumerate(texts) for name in (b"f", b"g"))
    twice += b"publish\n" * 3
    none, whole, limited = (runs.instructions(SESSION, twice + search) for search in (b"", b"find -- m.*q\n", b"find -m 1 -- m.*d\n"))
    yield "instructions of a search with a limit that the first of twenty bodies of two names reaches", limited - none, 0, (whole - none) // 4


def patterns_are_compiled_once(runs):
    """A pattern is compiled for the first large body, not again for the next, and not at all if no document is left."""
    large = [b"".join(put(b"f%d" % number, own_body(b"some text\n" * 2000, number)) for number in range(count)) + b"publish\n" * 3 for count in (1, 4)]

    def requests(first, search):
        return runs.memory(SESSION, first + search).requests - runs.memory(SESSION, first).requests

    # what a pattern begins with, and can be empty, is not compiled
    one, four = (requests(first, b"search e[a-z]*q$\n") for first in large)
    yield "requests of a search of four documents", four, one // 2, one + 10
    for search in b"search e[a-z]*xyz\n", b"searchin b$ e[a-z]*q$\n", b"searchin ((a*|b)*|c)*b$ e[a-z]*xyz\n":
        yield f"requests of {search.decode().strip()}", requests(large[0], search), 0, one // 2
    # more than is shown is in the first lines
    first = put(b"a", b"some text\n" * 2) + large[0]
    yield "requests of a search with a limit", requests(first, b"find -m 1 -- e[a-z]*t$\n"), 0, one // 2


def lines_are_matched_once(runs):
    """A hit takes no request for memory of its own, and a byte that is only looked at less than one instruction."""
    few, many = (runs.memory(SESSION, hits(count)[1]).requests for count in (10_000, 40_000))
    yield "requests for 30,000 hits", many - few, 0, 50
    few, many = (counts_of(runs, length_of_a_searched_body, count, SESSION)[0] for count in (10_000, 90_000))
    yield "instructions for 800,000 bytes that are searched", many - few, 0, 720_000
    # too large for the engine: so many sets are stepped over by the matcher, from all positions of each line that are left
    line, sets = b"a" * 100 + b"\n", b"find -q -- [ab]{255}[ab]{255}[ab]{129}c|^a\n"
    few, many = (runs.instructions(SESSION, put(b"a", line * count) + b"publish\n" + sets) for count in (100, 300))
    yield "instructions for 200 lines of 100 bytes by the matcher", many - few, 0, 8_000_000
    line = b"a" * 90 + b"x\n"
    few, many = (runs.instructions(SESSION, put(b"a", line * count) + b"publish\nfind --column -- x\n") for count in (100, 400))
    yield "instructions for 300 columns in lines of 90 bytes", many - few, 0, 9_000_000


def contents_are_matched_once(runs):
    """A body is matched once for all documents that have it; its lines are listed under each of their names. (Lines around them are looked
    for in each document.)"""
    body, search = b"some text\n" * 10_000 + b"some xyz\n", b"find %s-- e.*[xz]yz$\n"
    for words in b"", b"-l ", b"-c ", b"--column ":
        few, many = (instructions_for_names(runs, body, search % words, count) for count in (10, 40))
        yield f"instructions for 30 more names of {len(body)} bytes that are searched, by find {words.decode()}", many - few, 0, 30 * 30_000


def instructions_for_names(runs, body, search, count):
    """The instructions of a search in so many documents of one body, beyond those for the documents."""
    script = b"".join(put(b"f%d" % number, body) for number in range(count)) + b"publish\n"
    return runs.instructions(SESSION, script + search) - runs.instructions(SESSION, script)


def simulations_are_made_once(runs):
    """One is made for all lines of a document, and for all documents."""
    for words in b"--column", b"--spans":
        search = b"publish\nfind %s -- %s\n" % (words, STARS_OR_X)
        few, many = (runs.memory(SESSION, put(b"a", b"x\n" * count) + search).requests for count in (1_000, 4_000))
        yield f"requests for 3,000 more lines with {words.decode()}", many - few, 0, 50
        few, many = (requests_for_documents(runs, words, count) for count in (100, 400))
        yield f"requests for 300 more documents with {words.decode()}", many - few, 0, 300 * 3


def requests_for_documents(runs, words, count):
    """The requests for columns or spans in so many documents of one line, beyond those for its lines."""
    lines = b"".join(put(b"f%d" % number, b"x\n") for number in range(count)) + b"publish\n"
    with_words, without = (runs.memory(SESSION, lines + b"find %s -- %s\n" % (more, STARS_OR_X)).requests for more in (words, b""))
    return with_words - without


def simulations_read_no_more_than_they_must(runs):
    """A line without a match is read once, and a span is looked for no further than it can go."""
    lines = put(b"a", (b"a" * 10_000 + b"\n") * 5) + b"publish\n"
    work = runs.instructions(SESSION, lines + b"find -q -- %s%s\n" % (STARS, FOR_THE_SIMULATION)) - runs.instructions(SESSION, lines)
    yield "instructions for 50,000 bytes in long lines by the simulation", work, 0, 130_000_000
    few, many = (counts_of(runs, spans_of_a_line_by_the_simulation, count, SESSION)[0] for count in (1_000, 4_000))
    yield "instructions for 3,000 spans by the simulation", many - few, 0, 20_000_000


def simulations_are_small(runs):
    """A simulation takes at most 1,000 bytes for each byte of its pattern, and 64 KiB. With columns a search has one more than without."""
    chance = random.Random(1)
    pattern = b"(((%s)*0)*1)*2" % b"|".join(bytes(chance.choices(range(97, 123), k=3)) for _ in range(250))
    lines = put(b"a", b"2\n") + b"publish\n"
    one, two = (runs.memory(SESSION, lines + b"find %s-- %s\n" % (words, pattern)).most for words in (b"", b"--column "))
    yield f"bytes for a simulation of {len(pattern)} bytes", two - one, 1, 1_000 * len(pattern) + 65_536


def simulations_of_equal_patterns(runs):
    """An alternative of bytes takes no more work than a set, and a count of what can be left out no more than what it stands for. The
    work is what columns of whole words take beyond the lines, which are read whole for them by the simulation."""
    letters = bytes(range(97, 123))
    alternatives, counts = letters * 10 + b"01\n", b"ab" * 10 + b"c"
    pairs = [
        (alternatives, b"(((%s)*0)*1)+" % b"|".join(bytes([letter]) for letter in letters), b"(([a-z]*0)*1)+"),
        (counts * 10 + b"01\n", b"((([ab]{0,20}c)*0)*1)+", b"(((%sc)*0)*1)+" % (b"[ab]?" * 20)),
    ]
    for line, *patterns in pairs:
        lines = put(b"a", line * 60) + b"publish\n"
        scripts = [[lines + b"find -w %s-- %s\n" % (words, pattern) for words in (b"--column ", b"")] for pattern in patterns]
        work, other = (runs.instructions(SESSION, more) - runs.instructions(SESSION, less) for more, less in scripts)
        yield f"instructions for {patterns[0].decode()[:40]}", work, other // 2, 2 * other


def texts_are_written_once(runs):
    """A session writes each text by itself, a long one in large pieces; a run writes all in large pieces."""
    texts = SMALL + b"search o w\nwhat\nput a 1\nx\npublish\nremove b\n" * 1000
    long = put(b"a", b"\n" * 500_000) + b"publish\nsearch ^\n"
    yield "writes of a session with 3,000 texts", runs.memory(SESSION, texts).writes, 3000, 3000
    made = runs.memory(SESSION, long)
    yield "writes of a session with a text of 4.9 MB", made.writes, 1, len(made.text) // 65536 + 2
    made = runs.memory(SCRIPT, texts)
    yield "writes of a run with 3,000 texts", made.writes, 1, len(made.text) // 8192 + 2


def items_that_take_no_memory(runs):
    """A session takes memory for what an item has of its own, and not for its line."""
    for item in b"sync\n", b"what\n", b"publish\n", b"status\n", b"# a comment\n":
        few, many = (runs.memory(SESSION, SMALL + item * count).requests for count in (100, 4_100))
        yield f"requests for 4,000 more times {item.decode().strip()}", many - few, 0, 50


def puts_that_are_refused_are_not_analysed(runs):
    """A put is refused for the number of commands before its body is analysed."""
    body = text_of_many_trigrams(50_000)
    one, two = (runs.instructions(SESSION_OF_ONE, put(b"a", b"x") + put(b"b", body) * count) for count in (1, 2))
    yield f"instructions for a put of {len(body)} bytes that is refused as full", two - one, 0, 10 * len(body)


def publishes_of_nothing_hold_nothing(runs):
    few, many = (runs.memory(SESSION, SMALL + b"publish\n" * count + b"search y\n").held for count in (1_000, 20_000))
    yield "bytes in use after 20,000 publishes", many, 0, few
    few, many = (runs.memory(SESSION, SMALL + (put(b"a", b"x") + b"publish\n") * count + b"search y\n").held for count in (1_000, 20_000))
    yield "bytes in use after 19,000 more replacements", many - few, -few, 16_384
    few, many = (runs.memory(SESSION, SMALL + each(b"put a 5\n#\npublish\n", count, 10_000) + b"search y\n").held for count in (1_000, 20_000))
    yield "bytes in use after 19,000 more replacements by other bodies", many - few, -few, 16_384


def lanes_that_are_gone(runs):
    """Nothing is left of a lane once its last search is answered."""
    few, many = (
        runs.memory(SESSION_OF_ONE_READER, SMALL + each(b"find --lane # -- o w\nsync\n", count) + b"search y\n").held for count in (1_000, 10_000)
    )
    yield "bytes in use after searches in 9,000 more lanes", many - few, -few, 65_536


def searches_beside_others(runs):
    """A search that is asked while no other is open goes on in as many threads as there are readers, and one more; others in one. Its reader
    is one of them. A session reads in a thread of its own. One thread starts the others, and one waits for a further search."""
    large = b"".join(put(b"f%d" % number, own_body(b"some text\n" * 100_000, number)) for number in range(20)) + b"publish\n"
    small = put(b"a", b"some text\n" * 100) + b"publish\n"
    many = large + b"search e.*z\n" * 20
    for way, own in (SCRIPT_BESIDE, 2), (SESSION_BESIDE, 3):
        yield f"threads of a {way} with a small search", runs.memory(way, small + b"search e.*z\n").threads, own, own + 1
        # (the publish has threads of its own, and a search that no document can match has none)
        none, once, thrice = (runs.memory(way, large + search).threads for search in (b"search yyy\n", b"search e.*z\n", b"search e.*z\nsync\n" * 3))
        yield f"threads more of a {way} with a large search", once - none, 1, 3
        yield f"threads more of a {way} with three large searches, one after the other", thrice - none, 5, 7
    # the last of many can be alone, and go on in three threads
    none = runs.memory(SCRIPT_BESIDE, large + b"search yyy\n").threads
    yield f"threads more of a {SCRIPT_BESIDE} with many searches", runs.memory(SCRIPT_BESIDE, many).threads - none, 0, 10
    for way in BOTH:
        yield f"threads of a {way} without readers", runs.memory(way, many).threads, 0, 0
    # one part of a search, and more text than one thread forms at a time
    hits = runs.memory(SCRIPT_BESIDE, put(b"a", b"some text\n" * 100_000) + b"publish\nsearch t\n")
    yield f"threads of a {SCRIPT_BESIDE} with {len(hits.text)} bytes of hits", hits.threads, 2 + 2, len(hits.text) // 32_768


def texts_are_formed_beside_one_another(runs):
    """A run forms the text of a large answer in three threads beside the one that writes: it starts three for each 384 KiB. The search
    itself is small."""
    long = put(b"a", b"\n" * 500_000) + b"publish\nsearch ^\n"
    made = runs.memory(SCRIPT_BESIDE, long)
    pieces = len(made.text) // 393_216
    yield f"threads of a {SCRIPT_BESIDE} with a text of 4.9 MB", made.threads, 2 + 3 * pieces, 2 + 6 * pieces


def texts_of_a_session_are_formed_by_its_readers(runs):
    """The thread that takes the items writes the text of an answer of 40,000 lines, and forms none of them."""
    lines = put(b"a", b"some text\n" * 40_000) + b"publish\n" * 3
    none, found = (runs.instructions_of_all_threads(SESSION_BESIDE, lines + search)[0] for search in (b"search y\n", b"search t\n"))
    yield "instructions of the thread that writes 40,000 lines", found - none, -none, 500_000


def searches_that_are_too_slow_are_read_once(runs):
    """A search that its reader has given up, since its time was over, takes no more memory than one that has an answer."""
    words, script = ["--live", "--readers", "1", "--search-ms", "5000"], SMALL + b"search (hello|world)+ *[a-z]+$\nsync\n" * 200
    answered, given_up = (runs.with_a_clock(words, script, STEP=step) for step in ("0", "10"))
    yield "searches of 200 that are too slow", answered.text.count(b" refused: too slow"), 0, 0
    yield "searches of 200 that are too slow by a clock that goes on", given_up.text.count(b" refused: too slow"), 200, 200
    yield "requests more for them", given_up.requests - answered.requests, -answered.requests, 0


def turns_of_searches_that_are_too_slow(runs):
    """A search that was stopped for another one, and then is too slow, leaves nothing. By this clock each search is stopped at once."""
    words, base = ["--live", "--readers", "1", "--search-ms", "200000"], documents(300) + b"publish\n"
    rounds = [base + b"search two.*q\nsearchin ^f0$ y\nsync\n" * count + b"search y\n" for count in (500, 8_000)]
    few, many = (runs.with_a_clock(words, script, STEP="1") for script in rounds)
    yield "searches of 8,000 that are too slow", many.text.count(b" refused: too slow"), 7_900, 8_500
    yield "bytes in use after 7,500 more searches that are too slow", many.held - few.held, -few.held, 65_536


def turns_of_a_search_are_added_up(runs):
    """A search is stopped for each of 400 later ones, by a clock that goes on by a second each time that it is looked at. Its times show what it
    worked in all of its turns, and not in the last one alone."""
    script = documents(10_000) + b"publish\nsearch two.*q\n" + b"searchin ^f0$ y\n" * 400 + b"sync\n"
    text = runs.with_a_clock(["--live", "--readers", "1", "--times"], script, STEP="1").text
    worked = int(re.search(rb"search 1 version 10000 lines 0 waited \d+ worked (\d+)", text)[1])
    yield "seconds that a search has worked that was stopped again and again", worked // 1_000_000, 100, 100_000


def clocks_are_looked_at_seldom(runs):
    """A search with a limit of time looks at the clock for each 64 KiB that is matched, and for each 64 KiB of text, not for each line. Some
    looks more are for its turn, and before and after a pattern is compiled."""
    made = runs.memory(SESSION_IN_TIME, put(b"a", b"some text\n" * 40_000) + b"publish\nsearch t\n")
    yield "looks at the clock for 40,000 lines", made.looks, 1, (400_000 + len(made.text)) // 65_536 + 60
    # without such a limit there is only the turn to look for, where others wait, and none does behind a search that was stopped
    slow = put(b"slow", slow_body(2, 16_000)) + documents(10_000) + b"publish\nsearchin ^slow$ %s\nsearch y\nsync\n" % SLOW
    none, asked = (runs.memory(SESSION_OF_ONE_READER, slow + search).looks for search in (b"", b"search two\n"))
    yield "looks at the clock for 10,000 documents behind a search that was stopped", asked - none, -none, 1_000


def answers_of_readers_stand(runs):
    """The thread that takes the items makes no answer again that a reader has made, also if there is one reader, if over 1,024 versions were
    published since a search was asked that is still open, and if a search was stopped for later ones that were answered at later versions."""
    body = put(b"a", b"some text\n" * 100_000)
    search = b"searchin ^a$ e.*z\n"
    for way in SCRIPT_OF_ONE, SESSION_OF_ONE_READER:
        none, asked = (first_thread(runs, way, body + b"publish\n" + search * count) for count in (0, 20))
        yield f"instructions of the first thread for 20 searches of 1 MB in a {way}", asked - none, 0, 20 * 200_000
    slow = put(b"slow", slow_body(2, 16_000)) + body + b"publish\nsearchin ^slow$ %s\n" % SLOW
    slow += (put(b"b", b"x") + b"publish\n") * 1_100
    none, asked = (first_thread(runs, SESSION_BESIDE, slow + search * count + b"cancel 1\n") for count in (0, 20))
    yield "instructions of the first thread for 20 searches of 1 MB beside 1,100 publishes", asked - none, -none, 20 * 200_000
    later = (put(b"b", b"x") + b"publish\nsearchin ^b$ x\n") * 5
    none, asked = (first_thread(runs, SESSION_OF_ONE_READER, body + b"publish\n" + (search * count + later) * 20) for count in (0, 1))
    yield "instructions of the first thread for 20 searches of 1 MB that are stopped for later ones", asked - none, -none, 20 * 200_000


def first_thread(runs, way, script):
    """The instructions of the thread that takes the items."""
    return runs.instructions_of_all_threads(way, script)[0]


def limits_of_time_are_kept(runs):
    """With a clock that goes on by ten seconds less than its limit a search is answered, and by ten seconds more it is too slow."""
    for limit in 60_000, 100_000, 20_000_000, 2_200_000_000, 4_294_967_295:
        for more in -10, 10:
            words = ["--readers", "0", "--search-ms", str(limit)]
            late = runs.with_a_clock(words, SMALL + b"search o w\n", JUMP=str(limit // 1_000 + more)).text.count(b" refused: too slow")
            yield f"searches with {limit} ms that are too slow {more:+} s from their end", late, int(more > 0), int(more > 0)


def searches_have_no_limit_without_a_clock(runs):
    """Where the clock cannot be read, a search is answered that takes far longer than its limit of a millisecond."""
    body = slow_body(1, 16_000)
    script = put(b"a", body) + put(b"b", body) + b"publish\nsearch %s\n" % SLOW
    for readers in "0", "1":
        words = ["--readers", readers, "--search-ms", "1"]
        for what, clock, late in ("that goes", {}, 1), ("that cannot be read", {"BROKEN": "1"}, 0):
            text = runs.with_a_clock(words, script, **clock).text
            yield f"searches that are too slow by a clock {what}, with {readers} readers", text.count(b" refused: too slow"), late, late
            yield f"searches that are answered with a clock {what}, with {readers} readers", text.count(b"search 1 version 2 lines "), 1 - late, 1 - late


def searches_that_wait_are_few(runs):
    """While the one reader of a run has a slow search, 1,024 others can wait for it, and no more are prepared."""
    slow = put(b"slow", slow_body(6, 16_000)) + SMALL + b"searchin ^slow$ %s\n" % SLOW
    waiting = b"search %s\n" % (b"[a-z]x" * 60)
    few, many = (runs.memory(SCRIPT_OF_ONE, slow + waiting * count).most for count in (2_000, 10_000))
    yield "bytes in use at once for 8,000 more searches behind a slow one", many - few, 0, 8_000 * 2_400


def searches_come_before_the_second_copy(runs):
    """A search that is there when a publish is over is taken before the second copy of the index is brought up to date. The last put takes
    so long that what follows it has been read by then."""
    chance = random.Random(1)
    puts = b"".join(put(b"f%d" % number, bytes(chance.choices(range(33, 255), k=10_000)) + b"\n") for number in range(40))
    puts += put(b"last", b"".join(bytes(chance.choices(range(33, 127), k=100)) + b"\n" for _ in range(10_000)))
    first, both = (runs.memory(SESSION_BESIDE, puts + b"publish\n" * count + b"search y\n").held for count in (1, 3))
    yield "bytes in use less when a search behind the first publish is answered", both - first, 2_000_000, both


def parts_of_a_search_are_even(runs):
    """Of a search of nine bodies of one length in three threads, each looks at three bodies, and of one of two bodies no thread at both."""
    large = b"".join(put(b"f%d" % number, own_body(b"some text\n" * 60_000, number)) + b"publish\n" for number in range(9))
    most, all_of_them = most_of_a_thread(runs, large + b"search e.*z\n")
    yield "instructions of the thread that does most of a search", most, all_of_them // 4, all_of_them // 2
    two = b"".join(put(b"f%d" % number, own_body(b"some text\n" * 100_000, number)) + b"publish\n" for number in range(2))
    most, all_of_them = most_of_a_thread(runs, two + b"search e.*z\n")
    yield "instructions of the thread that does most of a search of two bodies", most, all_of_them // 3, all_of_them * 2 // 3


def most_of_a_thread(runs, script):
    """The instructions of the thread that does most, and those of all, in the run of three in which it does least: on a busy machine a thread
    can begin so late that another one has done its part."""
    counts = [runs.instructions_of_threads(SCRIPT_BESIDE, script) for _ in range(3)]
    return min((max(threads), sum(threads)) for threads in counts)


def parts_of_a_search_are_gone_through_once(runs):
    """Also where a limit is gone beyond in the last of three parts."""
    large = b"".join(put(b"f%d" % number, own_body(b"some text\n" * 60_000 + b"end\n" * (number == 8) * 10, number)) + b"publish\n" for number in range(9))
    limited, whole = (sum(runs.instructions_of_threads(SCRIPT_BESIDE, large + b"find %s-- n.*d\n" % words)) for words in (b"-m 1 ", b""))
    yield "instructions of a search with a limit", limited, whole // 2, whole * 5 // 4
    large = b"".join(put(b"f%d" % number, own_body(b"some text\n" * 60_000 + b"end\n", number)) + b"publish\n" for number in range(9))
    with_hits = sum(runs.instructions_of_threads(SCRIPT_BESIDE, large + b"find -- n.*d\n"))
    yield "instructions of a search with hits in each part", with_hits, whole // 2, whole * 5 // 4


def publishes_change_one_copy(runs):
    """A publish changes the copy that no reader sees. The other one is changed by the next publish."""
    pending, once, twice = (runs.instructions(SCRIPT, documents(1000) + b"publish\n" * count) for count in (0, 1, 2))
    yield "instructions of a publish of nothing behind another", twice - once, (once - pending) // 4, once - pending


def copies_are_brought_up_to_date_once(runs):
    """A session that waits for items brings the second copy up to date when it first waits after a publish, and not each time. A publish
    does none of this again."""
    pending, shown = (runs.instructions_of_a_talk(SESSION_OF_ONE_READER, put(b"a", b"x") + b"publish\n" * count, 200) for count in (0, 1))
    yield "instructions of the first thread for 200 waits behind a publish", shown - pending, -pending, 200 * 500
    removed = runs.instructions_of_a_talk(SESSION_OF_ONE_READER, put(b"a", b"x") + b"publish\nremove a\n", 200)
    yield "instructions of the first thread for 200 waits behind a remove", removed - shown, -shown, 200 * 250
    first, both = (runs.instructions(SESSION, documents(1000) + b"publish\n" * count) for count in (1, 2))
    copy = both - first
    pending, once, twice = (
        runs.instructions_of_a_talk(SESSION_OF_ONE_READER, documents(1000) + b"publish\n" * count, 20) for count in (0, 1, 2)
    )
    both -= runs.instructions(SESSION, documents(1000))
    yield "instructions of the first thread for the two copies behind a publish", once - pending, both * 7 // 8, both * 9 // 8
    yield "instructions of the first thread for a second publish, beside the two copies", twice - once, -copy // 4, copy // 4


def numbers_of_documents_may_be_even(runs):
    """Between two of 256 documents there are commands that change nothing, so that the numbers differ by multiples of 512, which is just twice
    256, or of 511."""
    counts = []
    for step in (512, 511):
        between = put(b"z", b"x") * (step - 1)
        script = b"".join(put(b"f%d" % number, own_body(b"two", number)) + between for number in range(256)) + b"publish\n" * 3
        counts.append(runs.instructions(SESSION, script + b"find -q -- two\n" * 20) - runs.instructions(SESSION, script))
    even, odd = counts
    yield "instructions of searches of documents whose numbers differ by multiples of 512", even, odd // 2, odd * 9 // 8


def small_documents_are_searched_as_a_large_one(runs):
    """Beyond the first 8 KiB, lines are not looked at one by one, however small the documents are."""
    one = put(b"a", b"some text\n" * 20_000) + b"publish\n" * 3
    many = b"".join(put(b"f%d" % number, own_body(b"some text\n" * 50, number)) for number in range(400)) + b"publish\n" * 3
    large, small = (runs.instructions(SESSION, script + b"search [a-z]*x$\n" * 10) - runs.instructions(SESSION, script) for script in (one, many))
    yield "instructions of searches of small documents", small, 0, 2 * large


def memory_of_what_is_short(runs):
    """What takes little memory, or gives it back."""
    yield "bytes in use at once by a session with nothing", runs.memory(SESSION, b"").most, 0, 262_144
    yield "requests of 2 MiB for a put of 20 MB", runs.memory(SESSION, put(b"a", b"x" * 20_000_000), 2 << 20).large, 0, 0
    passed, refused = (runs.memory(SCRIPT, script).most for script in (b"#" + b"x" * 20_000_014 + b"\n", put(b"a", b"x" * 20_000_000)))
    yield "bytes in use at once more for a put of 20 MB in a run than for a comment", refused - passed, -refused, 262_144
    line = b"find " + b"-i " * 400_000 + b"-- x\n"
    yield "bytes in use at once by a line of 1.2 MB", runs.memory(SESSION, line).most, len(line), 4 * len(line)
    option = b"find -" + b"o" * 1_200_000 + b" -- x\n"
    yield "bytes in use at once by an option of 1.2 MB", runs.memory(SESSION, option).most, len(option), 6 * len(option)
    loads = [b"".join(b"load f%d examples/tree/README\n" % number for number in range(count)) for count in (100, 200)]
    few, many = (runs.memory(SESSION, script + b"publish\n" * 3 + b"search y\n").held for script in loads)
    yield "bytes in use after 100 more loads of a small file", many - few, 0, 100 * 4_096
    short, long = (runs.memory(SESSION, put(name, b"\n" * 100_000) + b"publish\nsearch ^\n").most for name in (b"n", b"n" * 240))
    yield "bytes in use at once for an answer with a long name", long - short, -short, 300_000
    lines = put(b"a", b"\n" * 500_000) + b"publish\n"
    none, all_lines = (runs.memory(SCRIPT, lines + search).held for search in (b"search y\n", b"search ^\n"))
    yield "bytes in use after the text of a run is written", all_lines - none, -none, 300_000
    lines += b"publish\n" * 2
    none, written = (runs.memory(SESSION_BESIDE, lines + search + b"search y\n").held for search in (b"", b"search ^\nsync\n"))
    yield "bytes in use after the text of an answer that a reader has formed is written", written - none, -none, 600_000
    wide = put(b"a", (b"x" * 16_000 + b"\n") * 64) + b"publish\n"
    one, many = (runs.memory(SCRIPT_BESIDE, wide + b"search x\n" * count).most for count in (1, 16))
    yield "bytes in use at once for 15 more answers of 1 MB in a run", many - one, -one, 3_000_000
    wide = b"".join(put(b"f%d" % number, own_body((b"x" * 16_000 + b"\n") * 64, number)) for number in range(6)) + b"publish\n"
    none, answered = (runs.memory(SESSION_BESIDE, wide + search, 700_000).large for search in (b"", b"search x\n"))
    yield "requests of 700,000 bytes for an answer that is formed in three parts", answered - none, 0, 0


def bodies_are_gone_through_fast(runs):
    """What takes less than an instruction for a byte: line feeds of a body that is too long."""
    for way in BOTH:
        few, many = (runs.instructions(way, put(b"a", b"some text\n" * count)) for count in (200_000, 2_000_000))
        yield f"instructions for 18 MB of a body that is too long in a {way}", many - few, 0, 36_000_000
    few, many = (runs.memory(SESSION, put(b"a", b"some text\n" * count)).most for count in (10, 100_000))
    yield "bytes in use at once for a MB with few trigrams", many - few, 1_000_000, 2_000_000


def large_bodies_are_analysed_in_little_memory(runs):
    """A body of 64 MiB that has nearly all trigrams, beside itself, takes at most three times its length until it is published."""
    body = random.Random(1).randbytes(1 << 26).translate(bytes([1, *range(1, 256)]))
    most = runs.memory(SESSION_OF_LONG_LINES, put(b"a", body) + b"publish\n").most
    yield "bytes in use at once for 64 MiB of random bytes", most, len(body), 4 * len(body)


def input_is_read_in_large_pieces(runs):
    script = put(b"a", b"some text\n" * 100_000) + b"# a comment\n" * 10_000
    for way in BOTH:
        yield f"reads of a {way} of {len(script)} bytes", runs.memory(way, script).reads, 1, len(script) // 32_768 + 40


LETTERS = bytes([*range(65, 91), *range(97, 123), *range(48, 58)])
# The searches that are known to take most to be prepared (bench/preparing.py looks for others).
HARD = [
    b"search (%s){29}" % b"".join(b"[!-0]%c" % letter for letter in LETTERS + LETTERS[:8]),
    b"search (abcdefghijkl[!-0]){255}",
    b"search (abcdefghijklmnopqrstuvwxyzABCDEF[!-0]){2}",
    b"search 4[H-W]E(NijEdghiD{8}jk4m2b2qo{8}K{8}{2}rstsivwrxy8z]98[!-0]){2}1",
    b"search " + b"([!-0]1{63}){4,}" * 16,
    b"search " + b"([!-/]|xy){9}" * 60,
    b"search " + b"(".join(b"[!-0]%c[!-0]%c" % (LETTERS[at], LETTERS[at + 1]) for at in range(60)) + b")" * 59,
    b"isearch A(4{63}[$-3]){8}|V{8}(1{60}[$-3]){4}(1{60}[$-3]){4}",
    b"isearch " + bytes(random.Random(1).choices(LETTERS[:26], k=1024)),
]


def preparations_are_small(runs):
    """A search that is prepared takes at most 300 bytes for each byte of its pattern, and 64 KiB, and at most 80
    million instructions, of which a processor carries out some 3,000 in a microsecond. A program with checks takes more of them."""
    easy = b"search x\n"
    for search in HARD:
        length = len(search.split(b" ")[1])
        shown = search.decode() if len(search) < 60 else search[:57].decode() + "..."
        bytes_more = runs.memory(SESSION, search + b"\n").most - runs.memory(SESSION, easy).most
        yield f"bytes for {shown}", bytes_more, 0, 300 * length + 65_536
        work = runs.instructions(SESSION, search + b"\n") - runs.instructions(SESSION, easy)
        yield f"instructions for {shown}", work, 0, 80_000_000
    # no trigrams are looked for
    find = b"find -v -- " + HARD[0].split(b" ", 1)[1] + b"\n"
    yield "instructions for lines without a match", runs.instructions(SESSION, find) - runs.instructions(SESSION, easy), 0, 1_000_000


CHECKS = [
    preparations_are_small,
    copies_of_a_body,
    documents_are_analysed_once,
    bodies_of_a_publish_are_analysed_by_all_threads,
    documents_are_filled_together_as_fast,
    documents_that_wait_for_a_publish,
    trigrams_that_one_document_has,
    documents_that_are_gone,
    removes_under_a_prefix_and_single_removes,
    much_that_goes_takes_no_longer_than_new_documents,
    pages_of_a_document_that_comes_and_goes,
    names_that_are_kept,
    room_under_a_prefix,
    answers_without_hits,
    room_for_candidates,
    lists_are_passed_in_blocks,
    candidates_behind_a_limit_are_not_taken,
    limits_are_reached_early,
    patterns_are_compiled_once,
    lines_are_matched_once,
    contents_are_matched_once,
    simulations_are_made_once,
    simulations_read_no_more_than_they_must,
    simulations_are_small,
    simulations_of_equal_patterns,
    texts_are_written_once,
    items_that_take_no_memory,
    puts_that_are_refused_are_not_analysed,
    publishes_of_nothing_hold_nothing,
    lanes_that_are_gone,
    searches_beside_others,
    texts_are_formed_beside_one_another,
    texts_of_a_session_are_formed_by_its_readers,
    clocks_are_looked_at_seldom,
    searches_have_no_limit_without_a_clock,
    answers_of_readers_stand,
    limits_of_time_are_kept,
    searches_that_are_too_slow_are_read_once,
    turns_of_searches_that_are_too_slow,
    turns_of_a_search_are_added_up,
    searches_that_wait_are_few,
    searches_come_before_the_second_copy,
    parts_of_a_search_are_even,
    parts_of_a_search_are_gone_through_once,
    publishes_change_one_copy,
    copies_are_brought_up_to_date_once,
    numbers_of_documents_may_be_even,
    small_documents_are_searched_as_a_large_one,
    memory_of_what_is_short,
    bodies_are_gone_through_fast,
    large_bodies_are_analysed_in_little_memory,
    input_is_read_in_large_pieces,
]


def faults_of_check(runs, check, show):
    """For each count of a check, what is wrong, or None."""
    faults = []
    for what, count, least, most in check(runs):
        if show:
            print("%-60s %d, from %d to %d" % (what, count, least, most), flush=True)
        faults.append(None if least <= count <= most else f"{check.__name__}: {count} {what}; it should be from {least} to {most}")
    return faults


def faults_in_time(runs, show, named, find, *words):
    """What is wrong by `find`, or that a run has not ended or has failed."""
    try:
        return find(runs, *words, show)
    except subprocess.TimeoutExpired:
        return [f"{named.__name__}: a run did not end in {SECONDS} seconds"]
    except Wrong as wrong:
        return [f"{named.__name__}: {wrong}"]


def main():
    show = "--show" in sys.argv[1:]
    wanted = [word for word in sys.argv[1:] if word != "--show"]
    known = [row.growth for row in GROWTHS] + CHECKS
    missing = sorted(set(wanted) - {it.__name__ for it in known})
    if missing:
        sys.exit(f"tests/growth.py: no such name: {', '.join(missing)}")
    need_program()
    counted = Counted()
    with tempfile.TemporaryDirectory() as folder, concurrent.futures.ThreadPoolExecutor(os.cpu_count()) as pool:
        runs = Runs(folder)
        jobs = [(row.growth, faults_of_growth, row, way) for row in GROWTHS for way in row.ways]
        jobs += [(check, faults_of_check, check) for check in CHECKS]
        jobs = [job for job in jobs if not wanted or job[0].__name__ in wanted]
        for faults in pool.map(lambda job: faults_in_time(runs, show, *job), jobs):
            counted.judge(faults)
    counted.end()


if __name__ == "__main__":
    main()
