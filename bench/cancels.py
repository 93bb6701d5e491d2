"""How soon a cancel is answered and its reader free, and what it costs to look for one: python3 bench/cancels.py FOLDER.

Prints two tables, in some six minutes, for sessions with one reader over the folder's files and a few documents of long lines:

- how long it takes from before a cancel is sent until its entry is read, and until the search that is sent with it is answered, which
  finds nothing and takes next to no time by itself. The cancel comes at a random moment of a search that is at work. Searches that are
  answered before their cancels do not count. The patterns are ordinary ones, then ones with stars inside stars or with large counts, and
  at last one with a star of large counts over documents of long lines;
- how many searches a second a session answers with a limit of time, which no search comes to, and without: for each name and each
  document a search reads the clock if there is a limit, and a flag in any case.

The first table has the median, the 99th percentile and the worst time of 200 cancels for each pattern, or of as many as half a minute
allows. What is compared in the second is measured in turns, so that the machine is equally fast for all of it. The client is one thread
in Python.
"""
import os
import random
import select
import statistics
import sys
import time

import build
import client
import command
import corpus
import quiet

CANCELS = 100
# So many seconds of a search are its moments, if it takes as long.
MOMENTS = 0.5
MOST_TRIES = 4_000
# So many seconds are spent on a pattern at most.
SECONDS = 30
NOTHING = b"search zzqqxxyy_none\n"
LIMIT = ["--search-ms", "60000"]
BATCH = 100

# Long lines, in which a pattern with large counts looks at each byte: in a document each, and all in one.
LONG_LINES = corpus.random_lines(b"ab", 16_000, 64)
LONG_DOCUMENTS = {b"long_line_%d" % number: b"x" + line for number, line in enumerate(LONG_LINES.splitlines(True))}
LONG_DOCUMENTS[b"long_lines"] = b"".join(b"x" + line for line in LONG_LINES.splitlines(True))
COUNTS = rb"x([ab]|a([ab]{250}){15}c|d$)*e"

# What is searched for, and the searches. None of the patterns asks for a trigram, so each of them looks at all documents.
CANCELLED = [
    ("a plain pattern", rb"search x.*y.*z"),
    ("classes and a count", rb"search [0-9]{2,4}[-/.][0-9]{2}[-/.][0-9]{2,4}$"),
    ("case ignored", rb"isearch ^[^a-z]*q.*[^a-z]*v$"),
    ("names alone", rb"searchin q.*x.*z$ ."),
    ("stars inside stars", rb"search ((a*|b)*|c)*@#"),
    ("a count of stars", rb"search (.*a){100}@"),
    ("counts inside a count", rb"search (.{0,60}x){60}"),
    ("a star of large counts", rb"search [a-z]([a-z ]|,([a-z ]{250}){15}q|;$)*@"),
    ("a star of large counts, documents of one long line", rb"searchin ^long_line_ " + COUNTS),
    ("a star of large counts, one document of long lines", rb"searchin ^long_lines$ " + COUNTS),
]

# The searches whose rate is measured.
RATES = [
    ("no candidate", NOTHING),
    ("each name", b"searchin ^zzqq x\n"),
    ("each document", b"search x.*y.*z\n"),
]


class Session(client.Session):
    """A session whose entries are read one by one."""

    def __init__(self, documents, *words):
        super().__init__("--readers", "1", *words)
        self.rest = b""
        self.put_all(documents, NOTHING)

    def send(self, items, searches):
        """Sends items with so many searches, and returns the number of the last."""
        data = memoryview(items)
        while data:
            data = data[self.process.stdin.write(data) :]
        self.searches += searches
        return self.searches

    def read_lines(self, count):
        """Reads so many lines, and returns the first."""
        ends = self.rest.count(b"\n")
        while ends < count:
            more = self.process.stdout.read(1 << 20)
            if not more:
                sys.exit("bench/cancels.py: the session ended")
            self.rest += more
            ends += more.count(b"\n")
        *lines, self.rest = self.rest.split(b"\n", count)
        return lines[0]

    def read_entry(self):
        """The first line of the next entry, which is read whole, as words."""
        words = self.read_lines(1).split()
        if words[2] == b"version" and words[5] != b"0":
            self.read_lines(int(words[5]))
        return words


def seconds_alone(session, search):
    """How many seconds a search takes by itself, the least of three, but at most MOMENTS."""
    taken = []
    for _ in range(3):
        number = session.send(search + b"\n", 1)
        start = time.perf_counter()
        if not select.select([session.process.stdout], [], [], MOMENTS)[0]:
            session.send(b"cancel %d\n" % number, 0)
            session.read_entry()
            return MOMENTS
        session.read_entry()
        taken.append(time.perf_counter() - start)
    return min(taken)


def seconds_of_cancel(session, search, moment):
    """The seconds until a cancel's entry is read, and until the next search is answered; None if the search was answered before."""
    number = session.send(search + b"\n", 1)
    time.sleep(moment)
    start = time.perf_counter()
    session.send(b"cancel %d\n" % number + NOTHING, 1)
    entry = session.read_entry()
    at_entry = time.perf_counter()
    if entry[:2] != [b"search", b"%d" % number]:
        sys.exit("bench/cancels.py: not the entry of search %d: %r" % (number, entry))
    following = session.read_entry()
    at_answer = time.perf_counter()
    if following[:3] != [b"search", b"%d" % (number + 1), b"version"] or following[-1] != b"0":
        sys.exit("bench/cancels.py: not the answer of search %d: %r" % (number + 1, following))
    return (at_entry - start, at_answer - start) if entry[-1] == b"cancelled" else None


def shown(seconds):
    """The median, the 99th percentile and the most of some times, in milliseconds."""
    return command.shown(command.times(seconds)[1:])


def cancels(documents):
    session, chance = Session(documents), random.Random(1)
    columns = ["pattern", "the search by itself, ms", "cancels", "to the entry, median / 99% / most, ms", "to the next answer, median / 99% / most, ms"]
    command.head(columns, "A cancel, from before it is sent")
    for what, search in CANCELLED:
        alone, times, tries, begun = seconds_alone(session, search), [], 0, time.perf_counter()
        while len(times) < CANCELS and tries < MOST_TRIES and time.perf_counter() - begun < SECONDS:
            tries += 1
            found = seconds_of_cancel(session, search, alone * chance.random())
            times += [found] if found else []
        name = "%s: %s" % (what, command.code(search.decode()))
        by_itself = "over %.0f" % (1000 * MOMENTS) if alone == MOMENTS else "%.1f" % (1000 * alone)
        if times:
            command.row(name, by_itself, len(times), shown(entry for entry, _ in times), shown(answer for _, answer in times))
        else:
            command.row(name, by_itself, 0, "", "")
    session.process.kill()


def rate(session, search):
    """How many of a batch of searches a second are answered, as the only one of a list."""
    start = time.perf_counter()
    session.send(search * BATCH, BATCH)
    for _ in range(BATCH):
        session.read_entry()
    return [BATCH / (time.perf_counter() - start)]


def rates(documents):
    compared = {"without": Session(documents), "with": Session(documents, *LIMIT)}
    columns = ["searches that look at", "without, most / median", "with, most / median", "with by without, of the medians"]
    command.head(columns, "Searches a second, %d sent at once, without and with %s" % (BATCH, " ".join(LIMIT)))
    for what, search in RATES:
        taken = quiet.in_turns(what, compared, lambda session, search=search: rate(session, search))
        cells = ["%.1f / %.1f" % (max(found), statistics.median(found)) for found in taken.values()]
        medians = [statistics.median(found) for found in taken.values()]
        command.row("%s: `%s`" % (what, search.decode().strip()), *cells, "%.3f" % (medians[1] / medians[0]))
    for session in compared.values():
        session.end()


def main():
    folder = command.words(__doc__)[0]
    build.need_program()
    documents = corpus.documents_of(folder)
    print("%d processors; files %d, %.1f MB" % (os.cpu_count(), len(documents), sum(map(len, documents.values())) / 1e6))
    cancels({**documents, **LONG_DOCUMENTS})
    rates(documents)
    print("\n" + quiet.told())


if __name__ == "__main__":
    main()
