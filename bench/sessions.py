"""What readers bring to a session: python3 bench/sessions.py FOLDER.

Prints four tables, over the folder's files or over text of its own:

- how long a client waits for the answer to a search for a rare word, with 0, 2 and 4 readers;
- how many searches a second four clients get from one session, each of which waits for its answer before it sends the next, with
  0, 1, 2 and 4 readers, where a search takes some milliseconds by itself;
- how long it takes from a changed file to an answer in which it is found, in a session with nothing else to do, and while a search is
  at work that takes longer than all of these changes; the first change of a session, right after the first publish, is told apart;
- the seconds of a run of 200 searches with many matches (those of readers.py), with 0 and 4 readers.

What is compared is measured in turns, so that the machine is equally fast for all of it. Each table has the least or most and the
median, and in its last column what is wanted of the medians on four processors. One thread in Python serves the clients.
"""
import os
import random
import statistics
import sys
import tempfile
import time

import build
import client
import command
import corpus
import quiet
import timed
from quiet import TURNS, in_turns

ROUND_TRIPS = 1_000
CLIENTS = 4
SEARCHES_OF_A_CLIENT = 250
CHANGES = 200
RARE = b"search rare_word_of_the_bench\n"
# Large counts in a row inside a star: for each byte the simulation looks at some 3,000 places.
SLOW = rb"searchin ^slow_lines$ x(" + rb"([ab]{0,20}c?){3}" * 50 + rb"d$|[ab])*e" + b"\n"
TEXT = b"searchin ^text_of_%d$ ([a-m ][n-z ]){14}$\n"
LENGTHS = [2**power for power in range(14, 21)]


def start(numbers, documents):
    """A session for each number of readers, which has the documents."""
    sessions = {}
    for number in numbers:
        sessions[number] = session = client.Session("--readers", str(number))
        session.put_all(documents, RARE)
    return sessions


def round_trips(documents):
    sessions = start((0, 2, 4), {**documents, b"rare": b"int rare_word_of_the_bench;\n"})
    taken = in_turns("round trips", sessions, lambda session: [session.ask(RARE)[1] for _ in range(ROUND_TRIPS)])
    medians = {number: 1e6 * statistics.median(seconds) for number, seconds in taken.items()}
    columns = ["readers", "least / median / 99% / most, ms", "more than without, us", "wanted"]
    command.head(columns, "A search for a rare word, from before it is sent until its answer is read")
    for number, seconds in taken.items():
        command.row(number, command.shown(command.times(seconds)), "%.0f" % (medians[number] - medians[0]), "at most 40" if number else "")
    for session in sessions.values():
        session.end()


class Clients:
    """Clients that share a session, each with one search open: once its answer is read, which has no lines, it sends the next. One
    thread serves them all, since threads of one Python program wait for each other."""

    def __init__(self, session, search):
        self.session, self.search = session, search

    def send(self, number):
        self.session.searches += number
        self.session.process.stdin.write(self.search * number)

    def read(self, rest):
        """How many answers came, and the beginning of the next one."""
        *lines, rest = (rest + self.session.process.stdout.read(65_536)).split(b"\n")
        for line in lines:
            words = line.split()
            if words[0] != b"search" or words[-1] != b"0":
                sys.exit("bench/sessions.py: not an answer without lines: %r" % line)
        return len(lines), rest

    def run(self):
        """How many searches a second all clients get, as the only one of a list."""
        left, rest = CLIENTS * SEARCHES_OF_A_CLIENT, b""
        begun = time.perf_counter()
        self.send(CLIENTS)
        while left:
            came, rest = self.read(rest)
            self.send(min(came, max(0, left - CLIENTS)))
            left -= came
        return [CLIENTS * SEARCHES_OF_A_CLIENT / (time.perf_counter() - begun)]


def search_of_milliseconds(session):
    """A search that takes about four milliseconds by itself, or as near as there is one, and how many it takes. With much shorter
    ones the clients limit the answers a second, since they are written in Python."""
    times = {}
    for length in LENGTHS:
        search = TEXT % length
        times[search] = 1000 * statistics.median(session.ask(search)[1] for _ in range(50))
    return min(times.items(), key=lambda pair: abs(pair[1] - 4))


def clients():
    line = 64
    sessions = start((0, 1, 2, 4), {b"text_of_%d" % length: corpus.random_lines(b"abcdefghijklmnopqrstuvwxyz ", line, length // line) for length in LENGTHS})
    search, alone = search_of_milliseconds(sessions[0])
    taken = in_turns("clients", sessions, lambda session: Clients(session, search).run())
    medians = {number: statistics.median(rates) for number, rates in taken.items()}
    title = "Four clients of one session, with searches that take %.2f ms by themselves" % alone
    command.head(["readers", "searches a second, most / median", "times as many as without", "times as many as with one", "wanted"], title)
    for number, rates in taken.items():
        times = ["%.2f" % (medians[number] / medians[other]) for other in (0, 1)]
        command.row(number, "%.0f / %.0f" % (max(rates), medians[number]), *times, "2.5 times as many as without" if number == 4 else "")
    for session in sessions.values():
        session.end()


def beside_a_search(session, measure):
    """Measures while a slow search is at work, which is cancelled afterwards."""
    session.searches += 1
    slow = session.searches
    session.process.stdin.write(SLOW)
    result = measure()
    session.process.stdin.write(b"cancel %d\n" % slow)
    entry = session.process.stdout.read(65_536)
    if entry != b"search %d refused: cancelled\n" % slow:
        sys.exit("bench/sessions.py: the slow search has ended too soon: %r" % entry)
    return result


def changes(documents):
    low, high = client.LENGTHS["10 KB"]
    names = [name for name, body in documents.items() if low <= len(body) <= high]
    if not names:
        sys.exit("bench/sessions.py: the folder has no file of about 10 KB")
    more = dict(documents)
    more[b"slow_lines"] = b"".join(b"x" + line + b"\n" for line in corpus.random_lines(b"ab", 16_000, 64).splitlines())
    rng = random.Random(1)
    sessions, first = {}, []
    for what in ("nothing else", "a long search"):
        sessions[what] = start([2], more)[2]
        first += client.changes(sessions[what], documents, names, False, 1, rng)

    def measure(session):
        def change():
            return client.changes(session, documents, names, False, CHANGES, rng)

        return beside_a_search(session, change) if session is sessions["a long search"] else change()

    taken = in_turns("changes", sessions, measure)
    idle = statistics.median(taken["nothing else"])
    columns = ["at work", "least / median / 99% / most, ms", "times as long as with nothing else", "wanted"]
    command.head(columns, "A change of a file of 10 KB, from before it is sent until it is found, with 2 readers")
    for what, seconds in taken.items():
        command.row(what, command.shown(command.times(seconds)), "%.2f" % (statistics.median(seconds) / idle), "at most 2" if what == "a long search" else "")
    print("\nthe first change of these sessions, sent when the first answer is read: %.2f and %.2f s" % tuple(first))
    for session in sessions.values():
        session.end()


def seconds_of_runs(words):
    """The seconds of one run with each of these words."""
    return [timed.run([build.PROGRAM, *one])["seconds"] for one in words]


def runs(target):
    most = ["--max-commands", "1000000"]
    scripts = [corpus.script_with(target, [], "puts_alone"), corpus.script_with(target, corpus.MANY_MATCHES)]
    words = [["--readers", number, *most, script] for number in ("0", "4") for script in scripts]
    taken = [quiet.measured("runs, turn %d" % (turn + 1), lambda: seconds_of_runs(words)) for turn in range(TURNS)]
    seconds = {"0": [one[1] - one[0] for one in taken], "4": [one[3] - one[2] for one in taken]}
    columns = ["readers", "seconds, least / median", "of the time without", "wanted"]
    command.head(columns, "A run of %d searches, without the time to the first publish" % len(corpus.MANY_MATCHES))
    alone = statistics.median(seconds["0"])
    for number, spent in seconds.items():
        median = statistics.median(spent)
        command.row(number, command.shown((min(spent), median)), "%.2f" % (median / alone), "at most 0.45" if number == "4" else "")


def main():
    folder = command.words(__doc__)[0]
    build.need_program()
    documents = corpus.documents_of(folder)
    print("%d processors; files %d, %.1f MB; %d turns" % (os.cpu_count(), len(documents), sum(map(len, documents.values())) / 1e6, TURNS))
    round_trips(documents)
    clients()
    changes(documents)
    with tempfile.TemporaryDirectory() as target:
        corpus.make(folder, target)
        runs(target)
    print("\n" + quiet.told())


if __name__ == "__main__":
    main()
