"""Measures how fast documents are taken in: python3 bench/filling.py [--copies N] FOLDER..

For each folder, with so many copies of it side by side (1), the files that may be documents are read by `load` lines: once by a session
with a reader for each processor but one, and once by one without readers that has one processor. The time is from the first byte sent
until the first answer is read, the least and the median of three runs; beside it that of `cindex` from scratch, also with all
processors and with one, and the most memory that each took.

Then a session with two readers reads the same by pieces of sixteen loads, and behind each stands a status, a search for a word that is
nowhere and a search that is cancelled at once. A publish comes after each thousand loads. Printed is how long each waited for its line:
the status for its own, the search for its answer, the cancel for its refusal. Those right behind a publish are told apart, since they
wait for it. At the end 11,000 documents, or all if there are fewer, change at once, and one document of about 10 KB by itself.
"""
import argparse
import os
import shutil
import statistics
import subprocess
import tempfile
import threading
import time

import build
import client
import command
import corpus
import timed

RUNS = 3
CHANGED = 11_000
EACH = 1_000
PIECE = 16
NOWHERE = b"search zzqqxxyy\n"


def copied(folder, target, copies):
    """Copies the files that may be documents below `target`/files, each so many times. Returns their names and paths, and their bytes."""
    names, size = [], 0
    documents = corpus.documents_of(folder)
    for number in range(copies):
        for name, body in documents.items():
            under = b"%d/%s" % (number, name)
            if not corpus.is_name(under):
                continue
            path = os.path.join(os.fsencode(target), b"files", under)
            os.makedirs(os.path.dirname(path), exist_ok=True)
            with open(path, "wb") as file:
                file.write(body)
            names.append((under, path))
            size += len(body)
    return names, size


def loads(names):
    return b"".join(b"load %s %s\n" % pair for pair in names)


def on(processors, words):
    return words if processors > 1 else ["taskset", "-c", "0", *words]


def first_answer(processors, items):
    """The seconds until the first answer, and the most memory of the session."""
    words = on(processors, [build.PROGRAM, "--live", "--max-commands", "4294967294", "--readers", str(processors - 1)])
    process = subprocess.Popen(words, stdin=subprocess.PIPE, stdout=subprocess.PIPE, bufsize=0)
    start = time.perf_counter()
    feeding = threading.Thread(target=lambda: (process.stdin.write(items), process.stdin.write(b"publish\n" + NOWHERE)))
    feeding.start()
    process.stdout.read(1)
    seconds = time.perf_counter() - start
    feeding.join()
    with open("/proc/%d/status" % process.pid) as status:
        most = 1024 * int(status.read().split("VmHWM:")[1].split()[0])
    process.stdin.close()
    process.wait()
    return seconds, most


def cindex(processors, target):
    env = dict(os.environ, CSEARCHINDEX=os.path.join(target, "csearchindex"), GOMAXPROCS=str(processors))
    if os.path.exists(env["CSEARCHINDEX"]):
        os.remove(env["CSEARCHINDEX"])
    found = timed.run(on(processors, ["cindex", os.path.join(target, "files")]), env=env)
    return found["seconds"]


def read_times(names, size, target):
    command.head(["processors", "tsearch, s", "MB/s", "memory, bytes a byte", "cindex, s", "tsearch : cindex"])
    for processors in (os.cpu_count(), 1):
        ours = [first_answer(processors, loads(names)) for _ in range(RUNS)]
        seconds = [second for second, _ in ours]
        theirs = [cindex(processors, target) for _ in range(RUNS)] if shutil.which("cindex") else []
        ratio = "%.2f" % (statistics.median(seconds) / statistics.median(theirs)) if theirs else "-"
        shown = [" / ".join("%.2f" % value for value in (min(values), statistics.median(values))) if values else "-" for values in (seconds, theirs)]
        command.row(processors, shown[0], "%.0f" % (size / statistics.median(seconds) / 1e6), "%.2f" % (max(most for _, most in ours) / size), shown[1], ratio)


class Asking:
    """A session that is asked, and whose lines are read as they come, with the time of each."""

    def __init__(self, readers):
        words = [build.PROGRAM, "--live", "--max-commands", "4294967294", "--readers", str(readers)]
        self.process = subprocess.Popen(words, stdin=subprocess.PIPE, stdout=subprocess.PIPE, bufsize=0)
        self.lines = 0
        self.searches = 0
        self.asked = {}
        self.waits = {}
        self.text = b""

    def send(self, items, count):
        self.lines += count
        self.process.stdin.write(items)

    def ask(self, what):
        """Asks for a status, for a search, and for one that is cancelled at once, and waits for all three."""
        status, search, cancelled = self.lines + 1, self.searches + 1, self.searches + 2
        start = time.perf_counter()
        self.send(b"status\n" + NOWHERE + b"search ((a|b)*c)*[a-z]*d\ncancel %d\n" % cancelled, 4)
        self.searches += 2
        open_lines = {b"line %d status " % status: "a status", b"search %d version " % search: "a search", b"search %d " % cancelled: "a cancel"}
        while open_lines:
            self.text += self.process.stdout.read(65_536)
            now = time.perf_counter()
            *lines, self.text = self.text.split(b"\n")
            for line in lines:
                for front in [front for front in open_lines if line.startswith(front)]:
                    self.waits.setdefault(open_lines.pop(front) + what, []).append(now - start)

    def end(self):
        self.process.stdin.close()
        self.process.wait()


def beside_a_feed(names):
    """How long a status, a search and a cancel wait while documents are loaded and published."""
    session = Asking(2)
    for number in range(0, len(names), PIECE):
        part = names[number : number + PIECE]
        session.send(loads(part), len(part))
        session.ask("")
        if number % EACH < PIECE:
            session.send(b"publish\n", 1)
            session.ask(" right behind a publish")
    session.end()
    command.head(["beside a feed", "how many", "least / median / 99% / most, ms"])
    for what, waits in session.waits.items():
        command.row(what, len(waits), command.shown(command.times(waits)))


def changes(documents):
    session = client.Session("--readers", "2", "--max-commands", "4294967294")
    session.put_all(documents, NOWHERE)
    session.ask(b"publish\n" + NOWHERE)
    command.head(["changed at once", "documents", "least / median, ms"])
    many = list(documents)[:CHANGED]
    taken = []
    for turn in range(RUNS):
        items = b"".join(corpus.put(name, documents[name] + b"\nturn %d\n" % turn) for name in many)
        session.process.stdin.write(items)
        _, _ = session.ask(NOWHERE)
        taken.append(session.ask(b"publish\n" + NOWHERE)[1])
    command.row("a publish of many", len(many), command.least_and_median(taken))
    one = next((name for name, body in documents.items() if 9_000 <= len(body) <= 11_000), many[0])
    taken = [session.ask(corpus.put(one, documents[one] + b"\none %d\n" % turn) + b"publish\n" + NOWHERE)[1] for turn in range(500)]
    command.row("one line more in 10 KB, until it is found", 1, command.least_and_median(taken))
    session.end()


def main():
    taken = argparse.ArgumentParser(description=__doc__, formatter_class=argparse.RawDescriptionHelpFormatter)
    taken.add_argument("--copies", type=int, default=1)
    taken.add_argument("folders", nargs="+", metavar="FOLDER")
    given = taken.parse_args()
    build.need_program()
    for folder in given.folders:
        with tempfile.TemporaryDirectory() as target:
            names, size = copied(folder, target, given.copies)
            print("\n%s, %d copies: %d documents, %.1f MB\n" % (folder, given.copies, len(names), size / 1e6))
            read_times(names, size, target)
            print()
            beside_a_feed(names)
            print()
            changes({name: open(path, "rb").read() for name, path in names} if size < 200e6 else corpus.documents_of(folder))


if __name__ == "__main__":
    main()
