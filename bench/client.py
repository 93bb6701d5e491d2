"""Clients of a session of the program."""
import os
import re
import shutil
import statistics
import subprocess
import sys
import time

import build
import corpus

# The first line of an answer: the lines or names, the lines of text where lines around hits are shown, and the candidates.
HEAD = re.compile(rb"search \d+ version \d+ (?:lines|names) (\d+)(?: and more)?(?: rows (\d+))?(?: candidates (\d+) of \d+)?\n")
# The lengths of files that are changed.
LENGTHS = {"600 bytes": (500, 700), "10 KB": (9_000, 11_000), "100 KB": (80_000, 120_000)}

RUNS = 5
# A run of a search takes at least this many seconds, or has this many copies of the search.
LEAST_RUN = 0.2
MOST_COPIES = 4096


class Session:
    """A session whose client waits for the answer to each search."""

    def __init__(self, *words):
        self.process = subprocess.Popen([build.PROGRAM, "--live", *words], stdin=subprocess.PIPE, stdout=subprocess.PIPE, bufsize=0)
        self.searches = 0

    def ask(self, items):
        """Sends items that end with a search, and returns the answer and how many seconds it took."""
        self.searches += 1
        start = time.perf_counter()
        data = memoryview(items)
        while data:
            data = data[self.process.stdin.write(data) :]
        text, feeds, lines = bytearray(), 0, None
        while lines is None or feeds <= lines:
            read = self.process.stdout.read(65_536)
            text += read
            feeds += read.count(b"\n")
            if lines is None and feeds:
                lines = int(text.partition(b"\n")[0].split()[5])
        seconds = time.perf_counter() - start
        if not text.startswith(b"search %d version " % self.searches):
            sys.exit("%s: not the answer of search %d: %r" % (build.called(), self.searches, text[:200]))
        return bytes(text), seconds

    def put_all(self, documents, search):
        """Puts documents, publishes and searches. All of it can be sent before anything is read, since the session writes nothing
        before its first answer. Returns what `ask` does."""
        return self.ask(b"".join(corpus.put(*pair) for pair in documents.items()) + b"publish\n" + search)

    def resident(self):
        with open("/proc/%d/status" % self.process.pid) as status:
            return 1024 * int(status.read().split("VmRSS:")[1].split()[0])

    def end(self):
        self.process.stdin.close()
        start = time.perf_counter()
        self.process.wait()
        return time.perf_counter() - start


def changes(session, documents, names, other, rounds, rng):
    """Changes files of a session, each to its own body or to that of another one, with one line more. Returns the seconds of each
    change, from before it is sent until the answer that shows it is read."""
    seconds = []
    for number in range(rounds):
        name = rng.choice(names)
        body = documents[rng.choice(names) if other else name]
        word = b"changed_%d_%d" % (session.searches, number)
        items = corpus.put(name, body + b"\nint %s;\n" % word) + b"publish\nsearch %s\n" % word
        text, took = session.ask(items)
        if text.count(b"\n") != 2 or not text.endswith(b":int %s;\n" % word):
            sys.exit("%s: %r is not found: %r" % (build.called(), word, text[:200]))
        seconds.append(took)
    return seconds


class FileSession:
    """A session that has all files of a script. Its text goes to a file, which is emptied before each run."""

    def __init__(self, target, script, readers=0, program=build.PROGRAM):
        self.path = os.path.join(target, "answers%d" % readers)
        self.readers = readers
        self.size = {}
        self.searches = 0
        with open(self.path, "ab") as out:
            words = [program, "--live", "--readers", str(readers), "--stats", "--max-commands", "1000000"]
            self.process = subprocess.Popen(words, stdin=subprocess.PIPE, stdout=out)
        with open(script, "rb") as items:
            shutil.copyfileobj(items, self.process.stdin)
        self.first("search zzqqxxyy")

    def send(self, text):
        os.truncate(self.path, 0)
        self.process.stdin.write(text)
        self.process.stdin.flush()

    def wait(self, size):
        """Waits until the file has this many bytes. The system tells its length without a wait."""
        while os.stat(self.path).st_size < size:
            if self.process.poll() is not None:
                sys.exit("%s: the session has ended" % build.called())

    def first(self, search):
        """Searches once, notes how long the answer is apart from the search's number, and returns what its first line has."""
        self.searches += 1
        self.send(search.encode() + b"\n")
        text, rows = b"", None
        while rows is None or text.count(b"\n") <= rows:
            self.wait(len(text) + 1)
            time.sleep(0.02)
            with open(self.path, "rb") as answers:
                text = answers.read()
            if b"\n" in text:
                head = HEAD.match(text)
                rows = 0 if " -q " in search else int(head[2] or head[1])
        self.size[search] = len(text) - len(str(self.searches))
        return head

    def run(self, search, copies):
        """The seconds of a batch of copies of a search."""
        numbers = range(self.searches + 1, self.searches + copies + 1)
        size = sum(self.size[search] + len(str(number)) for number in numbers)
        self.searches += copies
        items = (search.encode() + b"\n") * copies
        start = time.perf_counter()
        self.send(items)
        self.wait(size)
        return time.perf_counter() - start

    def times(self, search):
        """The seconds of one search in each of some runs."""
        once = min(self.run(search, 1) for _ in range(3))
        copies = max(1, min(MOST_COPIES, int(LEAST_RUN / once + 1)))
        if self.readers:
            return [self.alone(search, copies) for _ in range(RUNS)]
        return [self.run(search, copies) / copies for _ in range(RUNS)]

    def alone(self, search, count):
        """The seconds of one of so many searches, each asked when the one before has its answer."""
        return statistics.mean(self.run(search, 1) for _ in range(count))

    def end(self):
        self.process.stdin.close()
        self.process.wait()
