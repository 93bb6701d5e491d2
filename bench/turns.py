"""What hostile searches cost the others of a session: python3 bench/turns.py FOLDER.

A session with two readers gets the folder's files. Its client always has so many searches open whose pattern takes the simulation some
3,000 steps for a byte, and meanwhile asks for a rare word, again and again; or changes a file, publishes and asks for what is new in it.
The first table has the times of both, with no such search, with eight in the lane of the others, and with forty in a lane of their own.
The second one has the ordinary searches a second that four clients get, each of which has one search open. The third one has the times of
the rare word in a session of 100,000 small documents, with no other search, and with eight choices of 200 words, whose candidates take
long and of whose documents no line is looked at; and how many of these are done a second.
"""
import random
import sys
import time

import build
import client
import command
import corpus

HOSTILE = rb"x(" + rb"([ab]{0,20}c?){3}" * 50 + rb"d$|[ab])*e"
RARE = b"rare_word_of_the_bench"
ORDINARY = [b"malloc", b"return NULL", b"static inline", b"server\\.[a-z]+port", b"NOTE", b"while *\\(1\\)", b"[a-z]+_[a-z]+_cb\\(", b"EAGAIN"]
SMALL = 100_000
TRIES = 400
CLIENTS = 4
SECONDS = 5


class Talk:
    """A session in which searches are open side by side."""

    def __init__(self, documents):
        self.session = client.Session("--readers", "2")
        self.session.put_all(documents, b"search %s\n" % RARE)
        self.text, self.done = b"", []

    def send(self, items):
        """Sends items of which the last one is a search, and returns its number."""
        data = memoryview(items)
        while data:
            data = data[self.session.process.stdin.write(data) :]
        self.session.searches += 1
        return self.session.searches

    def read(self):
        """Reads on. Appends the number and the lines of each answer that is there as a whole."""
        data = self.session.process.stdout.read(1 << 20)
        if not data:
            sys.exit("%s: the session has ended" % build.called())
        self.text += data
        while b"\n" in self.text:
            head, _, rest = self.text.partition(b"\n")
            words = head.split()
            rows = int(words[5]) if words[2] == b"version" else 0
            if rest.count(b"\n") < rows:
                return
            lines = rest.split(b"\n", rows)
            self.text = lines.pop()
            self.done.append((int(words[1]), lines if words[2] == b"version" else head))

    def take(self):
        """The answer that came first."""
        while not self.done:
            self.read()
        return self.done.pop(0)


class Beside:
    """A session with some hostile searches, which are sent again once they are answered."""

    def __init__(self, documents, count, lanes=False, words=b"-- " + HOSTILE):
        self.talk, self.lanes, self.words, self.answered = Talk(documents), lanes, words, 0
        self.hostile = {self.send_hostile() for _ in range(count)}

    def find(self, lane, words):
        return b"find %s%s\n" % (b"--lane %s " % lane if self.lanes else b"", words)

    def send_hostile(self):
        return self.talk.send(self.find(b"hostile", self.words))

    def ask(self, items):
        """The lines of the search that the items end with, and its seconds."""
        start = time.perf_counter()
        wanted = self.talk.send(items)
        while True:
            number, lines = self.talk.take()
            if number == wanted:
                return lines, time.perf_counter() - start
            if number not in self.hostile:
                sys.exit("%s: not a search that is open: %d" % (build.called(), number))
            self.answered += 1
            self.hostile.remove(number)
            self.hostile.add(self.send_hostile())

    def rare(self):
        lines, seconds = self.ask(self.find(b"other", b"-- " + RARE))
        if len(lines) != 1:
            sys.exit("%s: not the rare word: %r" % (build.called(), lines))
        time.sleep(random.uniform(0, 0.01))
        return seconds

    def change(self, documents, names):
        name = random.choice(names)
        word = b"changed_%d" % self.talk.session.searches
        lines, seconds = self.ask(corpus.put(name, documents[name] + b"\nint %s;\n" % word) + b"publish\n" + self.find(b"other", b"-- " + word))
        if len(lines) != 1:
            sys.exit("%s: not the changed file: %r" % (build.called(), lines))
        time.sleep(random.uniform(0, 0.01))
        return seconds

    def end(self):
        self.talk.session.process.kill()
        self.talk.session.process.wait()


def median_and_more(seconds):
    """The median, the 95th percentile and the most of some times, in milliseconds."""
    taken = sorted(1000 * second for second in seconds)
    return command.shown([taken[len(taken) // 2], taken[len(taken) * 95 // 100], taken[-1]])


def measure(documents, names, count, lanes):
    beside = Beside(documents, count, lanes)
    for _ in range(20):
        beside.rare()
    rare = [beside.rare() for _ in range(TRIES)]
    changed = [beside.change(documents, names) for _ in range(TRIES // 4)]
    beside.end()
    command.row("%d%s" % (count, " in a lane of their own" if lanes else ""), median_and_more(rare), median_and_more(changed))


def choices():
    """Small documents of words with four letters, and the words of a search for 200 of these in documents of no such name."""
    letters = b"abcdefghijklmnopqrstuvwxyz"
    words = [bytes(random.choices(letters, k=4)) for _ in range(400)]
    documents = {b"small/%d" % number: b" ".join(random.choices(words, k=20)) + b"\n" for number in range(SMALL)}
    return {**documents, b"rare": b"int %s;\n" % RARE}, b"-N ^small/ -- " + b"|".join(words[:200])


def measure_choices(documents, count, words):
    beside = Beside(documents, count, words=words)
    beside.rare()
    beside.answered, start = 0, time.perf_counter()
    rare = [beside.rare() for _ in range(TRIES)]
    done = beside.answered / (time.perf_counter() - start)
    beside.end()
    command.row(count, median_and_more(rare), "%.2f" % done)


def ordinary(documents):
    """How many ordinary searches a second some clients get."""
    talk, count = Talk(documents), 0
    for number in range(CLIENTS):
        talk.send(b"search %s\n" % ORDINARY[number % len(ORDINARY)])
    end = time.perf_counter() + SECONDS
    while time.perf_counter() < end:
        talk.take()
        count += 1
        talk.send(b"search %s\n" % ORDINARY[(count + CLIENTS) % len(ORDINARY)])
    talk.session.process.kill()
    talk.session.process.wait()
    return count / SECONDS


def main():
    (folder,) = command.words(__doc__)
    build.need_program()
    random.seed(1)
    documents = {**corpus.documents_of(folder), b"rare": b"int %s;\n" % RARE}
    names = [name for name, body in documents.items() if 1_000 < len(body) < 20_000]
    command.head(["hostile searches", "a rare word: median / 95% / most, ms", "a change until it is found, ms"])
    measure(documents, names, 0, False)
    measure(documents, names, 8, False)
    measure(documents, names, 40, True)
    command.head(["clients", "ordinary searches a second"])
    command.row(CLIENTS, "%.0f" % max(ordinary(documents) for _ in range(3)))
    documents, words = choices()
    command.head(["choices of 200 words", "a rare word: median / 95% / most, ms", "choices a second"])
    measure_choices(documents, 0, words)
    measure_choices(documents, 8, words)


if __name__ == "__main__":
    main()
