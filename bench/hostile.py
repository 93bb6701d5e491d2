"""How long hard patterns take: python3 bench/hostile.py [--tries N] [--seed N] [--lanes N].

A session without readers has texts that are hard for such patterns: lines of 16,000 bytes, of `x` and then `a` and `b` at
random, of `a` alone, of the three at random, short lines, and a small document with one long line. First come patterns that are
known to be hard, then `N` patterns (10,000 if not said) that are made at random and then changed step by step towards slower
ones, over texts of one long line each, in so many searches beside each other (one for each processor if not said). The ten worst
are shown, measured over the whole texts. The figures are seconds of the processor for each MB, of the worst text. Last come columns
and spans that are hard to find, each in documents of its own, with the seconds of the processor for the whole search. A search that
takes over ten seconds by the clock is given up (`--search-ms`), and its figure is too low.
"""
import argparse
import concurrent.futures
import os
import random
import subprocess
import time

import build
import command
import corpus

LIMIT_MS = 10_000
BETWEEN_STARTS = 25
LINE = 16_000
LINES = 4

KNOWN = [
    rb"x((([ab]?){255}c?){15}d$|[ab])*e",
    rb"x(([ab]{0,255}c?){15}d$|[ab])*e",
    rb"x((a?b?){255}{8}d$|[ab])*e",
    rb"x(" + rb"([ab]{0,20}c?){3}" * 50 + rb"d$|[ab])*e",
    rb"x(([ab](([ab]{250}){14}c)?)*|d$)*e",
    rb"x([ab]|(([ab]|[ab][ab]){250}){5}c)*e",
    rb"x([ab]|a([ab]{250}){15}c|d$)*e",
    rb"x([ab]|a([ab]{250}){15}c)*e",
    rb"x(.|a" + rb"." * 950 + rb"c|d$)*e",
    rb"x(a|([ab]?){255}{15}c|d$)*e",
    rb"((([ab]{0,255}){15}c)*d)*e",
    rb"(a(aa*)*)*b",
    rb"(((a*b)*a)*c)*d",
    rb"(.*a){100}@",
    rb"(.{0,60}x){60}",
    rb"(a{0,255}){16}b",
    rb"[ab]{255}{15}c",
    rb"(([ab]|[ab][ab]){250}){5}c",
    rb"x(" + rb"a?b?" * 240 + rb"d$|[ab])*e",
    rb"x(" + rb"a*b*" * 240 + rb"d$|[ab])*e",
    rb"x(" + rb".*a" * 320 + rb"d$|[ab])*e",
    rb"(x|(.(^x|c*)|^)*cc){60}[ef]",
]


def texts(chance, lines=LINES):
    """The texts by name, of some 16 KB for each line."""
    def long_lines(letters, first=b""):
        return b"".join(first + bytes(chance.choices(letters, k=LINE - len(first))) + b"\n" for _ in range(lines))

    return {
        b"x_ab": long_lines(b"ab", b"x"),
        b"a": long_lines(b"a"),
        b"abx": long_lines(b"abx"),
        b"abcdx": long_lines(b"aaabbbcdx"),
        b"short": b"".join(b"x" + bytes(chance.choices(b"ab", k=30)) + b"\n" for _ in range(LINE * lines // 32)),
        b"small": b"x" + b"a" * 8_190 + b"\n",
    }


def within_lines():
    """Searches for columns and spans: what is searched, in words; its documents; and the words of `find`."""
    small = {b"%d" % number: b"ax\n" for number in range(8_000)}
    large = rb"x(" + rb"([ab]{0,20}c?){3}" * 50 + rb"d$|[ab])*e|a"
    return [
        ("one line of 8 KB", {b"a": b"a" * 8_190 + b" a\n"}, rb"-w --spans -- (([ab]{0,30}){31}c?)*d|a"),
        ("one line of 4 KB", {b"a": b"a" * 4_096 + b"\n"}, rb"--spans -- ((([ab]{0,30}){31}c?)*d)?"),
        ("one line of 16 KB", {b"a": b"a" * 16_384 + b"\n"}, rb"--spans -- ((([ab]{0,5}){5}c?)*d)?"),
        ("8,000 documents of one line", small, rb"--column -- " + large),
        ("8,000 documents of one line", small, rb"--spans -- " + large),
    ]


class Session:
    def __init__(self, bodies):
        words = [build.PROGRAM, "--live", "--readers", "0", "--search-ms", str(LIMIT_MS)]
        self.process = subprocess.Popen(words, stdin=subprocess.PIPE, stdout=subprocess.PIPE)
        self.sizes = {name: len(body) for name, body in bodies.items()}
        for name, body in bodies.items():
            self.process.stdin.write(corpus.put(name, body))
        self.process.stdin.write(b"publish\n")

    def busy(self):
        """The seconds for which the session's threads have been on a processor. They wait for input by now."""
        time.sleep(0.001)
        tasks = "/proc/%d/task" % self.process.pid
        nanos = 0
        for task in os.listdir(tasks):
            with open(os.path.join(tasks, task, "schedstat")) as file:
                nanos += int(file.read().split()[0])
        return nanos / 1e9

    def seconds(self, name, pattern):
        """The seconds of a search, or None if the pattern is refused for itself."""
        return self.spent(b"searchin ^%s$ %s\n" % (name, pattern))

    def spent(self, search):
        """The seconds of a search, or None if it is refused for its words."""
        start = self.busy()
        self.process.stdin.write(search)
        self.process.stdin.flush()
        head = self.process.stdout.readline()
        if b" refused: " in head and b"too slow" not in head:
            return None
        if b" lines " in head:
            for _ in range(int(head.split()[5])):
                self.process.stdout.readline()
        return self.busy() - start

    def worst(self, pattern):
        """The most seconds for each MB, and the text for which it takes them."""
        found = (0.0, b"refused")
        for name, size in self.sizes.items():
            seconds = self.seconds(name, pattern)
            if seconds is None:
                return found
            found = max(found, (1e6 * seconds / size, name))
        return found

    def end(self):
        self.process.stdin.close()
        self.process.wait()


class Maker:
    """Makes patterns, and changes them."""

    def __init__(self, chance):
        self.chance = chance

    def count(self):
        high = self.chance.choice([1, 2, 3, 8, 15, 20, 60, 120, 250, 255])
        return self.chance.choice([b"*", b"+", b"?", b"{%d}" % high, b"{0,%d}" % high, b"{%d,}" % self.chance.choice([2, 5, 50])])

    def tree(self, depth):
        kind = self.chance.randrange(9)
        if depth == 0 or kind < 3:
            return self.chance.choice([b"a", b"b", b"[ab]", b".", b"c", b"[abc]", b"^", b"$", b"x", b"d$"])
        if kind < 5:
            return b"(" + self.tree(depth - 1) + b")" + self.count()
        if kind < 7:
            return b"".join(self.tree(depth - 1) for _ in range(self.chance.randint(2, 4)))
        return b"(" + b"|".join(self.tree(depth - 1) for _ in range(self.chance.randint(2, 3))) + b")"

    def pattern(self):
        return self.chance.choice([b"", b"x", b"x", b"a"]) + self.tree(5) + self.chance.choice([b"", b"e", b"c", b"[ef]"])

    def changed(self, pattern):
        at, to = sorted(self.chance.randrange(len(pattern) + 1) for _ in range(2))
        kind = self.chance.randrange(5)
        if kind == 0:
            return pattern[:at] + self.tree(2) + pattern[at:]
        if kind == 1:
            return pattern[:at] + self.tree(2) + pattern[to:]
        if kind == 2:
            return pattern[:at] + b"(" + pattern[at:to] + b")" + self.count() + pattern[to:]
        if kind == 3:
            return pattern[:to] + pattern[at:to] + pattern[to:]
        return pattern[:at] + self.count() + pattern[at:]


def climb(seed, tries):
    """The worst patterns of a search of so many tries, worst first."""
    chance = random.Random(seed)
    maker, session = Maker(chance), Session(texts(chance, lines=1))
    found, left = {}, tries
    while left > 0:
        best = maker.pattern()
        cost = session.worst(best)
        left -= 1
        for _ in range(BETWEEN_STARTS):
            other = maker.changed(best)
            if len(other) > 1_000:
                continue
            left -= 1
            next_cost = session.worst(other)
            if next_cost > cost:
                best, cost = other, next_cost
        found[best] = cost
    session.end()
    return sorted(found.items(), key=lambda it: it[1], reverse=True)[:10]


def show(title, rows):
    command.head(["pattern", "seconds for each MB", "text"], title)
    for pattern, (cost, name) in rows:
        text = pattern.decode("latin-1")
        shown = text if len(text) <= 250 else "%s... %d bytes" % (text[:80], len(text))
        command.row(command.code(shown), "%.2f" % cost, name.decode())


def show_within_lines():
    command.head(["`find`", "in", "seconds"], "Columns and spans")
    for what, bodies, find in within_lines():
        session = Session(bodies)
        seconds = session.spent(b"find %s\n" % find)
        session.end()
        text = find.decode("latin-1")
        command.row(command.code(text if len(text) <= 250 else "%s... %d bytes" % (text[:80], len(text))), what, "%.3f" % seconds)


def main():
    words = argparse.ArgumentParser(description=__doc__, formatter_class=argparse.RawDescriptionHelpFormatter)
    words.add_argument("--tries", type=int, default=10_000)
    words.add_argument("--seed", type=int, default=1)
    words.add_argument("--lanes", type=int, default=os.cpu_count())
    given = words.parse_args()
    build.need_program()
    session = Session(texts(random.Random(given.seed)))
    show("Patterns that are known to be hard", [(pattern, session.worst(pattern)) for pattern in KNOWN])
    session.end()
    lanes = given.lanes
    with concurrent.futures.ThreadPoolExecutor(lanes) as pool:
        jobs = [pool.submit(climb, given.seed * 1_000 + lane, given.tries // lanes) for lane in range(lanes)]
        rows = [row for job in jobs for row in job.result()]
    again = Session(texts(random.Random(given.seed)))
    rows = [(pattern, again.worst(pattern)) for pattern, _ in rows]
    again.end()
    show("The ten worst of %d patterns" % given.tries, sorted(rows, key=lambda it: it[1], reverse=True)[:10])


if __name__ == "__main__":
    main()
    show_within_lines()
