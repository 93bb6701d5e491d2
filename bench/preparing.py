"""Which patterns take the most memory and time to prepare: python3 bench/preparing.py [MINUTES [SEED]].

A host takes patterns from strangers, so what parsing and analysing one takes is bounded: 300 bytes for each byte of the pattern,
and 64 KiB. This looks for patterns that come near. It starts from those that are known to be hard, makes others at random, and goes
on from the worst ones by small changes, with their case and with case ignored.

Builds a small program over the crates, in a few minutes, and runs it under a library that counts the bytes in use
(programs/counting.c), which the command cc builds. After so many minutes (5) it prints the ten worst patterns by memory, by memory for
each byte of the pattern, and by time.
"""
import os
import random
import subprocess
import tempfile
import time

import build
import command

MOST = 1024
EACH, ALWAYS = 300, 65_536
AT_ONCE = 400

LETTERS = "abcdefghijklmnopqrstuvwxyzABCDEFGHIJKLMNOPQRSTUVWXYZ0123456789"
KNOWN = [
    ("([!-0]A[!-0]B[!-0]C[!-0]D[!-0]E[!-0]F[!-0]G[!-0]H[!-0]I[!-0]J[!-0]K[!-0]L[!-0]M[!-0]N){9}", False),
    ("(" + "".join("[!-0]" + letter for letter in (LETTERS + LETTERS)[:70]) + "){29}", False),
    ("(abcdefghijkl[!-0]){255}", False),
    ("(abcdefghijklmnopqrstuvwxyzABCDEF[!-0]){2}", False),
    ("".join("(%s[!-0]){2}" % LETTERS[i : i + 30] for i in range(0, 30)), False),
    ("".join(random.Random(1).choices(LETTERS[:26], k=MOST)), True),
    ("".join(random.Random(1).choices(LETTERS[:26], k=MOST // 2 + 1)), True),
    ("(".join("[!-0]%s[!-0]%s" % (LETTERS[i], LETTERS[i + 1]) for i in range(60)) + ")" * 59, False),
    ("A(4{63}[$-3]){8}|V{8}(1{60}[$-3]){4}(1{60}[$-3]){4}", True),
    ("(1{60}abcd){4,}" * 16, True),
    ("([!-0]1{63}){4,}" * 16, False),
    ("(abcd1{60})" * 60, True),
    ((LETTERS[:26] * 40)[:MOST], True),
    ("a" * MOST, False),
    ("[ab]c" * 204, False),
    ("|".join(["abcd1{60}"] * 60), True),
    ("[!-0]A[!-0]B" * 85, False),
    ("([!-/]1|xy){3}" * 70, False),
    ("([!-/]|xy){9}" * 60, False),
    ("(" * 60 + "[!-0]A" + "[!-0])" * 60, False),
]


def piece(choose, depth):
    """A random piece of a pattern."""
    kind = choose.random()
    if kind < 0.3:
        return choose.choice(LETTERS)
    if kind < 0.5:
        low, size = choose.choice("!$0Aaeh"), choose.choice([1, 1, 2, 3, 7, 15, 15, 16])
        return "[%s-%s]" % (low, chr(ord(low) + size))
    if kind < 0.55:
        return choose.choice([".", "[^a]", "^", "$"])
    if kind < 0.75:
        return choose.choice(LETTERS) + "{%d}" % choose.choice([2, 3, 8, 15, 20, 30, 60, 63, 64])
    if depth == 0:
        return choose.choice(LETTERS)
    inner = "".join(piece(choose, depth - 1) for _ in range(choose.randrange(1, 5)))
    if kind < 0.85:
        others = ["".join(piece(choose, depth - 1) for _ in range(choose.randrange(3))) for _ in range(choose.randrange(1, 4))]
        inner = "|".join([inner] + others)
    return "(%s)%s" % (inner, choose.choice(["", "", "*", "+", "?", "{2}", "{3}", "{4,}", "{2,}", "{2,3}", "{255}"]))


def random_pattern(choose):
    unit = "".join(piece(choose, 2) for _ in range(choose.randrange(1, 5)))
    times = choose.choice([1, 2, 5, 20, 1000])
    pattern = unit
    while times > 1 and len(pattern) + len(unit) <= MOST:
        pattern += unit if choose.random() < 0.5 else unit.translate(str.maketrans(LETTERS, "".join(choose.sample(LETTERS, len(LETTERS)))))
        times -= 1
    return pattern[:MOST], choose.random() < 0.3


def changed(choose, pattern, ignored):
    """The pattern with a small change."""
    at, kind = choose.randrange(len(pattern) + 1), choose.random()
    if kind < 0.3:
        new = pattern[:at] + piece(choose, 1) + pattern[at:]
    elif kind < 0.5:
        new = pattern[:at] + pattern[at + choose.randrange(1, 6) :]
    elif kind < 0.7:
        new = pattern[:at] + choose.choice(LETTERS + "()[]-{},|!0123456789") + pattern[at + 1 :]
    elif kind < 0.9:
        begin, length = choose.randrange(len(pattern)), choose.randrange(1, 80)
        new = pattern[:at] + pattern[begin : begin + length] + pattern[at:]
    else:
        return pattern, not ignored
    return new[:MOST], ignored


class Meter:
    """The built program, and the patterns that were measured: the most bytes in use, and the nanoseconds."""

    def __init__(self, folder):
        self.program = build.build("preparing", os.path.join(folder, "built"))
        self.library, self.file = os.path.join(folder, "counting.so"), os.path.join(folder, "patterns")
        subprocess.run(["cc", "-O2", "-shared", "-fPIC", build.path_of("counting.c"), "-o", self.library], check=True)
        self.measured = {}

    def measure(self, patterns):
        for ignored in (False, True):
            asked = [pattern for pattern, case in patterns if case == ignored and pattern and (pattern, case) not in self.measured]
            if not asked:
                continue
            with open(self.file, "w") as file:
                file.write("\n".join(["x"] + asked) + "\n")
            words = [self.program, self.file, "ignored" if ignored else "exact"]
            done = subprocess.run(words, capture_output=True, text=True, check=True, env={"LD_PRELOAD": self.library})
            counts = list(zip(map(int, done.stderr.split()), map(int, done.stdout.split())))
            assert len(counts) == len(asked) + 1, (len(counts), len(asked))
            for pattern, (size, nanos) in zip(asked, counts[1:]):
                if nanos:
                    self.measured[pattern, ignored] = size, nanos

    def worst(self, value, count=10):
        return sorted(self.measured, key=lambda key: value(key, self.measured[key]), reverse=True)[:count]


def share_of_bound(key, counts):
    return counts[0] / (EACH * len(key[0]) + ALWAYS)


def times_the_length(key, counts):
    return counts[0] / max(64, len(key[0]))


def time_taken(_key, counts):
    return counts[1]


VALUES = [share_of_bound, times_the_length, time_taken]


def show(meter, title, value):
    command.head(["bytes", "times the length", "of the bound", "ms", "length", "case", "pattern"], title)
    for key in meter.worst(value):
        (pattern, ignored), (size, nanos) = key, meter.measured[key]
        shown = pattern if len(pattern) <= 70 else pattern[:67] + "..."
        counts = (size, size / len(pattern), 100 * share_of_bound(key, (size, nanos)), nanos / 1e6, len(pattern))
        cells = ("%d | %.0f | %.0f %% | %.2f | %d" % counts).split(" | ")
        command.row(*cells, "ignored" if ignored else "counts", command.code(shown))


def main():
    given = command.words(__doc__, 0, 2)
    minutes, seed = given + ["5", "1"][len(given) :]
    choose = random.Random(int(seed))
    with tempfile.TemporaryDirectory() as folder:
        meter = Meter(folder)
        meter.measure(KNOWN)
        end = time.monotonic() + 60 * float(minutes)
        while time.monotonic() < end:
            starts = [key for value in VALUES for key in meter.worst(value, 12)]
            later = [changed(choose, *choose.choice(starts)) for _ in range(AT_ONCE)]
            for _ in range(choose.randrange(4)):
                later = [changed(choose, *key) if key[0] and choose.random() < 0.5 else key for key in later]
            meter.measure([random_pattern(choose) for _ in range(AT_ONCE // 4)] + later)
        print("%d patterns were measured." % len(meter.measured))
        show(meter, "Most memory, as a part of 300 bytes for each byte of the pattern and 64 KiB", share_of_bound)
        show(meter, "Most memory for each byte of the pattern (of 64 bytes at least)", times_the_length)
        show(meter, "Longest time", time_taken)


if __name__ == "__main__":
    main()
