#!/usr/bin/env python3
"""Compares the built program with GNU grep -E in the C locale, on random patterns and lines.

All patterns are searches of a few scripts, over one document of random lines; grep is run once for each
pattern. With -i case is ignored, by isearch and by grep -i. Differences are counted by kind. The known kinds
are those of docs/PATTERNS.md, "How this differs from `grep -E`"; any other difference is a fault.

Usage: tests/compare/compare_with_grep.py [-i] [--patterns N] [--lines N] [--seed N] [--show N]   The last line counts: N passed, M failed.
"""

import argparse
import collections
import os
import pathlib
import random
import re
import resource
import subprocess
import sys
import tempfile

sys.path.insert(0, str(pathlib.Path(__file__).resolve().parent.parent))

from built import PROGRAM, need_program  # noqa: E402
from counted import Counted  # noqa: E402

SEARCHES_OF_A_RUN = 1000
# Some patterns keep grep busy for minutes or make it take all memory. They are counted and skipped.
SECONDS_OF_GREP = 10
BYTES_OF_GREP = 2_000_000_000
# How many seconds a thousand searches may take here.
SECONDS_OF_A_RUN = 600
CLASSES = "upper lower alpha digit alnum xdigit punct graph print blank space cntrl".split()
BYTES = b"aaabbbccAB01 .-]^$_\t\xff"
# Pieces for texts that need not be patterns.
PIECES = [b"a", b"b", b"c", b".", b"*", b"+", b"?", b"|", b"(", b")", b"[", b"]", b"^", b"$", b"\\", b"{", b"}"]
PIECES += [b"-", b",", b"0", b"1", b"2", b"{1}", b"{2,}", b"{,2}", b"{1,2}", b"[a-c]", b"[^a]", b"[[:alpha:]]"]
PIECES += [b"[:", b":]", b"[.", b".]", b"[=a=]", b"\xff", b" "]


class TooSlow(Exception):
    """grep did not end within its time or memory."""


class Patterns:
    """Random patterns, three in four of which are made to spell a tree. Each comes with whether it may have an anchor
    in a repeated group."""

    def __init__(self, chance):
        self.chance = chance

    def bracket(self):
        items = []
        for _ in range(self.chance.randint(1, 3)):
            kind = self.chance.randrange(6)
            if kind == 0:
                low, high = sorted(self.chance.choice(b"abcAB019") for _ in range(2))
                items.append(bytes([low]) + b"-" + bytes([high]))
            elif kind == 1:
                items.append(b"[:" + self.chance.choice(CLASSES).encode() + b":]")
            elif kind == 2:
                items.append(self.chance.choice([b"[.a.]", b"[=b=]", b"[.-.]"]))
            else:
                items.append(bytes([self.chance.choice(b"abc01.*$ ")]))
        first = self.chance.choice([b"", b"", b"", b"]"])
        last = self.chance.choice([b"", b"", b"", b"-"])
        return b"[" + self.chance.choice([b"", b"^"]) + first + b"".join(items) + last + b"]"

    def atom(self, depth):
        """The text of an atom, whether it contains an anchor, and whether one is repeated."""
        kind = self.chance.randrange(10)
        if kind < 5 or (depth == 0 and kind >= 8):
            return bytes([self.chance.choice(b"abcAB01 ")]), False, False
        if kind == 5:
            return b".", False, False
        if kind == 6:
            return self.bracket(), False, False
        if kind == 7:
            return b"\\" + bytes([self.chance.choice(b".[\\()*+?{^$|")]), False, False
        text, anchored, repeated = self.alternatives(depth - 1)
        return b"(" + text + b")", anchored, repeated

    def piece(self, depth):
        if self.chance.randrange(12) == 0:
            return self.chance.choice([b"^", b"$"]), True, False
        text, anchored, repeated = self.atom(depth)
        for _ in range(self.chance.choice([0, 0, 0, 1, 1, 2])):
            text += self.chance.choice([b"*", b"+", b"?", b"{0}", b"{1}", b"{2}", b"{1,}", b"{0,2}", b"{1,3}"])
            repeated = repeated or anchored
        return text, anchored, repeated

    def branch(self, depth):
        pieces = [self.piece(depth) for _ in range(self.chance.choice([0, 1, 1, 2, 2, 3, 4]))]
        return b"".join(p[0] for p in pieces), any(p[1] for p in pieces), any(p[2] for p in pieces)

    def alternatives(self, depth):
        branches = [self.branch(depth) for _ in range(self.chance.choice([1, 1, 1, 2, 3]))]
        return b"|".join(b[0] for b in branches), any(b[1] for b in branches), any(b[2] for b in branches)

    def pattern(self):
        """A pattern, and whether it may have an anchor in a repeated group."""
        if self.chance.randrange(4) > 0:
            text, _, repeated = self.alternatives(3)
            return text, repeated
        text = b"".join(self.chance.choice(PIECES) for _ in range(self.chance.randint(1, 8)))
        return text, re.search(rb"\(.*[$^].*\)[*+?{]", text) is not None


def answers(lines, patterns, word):
    """The program's answer to a search with this word for each pattern: a set of line numbers, or the reason of its refusal."""
    body = b"\n".join(lines)
    script = b"put f %d\n%s\npublish\n" % (len(body), body)
    script += b"".join(word + b" " + pattern + b"\n" for pattern in patterns)
    try:
        done = subprocess.run([str(PROGRAM)], input=script, capture_output=True, timeout=SECONDS_OF_A_RUN)
    except subprocess.TimeoutExpired:
        sys.exit(f"the program did not answer {len(patterns)} searches in {SECONDS_OF_A_RUN} seconds")
    if done.stderr:
        sys.exit(f"the program wrote {done.stderr!r}")
    found = []
    # A line of the text may begin like a search's first line, so lines are counted.
    rest = done.stdout.split(b"\n")
    at = 0
    for number in range(1, len(patterns) + 1):
        head = rest[at].decode("latin-1") if at < len(rest) else "nothing more"
        refused = re.fullmatch(rf"search {number} refused: (.*?)( at \d+)?", head)
        if refused:
            found.append(refused.group(1))
            at += 1
            continue
        answered = re.fullmatch(rf"search {number} version 1 lines (\d+)", head)
        if not answered:
            sys.exit(f"the answer to search {number}, {patterns[number - 1]!r}, begins with {head!r}")
        count = int(answered.group(1))
        found.append({int(line.split(b":", 2)[1]) for line in rest[at + 1 : at + 1 + count]})
        at += 1 + count
    return found


def limit_grep():
    """Lets the system end a grep that this script's own clock would not end, and limits its memory."""
    resource.setrlimit(resource.RLIMIT_CPU, (SECONDS_OF_GREP, SECONDS_OF_GREP + 1))
    resource.setrlimit(resource.RLIMIT_AS, (BYTES_OF_GREP, BYTES_OF_GREP))


def grep(path, pattern, words):
    """grep's answer with these words: a set of line numbers, or None if it refuses the pattern."""
    try:
        done = subprocess.run(
            ["grep", "-E", "-a", "-n", *words, "-e", pattern, str(path)],
            capture_output=True,
            timeout=SECONDS_OF_GREP,
            env=dict(os.environ, LC_ALL="C"),
            preexec_fn=limit_grep,
        )
    except subprocess.TimeoutExpired:
        raise TooSlow from None
    if done.returncode < 0 or b"memory exhausted" in done.stderr or b"stack overflow" in done.stderr:
        raise TooSlow
    if done.returncode > 1:
        return None
    return {int(line.split(b":", 1)[0]) for line in done.stdout.splitlines()}


def is_other_in_capitals(pattern):
    """Whether the pattern may have a range that has other bytes, or none, once its ends are capitals."""
    ranges = [(low, high) for low, high in re.findall(rb"(?=(.)-(.))", pattern) if low <= high]
    return any(without_case(low, high) != without_case(low.upper(), high.upper()) for low, high in ranges)


def without_case(low, high):
    return {bytes([byte]).upper() for byte in range(low[0], high[0] + 1)}


def kind_of(pattern, repeated, ours, theirs, ignoring):
    """The kind of a pair of answers, and whether it is known."""
    if isinstance(ours, str):
        if theirs is None:
            return "refused by both", True
        return f"refused here alone: {ours}", ours != "out of memory"
    if theirs is None and ignoring and is_other_in_capitals(pattern):
        return "refused by grep alone, and a range with its ends as capitals", True
    if theirs is None:
        return "refused by grep alone", re.search(rb"\[:|\[\.|\[=|\{", pattern) is not None
    if ours == theirs:
        return "the same lines", True
    if repeated:
        return "other lines, and an anchor in a repeated group", True
    if b"{," in pattern:
        return "other lines, and `{,n}`, which is an interval for GNU alone", True
    if ignoring and is_other_in_capitals(pattern) and re.search(rb"\[[.=]", pattern):
        return "other lines, and a range with its ends as capitals next to a symbol", True
    return "OTHER LINES", False


def main():
    need_program()
    options = argparse.ArgumentParser(description="Compares the program with grep -E.")
    options.add_argument("-i", "--ignore-case", action="store_true", help="compare isearch with grep -i")
    options.add_argument("--patterns", type=int, default=4000)
    options.add_argument("--lines", type=int, default=400)
    options.add_argument("--seed", type=int, default=1)
    options.add_argument("--show", type=int, default=3, help="examples of each kind")
    options = options.parse_args()
    chance = random.Random(options.seed)
    patterns = [Patterns(chance).pattern() for _ in range(options.patterns)]
    lines = [bytes(chance.choice(BYTES) for _ in range(chance.randint(0, 9))) for _ in range(options.lines)]
    lines.append(b"the last line")
    kinds = collections.defaultdict(list)
    unknown = 0
    word, words = (b"isearch", ["-i"]) if options.ignore_case else (b"search", [])
    with tempfile.TemporaryDirectory() as folder:
        path = pathlib.Path(folder) / "f"
        path.write_bytes(b"\n".join(lines) + b"\n")
        for start in range(0, len(patterns), SEARCHES_OF_A_RUN):
            part = patterns[start : start + SEARCHES_OF_A_RUN]
            for (pattern, repeated), ours in zip(part, answers(lines, [p[0] for p in part], word)):
                try:
                    theirs = grep(path, pattern, words)
                except TooSlow:
                    kinds["grep took too long"].append((pattern, ours, None))
                    continue
                kind, known = kind_of(pattern, repeated, ours, theirs, options.ignore_case)
                unknown += not known
                kinds[kind].append((pattern, ours, theirs))
    for kind, found in sorted(kinds.items(), key=lambda item: -len(item[1])):
        print(f"{len(found):6}  {kind}")
        if kind in ("the same lines", "refused by both"):
            continue
        for pattern, ours, theirs in found[: options.show]:
            print(f"            {pattern!r}")
            if isinstance(ours, set) and isinstance(theirs, set):
                for numbers, who in ((ours - theirs, "here"), (theirs - ours, "by grep")):
                    for number in sorted(numbers)[:2]:
                        print(f"              listed {who} alone: {lines[number - 1]!r}")
    print(f"{len(patterns)} patterns, {len(lines)} lines")
    counted = Counted()
    counted.passes(len(patterns) - unknown)
    counted.judge(["a difference of no known kind"] * unknown)
    counted.end()


if __name__ == "__main__":
    main()
