#!/usr/bin/env python3
"""Compares searches of lines that are longer than the matcher takes with GNU grep in the C locale, by each way in which lines are found.

The bodies have lines of lengths round 16,384 bytes, the most that the matcher takes, round 65,536 bytes, the greatest piece of a
body, and round 262,144 bytes, the most that the engine takes of most patterns (of `needle.{100}x` 612), with what is looked for at their front, at
their end and over these places. Each pattern is searched as it is, so a small body goes
line by line and a large one by the engine, and once more with an alternative that matches nothing and is too large for the engine, so by
the simulation or, if the tree is quick, by the matcher, which leaves the long lines to a simulation. The spans are those of `grep -ob`.

Usage: tests/long_lines.py   The last line counts: N passed, M failed.
"""

import os
import pathlib
import re
import shutil
import subprocess
import sys
import tempfile

from built import PROGRAM, need_program, put
from counted import Counted
from lines import FOR_THE_SIMULATION

SECONDS = 300
# It leaves the matches as they are, and is too large for the engine and quick for the matcher.
FOR_THE_MATCHER = rb"|$.[acegikmoqsuwyACEGIKMOQSUWY]{255}"
OPTIONS = ["--readers", "0", "--max-body", "67108864", "--max-line", "67108864"]
LENGTHS = [0, 1, 7, 100, 611, 612, 613, 16_383, 16_384, 16_385, 16_390, 65_535, 65_536, 65_537, 65_542, 100_000, 140_000]
PATTERNS = [
    b"needle", b"^needle", b"needle$", b"^needle$", b"ne+dle", b"x*needle", b"needlex*$", b"^x*$", b"^(xx)*$", b"n[^x]*", b"x{200}needle",
    b"(needle|xn)e*", b"needle.{100}x", b"[a-z]{6}y", b"((x*n)*e)*dle", b"^x.*needle", b"e.e", b"nee|needle", b"(needle){2}", b"y", b"z*y?",
]
# Where in a line these match takes grep a time that grows with the square of the line's length.
SLOW_TO_SHOW = [b"x*needle", b"x{200}needle", b"[a-z]{6}y", b"((x*n)*e)*dle", b"(needle|xn)e*"]
VIEWS = [[], ["-v"], ["-w"], ["-x"], ["-i"], ["-c"], ["-C", "1"], ["-m", "2"], ["--spans"], ["--spans", "-w"], ["--column"], ["--column", "-w"]]


def line_of(length, place):
    """A line of `x` of this length, in which what is looked for stands at this place, if there is room."""
    needle = b"needle"
    if length < len(needle) or place is None:
        return b"x" * length
    place = min(place, length - len(needle))
    return b"x" * place + needle + b"x" * (length - place - len(needle))


def bodies():
    """Bodies by their names, each of which is searched by itself."""
    for name, place in ("none", None), ("front", 0), ("middle", 16_381), ("piece", 65_533), ("end", 1 << 30):
        yield name, b"\n".join(line_of(length, place) for length in LENGTHS)
    yield "words", b"\n".join((b"needle " * (length // 7 + 1))[:length] for length in LENGTHS) + b"\n"
    yield "alone", b"x" * 99_994 + b"needle"
    yield "behind", b"x" * 200_000 + b"\n" + b"x\n" * 100 + b"needle\n" + b"needle" * 20_000 + b"\ny"
    yield "longest", b"\n".join(line_of(length, 262_140) for length in (262_143, 262_144, 262_145, 262_150, 270_000))
    yield "small", line_of(8_000, 16) + b"\nneedle\n"


def grep(folder, words, pattern, name):
    done = subprocess.run(
        ["grep", "-E", "-a", "-n", *words, "-e", pattern.decode(), name], cwd=folder, capture_output=True, timeout=SECONDS, check=False,
        env=dict(os.environ, LC_ALL="C"),
    )
    if done.returncode > 1:
        sys.exit(f"grep: {done.stderr!r}")
    return done.stdout.split(b"\n")[:-1]


def spans_of(folder, words, pattern, name, body):
    """For each line with a match that is not empty, the spans."""
    starts, at = [], 0
    for line in body.split(b"\n"):
        starts.append(at)
        at += len(line) + 1
    spans = {}
    for row in grep(folder, ["-o", "-b", *words], pattern, name):
        line, offset, text = row.split(b":", 2)
        first = int(offset) - starts[int(line) - 1]
        spans.setdefault(int(line), []).append((first + 1, first + len(text)))
    return spans


def rows_by_grep(folder, view, pattern, name, body):
    """The rows that are wanted, or None if grep has no such view."""
    label = name.encode()
    words = [word for word in view if word not in ("--spans", "--column")]
    if view == ["-c"]:
        count = len(grep(folder, [], pattern, name))
        return [b"%s:%d" % (label, count)] if count else []
    if "-C" in view:
        return grep(folder, ["-H", *words], pattern, name)
    rows = [row.split(b":", 1) for row in grep(folder, words, pattern, name)]
    if "--spans" not in view and "--column" not in view:
        return [b"%s:%s:%s" % (label, *row) for row in rows]
    spans = spans_of(folder, words, pattern, name, body)
    if "--column" in view:
        if any(int(line) not in spans for line, _ in rows) or subprocess.run(["grep", "-qE", pattern.decode()], input=b"\n", check=False).returncode == 0:
            return None
        return [b"%s:%s:%d:%s" % (label, line, spans[int(line)][0][0], text) for line, text in rows]
    shown = {line: b",".join(b"%d-%d" % span for span in spans.get(int(line), [])) for line, _ in rows}
    return [b"%s:%s:%s:%s" % (label, line, shown[line], text) for line, text in rows]


def rows_of(text):
    """The rows of each answer, without its head."""
    lines, answers = iter(text.split(b"\n")[:-1]), []
    for line in lines:
        head = re.fullmatch(rb"search \d+ version 1 (?:lines|names) (\d+)(?: and more)?(?: rows (\d+))?", line)
        if not head:
            return f"a head is {line[:200]!r}"
        answers.append([next(lines) for _ in range(int(head[2] or head[1]))])
    return answers


def fault_of(folder, name, body):
    """What is wrong with the answers for this body, or None."""
    pathlib.Path(folder, name).write_bytes(body)
    # each pattern in each way with some of the views, all of which come in turn
    searched = [(pattern, pattern + more) for pattern in PATTERNS for more in (b"", FOR_THE_SIMULATION, FOR_THE_MATCHER)]
    asked = [(view, *search) for number, search in enumerate(searched) for view in VIEWS[number % 5 :: 5]]
    asked = [(view, pattern, search) for view, pattern, search in asked if pattern not in SLOW_TO_SHOW or not {"--spans", "--column"} & set(view)]
    finds = [b"find %s -- %s\n" % (" ".join(view).encode(), search) for view, _, search in asked]
    script = put(name.encode(), body) + b"publish\n" + b"".join(finds).replace(b"find  --", b"find --")
    done = subprocess.run([PROGRAM, *OPTIONS], input=script, capture_output=True, timeout=SECONDS, check=False)
    answers = rows_of(done.stdout)
    if isinstance(answers, str) or len(answers) != len(asked):
        return f"{name}: {answers if isinstance(answers, str) else len(answers)}; {done.stderr[:200]!r}"
    wanted = {}
    for (view, pattern, search), rows in zip(asked, answers):
        key = " ".join(view), pattern
        if key not in wanted:
            wanted[key] = rows_by_grep(folder, view, pattern, name, body)
        if wanted[key] is not None and rows != wanted[key]:
            ours, others = [[row[:60] for row in some] for some in (rows, wanted[key])]
            return f"{name}: find {key[0]} -- {search[:60]!r} gives {len(rows)} rows {ours[:5]}, and grep {len(wanted[key])} {others[:5]}"
    return None


def main():
    need_program()
    counted = Counted()
    if not shutil.which("grep"):
        sys.exit("there is no grep on the PATH")
    with tempfile.TemporaryDirectory() as folder:
        for name, body in bodies():
            counted.judge([fault_of(folder, name, body)])
    counted.end()


if __name__ == "__main__":
    main()
