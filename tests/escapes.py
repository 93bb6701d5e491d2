#!/usr/bin/env python3
"""Tries the lines of docs/PATTERNS.md that make a pattern of a text, in Python and in JavaScript, on every printable byte.

A text is each printable byte by itself, between two letters, after each byte of punctuation, and after some longer texts. The pattern of each is searched for in a document that has all texts as its lines, and must list
exactly the lines that contain the text. Python's `re.escape` must be refused for a space, as the page says. Without the command node, the
line in JavaScript is not tried.

Usage: tests/escapes.py   The last line counts: N passed, M failed.
"""

import json
import re
import shutil
import string
import subprocess
import sys

from built import PROGRAM, TOP, need_program
from counted import Counted

PAGE = TOP / "docs/PATTERNS.md"
SECTION = "## How to search for a text as it is\n"
PRINTABLE = [chr(byte) for byte in range(32, 127)]
NODE = "const texts = JSON.parse(require('fs').readFileSync(0)); console.log(JSON.stringify(texts.map(text => %s)))"


def texts():
    """The texts, none of them twice."""
    found = PRINTABLE + [f"a{one}b" for one in PRINTABLE]
    found += [before + one for before in [*string.punctuation, "\\\\", "é", "\t", "[[:", "{1"] for one in PRINTABLE]
    return list(dict.fromkeys(found))


def lines_of_page():
    """The line in Python and the line in JavaScript."""
    section = PAGE.read_text(encoding="utf-8").split(SECTION)[1].split("\n## ")[0]
    lines = [line.strip() for line in re.findall(r"^    (.*)$", section, re.MULTILINE)]
    if len(lines) != 2 or not lines[0].startswith("re.sub(") or not lines[1].startswith("text.replace("):
        sys.exit(f"tests/escapes.py: docs/PATTERNS.md does not have the two lines: {lines}")
    return lines


def patterns_by_python(line, found):
    return [eval(line, {"re": re, "text": text}) for text in found]


def patterns_by_node(line, found):
    done = subprocess.run(["node", "-e", NODE % line], input=json.dumps(found), capture_output=True, text=True, check=True)
    return json.loads(done.stdout)


def run(lines, patterns):
    """What the program writes for searches of these patterns in a document of these lines."""
    body = "".join(line + "\n" for line in lines).encode()
    script = b"put a %d\n%s\npublish\n" % (len(body), body) + b"".join(b"search %s\n" % pattern.encode() for pattern in patterns)
    return subprocess.run([PROGRAM, "--readers", "0"], input=script, stdout=subprocess.PIPE, check=False).stdout


def answers(lines, patterns):
    """For each pattern, the lines of its answer, or its refusal."""
    found = []
    for row in run(lines, patterns).decode().split("\n")[:-1]:
        if row.startswith("search "):
            found.append([] if " version " in row else row)
        else:
            found[-1].append(int(row.split(":", 2)[1]))
    return found


def faults_of(way, patterns, found):
    """For each text, what is wrong with the answer to its pattern, or None."""
    given = answers(found, patterns)
    if len(given) != len(found):
        return [f"{way}: {len(given)} answers to {len(found)} searches"]
    wanted = [[number for number, line in enumerate(found, 1) if text in line] for text in found]
    told = f"{way}: the pattern %r of %r lists %.200r"
    return [None if got == want else told % (pattern, text, got) for text, pattern, got, want in zip(found, patterns, given, wanted)]


def fault_of_re_escape():
    wanted = [[1], "search 2 refused: bad escape at 1"]
    got = answers(["a+b", "a b"], [re.escape("a+b"), re.escape("a b")])
    return None if got == wanted else f"re.escape: {got}, and should be {wanted}"


def main():
    need_program()
    counted = Counted()
    python, javascript = lines_of_page()
    found = texts()
    counted.judge(faults_of("in Python", patterns_by_python(python, found), found))
    counted.judge([fault_of_re_escape()])
    if shutil.which("node"):
        counted.judge(faults_of("in JavaScript", patterns_by_node(javascript, found), found))
    else:
        print("there is no command node on the PATH, so the line in JavaScript is not tried")
    counted.end()


if __name__ == "__main__":
    main()
