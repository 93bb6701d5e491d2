#!/usr/bin/env python3
"""What searches of the built program find, and which documents are their candidates, while documents come, are replaced and go.

The hits and candidates that must come are those of the documents that the commands so far leave. Each script is run without readers,
and as a session without readers and with two. A sync follows each search, so the answers come in their order.

Usage: tests/documents.py [NAME..]   The last line counts: N passed, M failed.
"""

import random
import re
import subprocess

from built import PROGRAM, put
from counted import Wrong, run_tests

SECONDS = 60
WAYS = (["--readers", "0"], ["--live", "--readers", "0"], ["--live", "--readers", "2"])
MIB = 1_048_576


def answers_of(script, words):
    """What the program answers to each search: its lines, its candidates, and the number of documents. Any other text is wrong."""
    done = subprocess.run([PROGRAM, *words, "--stats"], input=script, capture_output=True, timeout=SECONDS, check=False)
    if done.stderr:
        raise Wrong(f"standard error is {done.stderr[:500]!r}")
    lines, answers = iter(done.stdout.split(b"\n")[:-1]), []
    for line in lines:
        head = re.fullmatch(rb"search \d+ version \d+ lines (\d+) candidates (\d+) of (\d+)", line)
        if not head:
            raise Wrong(f"{line!r} is written")
        answers.append(([next(lines) for _ in range(int(head[1]))], int(head[2]), int(head[3])))
    return answers


class Script:
    """A script, and the documents that its commands so far leave."""

    def __init__(self):
        self.parts, self.documents, self.wanted = [], {}, []

    def put(self, name, body):
        self.parts.append(put(name, body))
        self.documents[name] = body

    def remove(self, name):
        self.parts.append(b"remove %s\n" % name)
        del self.documents[name]

    def remove_under(self, prefix):
        self.parts.append(b"removeunder %s\n" % prefix)
        self.documents = {name: body for name, body in self.documents.items() if not name.startswith(prefix)}

    def copy_under(self, beginning, other):
        self.parts.append(b"copyunder %s %s\n" % (beginning, other))
        copies = {other + name[len(beginning) :]: body for name, body in self.documents.items() if name.startswith(beginning)}
        self.documents.update(copies)

    def search(self, pattern, names, candidates=None):
        """A publish and a search that finds all lines of the documents of these names, which are of one line each. Its
        candidates are these, or as many as are given."""
        self.parts.append(b"publish\nsearch %s\nsync\n" % pattern)
        found = [b"%s:1:%s" % (name, self.documents[name]) for name in sorted(names)]
        self.wanted.append((found, len(found) if candidates is None else candidates, len(self.documents)))

    def check(self):
        for words in WAYS:
            answers = answers_of(b"".join(self.parts), words)
            if len(answers) != len(self.wanted):
                raise Wrong(f"{words}: {len(answers)} answers to {len(self.wanted)} searches")
            for number, (got, wanted) in enumerate(zip(answers, self.wanted), 1):
                if got != wanted:
                    raise Wrong(f"{words}: search {number} is answered by {str(got)[:500]}, and should be by {str(wanted)[:500]}")


# Commands: a name and a text for a put, a name for a remove. Then the documents with the trigram abc, and those with bcd.
COMMANDS = [
    ([], [], []),
    ([(b"f", b"abc"), (b"g", b"abcd")], [b"f", b"g"], [b"g"]),
    ([(b"f", b"abc"), (b"g", b"abcd"), (b"g", b"abc")], [b"f", b"g"], []),
    ([(b"f", b"abc"), (b"g", b"abcd"), (b"g", b"abc"), b"f"], [b"g"], []),
    ([(b"f", b"abc"), (b"g", b"abcd"), (b"f", b"bcd")], [b"g"], [b"f", b"g"]),
    ([(b"f", b"abc"), (b"g", b"wxyz"), b"g"], [b"f"], []),
    ([(b"f", b"old"), (b"f", b"new"), (b"g", b"x"), b"f"], [], []),
]


def candidates_after_commands():
    for commands, abc, bcd in COMMANDS:
        script = Script()
        for command in commands:
            if isinstance(command, tuple):
                script.put(*command)
            else:
                script.remove(command)
        script.search(b"abc", abc)
        script.search(b"bcd", bcd)
        script.search(b"", list(script.documents))
        script.search(b"old", [])
        script.check()


def two_letters(number):
    """Two letters, which do not rise with the numbers. No other number below 676 has them."""
    return bytes([97 + number % 26, 97 + number // 26])


def texts_of_their_own():
    """200 documents, each under a name of its own, with a trigram of its own."""
    script = Script()
    for number in range(200):
        script.put(two_letters(number), b"x" + two_letters(number))
    return script


def documents_that_go():
    """The others are found while each of many documents goes: first every second one, then the rest."""
    script = texts_of_their_own()
    for number in [*range(0, 200, 2), *range(1, 200, 2)]:
        script.remove(two_letters(number))
        script.search(b".", list(script.documents))
        script.search(b"x" + two_letters(number), [])
    script.check()


def numbers_that_go_in_any_order():
    """300 documents have the same trigrams. The others stay among the candidates while each goes."""
    for factor, first in (1, 0), (299, 299), (1, 150), (7, 3):
        script, names = Script(), [b"%03d" % number for number in range(300)]
        for name in names:
            script.put(name, b"abc")
        for step in range(300):
            script.remove(names[(factor * step + first) % 300])
            script.search(b"abc", list(script.documents))
        script.put(names[77], b"abc")
        script.search(b"abc", [names[77]])
        script.check()


def names_that_go_by_their_beginning():
    """In trees of three letters, beginnings of any length go, also while some documents are not yet published, and come again. A
    document that has one of the beginnings within its name, or at its end, stays."""
    source = random.Random(5)
    for size in 1, 3, 40, 400, 4_000:
        script = Script()
        for _ in range(6):
            for _ in range(size):
                script.put(bytes(source.choices(b"a/\xc3", k=source.randrange(1, 7))), source.choice([b"abc", b"bcd"]))
            for _ in range(3):
                name = source.choice([*script.documents, b"b"])
                prefix = name[: source.randrange(1, len(name) + 1)]
                if any(name.startswith(prefix) for name in script.documents):
                    script.remove_under(prefix)
                if source.random() < 0.5:
                    script.put(prefix, b"abc")
            for text in b"abc", b"bcd", b"":
                script.search(text, [name for name, body in script.documents.items() if text in body])
        script.check()


def names_that_are_copied():
    """In trees of three letters, documents are copied by their beginnings, of any length, to any other one: also to one that begins with
    the first, or that the first begins with, over documents that are there, and while some are not yet published."""
    source = random.Random(7)
    for size in 1, 3, 40, 400:
        script = Script()
        for _ in range(6):
            for _ in range(size):
                script.put(bytes(source.choices(b"a/\xc3", k=source.randrange(1, 7))), source.choice([b"abc", b"bcd", b"cde"]))
            for _ in range(4):
                name = source.choice([*script.documents])
                beginning = name[: source.randrange(1, len(name) + 1)]
                others = [beginning[:-1] or b"b", beginning + source.choice([b"a", b"/"]), bytes(source.choices(b"a/\xc3", k=source.randrange(1, 4))), beginning]
                if sum(name.startswith(beginning) for name in script.documents) < 2_000:
                    script.copy_under(beginning, source.choice(others))
                if source.random() < 0.3:
                    script.remove_under(source.choice([*script.documents])[:3])
                if not script.documents or source.random() < 0.5:
                    script.put(name, source.choice([b"abc", b"bcd"]))
            for text in b"abc", b"bcd", b"":
                script.search(text, [name for name, body in script.documents.items() if text in body])
        script.check()


def text_of(number):
    """A text of five bytes, whose first trigram no other number below 17,576 has."""
    return bytes(97 + number // step % 26 for step in (1, 26, 676)) + b"xy"


def document_that_is_replaced_often():
    """Each text has a trigram that no text before it has, and one that a document that stays has too, in the first texts."""
    script = Script()
    script.put(b"g", b"0axy")
    for number in range(1001):
        text = text_of(number)
        script.put(b"f", text)
        script.search(text[:3], [b"f"])
        script.search(text[1:4], [b"f"])
        script.search(text_of(number - 1 if number else 17_575)[:3], [])
        script.search(b"axy", [b"f", b"g"] if number < 676 else [b"g"])
        script.search(b"0ax", [b"g"])
    script.check()


def one_of(numbers):
    return b"|".join(b"x" + two_letters(number) for number in numbers)


def one_of_many_trigrams():
    """Alternatives that few and that many of 200 documents have, some alternatives that none has, all documents beside them, and
    those that have another trigram too."""
    script = texts_of_their_own()
    for step in 1, 2, 3, 4, 7, 13, 100, 255:
        script.search(one_of(range(0, 256, step)), map(two_letters, range(0, 200, step)))
        script.search(one_of(range(0, 255, step)) + b"|.", list(script.documents))
    for step, end in (1, 150), (2, 200), (3, 200), (7, 200), (100, 200), (255, 256):
        both = [number for number in range(0, min(end, 200), step) if number % 2 == 0]
        script.search(b"(%s).*(%s)" % (one_of(range(0, end, step)), one_of(range(0, min(end, 200), 2))), [], len(both))
    script.check()


# Bodies, and the reason for which a body is refused, the first that holds.
BODIES = [
    (b"", None),
    (b"a" * 4_097, None),
    (b"a" * 16_384, None),
    (b"a" * 16_384 + b"\n" + b"b" * 16_384, None),
    (b"a\n" * 262_144, None),
    (b"sixteen bytes..\n" * 65_536, None),
    (b"\n" * MIB, None),
    (b"\n" * (MIB + 1), b"body too long"),
    (b"a" * 16_385, b"line too long"),
    (b"a\0b", b"byte 0 in body"),
    (b"a" * 16_385 + b"\0", b"byte 0 in body"),
    (b"\0" * (MIB + 1), b"body too long"),
]


def bodies():
    """Each body is refused, or is put and has all its lines found."""
    for words in WAYS:
        for body, reason in BODIES:
            script = put(b"f", body) + b"publish\nsearch \n"
            done = subprocess.run([PROGRAM, *words], input=script, capture_output=True, timeout=SECONDS, check=False)
            lines = [] if reason else body.split(b"\n")
            lines = lines if lines and lines[-1] else lines[:-1]
            wanted = b"line 1 refused: %s\n" % reason if reason else b""
            wanted += b"search 1 version %d lines %d\n" % (0 if reason else 1, len(lines))
            wanted += b"".join(b"f:%d:%s\n" % pair for pair in enumerate(lines, 1))
            if done.stdout != wanted or done.stderr:
                raise Wrong(f"{words}: {body[:50]!r} of {len(body)} bytes: {done.stdout[:200]!r}, and should be {wanted[:200]!r}")


if __name__ == "__main__":
    run_tests([candidates_after_commands, documents_that_go, numbers_that_go_in_any_order, names_that_go_by_their_beginning, names_that_are_copied, document_that_is_replaced_often, one_of_many_trigrams, bodies])
