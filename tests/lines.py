#!/usr/bin/env python3
"""The lines that patterns find in a body, by each way in which lines are found.

Each row of tests/lines.rows is searched four times: as it is, so by the matcher, line by line, if the pattern is quick; with
stars inside stars that match nothing, so by the engine from the first byte on; with an alternative that matches nothing and is
too large for the engine, so by the simulation; and after a document with many copies of the body, so by the engine after many
lines were found one by one. The rows below, which are too long for a file, are searched as they are.

Usage: tests/lines.py   The last line counts: N passed, M failed.
"""

import random
import re
import subprocess

from built import PROGRAM, TOP, need_program, put, rows_of
from counted import Counted

ROWS = TOP / "tests/lines.rows"
SECONDS = 60

# Appended to a pattern, it leaves the matches as they are and adds stars inside stars, for which the engine searches from
# the first byte on if the pattern is not too large for it.
FOR_THE_ENGINE = b"(((zz)*y)*){0}"
# Appended to a pattern, it leaves the matches as they are, since no byte is behind the end of a line. It has stars inside stars
# and large tables, so the simulation searches.
FOR_THE_SIMULATION = rb"|$.[acegikmoqsuwyACEGIKMOQSUWY]{80}((c*d)*e)*"
# More bytes of candidates than are looked at line by line.
MANY_BYTES = 65_536
MIB = 1_048_576


def searched(documents, search):
    """A part of a script: these documents and no others, and a search of them."""
    puts = [put(name, body) for name, body in documents]
    removes = [b"remove %s\n" % name for name, _ in documents]
    return b"".join([*puts, b"publish\n", search, *removes])


def run(script):
    """What the program answers to each search of the script: a list of the lines found."""
    done = subprocess.run(
        [PROGRAM, "--readers", "0", "--max-commands", "1000000"], input=script, stdout=subprocess.PIPE, timeout=SECONDS, check=False
    )
    lines, answers = iter(done.stdout.split(b"\n")), []
    for line in lines:
        found = re.fullmatch(rb"search \d+ version \d+ lines (\d+)", line)
        if found:
            answers.append([next(lines) for _ in range(int(found[1]))])
    return answers


def copies_of(body):
    """Many copies of a body, together more bytes than are looked at line by line."""
    line = body + b"\n"
    return line * (MANY_BYTES // len(line) + 1)


def ways_of(row):
    """The ways of a row: what it is called, the documents, and the search."""
    body, pattern, _, *ignored = row
    search = (b"isearch %s\n" if ignored == [b"i"] else b"search %s\n") % pattern
    yield "line by line", [(b"f", body)], search
    yield "by the engine", [(b"f", body)], search[:-1] + FOR_THE_ENGINE + b"\n"
    yield "by the simulation", [(b"f", body)], search[:-1] + FOR_THE_SIMULATION + b"\n"
    yield "after many lines", [(b"f", body), (b"a", copies_of(body))], search


def faults_of_rows():
    """What is wrong with the rows of the file: None for each way that finds what it should."""
    tried = [(row, *way) for row in rows_of(ROWS) for way in ways_of(row)]
    answers = run(b"".join(searched(documents, search) for _, _, documents, search in tried))
    if len(answers) != len(tried):
        yield f"{len(answers)} searches of {len(tried)} have an answer"
        return
    for (row, what, _, search), answer in zip(tried, answers):
        hits = b"".join(line + b"\n" for line in answer if line.startswith(b"f:"))
        yield None if hits == row[2] else f"{search!r} over {row[0]!r} {what}: {hits!r}, and should be {row[2]!r}"


def many_stars():
    """Thirty stars, each inside the next one. Line by line, each of them doubles the time, so the search ends only if the
    pattern is compiled."""
    pattern = b"^(aa)*" + b"(a" * 30 + b"a*" + b")*" * 30 + b"b$"
    yield [(b"f", b"a" * 1000 + b"c\n" + b"a" * 1000 + b"b")], pattern, [b"f:2:" + b"a" * 1000 + b"b"]
    names = [(b"a" * 200 + b"c", b"x"), (b"a" * 200 + b"b", b"x")]
    yield names, (pattern, b"x"), [b"a" * 200 + b"b:1:x"]


def large_counts_over_long_lines():
    """Large counts inside stars over a megabyte of long lines. By the engine they take over a minute, so the search ends only
    if the pattern is found too large and the search goes by the simulation."""
    body = (b"a" * 16_000 + b"\n") * 62 + b"abcde\n"
    yield [(b"f", body)], b"((([ab]{0,255}){15}c)*d)*e", [b"f:63:abcde"]


def large_counts_beside_stars():
    """Patterns that are slow by the matcher and too large for the engine. Where a word of the star ends with the line, no byte
    can follow it, so such a word is of no use before the last byte; what is left of the pattern is plain."""
    lines = [b"xabe", b"xe", b"xbaabd", b"xabce", b"abe", b"xab", b"xxaae", b"xabde"]
    plain = [0, 1, 6]
    kinds = [
        rb"x((([ab]?){255}c?){15}d$|[ab])*e",
        rb"x(([ab]{0,255}c?){15}d$|[ab])*e",
        rb"x((a?b?){255}{8}d$|[ab])*e",
        rb"x(" + rb"([ab]{0,20}c?){3}" * 50 + rb"d$|[ab])*e",
        rb"x([ab]|a([ab]{250}){15}c|d$)*e",
        # some 1,200 copies around the innermost count
        rb"x((([ab]{2}c?){40}){30}d$|[ab])*e",
    ]
    for pattern in kinds:
        yield documents_of_lines(lines), pattern, hits_of_lines(lines, plain)
    # a word with its `c` has so many letters before it, and no fewer
    for pattern, least in ((rb"x(([ab](([ab]{250}){14}c)?)*|d$)*e", 3_501), (rb"x([ab]|(([ab]|[ab][ab]){250}){5}c)*e", 1_250)):
        counted = lines + [b"x" + b"a" * count + b"ce" for count in (least - 1, least, least + 1)]
        yield documents_of_lines(counted), pattern, hits_of_lines(counted, [*plain, len(lines) + 1, len(lines) + 2])
    anything = rb"x(.|a" + rb"." * 950 + rb"c|d$)*e"
    yield documents_of_lines(lines), anything, hits_of_lines(lines, [0, 1, 3, 6, 7])
    # a small document with one long line
    long = [b"x" + b"a" * 8_189, b"x" + b"a" * 8_188 + b"e"]
    for line, hits in zip(long, ([], [0])):
        yield documents_of_lines([line]), rb"x(a|([ab]?){255}{15}c|d$)*e", hits_of_lines([line], hits)


def stars_of_a_set_in_stars():
    """Stars of a single set inside stars, and many copies, over two megabytes of long lines. By the matcher they take over a minute,
    so the search ends only if it goes by the simulation."""
    chance = random.Random(1)
    line = bytes(chance.choices(b"aaabbbcdx", k=16_000)) + b"\n"
    last = b"x" * 60 + b"e"
    yield [(name, line * 62 + last) for name in (b"f", b"g")], rb"(x|(.(^x|c*)|^)*cc){60}[ef]", [b"%s:63:%s" % (name, last) for name in (b"f", b"g")]


def documents_of_lines(lines):
    return [(b"f", b"".join(line + b"\n" for line in lines))]


def hits_of_lines(lines, hits):
    return [b"f:%d:%s" % (at + 1, lines[at]) for at in hits]


def patterns_about_the_greatest_size():
    """The largest pattern of its kind that is compiled has 627 sets and its c. Patterns with one set less, one more and two
    more find their lines too, with and without a last line feed."""
    body = b"".join(b"a" * count + b"c\n" for count in range(610, 650))
    for last, least in ((116, 626), (117, 627), (118, 628), (119, 629)):
        hits = [b"f:%d:%sc" % (count - 609, b"a" * count) for count in range(least, 650)]
        for text in (body, body[:-1]):
            yield [(b"f", text)], b"[ab]{255}[ab]{255}[ab]{%d}c" % last, hits


def several_hits_in_each_of_many_documents():
    """The first of many documents are looked at line by line, and the others by the engine."""
    body = b"needle\n" + b"straw\n" * 100 + b"needles\n\nin needles"
    names = [b"d%d" % number for number in range(10, 90)]
    hits = [line % name for name in names for line in (b"%s:1:needle", b"%s:102:needles", b"%s:104:in needles")]
    for pattern in (b"needle", b"^(in )?n.*d", b"n[aeiou]{2}dle" + FOR_THE_ENGINE):
        yield [(name, body) for name in names], pattern, hits


def a_megabyte_of_line_feeds():
    """Each line is a hit."""
    for pattern in (b"^$", b"x*"):
        yield [(b"f", b"\n" * MIB)], pattern, [b"f:%d:" % (line + 1) for line in range(MIB)]


def a_megabyte_with_few_hits():
    """Only the first and the last line can be hits. The last one has no line feed. One pattern is too large to be compiled."""
    body = b"hay\n" + b"straw\n" * 174_657 + b"a" * 629 + b"c"
    yield [(b"f", body)], b"^hay$", [b"f:1:hay"]
    for pattern in (b"ac", b"c$", b"^a+c", b"[ab]{255}[ab]{255}[ab]{118}c"):
        yield [(b"f", body)], pattern, [b"f:174659:" + b"a" * 629 + b"c"]


LONG_ROWS = [
    many_stars,
    large_counts_over_long_lines,
    large_counts_beside_stars,
    stars_of_a_set_in_stars,
    patterns_about_the_greatest_size,
    several_hits_in_each_of_many_documents,
    a_megabyte_of_line_feeds,
    a_megabyte_with_few_hits,
]


def fault_of(what, documents, pattern, hits):
    name, pattern = pattern if isinstance(pattern, tuple) else (None, pattern)
    search = b"search %s\n" % pattern if name is None else b"searchin %s %s\n" % (name, pattern)
    script = b"".join(put(*document) for document in documents) + b"publish\n" + search
    try:
        answers = run(script)
    except subprocess.TimeoutExpired:
        return f"{what}: {pattern[:80]!r} did not end"
    return None if answers == [hits] else f"{what}: {pattern[:80]!r} finds other lines"


def main():
    need_program()
    counted = Counted()
    counted.judge(faults_of_rows())
    counted.judge(fault_of(rows.__name__, *row) for rows in LONG_ROWS for row in rows())
    counted.end()


if __name__ == "__main__":
    main()
