#!/usr/bin/env python3
"""What is read in patterns, and what patterns ask of documents, by searches of the built program.

Each row of tests/patterns.rows is of one of these kinds:

    refused PATTERN FAULT       the pattern is refused for this fault, with its case and with case ignored, and as a name pattern
    set PATTERN BYTES           of all lines of one byte, and some others, the pattern matches these bytes, as a whole line
    all-but PATTERN BYTES       the pattern matches all other bytes, except 0 and the line feed, which no line has
    iset, iall-but              the same with case ignored
    asks PATTERN +SET.. -SET..  a document whose trigrams are a set with a plus is a candidate, and one of a set with a minus is not

The tables below are those that are too long for a file. What hard patterns ask is compared with a model of the analysis (asked.py).

Usage: tests/patterns.py   The last line counts: N passed, M failed.
"""

import itertools
import random
import re
import subprocess

from asked import Cat, Range, Text, Times, is_asked, pattern_of, trigrams_of, word_of
from built import PROGRAM, TOP, need_program, put, rows_of
from counted import Counted

ROWS = TOP / "tests/patterns.rows"
SECONDS = 60

LINE_BYTES = [bytes([byte]) for byte in range(1, 256) if byte != 10]
# Each byte of a line by itself, no byte, and two and three bytes.
LINES = [*LINE_BYTES, b"", b"aa", b"a-z", b"\\a"]

# The ranges of the classes as POSIX has them, and how many bytes they are. No byte of 128 or above is in a class.
CLASSES = {
    b"upper": (26, b"AZ"),
    b"lower": (26, b"az"),
    b"alpha": (52, b"AZaz"),
    b"digit": (10, b"09"),
    b"alnum": (62, b"09AZaz"),
    b"xdigit": (22, b"09AFaf"),
    b"punct": (32, bytes([33, 47, 58, 64, 91, 96, 123, 126])),
    b"graph": (94, bytes([33, 126])),
    b"print": (95, bytes([32, 126])),
    b"blank": (2, bytes([9, 9, 32, 32])),
    b"space": (5, bytes([9, 9, 11, 13, 32, 32])),
    b"cntrl": (31, bytes([1, 9, 11, 31, 127, 127])),
}

# The bytes that can follow a backslash: ASCII punctuation except for `<`, `>`, the grave accent and the apostrophe.
ESCAPABLE = b"!\"#$%&()*+,-./:;=?@[\\]^_{|}~"

# Patterns at the limits, with the faults of those that are refused.
LIMITS = [
    (b"a" * 1024, None),
    (b"a" * 1025, b"pattern too long at 1024"),
    (b"(" * 1025, b"pattern too long at 1024"),
    (b"\0" * 2000, b"pattern too long at 1024"),
    (b"(" * 1000, b"too deep (over 64 levels) at 64"),
    (b"(" * 65, b"too deep (over 64 levels) at 64"),
    (b"(" * 64, b"group not closed at 63"),
    (b"(" * 64 + b")" * 64, None),
    (b"(" * 64 + b"a" + b")*" * 63 + b")", None),
    (b"(" * 64 + b"a" + b")*" * 64, b"too deep (over 64 levels) at 0"),
    (b"a" + b"*" * 1023, b"too deep (over 64 levels) at 0"),
    (b"a" + b"*" * 64, b"too deep (over 64 levels) at 0"),
    (b"a" + b"*" * 63, None),
    (b"a" + b"*" * 99 + b"(", b"group not closed at 100"),
    (b"a{255}{16}", None),
    (b"(a{64}){64}", None),
    (b"a{255}{17}", b"too large (over 4096 leaves) at 0"),
    (b"(a{64}){64}b", b"too large (over 4096 leaves) at 0"),
    (b"(a|b){255}{255,}", b"too large (over 4096 leaves) at 0"),
    (b"a{255}{17}*{2,1}", b"bad interval at 11"),
    (b"a{255}{17}" + b"*" * 63, b"too deep (over 64 levels) at 0"),
    (b"a{255}{17}" + b"*" * 61, b"too large (over 4096 leaves) at 0"),
    (b"(a|" * 64 + b"b{255}" + b")" * 64 + b"{64}", b"too deep (over 64 levels) at 0"),
]


def answers_of(script):
    """What the program says of each search of the script: the reason of its refusal, or the candidates and the lines found."""
    done = subprocess.run([PROGRAM, "--readers", "0", "--stats"], input=script, stdout=subprocess.PIPE, timeout=SECONDS, check=False)
    lines, answers = iter(done.stdout.split(b"\n")), []
    for line in lines:
        found = re.fullmatch(rb"search \d+ (?:refused: (.*)|version \d+ lines (\d+) candidates (\d+) of \d+)", line)
        if found and found[1] is not None:
            answers.append(found[1])
        elif found:
            answers.append((int(found[3]), [next(lines) for _ in range(int(found[2]))]))
    return answers


def compare(begin, searches):
    """Carries out searches after the beginning of a script, and compares what `what_of` makes of each answer with what should come
    of it. A search is its lines of the script, what should come of it, and `what_of`. Returns what is wrong, or None, for each."""
    answers = answers_of(begin + b"".join(lines for lines, _, _ in searches))
    if len(answers) != len(searches):
        return [f"{len(answers)} of {len(searches)} searches have an answer"]
    faults = []
    for (lines, wanted, what_of), answer in zip(searches, answers):
        got = answer if isinstance(answer, bytes) else what_of(*answer)
        faults.append(None if got == wanted else f"{lines[-1100:]!r}: {got!r:.500}, and should be {wanted!r:.500}")
    return faults


def is_read(_candidates, _lines):
    return None


def refusals(pattern, fault):
    """The four searches that must be refused for a fault of a pattern."""
    name_fault = fault and b"name pattern: " + fault
    for form, wanted in (b"search %s\n", fault), (b"isearch %s\n", fault), (b"searchin %s x\n", name_fault), (b"searchin x %s\n", fault):
        yield form % pattern, wanted, is_read


def lines_found(_candidates, lines):
    return [line.split(b":", 2)[2] for line in lines]


def search_of_set(word, pattern, found):
    return b"%s ^%s$\n" % (word, pattern), [byte for byte in LINE_BYTES if byte in found], lines_found


def others(left_out):
    return b"".join(byte for byte in LINE_BYTES if byte not in left_out)


def bytes_of_class(ranges):
    return b"".join(bytes(range(low, high + 1)) for low, high in zip(ranges[::2], ranges[1::2]))


def sets_of_rows(rows):
    for kind, pattern, found in rows:
        word = b"isearch" if kind.startswith(b"i") else b"search"
        yield search_of_set(word, pattern, others(found) if kind.endswith(b"all-but") else found)


def sets_of_classes():
    for name, (count, ranges) in CLASSES.items():
        assert len(bytes_of_class(ranges)) == count
        yield search_of_set(b"search", b"[[:%s:]]" % name, bytes_of_class(ranges))


def bytes_after_a_backslash():
    """No line has a byte 0. The line feed ends the pattern, which then ends with its backslash."""
    for byte in LINE_BYTES:
        if byte in ESCAPABLE:
            yield search_of_set(b"search", b"\\" + byte, byte)
        else:
            yield b"search \\%s\n" % byte, b"bad escape at 0", is_read
    yield b"search \\\0\n", b"bad byte at 1", is_read


def is_candidate(candidates, _lines):
    return candidates == 1


def demands(pattern, sets):
    """For each set of trigrams, a document that has them as its lines and is the only one."""
    for given in sets:
        yield put(b"d", given[1:].replace(b" ", b"\n")) + b"publish\nsearch %s\n" % pattern, given[:1] == b"+", is_candidate


def candidates_and_texts(candidates, lines):
    return candidates, lines_found(candidates, lines)


def spellings_of_a_text():
    """The candidates are exactly the eight spellings of a text of three bytes, of all texts of some bytes and no text."""
    texts = [bytes(text) for text in itertools.product(b"abcABC12@[", repeat=3)] + [b""]
    begin = b"".join(put(b"%04d" % number, text) for number, text in enumerate(texts)) + b"publish\n"
    wanted = (8, [text for text in texts if text.lower() == b"abc"])
    return compare(begin, [(b"isearch %s\n" % pattern, wanted, candidates_and_texts) for pattern in (b"abc", b"ABC", b"[Aa]bC")])


LETTERS = bytes([*range(65, 91), *range(97, 123), *range(48, 58)])
SIXTEEN = Range(ord("!"), ord("0"))
# Patterns whose parts have sixteen texts each, so that two parts have 256: a set after each of 70 letters, and after a text.
HARD = [
    Times(Cat([part for byte in LETTERS + LETTERS[:8] for part in (SIXTEEN, Text(bytes([byte])))]), 29),
    Times(Cat([Text(b"abcdefghijkl"), SIXTEEN]), 255),
    Times(Cat([Text(b"abcdefghijklmnopqrstuvwxyzABCDEF"), SIXTEEN]), 2),
    Cat([Times(Cat([Text(b"ab"), SIXTEEN]), 2), Times(Cat([SIXTEEN, Text(b"cd")]), 3), Text(b"ef"), SIXTEEN, Text(b"g")]),
]


def trigrams_in_part(tree, chance):
    """Trigrams of two words of a tree: all but some that are picked at random, or all but those with a certain byte."""
    words = [word_of(tree, chance) for _ in range(2)]
    trigrams = sorted(trigrams_of(words[0]) | trigrams_of(words[1]))
    if chance.random() < 0.3:
        byte = chance.choice(chance.choice(trigrams))
        return [trigram for trigram in trigrams if byte not in trigram]
    gone = chance.sample(trigrams, min(len(trigrams), chance.choice([0, 1, 3, 9, len(trigrams) // 2])))
    return [trigram for trigram in trigrams if trigram not in gone]


def demands_of_hard_patterns():
    """A document is a candidate exactly if its trigrams pass the test of the model."""
    chance = random.Random(1)
    for tree in HARD:
        test, seen = is_asked(tree), set()
        for _ in range(40):
            held = trigrams_in_part(tree, chance)
            wanted = test(frozenset(held))
            seen.add(wanted)
            yield put(b"d", b"\n".join(held)) + b"publish\nsearch %s\n" % pattern_of(tree), wanted, is_candidate
        assert seen == {True, False}


def main():
    need_program()
    rows, counted = list(rows_of(ROWS)), Counted()
    refused = [row[1:] for row in rows if row[0] == b"refused"]
    counted.judge(compare(b"", [search for row in [*refused, *LIMITS] for search in refusals(*row)]))
    sets = [row for row in rows if row[0].lstrip(b"i") in (b"set", b"all-but")]
    searches = [*sets_of_rows(sets), *sets_of_classes(), *bytes_after_a_backslash()]
    counted.judge(compare(put(b"f", b"\n".join(LINES)) + b"publish\n", searches))
    asked = [row for row in rows if row[0] == b"asks"]
    counted.judge(compare(b"", [search for _, pattern, *given in asked for search in demands(pattern, given)]))
    counted.judge(compare(b"", list(demands_of_hard_patterns())))
    counted.judge(spellings_of_a_text())
    kinds = len(refused) + len(sets) + len(asked)
    counted.judge([None if kinds == len(rows) else f"{len(rows) - kinds} rows are of no kind"])
    counted.end()


if __name__ == "__main__":
    main()
