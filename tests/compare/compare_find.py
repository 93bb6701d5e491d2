#!/usr/bin/env python3
"""Compares `find` of the built program with GNU grep in the C locale and with the judge's model, over random trees of files.

Each find is compared with the model (judge/searches.py). One that has no options but -i, -F, -w, -x, -v, -m, -l, -c, -C, -Z and --spans
is compared with `grep -E` or `grep -F` too, if there is a grep on the PATH and the two read the pattern alike (docs/PATTERNS.md,
"How this differs from `grep -E`"). The spans are those of `grep -ob`. A limit of a find holds for all documents, and one of grep for each
file: so the rows of grep are counted, and only where lines around them are shown has it a limit, for the file in which the last row is. In
half of the trees the files are so large that the program does not go through them line by line. As many trees are searched at once as
there are processors.

Usage: tests/compare/compare_find.py [--finds N] [--seed N]   The last line counts: N passed, M failed.
"""

import argparse
import collections
import concurrent.futures
import os
import pathlib
import random
import re
import shutil
import subprocess
import sys
import tempfile

sys.path.insert(0, str(pathlib.Path(__file__).resolve().parent.parent))

from built import PROGRAM, need_program, put  # noqa: E402
from compare.compare_with_grep import BYTES, SECONDS_OF_GREP, Patterns, TooSlow, is_other_in_capitals, limit_grep  # noqa: E402
from counted import Counted  # noqa: E402
from judge import searches, transcripts  # noqa: E402
from judge.random_finds import random_find  # noqa: E402

FINDS_OF_A_TREE, SECONDS_OF_A_TREE = 50, 300
# How often the lines of a large file are repeated.
TIMES = 60

NAMES = [b"a", b"a.c", b"a/b", b"a/c.go", b"a-b", b"B.c", b"main.go", b"src/A.go", b"src/a.go", b"src/x/a.c", b"z", b"\xff"]
NAME_PATTERNS = [b"^src/", b"^a", b"^a/", b"^a/c.go$", rb"\.go$", rb"\.(c|go)$", b"A", b"^SRC", b"/", b"^b", b"", b"^(a|s)", b"^z$", rb"^a\.", b"^src/x/a.cc"]
# Pieces of lines, so that some words are whole and some matches overlap.
PIECES = [b"a", b"b", b"ab", b"aB", b"ba", b"abc", b"a b", b"_a", b"a.b", b"a*", b"0", b"01", b" ", b" ", b"-", b".", b"\t", b"\xff"]
WORDS = [b"a", b"ab", b"a|ab|b", b"ab|b|abc|c", b"(a|b)*", b"a*", b"b?", b"^", b"$", b"^a", b"b$", b"^$", b"", b".", b"a.b", b"a*b", b"[ab]+", b"(ab|a)(c|bcd)?", b"[^a ]", b"0|01"]
# The options that grep has not, or means otherwise.
NOT_OF_GREP = (b"-I", b"-q", b"--column", b"-n", b"-N", b"--under", b"--not-under")
# Some are under others, some are whole names, and some begin none.
PREFIXES = [b"a", b"a/", b"a/c", b"a.", b"^a", b"A", b"b", b"B.c", b"main.go", b"s", b"src", b"src/", b"src/x/a.c", b"src/x/a.c/", b"z", b"zz", b"\xff", b".*"]


def random_line(chance):
    if chance.randrange(3):
        return b"".join(chance.choice(PIECES) for _ in range(chance.choice([0, 1, 1, 2, 2, 3, 5, 9])))
    return bytes(chance.choice(BYTES) for _ in range(chance.choice([0, 1, 2, 3, 5, 8, 20])))


def random_body(chance, is_large):
    lines = [random_line(chance) for _ in range(chance.choice([0, 1, 1, 2, 5, 9, 14]))] * (TIMES if is_large else 1)
    return b"\n".join(lines) + chance.choice([b"", b"\n"]) * bool(lines)


def random_tree(chance):
    """A tree of a few files, or of so many that a search with a limit may take only some of them."""
    if chance.randrange(4) == 0:
        names = [b"%s%d" % (chance.choice(NAMES[:-1]), number) for number in range(chance.choice([64, 65, 80, 200]))]
        return {name: random_body(chance, False) for name in chance.sample(names, len(names))}
    is_large = chance.randrange(2)
    return {name: random_body(chance, is_large) for name in chance.sample(NAMES, chance.choice([1, 2, 3, 5, 8, 12]))}


def random_finds(chance, count):
    """So many finds, and the patterns that grep may read otherwise: those with an anchor in a repeated group."""
    finds, others = [], set()
    for _ in range(count):
        pattern, _, is_repeated = Patterns(chance).alternatives(chance.randint(0, 3))
        if is_repeated:
            others.add(pattern)
        names, left_out, prefixes = chance.choice([(NAME_PATTERNS, [], []), ([], NOT_OF_GREP, []), ([], [], PREFIXES), (NAME_PATTERNS, [], PREFIXES)])
        finds.append(random_find(chance, [pattern, chance.choice(WORDS), chance.choice(WORDS)], names, left_out, prefixes))
    return finds, others


def answers_of(script, words):
    """What the program answers to each search of the script."""
    done = subprocess.run([PROGRAM, *words], input=script, capture_output=True, timeout=SECONDS_OF_A_TREE, check=False)
    if done.stderr:
        raise ValueError("the program writes %r" % done.stderr)
    return [entry.text for entry in transcripts.entries_of(done.stdout, transcripts.items_of(script))]


def model(line, documents, number):
    """What the model answers."""
    try:
        head, rows = searches.read(line).answer(documents)
    except searches.Refused as refused:
        return b"search %d refused: %s\n" % (number, str(refused).encode("latin-1"))
    return b"search %d version %d %s\n%s" % (number, len(documents), head, rows)


class Grep:
    """What grep writes for a find, over the files of a tree in the order of their names."""

    def __init__(self, folder, documents, line):
        self.folder, self.documents = folder, documents
        options, self.pattern = searches.said(line)
        self.options = dict(options)
        # with -w, -x and -o, grep writes the line feed after a match too
        edge = b"-x" if b"-x" in self.options else b"-w"
        self.words = [option for option in (b"-i", b"-v", edge) if option in self.options]
        self.words.append(b"-F" if b"-F" in self.options else b"-E")

    def call(self, names, *words):
        """The rows that grep writes with these words for these files, without their ends. A zero byte is behind each name."""
        if not names:
            return []
        command = [b"grep", b"-a", b"-H", b"-n", b"-Z", *self.words, *words, b"-e", self.pattern, b"--", *names]
        environment = dict(os.environ, LC_ALL="C")
        try:
            done = subprocess.run(command, capture_output=True, cwd=self.folder, env=environment, timeout=SECONDS_OF_GREP, preexec_fn=limit_grep, check=False)
        except subprocess.TimeoutExpired:
            raise TooSlow from None
        if done.returncode not in (0, 1) or done.stderr:
            raise TooSlow
        return done.stdout.split(b"\n")[:-1]

    def rows_around(self, hits, shown):
        """The rows with -C: those of the files whose hits are all shown, and those of the one where the limit is."""
        limit, context, groups, whole = shown, (b"-C", b"%d" % self.options[b"-C"]), [], []
        for name, count in collections.Counter(row.partition(b"\0")[0] for row in hits).items():
            if limit >= count:
                whole.append(name)
            elif limit > 0:
                groups.append(self.call([name], *context, b"-m", b"%d" % limit))
            limit -= count
        groups.insert(0, self.call(whole, *context))
        rows = []
        for group in filter(None, groups):
            rows += [b"--"] * bool(rows) + group
        return rows

    def with_spans(self, hits):
        """The rows of these hits with their spans."""
        found = collections.defaultdict(list)
        for row in self.call(sorted(self.documents), b"-o", b"-b"):
            name, _, rest = row.partition(b"\0")
            number, offset, text = rest.split(b":", 2)
            begin = self.documents[name].rfind(b"\n", 0, int(offset)) + 1
            found[name, number].append(b"%d-%d" % (int(offset) - begin + 1, int(offset) - begin + len(text)))
        for row in hits:
            name, _, rest = row.partition(b"\0")
            number, _, text = rest.partition(b":")
            yield b"%s\0%s:%s:%s" % (name, number, b",".join(found[name, number]), text)

    def answer(self):
        """The header's words after the version, and the rows."""
        hits = self.call(sorted(self.documents))
        counts = collections.Counter(row.partition(b"\0")[0] for row in hits)
        of_names = b"-l" in self.options or b"-c" in self.options
        total = len(counts) if of_names else len(hits)
        shown = min(total, self.options.get(b"-m", total))
        head = b"%s %d" % (b"names" if of_names else b"lines", shown) + b" and more" * (shown < total)
        if b"-l" in self.options:
            rows = [name + b"\0" for name in list(counts)[:shown]]
        elif b"-c" in self.options:
            rows = [b"%s\0%d" % pair for pair in list(counts.items())[:shown]]
        elif b"-C" in self.options:
            rows = self.rows_around(hits, shown)
            head += b" rows %d" % len(rows)
        elif b"--spans" in self.options:
            rows = list(self.with_spans(hits[:shown]))
        else:
            rows = hits[:shown]
        if b"-Z" not in self.options:
            rows = [self.without_zero(row) for row in rows]
        return head, b"".join(row + b"\n" for row in rows)

    def without_zero(self, row):
        """The row with what stands in the place of the zero byte: nothing behind a name alone, and else what is behind the line's number."""
        name, zero, rest = row.partition(b"\0")
        if not zero or not rest:
            return name
        mark = b":" if b"-c" in self.options else re.match(rb"\d+([:-])", rest)[1]
        return name + mark + rest


def is_for_grep(line, others):
    """Whether grep has all options of a find and reads its pattern alike."""
    try:
        searches.read(line)
    except searches.Refused:
        return False
    options, pattern = searches.said(line)
    words = {option for option, _ in options}
    if words & set(NOT_OF_GREP) or not shutil.which("grep"):
        return False
    is_other = pattern in others or b"{," in pattern or b"-i" in words and is_other_in_capitals(pattern)
    # with such a symbol grep -w tries matches one by one, and gives up some empty ones
    is_other = is_other or b"-w" in words and re.search(rb"\[[.=]", pattern)
    return b"-F" in words or not is_other


def write_tree(folder, documents):
    for name, body in documents.items():
        # a file cannot have the name of a folder
        path = os.path.join(folder, name)
        os.makedirs(os.path.dirname(path), exist_ok=True)
        with open(path, "wb") as file:
            file.write(body)


def without_folders(documents):
    """The documents whose names can be those of files: none is a folder of another."""
    return {name: body for name, body in documents.items() if not any(other.startswith(name + b"/") for other in documents)}


def compare_tree(seed, number, count):
    """What differs in one tree, or None for each answer that is as it should be; and how many of these are grep's."""
    chance = random.Random(f"{seed} {number}")
    documents = without_folders(random_tree(chance))
    finds, others = random_finds(chance, count)
    script = b"".join(put(*pair) for pair in documents.items()) + b"publish\n" + b"".join(line + b"\n" for line in finds)
    got = answers_of(script, ["--readers", chance.choice(["0", "2"])])
    if len(got) != len(finds):
        return ["%d of %d finds have an answer" % (len(got), len(finds))], 0
    faults, of_grep = [], 0
    with tempfile.TemporaryDirectory() as folder:
        write_tree(os.fsencode(folder), documents)
        for at, (line, answer) in enumerate(zip(finds, got), 1):
            faults.append(difference(line, answer, model(line, documents, at), documents, "by the model"))
            if is_for_grep(line, others):
                try:
                    wanted = b"search %d version %d %s\n%s" % (at, len(documents), *Grep(os.fsencode(folder), documents, line).answer())
                except TooSlow:
                    continue
                of_grep += 1
                faults.append(difference(line, answer, wanted, documents, "by grep"))
    return faults, of_grep


def difference(line, got, wanted, documents, whose):
    if got == wanted:
        return None
    bodies = {name: body[:300] for name, body in documents.items()}
    return "%r over %r: %r, and %s %r" % (line, bodies, got[:500], whose, wanted[:500])


def main():
    words = argparse.ArgumentParser(description="Compares find with grep and with the model.")
    words.add_argument("--finds", type=int, default=20_000)
    words.add_argument("--seed", type=int, default=1)
    given = words.parse_args()
    need_program()
    counted, of_grep = Counted(), 0
    with concurrent.futures.ThreadPoolExecutor(os.cpu_count()) as pool:
        starts = range(0, given.finds, FINDS_OF_A_TREE)
        jobs = [pool.submit(compare_tree, given.seed, start, min(FINDS_OF_A_TREE, given.finds - start)) for start in starts]
        for job in jobs:
            faults, of_tree = job.result()
            counted.judge(faults)
            of_grep += of_tree
    print("%d finds, of which %d are compared with grep" % (given.finds, of_grep))
    counted.end()


if __name__ == "__main__":
    main()
