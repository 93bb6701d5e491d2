"""The memory of posting lists, and the time of a selection by them: python3 bench/lists.py FOLDER [CHECKOUT..].

Over the files of a folder: the memory of an index without its documents, for each posting (a document in the list of one
trigram), and the time to select the candidates of a rare literal, of a literal whose four trigrams are common, and of 256
texts. It builds a small program over the crates, in a few minutes. If checkouts of the repository are named, it does so for
the crates of each, in one run.
"""
import statistics
import subprocess
import tempfile

import build
import command
import corpus
import timed

PATTERNS = [
    ("a rare literal", "GNU_GETTEXT_REQUIRE"),
    ("a literal of four common trigrams", "return"),
    ("256 texts of three bytes", "|".join(first + second + "e" for first in "abcdefghijklmnop" for second in "aeioustrnlmpdcgh")),
]


def ask(program, kind, path, rounds=1, pattern=""):
    words = [program, kind, path, str(rounds), pattern]
    return [int(word) for word in subprocess.run(words, capture_output=True, check=True, text=True).stdout.split()]


def memory_of(program, kind, path):
    return statistics.median(timed.memory([program, kind, path, "1", ""]) for _ in range(3))


def selection(program, path, pattern):
    """The nanoseconds of one selection, the best of three runs of a fifth of a second or more, and its candidates."""
    rounds = 1
    while True:
        runs = [ask(program, "select", path, rounds, pattern) for _ in range(3)]
        if min(runs)[0] > 2e8 or rounds >= 4**9:
            return min(runs)[0] / rounds, runs[0][1]
        rounds *= 16


def show(programs, path):
    postings = ask(programs[0], "count", path)[0]
    print("postings %d" % postings)
    for program in programs:
        documents, index = (memory_of(program, kind, path) for kind in ("documents", "index"))
        print("resident: documents %.1f MB, index %.1f MB, %.2f bytes a posting" % (documents / 1e6, index / 1e6, (index - documents) / postings))
    command.head(["selection", "candidates"] + ["us"] * len(programs))
    for what, pattern in PATTERNS:
        runs = [selection(program, path, pattern) for program in programs]
        assert len({found for _, found in runs}) == 1
        command.row(what, runs[0][1], *("%.2f" % (nanos / 1000) for nanos, _ in runs))


def main():
    source, *roots = command.words(__doc__, 1, None)
    with tempfile.TemporaryDirectory() as folder:
        programs = build.build_each("lists", folder, roots)
        taken = corpus.make(source, folder)
        print("files %(files)d, bytes %(bytes)d" % taken)
        show(programs, corpus.list_of_copies(folder))


if __name__ == "__main__":
    main()
