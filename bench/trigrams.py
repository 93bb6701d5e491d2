"""How fast the trigrams of bodies are found and patterns are analysed: python3 bench/trigrams.py FOLDER.

Builds a small program over the crates, in a few minutes, and runs it on the text of the folder's files.
"""
import os
import subprocess
import tempfile

import build
import command
import corpus

BODIES = [("one body of 1 MiB", 1_048_576, 1), ("10,000 bodies of 5 KiB", 5_120, 10_000), ("2,500 bodies of 20 KiB", 20_480, 2_500)]
BYTES = "abcdefghijklmnopqrstuvwxyzABCDEFGHIJKLMNOPQRSTUVWXYZ0123456789_"


def group(i):
    """Sixteen texts of 55 bytes, twice: 256 texts, each of which has its trigrams in the query."""
    return "([a-p](%s){3}){2}" % (BYTES[i:] + BYTES[:i])[:18]


PATTERNS = [
    ("`hello`", "hello"),
    ("`ab+cd+`", "ab+cd+"),
    ("`(foo\\|bar)baz`", "(foo|bar)baz"),
    ("`(a{255}){16}`", "(a{255}){16}"),
    ("`([ab]c?){255}`", "([ab]c?){255}"),
    ("`%s`" % group(0), group(0)),
    ("31 such groups of other bytes", "".join(group(2 * i) for i in range(31))),
]
WITHOUT_DOCUMENTS = ["zzqqxxyy", "unlikely_to_be_there_twice", "template.*#define.*inline.*sqlite"]


def ask(program, kind, path, number, pattern=""):
    words = subprocess.run([program, kind, path, str(number), pattern], capture_output=True, check=True, text=True).stdout.split()
    return [int(word) for word in words if word.isdigit()]


def show_trigrams(program, text, path):
    command.head(["", "trigrams_of MB/s", "sort_unstable, dedup MB/s", "ratio"])
    for name, size, count in BODIES:
        with open(path, "wb") as file:
            file.write(text[: size * count])
        runs = [ask(program, "trigrams", path, size) for _ in range(5)]
        assert all(run[2] == run[3] for run in runs)
        ours, others = min(run[0] for run in runs), min(run[1] for run in runs)
        speeds = size * count * 1e3 / ours, size * count * 1e3 / others
        command.row(name, *("%.0f" % speed for speed in speeds), "%.1f" % (speeds[0] / speeds[1]))


def show_analysis(program, path):
    command.head(["pattern", "analyse ms", "nodes of the query"], "Patterns")
    for name, pattern in PATTERNS:
        rounds, spent = 1, 0
        while spent < 2e7:
            rounds *= 4
            spent, nodes = ask(program, "analyse", path, rounds, pattern)
        best = min(ask(program, "analyse", path, rounds, pattern)[0] for _ in range(5))
        command.row(name, "%.4f" % (best / rounds / 1e6), nodes)


def show_selection(program, text, path):
    with open(path, "wb") as file:
        file.write(text)
    command.head(["pattern", "documents", "candidates", "selection us"], "Selections that find nothing")
    for pattern in WITHOUT_DOCUMENTS:
        runs = [ask(program, "select", path, 5_120, pattern) for _ in range(3)]
        nanos, found, documents = min(runs)
        command.row(command.code(pattern), documents, found, "%.3f" % (nanos / 1e6))


def main():
    text = corpus.text_of(command.words(__doc__)[0], max(size * count for _, size, count in BODIES))
    with tempfile.TemporaryDirectory() as folder:
        program = build.build("trigrams", os.path.join(folder, "built"))
        path = os.path.join(folder, "text")
        show_trigrams(program, text, path)
        show_analysis(program, path)
        show_selection(program, text, path)


if __name__ == "__main__":
    main()
