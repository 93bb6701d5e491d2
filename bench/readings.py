"""What a publish costs, and how many searches readings answer at the same time: python3 bench/readings.py FOLDER.

First the time of a publish of one changed document among others, each of 5 KiB of the folder's text, with readings that
search all the time and without any. Then the searches a second of readings over the folder's files, with and without a
writer that publishes all the time. It builds a small program over the crates, in a few minutes.
"""
import os
import statistics
import subprocess
import sys
import tempfile

import build
import command
import corpus
import quiet

SIZE = 5_120
FEW, ALL = "static.*inline", "[0-9]+"
PUBLISHES = [(200, 0, FEW), (2_000, 0, FEW), (20_000, 0, FEW), (20_000, 1, FEW), (20_000, 16, FEW), (20_000, 1, ALL), (20_000, 16, ALL)]
SEARCHES = ["zzqqxxyy", "static.*inline", "[A-Z]+_MAX", "return"]
READINGS = [1, 2, 3, 4]


def ask(program, kind, path, documents, readings, pattern):
    """The numbers of each of five blocks."""
    words = [program, kind, path, str(documents), str(readings), pattern]
    what = "%s %d %d %s" % (kind, documents, readings, pattern)
    written = quiet.measured(what, lambda: subprocess.run(words, capture_output=True, check=True, text=True).stdout)
    blocks = [[int(word) for word in line.split()] for line in written.splitlines()]
    if len(blocks) != 5:
        sys.exit("readings.py: the program wrote %r" % written)
    return blocks


def micros(times):
    """The least and the median of five medians."""
    return "%.1f / %.1f" % (min(times) / 1e3, statistics.median(times) / 1e3)


def show_publishes(program, path):
    columns = ["documents", "readings", "they search for", "us for a publish", "the longest", "us for a put", "searches during 200 publishes"]
    command.head(columns)
    for documents, readings, pattern in PUBLISHES:
        blocks = ask(program, "publish", path, documents, readings, pattern)
        times, longest, puts, beside = zip(*blocks)
        searched = command.code(pattern) if readings else ""
        command.row(documents, readings, searched, micros(times), "%.0f" % (max(longest) / 1e3), micros(puts), "%.0f" % statistics.median(beside))


def speeds(blocks):
    """Searches a second: the most and the median of five blocks."""
    each = sorted(block[0] * 1e9 / block[1] for block in blocks)
    return "%.0f / %.0f" % (each[-1], each[2])


def show_searches(program, path):
    times = ["%d at a time" % number for number in READINGS]
    command.head(["pattern", "lines", "a writer", *times, "publishes a second meanwhile"], "Searches a second")
    for pattern in SEARCHES:
        for kind, writer in [("alone", "no"), ("written", "yes")]:
            runs = [ask(program, kind, path, 0, number, pattern) for number in READINGS]
            publishes = ["%.0f" % statistics.median(block[2] * 1e9 / block[1] for block in blocks) for blocks in runs]
            beside = ", ".join(publishes) if kind == "written" else ""
            command.row(command.code(pattern), runs[0][0][3], writer, *map(speeds, runs), beside)


def main():
    source = command.words(__doc__)[0]
    with tempfile.TemporaryDirectory() as folder:
        program = build.build("readings", os.path.join(folder, "built"))
        text = os.path.join(folder, "text")
        with open(text, "wb") as file:
            file.write(corpus.text_of(source, SIZE * 20_000))
        show_publishes(program, text)
        corpus.make(source, folder)
        show_searches(program, corpus.list_of_copies(folder))
        print(quiet.told())


if __name__ == "__main__":
    main()
