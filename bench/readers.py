"""What more readers bring: python3 bench/readers.py FOLDER.

One script over the folder's files: 200 searches with many matches, all sent before the script waits for an answer. Prints
the seconds with 0 to 4 readers, the least and the median of five runs, without the time to the first publish and
with the output in a file; how many searches a second that is, and how many times as fast as with one reader.
"""
import statistics
import tempfile

import build
import command
import corpus
import quiet
import timed

RUNS = 5
SEARCHES = corpus.MANY_MATCHES


def main():
    folder = command.words(__doc__)[0]
    build.need_program()
    with tempfile.TemporaryDirectory() as target:
        taken = corpus.make(folder, target)
        print("files %(files)d, bytes %(bytes)d, %(searches)d searches" % dict(taken, searches=len(SEARCHES)))

        def spent(readers, searches):
            words = [build.PROGRAM, "--readers", str(readers), "--max-commands", "1000000", corpus.script_with(target, searches)]
            what = "%d readers" % readers
            return quiet.measured(what, lambda: [timed.run(words)["seconds"] for _ in range(RUNS)])

        command.head(["readers", "seconds", "searches a second", "times as fast as one"])
        one = None
        for readers in (1, 0, 2, 3, 4):
            base = statistics.median(spent(readers, []))
            seconds = [second - base for second in spent(readers, SEARCHES)]
            least, median = min(seconds), statistics.median(seconds)
            one = one or median
            rates = "%.0f / %.0f" % (len(SEARCHES) / least, len(SEARCHES) / median)
            command.row(readers, command.shown((least, median)), rates, "%.2f" % (one / median))
        print(quiet.told())


if __name__ == "__main__":
    main()
