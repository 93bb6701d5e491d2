"""What is large, and lines that are long: python3 bench/extremes.py.

Prints six tables:

- answers of 16.8 million lines, which the empty pattern finds in 16 documents of a MiB of line feeds, with 0, 2 and 4 readers: the
  seconds and the most resident memory of a run and of a session;
- the column and the spans of one long line, for patterns that are hard for them. A search of less than a second is measured five times,
  and its least time is shown;
- searches in one line of 5 MB of words, with 0 and 4 readers: a rare one, whose line is written and only counted, and the spans of all
  words; until the answer is read, and how long the program says that it worked;
- searches by name among 200,000 documents of one line, 400 of them in a folder: the names that begin with the folder's, and all names
  that have it in them;
- the resident memory of sessions that replace documents of 500 bytes, with a publish after each round: the least and the most of what
  is seen thirty times on the way;
- the most resident memory of runs in which each line is refused.
"""
import os
import tempfile

import build
import client
import command
import corpus
import timed

READERS = (0, 2, 4)
FOLDERS, FILES = 500, 400
LOOKS = 30
REPLACED = [(1, 300_000), (1_000, 300)]
REFUSED = (1 << 20, 1 << 22)
LONG = 16_384
LONG_LINE = 5_000_000
HARD = "((((((a*b)*a)*b)*a)*b)*a)*e|a"
SPANS = [
    ("(a|aa)*b|a", "1,024 `a`", b"a" * 1_024),
    ("(a|aa)*b|a", "16,384 `a`", b"a" * LONG),
    (HARD, "16,384 `a`", b"a" * LONG),
    (HARD, "16,380 `b` and four `a`", b"b" * (LONG - 4) + b"aaaa"),
]


def of_run(words, path):
    return [build.PROGRAM, *words, path]


def of_session(words, path):
    return ["bash", "-c", 'exec "$0" --live "${@:2}" < "$1"', build.PROGRAM, path, *words]


def large_answers(path):
    with open(path, "wb") as script:
        for number in range(16):
            script.write(corpus.put(b"d%02d" % number, b"\n" * corpus.MAX_BODY))
        script.write(b"publish\nsearch \n")
    command.head(["readers", "a run s", "a run MiB", "a session s", "a session MiB"], "The empty pattern over 16 documents of 1 MiB of line feeds")
    for readers in READERS:
        cells = []
        for words_of in (of_run, of_session):
            words = words_of(["--readers", str(readers)], path)
            cells += ["%.2f" % min(timed.run(words)["seconds"] for _ in range(3)), "%.0f" % (timed.memory(words) / 2**20)]
        command.row(readers, *cells)


def quickest(session, search):
    """The seconds of a search, the least of five if it takes less than one."""
    taken = session.ask(search)[1]
    return taken if taken > 1 else min(taken, *(session.ask(search)[1] for _ in range(4)))


def spans():
    session = client.Session("--readers", "0")
    session.put_all({b"line%d" % number: line + b"\n" for number, (_, _, line) in enumerate(SPANS)}, b"search zzqqxxyy\n")
    command.head(["pattern", "line", "`--column` s", "`--spans` s"], "The column and the spans of one line")
    for number, (pattern, line, _) in enumerate(SPANS):
        searches = (b"find %s -n ^line%d$ -- %s\n" % (option, number, pattern.encode()) for option in (b"--column", b"--spans"))
        command.row(command.code(pattern), line, *("%.4f" % quickest(session, search) for search in searches))
    session.end()


def long_line():
    words = b"".join(b"value_%d = next(%x, y); " % (number, number * 7_919) for number in range(200_000))
    line = words[: LONG_LINE // 2] + b" sched_setaffinity " + words[LONG_LINE // 2 : LONG_LINE]
    searches = ("search sched_setaffinity", "find -c -- sched_setaffinity", "find --spans -- [a-z]+")
    columns = ("`%s`, read; worked, ms" % search for search in searches)
    command.head(["readers", *columns], "One line of %.1f MB" % (len(line) / 1e6))
    for readers in (0, 4):
        session = client.Session("--times", "--readers", str(readers), "--max-body", str(1 << 26), "--max-line", str(1 << 26))
        session.put_all({b"long": line + b"\n"}, b"search zzqqxxyy\n")
        command.row(readers, *("%.1f; %.1f" % read_and_worked(session, search) for search in searches))
        session.end()


def read_and_worked(session, search):
    """The milliseconds until an answer is read, and those in which the program worked for it, the least of five each."""
    answers = [session.ask(search.encode() + b"\n") for _ in range(5)]
    worked = [int(text.partition(b" worked ")[2].split()[0]) for text, _ in answers]
    return 1000 * min(seconds for _, seconds in answers), min(worked) / 1000


def names():
    session = client.Session("--readers", "0")
    documents = {b"d%03d/f%03d" % (number // FILES, number % FILES): b"http://host/%d\n" % number for number in range(FOLDERS * FILES)}
    session.put_all(documents, b"search zzqqxxyy\n")
    command.head(["search", "ms"], "By name among %d documents" % len(documents))
    for search in ("find -l -n ^d007/ -- http", "find -l -n d007/ -- http"):
        command.row("`%s`" % search, "%.1f" % (1000 * quickest(session, search.encode() + b"\n")))
    session.end()


def round_of(number, count):
    body = (b"%d: a word or two\n" % number * 40)[:500]
    return b"".join(corpus.put(b"d%d" % document, body) for document in range(count)) + b"publish\n"


def replacements():
    command.head(["documents", "rounds", "resident MB, least", "most"], "Documents that are replaced")
    for count, rounds in REPLACED:
        session = client.Session("--readers", "0")
        seen = []
        for first in range(0, rounds, rounds // LOOKS):
            items = b"".join(round_of(number, count) for number in range(first, first + rounds // LOOKS))
            session.ask(items + b"search zzqqxxyy\n")
            seen.append(session.resident() / 1e6)
        session.end()
        command.row(count, rounds, "%.1f" % min(seen), "%.1f" % max(seen))


def refused_lines(path):
    command.head(["lines", "resident MB"], "Runs in which each line is refused")
    for count in REFUSED:
        with open(path, "wb") as script:
            script.write(b"x\n" * count)
        command.row(count, "%.0f" % (timed.memory(of_run(["--readers", "0"], path)) / 1e6))


def main():
    command.words(__doc__, 0, 0)
    build.need_program()
    with tempfile.TemporaryDirectory() as target:
        large_answers(os.path.join(target, "script"))
        spans()
        long_line()
        names()
        replacements()
        refused_lines(os.path.join(target, "script"))


if __name__ == "__main__":
    main()
