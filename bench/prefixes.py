"""Measures searches in some of many repositories: python3 bench/prefixes.py FOLDER

A session with two readers has 2,000 repositories of 20 files each, which are the text files of FOLDER of up to 20,000 bytes by turns. The
names begin with the number of the repository. A search is for those of some numbers alone, by prefixes (`--under`) and, as far as one
takes them, by a pattern of names.
"""
import statistics

import build
import client
import command
import corpus

REPOSITORIES = 2_000
FILES = 20
MOST_BYTES = 20_000
MOST_PATTERN = 1_024
PATTERNS = {"a rare word": b"prefixes_of_the_bench", "a word": b"malloc", "a frequent word": b"return", "no trigram": b"[0-9]+$"}
ASKED = [1, 10, 100, 2_000]
TRIES = 15


def documents_of(folder):
    """The documents of all repositories. The last one has a word of its own."""
    bodies = [body for body in corpus.documents_of(folder).values() if 0 < len(body) <= MOST_BYTES]
    found = {}
    for number in range(REPOSITORIES):
        for file in range(FILES):
            found[b"%d:dir/%d.c" % (number, file)] = bodies[(number * FILES + file) % len(bodies)]
    found[b"%d:dir/rare.c" % (REPOSITORIES - 1)] = b"int prefixes_of_the_bench;\n"
    return found


def median_of(session, words, pattern):
    """The milliseconds of a search with these options, and how many lines it has."""
    item = b" ".join([b"find", *words, b"--", pattern]) + b"\n"
    answers = [session.ask(item) for _ in range(TRIES)]
    return 1000 * statistics.median(seconds for _, seconds in answers), int(client.HEAD.match(answers[0][0])[1])


def main():
    (folder,) = command.words(__doc__, 1, 1)
    build.need_program()
    documents = documents_of(folder)
    session = client.Session("--readers", "2")
    session.put_all(documents, b"search zzqqxxyy\n")
    print("%d documents, %.1f MB\n" % (len(documents), sum(map(len, documents.values())) / 1e6))
    command.head(["pattern", "repositories", "lines", "by prefixes, ms", "by a pattern of names, ms"])
    for called, pattern in PATTERNS.items():
        for count in ASKED:
            numbers = [b"%d:" % number for number in range(REPOSITORIES - count, REPOSITORIES)]
            taken, lines = median_of(session, [b"--under " + number for number in numbers], pattern)
            names = b"^(" + b"|".join(numbers) + b")"
            other = "%.2f" % median_of(session, [b"-n " + names], pattern)[0] if len(names) <= MOST_PATTERN else "-"
            command.row(called, count, lines, "%.2f" % taken, other)
    session.end()


if __name__ == "__main__":
    main()
