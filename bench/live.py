"""Measures a session: how long it takes from a changed file to an answer in which it is found.

Usage: python3 bench/live.py FOLDER..

For each folder a session gets a thousand of the files that may be documents, and then one gets all of them. In each, files are
changed one after the other: a put of the file with one line more, or of the body of another file of such a length with that
line, a publish, and a search for a word of the line. The time is from before the first byte is sent until after the last byte
of the answer is read, by a client in Python that waits for each answer. Searches alone are measured too, and the resident
memory after the first publish, after the second, when both copies of the index have all documents, and at the end.
"""
import random

import build
import client
import command
import corpus
import quiet

ROUNDS = 10_000
OTHER_ROUNDS = 1_000
FEW_FILES = 1_000


def measure(documents, rng):
    """Measures a session with these documents."""
    size = sum(map(len, documents.values()))
    session = client.Session()
    _, first = session.put_all(documents, b"search zzqqxxyy\n")
    before = session.resident()
    session.ask(b"publish\nsearch zzqqxxyy\n")
    both = session.resident()
    print("\n%d files, %.1f MB; to the first answer %.0f ms" % (len(documents), size / 1e6, 1000 * first))
    print("\nresident for each byte of the documents %.2f, and %.2f after a second publish" % (before / size, both / size))
    print()
    command.head(["what", "rounds", "least / median / 99% / most, ms"])
    for label, (low, high) in client.LENGTHS.items():
        names = [name for name, body in documents.items() if low <= len(body) <= high]
        for other, how in (False, "one line more"), (True, "another body"):
            rounds = ROUNDS if label == "10 KB" and not other else OTHER_ROUNDS
            if names:
                what = "a file of %s: %s" % (label, how)
                seconds = quiet.measured(what, lambda: client.changes(session, documents, names, other, rounds, rng))
                command.row(what, rounds, command.shown(command.times(seconds)))
    alone = quiet.measured("a search alone", lambda: [session.ask(b"search changed_none\n")[1] for _ in range(OTHER_ROUNDS)])
    command.row("a search for a rare literal alone", OTHER_ROUNDS, command.shown(command.times(alone)))
    after = session.resident()
    print("\nresident %.1f MB after them, %.1f before; the end takes %.0f ms" % (after / 1e6, both / 1e6, 1000 * session.end()))


def main():
    folders = command.words(__doc__, 1, None)
    build.need_program()
    for folder in folders:
        documents = corpus.documents_of(folder)
        rng = random.Random(1)
        print("\n%s" % folder)
        for count in sorted({min(FEW_FILES, len(documents)), len(documents)}):
            measure(dict(rng.sample(sorted(documents.items()), count)), rng)
    print("\n" + quiet.told())


if __name__ == "__main__":
    main()
