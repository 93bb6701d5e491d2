"""What revisions of a tree cost that are mostly the same files: python3 bench/contents.py FOLDER.

A session with readers gets the folder's files under r0/, and then nine further revisions under r1/ to r9/, each with 50 files more that are
changed: in one session by puts of all files, and in another one by a `copyunder` of the revision before and by puts of the changed files.
The first table has how long a revision takes from the first byte sent until a search finds its last change, and how much memory it takes
once both copies of the index have it; for the third one to the last, the least, the median and the most. The second one has searches over one revision, in a session of its own, and over all ten, without the
text of their lines, and how many times as long these take.
"""
import random
import statistics
import sys
import time

import build
import client
import command
import corpus

CHANGED = 50
REVISIONS = 10
RUNS = 9
READERS = "4"
PATTERNS = [*corpus.PATTERNS, "return nil, err", "func [A-Z][a-z]+\\(", "unsafe\\.Pointer", "mheap_", "zzqqxxyy"]


def changed(documents, names, number):
    """The documents with some more changed ones, and the word that the last of these has."""
    word = b"changed_%d" % number
    return {**documents, **{name: documents[name] + b"// %s\n" % word for name in names}}, word


def items_of(documents, number):
    return b"".join(corpus.put(b"r%d/%s" % (number, name), body) for name, body in documents.items())


def by_puts(documents, number, _):
    """A revision by its files."""
    return items_of(documents, number)


def by_copies(documents, number, names):
    """A revision by the one before, of which these files are changed."""
    return b"copyunder r%d/ r%d/\n" % (number - 1, number) + items_of({name: documents[name] for name in names}, number)


def settled(session):
    """The resident memory once both copies of the index have what is published."""
    for _ in range(3):
        session.ask(b"publish\nsearch zzqqxxyy\n")
    return session.resident()


def revisions(session, documents, way, rng):
    """Feeds all revisions, the further ones in a way, and tells what each takes."""
    _, seconds = session.ask(items_of(documents, 0) + b"publish\nsearch zzqqxxyy\n")
    memory = settled(session)
    command.row("the first", "%.0f" % (1000 * seconds), "%.1f" % (memory / 1e6))
    names, now = sorted(documents), documents
    times, more = [], []
    for number in range(1, REVISIONS):
        own = rng.sample(names, CHANGED)
        now, word = changed(now, own, number)
        text, seconds = session.ask(way(now, number, own) + b"publish\nfind -c -- %s\n" % word)
        if text.count(b"\n") != 1 + CHANGED:
            sys.exit("%s: not the changed files: %r" % (build.called(), text[:200]))
        after = settled(session)
        times.append(1000 * seconds)
        more.append((after - memory) / 1e6)
        memory = after
    called = way.__name__.replace("_", " ")
    command.row("the second, %s" % called, "%.2f" % times[0], "%.2f" % more[0])
    command.row("each further one, %s" % called, *(command.shown((min(some), statistics.median(some), max(some))) for some in (times[1:], more[1:])))


class Counting(client.Session):
    """A session that can be asked how many lines there are, without their text."""

    def count(self, pattern):
        """How many lines there are, and the seconds until that is known."""
        self.searches += 1
        start = time.perf_counter()
        self.process.stdin.write(b"find -q -- %s\n" % pattern)
        text = self.process.stdout.readline()
        seconds = time.perf_counter() - start
        if not text.startswith(b"search %d version " % self.searches):
            sys.exit("%s: not the answer of search %d: %r" % (build.called(), self.searches, text))
        return int(text.split()[5]), seconds


def median_of(session, pattern):
    """How many lines are found, and the median of some runs in milliseconds."""
    lines, _ = session.count(pattern)
    return lines, 1000 * statistics.median(session.count(pattern)[1] for _ in range(RUNS))


def main():
    (folder,) = command.words(__doc__)
    build.need_program()
    documents = corpus.documents_of(folder)
    print("\n%d files, %.1f MB" % (len(documents), sum(map(len, documents.values())) / 1e6))
    alone, together, copied = (Counting("--readers", READERS, "--max-commands", "1000000") for _ in range(3))
    alone.ask(items_of(documents, 0) + b"publish\nsearch zzqqxxyy\n")
    command.head(["revision", "until it is found, ms", "memory more, MB"])
    for session, way in (together, by_puts), (copied, by_copies):
        revisions(session, documents, way, random.Random(1))
    if (lines := together.count(b"e")[0]) != (others := copied.count(b"e")[0]):
        sys.exit("%s: %d lines by puts, and %d by copies" % (build.called(), lines, others))
    copied.end()
    settled(alone)
    command.head(["pattern", "lines in one, in ten", "one, ms", "ten, ms", "times"])
    for pattern in PATTERNS:
        (lines, one), (more, ten) = (median_of(session, pattern.encode()) for session in (alone, together))
        command.row("`%s`" % pattern, "%d, %d" % (lines, more), "%.2f" % one, "%.2f" % ten, "%.2f" % (ten / one))


if __name__ == "__main__":
    main()
