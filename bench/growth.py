"""How time and memory grow with the number of documents: python3 bench/growth.py [FOLDER].

Scripts of 2,000, 10,000 and 20,000 documents of about 2 KB, all of the same words: the time to the first publish, of
one search, and of one document added, removed or replaced after each publish. The run that changes are compared with has
two publishes with a command between them, so both of the program's indexes hold all documents before the first change.
Then the memory after one document was replaced 1,000 and 100,000 times. With a FOLDER, also the changes for its files,
and the resident memory for each byte of them before and after the second publish.
"""
import os
import random
import tempfile

import build
import command
import corpus
import timed
from corpus import put

MOST_CHANGES = 4000
MOST_FILES = 2000
MOST_REPLACED = 100000
WORDS = "alpha beta gamma delta int return static void char const struct if else while for memory index search line".split()


def body(seed):
    pick = random.Random(seed)
    return "".join(" ".join(pick.choice(WORDS) + str(pick.randrange(50)) for _ in range(6)) + "\n" for _ in range(45)).encode()


def words_for(target, parts):
    path = os.path.join(target, "script")
    with open(path, "wb") as script:
        script.writelines(parts)
    return [build.PROGRAM, "--readers", "0", "--max-commands", "1000000", path]


def run(target, parts):
    words = words_for(target, parts)
    return min((timed.run(words) for _ in range(3)), key=lambda r: r["seconds"])


def memory(target, parts):
    return timed.memory(words_for(target, parts))


def times_of_changes(target, puts, names, bodies):
    """Milliseconds to add, to remove and to replace one of the documents, each with its publish. The new bodies
    are those of `bodies`, one for each of as many names taken at random."""
    puts = puts + [put(b"one-more", b"one more\n"), b"publish\n"]
    whole = run(target, puts)["seconds"]
    chosen = random.Random(1).sample(names, len(bodies))
    added = [put(b"added/" + name, text) + b"publish\n" for name, text in zip(chosen, bodies)]
    removed = [b"remove " + name + b"\npublish\n" for name in chosen]
    replaced = [put(name, text) + b"publish\n" for name, text in zip(chosen, bodies)]
    return [1000 * (run(target, puts + changes)["seconds"] - whole) / len(bodies) for changes in (added, removed, replaced)]


def row_of(target, count):
    names = [b"d%06d" % i for i in range(count)]
    puts = [put(name, body(i)) for i, name in enumerate(names)] + [b"publish\n"]
    base = run(target, puts)
    searched = run(target, puts + [b"search memory7.*static3\n"] * 20)
    search = 1000 * (searched["seconds"] - base["seconds"]) / 20
    times = times_of_changes(target, puts, names, [body(count + i) for i in range(min(count // 2, MOST_CHANGES))])
    return (count, base["seconds"], memory(target, puts) / 1e6, search, *times)


def memory_after_replacing(target, count):
    """The resident bytes after one document of 500 bytes is replaced this many times, each time with a publish, in a script
    that has a comment in the place of each replacement that is left out."""
    texts = [body(i)[:500] for i in range(16)]
    parts = [put(b"one", texts[i % 16]) + b"publish\n" for i in range(MOST_REPLACED)]
    return memory(target, parts[:count] + [b"#" * (len(part) - 1) + b"\n" for part in parts[count:]])


def files_of(folder, target):
    """What was taken, the scripts that store it with its bytes and by `load` lines, and the names."""
    taken = corpus.make(folder, target)
    files = os.path.join(os.fsencode(target), b"files")
    names = [os.path.relpath(path, files) for path in corpus.files_below(files)]
    loads = [b"load %s %s\n" % (name, os.path.join(files, name)) for name in names]
    with open(os.path.join(target, "puts"), "rb") as puts:
        return taken, [puts.read(), b"publish\n"], loads + [b"publish\n"], names


def show_files(folder, target):
    taken, puts, loads, names = files_of(folder, target)
    bodies = []
    for name in random.Random(2).sample(names, min(len(names) // 2, MOST_FILES)):
        with open(os.path.join(os.fsencode(target), b"files", name), "rb") as file:
            bodies.append(file.read())
    print("%(files)d files, %(bytes)d bytes:" % taken)
    more = [put(b"one-more", b"one more\n"), b"publish\n"]
    for what, script in ("in the script", puts), ("by load lines", loads):
        resident = [memory(target, parts) / taken["bytes"] for parts in (script, script + more)]
        print("files %s: resident %.2f bytes a byte, after a second publish %.2f" % (what, *resident), flush=True)
    print("adding %.2f ms, removing %.2f, replacing %.2f" % tuple(times_of_changes(target, puts, names, bodies)))


def main():
    folders = command.words(__doc__, 0, 1)
    build.need_program()
    command.head(["documents", "to the publish s", "resident MB", "one search ms", "adding ms", "removing ms", "replacing ms"])
    with tempfile.TemporaryDirectory() as target:
        for count in (2000, 10000, 20000):
            command.row(*("%.2f" % cell if isinstance(cell, float) else cell for cell in row_of(target, count)))
        few, many = (memory_after_replacing(target, count) for count in (1000, MOST_REPLACED))
        print("one document replaced 1,000 times: %.1f MB; 100,000 times: %.1f MB" % (few / 1e6, many / 1e6))
    for folder in folders:
        with tempfile.TemporaryDirectory() as target:
            show_files(folder, target)


if __name__ == "__main__":
    main()
