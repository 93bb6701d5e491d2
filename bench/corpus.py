"""What is searched, and for what: the files of a folder as documents, as scripts and as text, and the patterns of several scripts."""
import os
import random

MAX_BODY = 1_048_576
MAX_LINE = 16_384
MAX_NAME = 255
MAX_SCRIPT = 67_108_864
MAX_COMMANDS = 1_000_000

# Patterns of different kinds, for the lines of a source tree.
PATTERNS = ["e", "int", "^#include", ";$", "[0-9]+", "[A-Za-z_]+\\(", "(if|while|for) *\\(", "a.*b.*c", "(ab|cd)*e", "x{2,5}y?"]
# 200 searches with many matches.
MANY_MATCHES = ["search " + pattern for pattern in ("[0-9]+", "return", "(if|while|for) *\\(", "[a-z]+[0-9]+ [a-z]+", "x.*y.*z")] * 40


def nested(depth, inner, text):
    """A pattern that is put so many times into a text, in the place of %s."""
    for _ in range(depth):
        inner = text % inner
    return inner


def is_name(name):
    return 0 < len(name) <= MAX_NAME and all(b >= 33 and b != 127 for b in name)


def is_body(body):
    return len(body) <= MAX_BODY and b"\0" not in body and all(len(line) <= MAX_LINE for line in body.split(b"\n"))


def files_below(folder):
    for root, folders, names in os.walk(os.fsencode(folder)):
        folders.sort()
        for name in sorted(names):
            path = os.path.join(root, name)
            if os.path.isfile(path) and not os.path.islink(path):
                yield path


def named_bodies(folder):
    """The name that each file of a folder has as a document, and its bytes."""
    base = os.fsencode(os.path.abspath(folder))
    for path in files_below(base):
        with open(path, "rb") as file:
            yield os.path.relpath(path, base), file.read()


def documents_of(folder):
    """The files of a folder that may be documents: their bodies by their names."""
    return {name: body for name, body in named_bodies(folder) if is_name(name) and is_body(body)}


def bodies_of(folder):
    """The files of a folder whose bytes may be the body of a document."""
    return (body for _, body in named_bodies(folder) if is_body(body))


def put(name, body):
    return b"put %s %d\n%s\n" % (name, len(body), body)


def make(folder, target):
    """Makes a corpus that is the same for every tool: copies the files that may be documents below `target`/files, and writes the
    script that stores them as `target`/puts: with their bytes or, if these would make the script too long, with `load` lines.
    Returns what was taken."""
    copies = os.path.join(os.fsencode(os.path.abspath(target)), b"files")
    taken = {"files": 0, "bytes": 0, "refused": 0, "loaded": False}
    names = []
    for name, body in named_bodies(folder):
        if not is_name(name) or not is_body(body) or taken["files"] == MAX_COMMANDS:
            taken["refused"] += 1
            continue
        copy = os.path.join(copies, name)
        os.makedirs(os.path.dirname(copy), exist_ok=True)
        with open(copy, "wb") as file:
            file.write(body)
        names.append((name, copy))
        taken["files"] += 1
        taken["bytes"] += len(body)
    taken["loaded"] = taken["bytes"] + 300 * len(names) > MAX_SCRIPT
    with open(os.path.join(target, "puts"), "wb") as script:
        for name, copy in names:
            script.write(b"load %s %s\n" % (name, copy) if taken["loaded"] else put_file(name, copy))
    return taken


def put_file(name, path):
    with open(path, "rb") as file:
        return put(name, file.read())


def script_with(target, searches, name="script"):
    """Writes the script that stores what `make` has taken, publishes it and has these searches, and returns its path."""
    path = os.path.join(target, name)
    with open(path, "wb") as script, open(os.path.join(target, "puts"), "rb") as puts:
        while part := puts.read(1 << 20):
            script.write(part)
        script.write(b"publish\n")
        for search in searches:
            script.write(search.encode() + b"\n")
    return path


def list_of_copies(target):
    """Writes the paths of the files that `make` has copied, one a line, and returns the path of this list."""
    path = os.path.join(target, "list")
    with open(path, "wb") as file:
        file.writelines(name + b"\n" for name in files_below(os.path.join(target, "files")))
    return path


def lines_of(folder, most):
    """The first lines of the folder's files, at most this many."""
    found = []
    for body in bodies_of(folder):
        found.extend(body.split(b"\n"))
        if len(found) >= most:
            break
    return found[:most]


def text_of(folder, length):
    """This many bytes of the folder's files, which begin again if there are too few."""
    parts, held = [], 0
    for body in bodies_of(folder):
        parts.append(body)
        held += len(body)
        if held >= length:
            break
    text = b"".join(parts)
    return (text * (length // len(text) + 1))[:length]


def random_lines(letters, length, lines):
    source = random.Random(1)
    return b"".join(bytes(source.choices(letters, k=length - 1)) + b"\n" for _ in range(lines))
