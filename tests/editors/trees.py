"""The tree that an editor searches: a copy of Go's sources, or, where they are not on the machine, one that is made."""

import pathlib
import random
import shutil

GO = pathlib.Path("/usr/share/go-1.19")
MOST_BODY, MOST_LINE = 1_048_576, 16_384
WORDS = "alpha beta gamma delta Reader Writer func return for if err nil package import type struct int string".split()


def is_there():
    """Whether Go's sources are."""
    return (GO / "src/net/http/server.go").is_file()


def _is_too_long(folder, names):
    """What of a folder may be too long for a document, which the judge would find."""
    found = []
    for name in names:
        path = pathlib.Path(folder, name)
        if path.is_file() and (path.stat().st_size > MOST_BODY or max(map(len, path.read_bytes().split(b"\n"))) > MOST_LINE):
            found.append(name)
    return found


def make(folder):
    """Makes the tree in a folder."""
    if is_there():
        shutil.copytree(GO / "src", folder / "src", ignore=_is_too_long)
        return
    source = random.Random(1)
    for number in range(2_000):
        path = folder / f"src/p{number % 40}/f{number}.go"
        path.parent.mkdir(parents=True, exist_ok=True)
        lines = [" ".join(source.choices(WORDS, k=source.randint(0, 9))) for _ in range(source.randint(5, 200))]
        if number % 37 == 0:
            lines.append("func ListenAndServe(addr string, handler Handler) error {")
        path.write_text("\n".join(lines) + "\n", encoding="utf-8")
