"""The repository, its built program, and what scripts of tests/ share.

A script in a folder of tests/ puts tests/ on the path of modules first, and imports what is in a folder by the folder's name.
"""

import codecs
import pathlib
import sys

TOP = pathlib.Path(__file__).resolve().parent.parent
PROGRAM = TOP / "crates/program/out/program"
SCRIPT = pathlib.Path(sys.argv[0]).resolve()


def script_name():
    """The script that runs, by its path from the top of the repository."""
    return str(SCRIPT.relative_to(TOP)) if TOP in SCRIPT.parents else SCRIPT.name


def need_program(program=PROGRAM, call="./tsearch --prove"):
    """Ends the script if there is no program."""
    if not program.exists():
        sys.exit(f"{script_name()}: build the program first: {call}")


def put(name, body):
    """The lines of a script that put a document."""
    return b"put %s %d\n%s\n" % (name, len(body), body)


def own_body(text, number):
    """The text, and behind it lines that no text with another number has. They are too short for a trigram."""
    digits = b"%d" % number
    return b"\n".join([text, *(digits[at : at + 2] for at in range(0, len(digits), 2))])


def rows_of(path):
    """The rows of a file: each line but comments and empty ones, as its fields between tabs. \\n is a line feed, \\xHH a byte."""
    for line in path.read_text(encoding="ascii").split("\n"):
        if line and not line.startswith("#"):
            yield tuple(codecs.decode(field, "unicode_escape").encode("latin-1") for field in line.split("\t"))
