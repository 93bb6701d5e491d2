"""Which lines of the text files of a folder are missing: python3 bench/missing.py FOLDER..

Each of the 35 searches of trees.py is made by `tgrep` and by `rg -uuu --binary`. A text file is one without a byte 0. The lines of such files
that one of them lists and the other does not are counted, and the first of each kind are shown. The status is 1 if any line is missing.
"""
import os
import pathlib
import subprocess
import sys

import command
import trees

TOP = pathlib.Path(__file__).resolve().parent.parent
TGREP = [TOP / "tgrep", "--no-ignore", "--left-out"]
RG = ["rg", "-uuu", "--binary", "--no-unicode", "-n", "--no-heading", "--color=never", "-g", "!.git"]
SHOWN = 3


def searches():
    """The words of each search, which both commands take."""
    yield from (["-e", pattern] for _, pattern in trees.PATTERNS)
    yield ["-e", trees.IGNORED[0]]
    yield from (["-i", "-e", pattern] for pattern in trees.IGNORED)
    yield from (["-g", glob, "-e", pattern] for _, glob, pattern in trees.NAMED)


def binary_files(folder):
    """The paths of the files with a byte 0, from the top of the folder."""
    found = set()
    for at, _, names in os.walk(os.fsencode(folder)):
        for name in names:
            path = os.path.join(at, name)
            if os.path.isfile(path) and not os.path.islink(path):
                with open(path, "rb") as file:
                    body = file.read()
                if b"\0" in body and body[:2] not in (b"\xff\xfe", b"\xfe\xff"):
                    found.add(os.path.relpath(path, os.fsencode(folder)))
    return found


def rows(words, folder, binary):
    """The rows that a command writes of text files: PATH, a byte 0, LINE, a colon and the text."""
    done = subprocess.run([*words, "-0"], cwd=folder, stdin=subprocess.DEVNULL, capture_output=True, check=False)
    if done.returncode not in (0, 1):
        sys.stderr.buffer.write(done.stderr)
    return {row for row in done.stdout.split(b"\n") if b"\0" in row and row.partition(b"\0")[0] not in binary}


def main():
    folders = command.words(__doc__, 1, None)
    is_whole = True
    for folder in folders:
        binary = binary_files(folder)
        print("%s, %d files with a byte 0\n" % (folder, len(binary)))
        command.head(["search", "lines", "missing", "more"])
        for search in searches():
            found, wanted = (rows([*words, *search], folder, binary) for words in (TGREP, RG))
            missing, more = sorted(wanted - found), sorted(found - wanted)
            is_whole = is_whole and not missing
            command.row(command.code(" ".join(search)), len(wanted), len(missing), len(more))
            for row in missing[:SHOWN] + more[:SHOWN]:
                print(repr(row[:200]))
    sys.exit(0 if is_whole else 1)


if __name__ == "__main__":
    main()
