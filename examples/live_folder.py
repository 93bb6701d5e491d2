#!/usr/bin/env python3
"""Keeps the text files of a folder in a session of tsearch, and answers the patterns that are typed at its prompt.

Usage: examples/live_folder.py [FOLDER]     TSEARCH is the path of the program, if it is not next to examples/

Before each answer it looks through the folder, and names what it leaves out, and why. It takes what git tracks, and
what no .gitignore (in a repository), .ignore or .rgignore names. It skips symbolic links and .git. An empty line ends it.
clients/python/README.md has more clients, and the library that this one uses.
"""

import os
import sys

sys.path.insert(0, os.path.join(os.path.dirname(os.path.abspath(__file__)), "..", "clients", "python"))
import tsearch  # noqa: E402

if __name__ == "__main__":
    top = sys.argv[1] if len(sys.argv) > 1 else "."
    if top in ("-h", "--help"):
        sys.exit(print(__doc__))
    if not os.path.isdir(top):
        sys.exit(f"{top} is not a folder")
    with tsearch.Session(messages=lambda text: os.write(2, text)) as session:
        folder = tsearch.Folder(session, top)
        while os.write(1, b"> ") and (typed := sys.stdin.buffer.readline().rstrip(b"\n")):
            rows = [b"left out: %s: %s\n" % (name, reason.encode()) for name, reason in folder.refresh().left_out]
            try:
                rows += [b"%s:%d:%s\n" % hit[:3] for hit in folder.find(typed)]
            except tsearch.PatternRefused as refused:
                rows.append(b"refused: %s\n" % str(refused).encode())
            sys.stdout.buffer.writelines(rows)
            sys.stdout.buffer.flush()
