"""The command `tgrep`: searches a folder at the terminal through a server that keeps its text files in a session.

`client` runs for each call, and imports nothing that is slow to import; `server` keeps a tree; `options` is the one table of which
the reading of the words, `--help`, the manual page and the completions are made.
"""

VERSION = "0.1.0"
