"""Searches with options (`find`) beside `rg` and `grep`: python3 bench/finds.py FOLDER [SUFFIX].

Over the files of a folder that may be documents, each with the option that the tools have for the same. SUFFIX is that of the files
for the searches by name (c). Prints how many lines or names the first line of the answer counts, and the time of a search: the least
and the median of five runs, in milliseconds. tsearch is one session without readers, and one with a reader for each processor, as in
trees.py; the other tools are whole commands. A tool that has no such option has no time. Nothing is asserted.
"""
import os
import tempfile

import build
import client
import command
import corpus
import quiet
import timed
from command import least_and_median as shown

RUNS = 5

# The words of `find`, those of rg and of grep (None: it has no such option), with %s for the suffix.
FINDS = [
    ("-i -m 200 -- c", None, None),
    ("-q -- e", None, None),
    ("-q -m 1 -- e", ["-q", "-e", "e"], ["-q", "-e", "e"]),
    ("-q -m 1 -- zzqqxxyy", ["-q", "-e", "zzqqxxyy"], ["-q", "-e", "zzqqxxyy"]),
    ("-l -n \\.%s$ -- http", ["-l", "-g", "*.%s", "-e", "http"], ["-l", "--include=*.%s", "-e", "http"]),
    ("-l -- http", ["-l", "-e", "http"], ["-l", "-e", "http"]),
    ("-l -n ^src/ -- return", ["-l", "-g", "/src/**", "-e", "return"], None),
    ("-c -- return", ["-c", "-e", "return"], ["-c", "-e", "return"]),
    ("-F -- a[i]", ["-F", "-e", "a[i]"], ["-F", "-e", "a[i]"]),
    ("-w -- in", ["-w", "-e", "in"], ["-w", "-e", "in"]),
    ("-x -- }", ["-x", "-e", "}"], ["-x", "-e", "}"]),
    ("-v -- ;", ["-v", "-e", ";"], ["-v", "-e", ";"]),
    ("-C 3 -- memcpy", ["-C3", "-e", "memcpy"], ["-C3", "-e", "memcpy"]),
    ("--column -- return", ["--column", "-e", "return"], None),
    ("--spans -- return", None, None),
    ("--spans -- [a-z]+_[a-z]+", None, None),
]


def spent(words, folder):
    """The seconds of each of some runs of a command in a folder."""
    env = dict(os.environ, LC_ALL="C")
    words = ["env", "-C", folder, *words]
    return quiet.measured(" ".join(words), lambda: [timed.run(words, env=env)["seconds"] for _ in range(RUNS)])


def others(files, rg, grep):
    """The times of rg on one thread, of rg and of grep."""
    words = [None, None, None]
    if rg is not None:
        rg = ["-uuu", "-a", "--no-unicode", "-n", "--no-heading", *rg]
        words[:2] = [["rg", "-j1", *rg], ["rg", *rg]]
    if grep is not None:
        words[2] = ["grep", "-rnE" if "-F" not in grep else "-rn", *grep]
    return ["-" if one is None else shown(spent([*one, "."], files)) for one in words]


def main():
    folder, *rest = command.words(__doc__, 1, 2)
    suffix = rest[0] if rest else "c"
    build.need_program()
    with tempfile.TemporaryDirectory() as target:
        taken = corpus.make(folder, target)
        print("files %(files)d, bytes %(bytes)d, refused %(refused)d" % taken)
        script = corpus.script_with(target, [])
        files = os.path.join(target, "files")
        sessions = [client.FileSession(target, script), client.FileSession(target, script, os.cpu_count())]
        command.head(["`find`", "lines or names", "tsearch", "tsearch, %d readers" % os.cpu_count(), "rg -j1", "rg", "grep -r"])
        for find, rg, grep in FINDS:
            named = [None if words is None else [word.replace("%s", suffix) for word in words] for words in (rg, grep)]
            search = "find " + find.replace("%s", suffix)
            counted = [session.first(search) for session in sessions][0][1].decode()
            ours = [shown(quiet.measured(search, lambda: session.times(search))) for session in sessions]
            command.row(command.code(search), counted, *ours, *others(files, *named))
        for session in sessions:
            session.end()
        print(quiet.told())


if __name__ == "__main__":
    main()
