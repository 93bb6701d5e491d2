"""tsearch, `csearch`, `rg` and `grep -rE` on the same files: python3 bench/trees.py FOLDER.

Prints the time from the script's first byte to the first publish, that of `cindex`, the resident memory, and for each
pattern the lines found, the candidates, and the time of a search by tsearch and by the other tools, with their output in
a file: the least and the median of five runs, in milliseconds. tsearch is a session without readers that has all files; a run of it is a
batch of copies of the search, from before they are sent until their last byte is in the file, divided by their number.
Another session has a reader for each processor; it is asked one search at a time, and the time is that of each until its last byte
is in the file. The other tools are whole commands. All use one thread except that session and the second `rg`, which uses as many
as it likes. Nothing is asserted.
"""
import os
import shutil
import statistics
import tempfile

import build
import client
import command
import corpus
import quiet
import timed
from command import least_and_median as shown

RUNS = 5

PATTERNS = [
    ("rare literal", "sched_setaffinity"),
    ("rare literal", "pthread_cond_signal"),
    ("common literal", "return"),
    ("common literal", "include"),
    ("two literals", "static.*inline"),
    ("two literals", "if.*NULL.*return"),
    ("alternation", "memcpy|memmove|memset"),
    ("alternation", "(if|while|for) *\\("),
    ("class with literal", "[A-Z]+_MAX"),
    ("class with literal", "str[a-z]+\\("),
    ("anchored", "^#define"),
    ("anchored", "^static .*\\{$"),
    ("bounded", "0x[0-9a-f]{8}"),
    ("bounded", "^(.{64}){3}x"),
    ("classes of case", "[Ee][Rr][Rr][Oo][Rr]"),
    ("classes of case", "[Tt][Oo][Dd][Oo]"),
    ("no trigram", "[a-z]+[0-9]+ [a-z]+"),
    ("no trigram", "x.*y.*z"),
    ("many hits", "[0-9]+"),
    ("many hits", "e"),
    ("none", "zzqqxxyy"),
    ("none", "return.*zzqq"),
    ("nested repeats", "((a*|b)*|c)*d"),
    ("nested repeats", "^(([a-z]+_)+[a-z]+ )+=$"),
]

# Searches that ignore case, by `isearch` and by -i; the first is searched with its case too.
IGNORED = ["deadlock", "PTHREAD_COND_SIGNAL", "ERROR", "todo", "return", "static.*inline", "[a-z]+_max"]

# A name pattern, the file names as a glob, and the pattern.
NAMED = [
    ("\\.h$", "*.h", "return"),
    ("\\.c$", "*.c", "[0-9]+"),
    ("(^|/)[^/]*test[^/]*$", "*test*", "static"),
]


def spent(words, env=None):
    """The seconds of each of some runs."""
    return quiet.measured(" ".join(words), lambda: [timed.run(words, env=env)["seconds"] for _ in range(RUNS)])


def words_of(path):
    return [build.PROGRAM, "--stats", "--readers", "0", "--max-commands", "1000000", path]


def index_times(files, env):
    """The seconds of each of some runs of cindex, each from scratch."""
    seconds = []
    for _ in range(RUNS):
        if os.path.exists(env["CSEARCHINDEX"]):
            os.remove(env["CSEARCHINDEX"])
        seconds.append(timed.run(["cindex", files], env=env)["seconds"])
    return seconds


def others(files, env, pattern, name=None, glob=None, ignoring=()):
    """The times of the other tools. csearch takes names as a regular expression, and the others as a glob."""
    named = {"csearch": ["-f", name] if name else [], "rg": ["-g", glob] if glob else [], "grep": ["--include=" + glob] if glob else []}
    rg = ["-uuu", "-a", "--no-unicode", "-n", "--no-heading", *ignoring] + named["rg"] + ["-e", pattern, files]
    commands = [
        ["csearch", "-n", *ignoring] + named["csearch"] + [pattern],
        ["rg", "-j1"] + rg,
        ["rg"] + rg,
        ["grep", "-rnE", *ignoring] + named["grep"] + ["-e", pattern, files],
    ]
    return [shown(spent(words, env)) if shutil.which(words[0]) else "-" for words in commands]


def row(sessions, files, env, what, search, pattern, name=None, glob=None, ignoring=()):
    head = [session.first(search) for session in sessions][0]
    ours = [shown(quiet.measured(search, lambda: session.times(search))) for session in sessions]
    lines, candidates = head[1].decode(), head[3].decode()
    cells = [what, command.code(pattern if name is None else name + " " + pattern), lines, candidates, *ours]
    command.row(*cells, *others(files, env, pattern, name, glob, ignoring))


def main():
    folder = command.words(__doc__)[0]
    build.need_program()
    with tempfile.TemporaryDirectory() as target:
        taken = corpus.make(folder, target)
        print("files %(files)d, bytes %(bytes)d, refused %(refused)d, by load lines: %(loaded)s" % taken)
        script = corpus.script_with(target, [])
        seconds = spent(words_of(script))
        speed, resident = taken["bytes"] / statistics.median(seconds) / 1e6, timed.memory(words_of(script)) / taken["bytes"]
        print("to the first publish %s ms, %.1f MB/s, resident %.2f bytes a byte" % (shown(seconds), speed, resident))
        files = os.path.join(target, "files")
        env = dict(os.environ, CSEARCHINDEX=os.path.join(target, "csearchindex"), LC_ALL="C")
        if shutil.which("cindex"):
            print("cindex %s ms" % shown(quiet.measured("cindex", lambda: index_times(files, env))))
        sessions = [client.FileSession(target, script), client.FileSession(target, script, os.cpu_count())]
        heads = ["tsearch", "tsearch, %d readers" % os.cpu_count(), "csearch", "rg -j1", "rg", "grep -rE"]
        command.head(["kind", "pattern", "lines", "candidates", *heads])
        for what, pattern in PATTERNS:
            row(sessions, files, env, what, "search " + pattern, pattern)
        row(sessions, files, env, "case counts", "search " + IGNORED[0], IGNORED[0])
        for pattern in IGNORED:
            row(sessions, files, env, "case ignored", "isearch " + pattern, pattern, ignoring=["-i"])
        for name, glob, pattern in NAMED:
            row(sessions, files, env, "by name", "searchin %s %s" % (name, pattern), pattern, name, glob)
        for session in sessions:
            session.end()
        print(quiet.told())


if __name__ == "__main__":
    main()
