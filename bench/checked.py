"""How much slower the program is that is compiled with checks: python3 bench/checked.py FOLDER

Prints the times of six searches over the folder's files, by the proved program and by the compiled one
(out/proved and out/compiled; `./tsearch --prove` and `python3 -B building --compile` build them), each in a session that
has all files. This is the only script here that measures the compiled program.
"""
import tempfile

import build
import client
import command
import corpus

SEARCHES = ["sched_setaffinity", "return", "static.*inline", "x.*y.*z", "e", "((a*|b)*|c)*d"]


def times_by(program, target, script):
    """For each search the seconds of some runs, by this program."""
    session = client.FileSession(target, script, program=program)
    found = []
    for pattern in SEARCHES:
        session.first("search " + pattern)
        found.append(session.times("search " + pattern))
    session.end()
    return found


def main():
    folder = command.words(__doc__)[0]
    build.need_program()
    build.need_compiled()
    with tempfile.TemporaryDirectory() as target:
        corpus.make(folder, target)
        script = corpus.script_with(target, [])
        proved, compiled = (times_by(program, target, script) for program in (build.PROGRAM, build.COMPILED))
    command.head(["pattern", "proved, ms", "compiled with checks, ms", "times as long"])
    for pattern, fast, slow in zip(SEARCHES, proved, compiled):
        command.row(command.code(pattern), *map(command.least_and_median, (fast, slow)), "%.1f" % (min(slow) / min(fast)))


if __name__ == "__main__":
    main()
