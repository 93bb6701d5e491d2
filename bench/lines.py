"""Matching lines, compared with `grep -E`, and how its time grows: python3 bench/lines.py FOLDER.

One document of the folder's lines, ten patterns of different kinds; then one line that grows, and a pattern that grows.
"""
import os
import tempfile

import build
import command
import corpus
import timed


def script_of(target, lines, searches):
    path = os.path.join(target, "script")
    body, bodies = b"", []
    for line in lines:
        if len(body) + len(line) + 1 > corpus.MAX_BODY:
            bodies.append(body)
            body = b""
        body += line + b"\n"
    bodies.append(body)
    with open(path, "wb") as script:
        for i, body in enumerate(bodies):
            script.write(corpus.put(b"f%d" % i, body))
        script.write(b"publish\n" + b"".join(b"search " + s.encode() + b"\n" for s in searches))
    return path


def search_time(target, lines, pattern):
    base = min(timed.run([build.PROGRAM, script_of(target, lines, [])])["seconds"] for _ in range(3))
    count = 1
    while True:
        spent = timed.run([build.PROGRAM, script_of(target, lines, [pattern] * count)])["seconds"] - base
        if spent > 0.3 or count >= 1024:
            return max(spent, 0) / count
        count *= 4


def show_patterns(target, lines):
    size = sum(len(line) + 1 for line in lines)
    plain, env = os.path.join(target, "plain"), dict(os.environ, LC_ALL="C")
    with open(plain, "wb") as file:
        file.write(b"\n".join(lines) + b"\n")
    print("lines %d, bytes %d" % (len(lines), size))
    command.head(["pattern", "tsearch ms", "MB/s", "grep -E ms"])
    for pattern in corpus.PATTERNS:
        seconds = search_time(target, lines, pattern)
        grep = min(timed.run(["grep", "-E", pattern, plain], env=env)["seconds"] for _ in range(3))
        command.row(command.code(pattern), "%.2f" % (1000 * seconds), "%.0f" % (size / max(seconds, 1e-9) / 1e6), "%.1f" % (1000 * grep))


def show_lengths(target):
    patterns = ("a.*b", "(a|b)*c", "a{1,20}b")
    command.head(["bytes a line"] + [command.code(pattern) + " ms" for pattern in patterns], "200 lines of bytes `a`")
    for n in (250, 500, 1000, 2000, 4000, 8000, 16000):
        command.row(n, *("%.2f" % (1000 * search_time(target, [b"a" * n] * 200, pattern)) for pattern in patterns))


def show_alternatives(target, lines):
    command.head(["alternatives of four bytes", "ms"], "A pattern that grows, over the source lines")
    for n in (1, 4, 16, 64):
        command.row(n, "%.2f" % (1000 * search_time(target, lines, "|".join("q%03d" % i for i in range(n)))))


def main():
    folder = command.words(__doc__)[0]
    build.need_program()
    with tempfile.TemporaryDirectory() as target:
        lines = corpus.lines_of(folder, 20000)
        show_patterns(target, lines)
        show_lengths(target)
        show_alternatives(target, lines)


if __name__ == "__main__":
    main()
