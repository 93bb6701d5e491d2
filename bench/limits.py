"""Where the two ways of finding lines meet: python3 bench/limits.py FOLDER.

Both ways over a body of the folder's lines, from 200 bytes to 100 KB, with the pattern compiled anew each time: the size at
which they cross shows how many bytes of bodies are worth matching line by line (`FEW_BYTES`). Then what compiling ordinary
patterns takes, and which of them are over the greatest size (`MOST_TABLES`); and the time of hard patterns over 1 MiB both
ways. It builds a small program over the crates, in a few minutes.
"""
import os
import random
import subprocess
import tempfile

import build
import command
import corpus

SIZES = [200, 500, 1_000, 2_000, 4_000, 8_000, 16_000, 20_000, 50_000, 100_000]
FEW = [
    "int", "return", "e", "[0-9]+", "static.*inline", "memcpy|memmove|memset", "(if|while|for) *\\(", "[A-Za-z_]+\\(",
    "^#define", "0x[0-9a-f]{8}", "[Ee][Rr][Rr][Oo][Rr]",
]
ORDINARY = [
    "NOTE|BUG|HACK", "^#include <[a-z]+\\.h>", "[A-Za-z_][A-Za-z0-9_]*\\(", "https?://[^ ]+", "^[[:space:]]*$",
    "[[:space:]]+$", "[0-9]{1,3}(\\.[0-9]{1,3}){3}", "[A-Za-z0-9._%+-]+@[A-Za-z0-9.-]+\\.[A-Za-z]{2,}",
    "[0-9a-fA-F]{8}-([0-9a-fA-F]{4}-){3}[0-9a-fA-F]{12}", "[0-9]{4}-[0-9]{2}-[0-9]{2}T[0-9]{2}:[0-9]{2}:[0-9]{2}",
    '"([^"\\\\]|\\\\.)*"', "(0x)?[0-9a-fA-F]{1,16}", "(static|extern|inline)? *(int|char|void|long) +\\**[a-z_]+\\(",
    "if *\\(.*==.*\\)", "(Jan|Feb|Mar|Apr|May|Jun|Jul|Aug|Sep|Oct|Nov|Dec) +[0-9]{1,2}", "[a-z]+([A-Z][a-z]+)+",
    "^(([a-z]+_)+[a-z]+ )+=", "[a-f0-9]{32}", "[a-f0-9]{40}", "[a-f0-9]{64}", "[a-f0-9]{128}",
    "[A-Za-z0-9+/]{60,76}={0,2}", "^.{0,40}$", ".{80,}", ".{100}", ".{120,}", "^.{200}", "^.{255}", "^(.{64}){3}x",
    ".{0,200}error.{0,200}", "[^,]*(,[^,]*){20}", "(.*,){12}", "([0-9]{1,3},){20}", "(foo|bar|baz){3,20}",
    "error.{0,80}(failed|refused)", "^([^:]*:){6}/bin/(ba)?sh$",
    "auto|break|case|char|const|continue|default|do|double|else|enum|extern|float|for|goto|if|int|long|"
    "register|return|short|signed|sizeof|static|struct|switch|typedef|union|unsigned|void|volatile|while",
    "|".join("q%03d" % i for i in range(64)), "|".join("word%03d" % i for i in range(128)),
    "([0-9a-f]{1,4}:){7}[0-9a-f]{1,4}|([0-9a-f]{1,4}:){1,7}:|::([0-9a-f]{1,4}:){0,6}[0-9a-f]{1,4}",
]
HARD = [
    "[ab]{255}[ab]{255}[ab]{117}c", "[ab]{255}[ab]{255}[ab]{118}c", "(a?){255}(a{250}){15}", "(a?){150}a{150}b",
    "(a?){255}a{255}b", "(.{0,60}x){60}", "(.{0,20}x){20}", "(a|b)*a(a|b){200}c", "(a|b)*a(a|b){500}c",
    "(a{0,255}){16}b", "(a{0,100}){4}b", "(a{0,20}){20}b",
    "|".join("%sx{0,100}y" % c for c in "abcdefghijklmnopqrstuvw"), "(.*a){200}b", "(.*a){100}b", ".*a.{255}c",
    "(.{0,255}b){2}c", "((a*|b)*|c)*d", "(((a*a)*a)*a)*b", "a" + "*" * 63,
]


class Meter:
    def __init__(self, folder):
        self.path = os.path.join(folder, "text")
        self.program = build.build("limits", os.path.join(folder, "built"))

    def run(self, way, text, pattern, rounds=1):
        """The seconds of a round, and the last line that was found, or why none was looked for."""
        with open(self.path, "wb") as file:
            file.write(text)
        try:
            words = subprocess.run([self.program, way, self.path, str(rounds), pattern], capture_output=True, check=True, text=True, timeout=60).stdout.split()
        except subprocess.TimeoutExpired:
            return 60.0, "over a minute"
        return int(words[0]) / rounds / 1e9, words[1]

    def cell(self, way, text, pattern):
        """The microseconds of a round: the least of five runs, each of enough rounds to be above the noise; or of one
        run if that takes long."""
        rounds, runs = 1, [self.run(way, text, pattern)]
        while rounds < 4**9 and runs[0][0] * rounds < 0.02:
            rounds *= 4
            runs = [self.run(way, text, pattern, rounds)]
        while len(runs) < 5 and runs[0][0] < 0.5:
            runs.append(self.run(way, text, pattern, rounds))
        return "%.1f" % (1e6 * min(run[0] for run in runs)) if runs[0][1].isdigit() else runs[0][1]

    def both(self, text, pattern):
        return self.cell("lines", text, pattern) + ", " + self.cell("engine", text, pattern)


def show(title, columns, patterns, cells_of):
    command.head(columns, title)
    for pattern in patterns:
        name = pattern if len(pattern) < 100 else pattern[:50] + "...%d bytes" % len(pattern)
        command.row(command.code(name), *cells_of(pattern))


def main():
    text = b"\n".join(corpus.lines_of(command.words(__doc__)[0], 20_000)) + b"\n"
    chance = random.Random(1)
    near = b"".join(b"a" * 3_995 + b"%03d\n" % (i % 1_000) for i in range(262))
    either = b"".join(bytes(chance.choices(b"ab", k=3_999)) + b"\n" for _ in range(262))
    hard = [near, either, b"\n" * 1_048_576]
    with tempfile.TemporaryDirectory() as folder:
        meter = Meter(folder)
        both = "us line by line, by the engine"
        sizes = [both] + ["%d bytes" % size for size in SIZES]
        show("Bodies of some sizes", sizes, FEW, lambda pattern: [meter.both(text[:size], pattern) for size in SIZES])
        show("Compiling", ["pattern", "us to compile"], ORDINARY, lambda pattern: [meter.cell("engine", b"", pattern)])
        bodies = [both, "lines of a", "lines of a and b", "empty lines"]
        show("Hard patterns over 1 MiB", bodies, HARD, lambda pattern: [meter.both(body, pattern) for body in hard])


if __name__ == "__main__":
    main()
