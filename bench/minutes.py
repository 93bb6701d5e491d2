#!/usr/bin/env python3
"""Where the minutes of a proof go: python3 bench/minutes.py [--most N] CRATE..

Proves each of these crates anew, with one job, and splits the time that it takes by what is proved: functions with a contract or a
closure's body, what goes with types (their laws, how they are dropped), lemmas, definitions, and what the prover does before and after.
Of functions and lemmas it shows the N (12) that take longest. A crate of index's size takes some ten minutes.

The prover writes a file for each module that it has checked. With one job a module is checked after the other, so the time between two
files is that of the second. The crates that a crate uses must be proved already, in `crates/*/out`: `rt check` in its folder does that,
and so does `rt all check`. What it is proved from is a copy in a temporary folder, so nothing that is kept is used or changed.
"""

import argparse
import collections
import pathlib
import re
import shutil
import subprocess
import sys
import tempfile
import time

TOP = pathlib.Path(__file__).resolve().parent.parent
sys.path.insert(0, str(TOP / "building"))

import sources  # noqa: E402
from toolchain import Toolchain  # noqa: E402

# What rattle makes of a function; the last word of a module's name says which part of it.
OF_CODE = {"Code", "Mir", "Lts", "Layout", "Named", "Reads", "Kinds", "Tie", "Symbol", "TheLink"}
OF_TYPES = {"TheLaws", "TheReach", "TheInside", "TheSendSync", "TheImpl", "Laws", "TheView", "TheVariants", "TheConstants", "TheFolds", "TheOpen"}


def below(crate):
    """The crates of this repository that a crate uses, and those that they use."""
    listed, found, waiting = sources.uses(), [], [crate]
    while waiting:
        for used in listed[waiting.pop()]:
            if used in listed and used not in found:
                found.append(used)
                waiting.append(used)
    return found


def command(crate, folder, kept):
    """The prover's command for a crate whose files are in this folder. It keeps what it has checked in `kept`."""
    home = Toolchain().folder
    listed = sources.uses()
    words = [str(home / "bin/rattle"), "check", "--crate-name", crate, root_of(folder), "--extern", f"std={home}/rlibs/std.rlib"]
    words += ["-L", f"dependency={home}/rlibs"]
    for used in listed[crate]:
        rlib = TOP / f"crates/{used}/out/rlib/{used}.rlib" if used in listed else home / f"rlibs/{used}.rlib"
        if not rlib.is_dir():
            sys.exit(f"minutes.py: {used} is not proved yet: run `rt check` in crates/{crate} first")
        words += ["--extern", f"{used}={rlib}"]
    for used in below(crate):
        words += ["-L", f"dependency={TOP}/crates/{used}/out/rlib"]
    words += ["--antt-project", f"{home}/rattle/logic/antt-project.json", "--logic-built", f"{home}/logic_built"]
    return words + ["--jobs", "1", "--incremental", str(kept)]


def root_of(folder):
    """The root file of a crate."""
    return "src/lib.rt" if (folder / "src/lib.rt").is_file() else "src/main.rt"


def modules_in(kept):
    """The modules that were checked, in the order in which they were, each with the time when it was."""
    found = {}
    for path in kept.rglob("*.oantt"):
        if "records" not in path.parts:
            found[path.name[: -len(".oantt")]] = path.stat().st_mtime
    return sorted(found.items(), key=lambda pair: pair[1])


def part_of(crate, module):
    """What a module belongs to: a kind, and a name of its own."""
    words = re.sub(rf"^Rattle[-.]{crate}[-.]?", "", module).split(".")
    last = words[-1]
    if words[0] == "specs" or (words[0] == "" and len(words) > 1 and words[1] == "specs"):
        return "definitions and contracts", ".".join(words[1:3])
    if "Destruct" in module or set(words) & OF_TYPES:
        return "types", ".".join(words[1:3])
    if len(words) == 2 and words[0] == "proofs" and last[:1].isupper():
        return "lemmas", last
    name = ".".join(word for word in words[1:] if not word[:1].isupper() or word not in OF_CODE | {"Proof", "Met", "Statement", "Goals", "Given", "Answers", "Invariants"})
    return ("functions, from their code" if last in OF_CODE else "functions, their proofs"), name


def measure(crate):
    """Proves a crate anew. Returns the seconds of each part, and of what is no module."""
    with tempfile.TemporaryDirectory() as scratch:
        folder, kept = pathlib.Path(scratch, crate), pathlib.Path(scratch, "kept")
        for part in sources.PARTS:
            if (sources.CRATES / crate / part).is_dir():
                shutil.copytree(sources.CRATES / crate / part, folder / part)
        kept.mkdir()
        began = time.time()
        done = subprocess.run(command(crate, folder, kept), cwd=folder, capture_output=True, text=True, check=False)
        ended = time.time()
        if done.returncode != 0:
            sys.exit(f"minutes.py: {crate} is not proved:\n" + "\n".join((done.stdout + done.stderr).splitlines()[-20:]))
        modules = modules_in(kept)
    seconds = collections.Counter()
    before = began
    for module, at in modules:
        seconds[part_of(crate, module)] += at - before
        before = at
    seconds[("what comes after the last module", "")] = ended - before
    return seconds, ended - began


def show(crate, seconds, whole, most):
    """Prints the kinds of a crate, and its longest functions and lemmas."""
    print(f"{crate}: {whole:.0f} s")
    kinds = collections.Counter()
    for (kind, _), taken in seconds.items():
        kinds[kind] += taken
    for kind, taken in kinds.most_common():
        print(f"  {taken:7.1f} s  {100 * taken / whole:3.0f} %  {kind}")
    named = collections.Counter()
    for (kind, name), taken in seconds.items():
        if kind.startswith("functions"):
            named[name] += taken
        elif kind == "lemmas":
            named[f"{name} (lemmas)"] += taken
    for name, taken in named.most_common(most):
        print(f"  {taken:7.1f} s         {name}")


def main():
    reader = argparse.ArgumentParser(description=__doc__.split("\n")[0])
    reader.add_argument("--most", type=int, default=12, help="how many functions and lemmas are shown")
    reader.add_argument("crates", nargs="+", metavar="CRATE", choices=sorted(sources.uses()))
    given = reader.parse_args()
    for crate in given.crates:
        show(crate, *measure(crate), given.most)


if __name__ == "__main__":
    main()
