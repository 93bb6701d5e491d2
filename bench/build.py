"""What is measured: the program, and small programs over the crates of the repository, which this builds.

A small program is the file programs/NAME.rt.txt. `rt ci` proves and builds it over copies of the crates that it uses, in a folder of
its own, in a few minutes. It takes over crates that it has already proved on this machine (`./tsearch --prove`, `./test`).
"""
import os
import shutil
import subprocess
import sys

BENCH = os.path.dirname(os.path.abspath(__file__))
TOP = os.path.dirname(BENCH)
PROVED = os.path.join(TOP, "out", "proved")
COMPILED = os.path.join(TOP, "out", "compiled", "tsearch")
# If the variable TSEARCH names a program, that one is measured.
PROGRAM = os.environ.get("TSEARCH") or os.path.join(PROVED, "tsearch")
# The folder in which all.py builds the small programs, or has built them.
MADE = os.environ.get("SMALL_PROGRAMS")
# A text that only a program that is compiled with checks has.
MARK = b"compiled with checks, and not proved"

# What rt reads of a crate to prove it.
PARTS_OF_CRATE = ("src", "specs", "proofs")

# The small programs: the crates that each uses itself, and the files of programs/ that it is made of, if they are more than its own.
USED = {
    "levels": ["ere", "matcher", "query"],
    "limits": ["ere", "engine", "lines", "matcher"],
    "lists": ["ere", "trigram", "documents", "index", "prefixes", "watch"],
    "matching": ["ere", "lines", "matcher"],
    "preparing": ["ere", "trigram"],
    "readings": ["documents", "index", "prepare", "search", "published"],
    "stack": ["ere", "lines", "matcher"],
    "trigrams": ["ere", "trigram", "documents", "index", "prefixes", "watch"],
}
PARTS = {"lists": ["lists", "selection"], "trigrams": ["trigrams", "selection"]}


def called():
    """The name of the script that runs."""
    return os.path.basename(sys.argv[0])


def need_program():
    """Ends with a message if there is no program, if it is compiled with checks, or if it is not that of the sources."""
    fault = fault_of_program()
    if fault:
        sys.exit(f"{called()}: {fault}: ./tsearch --prove builds the program to be measured")


def fault_of_program():
    """Why the program is not measured, if it is not."""
    if not os.access(PROGRAM, os.X_OK):
        return "there is no proved program"
    with open(PROGRAM, "rb") as program:
        if MARK in program.read():
            return "this program is compiled with checks, which makes it slower"
    if os.environ.get("TSEARCH"):
        return None
    sources = subprocess.run([sys.executable, "-B", os.path.join(TOP, "building"), "--checksum"], capture_output=True, text=True)
    with open(os.path.join(PROVED, "checksum")) as kept:
        return None if kept.read() == sources.stdout.strip() else "the proved program is of other sources"


def need_compiled():
    """Ends with a message if there is no program that is compiled with checks."""
    if not os.access(COMPILED, os.X_OK):
        sys.exit(f"{called()}: python3 -B building --compile builds the compiled program")


def lines_of_crates(root):
    """The lines of crates.txt of a checkout by the names of their crates."""
    with open(os.path.join(root, "crates.txt")) as file:
        lines = [line.split("#")[0].strip() for line in file]
    return {line.split()[0].rstrip(":"): line for line in lines if line}


def with_those_below(names, lines):
    """These crates and those that they use, the lowest first."""
    found = []
    for name in names:
        if name in lines:
            below = with_those_below(lines[name].split(":")[1].split(), lines)
            found += [other for other in below + [name] if other not in found]
    return found


def path_of(name):
    return os.path.join(BENCH, "programs", name)


def source_of(name):
    """The text of a small program."""
    texts = []
    for part in PARTS.get(name, [name]):
        with open(path_of(part + ".rt.txt")) as file:
            texts.append(file.read())
    return "\n".join(texts)


def write_repository(folder, name, root):
    """Makes a folder a repository of a small program and of copies of a checkout's crates."""
    lines = lines_of_crates(root)
    crates = with_those_below(USED[name], lines)
    for part in (os.path.join("crates", crate, part) for crate in crates for part in PARTS_OF_CRATE):
        if os.path.isdir(os.path.join(root, part)):
            shutil.copytree(os.path.join(root, part), os.path.join(folder, part))
    with open(os.path.join(folder, "crates.txt"), "w") as file:
        file.writelines(lines[crate] + "\n" for crate in crates)
        file.write("meter: %s\n" % " ".join(USED[name]))
    # The handles that the crates are allowed: readings.rt.txt starts threads and waits.
    shutil.copy(os.path.join(root, "HANDLES"), folder)
    own = os.path.join(folder, "crates", "meter", "src")
    os.makedirs(own)
    with open(os.path.join(own, "main.rt"), "w") as file:
        file.write(source_of(name))
    # rt takes a folder for a repository by this one.
    os.mkdir(os.path.join(folder, ".git"))


def build(name, folder, root=TOP):
    """Builds a small program over the crates of a checkout in a folder, and returns its path. One that all.py has built is taken."""
    if root == TOP and MADE and os.access(program_in(os.path.join(MADE, name)), os.X_OK):
        return program_in(os.path.join(MADE, name))
    if not shutil.which("rt"):
        sys.exit(f"{called()}: the command rt of the Rattle toolchain, which builds the program, is not on the PATH")
    write_repository(folder, name, root)
    built = subprocess.run(["rt", "ci"], cwd=folder, capture_output=True, text=True)
    if built.returncode != 0:
        sys.exit(built.stdout + built.stderr)
    return program_in(folder)


def program_in(folder):
    """The program that rt makes in the folder of a small program: as LLVM makes it."""
    return os.path.join(folder, "crates", "meter", "out", "meter")


def build_both(name, folder, root=TOP):
    """Builds a small program as LLVM makes it, and as Rattle's own compiler does, and returns the paths of the two."""
    built = build(name, folder, root)
    return built, built + ".by-rattle"


def build_each(name, folder, roots):
    """Builds a small program over the crates of each of these checkouts, or of this one if there are none."""
    return [build(name, os.path.join(folder, str(number)), root) for number, root in enumerate(roots or [TOP])]
