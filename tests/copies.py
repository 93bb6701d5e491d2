"""Copies of the repository's crates in a folder of their own, for scripts that try something on them."""

import pathlib
import shutil
import subprocess
import sys
import time

from built import TOP, script_name

sys.path.insert(0, str(TOP / "building"))

from commands import CannotBuild  # noqa: E402
from compiled import Compilation  # noqa: E402
from toolchain import Unexpected  # noqa: E402


def lines_of_crates():
    """The lines of crates.txt by the names of their crates."""
    with open(TOP / "crates.txt", encoding="utf-8") as file:
        lines = [line.split("#")[0].strip() for line in file]
    return {line.split()[0].rstrip(":"): line for line in lines if line}


def with_those_below(names, lines):
    """These crates and those that they use, the lowest first."""
    found = []
    for name in names:
        if name in lines:
            below = with_those_below(lines[name].split(":")[1].split(), lines)
            found += [it for it in below + [name] if it not in found]
    return found


def copy_crates(folder, names, own="", kept=False, rights=""):
    """Copies these crates and those below them into a folder, as a repository. If `own` names a crate, the repository has
    that one too, which uses these, and has these rights. With `kept`, what `rt` keeps of crates that are proved already is copied as well."""
    lines = lines_of_crates()
    used = with_those_below(names, lines)
    for name in used:
        left_out = () if kept else ("out",)
        shutil.copytree(TOP / "crates" / name, pathlib.Path(folder, "crates", name), ignore=shutil.ignore_patterns(*left_out))
    written = [lines[name] for name in used] + ([f"{own} {rights}".strip() + ": " + " ".join(names)] if own else [])
    pathlib.Path(folder, "crates.txt").write_text("\n".join(written) + "\n", encoding="utf-8")
    shutil.copy(TOP / "HANDLES", folder)
    subprocess.run(["git", "init", "-q", folder], check=True)


def beside(script):
    """The program SCRIPT.rt.txt that is beside a script SCRIPT.py."""
    return pathlib.Path(script).resolve().with_suffix(".rt.txt")


def build_program(folder, source, uses, level="-O0"):
    """Compiles a program NAME.rt.txt, with checks and this level of optimisation, over copies of these crates in a folder, and returns its
    path."""
    name = source.name.split(".")[0]
    copy_crates(folder, uses, name)
    top = pathlib.Path(folder).resolve()
    own, room, program = top / "crates" / name, top / "room", top / name
    (own / "src").mkdir(parents=True)
    room.mkdir()
    shutil.copy(source, own / "src/main.rt")
    try:
        Compilation(room, time.monotonic(), own, top, level).build(program)
    except (CannotBuild, Unexpected) as error:
        sys.exit(f"{script_name()}: the program is not built: {error}")
    return program
