"""The program, and the words that start a session of it."""

from __future__ import annotations

import contextlib
import os
import pathlib
import shutil
import signal
import sys
from collections.abc import Sequence

from .errors import Error

# In seconds: how long a program that has closed its output, or is killed, may take to end.
TO_END = 5.0
# The most puts, loads, removes and copies that a session can be told to take: a client that stays does not want to be full.
MOST_COMMANDS = 4_294_967_294
# The greatest lengths that it can be told to take, in bytes: of a body and of a line, and of a name as it is written. Clients want all text.
MOST_BODY = 67_108_864
MOST_NAME = 4_096
# Set for the program that the command starts: who finds it set was started by itself.
_MARK = "TSEARCH_COMMAND"
# What begins the command of the package: it calls `main`.
_CALLS = b"from tsearch.program import main"
_HEAD = 4_096
_NONE = "there is no program: set TSEARCH to its path, or build it in the repository (./tsearch --path) and install the package again"


def find_program() -> str:
    """The path of the program: that of the variable TSEARCH; else that which the package brings along; else that of the repository in
    which this package lies, whose first call compiles it, in some minutes; else the command `tsearch` on the PATH. `Error` if there is
    none, or TSEARCH names what cannot be run, or the command of this package, which would start itself for ever."""
    found = _named_program() or _own_program() or shutil.which("tsearch")
    if not found:
        raise Error(_NONE)
    return found


def _named_program() -> str | None:
    named = os.environ.get("TSEARCH")
    if named and shutil.which(named) is None:
        why = "is not there" if not os.path.exists(named) else "is a folder" if os.path.isdir(named) else "may not be executed"
        raise Error(f"the variable TSEARCH names {named}, which {why}")
    if named and _is_command(named):
        raise Error(_itself(named))
    return named


def _itself(named: str) -> str:
    return f"the variable TSEARCH names {named}, which is the command of the package and would start itself for ever: unset it, or name the program"


def _is_command(named: str) -> bool:
    """Whether it is the command of the package, which starts a program and is none."""
    try:
        with open(shutil.which(named) or named, "rb") as file:
            head = file.read(_HEAD)
    except OSError:
        return False  # it may be run and not be read
    return head.startswith(b"#!") and _CALLS in head


def _own_program() -> str | None:
    package = pathlib.Path(__file__).resolve().parent
    places = package / "built/tsearch", package.parents[2] / "tsearch"
    return next((str(place) for place in places if place.is_file()), None)


def main() -> None:
    """The command `tsearch` of the package: the program that it brings along, with the same words. `--version` says too whether that is the
    proved one."""
    try:
        named = _named_program()
        own = named or _own_program()
        if _MARK in os.environ:
            raise Error(_itself(named) if named else "the command of the package has started itself")  # by a script that starts it
    except Error as error:
        sys.exit(f"tsearch: {error}")
    if own is None:
        sys.exit(f"tsearch: {_NONE}")
    try:
        if sys.argv[1:] == ["--version"]:
            sys.exit(_say_version(own, named is not None))
        os.execvpe(own, ["tsearch", *sys.argv[1:]], {**os.environ, _MARK: "1"})
    except OSError as error:
        sys.exit(f"tsearch: {own}: {error.strerror}")


def _say_version(own: str, is_named: bool) -> int:
    """Prints what the program says of itself, and which one it is, as `./tsearch --version` does, which says it itself. Its status."""
    import subprocess

    done = subprocess.run([own, "--version"], stdout=subprocess.PIPE, env={**os.environ, _MARK: "1"}, check=False)
    kind = pathlib.Path(own).with_name("kind")
    which = f" (named by the variable TSEARCH: {own})" if is_named else f" ({kind.read_text(encoding='utf-8').strip()})" if kind.is_file() else ""
    print(done.stdout.decode(errors="replace").strip() + which, flush=True)
    return done.returncode


def kill_group(process: int) -> None:
    """Kills a process that leads a group, and the group: the program may be one that compiles tsearch, with processes of its own."""
    with contextlib.suppress(ProcessLookupError):
        os.killpg(process, signal.SIGKILL)


def command(
    program: str | os.PathLike[str] | Sequence[str] | None = None,
    *,
    readers: int | None = None,
    search_ms: int | None = None,
    max_commands: int | None = MOST_COMMANDS,
    max_body: int | None = MOST_BODY,
    max_line: int | None = MOST_BODY,
    max_name: int | None = MOST_NAME,
    stats: bool = False,
) -> list[str]:
    """The words that start a session. `program` is a path, or the words of a command to which the options are added; by default it is
    that of `find_program`, with its `Error`. An option that is None is left to the program."""
    if program is None:
        words = [find_program()]
    elif isinstance(program, (str, os.PathLike)):
        words = [os.fspath(program)]
    else:
        words = list(program)
    words.append("--live")
    numbers = {
        "--readers": readers,
        "--search-ms": search_ms,
        "--max-commands": max_commands,
        "--max-body": max_body,
        "--max-line": max_line,
        "--max-name": max_name,
    }
    for option, number in numbers.items():
        if number is not None:
            words += [option, str(number)]
    return words + ["--stats"] * stats
