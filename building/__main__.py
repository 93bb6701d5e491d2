"""Builds the program if need be, and runs it. `./tsearch` calls this where it can't tell that a program stands for the sources.

Two programs can stand for the sources: one that is proved, and one that is compiled with checks. The folder `out` has, for
each, the program and the checksum of its sources. `out/current` leads to the one that runs, and the time of the file
`out/checked` is a time at which it was found to stand for the sources.

    --prove        proves the crates and builds the proved program
    --path         prints the path of the program that runs, which is built if need be
    --version      prints its version, and which of the two it is
    --checksum     prints the checksum of the sources, once no other call builds, and removes what an interrupted one has left
    --keep-proved CHECKSUM   keeps the program that rt has just proved and built of the sources with this checksum
    --compile      compiles the program from nothing, and prints its path; another program goes on to run
    other words    runs the program on them
"""

import contextlib
import fcntl
import os
import shutil
import signal
import subprocess
import sys
import time

import compiled
import proved
from commands import CannotBuild, need_rt, reason_of, say
from sources import TOP, checksum
from toolchain import Unexpected

OUT = TOP / "out"
PROVED = "proved"
COMPILED = "compiled"
CALLED = {PROVED: "proved", COMPILED: "compiled with checks"}
REFUSED = 2


def program_of(kind):
    return OUT / kind / "tsearch"


def is_of(kind, key):
    """Whether this program stands for the sources with this checksum."""
    try:
        return (OUT / kind / "checksum").read_text() == key and os.access(program_of(kind), os.X_OK)
    except OSError:
        return False


def standing(key):
    """Which program stands for the sources: the proved one, the compiled one, or none."""
    return next((kind for kind in (PROVED, COMPILED) if is_of(kind, key)), None)


@contextlib.contextmanager
def one_at_a_time():
    """Waits until no other call builds. The system takes the lock back however a call ends."""
    OUT.mkdir(exist_ok=True)
    with open(OUT / "lock", "w", encoding="ascii") as held:
        try:
            fcntl.flock(held, fcntl.LOCK_EX | fcntl.LOCK_NB)
        except BlockingIOError:
            say("another call builds the program; this one waits for it")
            fcntl.flock(held, fcntl.LOCK_EX)
        for left in [*OUT.glob("compile-*"), *OUT.glob(f"{proved.ROOM}*")]:
            shutil.rmtree(left, ignore_errors=True)
        yield


def keep(kind, key, build):
    """Builds a program, and then says of which sources it is."""
    folder = OUT / kind
    folder.mkdir(exist_ok=True)
    (folder / "checksum").unlink(missing_ok=True)
    build(program_of(kind), OUT)
    if checksum() != key:
        raise CannotBuild("a source changed while the program was built; call it again")
    part = folder / "checksum.part"
    part.write_text(key)
    os.replace(part, folder / "checksum")


def build(kind, key):
    """Builds the program of this kind if it does not stand yet, and returns which one stands then."""
    with one_at_a_time():
        found = standing(key)
        if found in (PROVED, kind):
            return found
        need_rt()
        if kind == COMPILED:
            try:
                keep(COMPILED, key, compiled.build)
                return COMPILED
            except Unexpected as unexpected:
                say(f"the toolchain is not as expected ({unexpected}), so the program is proved and built in full")
        keep(PROVED, key, proved.build)
        return PROVED


def make_current(kind, began):
    """Has the next calls of ./tsearch start this program at once, until a source changes."""
    current = OUT / "current"
    if not current.is_symlink() or os.readlink(current) != kind:
        part = OUT / f"current.{os.getpid()}"
        part.symlink_to(kind)
        os.replace(part, current)
    checked = OUT / "checked"
    checked.touch()
    # The time of a change may be a little too early.
    os.utime(checked, (began - 1, began - 1))


def find_program(kind=COMPILED):
    """The kind of the program that stands for the sources. If there is none, one of this kind is built."""
    began = time.time()
    key = checksum()
    found = standing(key)
    if found is None or (kind == PROVED and found != PROVED):
        found = build(kind, key)
    make_current(found, began)
    return found


def keep_proved(key):
    """Keeps the program that rt has made of the sources with this checksum."""
    began = time.time()
    with one_at_a_time():
        keep(PROVED, key, proved.keep)
    make_current(PROVED, began)


def compile_anew():
    """Compiles the program whatever stands."""
    key = checksum()
    with one_at_a_time():
        need_rt()
        keep(COMPILED, key, compiled.build)
    print(program_of(COMPILED))


def say_version():
    kind = find_program()
    done = subprocess.run([program_of(kind), "--version"], stdout=subprocess.PIPE, check=False)
    print(f"{done.stdout.decode().strip()} ({CALLED[kind]})")
    return done.returncode


def carry_out(words):
    """Does what the words ask for, and returns the status, unless the program takes over."""
    if words == ["--prove"]:
        find_program(PROVED)
        say("the program that runs is the proved one")
    elif words == ["--path"]:
        print(program_of(find_program()))
    elif words == ["--version"]:
        return say_version()
    elif words == ["--checksum"]:
        with one_at_a_time():
            print(checksum())
    elif words[:1] == ["--keep-proved"] and len(words) == 2:
        keep_proved(words[1])
    elif words == ["--compile"]:
        compile_anew()
    else:
        program = program_of(find_program())
        os.execv(program, ["tsearch", *words])
    return 0


def end_by_signal(number, _):
    sys.exit(128 + number)


def main():
    for number in (signal.SIGHUP, signal.SIGINT, signal.SIGTERM):
        signal.signal(number, end_by_signal)
    try:
        status = carry_out(sys.argv[1:])
    except CannotBuild as error:
        say(error)
        status = REFUSED
    except MemoryError:
        say("there is too little memory")
        status = REFUSED
    except OSError as error:
        say(reason_of(error, f"the program is not built: {error.filename or 'a call of the system'}"))
        status = REFUSED
    except SystemExit as error:
        say("interrupted; the next call begins the step again")
        raise error
    sys.exit(status)


if __name__ == "__main__":
    main()
