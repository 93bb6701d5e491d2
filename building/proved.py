"""Proves the crates, and builds the proved program, by `rt ci` of the toolchain, in a copy of the program's crates.

The copy has no tests and no edits that must be refused, so `rt ci` proves there what the program stands on, and no more. It keeps on
this machine each crate that it has proved: a build that is interrupted goes on where it was, and `./test` proves only the rest."""

import os
import pathlib
import shutil
import tempfile
import time

from commands import CannotBuild, end, last_lines, reason_of_failure, say, spent, start
from sources import CRATES, LIST, PARTS, PROGRAM, TOP, crates_of_program

# The file that rt makes of the crate `program`.
MADE = pathlib.Path("crates") / PROGRAM / "out" / PROGRAM
# What else of the repository rt reads: the handles that are allowed, and what the program is run on and must write.
HANDLES = "HANDLES"
RUN_ON = ("stdin", "stdout", "args", "status", "data")
# The folder of the copy begins so.
ROOM = "prove-"
# How many seconds pass between two looks at what rt writes, and between two lines of progress at most.
LOOK = 0.2
QUIET = 60


def build(target, out):
    """Proves the crates, each after those that it uses, and several at once. The program goes to the file `target`."""
    crates, log = list(crates_of_program()), out / "prove.log"
    say(f"proving {len(crates)} crates, and building the program; from scratch this takes half an hour to over an hour on four processors")
    with tempfile.TemporaryDirectory(prefix=ROOM, dir=out) as folder:
        room = pathlib.Path(folder)
        copy_sources(crates, room)
        progress = Progress(crates)
        status = prove(room, log, progress)
        if status != 0:
            raise CannotBuild(reason_of(status, log))
        keep_file(room / MADE, target, out)
    say(f"proved and built in {spent(progress.began)}")


def keep(target, out):
    """Copies the program that `rt ci` has made in this repository to the file `target`."""
    keep_file(TOP / MADE, target, out)


def keep_file(made, target, out):
    part = out / "proved.part"
    shutil.copy2(made, part)
    os.replace(part, target)


def copy_sources(crates, room):
    """Copies what rt reads of these crates to a folder that it takes for a repository."""
    (room / ".git").mkdir()
    for crate in crates:
        for part in (*PARTS, *RUN_ON):
            path = CRATES / crate / part
            if path.is_dir():
                shutil.copytree(path, room / "crates" / crate / part)
            elif path.is_file():
                shutil.copy2(path, room / "crates" / crate / part)
    listed = LIST.read_text().splitlines(keepends=True)
    (room / LIST.name).write_text("".join(line for line in listed if line.partition(":")[0].split()[:1] in [[crate] for crate in crates]))
    if (TOP / HANDLES).is_file():
        shutil.copy2(TOP / HANDLES, room / HANDLES)


def prove(room, log, progress):
    """Runs `rt ci` in a folder. What it writes goes to the file `log`. Returns its status."""
    running = []
    try:
        process = start(["rt", "ci"], log, running, cwd=room)
        while process.poll() is None:
            progress.tell(log)
            time.sleep(LOOK)
    finally:
        end(running)
    progress.tell(log)
    return process.returncode


class Progress:
    """Says which crates are proved, and each while that it goes on."""

    def __init__(self, crates):
        self.left, self.count, self.read = set(crates), len(crates), 0
        self.began = self.last = time.monotonic()

    def tell(self, log):
        for crate in self.proved(log):
            done = self.count - len(self.left)
            say(f"{crate} is done ({spent(self.began)} so far, {done} of {self.count} crates)")
            self.last = time.monotonic()
        if time.monotonic() - self.last > QUIET:
            say(f"still at work ({spent(self.began)} so far)")
            self.last = time.monotonic()

    def proved(self, log):
        """The crates that rt has called proved, or kept from an earlier run, since the last look."""
        with open(log, "rb") as written:
            written.seek(self.read)
            whole, line_end, _ = written.read().rpartition(b"\n")
        self.read += len(whole + line_end)
        for line in whole.decode(errors="replace").splitlines():
            said, _, rest = line.partition(" ")
            crate, _, what = rest.partition(" ")
            if said == "rt:" and crate in self.left and (what == "proved" or what.startswith("is kept")):
                self.left.remove(crate)
                yield crate


def reason_of(status, log):
    """Why the crates are not proved, or the program not built."""
    reason = reason_of_failure(status, log, CRATES)
    return reason or f"the program is not proved (all that rt wrote is in {log}):\n{last_lines(log)}"
