"""Commands that a build runs: with progress on standard error, an end when the build ends, and a reason where they fail."""

import contextlib
import errno
import os
import shutil
import signal
import subprocess
import sys
import time

# The signals that end a build.
ENDING = {signal.SIGHUP, signal.SIGINT, signal.SIGTERM}
# How many seconds pass between two lines of progress.
PROGRESS = 15
# How little room on the disk explains that a command failed.
LITTLE_ROOM = 64 << 20
FULL = "the disk is full"
NO_MEMORY = "there is too little memory (a build takes up to 4 GiB)"
NO_RT = "the program is not built, and the command rt of the Rattle toolchain, which builds it, is not on the PATH"


class CannotBuild(Exception):
    """There is no program. The text says why, in one line."""


def say(text):
    print(f"tsearch: {text}", file=sys.stderr, flush=True)


def spent(began):
    """The time since then, for a person."""
    seconds = int(time.monotonic() - began)
    return f"{seconds // 60} min {seconds % 60} s" if seconds >= 60 else f"{seconds} s"


def need_rt():
    if shutil.which("rt") is None:
        raise CannotBuild(NO_RT)


@contextlib.contextmanager
def undisturbed():
    """Lets signals that end the build come only once this is left, and gives the mask from before."""
    before = signal.pthread_sigmask(signal.SIG_BLOCK, ENDING)
    try:
        yield before
    finally:
        signal.pthread_sigmask(signal.SIG_SETMASK, before)


def end(processes):
    """Ends the commands that still run, and all that they started."""
    with undisturbed():
        for process in processes:
            if process.poll() is None:
                end_one(process)


def end_one(process):
    try:
        os.killpg(process.pid, signal.SIGTERM)
    except ProcessLookupError:
        pass
    try:
        process.wait(5)
    except subprocess.TimeoutExpired:
        os.killpg(process.pid, signal.SIGKILL)
        process.wait()


def start(words, log, running, **how):
    """Starts a command in a session of its own, and adds it to the list `running`, also where a signal comes meanwhile. What it writes
    goes to the file `log`."""
    try:
        with open(log, "wb") as written, undisturbed() as before:
            process = subprocess.Popen(
                words, stdin=subprocess.DEVNULL, stdout=written, stderr=subprocess.STDOUT, start_new_session=True,
                preexec_fn=lambda: signal.pthread_sigmask(signal.SIG_SETMASK, before), **how
            )  # fmt: skip
            running.append(process)
            return process
    except OSError as error:
        raise CannotBuild(reason_of(error, f"{words[0]} does not start")) from None


def run(commands, what, began, **how):
    """Runs commands, each given with its log, side by side to their ends, and returns their statuses. Each while it says what is
    done, and for how long."""
    processes = []
    try:
        for words, log in commands:
            start(words, log, processes, **how)
        for process in processes:
            while process.returncode is None:
                try:
                    process.wait(PROGRESS)
                except subprocess.TimeoutExpired:
                    say(f"{what} ({spent(began)} so far)")
        return [process.returncode for process in processes]
    finally:
        end(processes)


def reason_of(error, otherwise):
    """Why an error of the system ends the build."""
    # (a copy of a folder that fails has no number, but the texts of all its errors)
    if error.errno in (errno.ENOSPC, errno.EDQUOT) or os.strerror(errno.ENOSPC) in str(error):
        return FULL
    if error.errno == errno.ENOMEM:
        return NO_MEMORY
    return f"{otherwise} ({error.strerror or error})"


def reason_of_failure(status, log, folder):
    """Why a command failed, if it is for want of room or memory, and else None."""
    text = log.read_bytes()[-100_000:].decode(errors="replace").lower() if log.exists() else ""
    if "no space left" in text or "disk quota" in text or shutil.disk_usage(folder).free < LITTLE_ROOM:
        return FULL
    killed = status in (-signal.SIGKILL, 128 + signal.SIGKILL)
    if killed or "out of memory" in text or "memory allocation of" in text or "cannot allocate memory" in text:
        return NO_MEMORY
    return None


def last_lines(log, count=20):
    """The last lines that a command wrote."""
    return "\n".join(log.read_text(errors="replace").splitlines()[-count:])
