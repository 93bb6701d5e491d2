"""Runs a command, and returns its seconds and its output, its resident memory, or the stack that it takes."""
import subprocess
import sys
import tempfile
import time


def run(words, stdin=None, env=None):
    with tempfile.TemporaryFile() as out:
        source = open(stdin, "rb") if stdin else subprocess.DEVNULL
        start = time.perf_counter()
        process = subprocess.Popen(words, stdin=source, stdout=out, stderr=subprocess.DEVNULL, env=env)
        status = process.wait()
        seconds = time.perf_counter() - start
        out.seek(0)
        return {"seconds": seconds, "output": out.read(), "status": status}


def memory(words):
    """The most bytes that were resident. `time` starts the command, since the system counts the memory of the starting
    process as the command's own, and a script that made a large input has more than the command needs."""
    with tempfile.NamedTemporaryFile("r") as told:
        subprocess.run(["/usr/bin/time", "-f", "%M", "-o", told.name] + words, stdin=subprocess.DEVNULL, stdout=subprocess.DEVNULL, stderr=subprocess.DEVNULL)
        return 1024 * int(told.read().split()[-1])


def answers_with(kib, words):
    """Whether a command prints true or false with this much stack."""
    limited = ["bash", "-c", 'ulimit -c 0; ulimit -s "$0" && exec "$@"', str(kib), *words]
    ran = subprocess.run(limited, capture_output=True, text=True)
    return ran.returncode == 0 and ran.stdout in ("true\n", "false\n")


def least_stack(words, most, step):
    """The least KiB of stack with which a command that prints true or false does so, to `step` KiB."""
    low, high = 0, most
    if not answers_with(high, words):
        sys.exit("no answer of %s" % " ".join(words))
    while high - low > step:
        middle = (low + high) // 2
        if answers_with(middle, words):
            high = middle
        else:
            low = middle
    return high
