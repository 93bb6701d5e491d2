"""All measurements in one run: python3 bench/all.py [--only NAME].. [--anyway] [--headers FOLDER] RESULTS SMALL LARGE [MORE..]

Runs the scripts of this folder one after the other: over the source trees SMALL, LARGE and MORE, and over a folder of headers
(/usr/include). What a script prints goes into a file of its own in the folder RESULTS. RESULTS/machine.txt tells the date, the
commit, the machine and the versions of the tools, and then what is printed after each script: how long it took, its status, how much of
the processors' time was used meanwhile, how much of it the host took, and how fast the machine was then: how long a loop of Python took,
and how many times as much as one process the processors did with one each. A script that fails does not stop the others.
RESULTS/page.md has all of it, as a page to be added to results/.

The small programs are built first, side by side, since nothing is measured yet. One that is not built then is built by its script,
which says why it can't be. If the variable SMALL_PROGRAMS names a folder, they are built there, and one that is there already is taken.

With --only, only the scripts of these names run. Nothing else should run meanwhile: if the load average of the last minute is over
1.0, nothing is measured, unless --anyway is given.
"""
import argparse
import concurrent.futures
import os
import subprocess
import sys
import tempfile
import time

import build
import quiet

MOST_LOAD = 1.0
TURNS = 10
TOOLS = [["rt", "version"], ["rg", "--version"], ["grep", "--version"], ["dpkg-query", "-W", "codesearch"], [sys.executable, "--version"]]


def runs_over(small, large, more, headers):
    """The scripts in their order, each with its words: what people meet, and then the libraries."""
    trees = [small, large, *more]
    return [
        ("trees", [small]),
        ("trees", [large]),
        ("finds", [small]),
        *[("finds", [tree, "go"]) for tree in more],
        ("filling", trees),
        ("live", trees),
        ("waits", trees),
        *[("contents", [tree]) for tree in more],
        ("turns", [small]),
        ("tgrep", trees),
        ("editor", [small]),
        ("host", [small]),
        ("missing", more),
        ("sessions", [headers]),
        ("cancels", [headers]),
        ("prefixes", [small]),
        ("readers", [small]),
        ("cluster", [large]),
        ("growth", [large]),
        ("extremes", []),
        ("lines", [small]),
        ("checked", [small]),
        ("hostile", []),
        ("matching", [small]),
        ("limits", [small]),
        ("lists", [small]),
        ("lists", [large]),
        ("trigrams", [headers]),
        ("preparing", ["1"]),
        ("stack", []),
        ("levels", []),
        ("refused", [*trees, headers]),
        ("readings", [small]),
    ]


SECTIONS = {
    "trees": "Source trees",
    "finds": "Searches with options",
    "filling": "Filling",
    "live": "Memory and changes",
    "waits": "Statuses after a large publish",
    "contents": "Revisions",
    "turns": "Turns",
    "tgrep": "At the terminal",
    "host": "The page under load",
    "editor": "The editor",
    "sessions": "Sessions with readers",
    "cancels": "Cancels and limits of time",
    "prefixes": "Prefixes of names",
    "readers": "Readers",
    "cluster": "Clusters",
    "growth": "First publish, memory and changes",
    "extremes": "Large answers, long lines and replacements",
    "lines": "Lines",
    "checked": "The program that is compiled with checks",
    "hostile": "Hostile patterns",
    "matching": "Matching alone",
    "limits": "Line by line or compiled",
    "lists": "Posting lists",
    "trigrams": "Trigrams and queries",
    "readings": "Readings",
    "preparing": "What preparing takes",
    "stack": "Stack",
    "levels": "Stack for a level",
    "refused": "Files with long lines",
    "missing": "Lines that are missing",
}
SCRIPTS = list(dict.fromkeys(script for script, _ in runs_over("", "", [""], "")))
# These measure no program, or build one of their own.
WITHOUT_PROGRAM = {*build.USED, "refused"}


def words():
    taken = argparse.ArgumentParser(description=__doc__, formatter_class=argparse.RawDescriptionHelpFormatter, usage="bench/all.py [options] RESULTS SMALL LARGE [MORE..]")
    taken.add_argument("--only", action="append", choices=SCRIPTS, metavar="NAME")
    taken.add_argument("--anyway", action="store_true")
    taken.add_argument("--headers", default="/usr/include", metavar="FOLDER")
    for name in ("results", "small", "large"):
        taken.add_argument(name, metavar=name.upper())
    taken.add_argument("more", nargs="*", metavar="MORE")
    return taken.parse_args()


def need_quiet():
    load = os.getloadavg()[0]
    if load > MOST_LOAD:
        sys.exit("bench/all.py: the machine is not quiet: the load average of the last minute is %.2f; --anyway measures all the same" % load)


def first_line(command):
    try:
        return subprocess.run(command, capture_output=True, text=True).stdout.partition("\n")[0]
    except FileNotFoundError:
        return command[0] + " is not installed"


def processor():
    with open("/proc/cpuinfo") as info:
        return next((line.partition(": ")[2].strip() for line in info if line.startswith("model name")), "unknown")


def about_machine():
    git = ["git", "-C", build.TOP]
    changed = ", with changes" if first_line([*git, "status", "--porcelain"]) else ""
    return [
        time.strftime("%Y-%m-%d %H:%M UTC", time.gmtime()),
        "commit " + first_line([*git, "rev-parse", "HEAD"]) + changed,
        "%d processors: %s" % (os.cpu_count(), processor()),
        *map(first_line, TOOLS),
    ]


def ticks():
    """The processors' time so far: all of it, what was used, and what the host took."""
    with open("/proc/stat") as stat:
        times = [int(word) for word in stat.readline().split()[1:9]]
    idle, stolen = times[3] + times[4], times[7]
    return sum(times), sum(times) - idle - stolen, stolen


def spent(pool, at_once):
    """How many seconds so many processes take for a loop each."""
    start = time.perf_counter()
    concurrent.futures.wait([pool.submit(quiet.loop) for _ in range(at_once)])
    return time.perf_counter() - start


def speed():
    """How long a loop of Python takes, and how many times as much as one process the processors do with one each. Both are timed by
    turns, since the host is not equally fast all the time."""
    count = os.cpu_count()
    with concurrent.futures.ProcessPoolExecutor(count) as pool:
        turns = [[spent(pool, at_once) for at_once in (1, count)] for _ in range(TURNS)]
    alone, together = map(min, zip(*turns))
    return "a loop of Python took %.0f ms, and %d at once did %.1f times the work of one" % (1000 * alone, count, count * alone / together)


def build_small_programs(names, folder):
    """Builds these small programs, and has the scripts take them from the folder."""
    began = time.perf_counter()
    with concurrent.futures.ThreadPoolExecutor(os.cpu_count()) as pool:
        built = sum(pool.map(lambda name: is_built(name, os.path.join(folder, name)), names))
    os.environ["SMALL_PROGRAMS"] = folder
    return "%d of %d small programs built in %.0f s" % (built, len(names), time.perf_counter() - began)


def is_built(name, folder):
    try:
        build.build(name, folder)
        return True
    except SystemExit:
        return False


def file_of(script, folders, runs):
    """The name of the file for what a run prints: it has the name of the folder if the script runs several times."""
    is_one = [name for name, _ in runs].count(script) == 1
    return script + ("" if is_one else "-" + os.path.basename(folders[0])) + ".md"


def run(script, folders, path):
    """Runs a script, and returns its status and what is told of it."""
    start, before = time.perf_counter(), ticks()
    with open(path, "w") as out:
        command = [sys.executable, "-B", os.path.join(build.BENCH, script + ".py"), *folders]
        status = subprocess.run(command, stdin=subprocess.DEVNULL, stdout=out, stderr=subprocess.STDOUT).returncode
    total, used, stolen = (after - first for after, first in zip(ticks(), before))
    shares = tuple(100 * share / max(total, 1) for share in (used, stolen))
    return status, "%.0f s, status %d; of the processors' time %.1f %% was used and the host took %.1f %%" % (time.perf_counter() - start, status, *shares)


def write_page(results, runs, names):
    """Joins what the machine is and what the scripts have printed to a page."""
    with open(os.path.join(results, "page.md"), "w") as page:
        with open(os.path.join(results, "machine.txt")) as told:
            page.write("# Measurements\n\n" + "".join("    " + line for line in told))
        headings = [SECTIONS[script] for script, _ in runs]
        for number, (heading, name) in enumerate(zip(headings, names)):
            if number == 0 or heading != headings[number - 1]:
                page.write("\n## %s\n" % heading)
            with open(os.path.join(results, name)) as printed:
                page.write("\n" + printed.read().strip("\n") + "\n")


def main():
    given = words()
    if not given.anyway:
        need_quiet()
    small, large, *more = map(os.path.abspath, [given.small, given.large, *given.more])
    runs = runs_over(small, large, more, os.path.abspath(given.headers))
    asked = [one for one in runs if not given.only or one[0] in given.only]
    if {script for script, _ in asked} - WITHOUT_PROGRAM:
        build.need_program()
    os.makedirs(given.results, exist_ok=True)
    worst = 0
    with open(os.path.join(given.results, "machine.txt"), "a") as told, tempfile.TemporaryDirectory() as scratch:
        told.write("\n".join(about_machine()) + "\n")
        what = build_small_programs([name for name in build.USED if name in {script for script, _ in asked}], build.MADE or scratch)
        print(what, flush=True)
        told.write(what + "\n")
        for number, (script, folders) in enumerate(asked, 1):
            name = file_of(script, folders, runs)
            status, what = run(script, folders, os.path.join(given.results, name))
            worst = max(worst, abs(status))
            line = "%d of %d, %s: %s; %s" % (number, len(asked), name, what, speed())
            print(line, flush=True)
            told.write(line + "\n")
            told.flush()
    write_page(given.results, asked, [file_of(script, folders, runs) for script, folders in asked])
    sys.exit(1 if worst else 0)


if __name__ == "__main__":
    main()
