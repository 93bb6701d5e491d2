#!/usr/bin/env python3
"""The page of a code host: a push, many repositories, a review, branches, and a hundred visitors.

Usage: bench/host.py [--seconds N] FOLDER     FOLDER is a tree of sources, which is committed into repositories made for this.

It says: how long after its hook a push of 50 files is found; how long a rare word takes over 80 repositories that have the tree's folders
and files among them; a search in a review of 300 changed files, after the first; the memory of the program with ten branches beside that
with one; and how many searches a hundred visitors have in a second, in what time 95 % of theirs are answered, and how long the processor is
at work in the page for one, alone and beside two visitors with hostile patterns. It says how loaded the machine is, and takes no quiet one
for granted.
"""

import argparse
import asyncio
import os
import pathlib
import random
import statistics
import sys
import tempfile
import time

TOP = pathlib.Path(__file__).resolve().parent.parent
sys.path.insert(0, str(TOP / "clients/python/tests"))

from made import Made  # noqa: E402
from serving import serving_in  # noqa: E402

REPOSITORIES = 80
BRANCHES = 10
VISITORS = 100
RARE = "sched_setaffinity"
WORDS = ["sched_setaffinity", "malloc", "int main", "return NULL", "static inline", "strcmp\\(", "EAGAIN", "void \\*", "NOTE", "while *\\(1\\)"]
HOSTILE = ["x([ab]|a([ab]{250}){15}c)*e", "(.*.*){100}=$"]


def files_of(folder):
    """The files of a tree that have no byte 0, by their paths."""
    found = {}
    for path in sorted(pathlib.Path(folder).rglob("*")):
        if path.is_file() and not path.is_symlink() and ".git" not in path.parts:
            body = path.read_bytes()
            if b"\0" not in body:
                found[os.fsencode(path.relative_to(folder))] = body
    return found


def show(what, value):
    """A row."""
    print(f"{what:60} {value}", flush=True)


def measure_push(top, files, count=9):
    """How long after the hook has been started a push of 50 files is found, in milliseconds."""
    made = Made(top / "pushed.git")
    made.commit("main", files)
    with serving_in(top, "--look", "1000", str(made.path), count=1) as server:
        hook = made.path / "hooks/post-receive"
        hook.parent.mkdir(exist_ok=True)
        hook.write_text(f"#!/bin/sh\ndate +%s.%N > {top}/began\nexec curl -fsS -X POST {server.address}/api/look\n")
        hook.chmod(0o755)
        made.git("clone", "-q", str(made.path), str(top / "clone"))
        clone, times = Made(top / "clone", is_bare=False), []
        clone.files["main"] = files
        changed = random.Random(1).sample(sorted(files), 50)
        for number in range(count):
            clone.commit("main", {name: files[name] + b"\npushed_%d\n" % number for name in changed})
            clone.git("push", "-q", "origin", "main")
            while len(server.hits(f"pushed_{number}$")) < 50:
                pass
            times.append(time.time() - float((top / "began").read_text()))
    show("a push of 50 files is found after its hook, ms", f"{statistics.median(times) * 1_000:.0f} (most {max(times) * 1_000:.0f})")


def measure_many(top, files, count=41):
    """A rare word over many repositories, in milliseconds."""
    names = sorted(files)
    repositories = []
    for number in range(REPOSITORIES):
        made = Made(top / f"many-{number}.git")
        made.commit("main", {name: files[name] for name in names[number::REPOSITORIES]})
        repositories.append(str(made.path))
    with serving_in(top, "--readers", "1", *repositories, count=REPOSITORIES) as server:
        times = []
        for _ in range(count):
            began = time.perf_counter()
            found = server.find(RARE)
            times.append(time.perf_counter() - began)
        show(f"a rare word over {REPOSITORIES} repositories ({found[-1]['lines']} lines), ms", f"{statistics.median(times) * 1_000:.1f}")


def measure_review(top, files, count=41):
    """A search in a review of 300 files, in milliseconds."""
    made = Made(top / "review.git")
    made.commit("main", files)
    source = random.Random(2)
    changed = {}
    for name in source.sample(sorted(files), min(300, len(files))):
        lines = files[name].split(b"\n")
        at = source.randrange(len(lines))
        changed[name] = b"\n".join([*lines[:at], b"    malloc(changed);", *lines[at + 3 :]])
    made.commit("topic", changed, start="main")
    with serving_in(top, "--revisions", "main", "--revisions", "topic", str(made.path), count=1) as server:
        times = []
        for _ in range(count):
            began = time.perf_counter()
            rows = server.lines("/api/review", repository="review", before="main", after="topic", q="malloc")
            times.append(time.perf_counter() - began)
    shown = f"{statistics.median(times[1:]) * 1_000:.1f} (the first {times[0] * 1_000:.0f})"
    show(f"a review of 300 files ({rows[-1]['added']} added, {rows[-1]['left']} left), ms", shown)


def measure_branches(top, files):
    """The memory with ten branches beside that with one, in times."""
    made = Made(top / "branches.git")
    made.commit("b0", files)
    source = random.Random(3)
    for number in range(1, BRANCHES):
        made.commit(f"b{number}", {name: files[name] + b"\n// branch %d\n" % number for name in source.sample(sorted(files), 20)}, start="b0")
    memory = []
    for revisions in "b0", "b*":
        with serving_in(top, "--revisions", revisions, str(made.path), count=1) as server:
            time.sleep(2)
            text = server.get("/metrics")[1].decode()
            memory.append(next(float(line.split()[1]) for line in text.splitlines() if line.startswith("tsearch_memory_bytes")))
    show(f"the memory of {BRANCHES} branches beside that of one, times", f"{memory[1] / memory[0]:.2f} ({memory[0] / 1e6:.0f} MB for one)")


async def visit(session, address, visitor, end, times):
    """A visitor who searches until the end, one word after the other."""
    source = random.Random(visitor)
    while time.monotonic() < end:
        words = {"q": source.choice(WORDS), "context": "1", "repository": "visited"}
        began = time.monotonic()
        async with session.get(address + "/api/find", params=words, headers={"X-Forwarded-For": f"198.51.100.{visitor}"}) as answer:
            await answer.read()
            if answer.status == 200:
                times.append(time.monotonic() - began)


async def be_hostile(session, address, number, end):
    """A visitor with a hostile pattern, again and again."""
    while time.monotonic() < end:
        headers = {"X-Forwarded-For": f"203.0.113.{number}"}
        async with session.get(address + "/api/find", params={"q": HOSTILE[number % 2]}, headers=headers) as answer:
            await answer.read()


async def visits(address, seconds, hostile):
    import aiohttp

    times = []
    end = time.monotonic() + seconds
    async with aiohttp.ClientSession(connector=aiohttp.TCPConnector(limit=0)) as session:
        async with asyncio.TaskGroup() as group:
            for visitor in range(VISITORS):
                group.create_task(visit(session, address, visitor, end, times))
            for number in range(hostile):
                group.create_task(be_hostile(session, address, number, end))
    return sorted(times)


def processor_of(pid):
    """How long the processor was at work for a process, in seconds."""
    fields = pathlib.Path(f"/proc/{pid}/stat").read_text().rpartition(")")[2].split()
    return (int(fields[11]) + int(fields[12])) / os.sysconf("SC_CLK_TCK")


def measure_visitors(top, files, seconds):
    """The searches in a second, the time in which 95 % are answered, and that of the processor in the page for one."""
    made = Made(top / "visited.git")
    made.commit("main", files)
    with serving_in(top, "--proxy", "127.0.0.1", "--readers", "4", str(made.path), count=1) as server:
        for hostile in 0, 2:
            before = processor_of(server.pid)
            times = asyncio.run(visits(server.address, seconds, hostile))
            page = (processor_of(server.pid) - before) / len(times) * 1_000
            shown = f"{len(times) / seconds:.0f} searches/s, 95 % in {times[int(len(times) * 0.95)]:.2f} s, {page:.1f} ms in the page for each"
            show(f"{VISITORS} visitors{' beside 2 hostile ones' * bool(hostile)}", shown)


def main():
    parser = argparse.ArgumentParser(description=__doc__.split("\n")[0])
    parser.add_argument("--seconds", type=float, default=10)
    parser.add_argument("folder")
    given = parser.parse_args()
    files = files_of(given.folder)
    load, processors = os.getloadavg()[0], os.cpu_count()
    show("the tree", f"{len(files):,} files, {sum(map(len, files.values())):,} bytes")
    show("the machine's load before", f"{load:.1f} on {processors} processors")
    parts = [measure_push, measure_many, measure_review, measure_branches]
    for part in [*parts, lambda top, found: measure_visitors(top, found, given.seconds)]:
        with tempfile.TemporaryDirectory() as top:
            part(pathlib.Path(top), files)


if __name__ == "__main__":
    main()
