"""What shards bring: python3 bench/cluster.py FOLDER [TURNS].

Spreads the files of a folder over 1, 2 and 4 sessions on the workers of a Dask cluster of this machine (clients/python), beside one
session without Dask, and prints for each, least / median of so many turns (3):

- the seconds from the first put until the publish of all files is carried out;
- the milliseconds of a search for a rare word, for a common one and for a letter that is in most lines, from the call until the whole
  answer is there;
- how many searches a second eight clients get, each of which waits for its answer before it sends the next.

There are two tables. For the first, each shard, which is a worker and its program, has one processor of its own, and so have the one
session's program and the client, as if they were machines; with four shards on four processors the client shares one of theirs. For the
second, all share all processors, and a search in one session uses several by itself.

Every answer is compared with that of the one session, byte for byte. What is compared is measured in turns. The last column has how much
better two shards are than one, by the medians, and the goal. It needs Debian's python3-distributed, and at best a quiet machine.
"""
import asyncio
import importlib.util
import logging
import os
import statistics
import sys
import tempfile
import time

import build
import command
import corpus
import quiet

sys.path.insert(0, os.path.join(build.TOP, "clients", "python"))
from tsearch import aio  # noqa: E402

SHARDS = (1, 2, 4)
RARE, COMMON, HUGE = b"rare_word_of_the_bench", b"return", b"e"
SEARCHES = {"a rare word": (RARE, 30), "a common word": (COMMON, 7), "a letter": (HUGE, 3)}
CLIENTS = 8
SEARCHES_OF_A_CLIENT = 25
OF_CLIENTS = [RARE, rb"static.*inline", rb"sizeof *\(", rb"return -1"]
GOALS = {"feeding": 1.6, "a common word": 1.6}
FEEDING, EIGHT = "feeding", "eight clients"


def documents_of(folder):
    documents = {name: body for name, body in corpus.documents_of(folder).items() if b"%" not in name}
    return {b"rare": b"int %s;\n" % RARE, **documents}


async def timed(call):
    begin = time.perf_counter()
    result = await call
    return time.perf_counter() - begin, result


async def measure(target, documents, wanted):
    """The measurements of a session or of a cluster. The answers are compared with `wanted`, or put there if it has none."""

    async def feed():
        for name, body in documents.items():
            await target.put(name, body)
        published = await target.publish()
        assert published.documents == len(documents) and not published.refused, published

    async def client(number):
        for at in range(SEARCHES_OF_A_CLIENT):
            pattern = OF_CLIENTS[(number + at) % len(OF_CLIENTS)]
            check(wanted, pattern, await target.find(pattern))

    found = {FEEDING: [(await timed(feed()))[0]]}
    for what, (pattern, times) in SEARCHES.items():
        found[what] = []
        for _ in range(times):
            seconds, answer = await timed(target.find(pattern))
            found[what].append(1_000 * seconds)
            check(wanted, pattern, answer)
    for pattern in OF_CLIENTS:
        check(wanted, pattern, await target.find(pattern))
    seconds, _ = await timed(asyncio.gather(*[client(number) for number in range(CLIENTS)]))
    found[EIGHT] = [CLIENTS * SEARCHES_OF_A_CLIENT / seconds]
    return found


def check(wanted, pattern, answer):
    if wanted.setdefault(pattern, answer.data) != answer.data:
        sys.exit(f"the answer to {pattern!r} is not that of one session")


def pin(processors, process="self"):
    """Lets a process, and what it starts from now on, run on these processors alone."""
    for thread in os.listdir(f"/proc/{process}/task"):
        os.sched_setaffinity(int(thread), processors)


async def measure_session(documents, wanted, processor):
    async with aio.Session.started() as session:
        await session.status()
        if processor is not None:
            pin({processor}, session.pid)
        return await measure(session, documents, wanted)


async def measure_cluster(shards, documents, wanted, processors):
    from distributed import Client, LocalCluster

    from tsearch.cluster import Cluster

    options = {"threads_per_worker": 1, "dashboard_address": None, "silence_logs": logging.ERROR, "asynchronous": True}
    with tempfile.TemporaryDirectory(ignore_cleanup_errors=True) as place:
        async with LocalCluster(n_workers=shards, local_directory=place, **options) as local, Client(
            local, asynchronous=True, direct_to_workers=True
        ) as client:
            workers = (await client.scheduler.identity())["workers"]
            for worker, processor in zip(workers, processors):
                await client.run(pin, {processor}, workers=[worker])
            async with Cluster(client, shards) as cluster:
                await cluster.pids()
                return await measure(cluster, documents, wanted)


def measure_one(shards, documents, wanted, processors):
    """The measurements of so many shards, or of a session for 0. Each has one of the processors, or all share all of this process."""
    if shards:
        return asyncio.run(measure_cluster(shards, documents, wanted, processors))
    return asyncio.run(measure_session(documents, wanted, processors[0] if processors else None))


def measure_all(title, turns, documents, wanted, processors):
    taken = {number: {} for number in (0, *SHARDS)}
    for turn in range(turns):
        for number in taken:
            what = f"{title}, {number} shards, turn {turn + 1}"
            found = quiet.measured(what, lambda: measure_one(number, documents, wanted, processors))
            for key, values in found.items():
                taken[number].setdefault(key, []).extend(values)
    print_table(title, taken)


def print_table(title, taken):
    columns = [0, *SHARDS]
    print(f"\n{title}\n\n|  | one session | " + " | ".join(f"{number} shard{'s' * (number > 1)}" for number in SHARDS) + " | two to one |")
    print("|---" * (len(columns) + 2) + "|")
    for what, unit in ((FEEDING, "s"), *[(what, "ms") for what in SEARCHES], (EIGHT, "a second")):
        best = max if what == EIGHT else min
        cells = [f"{best(taken[number][what]):.3g} / {statistics.median(taken[number][what]):.3g}" for number in columns]
        one, two = (statistics.median(taken[number][what]) for number in (1, 2))
        ratio = two / one if what == EIGHT else one / two
        goal = f", wanted {GOALS[what]}" if what in GOALS else ""
        print(f"| {what}, {unit} | " + " | ".join(cells) + f" | {ratio:.2f}{goal} |", flush=True)


def main():
    folder, *more = command.words(__doc__, 1, 2)
    turns = int(more[0]) if more else 3
    build.need_program()
    if importlib.util.find_spec("distributed") is None:
        sys.exit("cluster.py: this Python has no module distributed; Debian's /usr/bin/python3 has that of python3-distributed")
    # The clients and the workers start the program that this names.
    os.environ["TSEARCH"] = build.PROGRAM
    documents, wanted = documents_of(folder), {}
    print(f"{len(documents):,} files, {sum(map(len, documents.values())) / 1e6:.1f} MB, {turns} turns")
    processors = sorted(os.sched_getaffinity(0))
    pin(processors[-1:])
    measure_all("A processor of its own for each shard", turns, documents, wanted, processors)
    pin(processors)
    measure_all("Shared processors", turns, documents, wanted, [])
    print("\nanswers compared: all, byte for byte;", quiet.told())


if __name__ == "__main__":
    main()
