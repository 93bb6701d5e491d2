"""Several sessions on the workers of a Dask cluster: one answer of all, the same publish in all, and kills of programs and workers."""

import asyncio
import contextlib
import importlib.util
import itertools
import json
import logging
import os
import pathlib
import random
import re
import shutil
import signal
import subprocess
import sys
import tempfile
import unittest
import unittest.mock
import warnings
import zlib

from helpers import PACKAGE, SECONDS, Model, found_in, shown, stop, stopped, until
from made import Made
from serving import DOCUMENTS, free_port, serving

import tsearch

SHARDS = 4
HAS_DASK, HAS_AIOHTTP = (importlib.util.find_spec(library) for library in ("distributed", "aiohttp"))


def setUpModule() -> None:
    """Workers for all tests, one more than there are shards."""
    if not HAS_DASK:
        return
    import dask
    from distributed import LocalCluster

    global address
    dask.config.set({"distributed.comm.timeouts.connect": "5s"})
    folder = unittest.enterModuleContext(tempfile.TemporaryDirectory(ignore_cleanup_errors=True))
    local = LocalCluster(
        n_workers=SHARDS + 1, threads_per_worker=1, processes=True, dashboard_address=None, local_directory=folder,
        silence_logs=logging.CRITICAL, host="127.0.0.1",
    )  # fmt: skip
    address = unittest.enterModuleContext(local).scheduler_address


@unittest.skipUnless(HAS_DASK, "the library distributed is missing (python3-distributed)")
class Clusters(unittest.IsolatedAsyncioTestCase):
    async def asyncSetUp(self) -> None:
        from distributed import Client

        from tsearch.cluster import Cluster

        # where no worker ends none is given up for its time, however slow the machine is
        if "kills" not in self._testMethodName:
            self.enterContext(unittest.mock.patch("tsearch.cluster._TO_MAKE", SECONDS))
        self.client = await self.enterAsyncContext(Client(address, asynchronous=True, direct_to_workers=True))
        self.cluster = await self.enterAsyncContext(Cluster(self.client, SHARDS))

    async def test_as_one_session(self) -> None:
        """Every answer is that of one session with all documents, byte for byte."""
        model, cluster = Model(11, 60), self.cluster
        many = {f"many {at}": b"".join(b"alpha %d\nbeta\n" % number for number in range(40 * at)) for at in range(12)}
        session = self.enterContext(tsearch.Session())
        async with asyncio.timeout(SECONDS):
            for name, body in {**model.documents, **many, "a:1": b"alpha", "--": b"beta\n--\nx\nalpha"}.items():
                await cluster.put(name, body)
                session.put(name, body)
            await cluster.put("bad", b"\0")
            self.assertEqual((await cluster.find("")).hits(), [])
            published = await cluster.publish()
            self.assertEqual([(one.name, one.reason) for one in published.refused], [(b"bad", "byte 0 in body")])
            one = session.publish()
            self.assertEqual((published.version, published.documents, published.bytes), (1, one.documents, one.bytes))

            async def search(number: int) -> None:
                source = random.Random(number)
                pattern, options = source.choice(model.PATTERNS), model.options(source)
                if source.random() < 0.3:
                    options["limit"] = source.randint(1, 400)
                answer, wanted = await cluster.find(pattern, **options), session.find(pattern, **options)
                for field in "count", "more", "view", "data", "spans_data":
                    self.assertEqual(getattr(answer, field), getattr(wanted, field), (pattern, options, field))
                self.assertEqual(answer.version, 1)

            await asyncio.gather(*[search(number) for number in range(300)])
            with self.assertRaises(tsearch.PatternRefused) as raised:
                await cluster.find("x", names=["a", "a(b"])
            self.assertEqual((raised.exception.number, raised.exception.offset), (2, 1))
            with self.assertRaises(tsearch.OptionRefused):
                await cluster.find("x", limit=0)
            with self.assertRaises(tsearch.ChangeRefused):
                await cluster.put("", "x")
            self.assertEqual(cluster.heals, 0)

    async def test_names_under_a_prefix(self) -> None:
        """They go from all shards at one publish, as from one session, and it is refused if no shard has any."""
        cluster, session = self.cluster, self.enterContext(tsearch.Session())
        names = [b"%s/%d" % (folder, number) for folder in (b"a", b"a b", b"%41", b"\xff") for number in range(12)] + [b"a/only"]
        async with asyncio.timeout(SECONDS):
            for name in names:
                await cluster.put(name, name)
                session.put(name, name)
            await cluster.publish()
            session.publish()
            for prefixes in [b"a/only"], [b"a/"], [b"a/", b"none/"], [b"\xff", b"\xff"], [b"%", b"%41/", b"a"], [b"a"]:
                await cluster.put(b"new/" + prefixes[0], b"new")
                session.put(b"new/" + prefixes[0], b"new")
                for prefix in prefixes:
                    await cluster.remove_under(prefix)
                    session.remove_under(prefix)
                before = await cluster.find("", names_only=True)
                published, wanted = await cluster.publish(), session.publish()
                for field in "documents", "bytes", "accepted":
                    self.assertEqual(getattr(published, field), getattr(wanted, field), (prefixes, field))
                refused = [[(one.name, one.reason) for one in told.refused] for told in (published, wanted)]
                self.assertEqual(sorted(refused[0]), sorted(refused[1]), prefixes)
                after = await cluster.find("", names_only=True)
                self.assertEqual((after.names(), after.version), (session.find("", names_only=True).names(), before.version + 1))
            self.assertEqual({name.split(b"/")[0] for name in after.names()}, {b"new"})
            for prefix in b"", b"x" * 5_000:
                with self.assertRaises(tsearch.ChangeRefused):
                    await cluster.remove_under(prefix)
            # why one shard keeps what it has is told, whatever the others say
            from tsearch.cluster import _Under

            for reasons in itertools.permutations(["no such file", "full", None]):
                under = _Under(b"a", 3)
                told = [under.told(reason and tsearch.ChangeRefused(reason, b"a")) for reason in reasons]
                self.assertEqual([one and one.reason for one in told], [None, None, "full"])

    @unittest.skipUnless(shutil.which("git"), "the command git is missing")
    async def test_revisions(self) -> None:
        """A branch that comes is put, since a shard cannot copy what is in another one."""
        from tsearch import aio

        made = Made(pathlib.Path(self.enterContext(tempfile.TemporaryDirectory())) / "made.git")
        made.commit("main", {b"%d.c" % number: b"int n%d;\n" % number for number in range(20)})
        revisions = aio.Revisions(self.cluster, made.path, ["main", "*"])
        async with asyncio.timeout(SECONDS):
            for branch in "topic", "other":
                await revisions.refresh()
                made.commit(branch, {branch.encode(): b"int new;\n", b"1.c": None}, start="main")
            self.assertEqual((await revisions.refresh())[:2], (20, 0))
            names = {f"{branch}:".encode() + path for branch, files in made.files.items() for path in files}
            self.assertEqual({hit.name for hit in await self.cluster.find("int")}, names)

    async def test_refusals_of_a_look_that_fails(self) -> None:
        """As in one session: they are told to the source whose they are, unless what was refused has changed since."""
        from tsearch import aio

        top = pathlib.Path(self.enterContext(tempfile.TemporaryDirectory()))
        for folder in "ab":
            (top / folder).mkdir()
        fails = False

        def progress(done: int, of: int) -> None:
            if fails and done >= 2:
                raise RuntimeError

        from tsearch.cluster import Cluster

        await self.cluster.close()
        async with asyncio.timeout(2 * SECONDS), Cluster(self.client, 2, max_line=None) as cluster:
            kept = aio.Folder(cluster, top / "a", prefix="a/", progress=progress)
            other = aio.Folder(cluster, top / "b", prefix="b/")
            for publishes in True, False:
                for name in "1234":
                    (top / "a" / name).write_text("old\n")
                await kept.refresh()
                for name in "12":
                    (top / "a" / name).write_text("x" * 20_000)
                (top / "a/3").write_text("newer\n")
                (top / "b/1").write_text(f"{publishes}\n")
                fails = True
                with self.assertRaises(RuntimeError):
                    await kept.refresh()
                if publishes:
                    self.assertEqual((await other.refresh()).published.refused, ())
                fails = False
                (top / "a/1").write_text("new\n")
                refreshed = await kept.refresh()
                self.assertEqual((refreshed.left_out, kept.left_out), ([(b"2", "line too long")], {b"2": "line too long"}))
                self.assertEqual([hit[:3:2] for hit in await cluster.find("", names="^a/")], [(b"a/1", b"new"), (b"a/3", b"newer"), (b"a/4", b"old")])
                # those of others are left to the next publish that tells
                await cluster.put("bad", b"\0")
                self.assertEqual((await cluster.publish(tells=False)).refused, ())
                self.assertEqual([one.name for one in (await cluster.publish()).refused], [b"bad"])

    async def test_the_names_of_a_lane(self) -> None:
        """Those under a prefix are the same, whatever has come and gone before."""
        from tsearch.cluster import _Names

        source, documents = random.Random(8), {}
        names = _Names(documents)
        for _ in range(3_000):
            name = bytes(source.choices(b"ab/\xff", k=source.randint(1, 5)))
            if source.random() < 0.7:
                documents[name] = b""
                names.add(name)
            elif source.random() < 0.3:
                documents.pop(name, None)
            else:
                wanted = {one for one in documents if one.startswith(name)}
                self.assertEqual({one for one in names.under(name) if documents.pop(one, None) is not None}, wanted)

    async def test_the_example_of_the_page(self) -> None:
        text = (PACKAGE / "README.md").read_text(encoding="utf-8")
        code, wanted = re.search(r"^```py\n(.*?)^```\n\n```output\n(.*?)^```", text, re.MULTILINE | re.DOTALL).groups()
        with tempfile.TemporaryDirectory(ignore_cleanup_errors=True) as folder:
            pathlib.Path(folder, "example.py").write_text(code, encoding="utf-8")
            pipe = asyncio.subprocess.PIPE
            environment = {**os.environ, "PYTHONPATH": str(PACKAGE)}
            run = await asyncio.create_subprocess_exec(sys.executable, "-B", "example.py", cwd=folder, env=environment, stdout=pipe, stderr=pipe)
            async with asyncio.timeout(SECONDS):
                shown, _ = await run.communicate()
        self.assertEqual((run.returncode, shown.decode()), (0, wanted))

    async def test_what_does_not_come_back(self) -> None:
        from tsearch.cluster import Cluster, ShardLost

        await self.cluster.close()
        async with asyncio.timeout(2 * SECONDS), Cluster(self.client, 1, program="/nothing/here") as cluster:
            await cluster.put("a", "x")
            with self.assertRaises(ShardLost) as raised:
                await cluster.publish()
            self.assertIn("/nothing/here", str(raised.exception))
            with self.assertRaises(ShardLost):
                await cluster.find("x", waits=False)
        async with asyncio.timeout(2 * SECONDS), Cluster(self.client, 2, call_seconds=10) as cluster:
            for number in range(8):
                await cluster.put(f"f{number}", "x")
            await cluster.publish()
            await cluster.put("f0", "y")
            # one worker stops, which Dask does not notice
            worker = self.worker_of((await cluster.pids())[1])
            stop(worker)
            try:
                with self.assertRaises(ShardLost) as raised:
                    await cluster.find("x", waits=False)
                self.assertEqual((raised.exception.shard, "shard 1" in str(raised.exception)), (1, True))
                # published and pending changes are all there
                answer = await cluster.find("x")
                self.assertEqual((answer.count, answer.version), (8, 1))
                await cluster.publish()
                self.assertEqual(((await cluster.find("x")).count, (await cluster.find("y")).version), (7, 2))
            finally:
                os.kill(worker, signal.SIGCONT)

    async def test_too_few_workers(self) -> None:
        """It is said soon how many are missing, once, and to whoever waits; and once they are there all goes on."""
        from tsearch import cluster as clusters

        await self.cluster.close()
        few = "there are too few workers, 5, and 3 are missing: a shard needs one of its own"
        with unittest.mock.patch.multiple(clusters, _TO_PLACE=12.0, _TO_SAY=4.0), warnings.catch_warnings(record=True) as said:
            warnings.simplefilter("always")
            async with asyncio.timeout(2 * SECONDS), clusters.Cluster(self.client, SHARDS + 4) as cluster:
                for number in range(50):
                    await cluster.put(f"f{number}", "x" * 1_000)
                with self.assertRaises(clusters.ShardLost) as raised:
                    await cluster.publish()
                self.assertIn("is lost: there are too few workers, 5, and ", str(raised.exception))
            self.assertEqual([str(one.message) for one in said if one.category is RuntimeWarning], [f"{few}; it is waited for"])

    async def test_what_is_published_while_a_shard_is_lost(self) -> None:
        from tsearch.cluster import Cluster, ShardLost

        await self.cluster.close()
        own = [name for name in map("f{}".format, range(40)) if zlib.crc32(name.encode()) % 2 == 1][:3]
        with unittest.mock.patch("tsearch.cluster._TRIES", 1):
            async with asyncio.timeout(2 * SECONDS), Cluster(self.client, 2, call_seconds=SECONDS) as cluster:
                for name in own:
                    await cluster.put(name, "x")
                await cluster.publish()
                os.kill((await cluster.pids())[1], signal.SIGKILL)
                # one change is refused, and leaves the older text
                for name, body in zip(own, ["y", "y\0", "y"]):
                    await cluster.put(name, body)
                await cluster.put("old/x", "x")
                await cluster.remove_under("old/")
                await cluster.remove_under("old/")
                with self.assertRaises(ShardLost):
                    await cluster.publish()
                await cluster.put(own[2], "z")
                while True:
                    with contextlib.suppress(ShardLost):
                        answer = await cluster.find("[xyz]")
                        break
                self.assertEqual([(hit.text, answer.version) for hit in answer], [(b"y", 2), (b"x", 2), (b"y", 2)])
                published = await cluster.publish()
                self.assertEqual((published.documents, published.accepted), (3, 3 + 2 + 2 + 1))
                # the next publish tells what that one has not
                refused = [(one.name, one.reason) for one in published.refused]
                self.assertEqual(sorted(refused), [(own[1].encode(), "byte 0 in body"), (b"old/", "no such file")])
                self.assertEqual((await cluster.publish()).refused, ())
                self.assertEqual([hit.text for hit in await cluster.find("")], [b"y", b"x", b"z"])

    async def test_a_search_that_nobody_waits_for_is_not_sent(self) -> None:
        """It was cancelled while it waited behind another one."""
        from tsearch.cluster import _Lane
        from tsearch.query import Query

        send, sent = _Lane._send, []

        async def note(lane: _Lane, items: list) -> list:
            sent.extend(item.pattern for item in items if lane._number == 1 and isinstance(item, Query))
            return await send(lane, items)

        async with asyncio.timeout(SECONDS):
            await self.cluster.publish()
            with unittest.mock.patch.object(_Lane, "_send", note):
                with stopped((await self.cluster.pids())[1]):
                    first = asyncio.create_task(self.cluster.find("first"))
                    while not sent:
                        await asyncio.sleep(0.01)
                    others = [asyncio.create_task(self.cluster.find("other")) for _ in range(3)]
                    await asyncio.sleep(0.1)
                    for task in others:
                        task.cancel()
                    await asyncio.wait(others)
                await first
                await self.cluster.find("last")
        self.assertEqual(sent, [b"first", b"last"])

    def worker_of(self, program: int) -> int:
        """The process of the worker that has started a program."""
        return int(pathlib.Path(f"/proc/{program}/stat").read_text(encoding="ascii").split()[3])

    async def test_writers_and_kills(self) -> None:
        """Each answer is that of the documents of its version, which is no older than the last publish before it, also while programs
        and workers are killed."""
        cluster, model, source = self.cluster, Model(5, 40), random.Random(6)
        versions, done, count = {0: {}}, False, 0

        async def search(number: int) -> None:
            nonlocal count
            own = random.Random(number)
            while not done:
                pattern, options, before = own.choice(model.PATTERNS), model.options(own), max(versions)
                answer = await cluster.find(pattern, **options)
                if answer.version < before or shown(answer) != found_in(versions[answer.version], pattern, **options):
                    raise AssertionError((pattern, options, answer, before))
                count += 1

        async with asyncio.timeout(2 * SECONDS):
            searches = [asyncio.create_task(search(number)) for number in range(4)]
            for number in range(1, 25):
                documents = dict(versions[number - 1])
                if number % 3 == 0:
                    prefix = source.choice([b"dir 0/", b"dir 1/f1", b"dir"])
                    documents = {name: body for name, body in documents.items() if not name.startswith(prefix)}
                    await cluster.remove_under(prefix)
                for name in source.sample(sorted(model.documents), 15):
                    if name in documents and source.random() < 0.4:
                        del documents[name]
                        await cluster.remove(name)
                    else:
                        documents[name] = model.body(source)
                        await cluster.put(name, documents[name])
                publish = asyncio.create_task(cluster.publish())
                await asyncio.sleep(0)
                versions[number] = documents
                if number == 7:
                    os.kill(source.choice(await cluster.pids()), signal.SIGKILL)
                if number == 15:
                    os.kill(self.worker_of((await cluster.pids())[0]), signal.SIGKILL)
                self.assertEqual((await publish).documents, len(documents))
            done = True
            await asyncio.gather(*searches)
            self.assertEqual(shown(await cluster.find("")), found_in(documents, ""))
        self.assertGreaterEqual(cluster.heals, 2)
        self.assertGreater(count, 20)


@unittest.skipUnless(HAS_DASK and HAS_AIOHTTP, "the library distributed or aiohttp is missing (python3-distributed, python3-aiohttp)")
class Page(unittest.TestCase):
    def test_a_scheduler_that_is_not_there(self) -> None:
        """It is named, and so is the library if that is missing."""
        late = {"DASK_DISTRIBUTED__COMM__TIMEOUTS__CONNECT": "1s"}
        hidden = "import sys; sys.modules['distributed'] = None; from tsearch.web.__main__ import main; main(sys.argv[1:])"
        with tempfile.TemporaryDirectory() as top:
            for words, scheduler, said in (
                (["-m", "tsearch.web"], "tcp://127.0.0.1:9", "the scheduler tcp://127.0.0.1:9 cannot be reached: "),
                (["-m", "tsearch.web"], "nonsense", "the scheduler nonsense cannot be reached: "),
                (["-c", hidden], address, "a cluster needs the library distributed"),
            ):
                with self.subTest(scheduler=scheduler):
                    port = self.enterContext(free_port())
                    command = [sys.executable, "-B", *words, "--port", str(port), "--cluster", scheduler, top]
                    done = subprocess.run(command, cwd=PACKAGE, env={**os.environ, **late}, capture_output=True, check=False, timeout=SECONDS, text=True)
                    self.assertEqual(done.returncode, 1)
                    self.assertIn(f"tsearch.web: {said}", done.stderr)
                    self.assertNotIn("Traceback", done.stderr)

    def test_the_page_over_a_cluster(self) -> None:
        with serving("--cluster", address, "--shards", "2") as server:
            mains = [("one", "src/main.c", 1, "int main(void)"), ("two", "src/main.c", 1, "int main(int count)")]
            self.assertEqual(server.hits("int main"), mains)
            rows = server.find("return", name="util", context=1)
            self.assertEqual([hit["line"] for hit in rows[1]["hits"]], [2, 3, 4])
            self.assertEqual(rows[1]["hits"][1]["parts"], ["    ", "return", " x + 1; // <b>caller</b>"])
            self.assertEqual((server.find("many", max=7)[-1]["lines"], server.find("many", max=7)[-1]["more"]), (7, True))
            self.assertEqual(server.find("a(b"), [{"refused": "group not closed", "offset": 1, "in": "pattern"}])
            # a file as it was, and as it is
            head, path = server.find("int main", repository="one")[0], server.top / "one/src/main.c"
            path.write_bytes(b"int other(void);\n")
            until(lambda: server.hits("int other"))
            status, body, _ = server.get(f"/api/file?repository=one&life={head['life']}&version={head['version']}&name=src/main.c")
            self.assertEqual((status, json.loads(body)["lines"][0]), (200, "int main(void)"))
            self.assertIn(b'tsearch_documents{repository="two"} %d\n' % (len(DOCUMENTS["two"]) - 1), server.get("/metrics")[1])  # one is binary


if __name__ == "__main__":
    unittest.main()
