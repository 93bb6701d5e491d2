"""What is taken of a repository at most, whatever is pushed, and that a large one holds up no other."""

import asyncio
import importlib.util
import json
import os
import pathlib
import shutil
import signal
import tempfile
import threading
import unittest
import unittest.mock

from helpers import SECONDS, until
from made import Made
from serving import Server, serving_in

import tsearch
from tsearch import aio, git
from tsearch.bounds import Bounds, has_longer_line
from tsearch.errors import Error

HAS_GIT = shutil.which("git")
HAS_PAGE = HAS_GIT and importlib.util.find_spec("aiohttp")


class Lines(unittest.TestCase):
    def test_longer_lines(self) -> None:
        for body in b"", b"\n", b"ab\n", b"abc", b"\nabc\n", b"ab\nab\nabcd\nab", b"ab\n" * 10 + b"abc":
            for most in range(1, 6):
                self.assertEqual(has_longer_line(body, most), max(map(len, body.split(b"\n"))) > most, (body, most))


@unittest.skipUnless(HAS_GIT, "the command git is missing")
class Taken(unittest.TestCase):
    def setUp(self) -> None:
        self.top = pathlib.Path(self.enterContext(tempfile.TemporaryDirectory()))
        self.made = Made(self.top / "made.git")

    def objects(self, *wanted: str, **bounds: int) -> git.Objects:
        return git.Objects(git.Store(self.made.path), wanted or ("main",), copies=True, bounds=Bounds(**bounds))

    def look(self, objects: git.Objects) -> set[bytes]:
        """What a session has after a look, and those that follow it at once."""
        for step in tsearch.folder.steps_of_all(objects):
            self.assertLessEqual(objects._documents + len(objects.left_out), 10_000)
        objects.take_refusals(())
        return {revision.encode() + b":" + path for revision, held in objects.held.items() for path in held}

    def test_what_is_over(self) -> None:
        """It is left out and named with its bound, and comes once there is room."""
        files = {b"%d" % at: b"%d" % at * 50 + b"\n" for at in range(10)}
        self.made.commit("main", {**files, b"long": b"x" * 200 + b"\n", b"wide": b"y" * 80 + b"\n"})
        objects = self.objects(body=150, line=60)
        self.assertEqual(len(self.look(objects)), 10)
        self.assertEqual(objects.left_out, {b"main:long": "over 150 bytes", b"main:wide": "over 60 bytes in a line"})
        for bounds, reason in ({"files": 4}, "over 4 files"), ({"objects": 4}, "over 4 different files"), ({"bytes": 210}, "over 210 bytes of all files"):
            with self.subTest(bounds):
                self.made.commit("main", dict(files), start=None)
                objects = self.objects(**bounds)
                self.assertEqual(self.look(objects), {b"main:%d" % at for at in range(4)})
                self.assertEqual(set(objects.left_out.values()), {reason})
                # others take the place of those that go
                self.made.commit("main", {b"0": None, b"1": None, b"2": None})
                held = self.look(objects)
                self.assertEqual(len(held), 4)
                self.assertIn(b"main:3", held)
                self.assertEqual(objects.totals[0], 4)
                # and all texts are new
                self.made.commit("main", {b"%d" % at: b"%d" % at * 49 + b"!\n" for at in range(3, 7)})
                self.assertEqual(len(self.look(objects)), 4)
                self.made.commit("main", {b"%d" % at: None for at in range(6, 10)})
                self.assertEqual((len(self.look(objects)), objects.left_out), (3, {}))

    def test_nothing_is_read_that_is_over(self) -> None:
        """Of a small pack with large texts."""
        self.made.commit("main", {b"%02d" % at: b"%d " % at + b"text\n" * 50_000 for at in range(40)})
        read: list[int] = []
        whole = git.bodies_of

        def counted(begun, wanted: list[bytes], seconds: float):
            for number, body in whole(begun, wanted, seconds):
                read.append(len(body))
                yield number, body

        with unittest.mock.patch.object(git, "bodies_of", counted):
            self.assertEqual(len(self.look(self.objects(bytes=1_000_000))), 3)
        self.assertLess(sum(read), 1_000_000)

    def test_many_files_of_few_trees(self) -> None:
        """Each folder has ten times the next one: a listing ends with the bound."""
        number = self.made.git("hash-object", "-w", "--stdin", stdin=b"int x;\n")
        tree = self.made.git("mktree", stdin="".join(f"100644 blob {number}\t{at}\n" for at in range(10)).encode())
        for _ in range(9):
            tree = self.made.git("mktree", stdin="".join(f"040000 tree {tree}\t{at}\n" for at in range(10)).encode())
        commit = self.made.git("commit-tree", "-m", "c", tree)
        self.made.git("update-ref", "refs/heads/main", commit)
        objects = self.objects(files=500)
        self.assertEqual((len(self.look(objects)), objects.left_out), (500, {b"main:": "over 500 files"}))

    def test_many_branches(self) -> None:
        """The first ones are served, the others named; and git is not started for each."""
        commit = self.made.commit("main", {b"a": b"int x;\n", b"b": b"int y;\n"})
        self.made.git("update-ref", "--stdin", stdin=b"".join(b"create refs/heads/b%03d %s\n" % (at, commit.encode()) for at in range(300)))
        self.made.commit("b298", {b"a": b"int z;\n"}, start="main")
        started: list[object] = []
        begin = git.subprocess.Popen

        def counted(words, *rest, **more):
            started.append(words)
            return begin(words, *rest, **more)

        with unittest.mock.patch.object(git.subprocess, "Popen", counted):
            self.assertEqual(len(self.look(self.objects("main", "b*"))), 602)
        self.assertLess(len(started), 30)
        objects = self.objects("main", "b*", branches=4)
        self.look(objects)
        self.assertEqual(list(objects.commits), ["main", "b000", "b001", "b002"])
        self.assertEqual((objects.left_out[b"b003:"], len(objects.left_out)), ("over 4 branches and tags", 297))
        # a branch that finds no room is left out as a whole
        objects = self.objects("main", "b*", files=7)
        self.look(objects)
        self.assertEqual((list(objects.commits), objects.left_out[b"b002:"]), (["main", "b000", "b001"], "over 7 files"))

    def test_a_branch_that_goes_while_others_come(self) -> None:
        """It is known at once to be gone, though all that come are read first."""
        commit = self.made.commit("main", {b"a": b"int x;\n", b"b": b"int y;\n"})
        self.made.git("update-ref", "--stdin", stdin=b"".join(b"create refs/heads/b%03d %s\n" % (at, commit.encode()) for at in range(600)))
        objects = self.objects("main", "b*")
        list(objects.steps())
        self.assertEqual((objects.has_more, "b001" in objects.named), (True, True))
        self.made.git("update-ref", "-d", "refs/heads/b001")
        list(objects.steps())
        self.assertEqual(("b001" in objects.named, "b001" in objects.commits, len(objects.named)), (False, True, 600))

    def test_objects_that_are_corrupt(self) -> None:
        """They are left out beside those that are over a bound, and once they are mended the bounds are theirs too."""
        self.made.commit("main", {b"a": b"int x;\n", b"b": b"int corrupt;\n", b"c": b"int missing and too long;\n", b"d": b"int too long as well;\n"})
        whole = {}
        for name in "b", "c":
            number = self.made.git("rev-parse", f"main:{name}")
            file = self.made.path / "objects" / number[:2] / number[2:]
            file.chmod(0o644)
            whole[file] = file.read_bytes()
            file.write_bytes(b"no object") if name == "b" else file.unlink()
        objects = self.objects(body=20)
        self.assertEqual(self.look(objects), {b"main:a"})
        self.assertEqual({name[-1:]: reason.split()[0] for name, reason in objects.left_out.items()}, {b"b": "missing", b"c": "missing", b"d": "over"})
        objects._seen = (objects.store.stamp(), objects.wanted)
        for file, data in whole.items():
            file.write_bytes(data)
        self.assertEqual((self.look(objects), objects.left_out), ({b"main:a", b"main:b"}, {b"main:c": "over 20 bytes", b"main:d": "over 20 bytes"}))

    def test_a_large_push_is_shown_at_once(self) -> None:
        """Its texts come before, under names of no revision, and are gone then."""
        text = lambda word, at: b"%s %d " % (word, at) + b"text\n" * 100_000  # noqa: E731

        async def run() -> None:
            async with aio.Session.started() as session:
                revisions = aio.Revisions(session, self.made.path, ["main"], in_parts=True)
                for word in b"one", b"two":
                    self.made.commit("main", {b"%d" % at: text(word, at) for at in range(20)})
                    await revisions.refresh()
                    self.assertEqual({hit.name for hit in await session.find(word)}, {b"main:%d" % at for at in range(20)})
                    self.assertEqual((await session.status()).documents, 20)

        asyncio.run(run())


@unittest.skipUnless(HAS_GIT, "the command git is missing")
class Between(unittest.TestCase):
    def test_a_repository_that_is_read_holds_up_no_other(self) -> None:
        """While git gives the rest of a large one, a push to another one is found, and nothing of a revision that is not whole is told."""
        top = pathlib.Path(self.enterContext(tempfile.TemporaryDirectory()))
        large, small = Made(top / "large.git"), Made(top / "small.git")
        large.commit("main", {b"%d" % at: b"int large%d;\n" % at for at in range(2_000)})
        small.commit("main", {b"a": b"int first;\n"})

        async def run() -> None:
            async with aio.Session.started() as session:
                goes_on, calls = threading.Event(), 0
                slow = aio.Revisions(session, large.path, ["main"], prefix=b"1:", in_parts=True)
                other = aio.Revisions(session, small.path, ["main"], prefix=b"2:", in_parts=True)

                async def in_thread(work, *words):
                    nonlocal calls
                    calls += 1
                    if calls == 4:
                        await asyncio.to_thread(goes_on.wait, SECONDS)
                    return await asyncio.to_thread(work, *words)

                slow.in_thread = in_thread
                task = asyncio.create_task(slow.refresh())
                async with asyncio.timeout(SECONDS / 2):
                    while calls < 4:
                        await asyncio.sleep(0.01)
                    await other.refresh()
                    small.commit("main", {b"a": b"int second;\n"})
                    await other.refresh()
                self.assertEqual(len(await session.find("int second")), 1)
                self.assertEqual((task.done(), slow.objects.commits), (False, {}))
                goes_on.set()
                await task
                self.assertEqual(len(await session.find("int large")), 2_000)

        asyncio.run(run())


def _highest(server: Server) -> tuple[int, int]:
    """The most bytes of memory that the page and its program have had."""
    found = (pathlib.Path(f"/proc/{pid}/status").read_text() for pid in (server.pid, server.programs()[0]))
    page, program = (int(text.partition("VmHWM:")[2].split()[0]) * 1_024 for text in found)
    return page, program


@unittest.skipUnless(HAS_PAGE, "the library aiohttp (python3-aiohttp) or the command git is missing")
class Host(unittest.TestCase):
    def setUp(self) -> None:
        self.top = pathlib.Path(self.enterContext(tempfile.TemporaryDirectory()))
        self.made = Made(self.top / "made.git")

    def serve(self, *words: str, count: int = 1) -> Server:
        return self.enterContext(serving_in(self.top, *words, count=count))

    def told(self, server: Server, name: str) -> dict:
        return next(one for one in json.loads(server.get("/api/status")[1])["repositories"] if one["repository"] == name)

    def test_what_a_host_takes(self) -> None:
        """By default: no line and no file that would take all the time of searches. What is over is named, without paths of the server."""
        self.made.commit("main", {b"line": b"x" * 70_000 + b"\n", b"file": b"text\n" * 900_000, b"a.c": b"int x;\n"})
        server = self.serve(str(self.made.path))
        told = self.told(server, "made")
        self.assertEqual((told["documents"], told["over"]), (1, 2))
        self.assertEqual({one["name"]: one["why"] for one in told["named"]}, {"HEAD:line": "over 65,536 bytes in a line", "HEAD:file": "over 2,097,152 bytes"})
        self.assertNotIn(str(self.top), server.get("/api/status")[1].decode())
        commit = told["revisions"][0]["commit"]
        status, body, _ = server.get(f"/api/file?repository=made&commit={commit}&name=file")
        self.assertEqual((status, json.loads(body)), (410, {"refused": "it cannot be shown as text: over 2,097,152 bytes"}))

    def test_memory(self) -> None:
        """A repository that is many times over its limits costs the page and its program what the limits let it, whatever is asked of it. Most of it
        differs in no more than a number, so that its pack is small."""
        limit, names = 16 << 20, 2_000
        line = b"text that is said again and again, e\n"
        self.made.commit("main", {b"a/bomb%03d" % at: b"%d\n" % at + line * (2_000_000 // len(line)) for at in range(60)})
        self.made.commit("main", {b"z/%03d/" % (at % 500) + b"n" * 200 + b"%05d" % at: b"int n%d;\n" % at for at in range(6_000)})
        self.made.commit("main", {b"feeds": b"\n" * (48 << 20), b"lines": b"".join(b"%07x\n" % at for at in range(500_000))})
        commit = self.made.git("rev-parse", "main")
        self.made.git("update-ref", "--stdin", stdin=b"".join(b"create refs/heads/b%04d %s\n" % (at, commit.encode()) for at in range(3_000)))
        bounds = ["--max-bytes", str(limit), "--max-files", str(names), "--max-branches", "100", "--search-ms", "3000"]
        ordinary = Made(self.top / "ordinary.git")
        ordinary.commit("main", {b"a.c": b"int x;\n"})
        usual = _highest(self.served_by(*bounds, "--revisions", "main", str(ordinary.path)))
        server = self.served_by(*bounds, "--revisions", "main", "--revisions", "b*", str(self.made.path))
        held = self.told(server, "made")
        self.assertGreater(held["over"], 1_000)
        self.assertLessEqual(held["documents"], names)
        asked = ["/api/find?q=e", "/api/find?q=%5E%24&context=5", "/api/count?q=e", "/api/status", f"/api/file?repository=made&commit={commit}&name=a/bomb003&whole=1",
                 f"/api/file?repository=made&commit={commit}&name=a/feeds", "/api/review?repository=made&before=main&after=b0001&q=e", "/api/find?q=(e%7Ct)*x"]  # fmt: skip
        for path in asked * 2:
            self.assertIn(server.get(path)[0], (200, 400, 404, 410, 503), path)
        self.made.commit("main", {b"a/bomb%03d" % at: b"%d\n" % (at + 7) + line * (2_000_000 // len(line)) for at in range(60)})
        until(lambda: self.told(server, "made")["revisions"][0]["commit"] == self.made.git("rev-parse", "main"))
        page, program = (most - before for most, before in zip(_highest(server), usual))
        print(f"over an ordinary repository: page {page / 2**20:.0f} MiB, program {program / 2**20:.0f} MiB, of {limit / 2**20:.0f} MiB that are taken", flush=True)
        self.assertLess(program, 5 * limit)
        self.assertLess(page, 5 * limit)

    def served_by(self, *words: str) -> Server:
        top = self.top / f"page-{len(list(self.top.iterdir()))}"
        top.mkdir()
        return self.enterContext(serving_in(top, *words, count=1))

    def test_settings(self) -> None:
        """For all, for one, and as they change."""
        other = Made(self.top / "other.git")
        for made in self.made, other:
            made.commit("main", {b"%d" % at: b"int x%d;\n" % at for at in range(10)})
        file = self.top / "host.toml"
        text = '[limits]\nfiles = 5\n[[repository]]\npath = "made.git"\n[[repository]]\npath = "other.git"\n[repository.limits]\nfiles = 7\nbody = 1000\n'
        file.write_text(text)
        server = self.serve("--max-files", "3", "--settings", str(file), count=2)
        self.assertEqual([self.told(server, name)["documents"] for name in ("made", "other")], [5, 7])
        self.assertEqual(self.told(server, "made")["named"], [{"name": "HEAD:", "why": "over 5 files"}])
        file.write_text(text.replace("files = 7", "files = 8"))
        os.kill(server.pid, signal.SIGHUP)
        until(lambda: [self.told(server, name)["documents"] for name in ("made", "other")] == [5, 8])

    def test_settings_with_a_fault(self) -> None:
        from tsearch.web.settings import read_served

        file = self.top / "host.toml"
        for limits, fault in {
            "[limits]\nfile = 1\n": "limits: the keys are body, line, bytes, files, branches, objects",
            "[limits]\nfiles = 0\n": "limits: files is no number from 1 to", '[limits]\nbody = "1"\n': "body is no number from 1 to 67108864",
        }.items():  # fmt: skip
            file.write_text(limits)
            with self.assertRaisesRegex(Error, fault):
                read_served(str(file))
        # that of one entry is its own
        file.write_text('[[repository]]\npath = "made.git"\nlimits = 3\n')
        self.assertIn("repository 1, limits: the keys are", read_served(str(file))[0].fault)


if __name__ == "__main__":
    unittest.main()
