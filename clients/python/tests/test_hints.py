"""Hints that folders may have changed: one observer for all, and what is said where there are none."""

from __future__ import annotations

import asyncio
import collections
import contextlib
import os
import pathlib
import shutil
import tempfile
import threading
import unittest
import unittest.mock

from helpers import until
from made import Made
from serving import serving_in
from test_host import NO_REASON, REASON, Host

from tsearch import watching


class Hints(unittest.TestCase):
    def setUp(self) -> None:
        self.top = pathlib.Path(self.enterContext(tempfile.TemporaryDirectory()))
        self.told: collections.Counter[str] = collections.Counter()
        self.stack = self.enterContext(contextlib.ExitStack())

    def watch(self, name: str, of_git: bool = False) -> watching.Hints:
        folder = self.top / name
        folder.mkdir(parents=True, exist_ok=True)
        return self.stack.enter_context(watching.hints([os.fsencode(folder)], lambda: self.told.update([name]), of_git))

    def write(self, name: str) -> None:
        path = self.top / name
        path.parent.mkdir(parents=True, exist_ok=True)
        path.write_text("x\n")

    def test_more_folders_than_the_system_has_observers(self) -> None:
        """Each is told of its own changes, by one thread; and nothing is left of it."""
        threads, files = threading.active_count(), len(os.listdir("/proc/self/fd"))
        for number in range(300):
            self.assertEqual(self.watch(f"r{number}").fault, "")
        self.assertEqual(threading.active_count(), threads + 1)
        for number in range(0, 300, 7):
            self.write(f"r{number}/deep/er/file")
        wanted = {f"r{number}" for number in range(0, 300, 7)}
        until(lambda: self.told.keys() == wanted)
        # what is in folders that came later
        until(lambda: self.is_told("r7", "deep/er/file"))
        self.assertEqual(self.told.keys(), wanted)
        self.stack.close()
        self.assertEqual((threading.active_count(), len(os.listdir("/proc/self/fd"))), (threads, files))

    def is_told(self, name: str, path: str) -> bool:
        """Whether a change is told; it is made again and again, as the folder may be watched a little later."""
        before = self.told[name]
        self.write(f"{name}/{path}")
        with contextlib.suppress(AssertionError):
            until(lambda: self.told[name] > before, 0.5)
        return self.told[name] > before

    def test_what_is_told(self) -> None:
        """Of a tree all but git's own folder, and of git's own its names and no objects; one who leaves is told no more."""
        self.watch("tree")
        self.write("tree/.git/x")
        self.write("tree/a/.git/x")
        for part in "refs/heads/a", "objects/12":
            (self.top / "git" / part).mkdir(parents=True)
        self.watch("git", of_git=True)
        until(lambda: self.is_told("git", "refs/heads/a/b"))
        until(lambda: self.is_told("git", "packed-refs"))
        # twice: what is told of others together with the first one is told by then
        until(lambda: self.is_told("tree", "a/b"))
        until(lambda: self.is_told("tree", "a/b"))
        before = self.told["git"]
        self.write("git/objects/12/34")
        until(lambda: self.is_told("tree", "a/c"))  # what came before is told by then
        self.assertEqual(self.told["git"], before)
        with watching.hints([os.fsencode(self.top / "tree")], lambda: self.told.update(["other"])):
            until(lambda: self.is_told("tree", "a/d"))
            until(lambda: self.told["other"])
        # what was being told as it left
        until(lambda: self.is_told("tree", "a/e"))
        other = self.told["other"]
        until(lambda: self.is_told("tree", "a/e"))
        self.assertEqual(self.told["other"], other)
        shutil.rmtree(self.top / "tree")
        self.write("tree/a")

    def test_one_who_has_too_many(self) -> None:
        """It is told so, and the others have their hints."""
        for number in range(50):
            (self.top / f"many/{number}").mkdir(parents=True)
        with unittest.mock.patch.object(watching, "_most_of_one", lambda: 40):
            many = self.watch("many")
            few = self.watch("few")
        self.assertFalse(many)
        self.assertEqual((many.fault, few.fault), ("it has more than 40 folders, which are the share of one", ""))
        until(lambda: self.is_told("few", "a"))


@unittest.skipUnless(NO_REASON, REASON)
class Told(Host):
    def test_pushes_to_many_repositories(self) -> None:
        """They are found without a look by itself, in the last one too, and nothing is said."""
        rows = []
        for number in range(80):
            shutil.copytree(self.made.path, self.top / f"r{number}.git")
            rows.append(f'[[repository]]\npath = "r{number}.git"\n')
        (self.top / "host.toml").write_text("".join(rows))
        names = [f"r{number}" for number in range(80)]
        server = self.enterContext(serving_in(self.top, "--look", "1000", "--settings", str(self.top / "host.toml"), count=80, names=names))
        self.assertNotIn("no_hints", server.get("/api/status")[1].decode())
        self.assertLess(len(os.listdir(f"/proc/{server.pid}/task")), 40)
        for number in 0, 40, 79:
            made = Made(self.top / f"r{number}.git")
            made.files["main"] = {}
            made.commit("main", {b"new.c": b"int pushed;\n"})
        until(lambda: [row[0] for row in server.hits("int pushed")] == ["r0", "r40", "r79"])
        self.assertEqual(server.log.count("seen late"), 0)

    def test_where_there_are_none(self) -> None:
        """It is said once, and of each where it is asked for."""
        from tsearch.web.hinting import Hinting
        from tsearch.web.server import Server as Application
        from tsearch.web.settings import Settings

        said: list[str] = []

        class Some:
            """In place of a repository."""

            def __init__(self, name: str) -> None:
                self.name, self.roots, self.served = name, [b"/"], self
                self.revisions, self.hints = (), 0

            def hint(self) -> None:
                self.hints += 1

        async def made() -> list[str]:
            application = Application(Settings(served=()), said.append)
            some = [Hinting(Some(name), application._say_unwatched) for name in "abc"]
            await asyncio.gather(*[one._task for one in some])
            faults = [one.fault for one in some]
            for one in some:
                await one.end()
            return faults

        def refused(_self: object) -> None:
            raise watching.Unwatched("the system has no observer more (fs.inotify.max_user_instances)")

        with unittest.mock.patch.object(watching.Observer, "__init__", refused):
            faults = asyncio.run(made())
        self.assertEqual(faults, ["the system has no observer more (fs.inotify.max_user_instances)"] * 3)
        self.assertEqual(len(said), 1)
        self.assertIn("changes are seen late, by a look every 5 seconds", said[0])


if __name__ == "__main__":
    unittest.main()
