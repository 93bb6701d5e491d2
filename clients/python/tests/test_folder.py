"""Folders that are kept in sessions: git and walks, files that change, and what is left out."""

import asyncio
import os
import pathlib
import shutil
import signal
import subprocess
import tempfile
import threading
import time
import tracemalloc
import types
import unittest
import unittest.mock

from helpers import SECONDS, hits_of, plain, stopped, until

import tsearch
from tsearch import aio
from tsearch.folder import Files
from tsearch.watching import hints


def git(folder: pathlib.Path, *words: str) -> None:
    identity = ["-c", "user.name=a", "-c", "user.email=a@b"]
    subprocess.run(["git", "-C", folder, *identity, *words], check=True, capture_output=True)


class Folders(unittest.TestCase):
    def setUp(self) -> None:
        self.top = pathlib.Path(self.enterContext(tempfile.TemporaryDirectory()))
        self.session = self.enterContext(tsearch.Session())

    def write(self, name: str | bytes, body: bytes) -> None:
        path = pathlib.Path(os.fsdecode(os.path.join(os.fsencode(self.top), os.fsencode(name))))
        path.parent.mkdir(parents=True, exist_ok=True)
        path.write_bytes(body)

    def names(self, pattern: str = "") -> set[bytes]:
        return set(self.session.find(pattern, names_only=True).names())

    def test_a_walk(self) -> None:
        names = [b"a.txt", b"sub/deep/b c:d%.txt", b"caf\xe9", b"line\nfeed", b"-x", b".hidden"]
        for name in names:
            self.write(name, b"hello\n")
        self.write(".git/index", b"hello\n")
        self.write("empty", b"")
        os.symlink("a.txt", self.top / "link")
        os.symlink("sub", self.top / "folder-link")
        os.mkfifo(self.top / "fifo")
        folder = tsearch.Folder(self.session, self.top)
        refreshed = folder.refresh()
        self.assertEqual((refreshed.put, refreshed.removed, refreshed.left_out), (7, 0, []))
        self.assertEqual(self.names("hello"), set(names))
        again = folder.refresh()
        self.assertEqual((again.put, again.removed, again.published), (0, 0, None))

    def test_what_is_left_out_is_named_once(self) -> None:
        self.write("binary", b"x\0y\n")
        self.write("long", b"")
        os.truncate(self.top / "long", 67_108_865)
        self.write("just", b"x" * 2_000_000 + b"\n" + b"x" * 2_000_000)
        name = "/".join([" " * 200] * 7)
        self.write(name, b"x\n")
        folder = tsearch.Folder(self.session, self.top)
        wanted = {b"binary": "binary", b"long": "body too long", name.encode(): "name too long"}
        self.assertEqual(dict(folder.refresh().left_out), wanted)
        self.assertEqual(self.names(), {b"just"})
        self.assertEqual(folder.refresh().left_out, [])
        self.assertEqual(folder.left_out, wanted)
        self.write("binary", b"text now\n")
        self.assertEqual(folder.refresh().put, 1)
        self.write("binary", b"\0")
        self.assertEqual(folder.refresh().left_out, [(b"binary", "binary")])
        self.assertEqual(self.names(), {b"just"})

    def test_changes(self) -> None:
        folder = tsearch.Folder(self.session, self.top)
        documents: dict[bytes, bytes] = {}
        for step in range(12):
            for name in "a", "b", "c/d":
                if (step + len(name)) % 3:
                    documents[name.encode()] = b"%s %d\n" % (name.encode(), step)
                    self.write(name, documents[name.encode()])
                elif documents.pop(name.encode(), None):
                    (self.top / name).unlink()
            folder.refresh()
            self.assertEqual(plain(self.session.find("")), hits_of(documents, ""))

    def test_changes_within_a_tick_of_the_clock(self) -> None:
        """A file that is written again at once, with a body of the same length, has the same stamps. It is found all the same."""
        folder = tsearch.Folder(self.session, self.top)
        path = self.top / "a"
        read_state = os.lstat
        for number in range(20):
            # ahead of the clock, so that it is late enough however slow the test is
            now = time.time_ns() + 10**12

            def state_now(name: bytes, now: int = now) -> object:
                state = read_state(name)
                fields = {field: getattr(state, field) for field in ("st_mode", "st_size", "st_ino", "st_nlink")}
                return types.SimpleNamespace(st_mtime_ns=now, st_ctime_ns=now, **fields)

            with unittest.mock.patch("tsearch.listing.os.lstat", state_now):
                path.write_bytes(b"%04d\n" % number)
                folder.refresh()
                path.write_bytes(b"%04d\n" % (number + 5_000))
                folder.refresh()
                self.assertEqual([hit.text for hit in self.session.find("")], [b"%04d" % (number + 5_000)])
                self.assertEqual(folder.refresh().put, 0)

    def test_a_file_that_has_not_changed_is_not_read_again(self) -> None:
        """Once its times would show the next change, neither after it was new nor after it has changed."""
        folder = tsearch.Folder(self.session, self.top)
        path, opened, open_file = os.fsencode(self.top / "a"), [], os.open

        def note(name: bytes, *words: int) -> int:
            if name == path:
                opened.append(name)
            return open_file(name, *words)

        for body, pause in (b"one\n", 0), (b"two\n", 0), (b"three\n", 0.2), (b"four\n", 0.2):
            self.write("a", body)
            time.sleep(pause)
            self.assertEqual(folder.refresh().put, 1)
            time.sleep(0.2)
            folder.refresh()
            with unittest.mock.patch("tsearch.folder.os.open", note):
                again = folder.refresh()
            self.assertEqual((again.put, again.published, opened), (0, None, []))

    def test_kinds_that_change(self) -> None:
        folder = tsearch.Folder(self.session, self.top)
        self.write("a", b"file\n")
        folder.refresh()
        (self.top / "a").unlink()
        self.write("a/b", b"inside\n")
        folder.refresh()
        self.assertEqual(self.names(), {b"a/b"})
        shutil.rmtree(self.top / "a")
        os.symlink("/etc/passwd", self.top / "a")
        folder.refresh()
        self.assertEqual(self.names(), set())
        shutil.rmtree(self.top)
        self.assertEqual([one.reason for one in folder.refresh().left_out], ["No such file or directory"])
        self.top.mkdir()
        self.write("back", b"x\n")
        self.assertEqual((folder.refresh().put, folder.left_out), (1, {}))

    def test_a_file_that_may_not_be_read(self) -> None:
        self.write("a", b"x\n")
        self.write("b", b"x\n")
        folder = tsearch.Folder(self.session, self.top)
        folder.refresh()
        self.write("a", b"y\n")
        open_file = os.open

        def refuse(path: bytes, *words: int) -> int:
            if path == os.fsencode(self.top / "a"):
                raise PermissionError(13, "Permission denied")
            return open_file(path, *words)

        # root may read all
        with unittest.mock.patch("tsearch.folder.os.open", refuse):
            self.assertEqual(folder.refresh().left_out, [(b"a", "Permission denied")])
            self.assertEqual(self.names(), {b"b"})
            self.assertEqual(folder.refresh().left_out, [])
        self.assertEqual((folder.refresh().put, self.names()), (1, {b"a", b"b"}))

    def test_a_refusal_by_the_program_removes_the_old_body(self) -> None:
        with tsearch.Session(max_commands=4) as session:
            folder = tsearch.Folder(session, self.top)
            for name in "a", "b", "c", "d":
                self.write(name, b"one\n")
            folder.refresh()
            self.write("e", b"one\n")
            self.assertEqual(folder.refresh().left_out, [(b"e", "full")])

    def test_prefixes_share_a_session(self) -> None:
        self.write("one/a", b"x\n")
        self.write("two/a", b"x\n")
        folders = [tsearch.Folder(self.session, self.top / name, prefix=f"{name}:") for name in ("one", "two")]
        for folder in folders:
            folder.refresh()
        self.assertEqual(self.names(), {b"one:a", b"two:a"})
        (self.top / "one/a").unlink()
        for folder in folders:
            folder.refresh()
        self.assertEqual(self.names(), {b"two:a"})

    def test_progress(self) -> None:
        for number in range(5):
            self.write(f"f{number}", b"x\n")
        told: list[tuple[int, int]] = []

        def note(done: int, of: int) -> None:
            told.append((done, of))

        tsearch.Folder(self.session, self.top, progress=note, loads=False).refresh()
        self.assertEqual(told, [(0, 5), (1, 5), (2, 5), (3, 5), (4, 5), (5, 5)])
        for number in range(1_000):
            self.write(f"f{number}", b"x\n")
        told.clear()
        time.sleep(0.2)  # what has just been written is put
        with tsearch.Session() as session:
            tsearch.Folder(session, self.top, progress=note).refresh()
        self.assertEqual((told, told[0], told[-1]), (sorted(told), (0, 1_000), (1_000, 1_000)))
        # what the program has loaded, and not what was sent to it
        self.assertIn((256, 1_000), told)

    def test_a_file_that_changes_before_it_is_loaded(self) -> None:
        """The next look finds it, whatever the program has read."""
        for name in "a", "b", "c":
            self.write(name, b"one\n")
        time.sleep(0.2)
        self.enterContext(unittest.mock.patch("tsearch.folder._LEAST_LOADED", 1))
        folder = tsearch.Folder(self.session, self.top)
        with stopped(self.session.pid):
            first = threading.Thread(target=folder.refresh)
            first.start()
            until(lambda: len(folder._files.held) == 3)
            self.write("a", b"two\n")
            (self.top / "b").unlink()
            os.mkfifo(self.top / "b")
            os.rename(self.top / "c", self.top / "d")
        first.join(SECONDS)
        folder.refresh()
        self.assertEqual(plain(self.session.find("")), [(b"a", 1, b"two"), (b"d", 1, b"one")])
        self.assertEqual((folder.left_out, folder.refresh().published), ({}, None))

    def test_marks_of_byte_orders(self) -> None:
        """They are no part of a text, and UTF-16 is read."""
        bodies = {"a": b"\xef\xbb\xbfone\n\xef\xbb\xbftwo", "b": "\ufefffü\n\U0001f600".encode("utf-16-le"), "c": "\ufeffx\n".encode("utf-16-be")}
        bodies |= {"d": b"\xef\xbb\xbf", "e": b"\xff\xfe\0\xd8x\0", "f": "x".encode("utf-32"), "g": b"\xef\xbb"}
        wanted = [("a", 1, "one"), ("a", 2, "\ufefftwo"), ("b", 1, "fü"), ("b", 2, "\U0001f600"), ("c", 1, "x"), ("e", 1, "\ufffdx"), ("g", 1, "\ufffd")]
        for name, body in bodies.items():
            self.write(name, body)
        time.sleep(0.2)
        self.enterContext(unittest.mock.patch("tsearch.folder._LEAST_LOADED", 1))
        for loads in True, False:
            with tsearch.Session() as session:
                folder = tsearch.Folder(session, self.top, loads=loads)
                self.assertEqual(folder.refresh().left_out, [(b"f", "binary")])
                self.assertEqual(list(session.find("").texts()), wanted)

    def test_large_binary_files_are_not_read(self) -> None:
        """But for how they begin, neither to be left out nor to tell how much text there is."""
        self.write("video", b"\0" * 100)
        os.truncate(self.top / "video", 60_000_000)
        self.write("text", b"x\n" * 1_000_000)
        self.write("late", b"x\n" * 10_000 + b"\0")
        files = Files(self.top)
        read, sizes = os.read, []
        with unittest.mock.patch("tsearch.folder.os.read", lambda *words: sizes.append(words[1]) or read(*words)):
            self.assertEqual([step.name for step in files.steps()], [b"text"])
        self.assertEqual((files.text_bytes, set(sizes)), (2_020_001, {8_192}))
        self.assertEqual(files.left_out, {b"late": "binary", b"video": "binary"})

    def test_what_is_new_and_refused_is_not_removed(self) -> None:
        """There is nothing to remove, so there is no second publish."""
        self.write("a", b"x\n")
        self.write("b", b"\0")
        time.sleep(0.2)
        self.enterContext(unittest.mock.patch("tsearch.folder._LEAST_LOADED", 1))
        folder = tsearch.Folder(self.session, self.top)
        with unittest.mock.patch.object(self.session, "remove") as remove:
            self.assertEqual(folder.refresh().left_out, [(b"b", "binary")])
        self.assertEqual(remove.call_count, 0)

    def test_many_changes_are_loaded(self) -> None:
        """As they are put, and what can be no document any more is removed."""
        for number in range(300):
            self.write(f"f{number}", b"one\n")
        time.sleep(0.2)
        folder = tsearch.Folder(self.session, self.top)
        folder.refresh()
        for number in range(300):
            self.write(f"f{number}", b"\0" if number % 50 == 0 else b"two\n")
        time.sleep(0.2)
        with unittest.mock.patch.object(self.session, "put") as put:
            folder.refresh()
        self.assertEqual(put.call_count, 0)
        self.assertEqual((len(self.names("two")), self.names("one"), set(folder.left_out.values())), (294, set(), {"binary"}))

    def test_restart(self) -> None:
        self.write("a", b"one\n")
        folder = tsearch.Folder(self.session, self.top)
        folder.refresh()
        self.write("b", b"two\n")
        os.kill(self.session.pid, signal.SIGKILL)
        self.assertRaises(tsearch.Ended, self.refresh_until_ended, folder)
        self.assertEqual(folder.restart().documents, 2)
        self.assertIsNone(folder.restart())
        self.assertEqual(self.names(), {b"a", b"b"})
        (self.top / "a").unlink()
        folder.refresh()
        self.assertEqual(self.names(), {b"b"})

    def refresh_until_ended(self, folder: tsearch.Folder) -> None:
        def is_ended() -> bool:
            folder.refresh()
            self.session.status()
            return False

        until(is_ended)

    def test_hints(self) -> None:
        told = []
        with hints([os.fsencode(self.top)], lambda: told.append(1)) as has_hints:
            self.assertEqual((bool(has_hints), has_hints.fault), (True, ""))
            self.write("a/b", b"x\n")
            until(lambda: told)


@unittest.skipUnless(shutil.which("git"), "there is no command git")
class Repositories(Folders):
    """All of the above in a git repository too, and what is of repositories alone."""

    def setUp(self) -> None:
        super().setUp()
        git(self.top, "init", "-q")

    # A walk takes what is named .git in another place, and these make folders anew.
    test_a_walk = test_kinds_that_change = None  # type: ignore[assignment]

    def test_ignored_files(self) -> None:
        self.write(".gitignore", b"*.o\nbuild/\n")
        for name in "a.c", "a.o", "build/x", "sub/b.c", "sub/.gitignore", b"caf\xe9", "new\nline":
            self.write(name, b"c.c\n")
        os.symlink("a.c", self.top / "link")
        os.symlink("/etc", self.top / "folder-link")
        git(self.top, "add", "a.c", ".gitignore", "link")
        self.write("a.c", b"changed\n")
        git(self.top, "add", "-f", "a.o")
        folder = tsearch.Folder(self.session, self.top)
        self.assertEqual(folder.refresh().left_out, [])
        wanted = {b".gitignore", b"a.c", b"a.o", b"sub/b.c", b"sub/.gitignore", b"caf\xe9", b"new\nline"}
        self.assertEqual(self.names(), wanted)
        # of a folder below it, and of one that is ignored
        with tsearch.Session() as session:
            tsearch.Folder(session, self.top / "sub").refresh()
            self.assertEqual(set(session.find("", names_only=True).names()), {b"b.c", b".gitignore"})
        with tsearch.Session() as session:
            tsearch.Folder(session, self.top / "build").refresh()
            self.assertEqual(set(session.find("", names_only=True).names()), {b"x"})
        with tsearch.Session() as session:
            tsearch.Folder(session, self.top, git=False).refresh()
            self.assertEqual(set(session.find("", names_only=True).names()), wanted | {b"build/x"})

    def test_repositories_inside(self) -> None:
        self.write("a", b"x\n")
        inner = self.top / "inner"
        self.write("inner/b", b"x\n")
        self.write("inner/.gitignore", b"ignored\n")
        self.write("inner/ignored", b"x\n")
        git(inner, "init", "-q")
        git(inner, "add", "b")
        git(inner, "commit", "-q", "-m", "b")
        folder = tsearch.Folder(self.session, self.top)
        folder.refresh()
        self.assertEqual(self.names("x"), {b"a", b"inner/b"})
        git(self.top, "add", "inner")  # as a submodule is
        folder.refresh()
        self.assertEqual(self.names("x"), {b"a", b"inner/b"})

    def test_no_command_of_the_repository_is_run(self) -> None:
        self.write("a", b"x\n")
        hook = self.top / "hook"
        hook.write_text(f"#!/bin/sh\ntouch '{self.top}/run'\n")
        hook.chmod(0o700)
        git(self.top, "config", "core.fsmonitor", str(hook))
        tsearch.Folder(self.session, self.top).refresh()
        self.assertFalse((self.top / "run").exists())

    def test_git_that_fails(self) -> None:
        self.write("a", b"x\n")
        self.write(".gitignore", b"big\n")
        self.write("big", b"x\n")
        folder = tsearch.Folder(self.session, self.top)
        folder.refresh()
        os.rename(self.top / ".git", self.top / "moved")
        # not what git ignored before
        left_out = folder.refresh().left_out
        self.assertTrue(left_out and "not a git repository" in left_out[0].reason, left_out)
        self.assertNotIn(b"big", self.names())


class Tasks(unittest.IsolatedAsyncioTestCase):
    async def test_few_files_are_in_memory_at_a_time(self) -> None:
        body = b"some text\n" * 100_000
        with tempfile.TemporaryDirectory() as name:
            for number in range(60):
                pathlib.Path(name, f"f{number}").write_bytes(body)
            async with aio.Session.started() as session, asyncio.timeout(SECONDS):
                folder = aio.Folder(session, name, loads=False)
                tracemalloc.start()
                self.addCleanup(tracemalloc.stop)
                before, _ = tracemalloc.get_traced_memory()
                refreshed = await folder.refresh()
                most = tracemalloc.get_traced_memory()[1] - before
            self.assertEqual((refreshed.put, refreshed.published.bytes), (60, 60 * len(body)))
            # a few mebibytes are read ahead, and as many are being sent
            self.assertLess(most, 30 << 20)

    async def test_a_folder_for_asyncio(self) -> None:
        with tempfile.TemporaryDirectory() as name:
            top = pathlib.Path(name)
            for number in range(600):
                (top / f"f{number}").write_bytes(b"one %d\n" % number)
            changing = []

            async def before_change(changed: bytes) -> None:
                changing.append((changed, (await session.find("", names=f"^{changed.decode()}$")).hits()[0].text))

            async with aio.Session.started() as session, asyncio.timeout(SECONDS):
                folder = aio.Folder(session, top, before_change=before_change)
                self.assertEqual((await folder.refresh()).put, 600)
                self.assertEqual(changing, [])
                (top / "f7").write_bytes(b"two\n")
                (top / "f8").unlink()
                refreshed = await folder.refresh()
                self.assertEqual((refreshed.put, refreshed.removed), (1, 1))
                self.assertCountEqual(changing, [(b"f7", b"one 7"), (b"f8", b"one 8")])
                self.assertEqual(len(await folder.find("o")), 599)
                session.kill()
                with self.assertRaises(tsearch.Ended):
                    await session.sync()
                    await session.find("x")
                while not await folder.restart():
                    await asyncio.sleep(0.01)
                self.assertEqual(len(await folder.find("o")), 599)


if __name__ == "__main__":
    unittest.main()
