"""Revisions of repositories that git has made."""

from __future__ import annotations

import asyncio
import contextlib
import os
import pathlib
import random
import shutil
import tempfile
import time
import unittest
import unittest.mock

from helpers import SECONDS, TOP, found_in, until  # puts the package on the path of modules
from made import Made

import tsearch
from tsearch import aio, git

NO_UTF8 = b"caf\xe9 \xff/a%b\n.txt"
FILES = {
    b"README": b"one of them\n",
    b"src/main.c": b"int main(void)\n{\n}\n",
    b"src/util.c": b"int util(int x)\n",
    NO_UTF8: b"bytes \xff\xfe here\n",
    b"a b/c.txt": b"a space\n",
}


def named(made: Made, *revisions: str, prefix: bytes = b"") -> dict[bytes, bytes]:
    """The documents of branches, as a session is to have them."""
    return {prefix + revision.encode() + b":" + path: body for revision in revisions for path, body in made.files[revision].items()}


@unittest.skipUnless(shutil.which("git"), "the command git is missing")
class Revisions(unittest.TestCase):
    def setUp(self) -> None:
        self.top = pathlib.Path(self.enterContext(tempfile.TemporaryDirectory()))
        self.made = Made(self.top / "made.git")
        self.session = self.enterContext(tsearch.Session())

    def expect(self, documents: dict[bytes, bytes]) -> None:
        """The session has these documents and no others."""
        self.assertEqual(self.session.status().documents, len(documents))
        for pattern in "", "int", "e":
            self.assertEqual([hit[:3] for hit in self.session.find(pattern)], [row[:3] for row in found_in(documents, pattern)[2]])

    def carry_out(self, step: tsearch.folder.Step) -> None:
        """Sends a step of a look."""
        if step.source is not None:
            self.session.copy_under(step.source, step.name)
        elif step.under:
            self.session.remove_under(step.name)
        elif step.body is None:
            self.session.remove(step.name)
        else:
            self.session.put(step.name, step.body)

    def test_branches_that_move_come_and_go(self) -> None:
        made = self.made
        first = made.commit("main", FILES)
        revisions = git.Revisions(self.session, made.path, ["main", "feature/*"])
        self.assertEqual(revisions.refresh().put, len(FILES))
        self.expect(named(made, "main"))
        self.assertEqual(revisions.commits, {"main": first})
        self.assertEqual(revisions.refresh()[:2], (0, 0))
        # a push costs what it changes
        made.commit("main", {b"src/main.c": b"int main(int count)\n", b"README": None, b"new": b"new\n"})
        self.assertEqual(revisions.refresh()[:2], (2, 1))
        self.expect(named(made, "main"))
        # a branch that comes
        made.commit("feature/x", {b"src/x.c": b"int x;\n"}, start="main")
        made.commit("other", {b"src/x.c": b"int other;\n"}, start="main")
        revisions.refresh()
        self.expect(named(made, "main", "feature/x"))
        # one that goes, with its name in packed-refs
        made.git("pack-refs", "--all")
        self.assertEqual(revisions.refresh()[:2], (0, 0))
        made.git("branch", "-D", "feature/x")
        self.assertEqual(revisions.refresh()[:2], (0, len(made.files["feature/x"])))
        self.expect(named(made, "main"))
        self.assertEqual(list(revisions.commits), ["main"])
        # and comes back
        made.commit("feature/x", {b"back": b"int back;\n"}, start="main")
        revisions.refresh()
        self.expect(named(made, "main", "feature/x"))

    def test_branches_begin_as_copies(self) -> None:
        """Of the first one, with what is left out. Then they cost what they have otherwise."""
        made = self.made
        made.commit("main", {**FILES, b"binary": b"\0", b"other binary": b"\0"})
        made.commit("topic", {b"src/x.c": b"int x;\n", b"README": None, b"binary": b"a text\n", b"src/util.c": b"\0"}, start="main")
        made.commit("same", {b"new": b"int new;\n"}, start="topic")
        # a copy, the files that differ and are no binary ones, and the removals of what is one now, or is gone
        for branches, accepted in (["main", "topic", "same"], 5 + (1 + 2 + 2) + (1 + 3 + 2)), (["topic", "main", "same"], 5 + (1 + 2 + 2) + (1 + 1)):
            with self.subTest(branches), tsearch.Session() as self.session:
                revisions = git.Revisions(self.session, made.path, branches)
                refreshed = revisions.refresh()
                self.assertEqual(refreshed.published.accepted, accepted)
                documents = {name: body for name, body in named(made, *branches).items() if body != b"\0"}
                self.expect(documents)
                left_out = {name: "binary" for name, body in named(made, *branches).items() if body == b"\0"}
                self.assertEqual((revisions.left_out, dict(refreshed.left_out)), (left_out, left_out))
                self.assertEqual(revisions._objects.totals, (len(documents), sum(map(len, documents.values()))))
                self.assertEqual(revisions.refresh()[:2], (0, 0))

    def test_a_branch_that_has_little_of_the_first_one(self) -> None:
        """It is no copy: less would stay than go."""
        made = self.made
        made.commit("main", FILES)
        made.commit("pages", {b"page": b"int page;\n", b"README": FILES[b"README"]})
        made.commit("empty", {b"binary": b"\0"})
        for branches in ["main", "pages", "empty"], ["empty", "main", "pages"]:
            with self.subTest(branches), tsearch.Session() as self.session:
                revisions = git.Revisions(self.session, made.path, branches)
                self.assertEqual(revisions.refresh()[:2], (len(FILES) + 2, 0))
                self.expect(named(made, "main", "pages"))
                self.assertEqual(revisions.left_out, {b"empty:binary": "binary"})

    def test_copies_and_progress(self) -> None:
        """The numbers rise."""
        made = self.made
        made.commit("main", FILES)
        for branch in "one", "two":
            made.commit(branch, {branch.encode(): b"int own;\n", b"README": None}, start="main")
        numbers: list[tuple[int, int]] = []
        revisions = git.Revisions(self.session, made.path, ["main", "*"], progress=lambda done, of: numbers.append((done, of)))
        refreshed = revisions.refresh()
        self.assertEqual(refreshed[:2], (3 * len(FILES) + 2, 2))
        self.assertEqual(numbers, sorted(numbers))
        self.assertEqual(numbers[-1], (3 * len(FILES) + 4, 3 * len(FILES) + 4))
        self.assertTrue(all(done <= of for done, of in numbers), numbers)

    def test_names_that_are_too_long_for_copies(self) -> None:
        """The files of such a branch are put, and those that can be no documents are left out. So they are if the first one's are too long."""
        made = self.made
        made.commit("main", {b"a " * 100: b"int a;\n", b"b": b"int b;\n", b"d": b"int d;\n"})
        branch = "t" * 200
        made.commit(branch, {b"c": b"int c;\n"}, start="main")
        prefix = b"p/" * 1_775
        for branches in ["main", branch], [branch, "main"]:
            with self.subTest(branches[0]), tsearch.Session() as self.session:
                revisions = git.Revisions(self.session, made.path, branches, prefix=prefix)
                self.assertEqual(revisions.refresh().published.refused, ())
                long = branch.encode() + b":" + b"a " * 100
                documents = named(made, *branches, prefix=prefix)
                del documents[prefix + long]
                self.expect(documents)
                self.assertEqual(revisions.left_out, {long: "name too long"})
                self.assertEqual(revisions.refresh()[:2], (0, 0))

    def test_a_copy_that_is_refused(self) -> None:
        """The next look puts its files. So it does if the first branch alone has a name that is too long for the program."""
        made = self.made
        made.commit("main", {b"a" * 200: b"int a;\n", b"b": b"int b;\n", b"d": b"int d;\n"})
        branch = "t" * 200
        made.commit(branch, {b"c": b"int c;\n", b"b": None}, start="main")
        long = branch.encode() + b":" + b"a" * 200
        for branches, refused in (["main", branch], branch.encode() + b":"), ([branch, "main"], long):
            with self.subTest(branches[0]), tsearch.Session(max_name=255) as self.session:
                revisions = git.Revisions(self.session, made.path, branches)
                self.assertIn(refused, [one.name for one in revisions.refresh().published.refused])
                self.assertEqual(list(revisions.commits), branches[:1])
                self.assertEqual(revisions._objects.totals[0], self.session.status().documents)
                revisions.refresh()
                documents = named(made, *branches)
                del documents[long]
                self.expect(documents)
                self.assertEqual(revisions.left_out, {long: "name too long"})
                self.assertEqual(revisions._objects.totals, (len(documents), sum(map(len, documents.values()))))
                self.assertEqual(revisions.refresh()[:2], (0, 0))

    def test_copies_of_what_is_refused(self) -> None:
        """The program refuses a body of the first branch, a new one or one in the place of another, and then each copy of it goes too."""
        made = self.made
        long = b"x" * 20_000 + b"\n"
        made.commit("main", {**FILES, b"src/new:": long})
        made.commit("topic", {b"src/x.c": b"int x;\n"}, start="main")
        with tsearch.Session(max_line=16_384) as self.session:
            revisions = git.Revisions(self.session, made.path, ["main", "*"])
            reason = "line too long"
            self.assertEqual(dict(revisions.refresh().left_out), {b"main:src/new:": reason, b"topic:src/new:": reason})
            made.commit("main", {b"README": long})
            made.commit("same", {}, start="main")
            made.commit("well", {b"README": b"int well;\n"}, start="main")
            self.assertEqual(dict(revisions.refresh().left_out), {b"main:README": reason, b"same:README": reason, b"same:src/new:": reason, b"well:src/new:": reason})
            documents = {name: body for name, body in named(made, "main", "topic", "same", "well").items() if body != long}
            self.expect(documents)
            self.assertEqual(revisions._objects.totals, (len(documents), sum(map(len, documents.values()))))
            self.assertEqual(revisions.refresh()[:2], (0, 0))

    def test_copies_that_are_sent_late(self) -> None:
        """Refusals are taken once they are given and not yet sent. Then the next look puts the files of a copy of what is refused."""
        made = self.made
        long = b"x" * 20_000 + b"\n"
        made.commit("main", {**FILES, b"long": long})
        made.commit("topic", {b"src/x.c": b"int x;\n"}, start="main")
        with tsearch.Session(max_line=16_384) as self.session:
            objects = git.Objects(git.Store(made.path), ["main", "topic"], copies=True)
            steps = list(objects.steps())
            self.assertEqual(objects.take_refusals((), False), [])
            for step in steps:
                self.carry_out(step)
            refused = self.session.publish().refused
            self.assertEqual([one.name for one in refused], [b"main:long"])
            objects.take_refusals(refused)
            self.assertEqual(list(objects.commits), ["main"])
            for step in objects.steps():
                self.carry_out(step)
            refused = self.session.publish().refused
            self.assertEqual([one.name for one in refused], [b"topic:long"])
            self.assertEqual(objects.take_refusals(refused), [b"topic:long"])
            documents = {name: body for name, body in named(made, "main", "topic").items() if body != long}
            self.expect(documents)
            self.assertEqual(objects.left_out, {b"main:long": "line too long", b"topic:long": "line too long"})
            self.assertEqual(objects.totals, (len(documents), sum(map(len, documents.values()))))
            self.assertEqual(list(objects.steps()), [])

    def test_copies_of_a_look_that_fails(self) -> None:
        """After each of its steps. The next one sends what is lacking."""
        made = self.made
        made.commit("main", FILES)
        made.commit("topic", {b"src/x.c": b"int x;\n", b"README": None}, start="main")
        documents = named(made, "main", "topic")
        for count in range(10):
            for is_sent in False, True:
                with self.subTest((count, is_sent)), tsearch.Session() as self.session:
                    objects = git.Objects(git.Store(made.path), ["main", "topic"], copies=True)
                    kept = tsearch.folder.Kept(self.session, objects)
                    kept._begin(self.session.life)
                    steps = objects.steps()
                    for number, step in zip(range(count), steps):
                        if is_sent or number < count - 1:
                            self.carry_out(step)
                    steps.close()
                    kept._is_pending = True
                    kept.refresh()
                    self.expect(documents)
                    self.assertEqual(objects.totals, (len(documents), sum(map(len, documents.values()))))

    def test_renames(self) -> None:
        made = self.made
        made.commit("main", FILES)
        revisions = git.Revisions(self.session, made.path, ["main"])
        revisions.refresh()
        made.commit("main", {b"src/util.c": None, b"lib/util.c": FILES[b"src/util.c"]})
        self.assertEqual(revisions.refresh()[:2], (1, 1))
        self.expect(named(made, "main"))
        # a file in the place of a folder, and a folder in that of a file
        made.commit("main", {b"lib/util.c": None, b"lib": b"int file;\n", b"README": None, b"README/a": b"int a;\n"})
        revisions.refresh()
        self.expect(named(made, "main"))

    def test_history_that_is_written_anew(self) -> None:
        """Also once git has dropped the commits before."""
        made = self.made
        made.commit("main", FILES)
        revisions = git.Revisions(self.session, made.path, ["main"])
        revisions.refresh()
        for is_dropped in False, True:
            made.commit("main", {b"only": b"int only;\n", b"src/util.c": FILES[b"src/util.c"] * (1 + is_dropped)}, start=None)
            if is_dropped:
                made.git("reflog", "expire", "--expire=now", "--all")
                made.git("gc", "-q", "--prune=now")
            refreshed = revisions.refresh()
            self.assertEqual(refreshed.removed, 0 if is_dropped else len(FILES) - 1)
            self.expect(named(made, "main"))

    def test_a_commit_that_git_has_dropped(self) -> None:
        """What the one after it has no longer goes all the same."""
        made = self.made
        made.commit("main", FILES)
        revisions = git.Revisions(self.session, made.path, ["main"])
        revisions.refresh()
        made.commit("main", {b"src/main.c": b"int anew;\n"}, start=None)
        made.git("reflog", "expire", "--expire=now", "--all")
        made.git("gc", "-q", "--prune=now")
        self.assertEqual(revisions.refresh()[:2], (1, len(FILES) - 1))
        self.expect(named(made, "main"))

    def test_totals(self) -> None:
        """How many there are, and their bytes, however often they change: those of the session."""
        made = self.made
        revisions = git.Revisions(self.session, made.path, ["main", "topic"])
        made.commit("topic", {b"README": b"five\n"})
        for changed in FILES, {b"README": b"longer than it was before\n"}, {b"README": b"short\n", b"new": b"new\n"}, {b"src/util.c": None}, {b"new": b"\0"}:
            made.commit("main", changed)
            revisions.refresh()
            bodies = [body for body in named(made, "main", "topic").values() if body != b"\0"]
            status = self.session.status()
            self.assertEqual(revisions._objects.totals, (len(bodies), sum(map(len, bodies))), changed)
            self.assertEqual((status.documents, status.bytes), revisions._objects.totals)

    def test_a_push_by_force(self) -> None:
        """From a clone, into the repository that is served."""
        made = self.made
        made.commit("main", FILES)
        revisions = git.Revisions(self.session, made.path, ["main"])
        revisions.refresh()
        made.git("clone", "-q", str(made.path), str(self.top / "clone"))
        clone = Made(self.top / "clone", is_bare=False)
        clone.files["main"] = dict(FILES)
        clone.commit("main", {b"src/main.c": b"int amended;\n"}, start=None)
        clone.git("push", "-q", "--force", "origin", "main")
        self.assertEqual(revisions.refresh()[:2], (1, len(FILES) - 1))
        self.expect({b"main:src/main.c": b"int amended;\n"})

    def test_an_empty_repository(self) -> None:
        revisions = git.Revisions(self.session, self.made.path)
        self.assertEqual(revisions.refresh()[:2], (0, 0))
        self.assertEqual((revisions.commits, revisions.left_out), ({}, {}))
        self.made.commit("main", FILES)
        revisions.refresh()
        self.expect({name.replace(b"main:", b"HEAD:", 1): body for name, body in named(self.made, "main").items()})
        self.made.git("update-ref", "-d", "refs/heads/main")
        revisions.refresh()
        self.expect({})

    def test_what_is_left_out(self) -> None:
        made = self.made
        other = (
            b"M 120000 inline link\ndata 4\nsrc/\n"
            b"M 160000 0123456789012345678901234567890123456789 module\n"
            b"M 100755 inline run.sh\ndata 9\nint run;\n\n"
        )
        bodies = {b"binary": b"\x89PNG\0", b"x" * 250 + b"/" + b"y" * 250: b"long name\n", b"long": b"x" * 70_000 + b"\n"}
        made.commit("main", {**FILES, **bodies}, other=other)
        revisions = git.Revisions(self.session, made.path, ["main"], prefix="made:")
        refreshed = revisions.refresh()
        wanted = {b"main:binary": "binary", b"main:link": "symbolic link", b"main:module": "submodule"}
        self.assertEqual((dict(refreshed.left_out), revisions.left_out), (wanted, wanted))
        documents = {**named(made, "main", prefix=b"made:"), b"made:main:run.sh": b"int run;\n"}
        del documents[b"made:main:binary"]
        self.expect(documents)
        # each is said once, and no longer once it is a document or gone
        self.assertEqual(revisions.refresh().left_out, [])
        made.commit("main", {b"binary": b"text\n", b"link": None, b"module": None})
        revisions.refresh()
        self.assertEqual(revisions.left_out, {})
        self.expect({**documents, b"made:main:binary": b"text\n"})
        # a document that can be one no longer
        made.commit("main", {b"README": b"\0"})
        self.assertEqual(revisions.refresh().left_out, [(b"main:README", "binary")])
        self.assertEqual([hit.name for hit in self.session.find("", names="README")], [])
        # what the program alone refuses
        with tsearch.Session(max_line=16_384) as session:
            revisions = git.Revisions(session, made.path, ["main"])
            self.assertIn((b"main:long", "line too long"), revisions.refresh().left_out)
            made.commit("main", {b"src/main.c": b"x" * 20_000})
            self.assertEqual(revisions.refresh().left_out, [(b"main:src/main.c", "line too long")])
            self.assertEqual(session.find("int main").hits(), [])

    def spoil(self, made: Made, path: str, how: str) -> pathlib.Path:
        """Has git unable to read a file of main: its object is gone, or other bytes are in its middle. The file of the object."""
        number = made.git("rev-parse", f"main:{path}")
        file = made.path / "objects" / number[:2] / number[2:]
        file.chmod(0o644)
        data = file.read_bytes()
        (self.top / number).write_bytes(data)
        if how == "missing":
            file.unlink()
        else:
            middle = len(data) // 2 if how == "late" else 2
            file.write_bytes(data[:middle] + bytes(byte ^ 0x55 for byte in data[middle : middle + 40]) + data[middle + 40 :])
        return file

    def test_objects_that_git_cannot_read(self) -> None:
        """Each file is left out by its own name, and the others are found; and once it is mended, so is it."""
        source = random.Random(1)
        bodies = {b"f%02d" % number: b"int f%d; " % number + source.randbytes(3_000 + number).hex().encode() + b"\n" for number in range(40)}
        made = Made(self.top / "bad.git")
        made.commit("main", bodies)
        made.commit("topic", {b"f07": b"int other;\n"}, start="main")
        spoilt = {"f03": "missing", "f07": "late", "f08": "late", "f20": "early", "f39": "late"}
        files = [self.spoil(made, path, how) for path, how in spoilt.items()]
        reasons = {"missing": "missing in the repository", "early": "missing in the repository", "late": "corrupt in the repository"}
        revisions = git.Revisions(self.session, made.path, ["main", "topic"])
        refreshed = revisions.refresh()
        wanted = {b"%s:%s" % (branch, path.encode()): reasons[how] for branch in (b"main", b"topic") for path, how in spoilt.items()}
        del wanted[b"topic:f07"]
        self.assertEqual((dict(refreshed.left_out), revisions.left_out), (wanted, wanted))
        documents = named(made, "main", "topic")
        whole = {name: body for name, body in documents.items() if name not in wanted}
        self.expect(whole)
        # nobody is told again, and nothing is read again before its time
        made.commit("main", {b"new": b"int new;\n"})
        self.assertEqual(revisions.refresh().left_out, [])
        documents[b"main:new"] = whole[b"main:new"] = b"int new;\n"
        self.expect(whole)
        for file in files[:3]:
            file.write_bytes((self.top / (file.parent.name + file.name)).read_bytes())
        with unittest.mock.patch.object(git, "TICK", 0):
            revisions._objects._next_read = time.monotonic() + 1_000
            until(lambda: revisions._objects._seen or not revisions.refresh())
            self.expect(whole)
            revisions._objects._next_read = 0.0
            self.assertEqual(revisions.refresh().left_out, [])
        mended = {name for name in wanted if name[-3:] in (b"f03", b"f07", b"f08")}
        self.expect({name: body for name, body in documents.items() if name in whole or name in mended})
        self.assertEqual(revisions.left_out, {name: reason for name, reason in wanted.items() if name not in mended})

    def test_more_objects_than_are_tried(self) -> None:
        """Those behind are left out too: each that is corrupt costs a command."""
        from tsearch import bodies

        made = Made(self.top / "bad.git")
        source = random.Random(1)
        made.commit("main", {b"f%d" % number: source.randbytes(3_000).hex().encode() + b"\n" for number in range(9)})
        for number in range(2, 7):
            self.spoil(made, f"f{number}", "late")
        with unittest.mock.patch.object(bodies, "_MOST_CORRUPT", 3):
            revisions = git.Revisions(self.session, made.path, ["main"])
            self.assertEqual(revisions.refresh().put, 2)
        self.assertEqual(list(revisions.left_out.values()), ["corrupt in the repository"] * 3 + ["not read behind too many objects that cannot be read"] * 4)

    def test_a_folder_that_is_missing(self) -> None:
        """It is left out by its name, in each branch that has it, and all else is found: also what is pushed then; and once it is there again, so
        is what is in it."""
        made = Made(self.top / "bad.git")
        files = {b"%s/%d.c" % (folder, number): b"int %s%d;\n" % (folder.replace(b"/", b"_"), number) for folder in (b"a", b"b", b"b/c", b"z") for number in range(3)}
        made.commit("main", files)
        made.commit("topic", {b"a/0.c": b"int other;\n"}, start="main")
        made.commit("apart", {b"b/c/2.c": b"int apart;\n"}, start="main")
        file = self.spoil(made, "b", "missing")
        revisions = git.Revisions(self.session, made.path, ["main", "topic", "apart"])
        self.assertEqual(dict(revisions.refresh().left_out), {b"main:b/": "missing in the repository", b"topic:b/": "missing in the repository"})
        documents = named(made, "main", "topic", "apart")

        def whole() -> dict[bytes, bytes]:
            return {name: body for name, body in documents.items() if not name.startswith((b"main:b/", b"topic:b/"))}

        self.expect(whole())
        made.commit("main", {b"a/1.c": None, b"new.c": b"int new;\n", b"z/0.c": b"int changed;\n"})
        self.assertEqual(revisions.refresh().left_out, [])
        documents = named(made, "main", "topic", "apart")
        self.expect(whole())
        file.write_bytes((self.top / (file.parent.name + file.name)).read_bytes())
        with unittest.mock.patch.object(git, "TICK", 0):
            revisions._objects._next_read = time.monotonic() + 1_000
            until(lambda: revisions._objects._seen or not revisions.refresh())
            self.expect(whole())
            revisions._objects._next_read = 0.0
            revisions.refresh()
        self.expect(documents)
        self.assertEqual(revisions.left_out, {})

    def test_folders_that_go_and_are_corrupt(self) -> None:
        """A push in which such a folder is another one, or none; and a commit that has nothing but such a one."""
        made = Made(self.top / "bad.git")
        made.commit("main", {b"a/%d" % number: b"int a%d;\n" % number for number in range(5)} | {b"b/%d" % number: b"int b%d;\n" % number for number in range(5)})
        self.spoil(made, "a", "late")
        self.spoil(made, "b", "missing")
        revisions = git.Revisions(self.session, made.path, ["main"])
        revisions.refresh()
        self.assertEqual(revisions.left_out, {b"main:a/": "corrupt in the repository", b"main:b/": "missing in the repository"})
        self.assertEqual(self.session.status().documents, 0)
        files = {b"a/1": b"int again;\n", b"c": b"int c;\n"}
        made.commit("main", files, start=None)
        revisions.refresh()
        self.expect({b"main:" + path: body for path, body in files.items()})
        self.assertEqual(revisions.left_out, {})
        made.commit("topic", {b"d": b"int d;\n"})
        self.spoil(made, "", "missing")
        revisions = git.Revisions(self.session, made.path, ["topic", "main"], prefix="again:")
        revisions.refresh()
        self.assertEqual((revisions.left_out, self.session.find("int d").count), ({b"main:": "its top folder cannot be read"}, 1))

    def test_a_branch_whose_commit_is_missing(self) -> None:
        """No pattern of names fails for it, and it is not there."""
        self.made.commit("main", FILES)
        gone = self.made.commit("b2", {b"a": b"int a;\n"}, start="main")
        self.made.commit("b1", {b"b": b"int b;\n"}, start="main")
        (self.made.path / "objects" / gone[:2] / gone[2:]).unlink()
        revisions = git.Revisions(self.session, self.made.path, ["b*", "main"])
        revisions.refresh()
        self.assertEqual(list(revisions.commits), ["b1", "main"])
        self.expect(named(self.made, "b1", "main"))

    def test_no_more_names_are_kept_than_asked_for(self) -> None:
        """They are passed as git gives them."""
        commit = self.made.commit("main", FILES)
        self.made.git("update-ref", "--stdin", stdin=b"".join(b"create refs/%s/n%04d %s\n" % (kind, at, commit.encode()) for kind in (b"heads", b"tags") for at in range(2_000)))
        store = git.Store(self.made.path)
        self.assertEqual(list(store.commits(["n*", "tags/n*", "main"], 3)), ["n0000", "n0001", "n0002", "tags/n0000", "tags/n0001", "tags/n0002", "main"])
        self.assertEqual(len(store.commits(["*"])), 2_001)
        asked = []
        with unittest.mock.patch.object(store, "_commits_of", lambda wanted: asked.append(len(wanted)) or [commit] * len(wanted)):
            store.commits(["n*"], 3)
        self.assertEqual(asked, [0, 1])

    def test_git_waits_for_an_object_that_never_comes(self) -> None:
        """As on a disk that is stuck. That one is left out by its name, and the others are found."""
        self.made.commit("main", {b"%02d" % number: b"int f%d;\n" % number for number in range(10)})
        file = self.spoil(self.made, "07", "missing")
        os.mkfifo(file)
        sizes = git.Store.sizes
        revisions = git.Revisions(self.session, self.made.path, ["main"])
        revisions._objects.store.seconds = 20.0

        def known(store: git.Store, objects: list[bytes]) -> list[tuple[bytes, int | None]]:
            """git would wait for this too."""
            stuck = (file.parent.name + file.name).encode()
            return sizes(store, [one for one in objects if one != stuck]) + [(one, 8) for one in objects if one == stuck]

        with unittest.mock.patch.object(git.Store, "sizes", known):
            self.assertEqual(revisions.refresh().left_out, [(b"main:07", "not given by git in time")])
        self.expect({name: body for name, body in named(self.made, "main").items() if name != b"main:07"})
        # where all of its time goes by, the repository has a fault, and no longer once it answers
        revisions = git.Revisions(self.session, self.made.path, ["main"], prefix="again:")
        revisions._objects.store.seconds = 1.0
        with self.assertRaisesRegex(git.NoRepository, "git does not answer in 1 seconds"):
            revisions.refresh()
        file.unlink()
        file.write_bytes((self.top / (file.parent.name + file.name)).read_bytes())
        revisions._objects.store.seconds = 60.0
        self.assertEqual(revisions.refresh().put, 10)

    def test_git_neither_reads_nor_ends(self) -> None:
        """As one that the system does not let end: nobody waits for it, though not all was written that it is asked for."""
        from tsearch import bodies, reading_git

        class Stuck(reading_git.subprocess.Popen):
            def kill(self) -> None:
                pass

        self.addCleanup(lambda: [process.send_signal(9) or process.wait() for process in begun])
        begun: list[Stuck] = []

        @contextlib.contextmanager
        def begin(*_: bytes):
            begun.append(Stuck(["sleep", "1000"], stdin=-1, stdout=-1))
            try:
                yield begun[-1]
            finally:
                reading_git._end(begun[-1])

        wanted = [b"%040d" % number for number in range(100_000)]
        with unittest.mock.patch.object(reading_git, "_TO_END", 0.1):
            found = list(bodies.bodies_of(begin, wanted, 0.5))
        self.assertEqual((len(begun), {process.poll() for process in begun}), (1, {None}))
        self.assertEqual(found, [(number, bodies.BEHIND) for number in wanted])

    def test_a_pipe_in_place_of_a_branch(self) -> None:
        """git waits for it. Another repository does not: what is pushed to that is found meanwhile."""
        slow, quick = Made(self.top / "slow.git"), Made(self.top / "quick.git")
        for made in slow, quick:
            made.commit("main", FILES)
        pipe = slow.path / "refs/heads/pipe"
        os.mkfifo(pipe)

        async def run() -> None:
            async with aio.Session.started() as session:
                waiting, other = (aio.Revisions(session, made.path, ["main", "p*"], prefix=prefix) for made, prefix in ((slow, "1:"), (quick, "2:")))
                waits = asyncio.create_task(waiting.refresh())
                await other.refresh()
                quick.commit("main", {b"new": b"int pushed;\n"})
                await other.refresh()
                self.assertEqual([hit.name for hit in await session.find("pushed")], [b"2:main:new"])
                self.assertFalse(waits.done())
                waiting.objects.store.seconds = 1.0
                again = aio.Revisions(session, slow.path, ["p*"], prefix="3:")
                again.objects.store.seconds = 1.0
                with self.assertRaisesRegex(git.NoRepository, "git does not answer in 1 seconds"):
                    await again.refresh()
                self.assertFalse(waits.done())
                waiting.objects.store.seconds = SECONDS
                pipe.open("w").close()
                await waits
                self.assertEqual((await session.find("", names_only=True, under="1:")).count, len(FILES))

        asyncio.run(run())

    def test_a_body_over_the_limit(self) -> None:
        self.made.commit("main", {b"large": b"a line of it\n" * 5_200_000, b"small": b"small\n"})
        revisions = git.Revisions(self.session, self.made.path, ["main"])
        self.assertEqual(revisions.refresh().left_out, [(b"main:large", "body too long")])
        self.expect({b"main:small": b"small\n"})

    def test_marks_and_utf_16(self) -> None:
        """As for files of a folder."""
        text = "int wide;\n"
        self.made.commit("main", {b"mark": b"\xef\xbb\xbfint marked;\n", b"wide": b"\xff\xfe" + text.encode("utf-16-le")})
        git.Revisions(self.session, self.made.path, ["main"]).refresh()
        self.expect({b"main:mark": b"int marked;\n", b"main:wide": text.encode()})

    def test_tags_and_commits(self) -> None:
        made = self.made
        first = made.commit("main", FILES)
        made.git("tag", "v1")
        made.git("tag", "-a", "-m", "two", "v2")
        made.git("tag", "main")
        made.git("tag", "blob", made.git("rev-parse", "main:README"))
        second = made.commit("main", {b"src/main.c": b"int main(int count)\n"})
        revisions = git.Revisions(self.session, made.path, ["tags/v*", "tags/b*", first[:12], "main", "*", "none", "main:src", "-x", "a\nb"])
        revisions.refresh()
        self.assertEqual(revisions.commits, {"tags/v1": first, "tags/v2": first, first[:12]: first, "main": second})
        documents = {f"{revision}:".encode() + path: body for revision in ("tags/v1", "tags/v2", first[:12]) for path, body in FILES.items()}
        self.expect({**documents, **named(made, "main")})

    def test_a_push_of_10_000_files(self) -> None:
        made = self.made
        made.commit("main", FILES)
        revisions = git.Revisions(self.session, made.path, ["main"])
        revisions.refresh()
        many = {b"many/%d/%d.c" % (number % 97, number): b"int number_%d;\n" % number for number in range(10_000)}
        made.commit("main", many)
        self.assertEqual(revisions.refresh()[:2], (10_000, 0))
        self.expect(named(made, "main"))
        made.commit("main", dict.fromkeys(many))
        self.assertEqual(revisions.refresh()[:2], (0, 10_000))
        self.expect(named(made, "main"))

    def test_what_goes_together_is_one_change(self) -> None:
        """A branch, a folder of which nothing stays, or all; others whose names begin in the same way stay."""
        made = self.made
        wide = {b"%s/%d.c" % (folder, number): b"int a;\n" for folder in (b"a", b"a/b", b"a/b/c", b"ab", b"d e%") for number in range(3)}
        made.commit("main", {**FILES, **wide})
        for branch in "main2", "m":
            made.commit(branch, {}, start="main")
        revisions = git.Revisions(self.session, made.path, ["main", "main2", "m*"])
        accepted = lambda: self.session.status().accepted  # noqa: E731
        revisions.refresh()
        for changed, removed, count in (
            ({b"a/b/c/0.c": None}, 1, 1),
            ({b"a/b/c/1.c": None, b"a/b/c/2.c": None, b"README": None}, 3, 2),
            ({b"a/b/0.c": None, b"a/b/1.c": None}, 2, 2),
            ({**{b"a/%d.c" % number: None for number in range(3)}, b"a/b/2.c": None, b"a": b"int file;\n"}, 4, 2),
            ({**{b"d e%%/%d.c" % number: None for number in range(3)}, b"ab/1.c": None, b"ab/3.c": b"int a;\n"}, 4, 3),
        ):
            made.commit("main", changed)
            before = accepted()
            self.assertEqual((revisions.refresh().removed, accepted() - before), (removed, count), changed)
            self.expect(named(made, "main", "main2", "m"))
        for branch, count in ("main", 1), ("m", 1):
            made.git("branch", "-D", branch)
            before = accepted()
            self.assertEqual((revisions.refresh().removed, accepted() - before), (len(made.files[branch]), count))
            self.assertEqual(revisions._objects.totals[0], self.session.status().documents)
        self.expect(named(made, "main2"))
        # so many are one change, and one more are each by itself
        for number, count in (64, 1), (65, 65):
            many = {b"many/%d.c" % at: b"int a;\n" for at in range(number)}
            made.commit("main2", many)
            revisions.refresh()
            made.commit("main2", dict.fromkeys(many))
            before = accepted()
            self.assertEqual((revisions.refresh().removed, accepted() - before), (number, count))
        # all of it is another's
        made.commit("main2", {b"only": b"int only;\n"}, start=None)
        before = accepted()
        self.assertEqual((revisions.refresh()[:2], accepted() - before), ((1, len(FILES) + len(wide)), 2))
        self.expect(named(made, "main2"))

    def test_a_prefix_under_which_there_is_nothing(self) -> None:
        """Its removal is refused, which is no fault: here another one has removed the documents."""
        made = self.made
        made.commit("main", FILES)
        made.commit("gone", FILES)
        revisions = git.Revisions(self.session, made.path, ["main", "gone"])
        revisions.refresh()
        self.session.remove_under("gone:")
        self.session.publish()
        made.git("branch", "-D", "gone")
        refreshed = revisions.refresh()
        self.assertEqual((refreshed.left_out, revisions.left_out, revisions.commits), ([], {}, {"main": made.git("rev-parse", "main")}))
        self.expect(named(made, "main"))

    def test_other_forms_of_a_repository(self) -> None:
        """A working tree, another one of the same repository, and hashes of the other kind. What is not committed does not count."""
        tree = Made(self.top / "tree", is_bare=False)
        tree.commit("main", FILES)
        (tree.path / "README").write_bytes(b"not committed\n")
        tree.git("worktree", "add", "-q", "-b", "beside", str(self.top / "beside"), "main")
        longer = Made(self.top / "longer.git", sha256=True)
        longer.commit("main", FILES)
        for path, revision in (tree.path, "main"), (self.top / "beside", "beside"), (longer.path, "main"):
            with self.subTest(path=path), tsearch.Session() as session:
                git.Revisions(session, path, [revision]).refresh()
                documents = {revision.encode() + b":" + name: body for name, body in FILES.items()}
                self.assertEqual([hit[:3] for hit in session.find("")], [row[:3] for row in found_in(documents, "")[2]])
        # what is committed in one of the working trees is seen in the other, though nothing changes in the folder of that one alone
        revisions = git.Revisions(self.session, self.top / "beside", ["main"])
        time.sleep(2 * tsearch.folder.TICK / 1e9)
        revisions.refresh()
        self.assertEqual(revisions.refresh()[:2], (0, 0))
        tree.commit("main", {b"README": b"committed\n"})
        self.assertEqual(revisions.refresh()[:2], (1, 0))
        self.expect(named(tree, "main"))
        for path in self.top, self.top / "none", self.top / "tree/.git/refs":
            with self.assertRaises(git.NoRepository):
                git.Revisions(self.session, path)

    def test_without_the_command_git(self) -> None:
        with unittest.mock.patch.dict(os.environ, PATH=str(self.top)), self.assertRaisesRegex(git.NoRepository, "the command git is missing"):
            git.Revisions(self.session, self.made.path, ["main"]).refresh()

    def test_nothing_of_a_repository_is_run(self) -> None:
        """Neither what its settings name, nor is anything fetched for it."""
        made = self.made
        made.commit("main", FILES)
        ran = self.top / "ran"
        command = f"touch {ran}; false"
        for key in "core.fsmonitor", "core.sshCommand", "diff.external", "core.pager", "remote.origin.uploadpack", "filter.x.smudge", "diff.x.textconv":
            made.git("config", key, command)
        for key, text in ("remote.origin.url", str(self.top)), ("remote.origin.promisor", "true"), ("extensions.partialClone", "origin"):
            made.git("config", key, text)
        made.commit("main", {b".gitattributes": b"* filter=x diff=x\n"})
        number = made.git("rev-parse", "main:README")
        (made.path / "objects" / number[:2] / number[2:]).unlink(missing_ok=True)
        for pack in (made.path / "objects/pack").glob("*"):
            self.fail(pack)
        revisions = git.Revisions(self.session, made.path, ["main"])
        refreshed = revisions.refresh()
        self.assertEqual(refreshed.left_out, [(b"main:README", "missing in the repository")])
        self.assertFalse(ran.exists())

    def test_a_program_that_ends(self) -> None:
        made = self.made
        made.commit("main", FILES)
        revisions = git.Revisions(self.session, made.path, ["main"])
        revisions.refresh()
        self.session.kill()
        with self.assertRaises(tsearch.Ended):
            revisions.refresh()
        made.commit("main", {b"src/main.c": b"int main(int count)\n"})
        revisions.restart()
        self.expect(named(made, "main"))
        made.commit("main", {b"src/main.c": None})
        self.assertEqual(revisions.refresh()[:2], (0, 1))

    def test_a_look_that_fails_is_made_again(self) -> None:
        """In the middle of what it sends, and in that of what it reads."""
        made = self.made
        made.commit("main", FILES)
        made.commit("gone", {b"gone": b"int gone;\n"}, start="main")
        objects = git.Objects(git.Store(made.path), ["main", "gone"])
        kept = tsearch.folder.Kept(self.session, objects)
        kept.refresh()
        made.commit("main", {b"src/main.c": b"int changed;\n", b"README": None, b"new": b"new\n"})
        made.git("branch", "-D", "gone")
        for count in range(1, 9):
            steps = objects.steps()
            for step in [next(steps, None) for _ in range(count)]:
                if step:
                    self.carry_out(step)
            steps.close()
        kept.refresh()
        self.session.publish()
        self.expect(named(made, "main"))
        # the branches are where they were before
        before = made.git("rev-parse", "main")
        made.commit("main", {b"src/main.c": b"int again;\n", b"new": None})
        steps = objects.steps()
        for step in steps:
            self.carry_out(step)
            if step.done == 1:
                break
        steps.close()
        made.git("update-ref", "refs/heads/main", before)
        made.files["main"] = {**made.files["main"], b"src/main.c": b"int changed;\n", b"new": b"new\n"}
        kept.refresh()
        self.session.publish()
        self.expect(named(made, "main"))

    def test_with_asyncio(self) -> None:
        made = self.made
        made.commit("main", FILES)

        async def run() -> None:
            async with aio.Session.started() as session:
                revisions = aio.Revisions(session, made.path, ["main"])
                await revisions.refresh()
                self.assertEqual(len(await session.find("int main")), 1)
                made.commit("main", {b"src/main.c": b"int other;\n"})
                refreshed = await revisions.refresh()
                self.assertEqual((refreshed.put, refreshed.removed), (1, 0))
                self.assertEqual([hit.text for hit in await session.find("int other")], [b"int other;"])
                # a branch that comes is a copy
                made.commit("topic", {b"src/x.c": b"int x;\n", b"README": None}, start="main")
                revisions.objects.wanted = ("main", "*")
                accepted = (await session.status()).accepted
                self.assertEqual((await revisions.refresh())[:2], (len(FILES) + 1, 1))
                self.assertEqual((await session.status()).accepted - accepted, 3)
                self.assertEqual({hit.name for hit in await session.find("")}, named(made, "main", "topic").keys())
                session.kill()
                with self.assertRaises(tsearch.Ended):
                    await revisions.refresh()
                await revisions.restart()
                self.assertEqual((await session.status()).accepted, len(FILES) + 3)
                self.assertEqual({hit.name for hit in await session.find("")}, named(made, "main", "topic").keys())

        asyncio.run(run())


class Package(unittest.TestCase):
    def test_the_repository_of_this_clone(self) -> None:
        """A commit, or a branch, of a repository that was not made for a test."""
        try:
            store = git.Store(TOP)
        except git.NoRepository:
            self.skipTest("the tests are not in a clone")
        commit = store.commits(["HEAD"])["HEAD"]
        self.assertIn(b"clients/python/README.md", store.files(commit))


if __name__ == "__main__":
    unittest.main()
