"""What a warm server finds and tells: searches, overlays, forms and changes."""

from __future__ import annotations

import asyncio
import base64
import random
import re
import subprocess
import types
import unittest
import unittest.mock

from helpers import Model, found_in, lines_of
from tsearch import aio
from tsearch.query import Query
from tsearch.tgrep import editor, overlays
from tsearch.tgrep.editor_requests import Request
from tsearch.tgrep.groups import groups_of
from tsearch.warm import Warm, WarmRefused
from warmed import TGREP, Place, shown_by, text_of


class Finds(Place):
    def compare(self, warm: Warm, documents: dict[bytes, bytes], seed: int, count: int = 60) -> None:
        source = random.Random(seed)
        model = Model(seed)
        for _ in range(count):
            # a request has globs in place of prefixes
            options = {key: given for key, given in model.options(source).items() if key not in ("under", "not_under")}
            pattern = source.choice(model.PATTERNS)
            with self.subTest(pattern=pattern, options=options):
                count, more, rows = found_in(documents, pattern, **options)
                self.assertEqual(shown_by(warm, pattern, **options), (count, more, [row for row in rows if row]))

    def test_options(self) -> None:
        model = Model(1)
        self.write(model.documents)
        self.compare(self.warm(), model.documents, 2)

    def test_overlays(self) -> None:
        model = Model(3)
        self.write(model.documents)
        warm, source = self.warm(), random.Random(4)
        names = sorted(model.documents)
        documents = dict(model.documents)
        for name in [*source.sample(names, 12), b"new/a.c", b"\x01new.c"]:
            documents[name] = model.body(source)
            warm.ask("overlay", name=name.decode(), text=documents[name].decode())
        self.compare(warm, documents, 5)
        for name in source.sample(names, 20):
            warm.ask("release", name=name.decode())
            documents[name] = model.documents[name]
        self.compare(warm, documents, 6, 30)
        warm.ask("release")
        self.compare(warm, model.documents, 7, 20)

    def test_more_overlays_than_patterns_can_name(self) -> None:
        """Then names of the tree are dropped once they are found, and what is cut is asked for anew."""
        model = Model(8, 900)
        long = {b"a" * 60 + name.replace(b" ", b"") for name in model.documents}
        source = random.Random(9)
        files = {name: model.body(source) for name in long}
        self.write(files)
        warm = self.warm()
        documents = dict(files)
        for name in sorted(long)[:700]:
            documents[name] = model.body(source) if source.random() < 0.1 else b"nothing\n"
            warm.send("overlay", name=name.decode(), text=documents[name].decode())
        self.compare(warm, documents, 10, 25)

    def test_a_thousand_edits(self) -> None:
        model, source = Model(11), random.Random(12)
        self.write(model.documents)
        warm = self.warm()
        lines: list[bytes] = []
        for number in range(1_000):
            first = source.randint(0, len(lines))
            last = source.randint(first, min(len(lines), first + 5))
            new = lines_of(model.body(source)) if source.random() < 0.7 else []
            lines[first:last] = new
            warm.ask("edit", name="dir 1/f1.c", first=first, last=last, lines=[line.decode() for line in new])
            if number % 100 == 99:
                body = b"".join(line + b"\n" for line in lines)
                found = found_in({**model.documents, b"dir 1/f1.c": body}, "alpha", spans=True)
                self.assertEqual(shown_by(warm, "alpha", spans=True), found)

    def test_nobody_else_sees_an_overlay(self) -> None:
        self.write({b"a": b"foo\n"})
        one, other = self.warm(), self.warm()
        one.ask("overlay", name="a", text="bar unsaved\n")
        self.assertEqual(shown_by(one, "foo|bar")[2], [(b"a", 1, b"bar unsaved", None, None, True)])
        self.assertEqual(shown_by(other, "foo|bar")[2], [(b"a", 1, b"foo", None, None, True)])
        done = subprocess.run([*TGREP, "foo|bar"], cwd=self.top, capture_output=True, check=False, stdin=subprocess.DEVNULL)
        self.assertEqual(done.stdout, b"a:1:foo\n")
        one.close()
        self.assertEqual(shown_by(self.warm(), "foo|bar")[0], 1)

    def test_what_cannot_be_searched_is_named(self) -> None:
        self.write({b"a": b"foo\n", b"b": b"foo\n"})
        warm = self.warm()
        warm.ask("overlay", name="a", text="foo\0\n")
        *_, last = parts = list(warm.parts(warm.send("find", pattern="foo")))
        self.assertEqual([one["name"] for part in parts for one in part.get("documents", [])], ["b"])
        self.assertEqual(last["missing"], [{"name": "a", "reason": "byte 0 in body"}])

    def test_what_watchman_writes_is_no_file(self) -> None:
        self.write({b"a": b"foo\n", b".watchman-cookie-vm-1-0": b"foo\n"})
        self.assertEqual([row[0] for row in shown_by(self.warm(), "foo")[2]], [b"a"])

    def test_globs_folders_and_types(self) -> None:
        self.write({name: b"foo\n" for name in (b"a.c", b"a.h", b"src/a.c", b"src/b.py", b"src/.x/c.c", b"out/a.c")})
        warm = self.warm()
        for options, wanted in (
            ({"globs": ["*.c"]}, "a.c out/a.c src/.x/c.c src/a.c"),
            ({"globs": ["*.c", "!out/"]}, "a.c src/.x/c.c src/a.c"),
            ({"globs": ["*.c"], "folder": "src"}, "src/.x/c.c src/a.c"),
            ({"folder": "src/", "no_hidden": True}, "src/a.c src/b.py"),
            ({"types": ["py"]}, "src/b.py"),
            ({"not_types": ["c"], "names": ["^src"]}, "src/b.py"),
        ):
            with self.subTest(options=options):
                self.assertEqual([row[0] for row in shown_by(warm, "foo", **options)[2]], [name.encode() for name in wanted.split()])


    def test_names_in_either_case(self) -> None:
        """An overlay is over the file of just this name, though patterns of names ignore case."""
        self.write({b"a.c": b"foo a\n", b"A.c": b"foo A\n", b"b.c": b"foo b\n"})
        warm = self.warm()
        warm.ask("overlay", name="A.c", text="bar\nfoo unsaved\n")
        for options in {"names": ["^A"]}, {"not_names": ["B"]}, {"names": ["^A"], "limit": 2}:
            rows = shown_by(warm, "foo", names_ignore_case=True, **options)[2]
            self.assertEqual([row[:3] for row in rows], [(b"A.c", 2, b"foo unsaved"), (b"a.c", 1, b"foo a")], options)
        self.assertEqual([row[:3] for row in shown_by(warm, "foo", names=["^A"])[2]], [(b"A.c", 2, b"foo unsaved")])


class Sent(unittest.IsolatedAsyncioTestCase):
    """What an editor has open, in a session of its own."""

    def setUp(self) -> None:
        self.overlays = overlays.Overlays()
        self.addAsyncCleanup(self.overlays.close)

    async def found(self) -> tuple[dict[bytes, bytes], dict[bytes, str]]:
        """The texts that are searched, and what cannot be, with the reason."""
        answer, _, missing, count = await self.overlays.find(Query(b""))
        self.assertEqual(count, self.overlays.count)
        return {hit.name: hit.text for hit in answer}, missing

    async def test_finds_that_are_cancelled(self) -> None:
        """What they have begun to send is all sent: the next one finds each text as it is, and tells what is refused."""
        edit, bad = self.overlays.edit, {b"bad": "byte 0 in body"}
        for name in b"a", b"bad", b"gone", b"other":
            edit(name, 0, None, [b"first"])
        await self.found()
        for number, (call, turn) in enumerate([("remove", 1), ("remove", 2), ("put", 1), ("put", 2), ("put", 3), ("publish", 1)]):
            with self.subTest(call=call, turn=turn):
                edit(b"a", 0, None, [b"a %d" % number])
                edit(b"new", 0, None, [b"new %d" % number])
                edit(b"bad", 0, None, [b"\0"])
                for name in b"gone", b"other":
                    self.overlays.release(name)
                begun, goes_on, real = asyncio.Event(), asyncio.Event(), getattr(self.overlays._session, call)
                left = turn

                async def held(*words: bytes) -> object:
                    nonlocal left
                    left -= 1
                    if left == 0:
                        begun.set()
                        await goes_on.wait()
                    return await real(*words)

                with unittest.mock.patch.object(self.overlays._session, call, held):
                    finding = asyncio.create_task(self.overlays.find(Query(b"")))
                    await begun.wait()
                    finding.cancel()
                    with self.assertRaises(asyncio.CancelledError):
                        await finding
                    goes_on.set()
                    self.assertEqual(await self.found(), ({b"a": b"a %d" % number, b"new": b"new %d" % number}, bad))
                for name in b"gone", b"other":
                    edit(name, 0, None, [b"first"])
                self.assertEqual(set((await self.found())[0]), {b"a", b"new", b"gone", b"other"})

    async def test_edits_during_a_find(self) -> None:
        """An answer tells how many changes it has, and the next one has the others."""
        self.overlays.edit(b"a", 0, None, [b"one"])
        self.overlays.edit(b"b", 0, None, [b"b"])
        await self.found()
        self.overlays.edit(b"a", 0, None, [b"two"])
        self.overlays.edit(b"b", 0, None, [b"b"])
        for call in "remove", "put", "publish":
            real = getattr(self.overlays._session, call)

            async def edited(*words: bytes) -> object:
                self.overlays.edit(b"a", 0, None, [b"three"])
                self.overlays.release(b"b")
                return await real(*words)

            before = self.overlays.count
            with unittest.mock.patch.object(self.overlays._session, call, edited):
                answer, names, _, count = await self.overlays.find(Query(b""))
            self.assertEqual((count, names, {hit.name: hit.text for hit in answer}), (before, {b"a", b"b"}, {b"a": b"two", b"b": b"b"}))
            self.assertEqual((await self.found())[0], {b"a": b"three"})
            self.overlays.edit(b"a", 0, None, [b"two"])
            self.overlays.edit(b"b", 0, None, [b"b"])

    async def test_what_an_editor_is_told(self) -> None:
        """How many changes the answer has, though another one has come before the last row is sent."""
        session = await self.enterAsyncContext(aio.Session.started())
        tree = types.SimpleNamespace(session=session, left_out={})
        host = types.SimpleNamespace(tree=tree, overlays=self.overlays, send_rows=lambda request, message: None)
        self.overlays.edit(b"a", 0, None, [b"one"])
        find = self.overlays.find

        async def edited(query: Query) -> tuple:
            found = await find(query)
            self.overlays.edit(b"a", 0, None, [b"two"])
            return found

        for options in {}, {"counts": True}, {"header_only": True}:
            before = self.overlays.count
            request = Request(1, "find", {"query": Query(b"", **options)})
            with unittest.mock.patch.object(self.overlays, "find", edited):
                told = await editor._Answering(host, request).answer()
            self.assertEqual((told["overlays"], told["count"]), (before, 1), options)

    async def test_a_program_that_ends(self) -> None:
        """All texts are sent to the next one, and what was released is not in it."""
        for name in b"a", b"b":
            self.overlays.edit(name, 0, None, [b"old"])
        await self.found()
        self.overlays.edit(b"a", 0, 1, [b"new"])
        self.overlays.release(b"b")
        self.overlays._session.kill()
        self.assertEqual(await self.found(), ({b"a": b"new"}, {}))

    def test_how_much_there_may_be(self) -> None:
        """A line takes its bytes and one more; what is replaced or released takes none."""
        edit = self.overlays.edit
        with unittest.mock.patch.object(overlays, "_MOST_TEXT", 20):
            for _ in range(3):
                edit(b"a", 0, None, [b"1234567890", b"12345678"])
                with self.assertRaisesRegex(overlays.OverlayRefused, "too much text"):
                    edit(b"b", 0, None, [b""])
                edit(b"a", 1, 2, [b"123456"])
                edit(b"b", 0, 0, [b""])
                edit(b"b", 1, 1, [])
                self.overlays.release(b"a")
                edit(b"b", 0, None, [b"123456789012345678", b""])
                self.overlays.release(b"b")
            with self.assertRaisesRegex(overlays.OverlayRefused, r"\(lines: 0\)"):
                edit(b"a", 0, 1, [])


class Forms(Place):
    def test_units(self) -> None:
        line = "aé😀b".encode() + b"\xff\xfe" + "xé".encode()
        self.write({b"u": line + b"\n"})
        warm = self.warm()
        for unit, wanted in ("bytes", [7, 8]), ("utf-16", [4, 5]), ("characters", [3, 4]):
            (_, found), = warm.find("b", spans=True, units=unit)
            self.assertEqual((found["spans"], text_of(found["text"])), ([wanted], line))
        for unit, wanted in ("bytes", [10, 13]), ("utf-16", [7, 9]), ("characters", [6, 8]):
            (_, found), = warm.find("xé", spans=True, units=unit)
            self.assertEqual(found["spans"], [wanted])
            (_, found), = warm.find("xé", column=True, units=unit)
            self.assertEqual(found["column"], wanted[0] + 1)
        # a part of a character is where it begins and ends
        (_, found), = warm.find("a.", spans=True, units="utf-16")
        self.assertEqual(found["spans"], [[0, 2]])

    def test_names_and_texts_that_are_no_text(self) -> None:
        self.write({b"caf\xe9.c": b"foo \xff\n"})
        warm = self.warm()
        (name, line), = warm.find("foo")
        self.assertEqual((text_of(name), text_of(line["text"])), (b"caf\xe9.c", b"foo \xff"))
        self.assertEqual(list(map(text_of, warm.ask("open", name=name)["lines"])), [b"foo \xff"])
        warm.ask("overlay", name=name, text={"base64": base64.b64encode(b"bar \xfe\n").decode()})
        (name, line), = warm.find("foo|bar")
        self.assertEqual((text_of(name), text_of(line["text"])), (b"caf\xe9.c", b"bar \xfe"))
        (name, line), = warm.find({"base64": base64.b64encode(b"\xfe$").decode()}, spans=True)
        self.assertEqual(line["spans"], [[4, 5]])

    def test_long_lines_are_cut(self) -> None:
        self.write({b"a": b"x" * 5_000 + "é".encode() * 50 + b"needle" + b"y" * 5_000 + b"\n"})
        (_, found), = self.warm().find("needle", spans=True, cut=100)
        self.assertEqual(found["spans"], [[5_100, 5_106]])
        self.assertEqual(found["of"], 10_106)
        text, begin = found["text"].encode(), found["from"]
        self.assertEqual(text[5_100 - begin : 5_106 - begin], b"needle")
        self.assertLessEqual(len(text), 104)

    def test_groups(self) -> None:
        """Those of POSIX (XBD 9.1): each part from the left takes the most that it can."""
        for pattern, line, wanted in (
            ("a(b*)c", b"xabbc", [(1, 5), (2, 4)]),
            ("(a|ab)(c|bcd)(d*)", b"abcd", [(0, 4), (0, 2), (2, 3), (3, 4)]),
            ("(a*)(a*)", b"aaa", [(0, 3), (0, 3), (3, 3)]),
            ("(foo|bar)+", b"foobar", [(0, 6), (3, 6)]),
            ("(a)|(b)", b"b", [(0, 1), None, (0, 1)]),
            (r"f\(([^,]*), (.*)\)$", b"f(x, g(y))", [(0, 10), (2, 3), (5, 9)]),
            ("([[:alpha:]_]+)=([]0-9]+)", b"x_y=7]", [(0, 6), (0, 3), (4, 6)]),
            ("(x{2,3}){2}", b"xxxxx", [(0, 5), (3, 5)]),
            ("((a)|b)*", b"ab", [(0, 2), (1, 2), (0, 1)]),
        ):
            with self.subTest(pattern=pattern):
                begin, end = wanted[0]
                self.assertEqual(groups_of(pattern.encode(), False, line, begin, end), wanted)
        self.assertEqual(groups_of(b"(A)b", True, b"ab", 0, 2), [(0, 2), (0, 1)])
        self.assertIsNone(groups_of(b"(a|aa)*(a|aaa)*(a*)*b", False, b"a" * 3_000 + b"b", 0, 3_001))
        self.write({b"a": "f(é, y)\nf(x, y) f(a, b)\n".encode()})
        found = [line for _, line in self.warm().find(r"f\(([^,]*), ([a-z])\)", groups=True, units="characters")]
        self.assertEqual(found[0]["groups"], [[0, 7], [2, 3], [5, 6]])
        self.assertNotIn("groups", found[1])

    def test_groups_as_python_has_them(self) -> None:
        """Where a pattern can be taken apart in one way only, Python's `re` says the same."""
        source = random.Random(13)
        pieces = ["a", "b", "[ab]", "(a)", "(b|c)", "([a-c])", "c{2}", "(c?)d", "(b)e"]
        seen = 0
        for _ in range(400):
            pattern = "".join(source.choices(pieces, k=source.randint(1, 6)))
            line = "".join(source.choices("abcde", k=12))
            found = re.search(pattern, line)
            if found:
                spans = [found.span(number) for number in range(found.re.groups + 1)]
                self.assertEqual(groups_of(pattern.encode(), False, line.encode(), *found.span()), spans)
                seen += 1
        self.assertGreater(seen, 100)


class Events(Place):
    def test_changes_and_files_as_they_were(self) -> None:
        self.write({b"a": b"one\ntwo\n", b"b": b"one\n"})
        warm = self.warm()
        warm.ask("follow")
        last = warm.ask("find", pattern="one")
        then = {"life": last["life"], "version": last["version"]}
        self.assertEqual(warm.ask("open", name="a", **then)["lines"], ["one", "two"])
        self.assertEqual(warm.ask("open", name="a", first=2, last=2)["lines"], ["two"])
        (self.top / "a").write_bytes(b"three\n")
        (self.top / "c").write_bytes(b"new\n")
        (self.top / "b").unlink()
        names: set[str] = set()
        while names != {"a", "b", "c"}:
            warm.take()
            while warm.events:
                event = warm.events.popleft()
                if event["event"] == "changes":
                    names |= set(event["names"])
                    self.assertGreater(event["version"], then["version"])
        self.assertEqual(warm.ask("open", name="a", **then)["lines"], ["one", "two"])
        self.assertEqual(warm.ask("open", name="b", **then)["lines"], ["one"])
        self.assertEqual(warm.ask("open", name="a")["lines"], ["three"])
        for given in {"name": "b"}, {"name": "none"}, {"name": "a", "life": 9, "version": 1}:
            with self.assertRaises(WarmRefused) as refused:
                warm.ask("open", **given)
            self.assertEqual(refused.exception.kind, "gone")

    def test_status(self) -> None:
        self.write({b"a": b"foo\n", b"b": b"\0"})
        warm = self.warm()
        warm.ask("overlay", name="x", text="y")
        status = warm.ask("status")
        self.assertEqual((status["documents"], status["bytes"], status["left_out"], status["overlays"]), (1, 4, {"binary": 1}, ["x"]))
        self.assertEqual(status["root"], str(self.top))


if __name__ == "__main__":
    unittest.main()
