"""Parts of the command tgrep: its words, its globs (with rg as the judge), what it watches, and the memory that it needs. The command as
a whole is tested by tests/tgrep.py."""

import asyncio
import importlib.util
import os
import pathlib
import random
import re
import shutil
import subprocess
import sys
import tempfile
import unittest
import unittest.mock

from helpers import SECONDS, TOP
from tsearch import aio
from tsearch.answers import Hit, View
from tsearch.ignored import Rules
from tsearch.query import Query
from tsearch.shortening import shortened
from tsearch.tgrep import arguments, asking, ere, past, places, tree, watched
from tsearch.tgrep.asking import Piece
from tsearch.tgrep.forms import Around, Empty, Passing, Reading, Row

NAMES = "a b ab a.c b.o .h x_y d/a d/b.c d/e/a.c d/e/f_g/a.h - A1 a%b d/[a] ab/a.c cab/a.c d/ab/c".replace("_", "\0").split()
NAMES = [name.replace("\0", " ") for name in NAMES]
GLOBS = ["x y", *"a b * ? **/ ***/ **/**/ .c .o [ab] [a-c]* d / - {a,b} {a.c,b*} *.{c,h} [[] e \\[a\\] % [!a].c".split()]


class Words(unittest.TestCase):
    def test_words(self) -> None:
        for words, wanted in (
            ("foo", {"patterns": ["foo"], "paths": []}),
            ("foo a b", {"patterns": ["foo"], "paths": ["a", "b"]}),
            ("-e foo -e bar a", {"patterns": ["foo", "bar"], "paths": ["a"]}),
            ("-e -n", {"patterns": ["-n"], "paths": []}),
            ("-e-n", {"patterns": ["-n"], "paths": []}),
            ("-e=x", {"patterns": ["=x"], "paths": []}),
            ("--regexp=-n", {"patterns": ["-n"], "paths": []}),
            ("-- -n .", {"patterns": ["-n"], "paths": ["."]}),
            ("a -- -n -l", {"patterns": ["a"], "paths": ["-n", "-l"]}),
            ("foo - a", {"patterns": ["foo"], "paths": ["-", "a"]}),
            ("-rni foo", {"recursive": True, "line_number": True, "case": "ignore", "patterns": ["foo"], "paths": []}),
            ("-A3 -B 2 foo", {"after": 3, "before": 2, "patterns": ["foo"], "paths": []}),
            ("-3 foo", {"context": 3, "patterns": ["foo"], "paths": []}),
            ("-0 foo", {"null": True, "patterns": ["foo"], "paths": []}),
            ("-im2 foo", {"case": "ignore", "max_count": 2, "patterns": ["foo"], "paths": []}),
            ("foo a -i", {"case": "ignore", "patterns": ["foo"], "paths": ["a"]}),
            ("--files src", {"files": True, "paths": ["src"]}),
            ("-f list a", {"pattern_files": ["list"], "paths": ["a"]}),
            ("-N foo -n", {"line_number": True, "patterns": ["foo"], "paths": []}),
        ):
            with self.subTest(words=words):
                self.assertEqual(arguments.read(words.split(" ")), wanted)

    def test_patterns(self) -> None:
        def query(words: str) -> Query:
            return asking.query_of(arguments.read(words.split(" ")))

        self.assertEqual(query("-e a -e b|c").pattern, b"a|b|c")
        self.assertEqual((query("-F -e a|b -e c").pattern, query("-F -e a|b -e c").literal), (rb"a\|b|c", False))
        self.assertTrue(query("-F a|b").literal)
        self.assertEqual([query(f"-S {pattern}").ignore_case for pattern in ("foo", "Foo", "[[:upper:]]")], [True, False, True])
        self.assertEqual(asking.query_of({"patterns": ["a\nb"]}).pattern, b"a|b")


@unittest.skipUnless(shutil.which("grep"), "there is no command grep")
class Names(unittest.TestCase):
    def test_patterns_of_names(self) -> None:
        names = ["a", "aa", "b1", "a-b", "x]y", "[z", "a\\b", "Ab.c", "1", "a*", "^a", "d/e.f"]
        for pattern in r"a** ^a+?$ ^a?+$ x{2}|b [[:digit:]] []] [^]a]$ [\\] ^[[:alpha:]-]+$ (a|b)*1 (a)** ^(a{1,2}){1}$ \. \^a a\* [.] [a-c][0-9]".split():
            found = [name for name in names if ere.names(pattern.encode()).has(name.encode())]
            words = ["grep", "-E", "-e", pattern]
            done = subprocess.run(words, input="\n".join(names), text=True, capture_output=True, check=False, env={**os.environ, "LC_ALL": "C"})
            with self.subTest(pattern=pattern):
                self.assertEqual(found, done.stdout.splitlines())
        self.assertEqual([ere.names(b"$(a?)^").has(name) for name in (b"", b"a", b"ba")], [True, False, False])


class Hostile(unittest.TestCase):
    """What would take years by backtracking."""

    def test_names(self) -> None:
        name = b"a" * 60 + b"/" + b"ab" * 60
        for pattern in rb"(a*)*c", rb"(a|aa|b)*c$", rb"((a*b*)*/)*c", b"a*" * 60 + b"c", rb"(a?){60}(ab|a|b){120}c":
            self.assertFalse(ere.names(pattern).has(name))
            self.assertTrue(ere.names(pattern).has(name + b"c"))

    def test_globs(self) -> None:
        name = b"/".join([b"ab" * 10] * 40)
        for glob in "*a" * 40 + "*c", "**/a*/" * 20 + "c", "***/" * 30 + "c", "{*a,*b}" * 30 + "c":
            found = asking.filter_of(arguments.read(["--files", "-g", glob]), Piece(b"", b"", False), b"")
            self.assertFalse(found.has(name, 0))

    def test_rules_of_git(self) -> None:
        rules = Rules(b"***/***/" * 20 + b"x*y*z\n" + b"*a" * 40 + b"*c\n")
        self.assertIsNone(rules.verdict(b"/".join([b"ab" * 20] * 30)))


class EmptyMatches(unittest.TestCase):
    def test_where_they_are(self) -> None:
        """As for Python's `re`, but for those right behind another match."""
        for pattern in "a*", "^", "$", "^$", "a|^", "(^a)*", "x", "", "a+$|$", "(b|a?)*":
            for text in "", "a", "xaay", "b aa", "baab", "aa", "b":
                found = [match.span() for match in re.finditer(f"(?:{pattern})", text)]
                wanted = tuple((begin, end) for begin, end in found if begin < end or all(end != other[1] for other in found if other[0] < other[1]))
                spans = tuple((begin, end) for begin, end in found if begin < end)
                with self.subTest(pattern=pattern, text=text):
                    empty = Empty(Query(pattern.encode()))
                    self.assertEqual(empty.matches(text.encode(), spans), wanted)
                    if wanted:
                        self.assertEqual(empty.column(text.encode(), spans), wanted[0][0] + 1)
        self.assertEqual(Empty(Query(b"a*", whole_words=True)).matches(b"b aa -", ((2, 4),)), ((2, 4), (5, 5), (6, 6)))
        self.assertEqual(Empty(Query(b"a*", whole_lines=True)).matches(b"", ()), ((0, 0),))
        self.assertEqual(Empty(Query(b"a*", literal=True)).matches(b"x", ()), ())
        self.assertEqual(Empty(Query(b"", literal=True)).matches(b"x", (), has_end=False), ((0, 0),))


class LongLines(unittest.TestCase):
    GAP = re.compile(rb" \[\.\.\. ([\d,]+) bytes(?: with ([\d,]+) match(?:es)?)? \.\.\.\] ")

    def test_what_is_shown(self) -> None:
        """What is shown and what a mark says is left out are the whole line, with each match or its number."""
        source = random.Random(7)

        def number(digits: bytes) -> int:
            return int(digits.replace(b",", b"") or 0)

        for _ in range(300):
            text = b"".join(source.choices(["ü".encode(), b"a", "\U0001f600".encode(), b"foo"], k=source.choice([10, 200, 900, 5_000])))
            spans = [match.span() for match in re.finditer(rb"foo" if source.random() < 0.5 else rb"(foo){2,}", text)]
            spans = spans[:: source.choice([1, 7, 50])]
            parts = shortened(text, spans)
            self.assertEqual(len(parts) % 2, 1)
            gaps = [found for part in parts for found in self.GAP.findall(part)]
            shown = [self.GAP.sub(b"", part) for part in parts]
            self.assertEqual(sum(map(len, shown)) + sum(number(length) for length, _ in gaps), len(text))
            self.assertEqual(len(parts) // 2 + sum(number(count) for _, count in gaps), len(spans))
            self.assertEqual(shown[1::2], [text[begin:end] for begin, end in spans[: len(parts) // 2]])
            self.assertLess(sum(map(len, shown)), 2_000)
            b"".join(shown).decode()
            if len(text) <= 1_000:
                self.assertEqual((parts, gaps), (Hit(b"", 1, text, None, tuple(spans)).parts(), []))

    def test_a_long_match(self) -> None:
        (before, match, after) = shortened(b"x" * 10 + b"a" * 9_000 + b"y", [(10, 9_010)])
        self.assertEqual((before, after), (b"x" * 10, b"y"))
        self.assertEqual(match, b"a" * 100 + b" [... 8,800 bytes ...] " + b"a" * 100)


@unittest.skipUnless(shutil.which("rg"), "there is no command rg")
class Globs(unittest.TestCase):
    def test_random_globs(self) -> None:
        source = random.Random(5)
        with tempfile.TemporaryDirectory() as name:
            top = pathlib.Path(name)
            for path in NAMES:
                if not any(above.is_file() for above in (top / path).parents) and not (top / path).is_dir():
                    (top / path).parent.mkdir(parents=True, exist_ok=True)
                    (top / path).write_text("x\n", encoding="ascii")
            have = [os.fsencode(path.relative_to(top)) for path in top.rglob("*") if path.is_file()]
            seen = 0
            for _ in range(250):
                globs = ["!" * (source.random() < 0.3) + "".join(source.choices(GLOBS, k=source.randint(1, 3))) for _ in range(source.randint(1, 2))]
                globs.sort(key=lambda glob: glob.startswith("!"))
                words = [word for glob in globs for word in ("-g", glob)]
                done = subprocess.run(["rg", "--files", "--hidden", "--no-ignore", *words], cwd=top, capture_output=True, check=False)
                if done.returncode == 2:
                    continue
                given = arguments.read(["--files", *words])
                named = asking.filter_of(given, Piece(b"", b"", False), b"")
                found = {one for one in have if named.has(one, 0)}
                with self.subTest(globs=globs):
                    self.assertEqual(found, set(done.stdout.split(b"\n")) - {b""})
                seen += bool(found) and len(found) < len(have)
            self.assertGreater(seen, 60)


class Places(unittest.TestCase):
    def test_the_folder_of_the_sockets(self) -> None:
        """It is the user's alone. Where another user may have made the usual one first, it is in the home."""
        user = os.getuid()
        with tempfile.TemporaryDirectory() as name, unittest.mock.patch("tsearch.tgrep.places._TEMPORARY", f"{name}/tmp"):
            usual, home = pathlib.Path(name, f"tmp/tgrep-{user}"), pathlib.Path(name, "home")
            for folder in usual.parent, home:
                folder.mkdir()
            with unittest.mock.patch.dict(os.environ, {"HOME": str(home), "XDG_RUNTIME_DIR": ""}):
                self.assertEqual(places.folder_of_user(), str(usual))
                self.assertEqual(usual.stat().st_mode & 0o777, 0o700)
                usual.chmod(0o755)
                for _ in range(2):
                    self.assertEqual(places.folder_of_user(), f"{home}/.cache/tgrep")
                self.assertEqual((home / ".cache/tgrep").stat().st_mode & 0o777, 0o700)
                (home / ".cache/tgrep").chmod(0o777)
                self.assertRaises(arguments.Refused, places.folder_of_user)
                os.environ["HOME"] = f"{name}/none"
                self.assertRaises(arguments.Refused, places.folder_of_user)
                os.environ["XDG_RUNTIME_DIR"] = str(home)
                self.assertEqual(places.folder_of_user(), f"{home}/tgrep")


class Parts(unittest.IsolatedAsyncioTestCase):
    def test_lines_around(self) -> None:
        rows = [Row(b"a", number, number in (3, 4, 8), b"") for number in range(1, 11)]

        def shown(before: int, after: int, most: int | None = None) -> list[tuple[int, bool]]:
            around = Around(before, after, most)
            return [(row.number, row.is_found) for given in rows for row in around.take(given)]

        self.assertEqual(shown(0, 0), [(3, True), (4, True), (8, True)])
        self.assertEqual(shown(1, 0), [(2, False), (3, True), (4, True), (7, False), (8, True)])
        self.assertEqual(shown(0, 1), [(3, True), (4, True), (5, False), (8, True), (9, False)])
        self.assertEqual(shown(2, 1, 1), [(1, False), (2, False), (3, True), (4, False)])

    def test_rows_that_come_in_pieces(self) -> None:
        data, piece = b"a\0001:foo\na\00020:\nb\0003:x:y\n", Piece(b"", b"./", False)
        for size in range(1, len(data) + 1):
            pieces = [data[at : at + size] for at in range(0, len(data), size)]
            passing, reading = Passing(piece, {}, True, False, False, False), Reading(piece, View.LINES, lambda name: name != b"b")
            self.assertEqual(b"".join(map(passing.take, pieces)), b"./a:1:foo\n./a:20:\n./b:3:x:y\n")
            rows = [row for given in pieces for row in reading.take(given)]
            self.assertEqual([row[:4] for row in rows], [(b"./a", 1, True, b"foo"), (b"./a", 20, True, b"")])

    def test_what_is_not_watched(self) -> None:
        with tempfile.TemporaryDirectory() as name:
            settings = pathlib.Path(name, "watchman.json")
            for text in '{"ignore_dirs": ["a"]}', "{", "[1]":
                settings.write_text(text, encoding="ascii")
                with unittest.mock.patch("tsearch.tgrep.watched._SETTINGS", str(settings)), self.assertRaises(watched.Unwatched):
                    watched.Watch(os.fsencode(name))
            with unittest.mock.patch.dict(sys.modules, {"pywatchman": None}), self.assertRaisesRegex(watched.Unwatched, "python3-pywatchman"):
                watched.Watch(os.fsencode(name))

    @unittest.skipUnless(importlib.util.find_spec("pywatchman"), "the library pywatchman is missing (python3-pywatchman)")
    def test_without_watchman_on_the_path(self) -> None:
        with tempfile.TemporaryDirectory() as name:
            bare = {name: value for name, value in os.environ.items() if name != "WATCHMAN_SOCK"} | {"PATH": name}
            with unittest.mock.patch.dict(os.environ, bare, clear=True), self.assertRaisesRegex(watched.Unwatched, "^watchman is not on the PATH"):
                watched.Watch(os.fsencode(name))

    async def test_a_tree_for_which_there_is_too_little_memory(self) -> None:
        with tempfile.TemporaryDirectory() as name:
            pathlib.Path(name, "a").write_bytes(b"x\n")
            kept = tree.Tree(name, "", lambda message: None, watches=False)
            with unittest.mock.patch("tsearch.tgrep.tree._TIMES", 1e12), self.assertRaises(tree.TooLarge):
                await kept.load()
            await kept.close()

    async def test_a_call_that_comes_during_a_look_has_another(self) -> None:
        kept = tree.Tree("/", "", lambda message: None, watches=False)
        began: list[asyncio.Event] = []

        async def look() -> None:
            began.append(asyncio.Event())
            await began[-1].wait()

        async def settled() -> None:
            """Lets all go on that waits for nothing else."""
            for _ in range(100):
                await asyncio.sleep(0)

        with unittest.mock.patch.object(kept, "_look", look):
            calls = [asyncio.create_task(kept.fresh())]
            await settled()
            calls += [asyncio.create_task(kept.fresh()) for _ in range(3)]
            await settled()
            self.assertEqual(len(began), 1)
            began[0].set()
            await settled()
            # one look for the three that came during the first
            self.assertEqual((len(began), [call.done() for call in calls]), (2, [True, False, False, False]))
            began[1].set()
            await asyncio.wait_for(asyncio.gather(*calls), SECONDS)
            self.assertEqual(len(began), 2)

    async def test_what_has_changed_before_it_is_watched(self) -> None:
        """Watchman is asked for what has changed since it began, which may be after the first look."""
        watch = unittest.mock.Mock()
        watch.changes.return_value = set()
        with tempfile.TemporaryDirectory() as name, unittest.mock.patch("tsearch.tgrep.tree.Watch", return_value=watch):
            kept = tree.Tree(name, "", lambda message: None)
            await kept.load()
            await kept._watching
            found = [kept.has_folder(path) for path in (name, f"{name}/..", os.path.dirname(name), f"{name}/..a")]
            self.assertEqual(found, [True, False, False, True])
            pathlib.Path(name, "a").write_bytes(b"foo\n")
            await kept.fresh()
            self.assertEqual((await kept.session.find("foo")).count, 1)
            pathlib.Path(name, "b").write_bytes(b"foo\n")
            watch.changes.return_value = {b"b"}
            await kept.fresh()
            self.assertEqual((await kept.session.find("foo")).count, 2)
            await kept.close()

    async def test_rows_are_passed_on_as_they_come(self) -> None:
        async with aio.Session.started() as session:
            await session.put("a", b"foo\n" * 50_000)
            await session.publish()
            parts: list[bytes] = []
            answer = await session.pass_on(Query(b"foo"), parts.append)
            self.assertEqual((answer.count, answer.data), (50_000, b""))
            self.assertEqual(b"".join(parts), b"".join(b"a\0%d:foo\n" % number for number in range(1, 50_001)))
            self.assertGreater(len(parts), 1)


class Example(unittest.TestCase):
    def test_the_example(self) -> None:
        command = [sys.executable, "-B", str(TOP / "examples/live_folder.py")]
        with tempfile.TemporaryDirectory() as name:
            pathlib.Path(name, "a.txt").write_bytes(b"hello\nthe end\n")
            done = subprocess.run([*command, name], input=b"the end\na(\n\n", capture_output=True, timeout=SECONDS, check=False)
            self.assertEqual((done.stdout, done.stderr), (b"> a.txt:2:the end\n> refused: group not closed at 1\n> ", b""))
            done = subprocess.run([*command, f"{name}/none"], input=b"x\n", capture_output=True, timeout=SECONDS, check=False)
            self.assertEqual((done.returncode, done.stdout), (1, b""))
            self.assertIn(b"is not a folder", done.stderr)
            done = subprocess.run([*command, "--help"], input=b"x\n", capture_output=True, timeout=SECONDS, check=False)
            self.assertEqual(done.returncode, 0)
            self.assertIn(b"Usage:", done.stdout)


class Kept(unittest.IsolatedAsyncioTestCase):
    async def test_what_is_kept_of_commits(self) -> None:
        """Those that were asked for last, and each that is in use; one that fails is made again."""
        kept, made, closed = past.Past(lambda _: None), [], []

        class Some:
            def __init__(self, key: str) -> None:
                self.key = key

            async def close(self) -> None:
                closed.append(self.key)

        async def make(key: str) -> Some:
            made.append(key)
            if key == "bad":
                raise OSError(key)
            return Some(key)

        def lent(key: str):
            return kept._lent((key,), lambda: make(key))

        async def ask(*keys: str) -> None:
            for key in keys:
                async with lent(key) as some:
                    self.assertEqual(some.key, key)

        await ask("a", "b", "a", "c", "a")
        self.assertEqual((made, closed), (["a", "b", "c"], ["b"]))
        async with lent("a"), lent("c"), lent("d"):
            await ask("e", "f", "e")
            self.assertEqual(set(closed) & {"a", "c", "d"}, set())
            async with lent("a"):
                pass
            self.assertEqual(made.count("a"), 1)
        self.assertEqual((len(kept._kept), len(kept._used)), (2, 0))
        for _ in range(2):
            with self.assertRaises(OSError):
                await ask("bad")
        self.assertEqual(made.count("bad"), 2)
        await kept.close()
        self.assertEqual((sorted(closed), len(kept._kept)), (sorted(key for key in made if key != "bad"), 0))


if __name__ == "__main__":
    unittest.main()
