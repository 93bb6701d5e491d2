"""Reviews, with git's own comparison as the judge."""

from __future__ import annotations

import asyncio
import itertools
import pathlib
import random
import re
import shutil
import tempfile
import time
import unittest

from helpers import Model  # puts the package on the path of modules
from made import Made

import tsearch
from tsearch import aio, git
from tsearch.review import Review

Row = tuple[str, int | None, int | None, bytes]


def compared(made: Made, before: str, after: str) -> dict[tuple[str, str], list[Row]]:
    """All lines of each file that two commits do not have alike, by what `git diff` shows."""
    shown = made.git("diff", "-M", "-U1000000", "--no-color", "--src-prefix=a/", "--dst-prefix=b/", before, after)
    found: dict[tuple[str, str], list[Row]] = {}
    for part in re.split(r"^diff --git ", shown, flags=re.MULTILINE)[1:]:
        head, _, body = part.partition("\n@@")
        names = {side: re.search(rf"^{re.escape(side)} (?:[ab]/)?(.*)$", head, re.MULTILINE) for side in ("---", "+++")}
        if not names["---"]:
            continue  # renamed as it is, or binary
        pair = tuple("" if found[1] == "/dev/null" else found[1].rstrip("\t") for found in names.values())
        rows, old, new = [], itertools.count(1), itertools.count(1)
        for line in body.split("\n")[1:]:
            sign, text = line[:1], line[1:].encode(errors="surrogateescape")
            if sign in ("-", "+", " "):
                rows.append((sign, None if sign == "+" else next(old), None if sign == "-" else next(new), text))
        found[pair] = rows
    return found


def found_by(review: Review, pattern: str, **options) -> dict[tuple[str, str], list[Row]]:
    files = review.find(pattern, **options).files
    return {tuple((name or b"").decode(errors="surrogateescape") for name in file[:2]): [line[:4] for line in file.lines] for file in files}


@unittest.skipUnless(shutil.which("git"), "the command git is missing")
class Reviews(unittest.TestCase):
    def setUp(self) -> None:
        self.top = pathlib.Path(self.enterContext(tempfile.TemporaryDirectory()))
        self.made = Made(self.top / "made.git")
        self.session = self.enterContext(tsearch.Session())

    def judge(self, before: str, after: str, patterns: list[str], **options) -> int:
        """Compares the lines that a review finds with those that the judge has. How many there are."""
        count = 0
        wanted = compared(self.made, before, after)
        with Review(self.session, self.made.path, before, after) as review:
            for pattern in patterns:
                rows = {pair: [row for row in lines if re.search(pattern.encode(), row[3])] for pair, lines in wanted.items()}
                rows = {pair: lines for pair, lines in rows.items() if lines}
                found = {pair: lines for pair, lines in found_by(review, pattern).items() if pair in wanted}
                self.assertEqual(found, rows, pattern)
                count += sum(map(len, rows.values()))
        return count

    def test_random_patches(self) -> None:
        source, count = random.Random(3), 0
        model = Model(4, count=12)
        names = sorted(model.documents)
        self.made.commit("a", dict(model.documents))
        for number in range(12):
            changed: dict[bytes, bytes | None] = {}
            for name in source.sample(names, 6):
                lines = self.made.files["a"].get(name, b"").split(b"\n")
                for _ in range(source.randint(0, 4)):
                    at = source.randint(0, len(lines))
                    lines[at : at + source.randint(0, 3)] = [model.body(source).partition(b"\n")[0] for _ in range(source.randint(0, 3))]
                changed[name] = source.choice([b"\n".join(lines), b"\n".join(lines) + b"\n"])
            changed[source.choice(names)] = None
            changed[b"new/%d" % number] = model.body(source) + b"\nnew\n"
            self.made.commit("b", changed, start="a")
            count += self.judge("a", "b", Model.PATTERNS + [""]) + self.judge("b", "a", ["a", ""])
            if source.random() < 0.5:
                self.made.commit("a", changed)
        self.assertGreater(count, 1_000)
        self.assertEqual(self.session.status().documents, 0)

    def test_the_lines_of_a_patch(self) -> None:
        made = self.made
        made.commit("main", {b"src/a.c": b"one\nold(x)\ntwo\nkeep(x)\n", b"src/gone.c": b"old(y)\n", b"same.c": b"old(z)\n", b"moved.c": b"k(x)\n" * 9})
        made.commit("topic", {
            b"src/a.c": b"one\ntwo\nnew(x)\nnew(y)\nkeep(x)\n", b"src/gone.c": None, b"new.c": b"new(z)\n",
            b"moved.c": None, b"lib/moved.c": b"k(x)\n" * 9 + b"new(w)\n",
        }, start="main")  # fmt: skip
        with Review(self.session, made.path, "main", "topic") as review:
            found = review.find(r"(old|new|keep|k)\(")
            self.assertEqual([(file.before, file.after, [line[:3] for line in file.lines]) for file in found.files], [
                (b"moved.c", b"lib/moved.c", [*[(" ", at, at) for at in range(1, 10)], ("+", None, 10)]),
                (None, b"new.c", [("+", None, 1)]),
                (b"src/a.c", b"src/a.c", [("-", 2, None), ("+", None, 3), ("+", None, 4), (" ", 4, 5)]),
                (b"src/gone.c", None, [("-", 1, None)]),
            ])  # fmt: skip
            self.assertEqual([found.count(sign) for sign in "-+ "], [2, 4, 10])
            self.assertEqual(found.files[2].lines[0].parts(), [b"", b"old(", b"x)"])
            self.assertEqual(list(found_by(review, "x", names="^src/")), [("src/a.c", "src/a.c")])
            self.assertEqual(list(found_by(review, "x", under="src/")), [("src/a.c", "src/a.c")])
            self.assertEqual(list(found_by(review, "x", under=["src/", "moved"], not_under="src/")), list(found_by(review, "x", names="^moved")))
            self.assertEqual(list(found_by(review, "x", names="a b", not_names="c d")), [])
            # a file is called by its path after the patch
            self.assertEqual(list(found_by(review, "x|k", names="^moved")), [])
            self.assertEqual(list(found_by(review, ".", not_names=["^(src|lib)/"])), [("", "new.c")])
            self.assertEqual(list(found_by(review, ".", not_under=["src/", "lib/"])), [("", "new.c")])
            self.assertEqual(list(found_by(review, "x", under="src/", not_under="src/g")), [("src/a.c", "src/a.c")])
            self.assertEqual([file.name for file in review.find("new", limit=3).files], [b"lib/moved.c", b"new.c", b"src/a.c"])
            self.assertEqual((review.find("new", limit=3).more, review.find("new", limit=4).more), (True, False))
            self.assertEqual(len(review.find("NEW", ignore_case=True, whole_words=True).files), 3)
            with self.assertRaises(tsearch.PatternRefused) as refused:
                review.find("x", names=["a b", "x y["])
            self.assertEqual((refused.exception.number, refused.exception.offset), (2, 3))
            # what was where nothing is seen is new, and nothing of it is shown
            for sees, wanted in (lambda path: path != b"moved.c", [("+", None, 3)]), (lambda path: path != b"lib/moved.c", [(" ", 3, 3)]):
                files = review.find("k", names="^lib", sees=sees).files
                self.assertEqual([(file.before, file.lines[2][:3]) for file in files], [(None if wanted[0][0] == "+" else b"moved.c", wanted[0])])
        made.commit("back", {b"moved.c": None, b"lib/moved.c": b"k(x)\n" * 8 + b"new(w)\n"}, start="main")
        with Review(self.session, made.path, "main", "back") as review:
            wanted = [("+", None, at) for at in range(1, 10)]
            self.assertEqual([line[:3] for line in review.find("", sees=lambda path: False).files[0].lines], wanted)
            self.assertEqual(review.find("", sees=lambda path: True).count("-"), 1)
        with Review(self.session, made.path, "main", "topic", whole=True) as review:
            self.assertEqual(found_by(review, r"old\(")["same.c", "same.c"], [(" ", 1, 1, b"old(z)")])

    def test_a_review_stays_as_it_was(self) -> None:
        """While its branches move, and other documents of the session come and go."""
        made = self.made
        made.commit("main", {b"a": b"one\n", b"b": b"stays\n"})
        made.commit("topic", {b"a": b"two\n"}, start="main")
        revisions = git.Revisions(self.session, made.path, ["main", "topic"])
        revisions.refresh()
        with Review(self.session, made.path, "main", "topic") as review, Review(self.session, made.path, "topic", "main") as other:
            wanted = {("a", "a"): [("-", 1, None, b"one"), ("+", None, 1, b"two")]}
            self.assertEqual(found_by(review, "one|two|three"), wanted)
            made.commit("topic", {b"a": b"three\n"}, start=None)
            made.git("update-ref", "-d", "refs/heads/main")
            revisions.refresh()
            self.assertEqual(found_by(review, "one|two|three"), wanted)
            self.assertEqual(found_by(other, "one|two|three"), {("a", "a"): [("-", 1, None, b"two"), ("+", None, 1, b"one")]})
            self.assertEqual(self.session.status().documents, 5)
            other.close()
            other.close()
            self.assertEqual(found_by(review, "one|two|three"), wanted)
        self.assertEqual(self.session.status().documents, 1)
        with self.assertRaisesRegex(tsearch.Error, "main is not a commit"):
            Review(self.session, made.path, "main", "topic")

    def test_paths_with_a_space(self) -> None:
        """A pattern of paths is for names as a session writes them, and `under` for paths as they are."""
        made = self.made
        made.commit("main", {b"a b/x": b"one\n", b"a/x": b"one\n"})
        made.commit("topic", {b"a b/x": b"two\n", b"a/x": b"two\n"}, start="main")
        with Review(self.session, made.path, "main", "topic") as review:
            for options in {"names": "^a%20b/"}, {"not_names": "^a/"}, {"under": "a b/"}, {"not_under": "a/"}, {"names": "%20", "under": "a"}:
                self.assertEqual(list(found_by(review, "one", **options)), [("a b/x", "a b/x")], options)
            self.assertEqual(list(found_by(review, "one", not_names="%20")), [("a/x", "a/x")])
            self.assertEqual(list(found_by(review, "one", under="a%20b/")), [])

    def test_a_prefix_that_others_have_too(self) -> None:
        """At the end only what the review has put goes."""
        made = self.made
        made.commit("main", {b"a": b"one\n"})
        made.commit("topic", {b"a": b"two\n"}, start="main")
        self.session.put("mine:other", "stays\n")
        self.session.publish()
        with Review(self.session, made.path, "main", "topic", prefix="mine:") as review:
            self.assertEqual(len(review.find("one|two").files), 1)
            self.assertEqual(self.session.status().documents, 3)
        self.assertEqual([hit.name for hit in self.session.find("")], [b"mine:other"])

        async def run() -> None:
            async with aio.Session.started() as session:
                await session.put("mine:other", "stays\n")
                async with await aio.Review.open(session, made.path, "main", "topic", prefix="mine:"):
                    self.assertEqual((await session.status()).documents, 3)
                self.assertEqual([hit.name for hit in await session.find("")], [b"mine:other"])

        asyncio.run(run())

    def test_refusals(self) -> None:
        """Those of a review are told by it alone, and those of others by the next publish, whatever comes between."""
        made = self.made
        made.commit("main", {b"a": b"one\n", b"b": b"one\n"})
        made.commit("topic", {b"a": b"x" * 20_000 + b"\n", b"b": b"two\n"}, start="main")
        bad, left_out = [(b"bad", "byte 0 in body")], {b"+:a": "line too long"}

        def told(published: tsearch.Published) -> list[tuple[bytes, str]]:
            return [(one.name, one.reason) for one in published.refused]

        with tsearch.Session(max_line=None) as session:
            session.put("bad", b"\0")
            with Review(session, made.path, "main", "topic") as review:
                self.assertEqual(review.left_out, left_out)
                self.assertEqual(told(session.publish()), bad)
                session.put("bad", b"\0")
            self.assertEqual((told(session.publish()), session.status().documents), (bad, 0))
            review = Review(session, made.path, "main", "topic")
            session.kill()
            session.restart(lambda changes: changes.put("other", "one"))
            session.put("bad", b"\0")
            review.close()  # of what the new program has not
            self.assertEqual((told(session.publish()), session.status().documents), (bad, 1))

        async def run() -> None:
            async with aio.Session.started(max_line=None) as session:
                await session.put("bad", b"\0")
                async with await aio.Review.open(session, made.path, "main", "topic") as review:
                    self.assertEqual(review.patch.left_out, left_out)
                    self.assertEqual(told(await session.publish()), bad)
                    await session.put("bad", b"\0")
                self.assertEqual((told(await session.publish()), (await session.status()).documents), (bad, 0))

        asyncio.run(run())

    def test_a_program_that_is_started_again(self) -> None:
        made = self.made
        made.commit("main", {b"a": b"one\n"})
        made.commit("topic", {b"a": b"two\n"}, start="main")
        wanted = [("-", 1, None, b"one"), ("+", None, 1, b"two")]
        with Review(self.session, made.path, "main", "topic") as review:
            self.session.kill()
            self.session.restart(lambda changes: None)
            self.assertEqual(found_by(review, "one|two"), {("a", "a"): wanted})

        async def run() -> None:
            async with aio.Session.started() as session, await aio.Review.open(session, made.path, "main", "topic") as review:
                for _ in range(2):
                    found = await review.find("one|two", names="^a", limit=5)
                    self.assertEqual([line[:4] for file in found.files for line in file.lines], wanted)
                    session.kill()
                    await session.restart(lambda changes: asyncio.sleep(0))
                await review.close()
                self.assertEqual((await session.status()).documents, 0)

        asyncio.run(run())

    def test_files_that_git_does_not_compare(self) -> None:
        def wide(text: str) -> bytes:
            return b"\xff\xfe" + text.encode("utf-16-le")

        made = self.made
        other = b"M 120000 inline link\ndata 4\nsrc/\nM 160000 0123456789012345678901234567890123456789 module\n"
        made.commit("a", {b"wide": wide("one\ntwo\nthree\n"), b"long": b"x\n" * 6_000 + b"one\n", b"binary": b"one\0"}, other=other)
        made.commit("b", {b"wide": wide("one\n2\nthree\nfour\n"), b"long": b"y\n" * 6_000 + b"one\n", b"binary": b"one\0two", b"link": b"one\n"}, start="a")
        (made.path / "info/attributes").write_text("long -diff\n")
        with Review(self.session, made.path, "a", "b") as review:
            found = found_by(review, "one|two|2|four")
            self.assertEqual(found["wide", "wide"], [(" ", 1, 1, b"one"), ("-", 2, None, b"two"), ("+", None, 2, b"2"), ("+", None, 4, b"four")])
            self.assertEqual(found["long", "long"], [(" ", 6_001, 6_001, b"one")])
            self.assertEqual(found["link", "link"], [("+", None, 1, b"one")])
            self.assertEqual(review.left_out, {b"-:binary": "binary", b"+:binary": "binary", b"-:link": "symbolic link"})

    def test_a_large_patch(self) -> None:
        made = self.made
        made.commit("a", {b"%d.c" % at: b"".join(b"int line_%d;\n" % line for line in range(300)) for at in range(300)})
        made.commit("b", {b"%d.c" % at: b"".join(b"int line_%d;\n" % (line + line // 100) for line in range(300)) for at in range(300)}, start="a")
        with Review(self.session, made.path, "a", "b") as review:
            review.find("line_1;")
            began = time.process_time()
            found = review.find("line_1[05]0;")
            self.assertLess(time.process_time() - began, 10)
            self.assertEqual([found.count(sign) for sign in "-+ "], [300, 0, 300])


if __name__ == "__main__":
    unittest.main()
