"""Reviews are counted and bounded, and given up once nobody waits for them; texts are compared in bounded steps."""

import asyncio
import contextlib
import importlib.util
import os
import pathlib
import random
import shutil
import tempfile
import unittest
import unittest.mock

from helpers import SECONDS
from made import Made

from tsearch import aio, git
from tsearch.bounds import Bounds
from tsearch.comparing import Budget, blocks
from tsearch.errors import Cancelled, SearchRefused, TooSlow
from tsearch.review import Patch

HAS_ALL = shutil.which("git") and importlib.util.find_spec("aiohttp")
REASON = "the library aiohttp (python3-aiohttp) or the command git is missing"


def common(old: list[bytes], new: list[bytes]) -> int:
    """How many lines the longest row has that both have."""
    lengths = [0] * (len(new) + 1)
    for line in old:
        before = 0
        for at, other in enumerate(new):
            before, lengths[at + 1] = lengths[at + 1], before + 1 if line == other else max(lengths[at + 1], lengths[at])
    return lengths[-1]


class Comparing(unittest.TestCase):
    def test_random_texts(self) -> None:
        """The blocks make the new lines of the old ones, with as few lines as can be, or within the steps."""
        source = random.Random(1)
        for steps in 1_000_000, 60, 0:
            for _ in range(300):
                old, new = ([source.choice([b"a", b"b", b"c"]) for _ in range(source.randint(0, 14))] for _ in "12")
                budget = Budget(steps)
                found, is_exact = blocks(old, new, budget)
                made, at = [], 0
                for first, removed, other, added in found:
                    made += old[at:first]
                    self.assertEqual(len(made), other)
                    made += new[other : other + added]
                    at = first + removed
                self.assertEqual(made + old[at:], new)
                self.assertGreaterEqual(budget.left, 0)
                self.assertTrue(is_exact or (steps < 1_000_000 and len(found) == 1))
                if is_exact:
                    self.assertEqual(sum(block[1] for block in found), len(old) - common(old, new))

    def test_nobody_waits(self) -> None:
        with self.assertRaises(Cancelled):
            blocks([b"a", b"b"], [b"b", b"c"], Budget(is_wanted=lambda: False))


@unittest.skipUnless(HAS_ALL, REASON)
class Patches(unittest.TestCase):
    def setUp(self) -> None:
        self.made = Made(pathlib.Path(self.enterContext(tempfile.TemporaryDirectory())) / "made.git")

    def patch(self, **bounds: int) -> Patch:
        return Patch(git.Store(self.made.path), "a", "b", bounds=Bounds(**bounds))

    def test_texts_that_git_does_not_compare(self) -> None:
        """Each with thousands of lines of two kinds: all together take no more steps than one may. That they are compared coarsely is told."""
        source = random.Random(1)
        text = lambda: b"\xff\xfe" + "".join(source.choice("ab") + "\n" for _ in range(4_000)).encode("utf-16-le")  # noqa: E731
        for branch in "a", "b":
            self.made.commit(branch, {b"%d" % at: text() for at in range(3)} | {b"!few": b"\xff\xfe" + f"one\n{branch}\n".encode("utf-16-le")})
        patch = self.patch()
        list(patch.documents())
        pairs = {one.after: (one.was, one.now) for one in patch.changed}
        hunks = {name: patch.hunks(was, now) for name, (was, now) in pairs.items()}
        self.assertEqual([len(hunks[b"%d" % at]) for at in range(3)], [1] * 3)
        self.assertEqual({name for name, pair in pairs.items() if patch.is_coarse(*pair)}, {b"0", b"1", b"2"})

    def test_a_patch_that_is_too_large(self) -> None:
        """It is refused by name, before a text is read."""
        self.made.commit("a", {b"%d" % at: b"%d\n" % at for at in range(20)})
        self.made.commit("b", {b"%d" % at: b"%d more\n" % at for at in range(20)})
        with self.assertRaisesRegex(SearchRefused, "the patch has over 19 files"):
            self.patch(files=19)
        patch = self.patch(files=20, bytes=100)
        patch.store._begun = self.fail
        with self.assertRaisesRegex(SearchRefused, "the files of the patch have over 100 bytes"):
            list(patch.documents())
        patch = self.patch(body=7)
        self.assertEqual(len(list(patch.documents())), 30)
        self.assertEqual(patch.left_out[b"+:10"], "over 7 bytes")


@unittest.skipUnless(HAS_ALL, REASON)
class Reviewed(unittest.IsolatedAsyncioTestCase):
    async def asyncSetUp(self) -> None:
        from tsearch.web.repositories import Objects, Served, Shared
        from tsearch.web.reviews import Most

        self.top = pathlib.Path(self.enterContext(tempfile.TemporaryDirectory()))
        self.made = Made(self.top / "made.git")
        self.commits = [self.made.commit("main", {b"%d.c" % at: b"int x%d_%d;\n" % (at, number) for at in range(100)}) for number in range(5)]
        self.session = await self.enterAsyncContext(aio.Session.started())
        self.shared = Shared(self.session, self.fail, Most(open=2, milliseconds=int(SECONDS * 1_000), files=150))
        self.objects = Objects(Served("made", os.fsencode(self.made.path), ("main",)), self.shared)
        await self.objects._look(self.fail)
        self.held, self.begun = asyncio.Event(), asyncio.Event()
        self.held.set()

        async def in_thread(work, *words):
            self.begun.set()
            await self.held.wait()
            return await asyncio.to_thread(work, *words)

        self.shared.reviews._in_thread = in_thread

    async def expect(self, documents: int, reviews: int) -> None:
        """Waits until there are so many."""
        async with asyncio.timeout(SECONDS):
            while ((await self.session.status()).documents, self.shared.reviews.count) != (documents, reviews):
                await asyncio.sleep(0.01)

    async def search(self, before: int, after: int, visitor: str = "") -> int:
        async with self.objects.review(self.commits[before], self.commits[after], visitor) as review:
            return (await review.find("int x7_")).count("+")

    async def test_a_push_beside_reviews(self) -> None:
        """It is found though reviews are being opened, and those behind them wait."""
        self.held.clear()
        tasks = [asyncio.create_task(self.search(0, after, f"visitor {after}")) for after in range(1, 5)]
        await self.begun.wait()
        self.made.commit("main", {b"new.c": b"int pushed;\n"})
        async with asyncio.timeout(SECONDS / 2):
            await self.objects._look(self.fail)
        self.assertEqual(len(await self.session.find("int pushed")), 1)
        self.assertFalse(any(task.done() for task in tasks))
        self.assertEqual(self.shared.reviews.count, 2)
        self.held.set()
        self.assertEqual(await asyncio.gather(*tasks), [1] * 4)
        await self.expect(101 + 2 * 200, 2)

    async def test_nobody_waits_any_more(self) -> None:
        """Then it is not opened any more, and leaves nothing; so if it takes too long."""
        self.held.clear()
        tasks = [asyncio.create_task(self.search(0, 1, visitor)) for visitor in "ab"]
        await self.begun.wait()
        tasks[0].cancel()
        await asyncio.wait(tasks[:1])
        self.assertEqual(self.shared.reviews.count, 1)
        tasks[1].cancel()
        await asyncio.wait(tasks)
        self.assertEqual(self.shared.reviews.count, 0)
        self.held.set()
        await self.expect(100, 0)
        self.held.clear()
        self.shared.reviews._most = self.shared.reviews._most.__class__(open=2, milliseconds=10)
        with self.assertRaises(TooSlow):
            await self.search(0, 1)
        self.held.set()
        await self.expect(100, 0)

    async def test_what_is_told(self) -> None:
        """Whether it was its own turn that took too long, or those of others, and when to come again."""
        from tsearch.web import reviews

        self.held.clear()
        self.shared.reviews._most = reviews.Most(open=8, milliseconds=int(SECONDS * 1_000))
        tasks = [asyncio.create_task(self.search(0, after, f"visitor {after}")) for after in (1, 2)]
        await self.begun.wait()
        while sum(one.has_begun for one in self.shared.reviews._open.values()) < 2:
            await asyncio.sleep(0.001)
        self.shared.reviews._most = reviews.Most(open=8, milliseconds=50)
        for after, why in (3, "others are opened first, and it has no turn"), (1, "its files are not compared"):
            with self.assertRaises(reviews.NotOpen) as refused:
                await self.search(0, after, "one more")
            self.assertEqual((refused.exception.reason, refused.exception.seconds), (f"the comparison is not open, since {why} in 50 ms", 5))
        self.held.set()
        self.assertEqual(await asyncio.gather(*tasks), [1, 1])

    async def test_those_of_one_visitor(self) -> None:
        """So many are opened, so many wait, and one more is refused; another visitor has a turn."""
        from tsearch.web import reviews
        from tsearch.web.turns import TooMany

        self.held.clear()
        self.shared.reviews._most = reviews.Most(open=8, milliseconds=int(SECONDS * 1_000))
        most = reviews.MOST_OF_ONE + reviews._MOST_WAITING
        tasks = [asyncio.create_task(self.search(at % 4, at % 3 + 1 + at % 2, "one")) for at in range(most)]
        await self.begun.wait()
        while self.shared.reviews._waited["one"] < most:
            await asyncio.sleep(0)
        with self.assertRaises(TooMany) as refused:
            await self.search(0, 1, "one")
        from tsearch.web.visitors import refused_for_now

        told = refused_for_now(refused.exception)
        self.assertEqual((told.status, told.body, told.headers["Retry-After"]), (429, b'{"refused": "too many comparisons at a time"}\n', "1"))
        self.assertLessEqual(self.shared.reviews.count, reviews.MOST_OF_ONE)
        other = asyncio.create_task(self.search(4, 0, "other"))
        self.held.set()
        self.assertEqual(await other, 1)
        await asyncio.gather(*tasks)
        self.assertEqual((dict(self.shared.reviews._waited), self.shared.reviews._turns), ({}, {}))

    async def test_one_that_is_too_large(self) -> None:
        """It is named, and leaves nothing."""
        self.made.commit("main", {b"n%d.c" % at: b"int more;\n" for at in range(60)})
        last = self.made.git("rev-parse", "main")
        await self.objects._look(self.fail)
        with self.assertRaisesRegex(SearchRefused, "the patch has over 150 files"):
            async with self.objects.review(self.commits[0], last):
                pass
        await self.expect(160, 0)
        with contextlib.ExitStack() as stack:
            from tsearch.web import reviews

            stack.enter_context(unittest.mock.patch.object(reviews, "MOST_LINES", 50))
            async with self.objects.review(self.commits[0], self.commits[1]) as review:
                with self.assertRaisesRegex(SearchRefused, "over 50 lines of the patch match"):
                    await review.find("int")
                self.assertEqual((await review.find("int x7_")).count("+"), 1)


if __name__ == "__main__":
    unittest.main()
