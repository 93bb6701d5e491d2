"""Who sends to a session, and in which order."""

from __future__ import annotations

import asyncio
import pathlib
import tempfile
import unittest
import unittest.mock

from helpers import SECONDS
from made import Made

from tsearch import aio
from tsearch.feeding import MOST_FIRST, Feeding, Turn


class Turns(unittest.IsolatedAsyncioTestCase):
    async def asyncSetUp(self) -> None:
        self.feeding = Feeding()
        self.begun: list[str] = []
        await self.feeding.acquire()

    async def one(self, name: str) -> None:
        await self.feeding.acquire(name.startswith("first"))
        self.begun.append(name)

    async def waiting(self, *names: str) -> list[asyncio.Task[None]]:
        tasks = [asyncio.create_task(self.one(name)) for name in names]
        await asyncio.sleep(0)
        return tasks

    async def next(self) -> str:
        before = len(self.begun)
        self.feeding.release()
        await asyncio.sleep(0)
        self.assertEqual(len(self.begun), before + 1)
        return self.begun[-1]

    async def test_what_is_shown_goes_first(self) -> None:
        """However many others came before it; and one of those has its turn behind some of the first."""
        await self.waiting(*(f"other {number}" for number in range(20)))
        await self.waiting(*(f"first {number}" for number in range(8)))
        firsts, others = iter(f"first {number}" for number in range(8)), iter(f"other {number}" for number in range(20))
        wanted = [next(firsts) for _ in range(MOST_FIRST)] + [next(others)] + [next(firsts) for _ in range(MOST_FIRST)] + [next(others)]
        wanted += [*firsts, *others]
        self.assertEqual([await self.next() for _ in range(28)], wanted)

    async def test_nobody_waits_for_ever(self) -> None:
        """While those that go first never end, each of the others has its turn, in the order of coming."""
        await self.waiting("other 0", "other 1")
        for number in range(4 * MOST_FIRST):
            await self.waiting(f"first {number}")
            await self.next()
        others = [at for at, name in enumerate(self.begun) if name.startswith("other")]
        self.assertEqual(others, [MOST_FIRST, 2 * MOST_FIRST + 1])

    async def test_who_gives_up(self) -> None:
        """Its turn is the next one's, also where it comes in the step in which it gives up."""
        first, other, last = await self.waiting("first", "other", "other last")
        first.cancel()
        self.assertEqual(await self.next(), "other")
        self.feeding.release()
        last.cancel()
        await asyncio.wait([first, last])
        self.assertEqual((self.begun, first.cancelled(), last.cancelled()), (["other"], True, True))
        async with asyncio.timeout(SECONDS):
            await self.feeding.acquire()


class Pieces(unittest.IsolatedAsyncioTestCase):
    """What is published piece by piece, while others search."""

    async def asyncSetUp(self) -> None:
        self.session = object.__new__(aio.Session)
        self.session.feeding = Feeding()
        self.session._connection = self  # type: ignore[assignment]
        self.searches: set[asyncio.Future[None]] = set()

    def open_futures(self) -> set[asyncio.Future[None]]:
        return self.searches

    async def publish(self, took: float) -> asyncio.Task[None]:
        """Publishes a piece, which takes so many seconds as it seems, and has come to its end once this returns."""
        turn = Turn(self.session.feeding)
        await turn.take()
        published = asyncio.Event()

        async def publish(*, tells: bool) -> None:
            published.set()

        times = iter((0.0, took))
        self.session.publish = publish  # type: ignore[method-assign]
        with unittest.mock.patch.object(aio, "time", unittest.mock.Mock(monotonic=lambda: next(times))):
            task = asyncio.create_task(aio._publish_piece(self.session, turn))
            await published.wait()
            await asyncio.sleep(0)
        return task

    async def test_searches_go_before_the_next_piece(self) -> None:
        self.searches = {asyncio.get_running_loop().create_future() for _ in range(3)}
        task = await self.publish(took=1_000.0)
        # a push has the turn meanwhile
        async with asyncio.timeout(SECONDS):
            await self.session.feeding.acquire(True)
        for search in self.searches:
            self.assertFalse(task.done())
            search.set_result(None)
            await asyncio.sleep(0)
        async with asyncio.timeout(SECONDS):
            await task

    async def test_no_search_holds_up_pieces_for_ever(self) -> None:
        self.searches = {asyncio.get_running_loop().create_future()}
        async with asyncio.timeout(SECONDS):
            await (await self.publish(took=0.01))

    async def test_nobody_searches(self) -> None:
        self.assertTrue((await self.publish(took=1_000.0)).done())


class Pushes(unittest.IsolatedAsyncioTestCase):
    """A push while reviews are closed, each of which has much to remove: what goes to the program, in its order."""

    async def test_a_push_goes_before_the_end_of_reviews(self) -> None:
        top = pathlib.Path(self.enterContext(tempfile.TemporaryDirectory()))
        made = Made(top / "made.git")
        before = made.commit("main", {b"a.c": b"int a;\n"})
        after = made.commit("main", {b"many/%d" % number: b"int many%d;\n" % number for number in range(300)})
        async with aio.Session.started(readers=1) as session:
            revisions = aio.Revisions(session, made.path, ["main"], in_parts=True)
            await revisions.refresh()
            reviews = [await aio.Review.open(session, made.path, before, after) for _ in range(6)]
            sent: list[str] = []
            core, waiting, acquire = session._connection.core, asyncio.Event(), session.feeding.acquire
            count = 0

            async def noted(*words: bool) -> None:
                nonlocal count
                count += 1
                if count == len(reviews) + 1:
                    waiting.set()
                await acquire(*words)

            def note(kind: str):
                own = getattr(core, kind)

                def noted_one(*words, **options):
                    sent.append(kind)
                    return own(*words, **options)

                return unittest.mock.patch.object(core, kind, noted_one)

            made.commit("main", {b"pushed.c": b"int pushed;\n"})
            with note("put"), note("remove"), note("remove_under"), note("publish"):
                await acquire()
                with unittest.mock.patch.object(session.feeding, "acquire", noted):
                    tasks = [asyncio.create_task(review.close()) for review in reviews]
                    await asyncio.sleep(0)
                    push = asyncio.create_task(revisions.refresh())
                    async with asyncio.timeout(SECONDS):
                        await waiting.wait()
                        session.feeding.release()
                        await push
                        at = sent.index("put")
                        await asyncio.gather(*tasks)
            # it came last
            self.assertEqual(sent[:at], [])
            self.assertEqual(sent[at + 1], "publish")
            self.assertEqual((await session.find("int pushed", under="main:")).count, 1)
            self.assertEqual((await session.status()).documents, 302)


if __name__ == "__main__":
    unittest.main()
