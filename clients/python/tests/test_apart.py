"""Searches over several repositories of which one is slow."""

from __future__ import annotations

import asyncio
import os
import pathlib
import tempfile
import unittest
import unittest.mock
from collections.abc import Callable

from helpers import SECONDS
from test_host import NO_REASON, REASON

from tsearch import aio
from tsearch.answers import Answer
from tsearch.query import Query


@unittest.skipUnless(NO_REASON, REASON)
class Slow(unittest.IsolatedAsyncioTestCase):
    async def asyncSetUp(self) -> None:
        self.top = pathlib.Path(self.enterContext(tempfile.TemporaryDirectory()))
        self.session = await self.enterAsyncContext(aio.Session.started())

    async def chosen(self, names: str, filter_of: Callable[[str], object]) -> tuple:
        """Folders with a line each, and what they share."""
        from tsearch.web.repositories import Files, Served, Shared

        shared, chosen = Shared(self.session, self.fail), []
        for name in names:
            (self.top / name).mkdir()
            (self.top / name / "text").write_text(f"x {name}\n")
            chosen.append((Files(Served(name, os.fsencode(self.top / name)), shared), filter_of(name)))
            await chosen[-1][0]._look(self.fail)
        return shared, chosen

    async def test_one_that_is_slow(self) -> None:
        """The others do not wait for it: it is named, and asked apart from them next time. By itself it has all the time."""
        from tsearch.web import searching
        from tsearch.web.repositories import Filter
        from tsearch.web.searching import Late, Search

        shared, chosen = await self.chosen("abcdefghi", lambda name: Filter(names=("text",) * (name > "d")))
        poison = chosen[4][0]
        find, is_slow, asked, cancelled = shared.find, True, [], 0

        async def slowly(query: Query) -> Answer:
            nonlocal cancelled
            asked.append([at for at, (one, _) in enumerate(chosen) if any(start.startswith(one.prefix) for start in query.under)])
            if is_slow and 4 in asked[-1]:
                try:
                    await asyncio.sleep(100 * SECONDS)
                except asyncio.CancelledError:
                    cancelled += 1
                    raise
            return await find(query)

        self.enterContext(unittest.mock.patch.object(shared, "find", slowly))
        query = Query.of("x", context=0, limit=101)

        async def searched(milliseconds: int, some: list) -> list:
            return await Search(shared, some, query, "", milliseconds, 1 << 20).find()

        # it is found to be slow in its share of the time, which is a quarter, after half of the time that all have together
        loop = asyncio.get_running_loop()
        async with asyncio.timeout(SECONDS):
            with unittest.mock.patch.object(searching, "GRACE", 20.0):
                began = loop.time()
                found = await searched(400, chosen)
        self.assertLess(loop.time() - began, 20)  # all of the time ends after 20.4 seconds
        self.assertEqual([type(one) is Late for one in found], [at == 4 for at in range(9)])
        # each later search leaves it out of what it asks of all, and has its answer as soon as the others have theirs
        asked.clear()
        async with asyncio.timeout(SECONDS):
            for _ in range(3):
                found = await searched(int(100 * SECONDS * 1_000), chosen)
                self.assertEqual([type(one) is Late for one in found], [at == 4 for at in range(9)])
                self.assertEqual([[hit.text for hit in one.answer] for one in found[:4]], [[b"x %s" % name.encode()] for name in "abcd"])
        self.assertEqual([some for some in asked if 4 in some], [[4]] * 3)
        self.assertEqual(cancelled, 5)
        # what is quick again is among the answers
        is_slow = False
        with unittest.mock.patch.object(searching, "_LEAST_SHARE", SECONDS):
            found = await searched(600_000, chosen)
        self.assertFalse([one for one in found if isinstance(one, Exception)])
        # by itself it has all its time
        is_slow = True
        task = asyncio.create_task(searched(int(100 * SECONDS * 1_000), chosen[4:5]))
        await asyncio.sleep(0.5)
        self.assertFalse(task.done())
        task.cancel()
        await asyncio.wait([task])
        self.assertEqual(shared.apart.of([one for one, _ in chosen]), {poison})

    async def test_a_small_one_that_waits(self) -> None:
        """It is named, and not asked apart next time: it has waited for what others ask for."""
        from tsearch.web import searching
        from tsearch.web.repositories import Filter
        from tsearch.web.searching import Late, Search

        shared, chosen = await self.chosen("abcde", lambda name: Filter())
        for name in "abcd":
            (self.top / name / "more").write_text("more\n" * 100)
        for one, _ in chosen:
            await one._look(self.fail)
        find, small = shared.find, chosen[4][0]

        async def slowly(query: Query) -> Answer:
            if any(start.startswith(small.prefix) for start in query.under):
                await asyncio.sleep(100 * SECONDS)
            return await find(query)

        with unittest.mock.patch.object(shared, "find", slowly), unittest.mock.patch.object(searching, "GRACE", 20.0):
            found = await Search(shared, chosen, Query.of("x", context=0, limit=101), "", 400, 1 << 20).find()
        self.assertEqual([type(one) is Late for one in found], [False] * 4 + [True])
        self.assertEqual(len(shared.apart._known), 0)

    async def test_where_all_are_slow(self) -> None:
        """None is given up after its share, and none is noted as slow: so it is where the page has too much to do."""
        from tsearch.web import searching
        from tsearch.web.repositories import Filter
        from tsearch.web.searching import Search

        shared, chosen = await self.chosen("abcde", lambda name: Filter())
        find = shared.find

        async def slowly(query: Query) -> Answer:
            await asyncio.sleep(100 * SECONDS if len(query.under) > 1 else 5)
            return await find(query)

        with unittest.mock.patch.object(shared, "find", slowly), unittest.mock.patch.object(searching, "GRACE", 16.0):
            found = await Search(shared, chosen, Query.of("x", context=0, limit=101), "", 400, 1 << 20).find()
        self.assertEqual([[hit.text for hit in one.answer] for one in found], [[b"x %s" % name.encode()] for name in "abcde"])
        self.assertEqual(len(shared.apart._known), 0)

    def test_which_are_asked_apart(self) -> None:
        """At most a quarter, those that were slow last; for longer each time; and none for a pattern that is slow everywhere."""
        from tsearch.web import apart

        class One:
            """In place of a repository."""

        some, now = [One() for _ in range(12)], 0.0
        own = apart.Apart(lambda: now)
        own.note(some[:4], 12)
        self.assertEqual(own.of(some), set())
        own.note(some[:3], 12)
        self.assertEqual(own.of(some), set(some[:3]))
        now = 1.0
        own.note(some[3:5], 12)
        self.assertEqual(len(own.of(some)), 3)
        self.assertLessEqual(set(some[3:5]), own.of(some))
        self.assertEqual((own.of(some[:2]) <= set(some[:2]), len(own.of(some[:2])), own.of(some[:1])), (True, 1, set()))
        now = 62.0
        self.assertEqual(own.of(some), set())
        own.note(some[:1], 12)
        now += 100.0
        self.assertEqual(own.of(some), set(some[:1]))
        now += 100.0
        self.assertEqual(own.of(some), set())


if __name__ == "__main__":
    unittest.main()
