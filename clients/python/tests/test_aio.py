"""The session for asyncio: many tasks, cancelled ones, kills, streams."""

import asyncio
import os
import random
import signal
import unittest

from helpers import SECONDS, SLOW, Model, hits_of, plain, shown, slow_documents, stand_in, stop, stopped

import tsearch
from tsearch import aio


class Sessions(unittest.IsolatedAsyncioTestCase):
    async def until(self, holds) -> None:
        async with asyncio.timeout(SECONDS):
            while not holds():
                await asyncio.sleep(0.01)

    async def test_many_tasks_share_a_session(self) -> None:
        model = Model(2)
        async with aio.Session.started(most_open=100) as session:
            await asyncio.gather(*[session.put(name, body) for name, body in model.documents.items()])
            self.assertEqual((await session.publish()).documents, len(model.documents))

            async def search(number: int) -> None:
                source = random.Random(number)
                pattern, options = source.choice(model.PATTERNS), model.options(source)
                answer = await session.find(pattern, **options)
                self.assertEqual(shown(answer), model.find(pattern, **options), (pattern, options))

            async with asyncio.timeout(SECONDS):
                await asyncio.gather(*[search(number) for number in range(600)])
            self.assertEqual((await session.status()).open, 0)

    async def test_tasks_that_are_cancelled(self) -> None:
        """Of many searches half are cancelled at random times. The others have their own answers, and the program has none open."""
        model = Model(3)
        async with aio.Session.started() as session:
            for name, body in model.documents.items():
                await session.put(name, body)
            for name, body in slow_documents().items():
                await session.put(name, body)
            await session.publish()
            source = random.Random(4)

            async def search(pattern: str) -> None:
                answer = await session.find(pattern, names="f[0-9]")
                self.assertEqual(shown(answer), model.find(pattern))

            async with asyncio.timeout(SECONDS):
                stop(session.pid)
                slow = [asyncio.create_task(session.find(SLOW, names="^slow")) for _ in range(3)]
                tasks = [asyncio.create_task(search(source.choice(model.PATTERNS))) for _ in range(400)]
                for task in slow + source.sample(tasks, 200):
                    await asyncio.sleep(source.choice([0, 0, 0.001]))
                    task.cancel()
                    if task is slow[-1]:
                        os.kill(session.pid, signal.SIGCONT)
                outcomes = await asyncio.gather(*tasks, *slow, return_exceptions=True)
                self.assertEqual([one for one in outcomes if one is not None and not isinstance(one, asyncio.CancelledError)], [])
                self.assertGreaterEqual(sum(one is None for one in outcomes), 200)
                self.assertTrue(all(task.cancelled() for task in slow))
                await session.sync()
                self.assertEqual((await session.status()).open, 0)

    async def test_time(self) -> None:
        async with aio.Session.started() as session:
            for name, body in slow_documents().items():
                await session.put(name, body)
            await session.publish()
            for _ in range(4):
                with stopped(session.pid), self.assertRaises(TimeoutError):
                    async with asyncio.timeout(0.1):
                        await session.find(SLOW)
            with stopped(session.pid):
                search = await session.begin(SLOW)
                session.cancel(search)
            with self.assertRaises(tsearch.Cancelled):
                await search
            async with asyncio.timeout(SECONDS):
                await session.sync()
                self.assertEqual(len(await session.find("^end$")), 1)

    async def test_refusals(self) -> None:
        async with aio.Session.started() as session:
            with self.assertRaises(tsearch.PatternRefused) as raised:
                await session.find("a(b", whole_words=True)
            self.assertEqual(raised.exception.offset, 1)
            with self.assertRaises(tsearch.ChangeRefused):
                await session.put("", "x")
            with self.assertRaises(tsearch.ChangeRefused):
                await session.remove_under("")
            change, bad = await session.put("a", "x"), await session.put("b", b"\0")
            await change.wait()
            with self.assertRaises(tsearch.ChangeRefused):
                await bad.wait()
            self.assertEqual([one.name for one in (await session.publish()).refused], [b"b"])
            # refusals give their turns back
            async with asyncio.timeout(SECONDS):
                for _ in range(1_200):
                    with self.assertRaises(tsearch.PatternRefused):
                        await session.find("a\nb")
            self.assertEqual(len(await session.find("x")), 1)
            await (await session.copy_under("a", "b/a")).wait()
            self.assertEqual((await session.publish()).documents, 2)
            await (await session.remove_under("b/")).wait()
            await (await session.remove_under("a")).wait()
            self.assertEqual((await session.publish()).documents, 0)

    async def test_kills(self) -> None:
        documents = {b"f%d" % number: b"line %d\n" % number * 500 for number in range(40)}
        wanted = hits_of(documents, "line")

        async def feed(changes: aio.Changes) -> None:
            for name, body in documents.items():
                await changes.put(name, body)

        async with aio.Session.started() as session:
            await feed(session)
            await session.publish()
            counts = {"ended": 0, "whole": 0}
            stop = asyncio.Event()

            async def search() -> None:
                while not stop.is_set():
                    try:
                        answer = await session.find("line")
                        self.assertEqual(plain(answer), wanted)
                        counts["whole"] += 1
                    except tsearch.Ended:
                        await session.restart(feed)
                        counts["ended"] += 1

            async with asyncio.timeout(SECONDS):
                tasks = [asyncio.create_task(search()) for _ in range(6)]
                for _ in range(5):
                    before, life = counts["whole"], session.life
                    await self.until(lambda before=before: counts["whole"] > before + 3)
                    os.kill(session.pid, signal.SIGKILL)
                    await self.until(lambda life=life: session.life > life)
                stop.set()
                await asyncio.gather(*tasks)
            self.assertEqual(session.life, 6)

    async def test_every_waiter_is_told(self) -> None:
        session = await aio.Session.start()
        stop(session.pid)
        calls = [session.status(), session.find("x"), session.publish(), session.put("a", b"x" * 1_000_000), session.find("y")]
        waiting = [asyncio.create_task(call) for call in calls]
        await asyncio.sleep(0.2)
        waiting.append(asyncio.create_task(session.sync()))
        await asyncio.sleep(0.1)
        session.kill()
        async with asyncio.timeout(SECONDS):
            outcomes = await asyncio.gather(*waiting, return_exceptions=True)
        # the put itself only hands its body over
        self.assertEqual([type(one) for number, one in enumerate(outcomes) if number != 3], [tsearch.Ended] * 5)
        with self.assertRaises(tsearch.Ended):
            await session.status()
        self.assertEqual(await session.close(), -signal.SIGKILL)

    async def test_a_program_that_takes_nothing(self) -> None:
        async with aio.Session.started(max_line=None) as session:
            await session.status()
            stop(session.pid)
            sent = 0

            async def put() -> None:
                nonlocal sent
                for number in range(100):
                    await session.put(f"f{number}", b"x" * 99_999)
                    sent += 1

            task = asyncio.create_task(put())
            await asyncio.sleep(0.3)
            self.assertLess(sent, 60)
            os.kill(session.pid, signal.SIGCONT)
            async with asyncio.timeout(SECONDS):
                await task
                refused = (await session.publish()).refused
            self.assertEqual({one.reason for one in refused}, {"line too long"})

    async def test_more_refusals_than_pipes_hold(self) -> None:
        """The session reads while it sends, so neither side waits for ever."""
        count = 40_000
        async with aio.Session.started(max_commands=1) as session, asyncio.timeout(SECONDS):
            await session.put("a", "x")
            for number in range(count):
                await session.put(f"f{number}", "some text\n" * 10)
            self.assertEqual(len((await session.publish()).refused), count)

    async def test_streams(self) -> None:
        async def serve(reader: asyncio.StreamReader, writer: asyncio.StreamWriter) -> None:
            pipe = asyncio.subprocess.PIPE
            program = await asyncio.create_subprocess_exec(tsearch.find_program(), "--live", stdin=pipe, stdout=pipe)

            async def pump(source: asyncio.StreamReader, target: asyncio.StreamWriter) -> None:
                while data := await source.read(65_536):
                    target.write(data)
                    await target.drain()
                target.close()

            await asyncio.gather(pump(reader, program.stdin), pump(program.stdout, writer))
            await program.wait()

        server = await asyncio.start_server(serve, "127.0.0.1", 0)
        async with server, asyncio.timeout(SECONDS):
            session = aio.Session.over(*await asyncio.open_connection(*server.sockets[0].getsockname()[:2]))
            await session.put("a", "hello\n" * 1_000)
            await session.publish()
            answers = await asyncio.gather(*[session.find("hello") for _ in range(50)])
            self.assertEqual({len(answer) for answer in answers}, {1_000})
            with self.assertRaises(ValueError):
                await session.restart(lambda changes: None)
            self.assertIsNone(await session.close())

    async def test_what_is_sent_for_a_search_that_nobody_waits_for(self) -> None:
        code = """
            seen = [next(items) for _ in range(4)]
            assert sorted(seen) == [b"cancel 1\\n", b"cancel 2\\n", b"find -Z -- late\\n", b"find -Z -- slow\\n"], seen
            say(b"search 1 refused: cancelled\\nsearch 2 version 0 lines 1\\na\\0001:late\\n")
            assert next(items) == b"find -Z -- x\\n"
            say(b"search 3 version 0 lines 0\\n")
        """
        session = await aio.Session.start(stand_in(code))
        tasks = [asyncio.create_task(session.find(pattern)) for pattern in ("slow", "late")]
        await self.until(lambda: len(session._connection.open_futures()) == 2)
        for task in tasks:
            task.cancel()
        async with asyncio.timeout(SECONDS):
            await asyncio.wait(tasks)
            self.assertTrue(all(task.cancelled() for task in tasks))
            self.assertEqual((await session.find("x")).hits(), [])
            self.assertEqual(await session.close(SECONDS), 0)

    async def test_a_search_that_is_cancelled_before_it_is_sent(self) -> None:
        """It waits behind a body that the program does not take. Its cancel is sent behind it."""
        code = """
            sys.stdin.buffer.read(int(next(items).split()[2]) + 1)
            seen = [next(items), next(items)]
            assert seen == [b"find -Z -- x\\n", b"cancel 1\\n"], seen
            say(b"search 1 refused: cancelled\\n")
            assert next(items) == b"find -Z -- y\\n"
            say(b"search 2 version 0 lines 0\\n")
        """
        session = await aio.Session.start(stand_in(code))
        with stopped(session.pid):
            put = asyncio.create_task(session.put("a", b"x" * 1_000_000))
            await asyncio.sleep(0)  # it is sent first
            search = asyncio.create_task(session.find("x"))
            await self.until(lambda: session._connection.open_futures())
            self.assertFalse(put.done() or search.done())
            search.cancel()
            await asyncio.wait([search])
        async with asyncio.timeout(SECONDS):
            await put
            self.assertTrue(search.cancelled())
            self.assertEqual((await session.find("y")).hits(), [])
            self.assertEqual(await session.close(SECONDS), 0)

    async def test_a_program_that_is_none(self) -> None:
        for code, error in (
            ("say(b'hello\\n'); time.sleep(60)", tsearch.NotUnderstood),
            ("next(items); say(b'search 1 version 0 lines 5\\na\\0001:x\\na\\0002'); os._exit(3)", tsearch.Ended),
            ("os.close(1); time.sleep(60)", tsearch.Ended),
        ):
            with self.subTest(code=code):
                session = await aio.Session.start(stand_in(code))
                async with asyncio.timeout(SECONDS):
                    with self.assertRaises(error):
                        await session.find("x")
                    session.kill()
                    await session.close()


if __name__ == "__main__":
    unittest.main()
