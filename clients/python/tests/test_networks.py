"""Networks of visitors: whose turn it is, how many connections there are, and what is said when there are too many."""

from __future__ import annotations

import asyncio
import collections
import concurrent.futures
import gc
import logging
import os
import re
import resource
import signal
import socket
import subprocess
import threading
import time
import unittest
import unittest.mock
import urllib.error

from helpers import SECONDS, SLOW, slow_file, stopped, until
from serving import Server
from test_host import NO_REASON, REASON, Host


@unittest.skipUnless(NO_REASON, REASON)
class Turns(unittest.IsolatedAsyncioTestCase):
    def setUp(self) -> None:
        from tsearch.web.turns import Networks
        from tsearch.web.turns import Turns as Own

        self.turns = Own(Networks(), 8)
        self.begun: list[str] = []
        self.goes_on: dict[str, asyncio.Event] = collections.defaultdict(asyncio.Event)

    async def visit(self, visitor: str, ends: asyncio.Event | None = None) -> None:
        async with self.turns.turn(visitor):
            self.begun.append(visitor)
            await (ends or self.goes_on[visitor]).wait()

    async def test_networks_have_their_turns_one_after_the_other(self) -> None:
        """A network with many that wait holds up nobody: of two wider ones each has half, and a new one is the next."""
        ends = [asyncio.Event() for _ in range(1_000)]
        left = iter(ends)
        many = [f"2001:db8:1:{number:x}00::/56" for number in range(60)]
        few = "198.51.100.7"
        tasks = [asyncio.create_task(self.visit(visitor, next(left))) for _ in range(4) for visitor in many]
        await asyncio.sleep(0)
        self.assertEqual(len(self.begun), 8)
        # all of the first wider network have eight at work, and are more than may be
        tasks.append(asyncio.create_task(self.visit(few, next(left))))
        await asyncio.sleep(0)
        for end in ends[:8]:
            end.set()
            await asyncio.sleep(0.001)
        self.assertEqual(self.begun[8], few)
        # each of the first one's visitors has its turn before one has a second
        for end in ends:
            end.set()
        async with asyncio.timeout(SECONDS):
            await asyncio.gather(*tasks)
        own = [visitor for visitor in self.begun if visitor != few]
        self.assertEqual(len(own), 240)
        self.assertEqual(set(own[:60]), set(many))
        self.assertEqual(collections.Counter(own).most_common()[-1][1], 4)
        self.assertTrue(self.turns.is_idle)

    async def test_two_wider_networks_share(self) -> None:
        one = [f"2001:db8:1:{number:x}00::/56" for number in range(60)]
        other = [f"198.51.100.{number}" for number in range(60)]
        ended = asyncio.Event()
        ended.set()
        tasks = [asyncio.create_task(self.visit(visitor, ended)) for _ in range(2) for visitor in one + other]
        async with asyncio.timeout(SECONDS):
            await asyncio.gather(*tasks)
        first = self.begun[8:128]
        self.assertTrue(40 <= sum(":" in visitor for visitor in first) <= 80, first)
        self.assertTrue(self.turns.is_idle)

    async def test_bounds(self) -> None:
        """A visitor has two at work and sixteen that wait, a wider network eight and half of all that may wait, and then all are refused."""
        from tsearch.web.turns import TooMany

        async def refused(visitor: str) -> bool | None:
            task = asyncio.create_task(self.visit(visitor))
            await asyncio.sleep(0)
            self.tasks.append(task)
            if task.done() and isinstance(task.exception(), TooMany):
                return task.exception().of_all
            return None

        self.tasks: list[asyncio.Task[None]] = []
        self.assertEqual([await refused("192.0.2.1") for _ in range(20)], [None] * 18 + [False] * 2)
        self.assertEqual(len(self.begun), 2)
        found = [await refused(f"192.0.2.{number % 200 + 2}") for number in range(520)]
        self.assertEqual((found.count(True), len(self.begun)), (0, 8))
        self.assertEqual(found.count(None), 6 + 512 - 16)
        other = [await refused(f"{number}.2.3.4") for number in range(1, 255) for _ in range(3)]
        self.assertEqual((other.count(None), other.count(True)), (1_024 - 512, len(other) - 512))
        for task in self.tasks:
            task.cancel()
        await asyncio.wait(self.tasks)
        self.assertTrue(self.turns.is_idle)

    async def test_who_gives_up(self) -> None:
        """Whoever has gone has no turn, whenever that is; and a turn that comes as one goes is given to the next."""
        first = asyncio.create_task(self.visit("a"))
        others = [asyncio.create_task(self.visit(one)) for one in "a" * 3 + "b" * 3]
        await asyncio.sleep(0)
        self.assertEqual(sorted(self.begun), ["a", "a", "b", "b"])
        # the first ends and who waits goes in the same step
        self.goes_on["a"].set()
        others[1].cancel()
        others[2].cancel()
        await asyncio.wait([first, *others[:3]], timeout=SECONDS)
        self.goes_on["b"].set()
        await asyncio.wait(others, timeout=SECONDS)
        self.assertEqual(sorted(self.begun), ["a", "a", "b", "b", "b"])
        self.assertTrue(self.turns.is_idle)

    def test_what_is_a_wider_network(self) -> None:
        from tsearch.web.turns import wide_of

        for visitor, wide in {
            "192.0.2.1": "192.0.2.0/24", "2001:db8:0:1200::/56": "2001:db8::/48", "10.0.0.0/8": "10.0.0.0/8", "": "", "a b": "a b",
            "192.0.2.128/25": "192.0.2.0/24", "2001:db8::/32": "2001:db8::/32",
        }.items():  # fmt: skip
            self.assertEqual(wide_of(visitor), wide)


@unittest.skipUnless(NO_REASON, REASON)
class Crowds(Host):
    def test_a_hundred_addresses_of_one_network(self) -> None:
        """All with patterns that take their whole time: an ordinary visitor is answered again and again while they wait, and none of those who
        are too many waits for ever."""
        self.made.commit("main", {b"slow/%d" % number: slow_file(number) for number in range(400)})
        server = self.serve("--proxy", "127.0.0.1", "--search-ms", "2000", "--revisions", "main", str(self.made.path))
        ending, hostile = threading.Event(), collections.Counter()

        def attack(number: int) -> None:
            while not ending.is_set():
                path = f"/api/find?q={SLOW.replace('+', '%2B')}&n={number}"
                status, _, headers = server.get(path, {"X-Forwarded-For": f"2001:db8:7:{number // 2:x}00::{number}"})
                hostile[status] += 1
                if status in (429, 503) and "Retry-After" in headers:
                    ending.wait(0.2)

        with concurrent.futures.ThreadPoolExecutor(100) as pool:
            attacks = [pool.submit(attack, number) for number in range(100)]
            until(lambda: self.metric(server, "tsearch_open_searches") > 0)
            times: list[float] = []
            while len(times) < 20 or (hostile[503] < 40 and len(times) < 1_000):
                before, began = hostile[503], time.monotonic()
                status, body, _ = server.get("/api/find?q=int%20main", {"X-Forwarded-For": f"198.51.100.{len(times) % 250}"})
                times.append(time.monotonic() - began)
                self.assertEqual((status, body.count(b'"hits"')), (200, 1))
                # in the order of coming each would have waited for those that were there before, which are a hundred
                self.assertLess(hostile[503] - before, 60)
            ending.set()
            concurrent.futures.wait(attacks, SECONDS)
        times.sort()
        last = times[len(times) * 95 // 100]
        print(f"{len(times)} searches beside a hundred hostile visitors: median {times[len(times) // 2]:.3f} s, 95 % {last:.3f} s, most {times[-1]:.3f} s", flush=True)

    def test_when_to_come_again(self) -> None:
        """A search and a file that are too many are told so, with a status and a time."""
        server = self.serve("--proxy", "127.0.0.1", "--visitor-waiting", "1", "--visitor-at-work", "1", "--visitor-all-waiting", "2", str(self.made.path))
        with concurrent.futures.ThreadPoolExecutor(10) as pool, stopped(server.programs()[0]):
            asked = []
            for address, count, wanted in ("192.0.2.1", 3, (429, "1")), ("198.51.100.1", 3, (429, "1")), ("203.0.113.1", 2, (503, "5")):
                own = [pool.submit(server.get, "/api/find?q=int", {"X-Forwarded-For": address}) for _ in range(count)]
                status, body, headers = concurrent.futures.wait(own, SECONDS, concurrent.futures.FIRST_COMPLETED).done.pop().result()
                self.assertEqual((status, headers["Retry-After"]), wanted)
                self.assertEqual(body, b'{"refused": "too many searches at a time"}\n')
                asked += own
            file = server.get("/api/file?name=src/main.c", {"X-Forwarded-For": "203.0.113.1"})
            self.assertEqual((file[0], file[2]["Retry-After"]), (503, "5"))
            os.kill(server.programs()[0], signal.SIGCONT)
            self.assertEqual(sorted(one.result()[0] for one in asked), [200] * 5 + [429] * 2 + [503])

    def test_the_settings_of_visitors(self) -> None:
        """They hold from the start, and from a signal on."""
        file, served = self.top / "host.toml", f'[[repository]]\npath = "{self.made.path}"\n'
        file.write_text(f"[visitors]\nat_work = 1\nwaiting = 0\n{served}")
        server = self.serve("--settings", str(file))

        def refused(count: int) -> list[int]:
            """The statuses of those, of so many at a time, that are answered while the program stands still."""
            with concurrent.futures.ThreadPoolExecutor(count) as pool, stopped(server.programs()[0]):
                asked = [pool.submit(server.get, "/api/find?q=int") for _ in range(count)]
                until(lambda: sum(one.done() for one in asked) + self.metric(server, "tsearch_web_connections") - 1 >= count)
                until(lambda: any(one.done() for one in asked))
                found = [one.result()[0] for one in asked if one.done()]
                os.kill(server.programs()[0], signal.SIGCONT)
            return found

        self.assertEqual(refused(2), [429])
        file.write_text(f"[visitors]\nat_work = 1\nwaiting = 1\nipv4 = 24\n{served}")
        before = server.log
        os.kill(server.pid, signal.SIGHUP)
        until(lambda: refused(3) == [429])
        self.assertEqual(server.log, before)

    def connect(self, server: Server) -> socket.socket:
        host, port = server.address.removeprefix("http://").split(":")
        return self.enterContext(socket.create_connection((host, int(port)), SECONDS))

    def test_connections_of_one_visitor(self) -> None:
        """They have a part of all, and one more is told so."""
        server = self.serve("--visitor-connections", "160", str(self.made.path))
        held = [self.connect(server)]
        # those that asked whether the page is there have ended, and may not have been counted off yet
        until(lambda: "tsearch_web_connections 1\n" in self.read(held[0], "/metrics"))
        for _ in range(9):
            held.append(self.connect(server))
            self.assertIn("200 OK", self.read(held[-1], "/health"))  # one that asks nothing is closed after a while
        self.assertIn("tsearch_web_connections 10\n", self.read(held[0], "/metrics"))
        refused = [self.connect(server) for _ in range(3)]
        for one in refused:
            one.sendall(b"GET / HTTP/1.1\r\nHost: localhost\r\n\r\n")
            self.assertTrue(one.recv(100).startswith(b"HTTP/1.1 503 Service Unavailable\r\nRetry-After: 5\r\n"))
        self.assertIn("tsearch_web_connections_refused_total 3\n", self.read(held[0], "/metrics"))
        held.pop().close()
        until(lambda: "tsearch_web_connections 9\n" in self.read(held[0], "/metrics"))
        self.assertIn("200 OK", self.read(self.connect(server), "/health"))

    def read(self, connection: socket.socket, path: str) -> str:
        """An answer on a connection that stays."""
        connection.sendall(f"GET {path} HTTP/1.1\r\nHost: localhost\r\n\r\n".encode())
        data = b""

        def more() -> bytes:
            came = connection.recv(1 << 16)
            self.assertTrue(came, (path, data))
            return came

        while b"\r\n\r\n" not in data:
            data += more()
        head, _, body = data.partition(b"\r\n\r\n")
        length = int(re.search(rb"Content-Length: (\d+)", head)[1])
        while len(body) < length:
            body += more()
        return (head + b"\r\n\r\n" + body).decode()

    def test_more_connections_than_files(self) -> None:
        """What would be more than the system lets the page have open is refused; nothing fails, and nothing is written again and again."""
        limits = resource.getrlimit(resource.RLIMIT_NOFILE)
        with unittest.mock.patch("subprocess.Popen", lambda *words, **options: _popen(*words, **options, preexec_fn=lambda: resource.setrlimit(resource.RLIMIT_NOFILE, (512, 512)))):
            server = self.serve("--proxy", "127.0.0.1", str(self.made.path))
        most = int(re.search(r"there may be (\d+) connections at a time, and not 2048", server.log)[1])
        self.assertTrue(64 <= most < 512)
        if limits[0] < 1_500:
            resource.setrlimit(resource.RLIMIT_NOFILE, (min(1_500, limits[1]), limits[1]))
            self.addCleanup(resource.setrlimit, resource.RLIMIT_NOFILE, limits)
        held = [self.connect(server) for _ in range(900)]
        until(lambda: sum(_is_ended(one) for one in held) >= 900 - most)
        self.assertLessEqual(len(server.log.splitlines()), 30, server.log)
        self.assertNotIn("Too many open files", server.log)
        self.assertNotIn("out of system resource", server.log)
        for one in held:
            one.close()

        def is_let_in() -> bool:
            try:
                return server.get("/health")[0] == 200
            except (urllib.error.URLError, ConnectionError):
                return False  # the page has not seen yet that so many are closed

        until(is_let_in)
        self.made.commit("main", {b"new.c": b"int new;\n"})
        until(lambda: server.hits("int new"))


async def _closed(writer: asyncio.StreamWriter) -> None:
    writer.close()


_popen = subprocess.Popen


def _is_ended(connection: socket.socket) -> bool:
    """Whether the other side has closed."""
    try:
        while data := connection.recv(1 << 12, socket.MSG_DONTWAIT):
            assert data.startswith(b"HTTP/1.1 503"), data
    except BlockingIOError:
        return False
    except OSError:
        return True
    return True


@unittest.skipUnless(NO_REASON, REASON)
class Doors(unittest.IsolatedAsyncioTestCase):
    """Files of connections, counted after each step of the loop. Many come in each, as to a page that does something else for a while."""

    MOST = 40

    async def asyncSetUp(self) -> None:
        from aiohttp import web
        from tsearch.web import connections
        from tsearch.web.connections import Connection, Connections, Door
        from tsearch.web.turns import Networks
        from tsearch.web.visitors import Visitors

        # none asks, and none is closed for it
        self.enterContext(unittest.mock.patch.object(connections, "TO_ASK", 100 * SECONDS))
        limits = resource.getrlimit(resource.RLIMIT_NOFILE)
        if limits[0] < 3_000:
            resource.setrlimit(resource.RLIMIT_NOFILE, (min(3_000, limits[1]), limits[1]))
            self.addCleanup(resource.setrlimit, resource.RLIMIT_NOFILE, limits)
        self.said: list[str] = []
        self.connections = Connections(Visitors(frozenset({"127.0.0.1"}), Networks()), self.MOST, self.said.append)
        loop = asyncio.get_running_loop()

        async def answer(_: web.BaseRequest) -> web.Response:
            return web.Response(text="here")

        manager = web.Server(answer)
        self.addAsyncCleanup(manager.shutdown)
        self.door = Door(self.connections, lambda networks: Connection(manager, connections=self.connections, networks=networks, loop=loop), self.said.append)
        await self.door.open("127.0.0.1", 0)
        self.addAsyncCleanup(self.close)
        self.place = self.door._listening[0].getsockname()
        self.clients: list[socket.socket] = []
        gc.collect()  # files that nobody uses any more are none that are counted
        self.before = len(os.listdir("/proc/self/fd"))

    async def close(self) -> None:
        self.door.close()

    def come(self, count: int) -> None:
        for _ in range(count):
            client = self.enterContext(socket.socket())
            client.setblocking(False)
            client.connect_ex(self.place)
            self.clients.append(client)

    @property
    def files(self) -> int:
        """How many are open for connections."""
        return len(os.listdir("/proc/self/fd")) - self.before - len(self.clients)

    async def test_no_step_has_more_files(self) -> None:
        from tsearch.web.connections import _CLOSED_AT_ONCE, _MOST_TOLD

        bound = self.MOST + _MOST_TOLD + _CLOSED_AT_ONCE
        counts = []
        # as many as files are let to a test, which has both ends of each
        for _ in range(min(12, (resource.getrlimit(resource.RLIMIT_NOFILE)[0] - 400) // 128)):
            self.come(128)
            await asyncio.sleep(0)
            counts.append(self.files)
        for _ in range(200):
            await asyncio.sleep(0.001)
            counts.append(self.files)
        self.assertLessEqual(max(counts), bound)
        # there were as many as may be, and many more came
        self.assertGreaterEqual(max(counts), self.MOST + _MOST_TOLD)
        self.assertEqual(len(self.connections), self.MOST)
        self.assertGreater(self.connections.refused, 128)
        self.assertEqual(self.said, [])
        for client in self.clients:
            client.close()
        self.clients.clear()
        async with asyncio.timeout(SECONDS):
            while self.files:
                await asyncio.sleep(0.01)
        self.assertEqual(len(self.connections), 0)

        async def is_let_in() -> bool:
            try:
                reader, writer = await asyncio.open_connection(*self.place)
                writer.write(b"GET / HTTP/1.1\r\nHost: x\r\nConnection: close\r\n\r\n")
                answer = await reader.read()
                writer.close()
            except ConnectionError:
                return False
            return answer.endswith(b"here")

        # the system may hand over some of those that have gone only now
        async with asyncio.timeout(SECONDS):
            while not await is_let_in():
                await asyncio.sleep(0.01)

    async def test_what_is_told(self) -> None:
        """One that is refused has the answer, though it has sent a request, and none after it is told more than there may be."""
        self.come(self.MOST)
        async with asyncio.timeout(SECONDS):
            while len(self.connections) < self.MOST:
                await asyncio.sleep(0.01)
        reader, writer = await asyncio.open_connection(*self.place)
        writer.write(b"GET / HTTP/1.1\r\nHost: x\r\n\r\n")
        self.assertTrue((await reader.read()).startswith(b"HTTP/1.1 503 Service Unavailable\r\nRetry-After: 5\r\n"))
        writer.close()

    async def test_files_that_are_open_for_something_else(self) -> None:
        """However many those are, connections leave some to them, and none is accepted and kept that would not."""
        soft, hard = resource.getrlimit(resource.RLIMIT_NOFILE)
        held = [os.dup(0) for _ in range(300)]
        self.before += len(held)
        resource.setrlimit(resource.RLIMIT_NOFILE, (max(held) + 1 + 128 + self.MOST // 2, hard))
        try:
            from tsearch.web.connections import last_file

            self.door._last_file = last_file()
            resource.setrlimit(resource.RLIMIT_NOFILE, (soft, hard))
            for _ in range(4 * self.MOST):
                _, writer = await asyncio.open_connection(*self.place)
                self.clients.append(writer.get_extra_info("socket"))
                self.addAsyncCleanup(_closed, writer)
            async with asyncio.timeout(SECONDS):
                while not self.connections.refused:
                    await asyncio.sleep(0.01)
            self.assertLess(len(self.connections), self.MOST)
        finally:
            resource.setrlimit(resource.RLIMIT_NOFILE, (soft, hard))
            for one in held:
                os.close(one)

    async def test_no_file_is_left(self) -> None:
        """As when others have taken all: that is said once for each time, and what waits is accepted later."""
        soft, hard = resource.getrlimit(resource.RLIMIT_NOFILE)
        self.come(1)
        taken = max(map(int, os.listdir("/proc/self/fd"))) + 1
        held = [os.dup(0) for _ in range(taken - len(os.listdir("/proc/self/fd")) + 1)]
        resource.setrlimit(resource.RLIMIT_NOFILE, (max(map(int, os.listdir("/proc/self/fd"))), hard))
        try:
            async with asyncio.timeout(SECONDS):
                while not self.said:
                    await asyncio.sleep(0.01)
        finally:
            resource.setrlimit(resource.RLIMIT_NOFILE, (soft, hard))
            for one in held:
                os.close(one)
        self.assertEqual(self.said, ["no connection is accepted for 1 second: Too many open files"])
        async with asyncio.timeout(SECONDS):
            while not len(self.connections):
                await asyncio.sleep(0.01)


@unittest.skipUnless(NO_REASON, REASON)
class Spared(unittest.TestCase):
    def test_what_is_said_again_and_again(self) -> None:
        from tsearch.web import sparing

        now, said = 0.0, []
        own = sparing.Sparing(3, 60.0, lambda: now)
        for number in range(1_000):
            own.say(said.append, f"one: fault {number}")
        own.say(said.append, "two: fault")
        self.assertEqual(said, ["one: fault 0", "one: fault 1", "one: fault 2", "two: fault"])
        now = 61.0
        own.say(said.append, "one: fault")
        self.assertEqual(said[4:], ["one: fault (and 997 more like this before)"])
        for number in range(10_000):
            own.passed(str(number))
        self.assertLessEqual(len(own._known), 4_096)

    def test_records(self) -> None:
        """Few of a kind, and of what is foreseen one line each."""
        from tsearch.web import sparing

        spared, lines = sparing.Spared(), []

        class Into(logging.Handler):
            def emit(self, record: logging.LogRecord) -> None:
                lines.append(self.format(record))

        handler = Into()
        handler.addFilter(spared)
        logger = logging.Logger("x")
        logger.addHandler(handler)
        for fault in OSError(24, "Too many open files"), KeyError("x"):
            for _ in range(1_000):
                try:
                    raise fault
                except Exception:
                    logger.exception("a call has failed\nand more")
        self.assertEqual(lines[:10], ["a call has failed: [Errno 24] Too many open files"] * 10)
        self.assertEqual(len(lines), 20)
        self.assertIn("KeyError", lines[10])


if __name__ == "__main__":
    unittest.main()
