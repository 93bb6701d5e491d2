"""The visitors of a code host, asked without a browser: other sites, requests that do not come, turns, and what is logged."""

import asyncio
import concurrent.futures
import json
import os
import re
import signal
import socket
import time
import unittest

from helpers import SECONDS, SLOW, slow_file, stopped, until
from serving import Server
from test_host import NO_REASON, REASON, Host

FIND = b"GET /api/find?q=int HTTP/1.1\r\nHost: localhost\r\n"


@unittest.skipUnless(NO_REASON, REASON)
class Visitors(Host):
    def test_other_sites(self) -> None:
        """They get nothing with content, and start nothing; a link to the page is one."""
        server = self.serve(str(self.made.path))
        before = self.metric(server, "tsearch_web_searches_total")
        for headers in {"Sec-Fetch-Site": "cross-site"}, {"Sec-Fetch-Site": "same-site"}, {"Origin": "https://other.example"}, {"Origin": "null"}:
            for path in "/api/find?q=int", "/api/status", "/api/file?name=src/main.c", "/api/count?q=int", "/metrics", "/page.js", "/":
                status, body, _ = server.get(path, headers)
                self.assertEqual((status, body), (403, b""), (headers, path))
        self.assertEqual(self.metric(server, "tsearch_web_searches_total"), before)
        link = {"Sec-Fetch-Site": "cross-site", "Sec-Fetch-Mode": "navigate", "Sec-Fetch-Dest": "document"}
        self.assertEqual([server.get(path, link)[0] for path in ("/", "/?q=int", "/api/find?q=int")], [200, 200, 403])
        for headers in {"Sec-Fetch-Site": "same-origin"}, {"Sec-Fetch-Site": "none"}, {"Origin": server.address}:
            self.assertEqual(server.get("/api/find?q=int", headers)[0], 200, headers)

    def connect(self, server: Server) -> socket.socket:
        host, port = server.address.removeprefix("http://").split(":")
        return self.enterContext(socket.create_connection((host, int(port)), SECONDS))

    def test_requests_that_cannot_be_read(self) -> None:
        """Each costs a line of the log, and ends."""
        server = self.serve(str(self.made.path))
        for request in (
            b"GET /" + b"a" * 10_000 + b" HTTP/1.1\r\nHost: localhost\r\n\r\n", FIND + b"X-Long: " + b"a" * 10_000 + b"\r\n\r\n",
            FIND + b"".join(b"X-%d: a\r\n" % number for number in range(500)) + b"\r\n", b"\0\1\2\r\n\r\n", b"GET / HTTP/9\r\n\r\n", FIND + b"X\xff\xfe\n: a\r\n\r\n",
        ):  # fmt: skip
            before = len(server.log.splitlines())
            visitor = self.connect(server)
            visitor.sendall(request)
            self.assertIn(visitor.recv(20)[:12], (b"HTTP/1.1 400", b"HTTP/1.0 400", b"HTTP/1.1 200", b"HTTP/1.0 200"), request[:40])
            visitor.close()
            self.assertLessEqual(len(server.log.splitlines()) - before, 1, server.log)
            self.assertLess(max(map(len, server.log.splitlines())), 400)
        self.assertEqual(len(server.hits("int main")), 1)

    def test_requests_that_do_not_come(self) -> None:
        """A head that comes slowly, or not at all, ends after ten seconds; one that is there does not."""
        server = self.serve(str(self.made.path))
        began = time.monotonic()
        silent, half, dripping, asking = (self.connect(server) for _ in range(4))
        half.sendall(FIND)

        def answer() -> bytes:
            """What comes for a whole request on the connection that asks: its last piece is empty."""
            asking.sendall(FIND + b"\r\n")
            data = b""
            while not data.endswith(b"\r\n0\r\n\r\n"):
                data += (came := asking.recv(1 << 16))
                self.assertTrue(came, data)
            return data

        self.assertTrue(answer().startswith(b"HTTP/1.1 200"))
        dripping.sendall(b"GET /")
        dripping.settimeout(0.5)
        is_closed = False
        while time.monotonic() - began < SECONDS and not is_closed:
            try:
                dripping.sendall(b"x")
                is_closed = dripping.recv(1) == b""
            except TimeoutError:
                pass
            except OSError:
                is_closed = True
        self.assertTrue(is_closed)
        self.assertEqual([one.recv(1) for one in (silent, half)], [b"", b""])
        took = time.monotonic() - began
        self.assertGreater(took, 9)
        # it is for this reason that they were closed
        self.assertEqual(server.log.count("no whole request in 10 seconds"), 3)
        # a connection that has asked stays for more, for half a minute
        if took < 25:
            self.assertTrue(answer().startswith(b"HTTP/1.1 200"))

    def test_two_searches_of_one_visitor_at_a_time(self) -> None:
        """Those of others do not wait for them, and too many are refused. A proxy says who asks, if it is one that is named."""
        self.made.commit("main", {b"slow/%d" % number: slow_file(number) for number in range(200)})
        server = self.serve("--proxy", "127.0.0.1", "--search-ms", "4000", "--readers", "4", str(self.made.path))
        same = [{"X-Forwarded-For": named} for named in ("spoofed, 2001:db8::1", "2001:db8::2")]
        with concurrent.futures.ThreadPoolExecutor(42) as pool:
            searches = [pool.submit(server.get, f"/api/find?q={SLOW.replace('+', '%2B')}&n={number}", same[number % 2]) for number in range(40)]
            time.sleep(0.5)
            status, body, _ = server.get("/api/find?q=int%20main", {"X-Forwarded-For": "198.51.100.7"})
            self.assertEqual((status, body.count(b'"hits"')), (200, 1))
            self.assertGreater(sum(not search.done() for search in searches), 10)
            # two are at work and sixteen wait; on a slow machine some of these have ended before the last one comes
            until(lambda: any(search.done() and search.result()[0] == 429 for search in searches))
            self.assertLessEqual([search.result()[0] for search in searches if search.done()].count(429), 22)
            # those that wait need not be answered
            os.kill(server.pid, signal.SIGTERM)

    def test_files_of_one_visitor_at_a_time(self) -> None:
        """Files wait with the searches of a visitor, and each is asked for in its lane."""
        from tsearch.web import repositories

        (self.top / "tree").mkdir()
        (self.top / "tree/text").write_text("x\n")
        server = self.serve("--proxy", "127.0.0.1", str(self.top / "tree"))
        with concurrent.futures.ThreadPoolExecutor(30) as pool, stopped(server.programs()[0]):
            views = [pool.submit(server.get, "/api/file?name=text", {"X-Forwarded-For": "198.51.100.1"}) for _ in range(30)]
            until(lambda: sum(view.done() for view in views) == 12)
            self.assertEqual([view.result()[0] for view in views if view.done()], [429] * 12)
            os.kill(server.programs()[0], signal.SIGCONT)
            self.assertEqual(sorted(view.result()[0] for view in views), [200] * 18 + [429] * 12)

        lanes = []

        class Noted:
            """In place of what repositories share."""

            async def find(self, query) -> None:
                lanes.append(query.lane)
                raise repositories.Gone

        files = object.__new__(repositories.Files)
        files.shared, files._start = Noted(), b"1::"
        for asked in files.admits(repositories.Filter(("x",)), b"x", b"visitor"), files.now(b"x", b"visitor"), files._whole(b"1::x", b"visitor"):
            with self.assertRaises(repositories.Gone):
                asyncio.run(asked)
        self.assertEqual(lanes, [b"visitor"] * 3)

    def test_reviews_of_one_visitor_at_a_time(self) -> None:
        """They wait with the others."""
        self.made.commit("main", {b"src/new.c": b"int new;\n"})
        server = self.serve("--proxy", "127.0.0.1", str(self.made.path))
        path = f"/api/review?repository=made&before={self.first}&after=HEAD&q=int"
        with concurrent.futures.ThreadPoolExecutor(30) as pool, stopped(server.programs()[0]):
            reviews = [pool.submit(server.get, path, {"X-Forwarded-For": "198.51.100.1"}) for _ in range(30)]
            until(lambda: sum(review.done() for review in reviews) == 12)
            os.kill(server.programs()[0], signal.SIGCONT)
            self.assertEqual(sorted(review.result()[0] for review in reviews), [200] * 18 + [429] * 12)

    def test_addresses(self) -> None:
        from tsearch.web.visitors import Visitors

        class Asked:
            def __init__(self, remote: str, *named: str) -> None:
                self.remote = remote
                self.headers = self
                self._named = list(named)

            def getall(self, _name: str, default: list[str]) -> list[str]:
                return self._named or default

        visitors = Visitors(frozenset({"127.0.0.1", "10.0.0.0/8"}))
        for asked, wanted in (
            (Asked("192.0.2.1"), "192.0.2.1"), (Asked("192.0.2.1", "198.51.100.1"), "192.0.2.1"), (Asked("127.0.0.1"), "127.0.0.1"),
            (Asked("127.0.0.1", "198.51.100.1"), "198.51.100.1"), (Asked("127.0.0.1", "1.1.1.1, 198.51.100.1, 10.1.2.3"), "198.51.100.1"),
            (Asked("127.0.0.1", "1.1.1.1", "198.51.100.2"), "198.51.100.2"), (Asked("127.0.0.1", "nonsense"), "127.0.0.1"),
            (Asked("2001:db8::1:2:3:4"), "2001:db8::/56"), (Asked("127.0.0.1", "2001:db8:0:ff::9"), "2001:db8::/56"),
            (Asked("::ffff:192.0.2.1"), "192.0.2.1"), (Asked("::ffff:127.0.0.1", "::ffff:198.51.100.1"), "198.51.100.1"),
        ):  # fmt: skip
            self.assertEqual(visitors.address_of(asked), wanted)

    def test_a_hundred_visitors(self) -> None:
        """All are answered, and rightly, while branches move; none of them waits for ever."""
        server = self.serve("--proxy", "127.0.0.1", "--revisions", "main", str(self.made.path))
        patterns = {"int main": 1, "int call": 1, "return call": 1, "int (main|call|key|bytes)": 4, "nothing": 0}

        def visit(visitor: int) -> list[float]:
            times = []
            for turn in range(5):
                pattern = list(patterns)[(visitor + turn) % len(patterns)]
                began = time.monotonic()
                path = "/api/find?q=" + pattern.replace(" ", "%20").replace("|", "%7C")
                status, body, _ = server.get(path, {"X-Forwarded-For": f"198.51.100.{visitor}"})
                times.append(time.monotonic() - began)
                rows = [json.loads(line) for line in body.splitlines()]
                self.assertEqual((status, rows[-1].get("lines")), (200, patterns[pattern]), (pattern, rows))
            return times

        with concurrent.futures.ThreadPoolExecutor(100) as pool:
            visits = [pool.submit(visit, visitor) for visitor in range(100)]
            for number in range(5):
                self.made.commit("main", {b"moving/%d" % number: b"moved\n" * 100})
            times = sorted(time for visit in visits for time in visit.result())
        self.assertLess(times[-1], SECONDS / 2)
        self.assertEqual(self.metric(server, "tsearch_web_search_seconds_count"), 500)


@unittest.skipUnless(NO_REASON, REASON)
class Turns(unittest.IsolatedAsyncioTestCase):
    async def test_who_waits_holds_up_nobody(self) -> None:
        """Of three searches at a time a visitor with many has two, and those that wait have none of the three."""
        from tsearch.web.server import Asked
        from tsearch.web.server import Server as Application
        from tsearch.web.settings import Limits, Settings

        application = Application(Settings(served=(), limits=Limits(searches=3)), self.fail)
        application._shared = None
        asked, goes_on, lanes = Asked.of({"q": ["x"]}, Limits()), asyncio.Event(), []

        async def slow(_search: object) -> list:
            await goes_on.wait()
            return []

        async def quick(search) -> list:
            lanes.append(search._query.lane)
            return []

        many = [asyncio.create_task(application._outcomes_of({"address": "198.51.100.1"}, asked, slow)) for _ in range(18)]
        await asyncio.sleep(0.01)
        async with asyncio.timeout(SECONDS):
            for address in "192.0.2.7", "2001:db8::/56", "", "a" * 65:
                await application._outcomes_of({"address": address}, asked, quick)
        # each wider network has a lane of its own in the program, too
        self.assertEqual(lanes, [b"192.0.2.0/24", b"2001:db8::/48", b"-", b"a" * 64])
        self.assertEqual(sum(one.done() for one in many), 0)
        goes_on.set()
        await asyncio.gather(*many)
        self.assertTrue(application.visitors.turns.is_idle)

    async def test_nothing_is_kept_of_who_has_gone(self) -> None:
        from tsearch.web.visitors import TooMany, Visitors

        visitors = Visitors(frozenset(), at_work=100)

        async def visit(address: str) -> bool:
            try:
                async with visitors.turn(address):
                    await asyncio.sleep(0.01)
                    return True
            except TooMany:
                return False

        found = await asyncio.gather(*[visit(f"{number % 50}") for number in range(1_000)])
        self.assertEqual(sum(found), 50 * 18)
        waiting = [asyncio.create_task(visit("gone")) for _ in range(3)]
        await asyncio.sleep(0)
        for one in waiting:
            one.cancel()
        await asyncio.wait(waiting)
        self.assertTrue(visitors.turns.is_idle)


@unittest.skipUnless(NO_REASON, REASON)
class Logs(Host):
    def test_requests_and_slow_searches(self) -> None:
        log = self.top / "requests"
        server = self.serve("--log", str(log), "--slow-ms", "0", "--proxy", "127.0.0.1", str(self.made.path))
        server.get("/api/find?q=int%20main&name=%22%0A", {"X-Forwarded-For": "198.51.100.1"})
        server.get("/none%0A", {"X-Forwarded-For": "198.51.100.1"})

        def rows() -> list[dict]:
            return [json.loads(line) for line in log.read_text().splitlines() if "198.51" in line]

        until(lambda: len(rows()) == 2)
        first, second = rows()
        self.assertEqual({key: first[key] for key in ("address", "method", "path", "status", "slow", "query")}, {
            "address": "198.51.100.1", "method": "GET", "path": "/api/find", "status": 400, "slow": True, "query": "q=int%20main&name=%22%0A",
        })  # fmt: skip
        self.assertRegex(first["time"], r"^20\d\d-\d\d-\d\dT\d\d:\d\d:\d\dZ$")
        self.assertEqual((second["path"], second["status"]), ("/none\n", 404))
        # moved away, as logrotate does
        log.rename(self.top / "requests.1")
        os.kill(server.pid, signal.SIGHUP)
        until(log.exists)
        server.get("/", {"X-Forwarded-For": "198.51.100.2"})
        until(lambda: [row["path"] for row in rows()] == ["/"])
        # a log that cannot be opened anew goes on as it is, and so does the rest
        log.unlink()
        log.mkdir()
        os.kill(server.pid, signal.SIGHUP)
        until(lambda: "the log stays as it was: " in server.log)
        self.assertEqual(len(server.hits("int main")), 1)

    def test_the_bytes_of_answers(self) -> None:
        """The log has them, whatever is answered."""
        log = self.top / "requests"
        server = self.serve("--log", str(log), "--proxy", "127.0.0.1", str(self.made.path))
        paths = ["/", "/page.js", "/icon.svg", "/api/find?q=int", "/api/count?q=int", "/api/status", "/api/file?name=src/main.c", "/health", "/metrics", "/none",
                 "/api/find?q=(", "/api/file", f"/api/review?before={self.first}&after=HEAD&q=int"]  # fmt: skip
        lengths = [len(server.get(path, {"X-Forwarded-For": "198.51.100.1"})[1]) for path in paths]
        self.assertNotIn(0, lengths)

        def rows() -> list[dict]:
            return [row for row in map(json.loads, log.read_text().splitlines()) if row["address"] == "198.51.100.1"]

        until(lambda: len(rows()) == len(paths))
        self.assertEqual([(row["path"], row["bytes"]) for row in rows()], [(path.partition("?")[0], length) for path, length in zip(paths, lengths)])

    def test_measurements(self) -> None:
        server = self.serve(str(self.made.path))
        server.find("int")
        self.assertGreater(self.metric(server, "tsearch_memory_bytes"), 1_000_000)
        self.assertEqual(self.metric(server, "tsearch_loaded"), 1)
        text = server.get("/metrics")[1].decode()
        buckets = [int(float(count)) for count in re.findall(r'^tsearch_web_search_seconds_bucket\{le=".*"\} (\S+)$', text, re.MULTILINE)]
        self.assertEqual((buckets, buckets[-1]), (sorted(buckets), 1))
        self.assertGreater(self.metric(server, "tsearch_search_seconds_total"), 0)


if __name__ == "__main__":
    unittest.main()
