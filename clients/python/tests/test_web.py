"""The server of the page, asked without a browser."""

import concurrent.futures
import dataclasses
import importlib.util
import itertools
import json
import os
import pathlib
import random
import re
import signal
import socket
import time
import unittest
import unittest.mock
import urllib.error
import urllib.parse
import urllib.request

from helpers import SECONDS, SLOW, stopped, until
from serving import DOCUMENTS, MARKUP, serving

# How many files of the second repository are documents: one is binary.
TEXTS = len(DOCUMENTS["two"]) - 1


def plain_rows(answer, repository: str, is_whole: bool, start: bytes) -> list[dict]:
    """The files of an answer with spans, as the page is to have them."""
    from tsearch.shortening import LONGEST, shortened

    files = []
    for name, rows in itertools.groupby(filter(None, answer.rows()), key=lambda row: row.hit.name):
        hits = []
        for hit, is_found in rows:
            is_cut = len(hit.text) > LONGEST and not is_whole
            parts = shortened(hit.text, hit.spans or ()) if is_cut else hit.parts()
            told = {"line": hit.line, "parts": [part.decode(errors="replace") for part in parts]}
            hits.append({**told, **({"cut": True} if is_cut else {}), **({} if is_found else {"around": True})})
        path = name.removeprefix(start)
        files.append({"repository": repository, "name": path.decode(errors="replace"), "id": urllib.parse.quote(path), "hits": hits})
    return files


@unittest.skipUnless(importlib.util.find_spec("aiohttp"), "the library aiohttp is missing (python3-aiohttp)")
class Web(unittest.TestCase):
    @classmethod
    def setUpClass(cls) -> None:
        cls.server = cls.enterClassContext(serving("--search-ms", "20000", "--most-lines", "50"))

    def test_searches(self) -> None:
        hits = self.server.hits
        mains = [("one", "src/main.c", 1, "int main(void)"), ("two", "src/main.c", 1, "int main(int count)")]
        self.assertEqual(hits("int main"), mains)
        self.assertEqual(hits("INT main"), [])
        self.assertEqual(hits("INT main", i=1), mains)
        self.assertEqual(hits("main(", F=1), mains)
        self.assertEqual(hits("call", w=1), [("one", "src/main.c", 3, "    return call(1);"), ("one", "src/util.c", 1, "int call(int x)")])
        self.assertEqual(hits("int call.*", x=1), [("one", "src/util.c", 1, "int call(int x)")])
        self.assertEqual(hits("int", name="util"), [("one", "src/util.c", 1, "int call(int x)")])
        self.assertEqual(hits("int", **{"name": ["src", "c$"], "not": ["main", "zzz"]}), [("one", "src/util.c", 1, "int call(int x)")])
        self.assertEqual(hits("int main", name="^src/", repository="two"), mains[1:])
        self.assertEqual(hits("int main", repository=["one", "two"]), mains)
        self.assertEqual(hits("int main", repository="none"), [])
        self.assertEqual(hits("a|", name="src"), hits("", name="src"))

    def test_marks_and_totals(self) -> None:
        rows = self.server.find("main|count", repository="two")
        head, row, total = rows
        self.assertEqual((head["repository"], head["lines"], head["more"]), ("two", 1, False))
        self.assertEqual(row["hits"], [{"line": 1, "parts": ["int ", "main", "(int ", "count", ")"]}])
        self.assertEqual((total["lines"], total["more"]), (1, False))
        self.assertEqual(self.server.find("in.", w=1, repository="two")[1]["hits"][0]["parts"], ["", "int", " main(", "int", " count)"])

    def test_context(self) -> None:
        rows = self.server.find("return", context=1, name="c$", repository="one")
        self.assertEqual([row["name"] for row in rows[1:-1]], ["src/main.c", "src/util.c"])
        around = {"around": True}
        self.assertEqual(rows[1]["hits"], [
            {"line": 2, "parts": ["{"], **around}, {"line": 3, "parts": ["    ", "return", " call(1);"]}, {"line": 4, "parts": ["}"], **around},
        ])  # fmt: skip
        # what is cut off at the limit is a line around another
        rows = self.server.find("many lines", context=2, max=3)
        self.assertEqual([(hit["line"], "around" in hit) for hit in rows[1]["hits"]], [(1, False), (2, False), (3, False), (4, True), (5, True)])
        rows = self.server.find("int", max=3, context=5)
        self.assertEqual([row.get("lines") for row in rows if "life" in row], [2, 1])
        self.assertEqual((rows[-1]["lines"], rows[-1]["more"]), (3, False))
        rows = self.server.find("int|hostile", max=1, context=1)
        self.assertEqual(([row.get("more") for row in rows if "life" in row], rows[-1]["lines"], rows[-1]["more"]), ([True, True], 1, True))
        self.assertEqual(self.server.hits("(int|[{}])", v=1, name="src/main"), [("one", "src/main.c", 3, "    return call(1);")])

    def test_limits_that_a_visitor_cannot_lift(self) -> None:
        for more in {}, {"max": "99999"}, {"max": "x"}, {"max": "-1"}, {"max": "٣"}, {"max": "9" * 5_000}:
            rows = self.server.find("many", **more)
            self.assertEqual((rows[-1]["lines"], rows[-1]["more"]), (50, True), more)
        self.assertEqual([self.server.find("many", max=most)[-1]["lines"] for most in "30"], [3, 1])
        self.assertEqual(len(self.server.find("lines 100$", context="999")[1]["hits"]), 11)
        self.assertEqual(len(self.server.find("lines 100$", context="-1")[1]["hits"]), 1)

    def test_refusals(self) -> None:
        find = self.server.find
        self.assertEqual(find("a(b"), [{"refused": "group not closed", "offset": 1, "in": "pattern"}])
        self.assertEqual(find("a(b", w=1), [{"refused": "group not closed", "offset": 1, "in": "pattern"}])
        self.assertEqual(find("a", name="x[b"), [{"refused": "bracket not closed", "offset": 1, "in": "name"}])
        self.assertEqual(find("a\nremove src/main.c\npublish"), [{"refused": "bad byte", "offset": 1, "in": "pattern"}])
        self.assertEqual(find("a", name="b\npublish")[0]["in"], "name")
        self.assertEqual(find("a", **{"name": ["b", "c"], "not": ["b", "c publish\n"]})[0]["in"], "not")
        self.assertEqual(find("a", name=["b"] * 17), [{"refused": "option -n over 16 times"}])
        self.assertEqual(find("a\0")[0]["refused"], "bad byte")
        self.assertEqual(find("a" * 2_000)[0]["refused"], "pattern too long")
        self.assertEqual(find("é[z-a]"), [{"refused": "bad range", "offset": 4, "in": "pattern"}])
        self.assertEqual(self.server.get("/api/find?q=(")[0], 400)
        self.assertEqual(len(self.server.hits("int main")), 2)

    def test_repositories_that_are_not_there(self) -> None:
        server, refused = self.server, {"refused": "there is no repository none"}
        for path in "find?q=int", "find?q=int&repository=none", "count?q=int", "review?q=int&before=a&after=b", "file?name=src/main.c":
            with self.subTest(path=path):
                status, body, _ = server.get(f"/api/{path}&repository=none")
                self.assertEqual((status, json.loads(body)), (404, refused))
        # one of several is named
        rows = server.find("int main", repository=["none", "one", "\udcff"])
        self.assertEqual([row["name"] for row in rows if "hits" in row], ["src/main.c"])
        faults = [("none", "there is no repository none"), ("\ufffd", "there is no repository \ufffd")]
        self.assertEqual([(row["repository"], row["fault"]) for row in rows if "fault" in row], faults)
        self.assertEqual((rows[-1]["lines"], rows[-1]["missing"]), (1, ["none", "\ufffd"]))
        self.assertEqual(json.loads(server.get("/api/count?q=int&repository=one&repository=none")[1]), {"counts": {"one": 2}})
        # an empty name is that of none
        self.assertEqual(len(server.hits("int main", repository="")), 2)
        for name, status in ("none", 404), ("one", 204), ("", 204):
            request = urllib.request.Request(f"{server.address}/api/look?repository={name}", method="POST")
            try:
                with urllib.request.urlopen(request, timeout=SECONDS) as answer:
                    found = answer.status
            except urllib.error.HTTPError as error:
                with error:
                    found = error.code
            self.assertEqual(found, status, name)

    def test_hostile_names_and_bodies(self) -> None:
        rows = self.server.find("hostile")
        found = {row["name"]: row for row in rows if "hits" in row}
        self.assertIn("<img src=x onerror=document.title='taken over'>.txt", found)
        bytes_row = found["caf\ufffd \ufffd.txt"]
        self.assertEqual(bytes_row["id"], "caf%E9%20%FF.txt")
        self.assertEqual(bytes_row["hits"], [{"line": 1, "parts": ["bytes \ufffd\ufffd ", "hostile", ""]}])
        self.assertEqual(self.server.hits(b"\xff\xfe")[0][1], "caf\ufffd \ufffd.txt")
        # a file is viewed by its bytes
        status, body, _ = self.server.get(f"/api/file?repository=one&life=1&version={rows[0]['version']}&name={bytes_row['id']}")
        self.assertEqual((status, json.loads(body)["lines"]), (200, ["bytes \ufffd\ufffd hostile"]))
        self.assertIn(MARKUP.decode() + " hostile body", [hit[3] for hit in self.server.hits("hostile")])
        for path in "/", "/api/find?q=hostile", "/api/find?q=(", "/metrics", "/none":
            headers = {name.lower(): value for name, value in self.server.get(path)[2].items()}
            self.assertIn("default-src 'none'", headers.get("content-security-policy", ""), path)
            self.assertEqual(headers["x-content-type-options"], "nosniff")

    def test_nothing_else_is_served(self) -> None:
        for path in "/../server.py", "/%2e%2e/server.py", "/page.js/..", "/api", "/src/main.c":
            self.assertEqual(self.server.get(path)[0], 404, path)
        for words in "name=..%2Fsecret", "name=%2Fetc%2Fpasswd", "name=src", "name=^.*$", "name=src/main.c%0Apublish":
            status, body, _ = self.server.get(f"/api/file?repository=one&life=1&version=6&{words}")
            self.assertEqual(status, 404, (words, body))
        long = "repository=one&name=a&life=1&version=" + "1" * 5_000
        short = ["", "name=a&life=1&version=1", "repository=one&name=a&life=x&version=1", "repository=one&life=1&version=1"]
        for words in [*short, long]:
            self.assertEqual(self.server.get(f"/api/file?{words}")[0], 400, words)
        self.assertEqual(self.server.get("/api/status", {"Host": "attacker.example"})[0], 403)
        self.assertEqual(self.server.get("/api/status", {"Host": "127.0.0.1@attacker.example:80"})[0], 403)
        self.assertEqual(self.server.get("/api/status", {"Host": "[attacker"})[0], 403)
        self.assertEqual(self.server.get("/api/status", {"Origin": "http://[attacker"})[0], 403)
        self.assertEqual(self.server.get("/api/status", {"Host": "localhost:80"})[0], 200)

    def test_long_lines(self) -> None:
        """They are cut around their matches, unless they are asked for whole."""
        whole, body = (["x" * 8_000 + " ", "needle", " " + "y" * 8_000], "x" * 8_000 + " needle " + "y" * 8_000)
        rows = self.server.find("needle", name="wide")
        ((hit,), head) = rows[1]["hits"], rows[0]
        self.assertEqual((hit["cut"], hit["parts"][1]), (True, "needle"))
        self.assertLess(sum(map(len, hit["parts"])), 400)
        self.assertEqual(self.server.find("needle", name="wide", whole=1)[1]["hits"], [{"line": 1, "parts": whole}])
        words = f"repository={head['repository']}&name={rows[1]['id']}&life={head['life']}&version={head['version']}"
        told = [json.loads(self.server.get(f"/api/file?{words}{more}")[1]) for more in ("", "&whole=1")]
        self.assertEqual((told[0]["cut"], "cut" in told[1], told[1]["lines"]), (True, False, [body]))
        self.assertLess(len(told[0]["lines"][0]), 400)

    def test_marks_of_longer_lines_than_marks_may_be(self) -> None:
        """What the lines have does not count."""
        from tsearch.answers import Answer, View
        from tsearch.web.rows import blocks_of

        text = b"x" * 2_000_000 + b"foo"
        answer = Answer(1, 1, 1, False, View.CONTEXT, b"a\0001:" + text + b"\n", spans_data=b"a\0001:2000001-2000003:" + text + b"\n")
        (hit,) = json.loads(next(blocks_of(answer, "r", False)))["hits"]
        self.assertEqual((hit["parts"][1], hit["cut"]), ("foo", True))

    def test_many_marks(self) -> None:
        """Answers whose marks would be too many are shown without."""
        rows = self.server.find("[xy]|many", repository="one", max=1, name="wide", whole=1)
        self.assertEqual(len(rows[1]["hits"][0]["parts"]), 32_001)
        with unittest.mock.patch("tsearch.web.rows._MOST_SPANS", 100):
            from tsearch.answers import Answer, View
            from tsearch.query import Query
            from tsearch.web.marks import marks_of
            from tsearch.web.rows import blocks_of

            answer = Answer(1, 1, 1, False, View.CONTEXT, b"a\0001:xx\n", spans_data=b"a\0001:" + b"1-1," * 40 + b"1-1:xx\n")
            self.assertEqual(json.loads(next(blocks_of(answer, "r", False)))["hits"], [{"line": 1, "parts": ["xx"]}])
        with unittest.mock.patch("tsearch.web.rows._MOST_MARKS", 3):
            marks = marks_of(Query.of("x", context=0, spans=True))
            answer = Answer(1, 1, 3, False, View.CONTEXT, b"a\0001:xyx\na\0002:xx\na\0003:x\n")
            parts = [hit["parts"] for hit in json.loads(next(blocks_of(answer, "r", False, b"", marks)))["hits"]]
            self.assertEqual(parts, [["", "x", "y", "x", ""], ["", "x", "", "x", ""], ["x"]])

    def test_rows_of_any_bytes(self) -> None:
        """They are what a plain reading of the answer says, in blocks of any length."""
        from tsearch.answers import Answer, View
        from tsearch.names import quote
        from tsearch.query import Query
        from tsearch.web import rows
        from tsearch.web.marks import marks_of

        source, marks = random.Random(6), marks_of(Query.of("x", context=1, spans=True))
        bits = [b"x", b"a b", b"\t", b"\\", b'"', b"\\n", b"\\u0000", "\u00e9".encode(), b"\xc3", b"\xa9", b"\xe2\x82", b"\xff", b"\x01", b"\r", b"--", b"12:", b"7-", b"y" * 400]
        names = [b"a", b"--", b"b c/d%e", b'q"\\', b"caf\xe9", b"1-2:3", b"n\nl"]
        for turn in range(300):
            data, spans = [], []
            for name in sorted(map(quote, source.sample(names, source.randint(0, 4)))):
                for line in sorted(source.sample(range(1, 2_000), source.randint(1, 9))):
                    texts = [b"".join(source.choices(bits, k=length)) for length in (0, 2, 9)]
                    text, sign = source.choice([*texts, *texts, b"x" + b"y" * source.randint(998, 1_000)]), source.choice([b":", b"-"])
                    data.append((b"--\n" if data and source.random() < 0.3 else b"") + b"1::%s\0%d%s%s\n" % (name, line, sign, text))
                    if sign == b":":
                        told = b",".join(b"%d-%d" % (found.start() + 1, found.end()) for found in re.finditer(b"x", text))
                        spans.append(b"1::%s\0%d:%s:%s\n" % (name, line, told, text))
            answer = Answer(1, 1, len(spans), False, View.CONTEXT, b"".join(data), spans_data=b"".join(spans))
            asked = dataclasses.replace(answer, spans_data=None) if turn % 2 else answer
            with unittest.mock.patch.object(rows, "BLOCK", source.choice([1, 30, 500, 1 << 16])):
                found = b"".join(rows.blocks_of(asked, "r", turn % 3 == 0, b"1::", marks if turn % 2 else None))
            self.assertEqual([json.loads(line) for line in found.split(b"\n")[:-1]], plain_rows(answer, "r", turn % 3 == 0, b"1::"))

    def test_a_slow_search_does_not_hold_up_others(self) -> None:
        with concurrent.futures.ThreadPoolExecutor(8) as pool:
            slow = [pool.submit(self.server.find, SLOW, repository="two") for _ in range(4)]
            time.sleep(0.1)
            began = time.monotonic()
            self.assertEqual(len(self.server.hits("int main", repository="one")), 1)
            self.assertLess(time.monotonic() - began, SECONDS / 4)
            for search in slow:
                self.assertLess(len(search.result()), 4)

    def test_the_search_before_is_cancelled(self) -> None:
        with concurrent.futures.ThreadPoolExecutor(3) as pool:
            with stopped(self.server.programs()[0]):
                slow = pool.submit(self.server.find, "main", visitor="a", turn=2)
                time.sleep(0.3)
                later = pool.submit(self.server.hits, "int main", visitor="a", turn=3)
                self.assertEqual(slow.result(), [{"refused": "cancelled"}])
            self.assertEqual(len(later.result()), 2)
            # one of an earlier turn that comes late gives way
            with stopped(self.server.programs()[0]):
                slow = pool.submit(self.server.find, "main", visitor="a", turn=5)
                time.sleep(0.3)
                other = pool.submit(self.server.hits, "int main", visitor="b", turn=1)
                self.assertEqual(self.server.find("int main", visitor="a", turn=4), [{"refused": "cancelled"}])
                self.assertFalse(slow.done())
                later = pool.submit(self.server.find, "x", visitor="a", turn=6)
                self.assertEqual(slow.result(), [{"refused": "cancelled"}])
            self.assertEqual((len(other.result()), later.result()[-1]["lines"]), (2, 50))

    def test_a_visitor_who_leaves(self) -> None:
        """Their searches are cancelled in the program."""
        host, port = self.server.address.removeprefix("http://").split(":")
        before = self.metric("tsearch_web_searches_total", outcome="cancelled")

        def leave() -> float:
            # one whose request was not read in time counts for nothing
            with socket.create_connection((host, int(port))) as visitor:
                visitor.sendall(b"GET /api/find?q=main HTTP/1.1\r\nHost: localhost\r\n\r\n")
                time.sleep(0.2)
            return self.metric("tsearch_web_searches_total", outcome="cancelled")

        with stopped(self.server.programs()[0]):
            until(lambda: leave() >= before + 3)
        until(lambda: self.metric("tsearch_open_searches") == 0)

    def metric(self, name: str, **labels: str) -> float:
        shown = ",".join(f'{key}="{value}"' for key, value in labels.items())
        labelled = f"{name}{{{shown}}}" if labels else name
        found = re.search(rf"^{re.escape(labelled)} (\S+)$", self.server.get("/metrics")[1].decode(), re.MULTILINE)
        self.assertIsNotNone(found, (name, labels))
        return float(found[1])

    def test_metrics(self) -> None:
        text = self.server.get("/metrics")[1].decode()
        kinds = {}
        for line in text.splitlines():
            if line.startswith("# TYPE"):
                kinds[line.split()[2]] = line.split()[3]
            elif not line.startswith("#"):
                found = re.fullmatch(r'(\w+?)(?:_bucket|_sum|_count)?(\{\w+="[^"]*"(,\w+="[^"]*")*\})? [0-9.e+-]+', line)
                self.assertIsNotNone(found, line)
                self.assertIn(found[1], kinds)
        self.assertEqual(self.metric("tsearch_documents", repository="two"), TEXTS)
        self.assertEqual(self.metric("tsearch_left_out_files", repository="two"), 1)
        self.assertEqual(self.metric("tsearch_document_bytes", repository="one"), sum(map(len, DOCUMENTS["one"].values())))
        self.assertEqual(self.metric("tsearch_up"), 1)
        before = self.metric("tsearch_web_searches_total", outcome="answered")
        self.server.find("x")
        self.assertEqual(self.metric("tsearch_web_searches_total", outcome="answered"), before + 1)


@unittest.skipUnless(importlib.util.find_spec("aiohttp"), "the library aiohttp is missing (python3-aiohttp)")
class Filters(unittest.TestCase):
    def test_what_the_host_lets_a_request_see(self) -> None:
        with serving("--filter-header", "X-Filters") as server:
            head = {"X-Filters": json.dumps({"one": {"names": ["^src/"], "not_names": ["main"]}})}

            def ask(path: str, headers: dict[str, str] | None = head) -> tuple[int, list[dict]]:
                status, body, _ = server.get(path, headers)
                return status, [json.loads(line) for line in body.splitlines()] if body.startswith(b"{") else []

            def names(path: str) -> list[str]:
                return [row["name"] for row in ask(path)[1] if "hits" in row]

            self.assertEqual(names("/api/find?q=int|hostile"), ["src/util.c"])
            for more in "name=.", "not=zz", "repository=two", "name=main&repository=one", "v=1&name=main", "x-filters={}":
                self.assertEqual([name for name in names(f"/api/find?q=main|hostile&{more}") if name != "src/util.c"], [], more)
            version = ask("/api/find?q=int")[1][0]["version"]
            place = f"life=1&version={version}"
            self.assertEqual(ask(f"/api/file?repository=one&{place}&name=src/util.c")[0], 200)
            for file in "repository=one&name=src/main.c", "repository=one&name=many.txt", "repository=two&name=src/main.c":
                self.assertIn(ask(f"/api/file?{file}&{place}")[0], (404, 410), file)
            # one that may not be seen is not told apart from one that is not there
            for path in "find?q=int", f"file?name=src/main.c&{place}":
                refusals = [ask(f"/api/{path}&repository={name}")[1][0]["refused"].replace(name, "") for name in ("two", "none")]
                self.assertEqual(refusals, ["there is no repository "] * 2)
            self.assertEqual([one["repository"] for one in ask("/api/status")[1][0]["repositories"]], ["one"])
            # nothing without the header, and nothing with one that is not understood
            self.assertEqual(ask("/api/find?q=int", None)[1][0]["lines"], 0)
            for text in "x", "[]", '{"one": 1}', '{"one": {"names": "src"}}', '{"one": {"name": ["src"]}}', '{"one": {"under": [""]}}', '{"one": {"not_under": "src"}}':
                self.assertEqual(ask("/api/find?q=int", {"X-Filters": text})[0], 400, text)
            self.assertEqual(ask("/api/find?q=int", {"X-Filters": '{"one": {"names": ["("]}}'})[1][0]["in"], "host")


@unittest.skipUnless(importlib.util.find_spec("aiohttp"), "the library aiohttp is missing (python3-aiohttp)")
class Turns(unittest.TestCase):
    def test_a_visitor_who_reads_nothing_holds_up_nobody(self) -> None:
        """With one search at a time: a turn is for the search, and not for the reading of its answer."""
        with serving("--most-searches", "1", "--most-lines", "100000") as server:
            for number in range(4):
                (server.top / f"two/large{number}").write_bytes(b"a few words of a long file, and so on\n" * 25_000)
            until(lambda: server.get("/metrics")[1].count(b'tsearch_documents{repository="two"} %d\n' % (TEXTS + 4)))
            host, port = server.address.removeprefix("http://").split(":")
            with socket.create_connection((host, int(port))) as visitor:
                visitor.sendall(b"GET /api/find?q=words&repository=two HTTP/1.1\r\nHost: localhost\r\n\r\n")
                until(lambda: server.get("/metrics")[1].count(b'tsearch_web_searches_total{outcome="answered"} 1\n'))
                # the answer is longer than what the system takes
                self.assertEqual(len(server.hits("int main", repository="one")), 1)


@unittest.skipUnless(importlib.util.find_spec("aiohttp"), "the library aiohttp is missing (python3-aiohttp)")
class Changes(unittest.TestCase):
    def test_what_is_kept_of_what_has_changed(self) -> None:
        """The newest of it, up to a number of bytes, however much has changed before."""
        from tsearch.answers import Answer, View
        from tsearch.web.repositories import History

        history = History(most=1_000)
        for version in range(1, 101):
            history.change(b"a", Answer(1, version - 1, 1, False, View.LINES, b"%0100d" % version))
            history.publish({b"a"}, version)
        kept = [history.at(b"a", version) for version in range(100)]
        self.assertEqual([found and found.data for found in kept], [None] * 90 + [b"%0100d" % (version + 1) for version in range(90, 100)])
        # of one that could not be read it is known that it has changed
        history.change(b"b", None)
        self.assertFalse(history.is_current(b"b", 100))
        history.publish({b"b"}, 101)
        self.assertEqual([history.is_current(b"b", version) for version in (100, 101)], [False, True])
        self.assertIsNone(history.at(b"b", 100))

    def test_files_of_the_answer_s_version(self) -> None:
        with serving() as server:
            path = pathlib.Path(server.top, "one/src/main.c")

            def view(head: dict) -> tuple[int, list[str]]:
                place = f"repository=one&life={head['life']}&version={head['version']}"
                status, body, _ = server.get(f"/api/file?{place}&name=src/main.c")
                return status, json.loads(body).get("lines")

            heads = [(server.find("main", repository="one")[0], path.read_text().splitlines())]
            for number in range(5):
                text = f"int changed_{number}(void);\n"
                path.write_text(text)
                until(lambda number=number: server.hits(f"changed_{number}"))
                heads.append((server.find("changed", repository="one")[0], text.splitlines()))
            for head, lines in heads:
                self.assertEqual(view(head), (200, lines))
            path.unlink()
            until(lambda: not server.hits("changed"))
            for head, lines in heads:
                self.assertEqual(view(head), (200, lines))
            self.assertEqual(view(server.find("x", repository="one")[0])[0], 404)

    def test_a_program_that_is_killed(self) -> None:
        with serving() as server:
            head = server.find("int main", repository="one")[0]
            (program,) = server.programs()
            os.kill(program, signal.SIGKILL)
            until(lambda: len(server.hits("int main")) == 2)
            after = server.find("int main", repository="one")[0]
            self.assertEqual((head["life"], after["life"]), (1, 2))
            # the versions of the program before are no longer known
            status, _, _ = server.get(f"/api/file?repository=one&life=1&version={head['version']}&name=src/main.c")
            self.assertEqual(status, 410)
            status, _, _ = server.get(f"/api/file?repository=one&life=2&version={after['version']}&name=src/main.c")
            self.assertEqual(status, 200)
            self.assertIn(b"tsearch_restarts_total 1\n", server.get("/metrics")[1])
            self.assertEqual(server.log.count("it is started again"), 1)

    def test_too_slow(self) -> None:
        with serving("--search-ms", "1") as server:
            pathlib.Path(server.top, "two/large").write_bytes(b"a few words of a long file, and so on\n" * 25_000)
            until(lambda: server.get("/metrics")[1].count(b'tsearch_documents{repository="two"} %d\n' % (TEXTS + 1)))
            slow = "a.*b.*c.*d.*e.*f"
            until(lambda: server.find(slow, search_ms="99999", repository="two") == [{"refused": "too slow", "milliseconds": 1}])
            # it is named beside the answer of the other
            faults = [{"repository": "two", "fault": "too slow", "milliseconds": 1}, {"repository": "two", "fault": "too slow", "alone": True}]
            until(lambda: any(any(fault in rows for fault in faults) and rows[-1].get("missing") == ["two"] for rows in [server.find(slow)]))


if __name__ == "__main__":
    unittest.main()
