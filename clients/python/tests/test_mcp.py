"""`tgrep --mcp`: the protocol by its specification, its tools beside a plain model, and clients that mean ill."""

from __future__ import annotations

import base64
import json
import os
import random
import shutil
import signal
import subprocess
import unittest
from typing import Any

from agents import VERSION, Agents, Client
from helpers import SECONDS, SLOW, Model, found_in, lines_of, quoted, slow_documents
from warmed import TGREP, text_of

PARSE, INVALID, NO_METHOD, PARAMS = -32700, -32600, -32601, -32602
SMALL = {b"a.c": b"int a;\nint b;\n", b"src/b.c": b"int c;\nfloat d;\n", b"docs/c.md": b"an int\n"}


def rows_of(pages: list[dict[str, Any]]) -> list[tuple[bytes, int, bytes, bool]]:
    """The lines of some pages."""
    return [
        (text_of(file["path"]), line["line"], text_of(line["text"]), "around" not in line)
        for page in pages for file in page["files"] for line in file["lines"]
    ]  # fmt: skip


class Lifecycle(Agents):
    def test_begin_and_end(self) -> None:
        self.write(SMALL)
        client = self.client()
        self.assertEqual(client.ask("ping")["result"], {})
        for method in "tools/list", "tools/call":
            self.assertEqual(client.ask(method, {})["error"]["code"], INVALID)
        result = client.hello()
        self.assertEqual(result["protocolVersion"], VERSION)
        self.assertIn("tools", result["capabilities"])
        self.assertEqual({"name", "version"} - set(result["serverInfo"]), set())
        self.assertEqual(client.ask("initialize", {"protocolVersion": VERSION, "capabilities": {}})["error"]["code"], INVALID)
        self.assertEqual(client.ask("ping")["result"], {})
        self.assertEqual(client.close(), 0)

    def test_versions(self) -> None:
        for asked, given in (VERSION, VERSION), ("2024-11-05", "2024-11-05"), ("1999-01-01", VERSION), ("", VERSION):
            client = self.client()
            told = client.ask("initialize", {"protocolVersion": asked, "capabilities": {}, "clientInfo": {"name": "a", "version": "1"}})
            self.assertEqual(told["result"]["protocolVersion"], given)
            client.close()
        client = self.client()
        for params in {}, {"protocolVersion": 5}, {"protocolVersion": VERSION, "capabilities": []}, []:
            self.assertEqual(client.ask("initialize", params)["error"]["code"], PARAMS)
        client.hello()

    def test_tools_are_described(self) -> None:
        client = self.ready()
        tools = client.ask("tools/list")["result"]["tools"]
        self.assertEqual([tool["name"] for tool in tools], ["search", "read_lines", "list_files", "compare"])
        for tool in tools:
            self.assertTrue(tool["description"] and tool["annotations"]["readOnlyHint"])
            for key in "inputSchema", "outputSchema":
                self.assertEqual(tool[key]["type"], "object")
                self.assertLessEqual(set(tool[key]["required"]), set(tool[key]["properties"]))
        self.assertEqual(client.ask("tools/list", {"cursor": "x"})["error"]["code"], PARAMS)

    def test_the_folder_of_the_start(self) -> None:
        self.write(SMALL)
        client = self.client("--root", "src")
        client.hello()
        self.assertEqual([file["path"] for file in client.call("list_files")["files"]], ["b.c"])
        for words in ["--root", "none"], ["src"]:
            done = subprocess.run([*TGREP, "--mcp", *words], cwd=self.top, stdin=subprocess.DEVNULL, capture_output=True, check=False)
            self.assertEqual((done.returncode, done.stdout, done.stderr.count(b"\n")), (2, b"", 1))

    def test_no_tool_before_initialized(self) -> None:
        client = self.client()
        client.ask("initialize", {"protocolVersion": VERSION, "capabilities": {}})
        self.assertEqual(client.ask("tools/call", {"name": "list_files"})["error"]["code"], INVALID)

    def test_a_client_that_closes_in_the_middle(self) -> None:
        self.write(slow_documents(400))
        client = self.ready()
        for _ in range(5):
            client.begin("tools/call", {"name": "search", "arguments": {"pattern": SLOW}})
        client.write(b'{"jsonrpc": "2.0", "id": 100, "meth')
        self.assertEqual(client.close(), 0)
        # one that closes only what it reads from
        process = subprocess.Popen([*TGREP, "--mcp"], cwd=self.top, stdin=subprocess.PIPE, stdout=subprocess.PIPE)
        process.stdout.close()
        process.stdin.write(b'{"jsonrpc": "2.0", "id": 1, "method": "ping"}\n')
        process.stdin.close()
        self.assertEqual(process.wait(SECONDS), 0)


class Messages(Agents):
    def test_what_is_no_message(self) -> None:
        client = self.ready()
        deep = b"[" * 100_000
        lines = [
            (b"x", PARSE), (b'{"jsonrpc": "2.0", "id": 1', PARSE), (b"\xff\xfe", PARSE), (deep, PARSE), (b'{"a":' * 50_000, PARSE),
            (b'{"jsonrpc": "2.0", "id": 1, "method": "ping", "params": {"a": NaN}}', PARSE), (b"9" * 5_000, PARSE),
            (b"[]", INVALID), (b'[{"jsonrpc": "2.0", "id": 1, "method": "ping"}]', INVALID), (b"5", INVALID), (b'"ping"', INVALID), (b"null", INVALID),
            (b"{}", INVALID), (b'{"jsonrpc": "2.0"}', INVALID), (b'{"jsonrpc": "2.0", "id": null, "method": "ping"}', INVALID),
            (b'{"jsonrpc": "2.0", "id": [], "method": "ping"}', INVALID), (b'{"jsonrpc": "2.0", "id": 1.5, "method": "ping"}', INVALID),
            (b'{"jsonrpc": "2.0", "id": true, "method": "ping"}', INVALID), (b'"' + b"a" * (2 << 20) + b'"', INVALID),
        ]  # fmt: skip
        for line, code in lines:
            with self.subTest(line=line[:80]):
                client.write(line + b"\n")
                answer = client.take()
                self.assertEqual((answer["id"], answer["error"]["code"]), (None, code))
        # those whose id can be read
        for line, code in (b'"jsonrpc": "1.0", "method": "ping"', INVALID), (b'"method": "ping"', INVALID), (b'"jsonrpc": "2.0", "method": 5', INVALID):
            client.write(b'{"id": "one", %s}\n' % line)
            self.assertEqual(client.answer("one")["error"]["code"], code)
        self.assertEqual(client.ask("ping")["result"], {})

    def test_ids_and_empty_lines(self) -> None:
        client = self.ready()
        for number in 0, -5, 10**300, "", "a", "\u00e9\u4e16", "\ud800":
            client.send(id=number, method="ping")
            self.assertEqual(client.answer(number)["result"], {})
        client.write(b"\n \r\n")
        client.write(b'{"jsonrpc": "2.0", "id": 7, "method": "ping"}\r\n')
        self.assertEqual(client.answer(7)["result"], {})

    def test_methods_and_notifications(self) -> None:
        client = self.ready()
        for method in "", "fly", "resources/list", "prompts/list", "x" * 1_000, "\u0000":
            self.assertEqual(client.ask(method)["error"]["code"], NO_METHOD)
        for params in [], 5, None, "x":
            client.send(id="p", method="tools/list", params=params)
            self.assertEqual(client.answer("p")["error"]["code"], PARAMS)
        # nobody answers a notification or a response, whatever it is
        for params in {}, [], {"requestId": {}}, {"requestId": "none"}, {"requestId": 12}, 5:
            client.send(method="notifications/cancelled", params=params)
        for method in "notifications/fly", "tools/call", "ping", "notifications/initialized", "notifications/roots/list_changed":
            client.send(method=method)
        client.send(id="roots-1", result={"roots": []})
        client.send(id=99, error={"code": 1, "message": "x"})
        number = client.begin("ping")
        self.assertEqual(client.take(), {"jsonrpc": "2.0", "id": number, "result": {}})

    def test_arguments(self) -> None:
        self.write(SMALL)
        client = self.ready()
        wrong: list[tuple[Any, Any]] = [
            ("fly", {}), (None, {}), (5, {}), ([], {}), ("search", None), ("search", []), ("search", {}), ("search", {"pattern": 5}),
            ("search", {"pattern": "a", "limit": 0}), ("search", {"pattern": "a", "limit": 10**300}),
            ("search", {"pattern": "a", "limit": True}), ("search", {"pattern": "a", "limit": 1.5}), ("search", {"pattern": "a", "limit": "1"}),
            ("search", {"pattern": "a", "nonsense": 1}), ("search", {"pattern": "a", "globs": "*.c"}), ("search", {"pattern": "a", "globs": [5]}),
            ("search", {"pattern": "a", "globs": ["*"] * 1_000}), ("search", {"pattern": "a" * 2_000}), ("search", {"pattern": "\ud800"}),
            ("search", {"pattern": "a", "paths": [{"base64": 5}]}), ("search", {"pattern": "a", "paths": [{"base64": "YQ==", "x": 1}]}),
            ("search", {"pattern": "a", "context": -1}), ("search", {"pattern": "a", "literal": "yes"}), ("read_lines", {}), ("compare", {"pattern": "a"}),
            ("read_lines", {"path": "a.c", "from": 0}), ("list_files", {"limit": -1}), ("list_files", {"cursor": 5}),
        ]  # fmt: skip
        for name, arguments in wrong:
            with self.subTest(name=name, arguments=str(arguments)[:80]):
                self.assertEqual(client.ask("tools/call", {"name": name, "arguments": arguments})["error"]["code"], PARAMS)
        for token in [], {}, 1.5, True:
            params = {"name": "list_files", "arguments": {}, "_meta": {"progressToken": token}}
            self.assertEqual(client.ask("tools/call", params)["error"]["code"], PARAMS)
        # a whole number may be written as 2.0
        self.assertEqual(client.call("search", pattern="int", limit=2.0)["found"], 2)
        self.assertEqual(client.ask("tools/call", {"name": "list_files"})["result"]["isError"], False)


class Refusals(Agents):
    def test_patterns_are_taught(self) -> None:
        self.write(SMALL)
        client = self.ready()
        patterns = {"\\d+": "[0-9]", "\\bint\\b": "whole_words", "(?i)int": "ignore_case", "a(b": "literal", "(?=a)": "lookaround", "*.c": "globs"}
        for pattern, hint in patterns.items():
            told = client.refused("search", pattern=pattern)
            self.assertIn(hint, told)
            self.assertIn("POSIX extended", told)
            self.assertEqual(told.count("\n"), 0)
        self.assertIn("two patterns", client.refused("search", pattern="a\\nb"))
        client.refused("search", pattern="a\nb")
        client.refused("search", pattern="a", types=["none"])
        client.refused("search", pattern="a", globs=["!a", "b"])
        client.refused("search", pattern="a", counts=True, files_only=True)
        client.refused("compare", pattern="a", range="HEAD..HEAD")

    def test_cursors(self) -> None:
        self.write(SMALL)
        client = self.ready()
        cursor = client.call("search", pattern="int", limit=1)["next_cursor"]

        def made(place: Any) -> str:
            digest = json.loads(base64.urlsafe_b64decode(cursor + "=" * (-len(cursor) % 4)))[0]
            return base64.urlsafe_b64encode(json.dumps([digest, *place] if isinstance(place, list) else place).encode()).decode().rstrip("=")

        self.assertEqual(client.call("search", pattern="int", limit=2, cursor=cursor)["found"], 2)
        others = ["", "x", "\u00e9", cursor[:-3], cursor + "AAAA", made({}), made([]), made(["x", "", 0, 0]), made([0, 5, 0, 0]), made([0, "xyz", 0, 0])]
        others += [made([0, "", -1, 0]), made([0, "", 0, 10**30]), made([True, "", 0, 0]), base64.b64encode(b"[" * 9_000).decode()]
        for other in others:
            with self.subTest(cursor=other[:60]):
                self.assertIn("cursor", client.refused("search", pattern="int", cursor=other))
        self.assertIn("cursor", client.refused("search", pattern="float", cursor=cursor))
        self.assertEqual(client.call("search", pattern="int", cursor=made([9, "", 0, 0]))["found"], 0)


class Outside(Agents):
    def setUp(self) -> None:
        super().setUp()
        self.write(SMALL)
        self.outside = self.top.parent / "outside"
        self.outside.mkdir()
        (self.outside / "secret.c").write_text("int secret;\n")
        (self.top / "link").symlink_to(self.outside)
        (self.top / "link.c").symlink_to(self.outside / "secret.c")
        (self.top / "inner").symlink_to(self.top / "src")
        (self.top / "loop").symlink_to(self.top / "loop")

    def test_nothing_outside_is_shown(self) -> None:
        client = self.ready()
        paths = ["..", "../outside", "../outside/secret.c", str(self.outside), "/", "/etc/passwd", "link", "link/secret.c", "link.c", "src/../..",
                 "link/..", "/proc/self/environ", "/dev/stdin", "~", "src\0", "x" * 4_000, "loop", "none", "file:///etc"]  # fmt: skip
        for path in paths:
            with self.subTest(path=path[:60]):
                for tool, given in ("search", {"pattern": "", "paths": [path]}), ("read_lines", {"path": path}), ("list_files", {"under": path}):
                    told = client.refused(tool, **given)
                    self.assertNotIn("secret;", told)
        for bad in {"base64": "?"}, {"base64": "AA=="}:
            client.refused("read_lines", path=bad)
        self.assertNotIn("secret", json.dumps([client.pages("search", pattern=""), client.pages("search", pattern="", files_only=True)]))
        self.assertEqual([file["path"] for file in client.call("list_files")["files"] if "left_out" not in file], ["a.c", "docs/c.md", "src/b.c"])
        # a link within the root leads to where it leads
        self.assertEqual(client.call("read_lines", path="inner/b.c")["path"], "src/b.c")
        self.assertEqual(client.call("search", pattern="int", paths=["inner"])["files"][0]["path"], "src/b.c")

    def test_a_root_that_is_part_of_a_tree(self) -> None:
        (self.top / ".git").mkdir()
        client = self.ready(self.top / "src")
        self.assertEqual(rows_of(client.pages("search", pattern="int")), [(b"b.c", 1, b"int c;", True)])
        self.assertEqual([file["path"] for file in client.call("list_files")["files"]], ["b.c"])
        for path in "../a.c", str(self.top / "a.c"), str(self.top), "..":
            client.refused("search", pattern="int", paths=[path])
            client.refused("read_lines", path=path)
            client.refused("list_files", under=path)
        self.assertEqual(client.call("read_lines", path="b.c", to=1)["lines"], [{"line": 1, "text": "int c;"}])

    @unittest.skipUnless(shutil.which("git"), "the command git is missing")
    def test_what_rules_name(self) -> None:
        self.git("init", "-q", "-b", "main")
        self.write({b".gitignore": b"made/\n*.log\n", b"made/x.c": b"int made;\n", b"a.log": b"int log;\n", b"x.bin": b"int\0\n"})
        client = self.ready(self.top)
        self.assertNotIn("made", json.dumps(client.pages("search", pattern="int")))
        for path in "made", "a.log", "x.bin", ".git/config":
            self.assertIn("is not searched", client.refused("search", pattern="int", paths=[path]))
        for path in "made/x.c", "a.log", "x.bin", ".git/config":
            self.assertIn("is not searched", client.refused("read_lines", path=path))
        self.assertIn({"path": "x.bin", "bytes": 5, "left_out": "binary"}, client.call("list_files")["files"])
        # a root that a rule names is a tree of its own
        self.assertEqual(self.ready(self.top / "made").call("search", pattern="int")["found"], 1)

    def test_roots_of_the_client(self) -> None:
        client = self.ready(self.top / "src", self.outside, folder=self.top)
        rows = rows_of(client.pages("search", pattern="int", limit=1))
        self.assertEqual([row[0] for row in rows], [os.fsencode(self.top / "src/b.c"), os.fsencode(self.outside / "secret.c")])
        self.assertEqual(client.call("read_lines", path="secret.c")["of"], 1)
        self.assertEqual(client.call("read_lines", path=rows[0][0].decode())["of"], 2)
        client.refused("read_lines", path=str(self.top / "a.c"))
        self.assertEqual([len(page["files"]) for page in client.pages("list_files", limit=1)], [1, 1])
        # others take their place
        client.send(method="notifications/roots/list_changed")
        number = client.begin("tools/call", {"name": "list_files", "arguments": {}})
        client.say_roots([self.top / "docs"])
        self.assertEqual(client.checked("list_files", client.answer(number))["files"], [{"path": "c.md", "bytes": 7}])
        client.refused("read_lines", path="secret.c")

    def test_roots_that_are_none(self) -> None:
        client = self.client()
        client.ask("initialize", {"protocolVersion": VERSION, "capabilities": {"roots": {"listChanged": True}}})
        client.send(method="notifications/initialized")
        fit = {"uri": (self.top / "src").as_uri()}
        answers: list[tuple[Any, int]] = [
            ({"result": {"roots": []}}, 0), ({"error": {"code": NO_METHOD, "message": "none"}}, 0), ({"result": 5}, 0), ({"result": {"roots": 5}}, 0),
            ({"result": {"roots": [5, {}, {"uri": 5}, {"uri": "http://x/"}, {"uri": "file://host/"}, {"uri": "file:///none"}, {"uri": "file://["}]}}, 0),
            ({"result": {"roots": [{"uri": "file:///%00"}, {"uri": "src"}, {"uri": f"file://{self.top}/a.c"}]}}, 0), ({"result": {"roots": [fit, fit]}}, 1),
        ]  # fmt: skip
        for answer, count in answers:
            client.send(id=client.other("roots/list")["id"], **answer)
            result = client.ask("tools/call", {"name": "list_files", "arguments": {}})["result"]
            self.assertEqual(len(result["structuredContent"]["files"]) if not result["isError"] else 0, count)
            client.send(method="notifications/roots/list_changed")


class Running(Agents):
    def test_cancels(self) -> None:
        self.write(slow_documents(400))
        client = self.ready()
        first, second = (client.begin("tools/call", {"name": "search", "arguments": {"pattern": SLOW}}) for _ in range(2))
        # what is under way is beside the others
        self.assertEqual(client.ask("ping")["result"], {})
        self.assertEqual(client.call("search", pattern="^end$")["found"], 1)
        client.send(id=first, method="tools/call", params={"name": "list_files"})
        self.assertEqual(client.answer(first)["error"]["code"], INVALID)
        for number in first, second, 12_345:
            client.send(method="notifications/cancelled", params={"requestId": number, "reason": "test"})
        client.call("search", pattern="^end$")
        # nothing comes for them, and their searches end
        with self.assertRaises(EOFError):
            self.assertEqual(client.close(), 0)
            while True:
                self.assertNotIn(client.take().get("id"), (first, second))

    def test_progress(self) -> None:
        self.write({b"%d/%d" % (at % 7, at): b"line %d\n" % at for at in range(300)})
        client = self.ready()
        tokens = ["a", 5, "\u00e9"]
        numbers = {}
        for token in tokens:
            params = {"name": "search", "arguments": {"pattern": "line 7$"}, "_meta": {"progressToken": token}}
            numbers[token] = client.begin("tools/call", params)
        for number in numbers.values():
            self.assertEqual(client.checked("search", client.answer(number))["found"], 1)
        told = [message["params"] for message in client.others if message["method"] == "notifications/progress"]
        for token in tokens:
            values = [one["progress"] for one in told if one["progressToken"] == token]
            self.assertTrue(values)
            self.assertEqual(values, sorted(set(values)))
        client.others.clear()
        client.call("search", pattern="line")
        self.assertEqual(client.others, [])

    def test_many_at_once(self) -> None:
        model = Model(5)
        self.write(model.documents)
        client = self.ready()
        calls = {client.begin("tools/call", {"name": "search", "arguments": {"pattern": one, "limit": 1_000}}): one for one in Model.PATTERNS * 3}
        for number in random.Random(1).sample(list(calls), len(calls)):
            found = rows_of([client.checked("search", client.answer(number))])
            self.assertEqual(found, [row[:3] + (True,) for row in found_in(model.documents, calls[number])[2]])

    def test_changes_and_versions(self) -> None:
        self.write({b"a": b"one\ntwo\n"})
        client = self.ready()
        found = client.call("search", pattern="two")
        version = found["files"][0]["version"]
        for at in range(5):
            self.write({b"a": b"new %d\n" % at})
            self.assertEqual(rows_of([client.call("search", pattern="new|two")]), [(b"a", 1, b"new %d" % at, True)])
            self.assertEqual(client.call("read_lines", path="a")["lines"], [{"line": 1, "text": f"new {at}"}])
        # as it was searched
        self.assertEqual([line["text"] for line in client.call("read_lines", path="a", version=version)["lines"]], ["one", "two"])
        for other in "", "x", "1.1.1", "9.9", version + "0000", version.replace(".", ".0."), "999999999.1.1":
            client.refused("read_lines", path="a", version=other)
        os.unlink(self.top / "a")
        client.refused("read_lines", path="a")

    def test_the_server_of_the_tree_ends(self) -> None:
        self.write(SMALL)
        client = self.ready()
        version = client.call("search", pattern="float")["files"][0]["version"]
        os.kill(int(version.split(".")[0]), signal.SIGKILL)
        self.assertEqual(client.call("search", pattern="float")["found"], 1)
        self.assertIn("not known", client.refused("read_lines", path="src/b.c", version=version))


class Tools(Agents):
    def test_searches_beside_a_model(self) -> None:
        source = random.Random(7)
        odd = {b"odd \xff\n": b"alpha \xfe\nbeta\n", "\u00e9/\u4e16.c".encode(): "alpha \u00e9\n".encode(), b"-x": b"alpha", b"empty": b"", b"%41": b"beta\r\n"}
        documents = {**Model(11).documents, **odd}
        self.write(documents)
        client = self.ready()
        for at in range(40):
            pattern = source.choice(Model.PATTERNS)
            flags = {flag: True for flag in ("ignore_case", "literal", "whole_words") if source.random() < 0.2}
            given: dict[str, Any] = {"limit": source.choice([1, 3, 10, 1_000]), **flags}
            under = source.choice([None, "dir 1", "dir 2"])
            searched = documents if under is None else {name: body for name, body in documents.items() if name.startswith(under.encode() + b"/")}
            given |= {} if under is None else {"paths": [under]}
            with self.subTest(at=at, pattern=pattern, given=given):
                (self.counts, self.paths, self.lines, self.context)[at % 4](client, pattern, given, flags, searched)
        path = {"base64": base64.b64encode(b"odd \xff\n").decode()}
        self.assertEqual([line["text"] for line in client.call("read_lines", path=path)["lines"]][1:], ["beta"])

    def counts(self, client: Client, pattern: str, given: dict, flags: dict, searched: dict[bytes, bytes]) -> None:
        pages = client.pages("search", pattern=pattern, counts=True, **given)
        self.assertTrue(all(page["found"] == len(page["counts"]) <= given["limit"] for page in pages))
        found = [(text_of(one["path"]), one["count"]) for page in pages for one in page["counts"]]
        self.assertEqual(found, found_in(searched, pattern, counts=True, **flags)[2])

    def paths(self, client: Client, pattern: str, given: dict, flags: dict, searched: dict[bytes, bytes]) -> None:
        pages = client.pages("search", pattern=pattern, files_only=True, **given)
        self.assertTrue(all(page["found"] == len(page["paths"]) <= given["limit"] for page in pages))
        self.assertEqual([text_of(one) for page in pages for one in page["paths"]], found_in(searched, pattern, names_only=True, **flags)[2])

    def lines(self, client: Client, pattern: str, given: dict, flags: dict, searched: dict[bytes, bytes]) -> None:
        pages = client.pages("search", pattern=pattern, **given)
        self.assertTrue(all(page["found"] == len(rows_of([page])) <= given["limit"] for page in pages))
        self.assertEqual(rows_of(pages), [row[:3] + (True,) for row in found_in(searched, pattern, **flags)[2]])
        self.assertTrue(all(line["column"] >= 1 for page in pages for file in page["files"] for line in file["lines"]))

    def context(self, client: Client, pattern: str, given: dict, flags: dict, searched: dict[bytes, bytes]) -> None:
        first = client.call("search", pattern=pattern, context=2, **given)
        rows = found_in(searched, pattern, context=2, limit=given["limit"], **flags)[2]
        self.assertEqual(rows_of([first]), [row[:3] + (row[-1],) for row in rows if row])
        every = rows_of(client.pages("search", pattern=pattern, context=2, **given))
        self.assertEqual([row for row in every if row[3]], [row[:3] + (True,) for row in found_in(searched, pattern, **flags)[2]])

    def test_lists_and_lines_beside_a_model(self) -> None:
        model = Model(3)
        documents = {**model.documents, b"src/a.py": b"x\n", b"empty": b"", b"long": b"".join(b"line %d\n" % at for at in range(5_000))}
        self.write(documents)
        client = self.ready()
        names = sorted(documents, key=quoted)
        for limit in 1, 7, 1_000:
            files = [file for page in client.pages("list_files", limit=limit) for file in page["files"]]
            self.assertEqual([(text_of(file["path"]), file["bytes"]) for file in files], [(name, len(documents[name])) for name in names])
        for given, suffix, folder in ({"globs": ["*.c"]}, b".c", b""), ({"types": ["py"]}, b".py", b""), ({"globs": ["*.c"], "under": "dir 1"}, b".c", b"dir 1/"):
            files = [text_of(file["path"]) for file in client.call("list_files", **given)["files"]]
            self.assertEqual(files, [name for name in names if name.endswith(suffix) and name.startswith(folder)])
        for name in names:
            lines = [line.decode() for line in lines_of(documents[name])] if documents[name] else []
            page = client.call("read_lines", path=name.decode(), to=1_000)
            found = [line["text"] for line in page["lines"]]
            while page["more"]:
                page = client.call("read_lines", path=name.decode(), version=page["version"], **{"from": page["next_from"]})
                found += [line["text"] for line in page["lines"]]
            self.assertEqual((found, page["of"]), (lines, len(lines)))
        self.assertEqual(client.call("read_lines", path="long", to=12, **{"from": 11})["lines"], [{"line": 11, "text": "line 10"}, {"line": 12, "text": "line 11"}])
        self.assertEqual(client.call("read_lines", path="long", **{"from": 2**31 - 1})["lines"], [])
        client.refused("read_lines", path="long", to=1, **{"from": 2})
        client.refused("read_lines", path="src")
        client.refused("list_files", under="long")

    def test_answers_are_bounded(self) -> None:
        lines = [b"x" * 1_000 + b" needle %d " % at + b"\xc3\xa9" * 500 for at in range(240)]
        self.write({b"wide/" + b"n" * 200 + b"/%d" % at: b"\n".join(lines[at * 60 : at * 60 + 60]) + b"\n" for at in range(4)})
        client = self.ready()
        pages = client.pages("search", pattern="needle", limit=1_000, context=20)
        found = [row for row in rows_of(pages) if row[3]]
        self.assertEqual([(row[0][-1:], row[1]) for row in found], [(b"%d" % file, line + 1) for file in range(4) for line in range(60)])
        self.assertGreater(len(pages), 2)
        self.assertTrue(all(b"needle" in row[2] and len(row[2]) <= 410 for row in found))
        line = pages[0]["files"][0]["lines"][0]
        self.assertEqual(line["of"], 1_000 + len(" needle 0 ") + 500)
        path, first, count = pages[0]["files"][0]["path"], 1, 0
        while first:
            page = client.call("read_lines", path=path, to=1_000, **{"from": first})
            count += len(page["lines"])
            first = page.get("next_from", 0)
        self.assertEqual(count, 60)

    @unittest.skipUnless(shutil.which("git"), "the command git is missing")
    def test_comparisons(self) -> None:
        self.git("init", "-q", "-b", "main")
        self.write({b"src/a.c": b"int one;\nint two;\n", b"top.c": b"int top;\n", b"src/gone.c": b"int gone;\n"})
        self.git("add", "."), self.git("commit", "-qm", "1")
        self.write({b"src/a.c": b"int one;\nint three;\n", b"src/new.c": b"int new;\nlong new;\n"})
        os.unlink(self.top / "src/gone.c")
        os.rename(self.top / "top.c", self.top / "src/moved.c")
        self.git("add", "-A"), self.git("commit", "-qm", "2")
        client = self.ready(self.top)
        whole = client.call("compare", range="HEAD~1..HEAD", pattern="int")
        self.assertEqual((whole["before"], whole["after"]), (self.git("rev-parse", "HEAD~1"), self.git("rev-parse", "HEAD")))
        of_a = [(line["sign"], line.get("old_line"), line.get("new_line"), line["text"]) for line in whole["lines"] if "src/a.c" in (line.get("old_path"), line.get("new_path"))]
        self.assertEqual(sorted(of_a), sorted([(" ", 1, 1, "int one;"), ("-", 2, None, "int two;"), ("+", None, 2, "int three;")]))
        for limit in 1, 2:
            pages = client.pages("compare", range="HEAD~1..HEAD", pattern="int", limit=limit)
            self.assertEqual([line for page in pages for line in page["lines"]], whole["lines"])
        found = client.call("compare", range="HEAD~1..HEAD", pattern="INT", ignore_case=True, under="src/gone.c")["lines"]
        self.assertEqual([(line["sign"], line["old_path"], line["text"]) for line in found], [("-", "src/gone.c", "int gone;")])
        found = client.call("compare", range="HEAD~1..", pattern="long", literal=True, globs=["*.c"])["lines"]
        self.assertEqual([(line["sign"], line["new_path"], line["new_line"]) for line in found], [("+", "src/new.c", 2)])
        # what comes from outside the root is not shown, on neither side
        part = self.ready(self.top / "src")
        shown = part.call("compare", range="HEAD~1..HEAD", pattern="int")
        self.assertNotIn("top", json.dumps(shown))
        self.assertIn("a.c", [line.get("new_path") for line in shown["lines"]])
        for words in "HEAD", "none..HEAD", "--output=x..HEAD", "..", "HEAD~9..HEAD", "HEAD..HEAD\n", "*..HEAD", "HEAD..-h":
            with self.subTest(range=words):
                result = client.ask("tools/call", {"name": "compare", "arguments": {"range": words, "pattern": "int"}})["result"]
                self.assertTrue(result["isError"] or result["structuredContent"]["lines"] == [], result)
        self.assertIn("POSIX extended", client.refused("compare", range="HEAD~1..HEAD", pattern="\\d"))
        client.refused("compare", range="HEAD~1..HEAD", pattern="int", under="../outside")
        self.ready(self.top, self.top / "src").refused("compare", range="HEAD~1..HEAD", pattern="int")
