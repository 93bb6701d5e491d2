"""A warm server and its clients: cancels, faults, sockets, the client for node, and the example of its page."""

from __future__ import annotations

import contextlib
import json
import os
import re
import shutil
import signal
import socket
import subprocess
import unittest

from helpers import SECONDS, SLOW, TOP, children_of, quoted, slow_documents, until
from tsearch.errors import Error
from tsearch.warm import WarmRefused
from warmed import TGREP, Place, shown_by, text_of

NODE = TOP / "clients/node/tgrep.js"


class Cancels(Place):
    def test_cancels(self) -> None:
        self.write(slow_documents(400))
        warm = self.warm()
        warm.ask("status")
        first = warm.send("find", pattern=SLOW)
        second = warm.send("find", pattern=SLOW)
        third = warm.send("find", pattern="^end$")
        self.assertEqual([document["name"] for part in warm.parts(third) for document in part.get("documents", [])], ["slow/end"])
        for number in first, second:
            with self.assertRaises(WarmRefused) as refused:
                list(warm.parts(number))
            self.assertEqual(refused.exception.kind, "cancelled")
        # one beside it is not cancelled by the next, but by its number
        beside = warm.send("find", pattern=SLOW, beside=True)
        for number in warm.send("find", pattern="^end$"), warm.send("cancel", of=beside):
            list(warm.parts(number))
        with self.assertRaises(WarmRefused) as refused:
            list(warm.parts(beside))
        self.assertEqual(refused.exception.kind, "cancelled")


    def test_who_leaves_gives_up(self) -> None:
        self.write(slow_documents(400))
        warm, other = self.warm(), self.warm()
        other.ask("status")
        # so many that they are seen at work
        for _ in range(20):
            warm.send("find", pattern=SLOW, beside=True)
        until(lambda: other.ask("status")["open"])
        warm.close()
        until(lambda: other.ask("status")["open"] == 0)


class Files(Place):
    def test_lists(self) -> None:
        documents = {b"a b": b"x", b"src/c.c": b"foo\n", b"src/d.py": b"", b"bin": b"a\0", b"odd\xff": b"y\n", b".ignore": b"made/\n"}
        self.write({**documents, b"made/x": b"x\n"})
        warm = self.warm()
        files = warm.ask("list")["files"]
        self.assertEqual([(text_of(one["name"]), one["bytes"]) for one in files], [(name, len(documents[name])) for name in sorted(documents, key=quoted)])
        self.assertEqual([one["left_out"] for one in files if "left_out" in one], ["binary"])
        for given, names, left in (
            ({"after": "a b", "limit": 2}, ["bin", {"base64": "b2Rk/w=="}], 2), ({"folder": "src", "globs": ["*.c"]}, ["src/c.c"], 0),
            ({"types": ["py"]}, ["src/d.py"], 0), ({"after": {"base64": "b2Rk/w=="}}, ["src/c.c", "src/d.py"], 0), ({"after": "z"}, [], 0),
        ):  # fmt: skip
            told = warm.ask("list", **given)
            self.assertEqual(([one["name"] for one in told["files"]], told["left"], told["more"]), (names, left, left > 0))
        self.write({b"new": b"z\n"})
        self.assertIn("new", [one["name"] for one in warm.ask("list")["files"]])
        for given, kind in (
            ({"do": "list", "folder": "made"}, "gone"), ({"do": "list", "limit": 0}, "request"), ({"do": "list", "types": ["none"]}, "request"),
            ({"do": "compare", "range": "A..B", "pattern": "x"}, "compare"), ({"do": "compare", "range": "A..B", "pattern": "(x"}, "pattern"),
            ({"do": "compare", "range": "A..B", "pattern": "x\ny"}, "request"),
        ):  # fmt: skip
            with self.assertRaises(WarmRefused) as refused:
                warm.ask(**given)
            self.assertEqual(refused.exception.kind, kind, given)
        self.assertEqual([warm.ask("status", folder=name)["has_folder"] for name in ("src", "made", "")], [True, False, True])


class Faults(Place):
    def test_bad_requests(self) -> None:
        self.write({b"a": b"foo\n"})
        warm = self.warm()
        pattern = "x" * 2_000
        lines = [
            (b"x", "request", {"offset": 0}),
            (b'{"id": 1, "do": "find", }', "request", {"offset": 24}),
            (b'{"id": 1, "do": "find", "pattern": "\xff"}', None, {}),
            (b"[]", "request", {"offset": 0}),
            (b"[" * 100_000, "request", {"offset": 0}),
            (b'{"id": 1, "do": "fly"}', "request", {"in": "do"}),
            (b'{"id": [], "do": "status"}', "request", {"in": "id"}),
            (b'{"id": 1, "do": "cancel", "of": []}', "request", {"in": "of"}),
            (b'{"id": 1, "do": "find"}', "request", {"in": "pattern"}),
            (b'{"id": 1, "do": "edit", "name": "a", "first": 3, "lines": []}', "overlay", {}),
            (b'{"id": 1, "do": "edit", "name": "", "lines": []}', "overlay", {}),
            (b'{"id": 1, "do": "edit", "name": "a", "lines": ["x\\ny"]}', "request", {"in": "lines"}),
            (b'{"id": 1, "do": "overlay", "name": "a", "text": {"base64": "?"}}', "request", {"in": "text"}),
        ]
        patterns = [
            (b"5", "request", {"in": "pattern"}),
            (b'"\\ud800"', "request", {"in": "pattern"}),
            (b'"a(b"', "pattern", {"in": "pattern", "offset": 1}),
            (b'"a\\nb"', "pattern", {"in": "pattern", "offset": 1}),
            (b'"%s"' % pattern.encode(), "pattern", {"in": "pattern", "offset": 1_024}),
        ]
        options = [
            (b'"limit": 0', "request", {"in": "limit"}),
            (b'"limit": true', "request", {"in": "limit"}),
            (b'"nonsense": 1', "request", {"in": "nonsense"}),
            (b'"globs": ["!a", "b"]', "request", {"in": "globs"}),
            (b'"types": ["none"]', "request", {"in": "types"}),
            (b'"invert": true, "groups": true', "request", {"in": "groups"}),
            (b'"names": ["b", "(c"]', "pattern", {"in": ["names", 1], "offset": 0}),
            (b'"globs": ["*.c"], "not_names": ["(c"]', "pattern", {"in": ["not_names", 0], "offset": 0}),
            (b'"invert": true, "column": true', "option", {}),
        ]
        lines += [(b'{"id": 1, "do": "find", "pattern": %s}' % given, *told) for given, *told in patterns]
        lines += [(b'{"id": 1, "do": "find", "pattern": "a", %s}' % given, *told) for given, *told in options]
        for line, kind, where in lines:
            with self.subTest(line=line[:80]):
                warm._socket.sendall(line + b"\n")
                answer = json.loads(warm._file.readline())
                while "event" in answer:
                    answer = json.loads(warm._file.readline())
                error = answer.get("error", {})
                self.assertEqual(error.get("kind"), kind, answer)
                self.assertEqual({key: error.get(key) for key in where}, where)
                self.assertTrue(kind is None or error["message"])
        self.assertEqual(shown_by(warm, "foo")[0], 1)

    def test_the_program_and_the_server_are_killed(self) -> None:
        self.write({b"a": b"foo\n"})
        warm = self.warm()
        warm.ask("overlay", name="b", text="foo too\n")
        self.assertEqual(shown_by(warm, "foo")[0], 2)
        server = warm.ask("status")["process"]
        for child in children_of(server):
            os.kill(child, signal.SIGKILL)
        self.assertEqual(shown_by(warm, "foo")[0], 2)
        os.kill(server, signal.SIGKILL)
        with self.assertRaises((Error, OSError)):
            until(lambda: warm.ask("find", pattern="foo") is None)
        self.assertEqual(shown_by(self.warm(), "foo")[0], 1)

    def test_a_server_that_is_stopped_says_so(self) -> None:
        self.write({b"a": b"foo\n"})
        warm = self.warm()
        warm.ask("status")
        subprocess.run([*TGREP, "--stop"], cwd=self.top, check=True)
        with self.assertRaises(Error), contextlib.suppress(IndexError):
            while True:
                warm.take()
        self.assertEqual([event["event"] for event in warm.events][-1], "ending")
        self.assertEqual(shown_by(self.warm(), "foo")[0], 1)

    def test_who_is_told_nothing_holds_nobody_up(self) -> None:
        """A client that reads nothing, and asks for much."""
        self.write({b"%d" % number: b"foo foo foo\n" * 5_000 for number in range(20)})
        other, warm = self.warm(), self.warm()
        for _ in range(20):
            other.send("find", pattern="foo", spans=True, beside=True)
        self.assertEqual(shown_by(warm, "foo", limit=1)[:2], (1, True))


@unittest.skipUnless(shutil.which("node"), "there is no command node")
class Node(Place):
    def test_the_client_for_node(self) -> None:
        self.assertLessEqual(len(NODE.read_text(encoding="utf-8").splitlines()), 60)
        self.write({b"a.c": "é foo(1)\n".encode(), b"b.c": b"bar\n"})
        script = f"""
const {{ Tgrep }} = require({json.dumps(str(NODE))});
(async () => {{
  const tgrep = await Tgrep.open({json.dumps(str(self.top))}, {json.dumps(str(TOP / "tgrep"))});
  await tgrep.ask("overlay", {{ name: "b.c", text: "unsaved foo\\n" }});
  const found = await tgrep.find("foo", {{ spans: true, units: "utf-16" }});
  console.log(JSON.stringify([found.count, found.documents]));
  await tgrep.find("fo(o").catch((fault) => console.log(fault.kind, fault.offset));
  const other = await Tgrep.open({json.dumps(str(self.top))}, {json.dumps(str(TOP / "tgrep"))});
  const asked = other.ask("status");
  other.socket.destroy();
  await asked.catch((fault) => console.log(fault.message));
  await tgrep.ask("follow");
  tgrep.once("changes", (event) => {{ console.log(JSON.stringify(event.names)); tgrep.socket.end(); }});
  require("node:fs").writeFileSync("c.c", "foo\\n");
}})();
"""
        done = subprocess.run(["node", "-e", script], cwd=self.top, capture_output=True, check=False, timeout=SECONDS)
        self.assertEqual(done.stderr, b"")
        first, *rest = done.stdout.decode().splitlines()
        documents = [{"name": "a.c", "lines": [{"line": 1, "text": "é foo(1)", "spans": [[2, 5]]}]}]
        documents += [{"name": "b.c", "lines": [{"line": 1, "text": "unsaved foo", "spans": [[8, 11]]}]}]
        self.assertEqual(json.loads(first), [2, documents])
        self.assertEqual(rest, ["pattern 2", "the server has ended", '["c.c"]'])

    def test_what_node_cannot_open(self) -> None:
        """The folder or the command is named, and the reason that tgrep gives."""
        self.write({b"a.c": b"foo\n"})
        tgrep, top = str(TOP / "tgrep"), str(self.top)
        calls = [[f"{top}/none", tgrep], [f"{top}/a.c", tgrep], [top, "/none/tgrep"], [top, "/bin/true"], [top, "/bin/false"], [top, tgrep]]
        script = f"""
const {{ Tgrep }} = require({json.dumps(str(NODE))});
(async () => {{
  for (const [folder, command] of {json.dumps(calls)}) {{
    await Tgrep.open(folder, command).then((tgrep) => tgrep.find("foo")).catch((fault) => console.log(fault.message));
  }}
  process.exit();
}})();
"""
        environment = {**os.environ, "TSEARCH": "/none/tsearch"}
        done = subprocess.run(["node", "-e", script], cwd=self.top, env=environment, capture_output=True, check=False, timeout=SECONDS)
        self.assertEqual(done.stderr, b"")
        wanted = [
            f"{top}/none is no folder", f"{top}/a.c is no folder", "spawn /none/tgrep ENOENT", "/bin/true is not tgrep",
            "Command failed: /bin/false --socket", "the variable TSEARCH names /none/tsearch, which is not there",
        ]  # fmt: skip
        self.assertEqual([line for line in done.stdout.decode().splitlines() if line], wanted)


class Sockets(Place):
    def test_where_the_socket_is(self) -> None:
        self.write({b"a": b"foo\n"})
        done = subprocess.run([*TGREP, "--socket"], cwd=self.top, capture_output=True, check=True)
        told = json.loads(done.stdout)
        self.assertEqual(told["root"], str(self.top))
        with socket.socket(socket.AF_UNIX) as connection:
            connection.connect(told["socket"])
            connection.sendall(b'{"id":"x","do":"find","pattern":"foo"}\n')
            with connection.makefile("rb") as file:
                found = [json.loads(file.readline()) for _ in range(2)]
        self.assertEqual(found[0], {"id": "x", "documents": [{"name": "a", "lines": [{"line": 1, "text": "foo"}]}]})

    def test_a_server_of_another_version_makes_room(self) -> None:
        self.write({b"a": b"foo\n"})
        warm = self.warm()
        before = warm.ask("status")["process"]
        with self.assertRaises(WarmRefused):
            warm.ask("hello", token="another")
        self.assertNotEqual(self.warm().ask("status")["process"], before)


class Page(Place):
    def test_the_example(self) -> None:
        """What docs/SERVER.md shows: what is sent, and what is answered."""
        page = (TOP / "docs/SERVER.md").read_text(encoding="utf-8")
        self.write({b"a.c": b"int saved;\n"})
        warm, seen = self.warm(), 0
        for kind, text in re.findall(r"^    ([<>]) (.*)$", page, re.MULTILINE):
            if kind == ">":
                warm._socket.sendall(text.encode() + b"\n")
                continue
            answer = {"event": ""}
            while "event" in answer:
                answer = json.loads(warm._file.readline())
            self.assertEqual(answer, json.loads(text))
            seen += 1
        self.assertEqual(seen, 5)


if __name__ == "__main__":
    unittest.main()
