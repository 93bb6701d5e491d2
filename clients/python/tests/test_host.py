"""The server of a code host, asked without a browser: repositories of git, who sees what, and settings."""

import importlib.util
import json
import os
import pathlib
import re
import shutil
import signal
import stat
import tempfile
import unittest

from helpers import until
from made import Made
from serving import Server, serving_in

FILES = {
    b"src/main.c": b"int main(void)\n{\n    return call(1);\n}\n",
    b"src/util.c": b"int call(int x)\n",
    b"secret/key.c": b"int key;\n",
    b"caf\xe9 x": b"int bytes;\n",
}
NO_REASON = importlib.util.find_spec("aiohttp") and shutil.which("git")
REASON = "the library aiohttp (python3-aiohttp) or the command git is missing"


class Host(unittest.TestCase):
    def setUp(self) -> None:
        self.top = pathlib.Path(self.enterContext(tempfile.TemporaryDirectory()))
        self.made = Made(self.top / "made.git")
        self.first = self.made.commit("main", FILES)

    def serve(self, *words: str, count: int = 1) -> Server:
        return self.enterContext(serving_in(self.top, *words, count=count))

    def metric(self, server: Server, name: str) -> float:
        """The sum of a measurement over its labels."""
        text = server.get("/metrics")[1].decode()
        return sum(float(value) for value in re.findall(rf"^{name}(?:{{.*}})? (\S+)$", text, re.MULTILINE))


@unittest.skipUnless(NO_REASON, REASON)
class Repositories(Host):
    def view(self, server: Server, commit: str, path: str) -> tuple[int, dict]:
        status, body, _ = server.get(f"/api/file?repository=made&commit={commit}&name={path}")
        return status, json.loads(body)

    def test_what_a_bare_repository_has(self) -> None:
        """Its files, and not what it is made of."""
        server = self.serve(str(self.made.path))
        rows = server.find("int main|repositoryformatversion")
        head = {"repository": "made", "life": 1, "version": 4, "lines": 1, "more": False, "revision": "HEAD", "commit": self.first}
        self.assertEqual(rows[0], head)
        self.assertEqual([row["name"] for row in rows if "hits" in row], ["src/main.c"])
        status, told = self.view(server, self.first, "src/main.c")
        self.assertEqual((status, told["lines"], told["commit"]), (200, FILES[b"src/main.c"].decode().splitlines(), self.first))
        self.assertEqual(self.view(server, self.first, "caf%E9%20x")[1]["lines"], ["int bytes;"])

    def test_an_empty_repository(self) -> None:
        """It is named beside the others, and found in once there is a commit."""
        empty = Made(self.top / "empty.git")
        server = self.serve(str(self.made.path), str(empty.path), count=2)
        rows = server.find("int main")
        self.assertIn({"repository": "empty", "fault": "there is no commit yet"}, rows)
        self.assertEqual(rows[-1]["missing"], ["empty"])
        self.assertEqual(server.find("x", repository="empty"), [{"refused": "there is no commit yet"}])
        empty.commit("main", {b"a": b"int main;\n"})
        until(lambda: len(server.hits("int main")) == 2)

    def test_commits_that_are_served(self) -> None:
        """Those of the revisions, and those before; no others, though they are in the repository."""
        made = self.made
        before = self.first
        now = made.commit("main", {b"src/new.c": b"int new;\n"})
        hidden = made.commit("hidden", {b"hidden.c": b"int hidden;\n"}, start="main")
        server = self.serve("--revisions", "main", str(made.path))
        self.assertEqual([self.view(server, commit, "src/main.c")[0] for commit in (before, now)], [200, 200])
        self.assertEqual(self.view(server, before, "src/new.c")[1], {"refused": "there is no such file"})
        for commit in hidden, hidden[:12], "hidden", "HEAD~9", "0" * 40, "--all", now + "^{tree}", made.git("rev-parse", "main:src/main.c"):
            status, told = self.view(server, commit, "src/main.c")
            self.assertEqual((status, told["refused"]), (410, "this commit is not, or no longer, served"), commit)
        review = lambda one, other: server.lines("/api/review", repository="made", before=one, after=other, q="int")  # noqa: E731
        self.assertEqual(review(before, "main")[-1]["added"], 1)
        self.assertEqual(review(before, "hidden"), [{"refused": "hidden is not a commit that is served"}])
        self.assertEqual(review("", "main")[0]["refused"], " is not a commit that is served")
        self.assertEqual(review("main^{/new}", "main")[0]["refused"], "main^{/new} is not a commit that is served")
        self.assertEqual(review("main^{/}", "main")[0]["refused"], "main^{/} is not a commit that is served")
        # history that is written anew
        later = made.commit("main", {b"src/later.c": b"int later;\n"})
        until(lambda: server.hits("int later"))
        self.assertEqual(self.view(server, now, "src/new.c")[1]["lines"], ["int new;"])
        made.commit("main", {b"only": b"int only;\n"}, start=None)
        until(lambda: server.hits("int only"))
        for commit, path in (now, "src/new.c"), (later, "src/later.c"):
            self.assertEqual(self.view(server, commit, path), (410, {"refused": "this commit is not, or no longer, served"}))
        self.assertEqual(server.find("x", revision="hidden"), [{"refused": "there is no revision hidden"}])

    def test_filters(self) -> None:
        """Of the host, in searches, counts, files and reviews."""
        made = self.made
        other = made.commit("topic", {b"secret/key.c": b"int other;\n", b"src/util.c": b"int other;\n"}, start="main")
        server = self.serve("--revisions", "main", "--revisions", "topic", "--revisions", "mov*", "--filter-header", "X-Filters", str(made.path))
        server.headers = {"X-Filters": json.dumps({"made": {"not_names": ["^secret/"]}})}
        names = lambda **words: [row["name"] for row in server.find("int", **words) if "hits" in row]  # noqa: E731
        self.assertEqual(names(), ["caf\ufffd x", "src/main.c", "src/util.c"])
        self.assertEqual(names(name="secret|key"), [])
        self.assertEqual(names(**{"not": "src"}), ["caf\ufffd x"])
        self.assertEqual(server.lines("/api/count", q="int"), [{"counts": {"made": 3}}])
        self.assertEqual(self.view(server, self.first, "secret/key.c")[0], 410)
        self.assertEqual(self.view(server, other, "src/util.c")[0], 200)
        rows = server.lines("/api/review", repository="made", before="main", after="topic", q="int")
        self.assertEqual([row["after"]["name"] for row in rows if "hits" in row], ["src/util.c"])
        # what was where nothing is seen is new
        made.commit("moved", {b"secret/key.c": None, b"src/key.c": FILES[b"secret/key.c"]}, start="main")
        until(lambda: server.hits("int key", revision="moved"))
        place = {"name": "src/key.c", "id": "src/key.c"}
        whole = {"before": {"name": "secret/key.c", "id": "secret/key.c"}, "after": place, "hits": [{"sign": " ", "before": 1, "after": 1, "parts": ["", "int", " key;"]}]}
        seen = {"after": place, "hits": [{"sign": "+", "after": 1, "parts": ["", "int", " key;"]}]}
        for own, row in ({}, whole), ({"not_names": ["secret/"]}, seen), ({"not_under": ["secret/"]}, seen), ({"under": ["src/"]}, seen), ({"names": ["^src/"]}, seen):
            server.headers = {"X-Filters": json.dumps({"made": own})}
            rows = server.lines("/api/review", repository="made", before="main", after="moved", q="int")
            self.assertEqual([one for one in rows if "hits" in one], [row], own)
        for own in {"not_under": ["secret/"]}, {"under": ["src/", "caf"]}:
            server.headers = {"X-Filters": json.dumps({"made": own})}
            self.assertEqual(names(), ["caf\ufffd x", "src/main.c", "src/util.c"])
            self.assertEqual(self.view(server, self.first, "secret/key.c")[0], 410)
            rows = server.lines("/api/review", repository="made", before="main", after="topic", q="int")
            self.assertEqual([row["after"]["name"] for row in rows if "hits" in row], ["src/util.c"])
        server.headers = {"X-Filters": json.dumps({"made": {}})}
        rows = server.lines("/api/review", repository="made", before="main", after="topic", q="int", max=2)
        self.assertEqual((sum(len(row["hits"]) for row in rows if "hits" in row), rows[-1]["more"]), (2, True))
        # the only one that is seen is taken where none is named, and for no other name
        for name, status in ("", 200), ("made", 200), ("other", 404):
            self.assertEqual(server.get(f"/api/file?repository={name}&commit={self.first}&name=src/main.c")[0], status, name)
            self.assertEqual(server.get(f"/api/review?repository={name}&before=main&after=topic&q=int")[0], status, name)
        server.headers = {"X-Filters": json.dumps({"made": {"names": ["("]}})}
        for rows in server.find("int"), server.lines("/api/review", repository="made", before="main", after="topic", q="int"):
            self.assertEqual(rows, [{"refused": "group not closed", "offset": 0, "in": "host"}])
        server.headers = {"X-Filters": json.dumps({"none": {}})}
        self.assertEqual(server.find("int")[-1]["lines"], 0)
        self.assertEqual(server.get("/api/review?repository=made&before=main&after=topic&q=int")[0], 404)

    def test_a_push_is_found_at_its_hook(self) -> None:
        """Without the page looking by itself. The hook is that of the page for operators."""
        made = self.made
        server = self.serve("--look", "1000", str(made.path))
        hook = made.path / "hooks/post-receive"
        hook.parent.mkdir(exist_ok=True)
        hook.write_text(f"#!/bin/sh\nexec curl -fsS -X POST {server.address}/api/look >/dev/null\n")
        hook.chmod(hook.stat().st_mode | stat.S_IXUSR)
        made.git("clone", "-q", str(made.path), str(self.top / "clone"))
        clone = Made(self.top / "clone", is_bare=False)
        clone.commit("main", {b"%d.c" % number: b"int pushed;\n" for number in range(50)})
        clone.git("push", "-q", "origin", "main")
        until(lambda: len(server.hits("int pushed")) == 50)
        self.assertEqual(server.get("/api/look?repository=made")[0], 405)

    def test_shares(self) -> None:
        from tsearch.web.server import shares

        self.assertEqual(shares([10, 3, 0, 100], 40), [10, 3, 0, 27])
        self.assertEqual(shares([100, 100, 100], 10), [4, 3, 3])
        self.assertEqual(shares([5, 5], 100), [5, 5])
        self.assertEqual(shares([5, 5, 5], 2), [1, 1, 0])
        self.assertEqual(shares([], 10), [])


@unittest.skipUnless(NO_REASON, REASON)
class Settings(Host):
    def test_a_file_of_settings_that_changes(self) -> None:
        """Repositories and branches come and go, and what stays is not loaded again."""
        other = Made(self.top / "other.git")
        other.commit("main", {b"a.c": b"int other;\n"})
        other.commit("topic", {b"a.c": b"int topic;\n"}, start="main")
        file = self.top / "tsearch.toml"
        first = '[[repository]]\npath = "made.git"\nname = "first"\nlink = "https://git.example/{repository}/{commit}/{path}"\n'
        file.write_text(first)
        server = self.serve("--settings", str(file))
        program = server.programs()
        self.assertEqual(json.loads(server.get("/api/status")[1])["repositories"][0]["link"], "https://git.example/{repository}/{commit}/{path}")

        def change(text: str) -> None:
            file.write_text(text)
            os.kill(server.pid, signal.SIGHUP)

        second = '[[repository]]\npath = "other.git"\nrevisions = ["main", "topic"]\n'
        change(first + second)
        until(lambda: [row[0] for row in server.hits("int other|int main")] == ["first", "other"])
        self.assertEqual(server.hits("int topic", revision="topic", repository="other"), [("other", "a.c", 1, "int topic;")])
        self.assertEqual(server.programs()[:1], program)
        # one that is not there is said once, and what is there is served
        change(second.replace('"topic"', '"topic", "none", "also", "v*"'))
        until(lambda: "tsearch.web: other: there is no revision none, also\n" in server.log)
        self.assertEqual(len(server.hits("int topic", revision="topic", repository="other")), 1)
        self.assertEqual(server.log.count("there is no revision"), 1)
        change(second.replace(', "topic"', ""))
        until(lambda: [row[0] for row in server.hits("int other|int main")] == ["other"])
        until(lambda: server.find("x", revision="topic") == [{"refused": "there is no revision topic"}])
        until(lambda: [row[0] for row in server.hits("int other|int main")] == ["other"])
        # a file with a fault changes nothing, and is told
        for text, reason in {"[[repository": "Expected", "[colour]\n": "tables [[repository]] alone", second + "[visitors]\nipv4 = 33\n": "ipv4 of [visitors] is a number from 8 to 32"}.items():
            change(text)
            until(lambda reason=reason: reason in server.log)
            self.assertEqual([row[0] for row in server.hits("int other|int main")], ["other"], text)
        # an entry with a fault is left out and named, and the others are served
        third = '[[repository]]\npath = "made.git"\nname = "third"\n'
        for text, name, reason in (
            ('[[repository]]\nname = "x"\n', "x", "a path is needed"), ('[[repository]]\npath = "far/none.git"\n', "none", "is not a folder"),
            (f'[[repository]]\npath = "{self.top}"\nname = "top"\nrevisions = ["main"]\n', "top", "is not a git repository"),
            (second, "other-2", "two repositories are called other"), ('[[repository]]\npath = "made.git"\nlink = "javascript:x"\n', "made", "a link is an address"),
            ('[[repository]]\npath = "made.git"\nname = "a:b"\n', "made", "no colon"), ('[[repository]]\npath = "made.git"\ncolour = 1\n', "made", "the keys are"),
            ("[[repository]]\npath = 1\n", "repository 2", "path, name and link are texts"),
        ):  # fmt: skip
            with self.subTest(text=text):
                change(second + text + third)
                until(lambda reason=reason: reason in server.log)
                until(lambda: [row[0] for row in server.hits("int other|int main")] == ["other", "third"])
                rows = server.find("int other|int main")
                self.assertEqual(rows[-1]["missing"], [name])
                self.assertEqual([row for row in rows if row.get("repository") == name], [{"repository": name, "fault": "it cannot be served: the log says why", "again": False}])
                told = server.get("/api/status")[1].decode()
                self.assertNotIn(str(self.top), told)
                self.assertEqual([one["loaded"] for one in json.loads(told)["repositories"]], [True, False, True])
                self.assertEqual(json.loads(server.get("/health")[1]), {"ok": False, "not_served": 1, "repositories": [name]})
                self.assertEqual(server.log.count(f"{name} is left out: "), server.log.count(f"{name} is left out: {file}, repository 2: "))
        # none at all is said, too
        change("")
        until(lambda: f"{file} names no repository, so nothing is served" in server.log)
        self.assertEqual(server.find("x")[-1]["lines"], 0)
        self.assertEqual(len(server.programs()), 1)

    def test_an_entry_that_cannot_be_served_at_the_start(self) -> None:
        """It is said once, and served as soon as it can be, without a signal; one that goes is named, and the others go on."""
        other = Made(self.top / "other.git")
        other.commit("main", {b"a.c": b"int other;\n"})
        away = self.top / "away.git"
        other.path.rename(away)
        file = self.top / "tsearch.toml"
        file.write_text('[[repository]]\npath = "other.git"\n[[repository]]\npath = "made.git"\n')
        server = self.enterContext(serving_in(self.top, "--settings", str(file), count=2, loaded=1))
        found = lambda: [row[0] for row in server.hits("int other|int main")]  # noqa: E731
        self.assertEqual(found(), ["made"])
        self.assertEqual(server.log.count("other is left out: "), 1)
        away.rename(other.path)
        until(lambda: found() == ["other", "made"])
        until(lambda: server.get("/health")[0] == 200)
        self.assertEqual(server.log.count("left out"), 1)
        # it goes while it is served
        other.path.rename(away)
        until(lambda: server.get("/health")[0] == 503)
        self.assertEqual(json.loads(server.get("/health")[1])["repositories"], ["other"])
        status = server.get("/api/status")[1].decode()
        self.assertNotIn("there is no commit yet", status + str(server.find("int other")))
        self.made.commit("main", {b"new.c": b"int main2;\n"})
        until(lambda: server.hits("int main2"))
        # what it has is kept, also when the settings are read again, as for a disk that is away for a while
        os.kill(server.pid, signal.SIGHUP)
        until(lambda: f"other goes on as it was: {file}, repository 1: " in server.log)
        self.assertEqual(found(), ["other", "made", "made"])
        away.rename(other.path)
        until(lambda: server.get("/health")[0] == 200)
        self.assertEqual(found(), ["other", "made", "made"])
        # and piece by piece
        other.git("pack-refs", "--all")
        (other.path / "packed-refs").unlink()
        until(lambda: server.find("x", repository="other") == [{"refused": "there is no commit yet"}])
        shutil.rmtree(other.path)
        until(lambda: server.get("/health")[0] == 503)
        self.assertNotIn("there is no commit yet", str(server.find("x", repository="other")) + str(server.find("x")))

    def test_health(self) -> None:
        server = self.serve(str(self.made.path))
        self.assertEqual(server.get("/health")[:2], (200, b'{"ok": true, "not_served": 0}'))
        os.rename(self.made.path / "HEAD", self.made.path / "HEAD-")
        until(lambda: server.get("/health")[0] == 503)
        self.assertIn("made: ", server.log)
        self.assertIn("not a git repository", json.loads(server.get("/api/status")[1])["repositories"][0]["fault"])
        # what was found is found, until it is mended
        self.assertEqual(len(server.hits("int main")), 1)
        os.rename(self.made.path / "HEAD-", self.made.path / "HEAD")
        until(lambda: server.get("/health")[0] == 200)
        self.assertEqual(server.log.count("not a git repository"), 1)


if __name__ == "__main__":
    unittest.main()
