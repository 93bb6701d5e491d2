"""A server of the page for a test, and its visitors."""

from __future__ import annotations

import contextlib
import itertools
import json
import os
import pathlib
import socket
import subprocess
import sys
import tempfile
import time
import urllib.error
import urllib.parse
import urllib.request
from collections.abc import Iterator, Sequence

from helpers import PACKAGE, SECONDS, SLOW, children_of, named, slow_documents, until

# What the process of a session is called: Linux keeps 15 bytes of it.
PROGRAM = os.path.basename(os.environ.get("TSEARCH", "tsearch"))[:15]
MARKUP = b"<script>document.title = 'taken over'</script>"
DOCUMENTS = {
    "one": {
        "src/main.c": b"int main(void)\n{\n    return call(1);\n}\n",
        "src/util.c": b"int call(int x)\n{\n    return x + 1; // <b>caller</b>\n}\n",
        b"<img src=x onerror=document.title='taken over'>.txt": b"hostile name\n" + MARKUP + b" hostile body\n",
        b"caf\xe9 \xff.txt": b"bytes \xff\xfe hostile\n",
        "many.txt": b"".join(b"many lines %d\n" % number for number in range(2_000)),
        "wide.txt": b"x" * 8_000 + b" needle " + b"y" * 8_000 + b"\n",
    },
    "two": {"src/main.c": b"int main(int count)\n", **slow_documents(), "binary": b"\0"},
}
# What lets a request see all repositories where the server has a header for filters, which the tests call so.
EVERYTHING = {"X-Filters": json.dumps({name: {} for name in (*DOCUMENTS, "made", "second")})}


class Server:
    """A server that runs, and how to ask it."""

    def __init__(self, port: int, top: pathlib.Path, pid: int) -> None:
        self.headers: dict[str, str] = {}
        self.address = f"http://127.0.0.1:{port}"
        self.top = top
        self.pid = pid

    @property
    def log(self) -> str:
        """What it has said."""
        return (self.top / "log").read_text()

    def programs(self) -> list[int]:
        """The process of the session. A command that is run meanwhile, as git is, is none."""
        return [pid for pid in children_of(self.pid) if named(pid) == PROGRAM]

    def get(self, path: str, headers: dict[str, str] | None = None) -> tuple[int, bytes, dict[str, str]]:
        """The status, the body and the headers of an answer."""
        request = urllib.request.Request(self.address + path, headers={**self.headers, **(headers or {})})
        opener = urllib.request.build_opener(urllib.request.ProxyHandler({}))
        try:
            with opener.open(request, timeout=SECONDS) as answer:
                return answer.status, answer.read(), dict(answer.headers)
        except urllib.error.HTTPError as error:
            with error:
                return error.code, error.read(), dict(error.headers)

    def lines(self, path: str, **words: object) -> list[dict]:
        """The JSON of each line of an answer."""
        query = urllib.parse.urlencode(words, doseq=True, encoding="utf-8", errors="surrogateescape")
        return [json.loads(line) for line in self.get(f"{path}?{query}")[1].splitlines()]

    def find(self, q: str | bytes, **words: object) -> list[dict]:
        """The lines of an answer to a search."""
        return self.lines("/api/find", q=q, **words)

    def hits(self, q: str, **words: object) -> list[tuple[str, str, int, str]]:
        """The hits of a search: repository, name, line and text."""
        rows = self.find(q, **words)
        hits = [(row, hit) for row in rows for hit in row.get("hits", []) if "around" not in hit]
        return [(row["repository"], row["name"], hit["line"], "".join(hit["parts"])) for row, hit in hits]

    def documents(self, repository: str) -> int:
        """How many documents a repository has."""
        seen = json.loads(self.get("/api/status")[1])["repositories"]
        return next(one["documents"] for one in seen if one["repository"] == repository)

    def make_slow(self, repository: str, seconds: float) -> None:
        """Adds documents to a repository until the slow search takes so long in it, however fast the machine is."""
        for turn in itertools.count():
            began = time.monotonic()
            self.find(SLOW, repository=repository)
            if time.monotonic() - began >= seconds:
                return
            more, before = slow_documents(100 << turn, seed=turn + 2), self.documents(repository)
            (self.top / f"{repository}/more-{turn}/slow").mkdir(parents=True)
            for name, body in more.items():
                (self.top / f"{repository}/more-{turn}/{name}").write_bytes(body)
            until(lambda wanted=before + len(more): self.documents(repository) == wanted)


@contextlib.contextmanager
def free_port() -> Iterator[int]:
    """A port that nobody listens at. While the block lasts the system gives it to nobody who asks for any, and lets a server have it that
    sets SO_REUSEADDR, as all do."""
    with socket.socket() as held:
        held.setsockopt(socket.SOL_SOCKET, socket.SO_REUSEADDR, 1)
        held.bind(("127.0.0.1", 0))
        port: int = held.getsockname()[1]
        yield port


@contextlib.contextmanager
def serving(*options: str) -> Iterator[Server]:
    """A server of two repositories."""
    with tempfile.TemporaryDirectory() as name:
        top = pathlib.Path(name)
        for repository, documents in DOCUMENTS.items():
            for path, body in documents.items():
                file = top / repository / os.fsdecode(path)
                file.parent.mkdir(parents=True, exist_ok=True)
                file.write_bytes(body)
        with serving_in(top, *options, str(top / "one"), str(top / "two"), count=len(DOCUMENTS)) as server:
            yield server


@contextlib.contextmanager
def serving_in(top: pathlib.Path, *words: str, count: int, loaded: int | None = None, names: Sequence[str] = ()) -> Iterator[Server]:
    """A server with these words, which serves so many repositories, and has its log in a folder. Once it has loaded all of them, or so many,
    it is there. With a header for filters it has to be told their names."""
    with free_port() as port, _serving_at(port, top, *words, count=count, loaded=loaded, names=names) as server:
        yield server


@contextlib.contextmanager
def _serving_at(port: int, top: pathlib.Path, *words: str, count: int, loaded: int | None, names: Sequence[str]) -> Iterator[Server]:
    # without words of the test that say less, no search and no review is given up for its time, however slow the machine is
    words = ("--port", str(port), "--look", "0.2", "--search-ms", "600000", "--review-ms", "600000", *words)
    environment = {**os.environ, "PYTHONPATH": str(PACKAGE)}
    with open(top / "log", "wb") as log:
        process = subprocess.Popen([sys.executable, "-B", "-m", "tsearch.web", *words], env=environment, stdout=log, stderr=log)
    try:
        server = Server(port, top, process.pid)

        def is_loaded() -> bool:
            if process.poll() is not None:
                raise AssertionError((top / "log").read_text())
            try:
                everything = {"X-Filters": json.dumps({name: {} for name in names})} if names else EVERYTHING
                seen = json.loads(server.get("/api/status", everything)[1])["repositories"]
                return len(seen) == count and sum(one["loaded"] for one in seen) >= (count if loaded is None else loaded)
            except (urllib.error.URLError, ConnectionError):
                time.sleep(0.05)
                return False

        until(is_loaded)
        yield server
        log_text = (top / "log").read_text()
        assert "Traceback" not in log_text, log_text
    finally:
        process.terminate()
        try:
            process.wait(SECONDS)
        except subprocess.TimeoutExpired:
            process.kill()
            process.wait()
