"""A client of the warm server of a folder, which `tgrep` starts (docs/SERVER.md): finds with the texts of an editor over the files."""

from __future__ import annotations

import collections
import itertools
import json
import os
import socket
import subprocess
import sys
from collections.abc import Iterator, Sequence
from types import TracebackType
from typing import Any

from .errors import Error

_TGREP = (sys.executable, "-P", "-c", "import sys; sys.path.insert(0, {!r}); from tsearch.tgrep.client import main; sys.exit(main())")


class WarmRefused(Error):
    """A request is refused. `kind` says how, and `told` is all that the server says of it."""

    def __init__(self, told: dict[str, Any]) -> None:
        super().__init__(told["message"])
        self.kind: str = told["kind"]
        self.told = told


class Warm:
    """A connection to the server of the tree that a folder is in. One thread uses it.

        with Warm("src") as warm:
            warm.ask("overlay", name="src/a.c", text="int unsaved;\\n")
            for name, line in warm.find("unsaved", spans=True):
                print(name, line["line"], line["text"])

    events: what the server has said by itself, such as changes.
    """

    def __init__(self, folder: str | os.PathLike[str] = ".", command: Sequence[str] | None = None) -> None:
        package = os.path.dirname(os.path.dirname(os.path.abspath(__file__)))
        words = command or (*_TGREP[:-1], _TGREP[-1].format(package))
        done = subprocess.run([*words, "--socket"], cwd=folder, stdin=subprocess.DEVNULL, capture_output=True, check=False)
        if done.returncode:
            raise Error(done.stderr.decode(errors="replace").strip())
        told = json.loads(done.stdout)
        connection = socket.socket(socket.AF_UNIX)
        connection.connect(told["socket"])
        self._begin(told["root"], connection)

    def _begin(self, root: str, connection: socket.socket) -> None:
        self.root = root
        self.events: collections.deque[dict[str, Any]] = collections.deque()
        self._socket = connection
        self._file = self._socket.makefile("rb")
        self._numbers = itertools.count(1)
        self._waiting: dict[int, collections.deque[dict[str, Any]]] = {}

    def send(self, do: str, **given: Any) -> int:
        """Sends a request, and gives its number."""
        number = next(self._numbers)
        self._waiting[number] = collections.deque()
        self._socket.sendall(json.dumps({"id": number, "do": do, **given}).encode() + b"\n")
        return number

    def parts(self, number: int) -> Iterator[dict[str, Any]]:
        """The messages of a request as they come, the last one with `done`. `WarmRefused` if it is refused, and `Error` if the server
        ends."""
        while True:
            while not self._waiting[number]:
                self.take()
            message = self._waiting[number].popleft()
            if "error" in message:
                del self._waiting[number]
                raise WarmRefused(message["error"])
            yield message
            if "done" in message:
                del self._waiting[number]
                return

    def take(self) -> None:
        """Waits for one message."""
        line = self._file.readline()
        if not line:
            raise Error("the server has ended")
        message = json.loads(line)
        if "event" in message:
            self.events.append(message)
        elif message["id"] in self._waiting:
            self._waiting[message["id"]].append(message)
        elif "error" in message:
            raise WarmRefused(message["error"])

    def ask(self, do: str, **given: Any) -> dict[str, Any]:
        """Sends a request, and gives the last message of its answer. The errors are those of `parts`."""
        *_, last = self.parts(self.send(do, **given))
        return last

    def find(self, pattern: str | dict[str, str], **options: Any) -> Iterator[tuple[str, dict[str, Any]]]:
        """The lines that are found, each with the path of its file, as they come. What is no UTF-8 is `{"base64": TEXT}`. The errors are
        those of `parts`."""
        for part in self.parts(self.send("find", pattern=pattern, **options)):
            for document in part.get("documents", []):
                for line in document["lines"]:
                    yield document["name"], line

    def close(self) -> None:
        """Leaves the server, which releases the overlays."""
        self._file.close()
        self._socket.close()

    def __enter__(self) -> Warm:
        return self

    def __exit__(self, kind: type[BaseException] | None, error: BaseException | None, trace: TracebackType | None) -> None:
        self.close()
