"""What one call asks of the servers of trees (docs/SERVER.md), which are started if need be."""

from __future__ import annotations

import collections
import os
import socket
import threading
from collections.abc import Callable, Iterator
from typing import Any

from ... import warm
from ...errors import Error
from ...names import to_text
from .. import client, places
from ..arguments import Refused
from ..editor_requests import text_of
from .roots import Place, Refusal, Root

_TRIES = 5
_GONE = "gone"


class GivenUp(Exception):
    """The call was cancelled."""


class Connection(warm.Warm):
    """A connection to the server of a tree. `say` is told what the server says by itself."""

    def __init__(self, root: str, connection: socket.socket, say: Callable[[str], None]) -> None:
        self._say = say
        self._begin(root, connection)

    def take(self) -> None:
        """Waits for one message, and passes on what the server says by itself."""
        super().take()
        while self.events:
            event = self.events.popleft()
            if event["event"] == "loading":
                self._say(f"{event['done']:,} of {event['of']:,} files are read")
            elif event["event"] == "message":
                self._say(text_of(event["text"]).decode(errors="replace"))

    def cut(self) -> None:
        """Ends the connection, from another thread too. Who waits for an answer gets an `Error`."""
        try:
            self._socket.shutdown(socket.SHUT_RDWR)
        except OSError:
            pass


class _Unsaid:
    """Takes the messages of a start (`client.Terminal`)."""

    def __init__(self) -> None:
        self.said: list[str] = []

    def say(self, text: Any) -> None:
        """Takes a message."""
        self.said.append(str(text))


class Asked:
    """The connections of one call. Another thread may cancel it."""

    def __init__(self, say: Callable[[str], None]) -> None:
        self._say = say
        self._lock = threading.Lock()
        self._open: dict[str, Connection] = {}
        self.is_cancelled = False

    def cancel(self) -> None:
        """Gives the call up, from any thread."""
        with self._lock:
            self.is_cancelled = True
            for connection in self._open.values():
                connection.cut()

    def close(self) -> None:
        """Leaves all servers."""
        with self._lock:
            for connection in self._open.values():
                connection.close()
            self._open.clear()

    def check(self) -> None:
        """`GivenUp` if the call is cancelled."""
        if self.is_cancelled:
            raise GivenUp

    def tree_of(self, root: Root) -> Tree:
        """The tree that has a root: that of the repository which it is in, or, where rules name it there, its own."""
        top = places.top_of(root.real) or root.real
        if top != root.real:
            tree = Tree(self, self._to(top), top)
            if tree.has_folder(tree.name_of(root.real)):
                return tree
        return Tree(self, self._to(root.real), root.real)

    def _to(self, root: str) -> Connection:
        """The connection to the server of a tree. `Refusal` if none starts."""
        for _ in range(_TRIES):
            self.check()
            if root in self._open:
                return self._open[root]
            unsaid = _Unsaid()
            try:
                path = places.socket_of(places.folder_of_user(), root, "")
                found = client.connect(path) or client.start(path, root, "", unsaid)
            except (Refused, OSError) as error:
                raise Refusal(f"no server of tgrep can be used: {error}") from None
            if found is None:
                raise Refusal(f"no server of tgrep starts: {'; '.join(unsaid.said)}")
            self._greet(root, Connection(root, socket.socket(fileno=found.detach()), self._say))
        raise Refusal(f"the server of {root} ends again and again")

    def _greet(self, root: str, connection: Connection) -> None:
        """Keeps a connection, if the server is of this version. Else that makes room for another."""
        with self._lock:
            if self.is_cancelled:
                connection.close()
                raise GivenUp
            self._open[root] = connection
        try:
            connection.ask("hello", token=to_text(os.fsencode(places.token())))
        except (Error, OSError):
            with self._lock:
                del self._open[root]
            connection.close()


class Tree:
    """A tree, as one call asks for it. Each of its requests may raise `GivenUp`, and `Refusal` where the server cannot go on."""

    def __init__(self, asked: Asked, connection: Connection, top: str) -> None:
        self._asked, self._connection, self.top = asked, connection, top

    def parts(self, do: str, **given: Any) -> Iterator[dict[str, Any]]:
        """The messages of an answer, as they come. `warm.WarmRefused` if it is refused."""
        self._asked.check()
        try:
            yield from self._connection.parts(self._connection.send(do, **given))
        except warm.WarmRefused:
            raise
        except (Error, OSError) as error:
            self._asked.check()
            raise Refusal(f"{error}: ask again") from None

    def ask(self, do: str, **given: Any) -> dict[str, Any]:
        """The last message of an answer."""
        return collections.deque(self.parts(do, **given), 1)[0]

    def name_of(self, real: str) -> bytes:
        """The name of a place in the tree: its path from the top, empty for that."""
        name = os.path.relpath(real, self.top)
        return b"" if name == "." else os.fsencode(name)

    def has_folder(self, name: bytes) -> bool:
        """Whether a folder is in the tree, and no rule names it."""
        return not name or bool(self.ask("status", folder=to_text(name))["has_folder"])

    def folder_of(self, place: Place) -> bytes:
        """The name of a folder. `Refusal` if a rule names it."""
        name = self.name_of(place.real)
        if place.real != place.root.real and not self.has_folder(name):
            raise Refusal(f"{ascii(place.real)[1:-1]} is not searched, since a rule of .gitignore, .ignore or .rgignore names it")
        return name

    def version_of(self, last: dict[str, Any]) -> str:
        """What tells `read_lines` of which state an answer is."""
        return f"{self.process}.{last['life']}.{last['version']}"

    @property
    def process(self) -> int:
        """The process of the server."""
        return int(self.ask("status")["process"])

    def is_gone(self, refused: warm.WarmRefused) -> bool:
        """Whether what is asked for is not known any more."""
        return refused.kind == _GONE
