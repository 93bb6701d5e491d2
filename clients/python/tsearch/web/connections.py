"""Connections: how many there are, and those that say nothing. Each is counted in the step in which it is accepted, and until its file is
closed. One too many is told so and closed, or closed at once, so that the system always has files left for the rest."""

from __future__ import annotations

import asyncio
import collections
import contextlib
import errno
import resource
import socket
import time
from collections.abc import Callable
from typing import Any

from aiohttp import web

from .turns import wide_of
from .visitors import Visitors

# In seconds: so long a visitor may take to send the head of a request, and so often that is seen.
TO_ASK = 10.0
_OFTEN = 1.0
# What part of all one visitor has, and a wider network.
_OF_ONE, _OF_WIDE = 16, 4
# So many wait in the system to be accepted, and so many are accepted before the loop has a look at all else.
_BACKLOG, _AT_ONCE = 128, 32
# So many are told at a time that they are too many. One more is closed in the step in which it is accepted.
_MOST_TOLD, _CLOSED_AT_ONCE = 64, 1
# In seconds: so long one that is refused may take to read that, and so long none is accepted when the system can give no file.
_TO_READ, _TO_REST = 1.0, 1.0
# Why a name has an address that this machine has not, as one of IPv6.
_ABSENT = {errno.EAFNOSUPPORT, errno.EADDRNOTAVAIL}
# In bytes: so much is read at a time of what a refused one says.
_BLOCK = 1 << 16
# So many files are left for all else: what each thread has open that starts git, the program, changes of folders, logs.
_OTHER_FILES = 288
# And so many at least, whatever the others are for, as for repositories that are read at the same time.
_LEFT = 128
_LEAST = 16
_REFUSAL = b"HTTP/1.1 503 Service Unavailable\r\nRetry-After: 5\r\nContent-Length: 0\r\nConnection: close\r\n\r\n"


def most_of(wanted: int) -> int:
    """How many connections there may be, of so many that are wanted, as the system lets a process have few files open. The bound that this
    process may lift is lifted."""
    soft, hard = resource.getrlimit(resource.RLIMIT_NOFILE)
    needed = wanted + _MOST_TOLD + _CLOSED_AT_ONCE + _OTHER_FILES
    if soft != resource.RLIM_INFINITY and soft < needed:
        soft = needed if hard == resource.RLIM_INFINITY else min(needed, hard)
        resource.setrlimit(resource.RLIMIT_NOFILE, (soft, hard))
    return wanted if soft == resource.RLIM_INFINITY else min(wanted, max(_LEAST, soft - (needed - wanted)))


def last_file() -> int:
    """The greatest number that the file of a connection may have. The system gives the least number that is free, so a greater one says that too
    many files are open, whatever they are for."""
    soft, _ = resource.getrlimit(resource.RLIMIT_NOFILE)
    return 1 << 40 if soft == resource.RLIM_INFINITY else max(soft - _LEFT, soft // 2)


class Connections:
    """How many connections there are, in all and of each visitor. Those of a proxy are of many.

    most: how many there may be.
    """

    def __init__(self, visitors: Visitors, most: int, say_late: Callable[[str], None]) -> None:
        self.most = most
        self.say_late = say_late
        self.refused = 0
        self._visitors = visitors
        self._count = 0
        self._counts: collections.Counter[str] = collections.Counter()

    def __len__(self) -> int:
        return self._count

    def take(self, address: str) -> tuple[str, ...] | None:
        """The networks that have a connection more, which are given back with it; None if it is one too many."""
        own = self._visitors.network_of(address)
        networks = () if self._visitors.is_proxy(address) else (own, f"wide {wide_of(own)}")
        bounds = (max(1, self.most // _OF_ONE), max(1, self.most // _OF_WIDE))
        if self._count >= self.most or any(self._counts[one] >= most for one, most in zip(networks, bounds)):
            self._counts += collections.Counter()  # none is kept of who has none
            self.refused += 1
            return None
        self._count += 1
        self._counts.update(networks)
        return networks

    def give(self, networks: tuple[str, ...]) -> None:
        """A connection has ended."""
        self._count -= 1
        for one in networks:
            self._counts[one] -= 1
            if not self._counts[one]:
                del self._counts[one]


class Door:
    """Accepts connections. asyncio's own way is no way for this: it accepts up to the whole backlog in a step, again and again, before the first one
    is known of, and what it has closed has its file for some steps more.

    connected: makes what serves a connection, of the networks that it counts for, which it gives back when it is lost.
    """

    def __init__(self, connections: Connections, connected: Callable[[tuple[str, ...]], asyncio.BaseProtocol], say: Callable[[str], None]) -> None:
        self._connections = connections
        self._connected = connected
        self._say = say
        self._listening: list[socket.socket] = []
        self._told: dict[socket.socket, asyncio.TimerHandle] = {}
        self._beginning: set[asyncio.Task[None]] = set()
        self._resting: asyncio.TimerHandle | None = None
        self._last_file = last_file()

    async def open(self, host: str, port: int) -> None:
        """Begins to accept. `OSError` if it cannot."""
        found = await asyncio.get_running_loop().getaddrinfo(host, port, type=socket.SOCK_STREAM, flags=socket.AI_PASSIVE)
        absent: OSError | None = None
        for family, _, _, _, address in dict.fromkeys(found):
            try:
                listening = socket.create_server(address, family=family, backlog=_BACKLOG)
            except OSError as error:
                if error.errno not in _ABSENT:
                    raise
                absent = error
                continue
            listening.setblocking(False)
            self._listening.append(listening)
        if absent and not self._listening:
            raise absent
        self._begin()

    def close(self) -> None:
        """Accepts nothing more."""
        self._end()
        if self._resting:
            self._resting.cancel()
        for listening in self._listening:
            listening.close()
        self._listening.clear()
        for peer in list(self._told):
            self._end_of(peer)

    def _begin(self) -> None:
        self._resting = None
        for one in self._listening:
            asyncio.get_running_loop().add_reader(one, self._accept, one)

    def _end(self) -> None:
        for one in self._listening:
            asyncio.get_running_loop().remove_reader(one)

    def _accept(self, listening: socket.socket) -> None:
        for _ in range(_AT_ONCE):
            try:
                peer, address = listening.accept()
            except (BlockingIOError, InterruptedError, ConnectionAbortedError):
                return
            except OSError as error:
                # other processes may have taken what there was
                self._say(f"no connection is accepted for {_TO_REST:.0f} second: {error.strerror}")
                self._end()
                self._resting = asyncio.get_running_loop().call_later(_TO_REST, self._begin)
                return
            if peer.fileno() > self._last_file:
                self._connections.refused += 1
                peer.close()
                continue
            networks = self._connections.take(str(address[0]))
            if networks is None:
                self._refuse(peer)
            else:
                task = asyncio.get_running_loop().create_task(self._serve(peer, networks))
                self._beginning.add(task)
                task.add_done_callback(self._beginning.discard)

    async def _serve(self, peer: socket.socket, networks: tuple[str, ...]) -> None:
        """Hands a connection on. From then on its end is told to what serves it, in the step in which the file is closed."""
        peer.setblocking(False)
        with contextlib.suppress(OSError):
            await asyncio.get_running_loop().connect_accepted_socket(lambda: self._connected(networks), peer)

    def _refuse(self, peer: socket.socket) -> None:
        """Says that there are too many, and closes: a little later, so that what has come by then does not take away what is said."""
        if len(self._told) >= _MOST_TOLD:
            peer.close()
            return
        loop = asyncio.get_running_loop()
        peer.setblocking(False)
        with contextlib.suppress(OSError):
            peer.send(_REFUSAL)
            peer.shutdown(socket.SHUT_WR)
        self._told[peer] = loop.call_later(_TO_READ, self._end_of, peer)
        loop.add_reader(peer, self._read_off, peer)

    def _read_off(self, peer: socket.socket) -> None:
        try:
            if peer.recv(_BLOCK):
                return
        except (BlockingIOError, InterruptedError):
            return
        except OSError:
            pass
        self._end_of(peer)

    def _end_of(self, peer: socket.socket) -> None:
        """Closes one that was told."""
        self._told.pop(peer).cancel()
        asyncio.get_running_loop().remove_reader(peer)
        peer.close()


class Connection(web.RequestHandler):
    """A connection, of networks that it counts for until it is lost. It ends if a request that has begun to come is not there in time."""

    __slots__ = ("_all", "_begun", "_networks", "_watch")

    def __init__(self, manager: Any, *, connections: Connections, networks: tuple[str, ...], **options: Any) -> None:
        super().__init__(manager, **options)
        self._all = connections
        self._begun: float | None = None
        self._watch: Any = None
        self._networks = networks

    def connection_made(self, transport: Any) -> None:
        """Begins to wait for a request."""
        super().connection_made(transport)
        self._begun = time.monotonic()
        self._look()

    def data_received(self, data: bytes) -> None:
        """Takes a part of a request, or the rest of one."""
        if self._begun is None and self._is_idle():
            self._begun = time.monotonic()
        super().data_received(data)
        if not self._is_idle():
            self._begun = None

    def connection_lost(self, exc: BaseException | None) -> None:
        """Waits no longer."""
        if self._watch:
            self._watch.cancel()
        self._all.give(self._networks)
        super().connection_lost(exc)

    def _is_idle(self) -> bool:
        return not self._messages and self._current_request is None

    def _look(self) -> None:
        if self.transport is None:
            return
        if self._begun is not None and self._is_idle() and time.monotonic() - self._begun > TO_ASK:
            peer = self.transport.get_extra_info("peername")
            self._all.say_late(f"{peer[0] if peer else 'a visitor'}: no whole request in {TO_ASK:.0f} seconds")
            self.force_close()
            return
        self._watch = self._loop.call_later(_OFTEN, self._look)
