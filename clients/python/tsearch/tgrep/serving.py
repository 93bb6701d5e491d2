"""The server of a tree: it keeps the tree in a session, and answers the calls of one user through a socket.

It ends after 30 minutes without a call (TGREP_IDLE seconds), once its folder or its socket is gone, once eight others were called since,
or when it is told to. Where watchman tells what changes, it looks through the folder once a minute (TGREP_LOOK seconds) all the same.
"""

from __future__ import annotations

import ast
import asyncio
import contextlib
import os
import signal
import socket
import stat
import struct
import time
from typing import Any

from ..errors import Ended, Error
from . import places
from .alone import progress_text
from .answering import Call, Part
from .aside import Aside
from .asking import inside, piece_of
from .client import DIFFERS, ELSEWHERE, ERROR, OUTPUT, PAST, PROGRESS, STATUS
from .editor import Editor, is_editor
from .following import Following
from .past import Past
from .spool import Spool
from .tree import Tree

_MOST_REQUEST = 1 << 26
_BLOCK = 1 << 16
_IDLE = 1_800.0
# How often it sees whether it should end.
_OFTEN_ENOUGH = 2.0
_MOST_SERVERS = 8
# How long after a look through the folder the next one may be, in seconds and in times of what it took.
_LOOK = 60.0
_REST = 100
_OFTEN = 0.1
# And how long editors have to be silent before it.
_SILENCE = 5.0
# In seconds: how long a server that ends may take to answer the calls that it has.
_TO_END = 60.0
_TRIES = 3


class Reply:
    """The frames to one client."""

    def __init__(self, writer: asyncio.StreamWriter, shows_progress: bool) -> None:
        self._spool = Spool(writer)
        self._shows_progress = shows_progress
        self._shown_at = 0.0
        self.has_output = False

    def frame(self, kind: bytes, data: bytes) -> None:
        """Sends a frame."""
        self._spool.write(kind + len(data).to_bytes(4, "big") + data)

    def output(self, data: bytes) -> None:
        """Writes to standard output."""
        self.has_output = True
        self.frame(OUTPUT, data)

    def error(self, data: bytes) -> None:
        """Writes to standard error."""
        self.frame(ERROR, data)

    def progress(self, done: int, of: int) -> None:
        """Shows how many files are loaded, now and then."""
        now = time.monotonic()
        if self._shows_progress and of > 1 and (done == of or now - self._shown_at > _OFTEN):
            self._shown_at = now
            self.frame(PROGRESS, progress_text(done, of))

    def end(self, status: int, carried: str = "") -> None:
        """Sends the status, which comes last, with what is left to the answer for another tree."""
        self.frame(STATUS, b"%d %s" % (status, carried.encode()))

    async def drained(self) -> None:
        """Returns once the client has nearly all."""
        await self._spool.drained()

    def close(self) -> None:
        """Sends nothing more of what waits."""
        self._spool.close()


class Server:
    """The server of a tree in one of its modes."""

    def __init__(self, path: str, root: str, mode: str, lock: int) -> None:
        self._path, self._root, self._mode, self._lock = path, root, mode, lock
        self._token = places.token()
        self._identity = _identity_of(root)
        self._bound = _identity_of(path)
        self._idle = float(os.environ.get("TGREP_IDLE") or _IDLE)
        self._pause = float(os.environ.get("TGREP_LOOK") or _LOOK)
        self._began = self._called = time.monotonic()
        self._looks_at = self._began + self._pause
        self._calls = 0
        self._open: set[asyncio.Task[None]] = set()
        self._editors: set[asyncio.Task[None]] = set()
        self._replies: set[Reply | Editor] = set()
        self._ending = asyncio.Event()
        self._tree = Tree(root, mode, self._pass_message)
        self._tree.progress = self._progress
        self._past = Past(self._pass_message)
        self._following: Following | None = None
        self._has_said = False
        self._loading: asyncio.Task[None] | None = None
        self._looking: asyncio.Task[None] | None = None

    async def run(self, listening: socket.socket) -> None:
        """Answers calls until it is time to end."""
        loop = asyncio.get_running_loop()
        for number in signal.SIGTERM, signal.SIGINT, signal.SIGHUP:
            loop.add_signal_handler(number, self._leave)
        self._loading = asyncio.create_task(self._load())
        server = await asyncio.start_unix_server(self._connected, sock=listening, limit=_MOST_REQUEST)
        await self._until_end()
        server.close()
        if self._open or self._editors:
            await asyncio.wait({*self._open, *self._editors}, timeout=_TO_END)
        self._loading.cancel()
        with contextlib.suppress(asyncio.CancelledError, Error, OSError):
            await self._loading
        await self._past.close()
        await self._tree.close()

    async def _load(self) -> None:
        await self._tree.load()
        self._token = places.token()
        # what has changed meanwhile is looked for at once, so that the next call need not
        self._looking = asyncio.create_task(self._look())

    async def _look(self) -> None:
        with contextlib.suppress(Error, OSError):
            await self._tree.fresh()

    async def _until_end(self) -> None:
        """Waits until it is time to end, and looks through the folder now and then."""
        while not self._ending.is_set():
            if not (self._is_lasting() and self._has_socket()):
                self._leave()
            elif not self._open and not self._is_loading and time.monotonic() > self._looks_at:
                self._looks_at = float("inf")
                self._looking = asyncio.create_task(self._look_through())
            with contextlib.suppress(TimeoutError):
                await asyncio.wait_for(self._ending.wait(), min(_OFTEN_ENOUGH, max(self._idle, 0.05)))

    def _is_lasting(self) -> bool:
        """Whether the folder is there, and calls have come lately, or are answered."""
        if _identity_of(self._root) != self._identity:
            return False
        return bool(self._open or self._editors) or (time.monotonic() - self._called < self._idle and _used_since(self._path) < _MOST_SERVERS)

    def _has_socket(self) -> bool:
        """Whether calls can come: the socket may be removed, and another server may have made one of the same name."""
        return self._bound is not None and _identity_of(self._path) == self._bound

    async def _look_through(self) -> None:
        began = time.monotonic()
        if self._tree.unwatched:
            self._tree.watch_again()
        else:
            with contextlib.suppress(Error, OSError):
                await self._tree.look_through()
        now = time.monotonic()
        self._looks_at = now + max(self._pause, _REST * (now - began))

    def _leave(self) -> None:
        """Makes room for another server, and ends once the calls that it has are answered."""
        if not self._ending.is_set():
            if self._has_socket():
                with contextlib.suppress(OSError):
                    os.unlink(self._path)
            os.close(self._lock)
            self._ending.set()

    def _progress(self, done: int, of: int) -> None:
        for reply in self._replies:
            reply.progress(done, of)

    def _pass_message(self, message: bytes) -> None:
        for reply in self._replies:
            reply.error(message)

    async def _connected(self, reader: asyncio.StreamReader, writer: asyncio.StreamWriter) -> None:
        task = asyncio.current_task()
        assert task
        self._open.add(task)
        self._called = time.monotonic()
        try:
            await self._serve(reader, writer)
        except (OSError, asyncio.IncompleteReadError, asyncio.LimitOverrunError, ValueError):
            pass  # the client is gone, or is none
        finally:
            self._open.discard(task)
            self._called = time.monotonic()
            with contextlib.suppress(OSError):
                writer.close()
                await writer.wait_closed()

    async def _serve(self, reader: asyncio.StreamReader, writer: asyncio.StreamWriter) -> None:
        peer = writer.get_extra_info("socket").getsockopt(socket.SOL_SOCKET, socket.SO_PEERCRED, struct.calcsize("3i"))
        if struct.unpack("3i", peer)[1] != os.getuid():
            # what it has sent is taken, so that it can read the reply
            with contextlib.suppress(TimeoutError):
                await asyncio.wait_for(reader.read(_BLOCK), _OFTEN)
            reply = Reply(writer, False)
            reply.error(b"tgrep: this is the server of another user\n")
            reply.end(2)
            return
        line = await reader.readuntil(b"\n")
        if is_editor(line):
            await self._serve_editor(line, reader, writer)
            return
        request = ast.literal_eval(line.decode())
        reply = Reply(writer, request["progress"])
        if not self._is_for(request["token"]) or request["root"] != self._root or _identity_of(self._root) != self._identity or self._ending.is_set():
            self._leave()
            reply.frame(DIFFERS, b"-")
            return
        self._calls += 1
        with contextlib.suppress(OSError):
            os.utime(self._path)
        answering = asyncio.create_task(self._whole_answer(request, reply))
        gone = asyncio.create_task(reader.read(1))
        await asyncio.wait([answering, gone], return_when=asyncio.FIRST_COMPLETED)
        if answering.done():
            gone.cancel()
        answering.cancel()  # nobody waits for it any more, if it goes on
        try:
            with contextlib.suppress(asyncio.CancelledError):
                await answering
        finally:
            reply.close()
        await writer.drain()

    # Editors.

    async def _serve_editor(self, line: bytes, reader: asyncio.StreamReader, writer: asyncio.StreamWriter) -> None:
        """Answers an editor, which stays. Looks through the folder do not wait for it to go."""
        task = asyncio.current_task()
        assert task
        self._open.discard(task)
        self._editors.add(task)
        editor = Editor(self, reader, writer)
        self._replies.add(editor)
        try:
            await editor.serve(line)
        finally:
            self._replies.discard(editor)
            self._editors.discard(task)

    @property
    def tree(self) -> Tree:
        """The tree."""
        return self._tree

    @property
    def past(self) -> Past:
        """What is kept of commits and patches."""
        return self._past

    @property
    def following(self) -> Following:
        """What is noted of its changes, once somebody wants to know."""
        self._following = self._following or Following(self._tree)
        return self._following

    @property
    def ending(self) -> asyncio.Event:
        """Set once the server ends."""
        return self._ending

    async def ready(self) -> None:
        """Returns once the tree is loaded, with the errors of that. A look through the folder waits until editors are silent."""
        await self._loaded()
        self._calls += 1
        self._called = time.monotonic()
        self._looks_at = max(self._looks_at, self._called + _SILENCE)

    def admits(self, token: str) -> bool:
        """Whether the server is one for who has this token, if it is said; else it makes room for another."""
        if self._ending.is_set() or (token and not self._is_for(token)):
            self._leave()
            return False
        return True

    def _is_for(self, token: str) -> bool:
        """Whether who has this token has the same package and program. Until the tree is loaded, the program may be compiled first."""
        if token != self._token and self._is_loading:
            self._token = places.token()
        return token == self._token

    def about(self) -> dict[str, object]:
        """The process, the calls, and the time since the start."""
        return {"process": os.getpid(), "calls": self._calls, "seconds": int(time.monotonic() - self._began)}

    # Calls.

    async def _whole_answer(self, request: dict[str, Any], reply: Reply) -> None:
        await self._answer(request, reply)
        await reply.drained()

    async def _answer(self, request: dict[str, Any], reply: Reply) -> None:
        order = request["given"].get("order")
        if order == "stop":
            self._leave()
            reply.end(0)
            return
        self._replies.add(reply)
        try:
            if order == "status":
                await self._loaded()
                reply.output(self._status().encode(errors="surrogateescape"))
                reply.end(0)
            elif any(key in request["given"] for key in PAST):
                reply.end(*await self._past.answer(request, reply))
            elif not (self._is_loading and await self._answered_early(request, reply)):
                await self._loaded()
                await self._search(request, reply)
        except (Error, OSError) as error:
            reply.error(f"tgrep: {error}\n".encode(errors="surrogateescape"))
            reply.end(2)
        finally:
            self._replies.discard(reply)

    @property
    def _is_loading(self) -> bool:
        return self._loading is not None and not self._loading.done()

    async def _answered_early(self, request: dict[str, Any], reply: Reply) -> bool:
        """Answers while the tree is loaded, if that can be: a call for files alone, or for all that is looked at after it came. Whether
        it was answered."""
        if all(not is_folder for _, _, is_folder in request["paths"]):
            await self._search_in(request, reply, is_loaded=False)
            return True
        is_before, given = not self._tree.has_begun, request["given"]
        if not is_before or any(given.get(key) for key in ("files", "stats", "show", "left_out")):
            return False
        await asyncio.wait([asyncio.ensure_future(self._tree.is_sent.wait()), self._loading], return_when=asyncio.FIRST_COMPLETED)
        if not self._is_loading or any(is_folder and not self._tree.has_folder(real) for _, real, is_folder in request["paths"]):
            return False
        await self._search_in(request, reply, is_loaded=True)
        return True

    async def _search_in(self, request: dict[str, Any], reply: Reply, is_loaded: bool) -> None:
        """Searches what there is."""
        aside = Aside()
        try:
            parts, status = await self._parts(request, reply, aside, is_loaded)
            call = Call(request, reply)
            status = max(status, await call.answer(parts))
            reply.end(status, call.carried)
        finally:
            await aside.close()

    async def _loaded(self) -> None:
        """Returns once the tree is loaded. If it cannot be, the server ends, so that the next call begins anew."""
        assert self._loading
        try:
            await asyncio.shield(self._loading)
        except (Error, OSError):
            self._leave()
            raise

    async def _search(self, request: dict[str, Any], reply: Reply) -> None:
        for _ in range(_TRIES):
            try:
                await self._tree.fresh()
                self._say_once(request, reply)
                elsewhere = [real for _, real, is_folder in request["paths"] if is_folder and not self._tree.has_folder(real)]
                if elsewhere:
                    reply.frame(ELSEWHERE, ascii(elsewhere).encode())
                else:
                    await self._search_in(request, reply, is_loaded=True)
                return
            except Ended:
                if reply.has_output:
                    raise
                await self._tree.again()
        raise Error("the program ends again and again")

    async def _parts(self, request: dict[str, Any], reply: Reply, aside: Aside, is_loaded: bool) -> tuple[list[Part], int]:
        """The parts to search, and the status of what cannot be."""
        here = inside(request["here"], self._root)
        parts, status = [], 0
        for typed, real, is_folder in request["paths"]:
            piece = piece_of(typed, real, is_folder, self._root)
            if is_folder or (is_loaded and piece.under in self._tree.files.held):
                parts.append(Part(piece, self._tree, here, is_typed=not is_folder))
                continue
            try:
                parts += await aside.add_file(typed, real)
            except OSError as error:
                status = 2
                if not request["given"].get("no_messages"):
                    reply.error(f"tgrep: {typed}: {error.strerror}\n".encode(errors="surrogateescape"))
        return parts, status

    def _say_once(self, request: dict[str, Any], reply: Reply) -> None:
        """Says, at the first terminal, that each call looks through the folder."""
        if self._tree.unwatched and not self._has_said and request["progress"] and not request["given"].get("no_messages"):
            self._has_said = True
            reply.error(f"tgrep: each call looks through the folder, since {self._tree.unwatched}\n".encode(errors="surrogateescape"))

    def _status(self) -> str:
        sizes, left_out = self._tree.sizes, self._tree.left_out
        counts: dict[str, int] = {}
        for reason in left_out.values():
            counts[reason] = counts.get(reason, 0) + 1
        reasons = ", ".join(f"{count:,} {reason}" for reason, count in sorted(counts.items())) or "none"
        watched = "by watchman" if not self._tree.unwatched else f"by looking through the folder, since {self._tree.unwatched}"
        rows = (
            ("folder", self._root),
            ("mode", self._mode or "what rules do not name"),
            ("files", f"{len(sizes):,} with {sum(sizes.values()):,} bytes"),
            ("left out", reasons),
            ("changes", watched),
            ("calls", f"{self._calls:,}"),
            ("since", f"{int(time.monotonic() - self._began):,} s"),
            ("process", f"{os.getpid()}, and {self._tree.session.pid} of the program"),
            ("memory", f"{_memory(os.getpid()):,} and {_memory(self._tree.session.pid):,} KiB"),
        )
        return "".join(f"{name + ':':10}{value}\n" for name, value in rows)


def _identity_of(folder: str) -> tuple[int, int] | None:
    try:
        state = os.stat(folder)
        return state.st_dev, state.st_ino
    except OSError:
        return None


def _used_since(path: str) -> int:
    """How many sockets beside this one had a call after it."""
    count = 0
    with contextlib.suppress(OSError):
        used = os.stat(path).st_mtime_ns
        with os.scandir(os.path.dirname(path)) as entries:
            states = [entry.stat() for entry in entries]
        count = sum(stat.S_ISSOCK(state.st_mode) and state.st_mtime_ns > used for state in states)
    return count


def _memory(process: int | None) -> int:
    """How much memory a process has in use, in KiB."""
    with contextlib.suppress(OSError, StopIteration), open(f"/proc/{process}/status", "rb") as file:
        return next(int(line.split()[1]) for line in file if line.startswith(b"VmRSS:"))
    return 0
