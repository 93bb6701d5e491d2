"""The connection of an editor to the server of a tree: requests and replies as JSON, one a line (docs/SERVER.md)."""

from __future__ import annotations

import asyncio
import collections
import contextlib
import dataclasses
import json
import os
import time
from typing import Any, Protocol

from ..answers import Answer, View
from ..errors import Cancelled, Ended, Error, OptionRefused, PatternRefused, SearchRefused, TooSlow
from ..query import Query
from . import editor_files, editor_requests
from .editor_requests import BadRequest, Request, query_of, shown_text
from .editor_rows import Form, Merging, in_batches, reading, rows_of
from .following import Following, Gone
from .hints import hint
from .overlays import OverlayRefused, Overlays, without
from .past import Past
from .spool import Spool
from .tree import Tree

PROTOCOL = 1
_TRIES = 3
_OFTEN = 0.1
_MOST_AT_ONCE = 64
_MOST_LIMIT = 4_294_967_295
_MOST_NAMES = 1_000
# What makes a file no document, and is no news to who searches text.
_NO_TEXT = "binary"
# The requests that a cancel gives up.
_GIVEN_UP = ("find", "list", "compare")


class Host(Protocol):
    """The server, as an editor needs it."""

    @property
    def tree(self) -> Tree:
        """The tree."""

    @property
    def past(self) -> Past:
        """What is kept of commits and patches."""

    @property
    def following(self) -> Following:
        """What is noted of its changes."""

    @property
    def ending(self) -> asyncio.Event:
        """Set once the server ends."""

    async def ready(self) -> None:
        """Returns once the tree is loaded. `Error` or `OSError` if it cannot be."""

    def admits(self, token: str) -> bool:
        """Whether the server is one for who has this token; else it makes room for another."""

    def about(self) -> dict[str, Any]:
        """What a status says of the server."""


def is_editor(line: bytes) -> bool:
    """Whether a first line is that of an editor. What the command `tgrep` sends is no JSON."""
    return not line.startswith(b"{'")


class Editor:
    """One connection."""

    def __init__(self, host: Host, reader: asyncio.StreamReader, writer: asyncio.StreamWriter) -> None:
        self._host, self._reader = host, reader
        self._spool = Spool(writer)
        self._overlays = Overlays()
        self._tasks: set[asyncio.Task[None]] = set()
        # the finds, lists and comparisons that are under way, and the find that the next one cancels
        self._finds: dict[Any, asyncio.Task[None]] = {}
        self._current: asyncio.Task[None] | None = None
        self._shown_at = 0.0

    # What the server says by itself.

    def progress(self, done: int, of: int) -> None:
        """Tells how many files are loaded, now and then."""
        now = time.monotonic()
        if of > 1 and now - self._shown_at > _OFTEN:
            self._shown_at = now
            self._send({"event": "loading", "done": done, "of": of})

    def error(self, data: bytes) -> None:
        """Tells what the program says."""
        self._send({"event": "message", "text": shown_text(data.rstrip(b"\n"))})

    def _tell_changes(self, changes: dict[str, Any]) -> None:
        names = changes["names"]
        is_all = changes["all"] or len(names) > _MOST_NAMES
        told = {"all": True} if is_all else {"names": [shown_text(name) for name in names]}
        self._send({"event": "changes", "life": changes["life"], "version": changes["version"], **told})

    # What comes.

    async def serve(self, line: bytes) -> None:
        """Answers requests, of which the first has come, until the editor leaves or the server ends."""
        ending = asyncio.create_task(self._host.ending.wait())
        try:
            while line:
                self._take(line)
                if len(self._tasks) >= _MOST_AT_ONCE:
                    await asyncio.wait(self._tasks, return_when=asyncio.FIRST_COMPLETED)
                reading = asyncio.create_task(self._line())
                await asyncio.wait([reading, ending], return_when=asyncio.FIRST_COMPLETED)
                if not reading.done():
                    reading.cancel()
                    self._send({"event": "ending"})
                    break
                line = reading.result()
        finally:
            ending.cancel()
            await self._end()

    async def _line(self) -> bytes:
        try:
            return await self._reader.readuntil(b"\n")
        except asyncio.IncompleteReadError:
            return b""
        except asyncio.LimitOverrunError:
            self._send({"id": None, "error": {"kind": "request", "message": "the line is too long", "offset": 0}})
            return b""

    async def _end(self) -> None:
        self._host.following.leave(self)
        for task in self._tasks:
            task.cancel()
        if self._tasks:
            await asyncio.wait(self._tasks)
        with contextlib.suppress(OSError, TimeoutError):
            await asyncio.wait_for(self._spool.drained(), 1)
        self._spool.close()
        await self._overlays.close()

    def _send(self, message: dict[str, Any]) -> None:
        self._spool.write(json.dumps(message, ensure_ascii=False, separators=(",", ":")).encode("utf-8", "backslashreplace") + b"\n")

    def _take(self, line: bytes) -> None:
        """Takes a request. What changes overlays is done at once, so that the next find has it."""
        try:
            request = editor_requests.read(line)
            if request.do in ("edit", "overlay", "release"):
                self._overlay(request)
                self._reply(request, {"done": True, "overlays": self._overlays.count})
            elif request.do == "cancel":
                task = self._finds.get(request.given.get("of")) if "of" in request.given else self._current
                if task:
                    task.cancel()
                self._reply(request, {"done": True})
            else:
                self._begin(request)
        except BadRequest as bad:
            self._send({"id": bad.number, "error": _error_of(bad)})
        except OverlayRefused as refused:
            self._reply(request, {"error": _error_of(refused)})

    def _reply(self, request: Request, message: dict[str, Any]) -> None:
        if request.number is not None or "error" in message:
            self._send({"id": request.number, **message})

    def _overlay(self, request: Request) -> None:
        given = request.given
        if request.do == "edit":
            self._overlays.edit(given["name"], given.get("first", 0), given.get("last"), given["lines"])
        elif request.do == "overlay":
            lines = given["text"].split(b"\n")
            self._overlays.edit(given["name"], 0, None, lines if lines[-1] else lines[:-1])
        elif "name" in given:
            self._overlays.release(given["name"])
        else:
            for name in self._overlays.names:
                self._overlays.release(name)

    def _begin(self, request: Request) -> None:
        if request.do == "find":
            request.given["query"] = _checked_query(request)
            if self._current and not request.given.get("beside"):
                self._current.cancel()
        task = asyncio.create_task(self._answer(request))
        self._tasks.add(task)
        task.add_done_callback(self._tasks.discard)
        if request.do in _GIVEN_UP:
            self._finds[request.number] = task
            if request.do == "find" and not request.given.get("beside"):
                self._current = task

            def end(ended: asyncio.Task[None]) -> None:
                if self._finds.get(request.number) is ended:
                    del self._finds[request.number]
                if self._current is ended:
                    self._current = None

            task.add_done_callback(end)

    async def _answer(self, request: Request) -> None:
        try:
            await getattr(self, f"_{request.do}")(request)
        except asyncio.CancelledError:
            self._send({"id": request.number, "error": {"kind": "cancelled", "message": "cancelled"}})
        except Exception as fault:  # whatever it is, the editor is told
            self._send({"id": request.number, "error": _error_of(fault, request)})

    # The requests.

    async def _hello(self, request: Request) -> None:
        if not self._host.admits(request.given.get("token", b"").decode(errors="surrogateescape")):
            raise Gone("this is the server of another version")
        tree = self._host.tree
        self._send({"id": request.number, "protocol": PROTOCOL, "root": shown_text(tree.root), "done": True})

    async def _status(self, request: Request) -> None:
        await self._ready()
        tree = self._host.tree
        status = await tree.session.status()
        left_out = collections.Counter(tree.left_out.values())
        told = {"root": shown_text(tree.root), "life": status.life, "version": status.version, "documents": status.documents, "bytes": status.bytes, "open": status.open}
        names = [shown_text(name) for name in sorted(self._overlays.names)]
        unwatched = {"unwatched": tree.unwatched} if tree.unwatched else {}
        if "folder" in request.given:
            await tree.fresh()
            told["has_folder"] = tree.has_folder(os.fsdecode(os.path.join(tree.root, request.given["folder"].strip(b"/"))))
        told.update(left_out=left_out, watched=not tree.unwatched, overlays=names, **unwatched, **self._host.about())
        self._send({"id": request.number, **told, "done": True})

    async def _follow(self, request: Request) -> None:
        await self._ready()
        following = self._host.following
        if request.given.get("changes", True):
            following.follow(self, self._tell_changes)
        else:
            following.leave(self)
        told = {"life": following.life, "version": following.version, "watched": not self._host.tree.unwatched}
        self._send({"id": request.number, **told, "done": True})

    async def _list(self, request: Request) -> None:
        await self._ready()
        await self._host.tree.fresh()
        found = await editor_files.listed(self._host.tree, request.given)
        self._send({"id": request.number, **found, "done": True})

    async def _compare(self, request: Request) -> None:
        await self._ready()
        tree, past = self._host.tree, self._host.past
        # a search in no document, so that a pattern is refused as one of a find is
        request.given["query"] = Query(request.given["pattern"], literal=request.given.get("literal", False), names=(b"$a",), header_only=True, limit=1)
        await tree.session.find_query(request.given["query"])
        self._send({"id": request.number, **await editor_files.compared(tree, past, request.given), "done": True})

    async def _open(self, request: Request) -> None:
        await self._ready()
        given = request.given
        lines = await self._host.following.lines(given["name"], given.get("life"), given.get("version"))
        first = given.get("first", 1)
        shown = [shown_text(line) for line in lines[first - 1 : given.get("last", len(lines))]]
        self._send({"id": request.number, "first": first, "lines": shown, "of": len(lines), "done": True})

    async def _ready(self) -> None:
        await self._host.ready()
        await self._host.following.begin()

    async def _find(self, request: Request) -> None:
        answering = _Answering(self, request)
        for _ in range(_TRIES):
            await self._ready()
            try:
                if request.given.get("fresh", True):
                    await self._host.tree.fresh()
                self._send({"id": request.number, **await answering.answer(), "done": True})
                return
            except Ended:
                if answering.has_sent:
                    raise
                await self._host.tree.again()
        raise Error("the program ends again and again")

    @property
    def overlays(self) -> Overlays:
        """The overlays."""
        return self._overlays

    @property
    def tree(self) -> Tree:
        """The tree."""
        return self._host.tree

    def send_rows(self, request: Request, message: dict[str, Any]) -> None:
        """Sends a part of an answer."""
        self._send({"id": request.number, **message})


class _Answering:
    """The answer to one find."""

    def __init__(self, editor: Editor, request: Request) -> None:
        self._editor, self._request = editor, request
        self._query: Query = request.given["query"]
        given = request.given
        self._form = Form(self._query, given.get("units", "bytes"), given.get("cut"), given.get("groups", False))
        self.has_sent = False

    async def answer(self) -> dict[str, Any]:
        """Sends the rows, and gives what comes behind them."""
        tree, overlays = self._editor.tree, self._editor.overlays
        overlaid, names, missing, count = await overlays.find(self._query)
        query, dropped = without(self._query, names)
        merging = Merging([] if overlaid is None else rows_of(overlaid), dropped, query.limit, query.context)
        if query.view in (View.LINES, View.COLUMN, View.SPANS, View.CONTEXT) and len(query.parts()) == 1 and not (dropped or self._has_groups):
            answer = await self._as_it_comes(query, merging)
        elif query.view is View.HEADER:
            answer = await self._counted(query, dropped)
            found = answer.count + (0 if overlaid is None else overlaid.count)
            merging.count, merging.more = min(found, query.limit or found), found > (query.limit or found)
        else:
            answer = await self._whole(query, dropped, merging)
        # what is asked for once more after names are dropped says nothing of whether there is more
        has_more = merging.more or (overlaid is not None and overlaid.more) or (answer.more and not dropped)
        told = {"life": answer.life, "version": answer.version, "count": merging.count, "more": has_more, "overlays": count}
        if left_out := sum(reason != _NO_TEXT for reason in tree.left_out.values()):
            told["left_out"] = left_out
        if missing:
            told["missing"] = [{"name": shown_text(name), "reason": reason} for name, reason in sorted(missing.items())]
        return told

    @property
    def _has_groups(self) -> bool:
        return bool(self._request.given.get("groups"))

    def _send(self, message: dict[str, Any]) -> None:
        self.has_sent = True
        self._editor.send_rows(self._request, message)

    async def _as_it_comes(self, query: Query, merging: Merging) -> Answer:
        rows = reading(query.view)

        def take(data: bytes) -> None:
            for batch in in_batches(merging.take(rows.take(data))):
                self._send(self._form.message(batch))

        answer = await self._editor.tree.session.pass_on(query, take)
        for batch in in_batches(merging.end()):
            self._send(self._form.message(batch))
        return answer

    async def _whole(self, query: Query, dropped: frozenset[bytes], merging: Merging) -> Answer:
        """What needs two searches, or is cut after names are dropped, or takes long to write."""
        limit = query.limit
        while True:
            answer = await self._editor.tree.session.find_query(dataclasses.replace(query, limit=limit))
            rows = await asyncio.to_thread(rows_of, answer)
            kept = sum(row.is_found and row.name not in dropped for row in rows)
            if limit is None or not answer.more or not dropped or kept > (query.limit or 0):
                break
            limit = min(limit * 8, _MOST_LIMIT)
        merged = [*merging.take(rows), *merging.end()]
        for batch in in_batches(merged):
            self._send(await asyncio.to_thread(self._form.message, batch))
        return answer

    async def _counted(self, query: Query, dropped: frozenset[bytes]) -> Answer:
        """How many lines there are."""
        if not dropped:
            return await self._editor.tree.session.find_query(query)
        answer = await self._editor.tree.session.find_query(dataclasses.replace(query, header_only=False, counts=True, limit=None))
        count = sum(row.number for row in rows_of(answer) if row.name not in dropped)
        return dataclasses.replace(answer, count=count, more=False)


def _checked_query(request: Request) -> Query:
    """The query of a find. `BadRequest` if it cannot be one."""
    try:
        query = query_of(request.given)
    except BadRequest as bad:
        raise BadRequest(bad.reason, bad.where, request.number) from None
    if request.given.get("groups") and query.invert:
        raise BadRequest("lines without a match have no groups", "groups", request.number)
    return query


def _error_of(fault: Exception, request: Request | None = None) -> dict[str, Any]:
    """What is told of a fault."""
    match fault:
        case BadRequest():
            return {"kind": "request", "message": fault.reason, ("in" if isinstance(fault.where, str) else "offset"): fault.where}
        case PatternRefused() if request:
            place = editor_requests.place_of(request.given, request.given["query"], fault.number)
            told = {"kind": "pattern", "message": fault.reason, "offset": fault.offset, "in": place}
            return {**told, "hint": instead} if (instead := hint(fault)) else told
        case Cancelled():
            kind = "cancelled"
        case TooSlow():
            kind = "slow"
        case SearchRefused():
            kind = "memory"
        case OptionRefused():
            kind = "option"
        case OverlayRefused():
            kind = "overlay"
        case Gone():
            kind = "gone"
        case editor_files.NoComparison():
            kind = "compare"
        case _:
            kind = "ended"
    return {"kind": kind, "message": str(fault) if isinstance(fault, (Error, OSError)) else repr(fault)}
