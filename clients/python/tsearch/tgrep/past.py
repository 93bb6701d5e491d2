"""Searches in a commit (`--at`), in the files that are not as in one (`--changed`), and in a patch (`--diff`). Each is a session of its
own beside the tree's; of commits and patches, which stay as they are, the last ones are kept."""

from __future__ import annotations

import asyncio
import collections
import contextlib
import itertools
import os
import re
from collections.abc import AsyncIterator, Awaitable, Callable, Collection, Iterator
from typing import Any

from .. import aio
from ..errors import Error
from ..folder import BATCH, called, text_body, text_of
from ..git import FILE_KINDS, Store
from ..names import to_bytes
from . import places
from .answering import Call, Part, Reply
from .asking import Piece, inside
from .patches import PatchCall
from .tree import readers
from .unlike import unlike

# How many sessions are kept for later calls.
_MOST = 2
_RANGE = re.compile(r"(.*?)(\.{2,3})(.*)", re.DOTALL)
_HEAD = "HEAD"


class Some:
    """Some texts in a session of their own (`tree.Documents`).

    body: gives the bytes of a document by its name.
    """

    has_quoted = True

    def __init__(self, session: aio.Session, body: Callable[[bytes], bytes]) -> None:
        self.session = session
        self.sizes: dict[bytes, int] = {}
        self.left_out: dict[bytes, str] = {}
        self.body = body

    @classmethod
    async def of(cls, texts: Iterator[tuple[bytes, bytes | str]], body: Callable[[bytes], bytes], messages: Callable[[bytes], None]) -> Some:
        """The texts, each with its name; a text in place of the bytes is the reason why it is left out."""
        some = cls(await aio.Session.start(readers=readers(), messages=messages), body)
        while batch := await asyncio.to_thread(lambda: list(itertools.islice(texts, BATCH))):
            for name, text in batch:
                if isinstance(text, str):
                    some.left_out[name] = text
                else:
                    await some.session.put(name, text)
                    some.sizes[name] = len(text)
        for refusal in (await some.session.publish()).refused:
            some.sizes.pop(refusal.name, None)
            some.left_out[refusal.name] = called(refusal.reason)
        return some

    def size(self, name: bytes) -> int:
        """The length of a document."""
        return self.sizes.get(name, 0)

    def path(self, name: bytes) -> bytes:
        """Empty: it has no file."""
        return b""

    async def close(self) -> None:
        """Ends the session."""
        self.session.kill()
        await self.session.close()


class ReviewOf:
    """A patch, and its files in a session of their own."""

    def __init__(self, review: aio.Review, session: aio.Session) -> None:
        self.review = review
        self._session = session

    async def close(self) -> None:
        """Ends the session."""
        self._session.kill()
        await self._session.close()


class Past:
    """What is kept for the calls of a server, or for one call alone."""

    def __init__(self, messages: Callable[[bytes], None]) -> None:
        self._messages = messages
        self._kept: collections.OrderedDict[tuple[str, ...], asyncio.Task[Any]] = collections.OrderedDict()
        self._used: collections.Counter[tuple[str, ...]] = collections.Counter()

    async def answer(self, request: dict[str, Any], reply: Reply) -> tuple[int, str]:
        """Answers a call, and gives the status and what is left to the answer for another tree. `Error` if there is no such commit."""
        given, top = request["given"], places.top_of(request["root"]) or request["root"]
        store = Store(top)
        if "diff" in given:
            before, after = await asyncio.to_thread(ends, store, given["diff"])
            async with self._lent(("diff", before, after), lambda: self._review(store, before, after)) as kept:
                names = {name for one in kept.review.patch.changed for name in one[:2]}
                pieces = [(piece, here) for piece, here, _ in _pieces(request, top, b"", names)]
                call = PatchCall(request, reply, kept.review, pieces)
                return await call.answer([]), call.carried
        if "at" in given:
            commit = await asyncio.to_thread(_commit, store, given["at"])
            async with self._lent(("at", commit), lambda: self._commit(store, commit)) as some:
                return await _searched(request, reply, top, some, to_bytes(given["at"]) + b":")
        some, unfiltered = await self._changed(store, given["changed"], top, "run_filters" in given)
        try:
            if unfiltered and not given.get("no_messages"):
                what = "1 file has a filter of git and was" if unfiltered == 1 else f"{unfiltered} files have a filter of git and were"
                reply.error(f"tgrep: {what} compared without it: --run-filters runs it\n".encode())
            return await _searched(request, reply, top, some, b"")
        finally:
            await some.close()

    @contextlib.asynccontextmanager
    async def _lent(self, key: tuple[str, ...], make: Callable[[], Awaitable[Any]]) -> AsyncIterator[Any]:
        """What has this key, which is made if it is not kept, for as long as the block lasts."""
        if key not in self._kept:
            self._kept[key] = asyncio.ensure_future(make())
        self._kept.move_to_end(key)
        self._used[key] += 1
        try:
            yield await asyncio.shield(self._kept[key])
        except BaseException:
            # a session may have ended; the next call makes another one
            if self._used[key] == 1:
                await self._drop(key)
            raise
        finally:
            self._used[key] -= 1
            self._used += collections.Counter()  # those of none go
            for other in [one for one in self._kept if not self._used[one]][: max(len(self._kept) - _MOST, 0)]:
                await self._drop(other)

    async def _drop(self, key: tuple[str, ...]) -> None:
        made = self._kept.pop(key, None)
        if made and made.done():
            if not made.cancelled() and not made.exception():
                await made.result().close()
        elif made:
            made.add_done_callback(lambda done: done.cancelled() or done.exception() or asyncio.ensure_future(done.result().close()))

    async def close(self) -> None:
        """Ends all that is kept."""
        for key in list(self._kept):
            await self._drop(key)

    async def _commit(self, store: Store, commit: str) -> Some:
        files = await asyncio.to_thread(store.files, commit)

        def texts() -> Iterator[tuple[bytes, bytes | str]]:
            by_object: dict[bytes, list[bytes]] = {}
            for name, entry in files.items():
                if entry.kind in FILE_KINDS:
                    by_object.setdefault(entry.object, []).append(name)
            for number, found in store.bodies(list(by_object)):
                body = text_body(found) if isinstance(found, bytes) else found
                yield from ((name, body) for name in by_object[number])

        def body(name: bytes) -> bytes:
            entry = files.get(name)
            found = dict(store.bodies([entry.object]))[entry.object] if entry else b""
            return text_of(found) if isinstance(found, bytes) else b""

        return await Some.of(texts(), body, self._messages)

    async def _review(self, store: Store, before: str, after: str) -> ReviewOf:
        session = await aio.Session.start(readers=readers(), messages=self._messages)
        try:
            return ReviewOf(await aio.Review.open(session, store.path, before, after), session)
        except BaseException:
            session.kill()
            await session.close()
            raise

    async def _changed(self, store: Store, revision: str, top: str, runs_filters: bool) -> tuple[Some, int]:
        """The files that are not as in a commit, and how many of them were compared without the filter that they have."""
        names, unfiltered = await asyncio.to_thread(lambda: unlike(store, _commit(store, revision), runs_filters))

        def body(name: bytes) -> bytes:
            with contextlib.suppress(OSError), open(os.path.join(os.fsencode(top), name), "rb") as file:
                return text_of(file.read())
            return b""

        def texts() -> Iterator[tuple[bytes, bytes | str]]:
            for name in names:
                path = os.path.join(os.fsencode(top), name)
                if os.path.isfile(path) and not os.path.islink(path):
                    try:
                        with open(path, "rb") as file:
                            yield name, text_body(file.read())
                    except OSError as error:
                        yield name, error.strerror or str(error)

        return await Some.of(texts(), body, self._messages), unfiltered


def _commit(store: Store, name: str) -> str:
    found = store.commits([name]) if not any(letter in name for letter in "*?[") else {}
    if name not in found:
        raise Error(f"{name} is not a commit of this repository")
    return found[name]


def ends(store: Store, words: str) -> tuple[str, str]:
    """The two commits of `A..B`, or of `A...B`, which begins where B has left A. HEAD stands for what is left out."""
    found = _RANGE.fullmatch(words)
    if found is None:
        raise Error(f"--diff {words}: write --diff A..B")
    before, after = (_commit(store, one or _HEAD) for one in (found[1], found[3]))
    if found[2] == "...":
        before = store.run("merge-base", before, after, may_be_none=True).decode().strip()
        if not before:
            raise Error(f"--diff {words}: the two have no commit in common")
    return before, after


def _pieces(request: dict[str, Any], top: str, before: bytes, files: Collection[bytes | None]) -> list[tuple[Piece, bytes | None, str]]:
    """The pieces for the paths of a call, which need not be there now, with the working folder and each as it was typed. `before` is what is
    shown before each, and `files` are the files that there are."""
    here = inside(request["here"], top)
    found = []
    for typed, path, _ in request["paths"]:
        name = os.path.relpath(path, top)
        if name == ".." or name.startswith("../"):
            raise Error(f"{typed} is not in {top}")
        under = b"" if name == "." else os.fsencode(name)
        shown = os.fsencode(typed) if not before else before + _shown_behind(typed, under, bool(here))
        if under in files:
            found.append((Piece(under, shown, True), here, typed))
        else:
            slash = b"/" * (shown not in (b"", before) and not shown.endswith(b"/"))
            found.append((Piece(under + b"/" * bool(under), shown + slash, False), here, typed))
    return found


def _shown_behind(typed: str, name: bytes, is_below: bool) -> bytes:
    """A path as git reads it behind `REV:`: from the top, or with `./` from a working folder below that."""
    if os.path.isabs(typed):
        return name
    shown = os.fsencode(typed).removeprefix(b"./")
    return b"./" * is_below + (b"" if shown == b"." else shown)


async def _searched(request: dict[str, Any], reply: Reply, top: str, some: Some, before: bytes) -> tuple[int, str]:
    pieces = _pieces(request, top, before, {*some.sizes, *some.left_out})
    request["is_single"] = len(pieces) == 1 and pieces[0][0].is_file
    parts = [Part(piece, some, here, is_typed=piece.is_file) for piece, here, _ in pieces]
    status = 0
    for piece, _, typed in pieces:
        if before and not piece.is_file and not any(name.startswith(piece.under) for name in some.sizes):
            status = 2
            reply.error(f"tgrep: {request['given']['at']} has no {typed or 'files'} that could be searched\n".encode(errors="surrogateescape"))
    call = Call(request, reply)
    return max(status, await call.answer(parts)), call.carried
