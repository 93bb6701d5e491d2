"""A text that is searched as it is read: in blocks that end in a line feed, each a document in the place of the one before."""

from __future__ import annotations

import asyncio
import codecs
import os
import select
from collections.abc import AsyncIterator, Callable
from typing import NamedTuple

from .. import aio
from ..folder import decoder_of, mark_of
from ..program import MOST_BODY
from .arguments import Refused

# In bytes: so much is read at a time. A block has more if a line has.
_BLOCK = 1 << 20


class UnreadableText(Exception):
    """A text cannot be read, or not to its end; the text of the error says why."""


class Window(NamedTuple):
    """A block of a text: its bytes, how many lines and bytes come before it, and the numbers of the first and last line that is
    shown of it. The others are there as lines around."""

    body: bytes
    line: int
    offset: int
    first: int
    last: int


class Text:
    """A text in a session, of which one block at a time is a document.

    left_out: why it is not searched, or not to its end, once that is known.
    """

    has_quoted = False
    # that of all texts: a call searches one after the other
    name = b"text"

    def __init__(self, session: aio.Session, shown: bytes, opens: Callable[[], int]) -> None:
        self.session = session
        self.shown = shown
        self.left_out: dict[bytes, str] = {}
        self._opens = opens
        self._descriptor = -1
        self._size = 0
        self._rest, self._line, self._offset = b"", 0, 0
        self._is_end = False
        self._decoder: codecs.IncrementalDecoder | None = None

    @property
    def sizes(self) -> dict[bytes, int]:
        """How many bytes are read, by the name of the document."""
        return {} if self.left_out else {self.name: self._size}

    def size(self, name: bytes) -> int:
        """How many bytes are read."""
        return self._size

    def path(self, name: bytes) -> bytes:
        """It has none."""
        return b""

    def body(self, name: bytes) -> bytes:
        """The bytes that are read and not done with."""
        return self._rest

    async def windows(self, around: int) -> AsyncIterator[Window]:
        """The blocks, each once it is published. Each line is shown of one of them, with so many lines around it in the same. `Refused` if
        the lines around are too many for a block, `UnreadableText` if the text cannot be read."""
        try:
            self._descriptor = self._opens()
        except OSError as error:
            raise UnreadableText(error.strerror) from None
        try:
            async for window in self._windows(around):
                yield window
        finally:
            if self._descriptor > 2:
                os.close(self._descriptor)

    async def _windows(self, around: int) -> AsyncIterator[Window]:
        done = 0
        await self._read_begin()
        while self._rest or not self._is_end:
            if b"\0" in self._rest:
                raise UnreadableText("binary")
            end = len(self._rest) if self._is_end else self._rest.rfind(b"\n") + 1
            body = self._rest[:end]
            # the last lines wait for those behind them
            last = self._line + body.count(b"\n") + (end > 0 and not body.endswith(b"\n")) - (0 if self._is_end else around)
            if last > done:
                await self._put(body)
                yield Window(body, self._line, self._offset, done + 1, last)
                self._drop(end if self._is_end else _after_lines(body, last - around - self._line))
                done = last
            elif self._is_end:
                self._drop(end)
            elif around and len(self._rest) > MOST_BODY:
                raise Refused(f"{os.fsdecode(self.shown)} is too long for so many lines around: use grep")
            await self._read()

    async def _put(self, body: bytes) -> None:
        await self.session.put(self.name, body)
        published = await self.session.publish()
        if published.refused:
            raise UnreadableText(published.refused[0].reason)

    def _drop(self, end: int) -> None:
        self._line += self._rest.count(b"\n", 0, end)
        self._offset += end
        self._rest = self._rest[end:]

    async def _read_begin(self) -> None:
        """Reads so much that a byte order mark would be known. It is no part of the text."""
        while not self._is_end and len(self._rest) < 3 and not self._rest.endswith(b"\n"):
            await self._read()
        mark = mark_of(self._rest)
        self._decoder = decoder_of(mark)
        self._rest = self._decoded(self._rest[len(mark) :])

    def _decoded(self, data: bytes) -> bytes:
        return self._decoder.decode(data, self._is_end).encode() if self._decoder else data

    async def _read(self) -> None:
        """Reads what there is, at most a block."""
        if self._is_end:
            return
        if len(self._rest) > MOST_BODY:
            raise UnreadableText(f"line {self._line + 1} too long")
        await _until_readable(self._descriptor)
        parts = []
        left = _BLOCK
        while left > 0:
            try:
                data = os.read(self._descriptor, left)
            except OSError as error:
                raise UnreadableText(error.strerror) from None
            self._is_end = not data
            parts.append(data)
            left -= len(data)
            if self._is_end or not select.select([self._descriptor], [], [], 0)[0]:
                break
        data = b"".join(parts)
        self._size += len(data)
        self._rest += self._decoded(data)


def _after_lines(body: bytes, count: int) -> int:
    """Where so many lines end, at least none."""
    at = 0
    for _ in range(count):
        at = body.find(b"\n", at) + 1
    return at


async def _until_readable(descriptor: int) -> None:
    """Returns once a pipe has data or its end. A file always has."""
    ready = asyncio.Event()
    loop = asyncio.get_running_loop()
    try:
        loop.add_reader(descriptor, ready.set)
    except PermissionError:
        await asyncio.sleep(0)
        return
    try:
        await ready.wait()
    finally:
        loop.remove_reader(descriptor)
