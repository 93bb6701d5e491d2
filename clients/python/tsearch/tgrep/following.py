"""What editors are told of a tree: the names of what changes, and what a file was at the version of an answer."""

from __future__ import annotations

import asyncio
import contextlib
import time
from collections.abc import Callable
from typing import Any

from ..answers import Published
from ..errors import Ended, Error
from ..history import History
from ..names import quote
from ..query import document_pattern
from .tree import Tree

# How long after a look at a tree whose changes somebody follows the next one is, in seconds and in times of what it took; and how long once
# editors have asked nothing for a minute.
_OFTEN = 0.25
_REST = 20
_SELDOM = 2.0
_AWAKE = 60.0


class Gone(Error):
    """A file is no longer known as it was at the version that is asked for, or there is none of this name."""


class Following:
    """Notes the changes of a tree from now on, and tells them to who follows."""

    def __init__(self, tree: Tree) -> None:
        self._tree = tree
        self._history = History()
        self._changed: set[bytes] = set()
        self._held: frozenset[bytes] = frozenset()
        # of the version from which on changes are noted, and the last one
        self._life = self._first = self.version = 0
        self._asked_at = 0.0
        self._told: dict[object, Callable[[dict[str, Any]], None]] = {}
        self._looking: asyncio.Task[None] | None = None
        tree.notes = self

    @property
    def life(self) -> int:
        """How often the program was started."""
        return self._life

    async def begin(self) -> None:
        """Notes what the tree holds now, if this is the first call. An editor asks, and the tree is loaded."""
        self._asked_at = time.monotonic()
        async with self._tree.lock:
            if not self._life:
                status = await self._tree.session.status()
                self._begin(status.life, status.version)

    def _begin(self, life: int, version: int) -> None:
        self._history, self._changed = History(), set()
        self._life, self._first, self.version = life, version, version
        self._held = frozenset(self._tree.files.held)

    # For the tree.

    async def change(self, name: bytes) -> None:
        """Notes that a document is about to change."""
        if self._life and name not in self._changed:
            self._changed.add(name)
            self._history.change(name, await self._tree.session.find(b"", names=document_pattern(name)))

    def published(self, published: Published) -> None:
        """Notes a publish."""
        if not self._life:
            return
        names = self._changed | (self._tree.files.held.keys() ^ self._held)
        is_new = published.life != self._life
        if is_new:
            self._begin(published.life, published.version)
        else:
            self._history.publish(names, published.version)
            self.version, self._changed, self._held = published.version, set(), frozenset(self._tree.files.held)
        for tell in self._told.values():
            tell({"life": self._life, "version": self.version, "names": sorted(names, key=quote), "all": is_new})

    # For editors.

    def follow(self, who: object, tell: Callable[[dict[str, Any]], None]) -> None:
        """Tells changes to somebody, from now on, as they come."""
        self._told[who] = tell
        if self._looking is None or self._looking.done():
            self._looking = asyncio.create_task(self._look())

    def leave(self, who: object) -> None:
        """Tells them no more."""
        self._told.pop(who, None)

    async def _look(self) -> None:
        while self._told:
            began = time.monotonic()
            with contextlib.suppress(Error, OSError):
                await self._tree.fresh()
            now = time.monotonic()
            await asyncio.sleep(max(_OFTEN if now - self._asked_at < _AWAKE else _SELDOM, _REST * (now - began)))

    async def lines(self, name: bytes, life: int | None, version: int | None) -> list[bytes]:
        """The lines of a file at a version, or now. `Gone` if it is not known any more."""
        for _ in range(3):
            try:
                return await self._lines(name, life, version)
            except Ended:
                await self._tree.again()
        raise Gone("the program ends again and again")

    async def _lines(self, name: bytes, life: int | None, version: int | None) -> list[bytes]:
        found = None
        if version is not None:
            if version > self.version:
                await self._tree.fresh()
            if life != self._life or version < self._first:
                raise Gone("the file is not known as it was then")
            found = self._history.at(name, version)
            if found is None and not self._history.is_current(name, version):
                raise Gone("the file has changed, and is not kept as it was then")
        if found is None and name not in self._tree.files.held:
            raise Gone("there is no such file")
        answer = found or await self._tree.session.find(b"", names=document_pattern(name))
        # a change may have come meanwhile
        if version is not None and found is None and not self._history.is_current(name, version):
            answer = self._history.at(name, version) or answer
        # NAME, a byte 0, LINE, a colon and the text
        return [row.partition(b"\0")[2].partition(b":")[2] for row in answer.data.split(b"\n")[:-1]]
