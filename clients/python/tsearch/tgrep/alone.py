"""Answers a call without a server: for standard input, for --no-server, and where no server can be started."""

from __future__ import annotations

import asyncio
import os
from typing import Any

from ..errors import Error
from .answering import Call, Part
from .aside import Aside
from .asking import Piece, inside
from .client import PAST
from .past import Past
from .tree import Tree


def answer(request: dict[str, Any], terminal: Any) -> int:
    """Answers, and gives the status. `terminal` is that of the client."""
    return asyncio.run(_Alone(request, terminal).answer())


class _Alone:
    """One call."""

    def __init__(self, request: dict[str, Any], terminal: Any) -> None:
        self._request = request
        self._terminal = terminal
        self._aside = Aside()
        self._past = Past(terminal.error)
        self._trees: list[Tree] = []
        self._has_failed = False

    async def answer(self) -> int:
        """The status."""
        try:
            if any(key in self._request["given"] for key in PAST):
                status, self._terminal.carried = await self._past.answer(self._request, self._terminal)
                return status
            call = Call(self._request, self._terminal)
            parts = [part for path in self._request["paths"] for part in await self._parts(*path)]
            self._terminal.end_progress()
            status = await call.answer(parts)
            self._terminal.carried = call.carried
            return 2 if self._has_failed and not (status == 0 and self._request["given"].get("quiet")) else status
        except Error as error:
            self._terminal.say(error)
            return 2
        finally:
            for kept in (self._aside, self._past, *self._trees):
                await kept.close()

    async def _parts(self, typed: str, real: str, is_folder: bool) -> list[Part]:
        try:
            if typed == "-":
                os.fstat(0)
                return await self._aside.add(typed, 0)
            if not is_folder:
                return await self._aside.add_file(typed, typed)
        except OSError as error:
            self._has_failed = True
            # it may be the program that cannot be started
            self._terminal.say(f"{error.filename or typed}: {error.strerror}")
            return []
        tree = Tree(real, self._request["mode"], self._terminal.error, watches=False)
        self._trees.append(tree)
        tree.progress = self._progress
        await tree.load()
        shown = os.fsencode(typed)
        piece = Piece(b"", shown + b"/" * bool(shown and not shown.endswith(b"/")), False)
        return [Part(piece, tree, inside(self._request["here"], real))]

    def _progress(self, done: int, of: int) -> None:
        if done % 64 == 0 or done == of:
            self._terminal.progress(progress_text(done, of))


def progress_text(done: int, of: int) -> bytes:
    """What is shown while files are loaded, and once they are."""
    return (f"loading: {done:,} of {of:,} files" if done < of else f"indexing {of:,} files").encode()
