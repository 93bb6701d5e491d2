"""Standard input, and files that were typed and are in no tree or too long for it, in a session of their own, for one call."""

from __future__ import annotations

import os
import stat
from collections.abc import Callable

from .. import aio
from .answering import Part
from .asking import Piece
from .text import Text

_SHOWN = {"-": b"<stdin>"}


class Aside:
    """A session for some texts, each as it is shown. They are read and searched block by block."""

    def __init__(self) -> None:
        self._session: aio.Session | None = None

    async def add(self, typed: str, descriptor: int) -> list[Part]:
        """Adds a text that is read from a descriptor, and gives its part."""
        return await self._add(typed, lambda: descriptor)

    async def add_file(self, typed: str, path: str | bytes) -> list[Part]:
        """Adds a file. `OSError` if it cannot be read."""
        descriptor = os.open(path, os.O_RDONLY | os.O_CLOEXEC)
        if not stat.S_ISREG(os.fstat(descriptor).st_mode):
            return await self.add(typed, descriptor)
        # there may be more files than a process can hold open
        os.close(descriptor)
        return await self._add(typed, lambda: os.open(path, os.O_RDONLY | os.O_CLOEXEC))

    async def _add(self, typed: str, opens: Callable[[], int]) -> list[Part]:
        self._session = self._session or await aio.Session.start(readers=0)
        text = Text(self._session, _SHOWN.get(typed, os.fsencode(typed)), opens)
        return [Part(Piece(text.name, text.shown, True), text, text=text, is_typed=True)]

    async def close(self) -> None:
        """Ends the session."""
        if self._session:
            self._session.kill()
            await self._session.close()

