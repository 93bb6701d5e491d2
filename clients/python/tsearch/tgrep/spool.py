"""What a client has not taken yet: the rest of an answer waits in a file, so that it takes no memory and holds no other call up."""

from __future__ import annotations

import asyncio
import tempfile
from typing import IO

_BLOCK = 1 << 18
# In bytes: so much waits in memory.
_MOST_WAITING = 1 << 22


class Spool:
    """Writes to a client in order, whether it takes the data at once or later."""

    def __init__(self, writer: asyncio.StreamWriter) -> None:
        self._writer = writer
        self._file: IO[bytes] | None = None
        self._written = self._taken = 0
        self._passing: asyncio.Task[None] | None = None

    def write(self, data: bytes) -> None:
        """Writes, or lets the data wait."""
        if self._file is None and self._writer.transport.get_write_buffer_size() < _MOST_WAITING:
            self._writer.write(data)
            return
        if self._file is None:
            self._file = tempfile.TemporaryFile()
            self._passing = asyncio.create_task(self._pass_on())
        self._file.seek(self._written)
        self._file.write(data)
        self._written += len(data)

    async def _pass_on(self) -> None:
        assert self._file
        while self._taken < self._written:
            await self._writer.drain()
            self._file.seek(self._taken)
            data = self._file.read(_BLOCK)
            self._taken += len(data)
            self._writer.write(data)
        self._file.close()
        self._file, self._written, self._taken = None, 0, 0

    async def drained(self) -> None:
        """Returns once the client has nearly all. What went wrong with the writing is raised."""
        if self._passing:
            await self._passing
        await self._writer.drain()

    def close(self) -> None:
        """Lets nothing wait any more."""
        if self._passing:
            self._passing.cancel()
        if self._file:
            self._file.close()
