"""The texts that an editor has open and has not saved, over the files of a tree.

They are in a small session of their own under the names of the files, and the tree is searched without these names: so the patterns of
names hold as they are, and nobody else sees anything of it.
"""

from __future__ import annotations

import asyncio
import dataclasses
from collections.abc import Iterable

from .. import aio
from ..answers import Answer
from ..errors import ChangeRefused, Ended, Error
from ..names import checked, quote
from ..query import MAX_PATTERN, Query, escape

# A pattern of names may be given so often.
_MOST_PATTERNS = 16
# In bytes, of all texts of an editor.
_MOST_TEXT = 1 << 28
_TRIES = 3


class OverlayRefused(Error):
    """An overlay cannot be as it is asked for."""


@dataclasses.dataclass
class _Text:
    """The lines of an overlay. It is not complete while more of it is to come, and then not searched."""

    lines: list[bytes]
    is_sent: bool = False
    refused: str = ""


class Overlays:
    """The overlays of an editor."""

    def __init__(self) -> None:
        self._texts: dict[bytes, _Text] = {}
        self._released: set[bytes] = set()
        self._size = 0
        self._session: aio.Session | None = None
        self._sending: asyncio.Task[tuple[frozenset[bytes], int]] | None = None
        self._lock = asyncio.Lock()
        # how many changes there were
        self.count = 0

    @property
    def names(self) -> frozenset[bytes]:
        """Those of the files that are overlaid."""
        return frozenset(self._texts)

    def edit(self, name: bytes, first: int, last: int | None, lines: list[bytes]) -> None:
        """Puts lines in the place of those from `first` on and before `last`, by default the end. A new overlay has no lines.
        `OverlayRefused` if there are no such lines, or too much text."""
        try:
            checked(name)
        except ChangeRefused as refused:
            raise OverlayRefused(refused.reason) from None
        text = self._texts.get(name) or _Text([])
        last = len(text.lines) if last is None else last
        if not first <= last <= len(text.lines):
            raise OverlayRefused(f"first and last are not in order, or not within the text (lines: {len(text.lines)})")
        size = self._size + sum(map(len, lines)) + len(lines) - sum(map(len, text.lines[first:last])) - (last - first)
        if size > _MOST_TEXT:
            raise OverlayRefused("too much text")
        text.lines[first:last] = lines
        text.is_sent = False
        self._texts[name] = text
        self._size = size
        self.count += 1

    def release(self, name: bytes) -> None:
        """Lets the file of this name be searched again."""
        text = self._texts.pop(name, None)
        if text:
            self._size -= sum(map(len, text.lines)) + len(text.lines)
            self._released.add(name)
            self.count += 1

    async def find(self, query: Query) -> tuple[Answer | None, frozenset[bytes], dict[bytes, str], int]:
        """The answer in the overlays as they are now, the names that are overlaid, those of them that cannot be searched, with the reason, and
        how many changes the answer has."""
        async with self._lock:
            if not self._texts:
                return None, frozenset(), {}, self.count
            for _ in range(_TRIES):
                try:
                    names, count = await self._sent()
                    assert self._session
                    answer = await self._session.find_query(query)
                    return answer, names, {name: text.refused for name, text in self._texts.items() if text.refused}, count
                except Ended:
                    await self._end()
            raise Error("the program ends again and again")

    async def _sent(self) -> tuple[frozenset[bytes], int]:
        """Sends what has changed. The names of all overlays then, and how many changes there were. It goes on if its caller is cancelled: what
        is sent in part would be found as it was."""
        self._sending = asyncio.create_task(self._send(self._sending))
        self._sending.add_done_callback(lambda done: done.cancelled() or done.exception())
        return await asyncio.shield(self._sending)

    async def _send(self, before: asyncio.Task[tuple[frozenset[bytes], int]] | None) -> tuple[frozenset[bytes], int]:
        """Does it, once the one before is done."""
        if before:
            await asyncio.wait([before])
        if self._session is None:
            self._session = await aio.Session.start(readers=1)
        session, released, names, count = self._session, self._released, self.names, self.count
        changed = {name: (text, b"\n".join([*text.lines, b""])) for name, text in self._texts.items() if not text.is_sent}
        self._released = set()
        for text, _ in changed.values():
            text.is_sent, text.refused = True, ""
        for name in released - names:
            await session.remove(name)
        for name, (_, body) in changed.items():
            # the older text goes, whether the new one is taken or not
            await session.remove(name)
            await session.put(name, b"" if body == b"\n" else body)
        if changed or released:
            for refusal in (await session.publish()).refused:
                if refusal.name in changed and refusal.reason != "no such file":
                    changed[refusal.name][0].refused = refusal.reason
        return names, count

    async def _end(self) -> None:
        for text in self._texts.values():
            text.is_sent = False
        session, self._session = self._session, None
        if session:
            session.kill()
            await session.close()

    async def close(self) -> None:
        """Ends the session."""
        self._texts.clear()
        if self._session:
            self._session.kill()
        if self._sending:
            await asyncio.wait([self._sending])
        await self._end()


def without(query: Query, names: Iterable[bytes]) -> tuple[Query, frozenset[bytes]]:
    """The query for all documents but some, and those of them that it does find: what patterns of names can say has a limit."""
    parts: list[list[bytes]] = []
    left, size, room = [], 0, max(0, _MOST_PATTERNS - len(query.not_names))
    for name in sorted(names):
        pattern = escape(quote(name))
        if not parts or size + len(pattern) + 1 > MAX_PATTERN - 4:
            parts.append([])
            size = 0
        if len(parts) > room:
            left.append(name)
            continue
        parts[-1].append(pattern)
        size += len(pattern) + 1
    patterns = tuple(b"^(" + b"|".join(part) + b")$" for part in parts[:room])
    # case is ignored in names for all patterns or for none
    if query.names_ignore_case:
        return query, frozenset(names)
    return dataclasses.replace(query, not_names=(*query.not_names, *patterns)), frozenset(left)
