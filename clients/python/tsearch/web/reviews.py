"""The reviews that visitors ask for: so many are open at a time, and those of one visitor leave room for others. One that nobody waits for any
more is given up."""

from __future__ import annotations

import asyncio
import collections
import contextlib
import dataclasses
import itertools
from collections.abc import AsyncIterator
from dataclasses import dataclass
from typing import TYPE_CHECKING

from .. import aio
from ..bounds import Bounds
from ..errors import Error, TooSlow
from ..git import Store
from .turns import LATER, TooMany

if TYPE_CHECKING:
    from ..cluster import Cluster

# So many are being opened at a time. So many of one visitor are, or have their turn to be; so many more wait, and so many of all.
_MOST_OPENING, MOST_OF_ONE, _MOST_WAITING, _MOST_OF_ALL = 2, 2, 16, 256
_WHAT = "comparisons"
# In seconds: a review in which nobody has searched for so long is closed.
IDLE = 60.0
# A search with more lines than that is refused: each takes memory here, and has to be put in its place in the patch.
MOST_LINES = 20_000
# The commits of a repository that is called by this prefix.
_Key = tuple[bytes, str, str]


@dataclass(frozen=True)
class Most:
    """What reviews have at most: how many are open at a time, the milliseconds until one is, and the bytes and the files of one."""

    open: int = 8
    milliseconds: int = 20_000
    bytes: int = 64 << 20
    files: int = 10_000


class NotOpen(TooSlow):
    """A review is not open in time. `seconds` says when to come again."""

    seconds = LATER


class _Open:
    """A review that is open or being opened, and how many searches are in it. `last` is the number of the last one."""

    def __init__(self, task: asyncio.Task[aio.Review]) -> None:
        self.task = task
        # whether it has its turn to be opened
        self.has_begun = False
        self.searches = 0
        self.last = 0

    @property
    def has_failed(self) -> bool:
        """Whether it is none after all."""
        return self.task.done() and (self.task.cancelled() or self.task.exception() is not None)


class Reviews:
    """The open reviews of all repositories."""

    def __init__(self, session: aio.Session | Cluster, most: Most, in_thread: aio.InThread) -> None:
        self._session = session
        self._most = most
        self._in_thread = in_thread
        self._open: dict[_Key, _Open] = {}
        self._numbers = itertools.count(1)
        # how many each visitor waits for, and the turns of each
        self._waited: collections.Counter[str] = collections.Counter()
        self._turns: dict[str, asyncio.Semaphore] = {}
        self._opening = asyncio.Semaphore(_MOST_OPENING)
        # something is closed, or may be
        self._changed = asyncio.Condition()
        self._closing: set[asyncio.Task[None]] = set()

    @contextlib.asynccontextmanager
    async def opened(self, prefix: bytes, store: Store, bounds: Bounds, before: str, after: str, visitor: str) -> AsyncIterator[aio.Review]:
        """The review between two commits of a repository, for a search of a visitor. `NotOpen` if it is not open in time, `TooMany` if too many
        wait, and `SearchRefused` if it is too large."""
        key = (prefix, before, after)
        found: _Open | None = None
        async with contextlib.AsyncExitStack() as stack:
            try:
                async with asyncio.timeout(self._most.milliseconds / 1_000), self._turn(visitor):
                    found = await stack.enter_async_context(self._place(key, store, bounds))
                    review = await asyncio.shield(found.task)
            except TimeoutError:
                why = "its files are not compared" if found and found.has_begun else "others are opened first, and it has no turn"
                raise NotOpen(f"the comparison is not open, since {why} in {self._most.milliseconds:,} ms") from None
            yield review

    @contextlib.asynccontextmanager
    async def _turn(self, visitor: str) -> AsyncIterator[None]:
        """The turn of a visitor to have a review opened. `TooMany` if too many wait."""
        if self._waited[visitor] >= MOST_OF_ONE + _MOST_WAITING:
            raise TooMany(what=_WHAT)
        if self._waited.total() >= _MOST_OF_ALL:
            raise TooMany(of_all=True, what=_WHAT)
        turns = self._turns.setdefault(visitor, asyncio.Semaphore(MOST_OF_ONE))
        self._waited[visitor] += 1
        try:
            async with turns:
                yield
        finally:
            self._waited[visitor] -= 1
            if not self._waited[visitor]:
                del self._waited[visitor], self._turns[visitor]

    @contextlib.asynccontextmanager
    async def _place(self, key: _Key, store: Store, bounds: Bounds) -> AsyncIterator[_Open]:
        """A review that is open or being opened. Once nobody needs it, it is kept for a while, or given up if it is not open."""
        if key not in self._open:
            await self._have_room(key)
        found = self._open.get(key)
        if found is None:
            wanted = dataclasses.replace(bounds, bytes=self._most.bytes, files=self._most.files, objects=None)
            found = self._open[key] = _Open(asyncio.create_task(self._begin(key, store, wanted)))
        found.searches += 1
        found.last = next(self._numbers)
        try:
            yield found
        finally:
            found.searches -= 1
            if not found.searches:
                await self._leave(key, found)

    async def _begin(self, key: _Key, store: Store, bounds: Bounds) -> aio.Review:
        _, before, after = key
        async with self._opening:
            if key in self._open:
                self._open[key].has_begun = True
            return await aio.Review.open(self._session, store, before, after, bounds=bounds, most_lines=MOST_LINES, in_thread=self._in_thread)

    async def _have_room(self, key: _Key) -> None:
        """Waits until one more may be open, or this one is. One that nobody needs is closed for that."""
        async with self._changed:
            while key not in self._open and len(self._open) + len(self._closing) >= self._most.open:
                idle = [one for one in self._open if not self._open[one].searches]
                if idle and not self._closing:
                    self._close(min(idle, key=lambda one: self._open[one].last))
                await self._changed.wait()

    async def _leave(self, key: _Key, found: _Open) -> None:
        """Keeps a review in which nobody searches now, or gives it up if it is not open."""
        if self._open.get(key) is not found:
            return
        if not found.task.done() or found.has_failed:
            self._close(key)
        else:
            last = found.last
            asyncio.get_running_loop().call_later(IDLE, lambda: self._close_if_idle(key, found, last))
        async with self._changed:
            self._changed.notify_all()

    def _close_if_idle(self, key: _Key, found: _Open, last: int) -> None:
        if self._open.get(key) is found and not found.searches and found.last == last:
            self._close(key)

    def _close(self, key: _Key) -> None:
        closing = asyncio.ensure_future(self._closed(self._open.pop(key).task))
        self._closing.add(closing)
        closing.add_done_callback(self._closing.discard)

    async def _closed(self, task: asyncio.Task[aio.Review]) -> None:
        task.cancel()
        await asyncio.wait([task])
        if not task.cancelled() and not task.exception():
            with contextlib.suppress(Error):
                await task.result().close()
        self._closing.discard(asyncio.current_task())  # type: ignore[arg-type]
        async with self._changed:
            self._changed.notify_all()

    def leave(self, prefix: bytes) -> None:
        """Closes all of a repository."""
        for key in [key for key in self._open if key[0] == prefix]:
            self._close(key)

    @property
    def count(self) -> int:
        """How many are open, or being opened."""
        return len(self._open)
