"""Repositories that the settings name and that cannot be served as they have them."""

from __future__ import annotations

import asyncio
from collections.abc import Callable, Iterator

from .. import aio
from ..errors import ChangeRefused
from ..folder import LeftOut, Step
from .repositories import Repository, Served, Shared

FAULT = "it cannot be served: the log says why"


class _Nothing:
    """The `Source` of what has no documents."""

    totals = (0, 0)
    has_more = False

    def __init__(self) -> None:
        self.left_out: dict[bytes, str] = {}

    def removals(self) -> Iterator[Step]:
        """None."""
        return iter(())

    def forget(self) -> None:
        """There is nothing to forget."""

    def steps(self) -> Iterator[Step]:
        """None."""
        return iter(())

    def take_refusals(self, refused: tuple[ChangeRefused, ...], are_sent: bool = True) -> list[bytes]:
        """None."""
        return []

    def is_new(self, name: bytes) -> bool:
        """Never."""
        return False

    def take_news(self) -> list[LeftOut]:
        """None."""
        return []


class Absent(Repository):
    """One of which nothing is read. It is named where the others are, and has a fault; only who serves the page is told which."""

    def __init__(self, served: Served, shared: Shared) -> None:
        super().__init__(served, shared)
        self.fault = FAULT
        self._nothing = aio.Kept(shared.session, _Nothing())

    @property
    def kept(self) -> aio.Kept:
        """What keeps nothing."""
        return self._nothing

    @property
    def roots(self) -> list[bytes]:
        """None."""
        return []

    @property
    def revisions(self) -> dict[str, str]:
        """None."""
        return {}

    @property
    def is_loaded(self) -> bool:
        """Never."""
        return False

    def take(self, served: Served) -> bool:
        """Never: what can be served is another one."""
        return False

    async def keep(self, seconds: float, say: Callable[[str], None], log: Callable[..., None] = lambda **row: None) -> None:
        """Waits until it is left."""
        await self._leaving.wait()

    async def leave(self, keeping: asyncio.Task[None]) -> None:
        """Ends it."""
        self._leaving.set()
        await keeping
