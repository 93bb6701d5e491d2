"""The hints that a repository may have changed, from one observer for all of them."""

from __future__ import annotations

import asyncio
import contextlib
from collections.abc import Callable

from ..watching import Hints, hints
from .repositories import Repository


class Hinting:
    """Has a repository looked at when it may have changed. The folders are gone through in a thread, as a tree may have many.

    say: is called with the repository and the reason, in the loop, if there are no hints, or not of all folders.
    """

    def __init__(self, repository: Repository, say: Callable[[Repository, str], None]) -> None:
        self._repository = repository
        self._say = say
        self._stack = contextlib.ExitStack()
        self._hints: Hints | None = None
        self._loop = asyncio.get_running_loop()
        # a repository of which nothing is read has no folders
        self._task = asyncio.create_task(self._begin()) if repository.roots else None

    @property
    def fault(self) -> str:
        """Why there are no hints; empty if there are, or it is not known yet."""
        return "" if self._hints is None else self._hints.fault

    async def _begin(self) -> None:
        await asyncio.to_thread(self._watch)
        if self.fault:
            self._say(self._repository, self.fault)
        # what has changed before the folders were watched
        self._repository.hint()

    def _watch(self) -> None:
        of_git = bool(self._repository.served.revisions)
        self._hints = self._stack.enter_context(hints(self._repository.roots, self._changed, of_git=of_git))

    def _changed(self) -> None:
        self._loop.call_soon_threadsafe(self._repository.hint)

    async def end(self) -> None:
        """Ends it, once the folders have been gone through."""
        if self._task:
            await asyncio.wait([self._task])
        await asyncio.to_thread(self._stack.close)
