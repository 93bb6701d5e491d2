"""Threads for one purpose, so that what takes long there holds up nothing else."""

from __future__ import annotations

import asyncio
import concurrent.futures
import functools
from collections.abc import Callable
from typing import Any, TypeVar

_T = TypeVar("_T")


class Threads:
    """So many threads at most. Work that finds none waits in the order of coming, and is not begun once nobody waits for it."""

    def __init__(self, count: int, name: str) -> None:
        self._pool = concurrent.futures.ThreadPoolExecutor(count, thread_name_prefix=name)

    async def run(self, work: Callable[..., _T], *words: Any) -> _T:
        """What a function gives that a thread calls."""
        return await asyncio.get_running_loop().run_in_executor(self._pool, functools.partial(work, *words))

    def end(self) -> None:
        """Begins nothing more."""
        self._pool.shutdown(wait=False, cancel_futures=True)
