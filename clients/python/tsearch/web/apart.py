"""Which repositories are asked apart from the others: those that were slow where the others were not."""

from __future__ import annotations

import time
import weakref
from collections.abc import Callable, Collection
from typing import TYPE_CHECKING

if TYPE_CHECKING:
    from .repositories import Repository

# In seconds: so long one stays apart, and twice as long each time that it is slow again once that is over.
_FIRST, _LONGEST = 60.0, 3_600.0
# Of those that a search asks at most so great a part is apart, and at least one: a pattern that takes long everywhere says nothing of one.
_PART = 4


class Apart:
    """The repositories that were too slow lately."""

    def __init__(self, clock: Callable[[], float] = time.monotonic) -> None:
        self._clock = clock
        # of each until when, and for how long
        self._known: weakref.WeakKeyDictionary[Repository, tuple[float, float]] = weakref.WeakKeyDictionary()

    def note(self, slow: Collection[Repository], asked: int) -> None:
        """Notes which of so many were too slow, if the others were not."""
        if not slow or len(slow) > most_of(asked):
            return
        now = self._clock()
        for repository in slow:
            until, rest = self._known.get(repository, (0.0, 0.0))
            if now >= until:
                rest = min(2 * rest or _FIRST, _LONGEST)
                self._known[repository] = (now + rest, rest)

    def of(self, asked: Collection[Repository]) -> set[Repository]:
        """Those of some that are asked apart; of too many those that were slow last."""
        now = self._clock()
        found = {one: self._known[one][0] for one in asked if one in self._known and self._known[one][0] > now}
        return set(sorted(found, key=found.__getitem__, reverse=True)[: most_of(len(asked))])


def most_of(asked: int) -> int:
    """How many of so many may be apart: none of one."""
    return max(1, asked // _PART) if asked > 1 else 0
