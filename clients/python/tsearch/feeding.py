"""Who sends documents to a session, one at a time and in turn: a long feed of what nobody asks for yet lets others go between, and what replaces
or adds to what is shown goes first."""

from __future__ import annotations

import asyncio
import collections

# In bytes: so much of bodies is published at a time, where others may go between: whoever publishes next waits until they are analysed.
PIECE = 1 << 21
# So a document counts at least.
LEAST = 1 << 12
# So many turns go first, while others wait, before one of these has its turn.
MOST_FIRST = 3


class Feeding:
    """A lock with two queues: of those that go first, as a push to what is shown, and of all others. In each the turn comes in the order of
    coming. A push waits for what is being sent and for one of the others at most, and none of these waits for ever."""

    def __init__(self) -> None:
        self._is_taken = False
        self._first: collections.deque[asyncio.Future[None]] = collections.deque()
        self._others: collections.deque[asyncio.Future[None]] = collections.deque()
        # how many went first since one of the others had its turn, or none of them waited
        self._count = 0

    async def acquire(self, is_first: bool = False) -> None:
        """Waits for the turn."""
        if not self._is_taken:
            self._is_taken = True
            return
        queue = self._first if is_first else self._others
        turn = asyncio.get_running_loop().create_future()
        queue.append(turn)
        try:
            await turn
        except asyncio.CancelledError:
            if turn.cancelled():
                # where it is not there any more it was passed over
                if turn in queue:
                    queue.remove(turn)
            else:
                self.release()  # it came as it was given up
            raise

    def release(self) -> None:
        """Gives the turn to the next one who waits."""
        while self._first or self._others:
            is_first = bool(self._first) and (not self._others or self._count < MOST_FIRST)
            turn = (self._first if is_first else self._others).popleft()
            if not turn.done():
                self._count = self._count + 1 if is_first and self._others else 0
                turn.set_result(None)
                return
        self._is_taken, self._count = False, 0

    async def __aenter__(self) -> None:
        await self.acquire()

    async def __aexit__(self, *_: object) -> None:
        self.release()


class Turn:
    """A turn at feeding, which can be left and taken again."""

    def __init__(self, feeding: Feeding) -> None:
        self._feeding = feeding
        self._is_taken = False

    async def take(self, is_first: bool = False) -> None:
        """Waits for the turn, if it is not taken."""
        if not self._is_taken:
            await self._feeding.acquire(is_first)
            self._is_taken = True

    def leave(self) -> None:
        """Gives the turn to the next one who waits."""
        if self._is_taken:
            self._is_taken = False
            self._feeding.release()

    async def __aenter__(self) -> Turn:
        return self

    async def __aexit__(self, *_: object) -> None:
        self.leave()
