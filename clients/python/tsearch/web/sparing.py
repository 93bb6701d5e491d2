"""What goes wrong again and again is said a few times, and counted from then on."""

from __future__ import annotations

import logging
import time
from collections.abc import Callable

# So often one thing is said in so many seconds.
_MOST, _SECONDS = 10, 60.0
# So many things are known at a time.
_MOST_THINGS = 4_096


class Sparing:
    """Tells how often each thing may be said: so often in so many seconds."""

    def __init__(self, most: int = _MOST, seconds: float = _SECONDS, clock: Callable[[], float] = time.monotonic) -> None:
        self._most, self._seconds, self._clock = most, seconds, clock
        # of each thing since when, how often it was said since, and how often not
        self._known: dict[str, tuple[float, int, int]] = {}

    def passed(self, thing: str) -> int | None:
        """How often a thing was not said before, if it may be said now; None if not."""
        now = self._clock()
        since, said, unsaid = self._known.pop(thing, (now, 0, 0))
        if now - since >= self._seconds:
            since, said = now, 0
        is_said = said < self._most
        # behind the others: the one that has been silent for the longest time is forgotten first
        self._known[thing] = (since, said + is_said, 0 if is_said else unsaid + 1)
        if len(self._known) > _MOST_THINGS:
            del self._known[next(iter(self._known))]
        return unsaid if is_said else None

    def say(self, say: Callable[[str], None], text: str, thing: str = "") -> None:
        """Says a text, if it may be. What it is about is what it begins with, up to a colon, if nothing else is said."""
        unsaid = self.passed(thing or text.partition(":")[0])
        if unsaid is not None:
            say(f"{text} (and {unsaid:,} more like this before)" if unsaid else text)


class Spared(logging.Filter):
    """Lets few records of one kind pass, each as one line, but for the first of a fault that nobody has foreseen."""

    def __init__(self) -> None:
        super().__init__()
        self._sparing = Sparing()

    def filter(self, record: logging.LogRecord) -> bool:
        """Changes the record."""
        fault = record.exc_info[1] if record.exc_info else None
        unsaid = self._sparing.passed(f"{record.name} {str(record.msg)[:100]} {type(fault).__name__}")
        if unsaid is None:
            return False
        lines = record.getMessage().splitlines() or [""]
        is_foreseen = fault is None or isinstance(fault, OSError)
        text = lines[0] if is_foreseen else "\n".join(lines)
        if isinstance(fault, OSError):
            text, record.exc_info, record.exc_text = f"{text}: {fault}", None, None
        record.msg, record.args = f"{text} (and {unsaid:,} more like this before)" if unsaid else text, ()
        return True
