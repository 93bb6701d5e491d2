"""Where lines begin in files, in bytes."""

from __future__ import annotations

from collections.abc import Callable

# A block of a text, with how many lines and bytes come before it.
Window = tuple[bytes, int, int]


class Offsets:
    """Tells where the lines of rows begin, in the order of the rows.

    body_of: gives the bytes of a file, by its path as it is shown.
    body, before: the file or the block that the rows are of, and how many bytes come before it.
    """

    def __init__(self, body_of: Callable[[bytes], bytes]) -> None:
        self._body_of = body_of
        self.body, self.before = b"", 0
        self._name: bytes | None = None
        self._first = self._line = 1
        self._place = 0
        self._window: Window | None = None

    def look_at(self, name: bytes, window: Window | None) -> None:
        """Counts in a block of a text; in whole files if it is None."""
        self._window = window
        if window and self._name == name:
            self._take(window)

    def begin(self, name: bytes) -> None:
        """The rows that come are of this file."""
        self._name = name
        self._take(self._window or (self._body_of(name), 0, 0))

    def end(self) -> None:
        """No row comes of the file before."""
        self._name = None

    def _take(self, window: Window) -> None:
        self.body, lines, self.before = window
        self._first = self._line = lines + 1
        self._place = 0

    def place(self, line: int) -> int:
        """Where a line begins in the body."""
        if line < self._line:
            self._line, self._place = self._first, 0
        while self._line < line:
            self._place = self.body.find(b"\n", self._place) + 1 or len(self.body)
            self._line += 1
        return self._place
