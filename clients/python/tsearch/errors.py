"""What can go wrong. Every exception of this package is an `Error`; a time limit of the caller is Python's own `TimeoutError`."""

from __future__ import annotations


class Error(Exception):
    """The base of all exceptions of this package."""


class Refused(Error):
    """An item is refused: by the program, or here where it could not be sent as what it is.

    `reason` has the words of docs/SCRIPT.md ("What is refused"), such as `group not closed` or `full`.
    """

    def __init__(self, reason: str, *more: object) -> None:
        super().__init__(reason, *more)
        self.reason = reason


class PatternRefused(Refused):
    """A pattern cannot be read. `offset` is that of the fault in `pattern`, in bytes from 0, and at most its length. `number` is that of
    a name pattern, from 1, with those of `not_names` behind those of `names`; it is 0 for the pattern itself."""

    def __init__(self, reason: str, offset: int, number: int = 0, pattern: bytes = b"") -> None:
        super().__init__(reason, offset, number, pattern)
        self.offset = offset
        self.number = number
        self.pattern = pattern

    def __str__(self) -> str:
        return f"{f'name pattern {self.number}: ' if self.number else ''}{self.reason} at {self.offset}"


class OptionRefused(Refused):
    """The options of a search exclude each other, a number is out of its range, a lane is not a word, a prefix is empty, or there are over 16
    of `names` or of `not_names`, or over 4,096 of `under` or of `not_under`."""


class ChangeRefused(Refused):
    """A put, a load, a remove or a copy is refused. `name` is the document's, or the prefix of a `remove_under`, or what the names of a
    `copy_under` would have begun with."""

    def __init__(self, reason: str, name: bytes) -> None:
        super().__init__(reason, name)
        self.name = name

    def __str__(self) -> str:
        return f"{self.name.decode(errors='backslashreplace')}: {self.reason}" if self.name else self.reason


class PublishRefused(Refused):
    """A publish is refused for memory. What searches see is as before; docs/SCRIPT.md says what can be done."""


class SearchRefused(Refused):
    """A search has no answer, though its pattern can be read: there was no memory for it."""


class Cancelled(SearchRefused):
    """A search was given up with `cancel`."""


class TooSlow(SearchRefused):
    """A search had no answer in the time that the session gives each search (`search_ms`)."""


class Ended(Error):
    """The program has ended, or the pipes to it are closed. `status` is the program's, negative for a signal and None if it is not
    known, and `message` is what it wrote to standard error."""

    def __init__(self, status: int | None, message: str = "") -> None:
        super().__init__(status, message)
        self.status = status
        self.message = message

    def __str__(self) -> str:
        how = "is closed" if self.status is None else f"has ended with status {self.status}"
        return f"the session {how}{': ' + self.message if self.message else ''}"


class NotUnderstood(Error):
    """What the other side of the pipes writes is not what a session writes."""
