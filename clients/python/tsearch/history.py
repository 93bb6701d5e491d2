"""What documents were before they changed, so that an answer's files can be shown as they were when it was given."""

from __future__ import annotations

import collections
from typing import NamedTuple

from .answers import Answer

# In bytes: so much of files that have changed is kept for the views of older answers.
MOST_KEPT = 64 << 20


class _Kept(NamedTuple):
    """A document as it was from one version until before another, or None while the change is not published."""

    begin: int
    end: int | None
    answer: Answer


class History:
    """What documents were before they changed: the newest of it, up to a number of bytes."""

    def __init__(self, most: int = MOST_KEPT) -> None:
        self._most = most
        self._size = 0
        self._kept: collections.OrderedDict[tuple[bytes, int], _Kept] = collections.OrderedDict()
        self._begins: dict[bytes, int] = {}
        self._changing: dict[bytes, int] = {}

    def change(self, name: bytes, answer: Answer | None) -> None:
        """Notes that a document is about to change, and keeps it as it has been until now, if that could be read. Only the first of several
        changes before a publish counts."""
        if name in self._changing:
            return
        begin = self._begins.get(name, 0)
        self._changing[name] = begin
        if answer is None:
            return
        self._kept[name, begin] = _Kept(begin, None, answer)
        self._size += len(answer.data)
        while self._size > self._most and len(self._kept) > 1:
            _, dropped = self._kept.popitem(last=False)
            self._size -= len(dropped.answer.data)

    def publish(self, changed: set[bytes], version: int) -> None:
        """Notes that these documents have changed with this version."""
        for name in changed:
            begin = self._changing.pop(name, None)
            if begin is not None and (name, begin) in self._kept:
                self._kept[name, begin] = self._kept[name, begin]._replace(end=version)
            self._begins[name] = version

    def at(self, name: bytes, version: int) -> Answer | None:
        """The document as it was at a version, if it has changed since and is kept."""
        for (kept_name, begin), kept in self._kept.items():
            if kept_name == name and begin <= version and (kept.end is None or version < kept.end):
                return kept.answer
        return None

    def is_current(self, name: bytes, version: int) -> bool:
        """Whether the document is as it was at that version."""
        return name not in self._changing and self._begins.get(name, 0) <= version
