"""What an editor is shown of an answer: rows of the tree and of overlays in one order, as JSON, with places in the units of the editor."""

from __future__ import annotations

import bisect
import collections
import itertools
from collections.abc import Callable, Iterable, Iterator
from typing import Any

from ..answers import Answer, View
from ..names import quote
from ..query import Query
from . import forms
from .asking import Piece
from .editor_requests import shown_text
from .forms import Row
from .groups import groups_of

# So many lines, or bytes of their texts, go in one message.
MOST_LINES = 200
_MOST_BYTES = 1 << 16


def rows_of(answer: Answer) -> list[Row]:
    """The rows of an answer. One that shows paths has a row for each, with its number of lines."""
    if answer.view is View.HEADER:
        return []
    if answer.view is View.NAMES:
        return [Row(name, 0, True, b"") for name in answer.names()]
    if answer.view is View.COUNTS:
        return [Row(name, count, True, b"") for name, count in answer.counts().items()]
    rows = list(reading(answer.view).take(answer.data))
    if answer.spans_data is None:
        return rows
    others = reading(View.SPANS).take(answer.spans_data)
    return [row._replace(spans=next(others).spans) if row.is_found else row for row in rows]


def reading(view: View) -> forms.Reading:
    """What reads the rows of a tree."""
    return forms.Reading(Piece(b"", b"", False), view, lambda name: True)


class Merging:
    """Merges the rows of a tree, as they come, with those of overlays, in the order of the names, and cuts them at a limit.

    dropped: names of the tree that are overlaid, and come all the same.
    """

    def __init__(self, overlaid: Iterable[Row], dropped: frozenset[bytes], limit: int | None, context: int | None) -> None:
        self._overlaid = collections.deque(overlaid)
        self._dropped, self._limit, self._context = dropped, limit, context or 0
        self._last: Row | None = None
        # how many were found and are shown, and whether the limit has left out some
        self.count = 0
        self.more = False

    def take(self, rows: Iterable[Row]) -> Iterator[Row]:
        """The rows to show once these have come."""
        for row in rows:
            if row.name in self._dropped:
                continue
            while self._overlaid and quote(self._overlaid[0].name) < quote(row.name):
                yield from self._cut(self._overlaid.popleft())
            yield from self._cut(row)

    def end(self) -> Iterator[Row]:
        """The rows that are left."""
        while self._overlaid:
            yield from self._cut(self._overlaid.popleft())

    def _cut(self, row: Row) -> Iterator[Row]:
        if self._limit is None or self.count < self._limit:
            self.count += row.is_found
            self._last = row if row.is_found else self._last
            yield row
            return
        self.more |= row.is_found
        if self._last and row.name == self._last.name and row.number - self._last.number <= self._context:
            yield row._replace(is_found=False, spans=None, column=None)


def in_batches(rows: Iterable[Row]) -> Iterator[list[Row]]:
    """The rows, as many at a time as one message has."""
    batch: list[Row] = []
    size = 0
    for row in rows:
        batch.append(row)
        size += len(row.text)
        if len(batch) == MOST_LINES or size > _MOST_BYTES:
            yield batch
            batch, size = [], 0
    if batch:
        yield batch


def measure(text: bytes, unit: str) -> Callable[[int, bool], int]:
    """What tells where an offset of a line is in a unit. One within a character is where that begins, or, of an end, where it ends. A byte
    that is part of no character counts as one."""
    if unit == "bytes" or text.isascii():
        return lambda at, is_end: at
    offsets, places = [0], [0]
    for character in text.decode("utf-8", "surrogateescape"):
        size = 1 if "\udc80" <= character <= "\udcff" else len(character.encode())
        offsets.append(offsets[-1] + size)
        places.append(places[-1] + (2 if unit == "utf-16" and character > "\uffff" else 1))

    def place(at: int, is_end: bool) -> int:
        return places[bisect.bisect_left(offsets, at) if is_end else bisect.bisect_right(offsets, at) - 1]

    return place


class Form:
    """Writes rows as JSON.

    units: those of places. cut: of a longer text only so many bytes are shown, those around its first match. has_groups: whether the
    groups of the pattern are shown.
    """

    def __init__(self, query: Query, units: str, cut: int | None, has_groups: bool) -> None:
        self._query, self._units, self._cut, self._has_groups = query, units, cut, has_groups

    def message(self, rows: list[Row]) -> dict[str, Any]:
        """What is written for some rows."""
        if self._query.view is View.NAMES:
            return {"names": [shown_text(row.name) for row in rows]}
        if self._query.view is View.COUNTS:
            return {"counts": [{"name": shown_text(row.name), "count": row.number} for row in rows]}
        groups = itertools.groupby(rows, key=lambda row: row.name)
        return {"documents": [{"name": shown_text(name), "lines": [self._line(row) for row in lines]} for name, lines in groups]}

    def _line(self, row: Row) -> dict[str, Any]:
        place = measure(row.text, self._units)
        shown: dict[str, Any] = {"line": row.number}
        begin, end = self._window(row)
        shown["text"] = shown_text(row.text[begin:end])
        if end - begin < len(row.text):
            shown["from"], shown["of"] = place(begin, False), place(len(row.text), True)
        if not row.is_found:
            shown["around"] = True
        if row.column is not None:
            shown["column"] = place(row.column - 1, False) + 1
        if row.spans is not None:
            shown["spans"] = [[place(first, False), place(last, True)] for first, last in row.spans if first < end and last > begin]
        if self._has_groups and row.spans and len(row.spans) == 1:
            shown["groups"] = self._groups(row.text, *row.spans[0], place)
        return shown

    def _window(self, row: Row) -> tuple[int, int]:
        """Which part of a text is shown."""
        text, most = row.text, self._cut
        if most is None or len(text) <= most:
            return 0, len(text)
        first = row.spans[0][0] if row.spans else (row.column or 1) - 1
        begin = max(0, min(first - most // 4, len(text) - most))
        end = begin + most
        return _boundary(text, begin), _boundary(text, end)

    def _groups(self, text: bytes, begin: int, end: int, place: Callable[[int, bool], int]) -> list[Any] | None:
        if self._query.literal:
            return [[place(begin, False), place(end, True)]]
        found = groups_of(self._query.pattern, self._query.ignore_case, text, begin, end)
        return found and [group and [place(group[0], False), place(group[1], True)] for group in found]


def _boundary(text: bytes, at: int) -> int:
    """The offset, or one of at most three bytes before, at which a character begins, if one does."""
    back = next((back for back in range(4) if at - back <= 0 or at - back >= len(text) or text[at - back] & 0xC0 != 0x80), 0)
    return at - back
