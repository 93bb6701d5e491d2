"""One answer of several: of the shards of a cluster, and the first lines of one."""

from __future__ import annotations

import dataclasses
import itertools
import math
import operator
import re
from collections.abc import Iterable, Iterator
from typing import NamedTuple

from .answers import GAP, Answer, View
from .core import after_line
from .query import Query

_GAP_ROW = GAP + b"\n"
# The rows of a document, at most so many that no time is lost if it has more: those behind them are found by steps that grow.
_FIRST_ROWS = re.compile(rb"(?:--\n)?(?P<name>[^\0\n]+\0)[^\n]*\n(?:(?:--\n)?(?P=name)[^\n]*\n){0,15}")
_DIGITS = b"0123456789"
# What stands behind the name of a line that was found.
_FOUND = re.compile(rb"\0\d+:")


class Split(NamedTuple):
    """An answer, and the places of its documents: where the rows of each begin, where its name ends, with the byte 0 behind it, and
    where its rows end, without the gaps between."""

    answer: Answer
    places: list[tuple[int, int, int]]

    def documents(self) -> list[tuple[bytes, memoryview]]:
        """The documents: the name, with the byte 0 behind it, and all rows."""
        data = self.answer.data
        rows = memoryview(data)
        return [(data[begin:name_end], rows[begin:end]) for begin, name_end, end in self.places]


def split(answer: Answer) -> Split:
    """Finds the documents of an answer."""
    data, places, at = answer.data, [], 0
    while found := _FIRST_ROWS.match(data, at):
        begin, name_end = found.span("name")
        at = _end_of(data, begin, found.end(), found["name"])
        places.append((begin, name_end, at))
    return Split(answer, places)


def merged(query: Query, found: list[Split], version: int) -> Answer:
    """The answer to a query of those of all shards: in the order of names, and cut at the limit, with which each shard was asked."""
    answers = [one.answer for one in found]
    count, more = sum(answer.count for answer in answers), any(answer.more for answer in answers)
    documents = sorted((document for one in found for document in one.documents()), key=operator.itemgetter(0))
    texts: Iterable[bytes | memoryview] = [rows for _, rows in documents]
    if query.limit is not None and count > query.limit:
        count, more = query.limit, True
        texts = _first_of(texts, query.limit, query.context)
    data = (_GAP_ROW if query.view is View.CONTEXT else b"").join(texts)
    return Answer(1, version, count, more, query.view, data, _sum(one.candidates for one in answers), _sum(one.documents for one in answers))


def _sum(numbers: Iterable[int | None]) -> int | None:
    known = [number for number in numbers if number is not None]
    return sum(known) if known else None


def parted(answer: Answer, starts: Iterable[bytes]) -> list[Answer]:
    """The parts of an answer, of lines with context: that of the documents whose quoted names begin with each of some texts. No name begins
    with two, and each has two colons, at its end and before that."""
    data, spans, blocks, at = answer.data, answer.spans_data, {}, 0
    for start, places in itertools.groupby(split(answer).places, key=lambda place: _start_of(data, place[0])):
        begin, *_, end = (number for place in places for number in (place[0], place[2]))
        rows = data[begin:end]
        count = len(_FOUND.findall(rows))
        before, at = at, after_line(spans, at, count) if spans else at
        blocks[start] = dataclasses.replace(answer, count=count, more=False, data=rows, spans_data=spans and spans[before:at])
    none = dataclasses.replace(answer, count=0, more=False, data=b"", spans_data=spans and b"")
    return [blocks.get(start, none) for start in starts]


def _start_of(data: bytes, begin: int) -> bytes:
    """What a name begins with, to its second colon."""
    return data[begin : data.index(b":", data.index(b":", begin) + 1) + 1]


def cut(answer: Answer, limit: int, context: int) -> Answer:
    """The answer of the same search, with so much context, at a lower limit; the answer itself if it has no more lines than that."""
    if answer.count <= limit:
        return answer
    data = _GAP_ROW.join(_first_of((rows for _, rows in split(answer).documents()), limit, context))
    spans = answer.spans_data and answer.spans_data[: after_line(answer.spans_data, 0, limit) if limit else 0]
    return dataclasses.replace(answer, count=limit, more=True, data=data, spans_data=spans)


def _end_of(data: bytes, begin: int, end: int, name: bytes) -> int:
    """Where the rows of a document end, of which the first begins at `begin`, and one ends at `end`. The steps grow, and fall again
    near the end."""
    inside, step = end, end - begin
    goes_on = (name, _GAP_ROW + name)
    if not data.startswith(goes_on, end):
        return end
    while True:
        row = data.index(b"\n", min(inside + step, len(data) - 1)) + 1
        if data.startswith(goes_on, row):
            inside, step = row, 2 * step
        elif step == 1:
            return row
        else:
            step = max(1, step // 8)


def _first_of(texts: Iterable[bytes | memoryview], limit: int, context: int | None) -> Iterator[bytes]:
    """The first hits of documents, or the first names. With context: the lines around these."""
    for found in texts:
        if limit <= 0:
            return
        text = bytes(found)
        rows = text.count(b"\n") if context is None else sum(map(_is_found, text.split(b"\n")))
        if rows > limit:
            text = text[: after_line(text, 0, limit)] if context is None else _first_with_context(text, limit, context)
        yield text
        limit -= rows


def _is_found(row: bytes) -> bool:
    return row.partition(b"\0")[2].lstrip(_DIGITS).startswith(b":")


def _first_with_context(text: bytes, limit: int, context: int) -> bytes:
    """The first hits of a document and the lines around them. A hit behind them that is shown is one of these lines."""
    kept, last = [], math.inf
    for row in text.split(b"\n")[:-1]:
        name, _, rest = row.partition(b"\0")
        tail = rest.lstrip(_DIGITS)
        digits = rest[: len(rest) - len(tail)]
        if limit == 0 and (not digits or int(digits) > last + context):
            break
        if limit == 0 and tail.startswith(b":"):
            row = b"%s\0%s-%s" % (name, digits, tail[1:])
        elif tail.startswith(b":"):
            limit, last = limit - 1, int(digits)
        kept.append(row + b"\n")
    return b"".join(kept)
