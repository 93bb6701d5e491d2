"""What a session gives: answers with their hits, and statuses."""

from __future__ import annotations

import dataclasses
import enum
import itertools
import re
from collections.abc import Iterator, Sequence
from dataclasses import dataclass
from typing import NamedTuple

from .errors import ChangeRefused
from .names import unquote

_CONTEXT_ROW = re.compile(rb"(\d+)([:-])(.*)", re.DOTALL)
GAP = b"--"


class View(enum.Enum):
    """What an answer shows."""

    LINES = "lines"
    CONTEXT = "context"
    COLUMN = "column"
    SPANS = "spans"
    NAMES = "names"
    COUNTS = "counts"
    HEADER = "header"


class Hit(NamedTuple):
    """A line that was found: the name of its document, its number from 1, and its bytes without the line feed. `column` counts from 1
    where its first match begins, and `spans` are the matches that are not empty, as `text[begin:end]`; None unless asked for."""

    name: bytes
    line: int
    text: bytes
    column: int | None = None
    spans: tuple[tuple[int, int], ...] | None = None

    def parts(self) -> list[bytes]:
        """The text in an odd number of parts, of which every second one is a match."""
        parts, at = [], 0
        for begin, end in self.spans or ():
            parts += [self.text[at:begin], self.text[begin:end]]
            at = end
        return [*parts, self.text[at:]]


class Row(NamedTuple):
    """A line to show: one that was found, or one around it."""

    hit: Hit
    is_found: bool


class TextHit(NamedTuple):
    """A hit as text."""

    name: str
    line: int
    text: str


@dataclass(frozen=True)
class Answer:
    """The answer to a search, sorted by the bytes of the quoted name and then by line.

    life: how often the session has started its program; versions begin again with each life.
    version: the answer is for the documents after this many accepted puts, loads, removes and copies.
    count: how many lines it has, without those around them; how many names, with `names_only` and `counts`.
    more: whether `limit` left out something.
    view: what it shows. Each method below says for which views it is, and raises `ValueError` for another.
    data: the rows as the program writes them, and `spans_data` those of a second search for spans.
    candidates, documents: how many of how many documents have trigrams that leave a match possible; None without `stats`.
    """

    life: int
    version: int
    count: int
    more: bool
    view: View
    data: bytes
    candidates: int | None = None
    documents: int | None = None
    spans_data: bytes | None = None

    def __len__(self) -> int:
        return 0 if self.view is View.HEADER else self.count

    def __iter__(self) -> Iterator[Hit]:
        """The hits. With `context` those alone, and not the lines around them."""
        return (row.hit for row in self.rows() if row and row.is_found)

    def hits(self) -> list[Hit]:
        """All hits."""
        return list(self)

    def texts(self, errors: str = "replace") -> Iterator[TextHit]:
        """The hits as text: UTF-8, and `errors` as for `bytes.decode` for what is none."""
        for hit in self:
            yield TextHit(hit.name.decode(errors=errors), hit.line, hit.text.decode(errors=errors))

    def by_document(self) -> Iterator[tuple[bytes, list[Hit]]]:
        """Each document that has hits here, with all of them."""
        for name, hits in itertools.groupby(self, key=lambda hit: hit.name):
            yield name, list(hits)

    def rows(self) -> Iterator[Row | None]:
        """The hits, and with `context` the lines around them; None for a gap between two rows that do not follow one another."""
        self._need(View.LINES, View.CONTEXT, View.COLUMN, View.SPANS)
        spans = self._spans()
        for name, rest in self._split():
            if name is None:
                yield None
            elif self.view is View.CONTEXT:
                found = _CONTEXT_ROW.fullmatch(rest)
                assert found
                is_found = found[2] == b":"
                yield Row(Hit(name, int(found[1]), found[3], None, next(spans) if is_found else None), is_found)
            else:
                line, _, text = rest.partition(b":")
                column = None
                if self.view is not View.LINES:
                    place, _, text = text.partition(b":")
                    column = int(place) if self.view is View.COLUMN else None
                yield Row(Hit(name, int(line), text, column, next(spans)), True)

    def names(self) -> list[bytes]:
        """The names of the documents, with `names_only` or `counts`."""
        self._need(View.NAMES, View.COUNTS)
        return [name for name, _ in self._split() if name is not None]

    def counts(self) -> dict[bytes, int]:
        """How many lines each document has, with `counts`, in the order of the answer."""
        self._need(View.COUNTS)
        return {name: int(rest) for name, rest in self._split() if name is not None}

    def _need(self, *views: View) -> None:
        if self.view not in views:
            raise ValueError(f"the answer shows {self.view.value}")

    def _split(self) -> Iterator[tuple[bytes | None, bytes]]:
        """For each row the name and what is behind it, or None for a gap."""
        last, name = b"", b""
        for row in self.data.split(b"\n")[:-1]:
            quoted, has_name, rest = row.partition(b"\0")
            if quoted != last:
                last, name = quoted, unquote(quoted)
            yield (name if has_name else None), rest

    def _spans(self) -> Iterator[tuple[tuple[int, int], ...] | None]:
        """The spans of each hit."""
        data = self.data if self.view is View.SPANS else self.spans_data
        if data is None:
            return itertools.repeat(None)
        return (spans_of(row.split(b":", 2)[1]) for row in data.split(b"\n")[:-1] for row in [row.partition(b"\0")[2]])


def spans_of(text: bytes) -> tuple[tuple[int, int], ...]:
    """The matches that `FROM-TO,FROM-TO` says, as `text[begin:end]`."""
    spans = (span.partition(b"-") for span in text.split(b",") if span)
    return tuple((int(first) - 1, int(last)) for first, _, last in spans)


def joined(answers: Sequence[Answer]) -> Answer | None:
    """The answer of the searches that were made for one query, or None if they are of different versions."""
    first, *more = answers
    if any((other.life, other.version) != (first.life, first.version) for other in more):
        return None
    return dataclasses.replace(first, spans_data=more[0].data) if more else first


@dataclass(frozen=True)
class Status:
    """What a session holds in this life of its program. `version`, `documents` and `bytes` are those of the last publish, with the
    bytes of all bodies together. `accepted` of at most `most` puts, loads, removes and copies are accepted, published or not. `open` searches
    have no entry yet."""

    life: int
    version: int
    documents: int
    bytes: int
    accepted: int
    most: int
    open: int


@dataclass(frozen=True)
class Published(Status):
    """The status right after a publish, and the puts, loads, removes and copies that were refused since the last one that was not. Those that a
    `Folder` or another source has sent are told to it alone."""

    refused: tuple[ChangeRefused, ...] = ()

    def before(self, later: Published) -> Published:
        """A later publish, with what this one tells as well."""
        return dataclasses.replace(later, refused=(*self.refused, *later.refused))
