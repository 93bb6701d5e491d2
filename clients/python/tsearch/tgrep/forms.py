"""What an answer looks like: the program's rows, as they come, become what is written.

A row is NAME, a byte 0, LINE, a `:` or, for a line around, a `-`, and the text. Where nothing else is asked for, whole pieces are passed
on with a few replacements; the other forms read each row.
"""

from __future__ import annotations

import functools
import re
from collections.abc import Callable, Iterator
from typing import IO, Any, NamedTuple

from ..answers import Hit, View, spans_of
from ..names import quote, unquote
from ..query import Query
from ..shortening import LONGEST, shortened
from . import ere
from .asking import Piece
from .offsets import Offsets

_QUOTED_NAME = re.compile(rb"^[^\0\n%]*%[^\0\n]*(?=\0)", re.MULTILINE)
_NUMBERED = re.compile(rb"^([^\0\n]*)\0([0-9]+)([:-])", re.MULTILINE)
_LINE = re.compile(rb"^([^\0\n]*)\0([0-9]+)([:-])()()([^\n]*)\n", re.MULTILINE)
_COLUMN = re.compile(rb"^([^\0\n]*)\0([0-9]+)(:)([0-9]+):()([^\n]*)\n", re.MULTILINE)
_SPANS = re.compile(rb"^([^\0\n]*)\0([0-9]+)(:)()([0-9,-]*):([^\n]*)\n", re.MULTILINE)
_ROWS = {View.LINES: _LINE, View.CONTEXT: _LINE, View.COLUMN: _COLUMN, View.SPANS: _SPANS}
_WORD = re.compile(rb"[0-9A-Za-z_]")
# In bytes: what --vimgrep writes of a line at most, if it writes it whole for each of its matches.
_MOST_REPEATED = 1 << 22
# In bytes: of lines up to this length all matches that are empty are known.
_LONG = 1 << 20
_CONTROL = re.compile(rb"[\0-\x08\x0b-\x1f\x7f]")

Spans = tuple[tuple[int, int], ...]


class Row(NamedTuple):
    """A line to show: its path, as it is shown, its number, whether it was found, its text, and where the matches are."""

    name: bytes
    number: int
    is_found: bool
    text: bytes
    spans: Spans | None = None
    column: int | None = None


class Totals:
    """What a call has found and written."""

    def __init__(self) -> None:
        self.lines = self.matches = self.files = self.written = 0
        self.last: bytes | None = None

    def add(self, row: Row, matches: int) -> None:
        """Counts a line that was found, with so many matches."""
        self.lines += 1
        self.matches += matches
        self.files += row.name != self.last
        self.last = row.name


class WholeRows:
    """Makes whole rows of pieces that end anywhere. A row is put together once, however many pieces it has."""

    def __init__(self) -> None:
        self._parts: list[bytes] = []

    def take(self, data: bytes) -> bytes:
        """The rows that end in this piece; empty if none does."""
        end = data.rfind(b"\n") + 1
        self._parts.append(data[:end] if end else data)
        if not end:
            return b""
        rows = b"".join(self._parts)
        self._parts = [data[end:]]
        return rows


class Passing:
    """Passes rows on as they are, but for what the names begin with."""

    def __init__(
        self, piece: Piece, given: dict[str, Any], has_names: bool, is_terminal: bool, has_context: bool, has_quoted: bool
    ) -> None:
        self._before = b"\n" + quote(piece.under) + b"\0" * piece.is_file
        self._after = b"\n" + quote(piece.shown) + b"\0" * piece.is_file
        self._rows = WholeRows()
        self._has_quoted = has_names and (has_quoted or quote(piece.shown) != piece.shown)
        self._is_terminal = is_terminal
        self._template = self._template_of(given, has_names, has_context)
        self._separator = given.get("separator")
        self._null = bool(given.get("null"))
        self._line = piece.line

    @staticmethod
    def _template_of(given: dict[str, Any], has_names: bool, has_context: bool) -> bytes | None:
        """What is written in place of a row's name and number; None where the byte 0 is all that changes."""
        has_numbers = given.get("line_number", True)
        if has_names and has_numbers and not (has_context and not given.get("null")):
            return None
        name = (rb"\1" + (b"\0" if given.get("null") else rb"\3")) if has_names else b""
        return name + (rb"\2\3" if has_numbers else b"")

    def take(self, data: bytes) -> bytes:
        """What is written for a piece of the rows."""
        rows = self._rows.take(data)
        return self._form(rows) if rows else b""

    def _form(self, rows: bytes) -> bytes:
        if self._line:
            rows = _NUMBERED.sub(lambda found: b"%s\0%d%s" % (found[1], int(found[2]) + self._line, found[3]), rows)
        if self._before != self._after:
            rows = (b"\n" + rows[:-1]).replace(self._before, self._after)[1:] + b"\n"
            if self._before == b"\n":
                rows = (b"\n" + rows).replace(self._after + b"--\n", b"\n--\n")[1:]
        if self._has_quoted and b"%" in rows:
            rows = _QUOTED_NAME.sub(lambda found: unquote(found[0]), rows)
        if self._separator is not None:
            rows = (b"\n" + rows).replace(b"\n--\n", b"\n" + self._separator.encode(errors="surrogateescape") + b"\n")[1:]
        if self._template is not None:
            rows = _NUMBERED.sub(self._template, rows)
        elif not self._null:
            rows = rows.replace(b"\0", b":")
        if self._is_terminal:
            rows = shown_controls(rows, keeps=b"\0" if self._null else b"")
        return rows


def shown_controls(data: bytes, keeps: bytes = b"") -> bytes:
    """The data with its control bytes as `^[` and the like: a line of a file could else tell the terminal what to do."""
    return _CONTROL.sub(lambda found: found[0] if found[0] == keeps else b"^%c" % (found[0][0] ^ 64), data)


class Empty:
    """Where a query's matches are empty: the program names the others alone."""

    def __init__(self, query: Query) -> None:
        self._query = query

    @functools.cached_property
    def _can_be(self) -> dict[tuple[bool, bool], bool]:
        """Whether a match can be empty, at the begin of a line or not, and at its end or not. Asked once the program has taken the pattern."""
        pattern = b"" if self._query.literal else self._query.pattern
        tree = ere.read(pattern)
        at_ends = ((is_begin, is_end) for is_begin in (False, True) for is_end in (False, True))
        return {ends: pattern == self._query.pattern and ere.is_empty_at(tree, *ends) for ends in at_ends}

    def matches(self, text: bytes, spans: Spans, has_end: bool = True) -> Spans:
        """All matches of a line, of those that are not empty. One that is empty is not right behind another; and not at the end of a
        text, if the line has no line feed there. In a very long line only those at its ends are known."""
        if not any(self._can_be.values()):
            return spans
        is_inside = self._can_be[False, False] and len(text) <= _LONG
        places = {place for place in (range(len(text) + 1) if is_inside else (0, len(text))) if self._is_at(text, place)}
        if not has_end and text:
            places.discard(len(text))
        for begin, end in spans:
            places.difference_update(range(begin, end + 1) if is_inside else [place for place in places if begin <= place <= end])
        return tuple(sorted([*spans, *((place, place) for place in places)]))

    def column(self, text: bytes, spans: Spans) -> int:
        """Where the first match begins, from 1."""
        first = spans[0][0] if spans else len(text)
        if any(self._can_be.values()):
            first = next((place for place in (range(first) if self._can_be[False, False] else (0,)) if self._is_at(text, place)), first)
        return first + 1

    def _is_at(self, text: bytes, place: int) -> bool:
        if not self._can_be[place == 0, place == len(text)]:
            return False
        if self._query.whole_lines:
            return not text
        return not (self._query.whole_words and _WORD.search(text[max(place - 1, 0) : place + 1]))


class Reading:
    """Reads rows as they come.

    has: tells which documents are searched; by default all.
    places: for each row that is found its spans and its column, where another search has them.
    """

    def __init__(
        self,
        piece: Piece,
        view: View,
        has: Callable[[bytes], bool] = lambda name: True,
        places: Iterator[tuple[Spans | None, int | None]] | None = None,
    ) -> None:
        self._piece = piece
        self._view = view
        self._has = has
        self._places = places
        self._rows = WholeRows()
        self._quoted, self._shown, self._is_wanted = b"", b"", False

    def take(self, data: bytes) -> Iterator[Row]:
        """The rows that end in a piece of them. A gap is left out."""
        for found in _ROWS[self._view].finditer(self._rows.take(data)):
            quoted, number, kind, column, places, text = found.groups()
            if quoted != self._quoted:
                name = unquote(quoted)
                self._quoted, self._shown, self._is_wanted = quoted, self._piece.displayed(name), self._has(name)
            is_found = kind == b":"
            spans = spans_of(places) if self._view is View.SPANS else None
            at = int(column) if column else None
            if is_found and self._places:
                spans, at = next(self._places)
            line = int(number) + self._piece.line
            if self._is_wanted and self._piece.first <= line and (line <= self._piece.last or not self._piece.last):
                yield Row(self._shown, line, is_found, text, spans, at)


def rows_of(reading: Reading, file: IO[bytes], block: int) -> Iterator[Row]:
    """The rows of an answer in a file, of which so many bytes are read at a time."""
    while data := file.read(block):
        yield from reading.take(data)


def places_of(rows: IO[bytes], view: View) -> Iterator[tuple[Spans | None, int | None]]:
    """The spans or the columns of the rows of an answer with the ones or the others."""
    for row in rows:
        found = _ROWS[view].match(row)
        assert found
        yield (spans_of(found[5]), None) if view is View.SPANS else (None, int(found[4]))


class Around:
    """Keeps, of rows, those that were found, at most so many of each file, and the lines before and after them."""

    def __init__(self, before: int, after: int, most: int | None) -> None:
        self._before, self._after, self._most = before, after, most
        self._name: bytes | None = None
        self._count = 0
        self._last_found: int | None = None
        self._pending: list[Row] = []

    def has_all(self, last: int) -> bool:
        """Whether no line behind this one is shown."""
        return self._most is not None and self._count >= self._most and last >= (self._last_found or 0) + self._after

    def take(self, row: Row) -> list[Row]:
        """The rows to show once this one has come."""
        if row.name != self._name:
            self._name, self._count, self._last_found = row.name, 0, None
            self._pending.clear()
        has_all = self._most is not None and self._count >= self._most
        if row.is_found and not has_all:
            self._count += 1
            self._last_found = row.number
            shown = [*(one for one in self._pending if one.number >= row.number - self._before), row]
            self._pending.clear()
            return shown
        if self._last_found is not None and row.number - self._last_found <= self._after:
            return [row._replace(is_found=False)]
        if self._before and not has_all:
            self._pending = [*self._pending[-self._before + 1 :], row] if self._before > 1 else [row]
        return []


class Colours:
    """The colours of parts, as rg has them."""

    _NAMES = ("black", "red", "green", "yellow", "blue", "magenta", "cyan", "white")
    _STYLES = {"bold": b"1", "intense": b"1", "underline": b"4", "nobold": b"", "nointense": b"", "nounderline": b""}

    def __init__(self, is_on: bool, specs: list[str]) -> None:
        self.is_on = is_on
        self._codes = {"path": [b"35"], "line": [b"32"], "column": [], "match": [b"1", b"31"]}
        for spec in specs:
            kind, _, rest = spec.partition(":")
            if kind in self._codes:
                self._codes[kind] = self._with(self._codes[kind], *rest.partition(":")[::2])

    def _with(self, codes: list[bytes], what: str, value: str) -> list[bytes]:
        if what == "none":
            return []
        if what == "style":
            bold = {"bold": b"1", "nobold": b"1", "intense": b"1", "nointense": b"1"}.get(value, b"4")
            kept = [code for code in codes if code != bold]
            return [self._STYLES[value], *kept] if self._STYLES.get(value) else kept
        if value in self._NAMES:
            first = 30 if what == "fg" else 40
            kept = [code for code in codes if not (len(code) == 2 and first <= int(code) < first + 8)]
            return [*kept, b"%d" % (first + self._NAMES.index(value))]
        return codes

    def paint(self, text: bytes, kind: str) -> bytes:
        """The text in its colour."""
        if not self.is_on:
            return text
        return b"\x1b[0m" + b"".join(b"\x1b[%sm" % code for code in self._codes[kind]) + text + b"\x1b[0m"


class Lines:
    """Writes rows as lines: with the path in each or above them, in colours, whole, or each match alone."""

    def __init__(
        self,
        given: dict[str, Any],
        has_names: bool,
        is_terminal: bool,
        colours: Colours,
        empty: Empty,
        has_context: bool,
        has_shown: bool,
        offsets: Offsets | None = None,
    ) -> None:
        self._empty = empty
        self._offsets = offsets
        self._heading = bool(given.get("heading")) and has_names
        self._has_names = has_names and not self._heading
        self._has_numbers = given.get("line_number", True)
        self._has_columns = bool(given.get("column"))
        self._each = bool(given.get("vimgrep"))
        self._only = bool(given.get("only_matching"))
        self._shortens = shortens(given, is_terminal)
        self._most = given.get("max_columns", LONGEST if is_terminal else 0)
        self._trims = bool(given.get("trim"))
        self._null = bool(given.get("null"))
        self._colours = colours
        self._show: Callable[[bytes], bytes] = shown_controls if is_terminal else bytes
        self._separator = given.get("separator", "--").encode(errors="surrogateescape")
        self._has_context = has_context
        # a place that no row has, if another tree has some
        self._last: tuple[bytes, int] | None = (b"", 0) if has_shown else None

    def write(self, row: Row) -> bytes:
        """What is written for a row."""
        parts = []
        if self._heading and (self._last is None or self._last[0] != row.name):
            parts.append(b"\n" * (self._last is not None) + self._path(row.name) + (b"\0" if self._null else b"\n"))
        elif self._has_context and self._last and self._last != (row.name, row.number - 1):
            parts.append(self._separator + b"\n")
        if self._offsets and (self._last is None or self._last[0] != row.name):
            self._offsets.begin(row.name)
        self._last = (row.name, row.number)
        return b"".join([*parts, *(self._matches(row) if row.is_found and (self._only or self._each) else [self._line(row, row.column, None)])])

    def _path(self, name: bytes) -> bytes:
        return self._colours.paint(self._show(name), "path")

    def _matches(self, row: Row) -> Iterator[bytes]:
        spans = row.spans or ()
        # as for grep, -o shows no match that is empty
        each = spans if self._only else self._empty.matches(row.text, spans) or ((0, 0),)
        is_repeated = self._each and not self._only and len(row.text) * len(each) > _MOST_REPEATED
        for span in each:
            yield self._line(row._replace(spans=(span,)) if self._each else row, span[0] + 1, span, is_repeated)

    def _line(self, row: Row, column: int | None, only: tuple[int, int] | None, is_repeated: bool = False) -> bytes:
        separator = b":" if row.is_found else b"-"
        parts = []
        if self._has_names:
            parts.append(self._path(row.name) + (b"\0" if self._null else separator))
        if self._has_numbers:
            parts.append(self._colours.paint(b"%d" % row.number, "line") + separator)
        if self._has_columns and row.is_found:
            if column is None:
                column = self._empty.column(row.text, row.spans) if row.spans is not None else 1
            parts.append(self._colours.paint(b"%d" % column, "column") + separator)
        if self._offsets:
            at = self._offsets.before + self._offsets.place(row.number) + (only[0] if only and self._only else 0)
            parts.append(self._colours.paint(b"%d" % at, "column") + separator)
        parts.append(self._text(row, only if self._only else None, is_repeated))
        return b"".join(parts) + b"\n"

    def _text(self, row: Row, only: tuple[int, int] | None, is_repeated: bool) -> bytes:
        text, spans = row.text, row.spans if row.is_found and row.spans else ()
        if only:
            text, spans = text[only[0] : only[1]], ((0, only[1] - only[0]),)
        elif self._most and len(text) + 1 > self._most and not self._shortens:
            return b"[Omitted long %s line]" % (b"matching" if row.is_found else b"context")
        if self._trims:
            text, spans = _trimmed(text, spans)
        if is_repeated or self._shortens and self._most:
            parts = shortened(text, spans, self._most or LONGEST)
        elif self._colours.is_on and spans:
            parts = Hit(row.name, row.number, text, None, spans).parts()
        else:
            return self._show(text)
        return b"".join(self._colours.paint(self._show(part), "match") if at % 2 else self._show(part) for at, part in enumerate(parts))


def _trimmed(text: bytes, spans: Spans) -> tuple[bytes, Spans]:
    """A text without the white space at its begin, and the spans in what is left."""
    trimmed = text.lstrip()
    gone = len(text) - len(trimmed)
    return trimmed, tuple((max(begin - gone, 0), end - gone) for begin, end in spans if end > gone)


def shortens(given: dict[str, Any], is_terminal: bool) -> bool:
    """Whether of a long line what is around its matches is shown: at a terminal, unless -M says how long a line may be, or with -M where
    that is asked for."""
    return bool(given.get("preview")) if "max_columns" in given else is_terminal
