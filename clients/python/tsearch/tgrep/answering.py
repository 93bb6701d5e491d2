"""Answers a call: the searches that it takes, and what is written for them."""

from __future__ import annotations

import ast
import asyncio
import collections
import contextlib
import dataclasses
import functools
import itertools
import math
import os
import tempfile
import time
from collections.abc import AsyncIterator, Callable, Iterable, Iterator
from typing import IO, Any, Protocol

from ..errors import Cancelled, Ended, Error, OptionRefused, PatternRefused
from ..query import Query
from ..session import MOST_TRIES
from . import asking, forms
from .arguments import Refused
from .asking import Filter, Piece
from .hints import hint
from .json_form import JsonLines
from .offsets import Offsets
from .text import Text, UnreadableText
from .tree import Documents, find
from .typed_parts import Untaken

_SUMMED = 10
# In bytes: so much of rows that wait for others is in memory, and so much of a file is read at a time.
_IN_MEMORY = 1 << 22
_BLOCK = 1 << 18
# What makes a file no document, and is no news to who searches text; and what is in each reason that is a limit of documents.
_NO_TEXT = "binary"
_TOO_LONG = "too long"
# What is said in place of a reason.
_SAID = {"body too long": "over 64 MiB, and not named as a PATH"}


class Reply(Protocol):
    """Where an answer is written."""

    def output(self, data: bytes) -> None:
        """Writes to standard output."""

    def error(self, data: bytes) -> None:
        """Writes to standard error."""


@dataclasses.dataclass
class Part:
    """A piece of what is searched, the documents that it is a piece of, and the working folder, if it is among them.

    filter: which documents of the piece are searched, once that is known.
    text: what it is read from block by block, if it is.
    is_typed: whether it is a file whose path was typed.
    """

    piece: Piece
    documents: Documents
    here: bytes | None = None
    filter: Filter = Filter(())
    text: Text | None = None
    is_typed: bool = False

    def has(self, name: bytes) -> bool:
        """Whether a document, or what is none, is searched."""
        return self.filter.has(name, self.documents.size(name) if self.filter.largest is not None else 0)


def _is_limit(reason: str) -> bool:
    return _TOO_LONG in reason


class Call:
    """A call, once it is known in which documents it searches."""

    def __init__(self, request: dict[str, Any], reply: Reply) -> None:
        self.given: dict[str, Any] = request["given"]
        self._reply = reply
        self._is_terminal: bool = request["terminal"]
        self._began = time.monotonic()
        self._has_names: bool = self.given.get("filename", not request["is_single"] or bool(self.given.get("vimgrep")))
        is_coloured = self.given.get("color") == "always" or (self.given.get("color", "auto") == "auto" and self._is_terminal)
        self._colours = forms.Colours(is_coloured, self.given.get("colors", []))
        self._totals = forms.Totals()
        self._show = self.given.get("show", "lines")
        self._is_found = self._has_errors = False
        self._json: JsonLines | None = None
        self._offsets: Offsets | None = None
        # of one part: how many lines or matches each path has
        self._counts: dict[bytes, int] = {}
        self._kept = forms.Around(0, 0, None)
        # how many lines or files may still be shown
        self._left: int | None = self.given.get("limit")
        self._is_last: bool = request["is_last"]
        self._has_shown = False
        self._searched_before = self._bytes_before = 0
        self._before = ast.literal_eval(request["carried"] or "{}")
        self._take_over()

    @functools.cached_property
    def _query(self) -> Query:
        """The query for all documents. `PatternRefused` if a pattern cannot be translated."""
        return asking.query_of(self.given)

    @functools.cached_property
    def _empty(self) -> forms.Empty:
        return forms.Empty(self._query)

    def _take_over(self) -> None:
        """Goes on where the answer for another tree has ended."""
        if self._before:
            self._left, self._has_shown, self._searched_before, self._bytes_before, _ = self._before["call"]
            totals = self._totals
            totals.lines, totals.matches, totals.files, totals.written = self._before["totals"]

    @property
    def carried(self) -> str:
        """What is left to the answer for the next tree of the same call."""
        totals = self._totals
        json_bytes = self._json.bytes_so_far if self._show == "json" and self._json else (0, 0)
        call = (self._left, self._has_shown, self._searched_before, self._bytes_before, json_bytes)
        return ascii({"call": call, "totals": (totals.lines, totals.matches, totals.files, totals.written)})

    async def answer(self, parts: list[Part]) -> int:
        """Searches the parts, one after the other, and gives the status. A pattern that is refused is shown, and is an error."""
        try:
            with_time = asyncio.timeout(self.given["search_ms"] / 1_000 if "search_ms" in self.given else None)
            async with with_time:
                return await self._answer(parts)
        except PatternRefused as refused:
            self._complain(refused)
        except TimeoutError:
            self._say("too slow: given up")
        except (Refused, OptionRefused, Error) as error:
            if isinstance(error, (Cancelled, Ended)):
                raise
            self._say(str(error))
        return 2

    async def _answer(self, parts: list[Part]) -> int:
        if parts:
            await self._check_patterns(parts[0].documents)
        for part in parts:
            part.filter = asking.filter_of(self.given, part.piece, part.here)
        if self._show == "json" or self.given.get("byte_offset"):
            self._offsets = Offsets(self._body_of(parts))
        if self._show == "json" and self._offsets:
            before = self._before["call"][4] if self._before else (0, 0)
            self._json = JsonLines(self._offsets, self._totals, self._empty, self._began, before)
        has_context = self._around is not None
        lines = forms.Lines(
            self.given, self._has_names, self._is_terminal, self._colours, self._empty, has_context, self._has_shown, self._offsets
        )
        for part in parts:
            if not self._has_enough:
                await self._search(part, lines)
        return self._end(parts)

    @property
    def _has_enough(self) -> bool:
        """Whether nothing more is shown, whatever is found."""
        is_known = self._is_found and bool(self.given.get("quiet")) and not self.given.get("stats") and self._show != "other names"
        return is_known or self._left == 0

    @property
    def _is_of_names(self) -> bool:
        return self._show in ("names", "counts", "other names", "match counts")

    async def _search(self, part: Part, lines: forms.Lines) -> None:
        """Searches a part, which is one piece, or a text in blocks."""
        self._counts = {}
        after, before = (self.given.get(key, self.given.get("context", 0)) for key in ("after", "before"))
        self._kept = forms.Around(before, after, self.given.get("max_count"))
        if part.text is None:
            if self._offsets:
                self._offsets.look_at(part.piece.shown, None)
            await self._search_piece(part, lines)
        elif self.given.get("files"):
            await self._search_piece(part, lines)
        else:
            await self._search_text(part, part.text, lines)
        if self._is_of_names and not self.given.get("files"):
            self._show_names(part)

    async def _search_text(self, part: Part, text: Text, lines: forms.Lines) -> None:
        try:
            async with contextlib.aclosing(text.windows(self._around or 0)) as windows:
                async for window in windows:
                    piece = dataclasses.replace(part.piece, line=window.line, first=window.first, last=window.last)
                    if self._offsets:
                        self._offsets.look_at(piece.shown, window[:3])
                    await self._search_piece(dataclasses.replace(part, piece=piece), lines)
                    if self._has_enough or self._has_all_of_text(window.last):
                        break
        except UnreadableText as error:
            text.left_out[text.name] = str(error)

    def _has_all_of_text(self, last: int) -> bool:
        """Whether nothing behind this line of a text is shown."""
        if not self._is_of_names:
            return self._kept.has_all(last)
        is_known = self._show in ("names", "other names") and bool(self._counts)
        return is_known or sum(self._counts.values()) >= self.given.get("max_count", math.inf)

    async def _search_piece(self, part: Part, lines: forms.Lines) -> None:
        wanted, unwanted = part.filter.sent
        query = dataclasses.replace(self._query, names=wanted, not_names=unwanted)
        if self.given.get("files"):
            self._list(part)
        elif self.given.get("quiet") and self._show != "other names" and not self.given.get("stats"):
            await self._only_status(part, query)
        elif self._is_of_names:
            await self._names(part, query)
        else:
            await self._rows(part, query, lines)

    async def _check_patterns(self, documents: Documents) -> None:
        """`PatternRefused` if one of several patterns, or one of names, is none by itself. No document is searched."""
        names = {key: tuple(self.given[key]) for key in ("names", "not_names") if self.given.get(key)}
        if names:
            await find(documents, Query.of(b"$a", header_only=True, limit=1, **names))
        for pattern in asking.single_patterns(self.given):
            await find(documents, Query(pattern, names=(b"$a",), header_only=True, limit=1))

    @property
    def _around(self) -> int | None:
        """How many lines around are needed; None if none are asked for. With 0, gaps are shown all the same."""
        return max((self.given[key] for key in ("context", "before", "after") if key in self.given), default=None)

    def _end(self, parts: list[Part]) -> int:
        if self.given.get("stats"):
            sizes = [size for part in parts for size in self._searched(part).values()]
            self._searched_before += len(sizes)
            self._bytes_before += sum(sizes)
        if self._show == "json" and self._json:
            self._reply.output(self._json.end(self._is_last))
        elif self.given.get("stats") and self._is_last:
            self._reply.output(self._stats())
        is_whole = self._name_left_out(parts)
        if self._has_errors and not (self._is_found and self.given.get("quiet")):
            return 2
        return 0 if self._is_found else 1 if is_whole else 2

    # What is left out.

    def _name_left_out(self, parts: list[Part]) -> bool:
        """Names files that are text, or may be, and were not searched. Whether there were none."""
        typed, others, is_whole = {}, {}, True
        for part in parts:
            for name, reason in part.documents.left_out.items():
                is_missed = reason != _NO_TEXT or bool(self.given.get("text")) or part.is_typed
                is_told = (is_missed or self.given.get("left_out")) and not (self.given.get("files") and _is_limit(reason))
                if is_told and part.has(name):
                    (typed if part.is_typed else others)[part.piece.displayed(name)] = reason
                    is_whole &= not is_missed
                    self._has_errors |= reason != _NO_TEXT and not _is_limit(reason)
        if self.given.get("quiet") and self._is_found:
            typed, others = ({name: reason for name, reason in found.items() if not _is_limit(reason)} for found in (typed, others))
        if not self.given.get("no_messages"):
            self._tell_left_out(typed, others)
        return is_whole

    def _tell_left_out(self, typed: dict[bytes, str], others: dict[bytes, str]) -> None:
        """Names each file that was typed, or that could not be read; those that are too long are summed up."""
        names_all = bool(self.given.get("left_out")) or self._show == "other names"
        faults = {name: reason for name, reason in others.items() if not _is_limit(reason)}
        limits = {name: reason for name, reason in others.items() if _is_limit(reason)}
        for found, most in (typed, len(typed)), (faults, _SUMMED), (limits, 1):
            if names_all or len(found) <= most:
                for name, reason in found.items():
                    self._say(f"{os.fsdecode(name)}: {_SAID.get(reason, reason)}, so not searched")
            else:
                reasons = collections.Counter(found.values())
                shown = ", ".join(f"{count:,} {_SAID.get(reason, reason)}" for reason, count in sorted(reasons.items()))
                self._say(f"{len(found):,} files are not searched: {shown} (--left-out names them, and grep finds what is in them)")

    # Names.

    def _searched(self, part: Part) -> dict[bytes, int]:
        """The documents of a part, with their lengths."""
        if part.piece.is_file:
            sizes, name = part.documents.sizes, part.piece.under
            return {name: sizes[name]} if name in sizes else {}
        return {name: size for name, size in part.documents.sizes.items() if part.filter.has(name, size)}

    def _list(self, part: Part) -> None:
        left_out = (name for name, reason in part.documents.left_out.items() if reason == _NO_TEXT or _is_limit(reason))
        names = [name for name in {*part.documents.sizes, *left_out} if part.has(name)]
        self._write_names(part.piece.displayed(name) for name in sorted(names))
        self._is_found |= bool(names)

    def _write_names(self, names: Iterable[bytes]) -> None:
        end = b"\0" if self.given.get("null") else b"\n"
        show = forms.shown_controls if self._is_terminal else bytes
        found = b"".join(self._colours.paint(show(name), "path") + end for name in names)
        if found:
            self._reply.output(found)

    async def _names(self, part: Part, query: Query) -> None:
        """Finds the paths to show, and their numbers."""
        if self._show == "match counts":
            counts = await self._match_counts(part, query)
        else:
            # a document of which only the name is shown is looked at up to its first line
            is_counted = self._show == "counts"
            query = dataclasses.replace(query, counts=is_counted, names_only=not is_counted, limit=self._limit_of(part))
            answer = await find(part.documents, query)
            counts = answer.counts() if is_counted else dict.fromkeys(answer.names(), 1)
        for name, count in counts.items():
            if part.filter.is_sent or part.has(name):
                shown = part.piece.displayed(name)
                self._counts[shown] = self._counts.get(shown, 0) + count

    def _limit_of(self, part: Part) -> int | None:
        """The limit that a search is sent with: none if some of its rows are left out here."""
        return self._left if part.filter.is_sent else None

    def _show_names(self, part: Part) -> None:
        """Shows the paths that were found, or the others."""
        counts, most = self._counts, self.given.get("max_count")
        if self._show == "other names":
            searched = sorted(part.piece.displayed(name) for name in self._searched(part))
            counts = {name: 0 for name in searched if name not in counts}
        elif most is not None:
            counts = {name: min(count, most) for name, count in counts.items() if most}
        if self._left is not None:
            counts = dict(itertools.islice(counts.items(), self._left))
            self._left -= len(counts)
        self._is_found |= bool(counts)
        if self.given.get("quiet"):
            return
        if self._show in ("names", "other names"):
            self._write_names(counts)
        else:
            self._write_counts(counts)

    async def _match_counts(self, part: Part, query: Query) -> dict[bytes, int]:
        query = dataclasses.replace(query, spans=not query.invert)
        reading = forms.Reading(dataclasses.replace(part.piece, is_file=False, shown=part.piece.under), query.view)
        counts: dict[bytes, int] = {}

        def take(data: bytes) -> None:
            for row in reading.take(data):
                counts[row.name] = counts.get(row.name, 0) + (1 if query.invert else len(self._empty.matches(row.text, row.spans or ())))

        await part.documents.session.pass_on(query, take)
        return {name: count for name, count in counts.items() if count}

    def _write_counts(self, counts: dict[bytes, int]) -> None:
        show = forms.shown_controls if self._is_terminal else bytes
        end = b"\0" if self.given.get("null") else b":"
        paths = (self._colours.paint(show(name), "path") + end if self._has_names else b"" for name in counts)
        if counts:
            self._reply.output(b"".join(path + b"%d\n" % count for path, count in zip(paths, counts.values())))

    # Lines.

    async def _rows(self, part: Part, query: Query, lines: forms.Lines) -> None:
        if self.given.get("max_count") == 0:
            return
        if self.given.get("only_matching") and query.invert:
            await self._only_status(part, query)
            return
        context = self._around
        needs_spans = not query.invert and (
            self._colours.is_on
            or self._show == "json"
            or forms.shortens(self.given, self._is_terminal)
            or any(self.given.get(key) for key in ("only_matching", "vimgrep", "stats"))
        )
        # where spans are known, columns are too
        needs_column = bool(self.given.get("column")) and not query.invert and not needs_spans
        if self.given.get("passthru"):
            await self._read_all(part, dataclasses.replace(query, spans=needs_spans, column=needs_column), lines)
            return
        is_bounded = part.text is None or context is None
        query = dataclasses.replace(query, limit=self._limit_of(part) if is_bounded else None, context=context)
        if context is not None and (needs_spans or needs_column):
            await self._read_both(part, query, lines, needs_spans)
            return
        query = dataclasses.replace(query, spans=needs_spans, column=needs_column)
        if not needs_spans and self._passes() and part.filter.is_sent and (part.text is None or context is None):
            await self._pass_on(part, query)
            return
        reading = forms.Reading(part.piece, query.view, part.has)

        def take(data: bytes) -> None:
            self._write(itertools.chain.from_iterable(map(self._kept.take, reading.take(data))), lines)

        await part.documents.session.pass_on(query, take)

    async def _only_status(self, part: Part, query: Query) -> None:
        """Whether a line is found."""
        if part.filter.is_sent:
            self._is_found |= (await find(part.documents, dataclasses.replace(query, header_only=True, limit=1))).count > 0
        else:
            self._is_found |= any(map(part.has, (await find(part.documents, dataclasses.replace(query, names_only=True))).names()))

    def _passes(self) -> bool:
        """Whether rows need not be read."""
        return (
            not self._colours.is_on
            and not forms.shortens(self.given, self._is_terminal)
            and not any(self.given.get(key) for key in ("heading", "only_matching", "vimgrep", "max_columns", "stats", "max_count", "trim", "byte_offset"))
            and self._show == "lines"
            and len({self.given.get(key, self.given.get("context", 0)) for key in ("before", "after")}) == 1
        )

    async def _pass_on(self, part: Part, query: Query) -> None:
        passing = forms.Passing(
            part.piece, self.given, self._has_names, self._is_terminal, query.context is not None, part.documents.has_quoted
        )

        is_apart = query.context is not None and self._has_shown
        separator = b"" if not is_apart else self.given.get("separator", "--").encode(errors="surrogateescape") + b"\n"

        def take(data: bytes) -> None:
            nonlocal separator
            if shown := passing.take(data):
                self._has_shown = True
                self._reply.output(separator + shown)
                separator = b""

        answer = await part.documents.session.pass_on(query, take)
        self._is_found |= answer.count > 0
        if self._left is not None:
            self._left -= answer.count

    async def _read_both(self, part: Part, query: Query, lines: forms.Lines, needs_spans: bool) -> None:
        """Shows what takes two searches: lines around those that are found, and places in these."""
        other = dataclasses.replace(query, context=None, spans=needs_spans, column=not needs_spans)
        async with self._both(part, other, query) as (places, rows):
            reading = forms.Reading(part.piece, query.view, part.has, forms.places_of(places, other.view))
            while data := rows.read(_BLOCK):
                self._write(itertools.chain.from_iterable(map(self._kept.take, reading.take(data))), lines)
                await asyncio.sleep(0)

    async def _read_all(self, part: Part, query: Query, lines: forms.Lines) -> None:
        """Shows all lines, of which a search of its own tells which are found."""
        query = dataclasses.replace(query, limit=None, context=None)
        every = Query(b"", names=query.names, not_names=query.not_names)
        async with self._both(part, query, every) as (places, rows):
            found = forms.rows_of(forms.Reading(part.piece, query.view, part.has), places, _BLOCK)
            after = next(found, None)
            reading = forms.Reading(part.piece, every.view, part.has)
            while data := rows.read(_BLOCK):
                shown = []
                for row in reading.take(data):
                    is_found = after is not None and (row.name, row.number) == (after.name, after.number)
                    shown.append(after if after and is_found else row._replace(is_found=False))
                    after = next(found, None) if is_found else after
                self._write(iter(shown), lines)
                await asyncio.sleep(0)

    @contextlib.asynccontextmanager
    async def _both(self, part: Part, first: Query, second: Query) -> AsyncIterator[tuple[IO[bytes], IO[bytes]]]:
        """The rows of two searches in the same files. What does not go into a little memory waits in files."""
        session = part.documents.session
        with tempfile.SpooledTemporaryFile(_IN_MEMORY) as one, tempfile.SpooledTemporaryFile(_IN_MEMORY) as other:
            for _ in range(MOST_TRIES):
                for file in one, other:
                    file.seek(0)
                    file.truncate()
                answers = await session.pass_on(first, one.write), await session.pass_on(second, other.write)
                if (answers[0].life, answers[0].version) == (answers[1].life, answers[1].version):
                    break
            else:
                raise Error("the files change too often for two searches")
            for file in one, other:
                file.seek(0)
            yield one, other

    def _write(self, rows: Iterator[forms.Row], lines: forms.Lines) -> None:
        form = self._json or lines
        parts = []
        for row in rows:
            if row.is_found:
                if self._left == 0:
                    break
                self._left = None if self._left is None else self._left - 1
                self._totals.add(row, self._matches_of(row))
                self._is_found = True
            parts.append(form.write(row))
        data = b"".join(parts) if not self.given.get("quiet") else b""
        self._totals.written += len(data)
        if data:
            self._has_shown = True
            self._reply.output(data)

    def _matches_of(self, row: forms.Row) -> int:
        """How many matches a line has, if that is shown somewhere. The form of JSON counts them itself."""
        is_told = self.given.get("stats") and not self._json
        return len(self._empty.matches(row.text, row.spans)) if is_told and row.spans is not None else 0

    def _body_of(self, parts: list[Part]) -> Callable[[bytes], bytes]:
        def body_of(shown: bytes) -> bytes:
            for part in parts:
                piece = part.piece
                if piece.is_file and shown == piece.shown:
                    return part.documents.body(piece.under)
                if not piece.is_file and shown.startswith(piece.shown):
                    return part.documents.body(piece.under + shown.removeprefix(piece.shown))
            return b""

        return body_of

    def _stats(self) -> bytes:
        seconds = time.monotonic() - self._began
        totals = self._totals
        rows = (
            f"{totals.matches} matches",
            f"{totals.lines} matched lines",
            f"{totals.files} files contained matches",
            f"{self._searched_before} files searched",
            f"{totals.written} bytes printed",
            f"{self._bytes_before} bytes searched",
            f"{seconds:.6f} seconds spent searching",
            f"{seconds:.6f} seconds",
        )
        return ("\n" + "\n".join(rows) + "\n").encode()

    # Messages.

    def _say(self, text: str) -> None:
        self._reply.error(b"tgrep: " + forms.shown_controls(text.encode(errors="surrogateescape")).replace(b"\n", b"^J") + b"\n")

    def _complain(self, refused: PatternRefused) -> None:
        """Says why a pattern is refused, shows where, and what to write instead."""
        if not isinstance(refused, Untaken) and not refused.number:
            refused = asking.as_typed(self.given, refused)
        instead = refused.instead if isinstance(refused, Untaken) else hint(refused)
        of = "pattern of paths: " if refused.number else ""
        self._say(f"{of}{refused.reason} at {refused.offset}{': ' + instead if instead else ''}")
        if len(refused.pattern) <= 200:
            before = refused.pattern[: refused.offset].decode(errors="replace")
            self._reply.error(b"  %s\n  %s^\n" % (forms.shown_controls(refused.pattern), b" " * len(before)))
