"""Writes rows as JSON lines, in the form of rg (`rg --help`, `--json`)."""

from __future__ import annotations

import base64
import json
import time
from typing import Any

from .forms import Empty, Row, Totals
from .offsets import Offsets


class JsonLines:
    """Writes the messages begin, match, context and end for each file, and a summary."""

    def __init__(self, offsets: Offsets, totals: Totals, empty: Empty, began: float, before: tuple[int, int] = (0, 0)) -> None:
        self._offsets = offsets
        self._totals = totals
        self._empty = empty
        self._began = began
        self._name: bytes | None = None
        self._lines = self._matches = self._written = 0
        self._all_written, self._all_searched = before

    def write(self, row: Row) -> bytes:
        """What is written for a row."""
        parts = []
        if row.name != self._name:
            parts.append(self._end())
            parts.append(self._begin(row.name))
        parts.append(self._row(row))
        self._written += len(parts[-1])
        return b"".join(parts)

    @property
    def bytes_so_far(self) -> tuple[int, int]:
        """How many bytes were written and searched."""
        return self._all_written, self._all_searched

    def end(self, is_last: bool = True) -> bytes:
        """What is written after the last row: the summary if no other tree follows. Like rg's it is about the files that are shown."""
        last = self._end()
        if not is_last:
            return last
        elapsed = _elapsed(self._began)
        totals = {
            "elapsed": elapsed,
            "searches": self._totals.files,
            "searches_with_match": self._totals.files,
            "bytes_searched": self._all_searched,
            "bytes_printed": self._all_written,
            "matched_lines": self._totals.lines,
            "matches": self._totals.matches,
        }
        return last + _message("summary", {"elapsed_total": elapsed, "stats": totals})

    def _begin(self, name: bytes) -> bytes:
        self._name = name
        self._offsets.begin(name)
        self._lines = self._matches = self._written = 0
        return _message("begin", {"path": _data(name)})

    def _end(self) -> bytes:
        if self._name is None:
            return b""
        searched = self._offsets.before + len(self._offsets.body)
        stats = {
            "elapsed": _elapsed(self._began),
            "searches": 1,
            "searches_with_match": 1,
            "bytes_searched": searched,
            "bytes_printed": self._written,
            "matched_lines": self._lines,
            "matches": self._matches,
        }
        self._all_written += self._written
        self._all_searched += searched
        self._offsets.end()
        name, self._name = self._name, None
        return _message("end", {"path": _data(name), "binary_offset": None, "stats": stats})

    def _row(self, row: Row) -> bytes:
        place, body = self._offsets.place(row.number), self._offsets.body
        ending = b"" if place + len(row.text) >= len(body) and not body.endswith(b"\n") else b"\n"
        spans = self._empty.matches(row.text, row.spans, bool(ending)) if row.is_found and row.spans is not None else ()
        self._lines += row.is_found
        self._matches += len(spans)
        self._totals.matches += len(spans)
        matches = [{"match": _data(row.text[begin:end]), "start": begin, "end": end} for begin, end in spans]
        content = {
            "path": _data(row.name),
            "lines": _data(row.text + ending),
            "line_number": row.number,
            "absolute_offset": self._offsets.before + place,
            "submatches": matches,
        }
        return _message("match" if row.is_found else "context", content)


def _message(kind: str, data: dict[str, Any]) -> bytes:
    return json.dumps({"type": kind, "data": data}, ensure_ascii=False, separators=(",", ":")).encode() + b"\n"


def _data(data: bytes) -> dict[str, str]:
    """Text, or base64 of what is no UTF-8."""
    try:
        return {"text": data.decode()}
    except UnicodeDecodeError:
        return {"bytes": base64.b64encode(data).decode()}


def _elapsed(began: float) -> dict[str, Any]:
    seconds = time.monotonic() - began
    return {"secs": int(seconds), "nanos": int(seconds % 1 * 1e9), "human": f"{seconds:.6f}s"}
