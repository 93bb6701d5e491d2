"""What `--diff` shows: the lines that a patch adds, removes and leaves."""

from __future__ import annotations

import base64
import json
import os
from collections.abc import Callable, Iterator
from typing import Any

from .. import aio
from ..review import ADDED, LEFT, REMOVED, File, Line
from . import asking, forms
from .answering import Call, Part, Reply
from .arguments import Refused
from .asking import Piece

# What the form has no place for.
_NOT_SHOWN = {
    "context": "-C", "before": "-B", "after": "-A", "only_matching": "-o", "vimgrep": "--vimgrep", "stats": "--stats", "files": "--files",
    "heading": "--heading", "max_columns": "-M", "trim": "--trim", "byte_offset": "-b", "passthru": "--passthru", "largest": "--max-filesize", "text": "-a", "left_out": "--left-out",
}  # fmt: skip
_SHOWS = {"lines": "", "names": "", "counts": "", "json": "", "other names": "-L", "match counts": "--count-matches"}
# Why a file is left out that has no text.
_NO_NEWS = ("binary", "symbolic link", "submodule", "no file")


class PatchCall(Call):
    """A call with `--diff`, once its review is open."""

    def __init__(self, request: dict[str, Any], reply: Reply, review: aio.Review, pieces: list[tuple[Piece, bytes | None]]) -> None:
        super().__init__(request, reply)
        self._review = review
        self._pieces = pieces
        self._shown: Callable[[bytes], bytes] = forms.shown_controls if self._is_terminal else bytes
        self._path_end = b"\0" if self.given.get("null") else b":"

    async def _answer(self, parts: list[Part]) -> int:
        given = self.given
        unfit = [option for key, option in _NOT_SHOWN.items() if given.get(key)] + [_SHOWS[self._show]] * bool(_SHOWS[self._show])
        if unfit:
            raise Refused(f"--diff shows lines of two commits, for which there is no {unfit[0]}")
        options = {key: getattr(self._query, key) for key in ("ignore_case", "literal", "whole_words", "whole_lines", "invert")}
        for pattern in asking.single_patterns(given):
            await self._review.find(pattern, names="$a")
        filters = [(piece, asking.filter_of(given, piece, here)) for piece, here in self._pieces]
        found = await self._review.find(self._query.pattern, **options)
        self._tell_left_out()
        for file in found.files:
            shown = next((piece.displayed(file.name) for piece, its in filters if its.has(file.name, 0)), None)
            if shown is not None and self._left != 0:
                self._write_file(shown, file)
        return 0 if self._is_found else 1

    def _write_file(self, shown: bytes, file: File) -> None:
        is_of_lines = self._show in ("lines", "json")
        lines = file.lines[: self.given.get("max_count")]
        lines = lines[: self._left] if is_of_lines else lines
        if lines:
            self._is_found = True
            self._left = None if self._left is None else self._left - (len(lines) if is_of_lines else 1)
            if not self.given.get("quiet"):
                self._reply.output(b"".join(self._written(shown, file, lines)))

    def _tell_left_out(self) -> None:
        for name, reason in self._review.patch.left_out.items():
            if reason not in _NO_NEWS and not self.given.get("no_messages"):
                self._say(f"{os.fsdecode(name[2:])}: {reason}, so not searched")

    def _written(self, shown: bytes, file: File, lines: list[Line]) -> Iterator[bytes]:
        path = self._colours.paint(self._shown(shown), "path")
        if self._show == "names":
            yield path + (b"\0" if self.given.get("null") else b"\n")
        elif self._show == "counts":
            yield path + self._path_end + b"-%d +%d %d\n" % tuple(sum(line.sign == sign for line in lines) for sign in (REMOVED, ADDED, LEFT))
        else:
            for line in lines:
                yield _json(file, line) if self._show == "json" else self._line(path, line)

    def _line(self, path: bytes, line: Line) -> bytes:
        numbers = b"".join(b":" if number is None else self._colours.paint(b"%d" % number, "line") + b":" for number in (line.before, line.after))
        parts = line.parts() if self._colours.is_on else [line.text]
        text = b"".join(self._colours.paint(self._shown(part), "match") if at % 2 else self._shown(part) for at, part in enumerate(parts))
        has_path, has_numbers = self.given.get("filename", True), self.given.get("line_number", True)
        return (path + self._path_end) * has_path + numbers * has_numbers + line.sign.encode() + text + b"\n"


def _json(file: File, line: Line) -> bytes:
    sides = ("before", file.before, line.before), ("after", file.after, line.after)
    places = {side: {"path": _text(path), "line": number} for side, path, number in sides if path is not None and number is not None}
    row = {"type": "line", "sign": line.sign, **places, "text": _text(line.text), "spans": [list(span) for span in line.spans or ()]}
    return json.dumps(row, separators=(",", ":")).encode() + b"\n"


def _text(data: bytes) -> str | dict[str, str]:
    try:
        return data.decode()
    except UnicodeDecodeError:
        return {"base64": base64.b64encode(data).decode()}
