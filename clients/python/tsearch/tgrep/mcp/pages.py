"""Pages: how much one answer has, the cursors that go on behind it, and texts that are cut."""

from __future__ import annotations

import base64
import binascii
import hashlib
import json
from typing import Any

from ..editor_requests import shown_text, text_of
from .roots import Refusal, Root

Shown = str | dict[str, str]
# In bytes: so much of texts and names one answer has, but at least a row; and so much of a line.
MOST_BYTES = 48 << 10
MOST_TEXT = 400
_NO_CURSOR = "this cursor is none of this question: write the same arguments as for the page before, or leave it out to begin anew"
# What a row has beside its text and name, at most.
_BESIDE = 96


class Page:
    """What is left of one answer: rows, and bytes."""

    def __init__(self, rows: int) -> None:
        self.rows = rows
        self._bytes = MOST_BYTES
        self._found = 0

    def has_room(self, *texts: Shown, is_found: bool = True) -> bool:
        """Whether another row with these texts goes in. The first one that is found always does; lines around others do not count."""
        if is_found and (self._found == 0 or self.rows <= 0):
            return self.rows > 0
        return sum(map(size_of, texts)) + _BESIDE <= self._bytes

    def take(self, *texts: Shown, is_found: bool = True) -> None:
        """Takes a row."""
        self._bytes -= sum(map(size_of, texts)) + _BESIDE
        self._found += is_found
        self.rows -= is_found

    @property
    def is_empty(self) -> bool:
        """Whether no row was found yet."""
        return self._found == 0


def size_of(text: Shown) -> int:
    """The bytes that a text has in an answer, about."""
    return len(text.encode()) if isinstance(text, str) else len(text["base64"]) + 16


def read_text(value: Shown) -> bytes:
    """The bytes of a text of a call. `Refusal` if its base64 is none."""
    try:
        return text_of(value)
    except ValueError as error:
        raise Refusal(str(error)) from None


def readable(text: Shown) -> str:
    """A text to be read, in one line: what is no UTF-8 and what controls a terminal is written with a backslash."""
    words = text if isinstance(text, str) else base64.b64decode(text["base64"]).decode(errors="backslashreplace")
    return "".join(one if one.isprintable() or one == "\t" else one.encode("unicode_escape").decode() for one in words)


def cut(text: bytes, first: int = 0) -> dict[str, Any]:
    """A line as it is shown: of a longer one a part, at a place in bytes, with where that begins and how long all is, in characters."""
    if len(text) <= MOST_TEXT:
        return {"text": shown_text(text)}
    begin = max(0, min(first - MOST_TEXT // 4, len(text) - MOST_TEXT))
    begin, end = _boundary(text, begin), _boundary(text, begin + MOST_TEXT)
    return {"text": shown_text(text[begin:end]), "from": _characters(text[:begin]), "of": _characters(text)}


def _boundary(text: bytes, at: int) -> int:
    """A place that is not within a character."""
    for back in range(min(at, 3) + 1):
        if at - back >= len(text) or text[at - back] & 0xC0 != 0x80:
            return at - back
    return at


def _characters(text: bytes) -> int:
    return len(text.decode("utf-8", "surrogateescape"))


def digest_of(tool: str, given: dict[str, Any], roots: tuple[Root, ...]) -> str:
    """What a cursor has of the question that it goes on with."""
    asked = {key: value for key, value in given.items() if key not in ("cursor", "limit")}
    words = json.dumps([tool, asked, [root.real for root in roots]], sort_keys=True)
    return hashlib.blake2b(words.encode(), digest_size=9).hexdigest()


def cursor_of(digest: str, place: list[Any]) -> str:
    """The cursor for a place."""
    return base64.urlsafe_b64encode(json.dumps([digest, *place], separators=(",", ":")).encode()).decode().rstrip("=")


def place_of(cursor: str | None, digest: str, kinds: tuple[Any, ...]) -> list[Any] | None:
    """The place of a cursor, of which each part has one of these types; None without a cursor. `Refusal` if it is none of this question."""
    if cursor is None:
        return None
    try:
        found = json.loads(base64.b64decode(cursor + "=" * (-len(cursor) % 4), b"-_", validate=True))
    except (ValueError, binascii.Error, RecursionError):
        found = None
    is_fit = isinstance(found, list) and len(found) == len(kinds) + 1 and found[0] == digest
    if not is_fit or not all(type(one) is kind and _is_bounded(one) for one, kind in zip(found[1:], kinds)):
        raise Refusal(_NO_CURSOR)
    return list(found[1:])


def _is_bounded(value: Any) -> bool:
    return not isinstance(value, int) or 0 <= value < 1 << 31


def name_in(digits: str) -> bytes:
    """The name that a cursor has. `Refusal` if it is none."""
    try:
        return bytes.fromhex(digits)
    except ValueError:
        raise Refusal(_NO_CURSOR) from None
