"""Reads what an editor asks: JSON objects, one a line (docs/SERVER.md)."""

from __future__ import annotations

import base64
import binascii
import dataclasses
import json
import re
from collections.abc import Callable
from typing import Any

from ..errors import Error
from ..names import to_bytes
from ..query import Query
from . import asking
from .arguments import Refused
from .asking import Piece

_CAPITAL = re.compile(rb"[A-Z]")
_MOST = 4_294_967_295


class BadRequest(Error):
    """A request cannot be read. `where` is the key with the fault, or the offset of the fault in the line, from 0."""

    def __init__(self, reason: str, where: str | int, number: Any = None) -> None:
        super().__init__(reason, where)
        self.reason, self.where, self.number = reason, where, number


@dataclasses.dataclass(frozen=True)
class Request:
    """What is asked for, by its name, under the number that the editor gives it."""

    number: Any
    do: str
    given: dict[str, Any]


def text_of(value: Any) -> bytes:
    """The bytes of a text. `ValueError` if it is none."""
    if isinstance(value, str):
        return to_bytes(value)
    if isinstance(value, dict) and set(value) == {"base64"} and isinstance(value["base64"], str):
        try:
            return base64.b64decode(value["base64"], validate=True)
        except binascii.Error:
            pass
    raise ValueError('write a text, or {"base64": TEXT}')


def shown_text(data: bytes) -> str | dict[str, str]:
    """Bytes as a text, or as base64 if they are no UTF-8."""
    try:
        return data.decode()
    except UnicodeDecodeError:
        return {"base64": base64.b64encode(data).decode()}


def _flag(value: Any) -> bool:
    if not isinstance(value, bool):
        raise ValueError("write true or false")
    return value


def _number(least: int, most: int = _MOST) -> Callable[[Any], int]:
    def read(value: Any) -> int:
        if isinstance(value, bool) or not isinstance(value, int) or not least <= value <= most:
            raise ValueError(f"write a number from {least} to {most}")
        return value

    return read


def _id(value: Any) -> int | str:
    if isinstance(value, bool) or not isinstance(value, (int, str)):
        raise ValueError("write a number or a text")
    return value


def _texts(value: Any) -> list[bytes]:
    if not isinstance(value, list):
        raise ValueError("write a list of texts")
    return [text_of(one) for one in value]


def _line(value: Any) -> bytes:
    line = text_of(value)
    if b"\n" in line:
        raise ValueError("a match lies within a line: write it without a line feed")
    return line


def _lines(value: Any) -> list[bytes]:
    lines = _texts(value)
    if any(b"\n" in line for line in lines):
        raise ValueError("a line has no line feed")
    return lines


def _choice(*words: str) -> Callable[[Any], str]:
    def read(value: Any) -> str:
        if value not in words:
            raise ValueError(f"write {' or '.join(words)}")
        return str(value)

    return read


# What each request may have, with what reads it. `!` marks what it must have.
_KEYS: dict[str, dict[str, Callable[[Any], Any]]] = {
    "hello": {"token": text_of},
    "find": {
        "pattern!": text_of,
        **{flag: _flag for flag in ("ignore_case", "smart_case", "literal", "whole_words", "whole_lines", "invert", "names_ignore_case")},
        **{key: _texts for key in ("names", "not_names", "globs", "types", "not_types")},
        **{flag: _flag for flag in ("column", "spans", "groups", "beside", "fresh", "no_hidden")},
        "folder": text_of,
        "limit": _number(1),
        "context": _number(0, 1_000),
        "show": _choice("lines", "names", "counts", "nothing"),
        "units": _choice("bytes", "utf-16", "characters"),
        "cut": _number(16),
    },
    "list": {
        **{key: _texts for key in ("globs", "types", "not_types")},
        "folder": text_of,
        "no_hidden": _flag,
        "after": text_of,
        "limit": _number(1),
    },
    "compare": {
        "range!": text_of,
        "pattern!": _line,
        **{flag: _flag for flag in ("ignore_case", "literal", "whole_words")},
        **{key: _texts for key in ("globs", "types", "not_types")},
        "folder": text_of,
        "limit": _number(1),
    },
    "cancel": {"of": _id},
    "edit": {"name!": text_of, "first": _number(0), "last": _number(0), "lines!": _lines},
    "overlay": {"name!": text_of, "text!": text_of},
    "release": {"name": text_of},
    "open": {"name!": text_of, "life": _number(1), "version": _number(0), "first": _number(1), "last": _number(1)},
    "follow": {"changes": _flag},
    "status": {"folder": text_of},
}


def read(line: bytes) -> Request:
    """The request of a line. `BadRequest` if it is none."""
    text = line.decode("utf-8", "surrogateescape")
    try:
        found = json.loads(text)
    except json.JSONDecodeError as error:
        raise BadRequest(f"not JSON: {error.msg}", len(to_bytes(text[: error.pos]))) from None
    except (RecursionError, ValueError) as error:
        raise BadRequest(f"JSON that cannot be read: {error}", 0) from None
    if not isinstance(found, dict):
        raise BadRequest("write an object", 0)
    number = found.pop("id", None)
    try:
        number = number if number is None else _id(number)
    except ValueError as error:
        raise BadRequest(str(error), "id") from None
    do = found.pop("do", None)
    if not isinstance(do, str) or do not in _KEYS:
        raise BadRequest(f"write one of {', '.join(_KEYS)}", "do", number)
    keys = {key.rstrip("!"): reads for key, reads in _KEYS[do].items()}
    given = {}
    for key, value in found.items():
        if key not in keys:
            raise BadRequest(f"{do} has {', '.join(keys) or 'nothing'}", key, number)
        try:
            given[key] = keys[key](value)
        except ValueError as error:
            raise BadRequest(str(error), key, number) from None
    for key in _KEYS[do]:
        if key.endswith("!") and key[:-1] not in given:
            raise BadRequest(f"{do} needs this key", key[:-1], number)
    return Request(number, do, given)


def words_of(given: dict[str, Any]) -> dict[str, Any]:
    """The options of the command `tgrep` for the globs and the types of a request."""
    return {
        "all_globs": [(glob.decode("utf-8", "surrogateescape"), False) for glob in given.get("globs", [])],
        "types": [name.decode(errors="replace") for name in given.get("types", [])],
        "not_types": [name.decode(errors="replace") for name in given.get("not_types", [])],
        "no_hidden": given.get("no_hidden", False),
    }


def filter_of(given: dict[str, Any]) -> asking.Filter:
    """Which names a request is about: its folder, its globs and its types. `BadRequest` if one cannot be taken."""
    folder = given.get("folder", b"").strip(b"/")
    try:
        return asking.filter_of(words_of(given), Piece(folder + b"/" * bool(folder), b"", False), None)
    except Refused as refused:
        raise BadRequest(str(refused), "types" if "type" in str(refused) else "globs") from None


def query_of(given: dict[str, Any]) -> Query:
    """The query that a find asks for. `BadRequest` if a glob or a type cannot be taken."""
    show, pattern = given.get("show", "lines"), given["pattern"]
    found = filter_of(given)
    names, not_names = found.wanted, found.unwanted
    return Query(
        pattern,
        ignore_case=given.get("ignore_case", False) or (given.get("smart_case", False) and not _CAPITAL.search(pattern)),
        literal=given.get("literal", False),
        whole_words=given.get("whole_words", False),
        whole_lines=given.get("whole_lines", False),
        invert=given.get("invert", False),
        names=(*(name for name in names if name != b"^"), *given.get("names", [])),
        not_names=(*not_names, *given.get("not_names", [])),
        names_ignore_case=given.get("names_ignore_case", False),
        limit=given.get("limit"),
        context=given.get("context"),
        column=given.get("column", False),
        spans=given.get("spans", False) or given.get("groups", False),
        names_only=show == "names",
        counts=show == "counts",
        header_only=show == "nothing",
    )


def place_of(given: dict[str, Any], query: Query, number: int) -> str | list[Any]:
    """Where in a find its pattern with this number is: the key, and for a list the place in it, from 0."""
    if number == 0:
        return "pattern"
    own = len(given.get("names", []))
    made = len(query.names) - own
    if made < number <= len(query.names):
        return ["names", number - made - 1]
    number -= len(query.names)
    made = len(query.not_names) - len(given.get("not_names", []))
    return ["not_names", number - made - 1] if number > made else "globs"
