"""The messages of JSON-RPC 2.0, one a line."""

from __future__ import annotations

import json
import os
import threading
from collections.abc import Iterator
from typing import Any, BinaryIO, NoReturn

PARSE, INVALID, NO_METHOD, PARAMS, INTERNAL = -32700, -32600, -32601, -32602, -32603
# In bytes: a longer line is refused, and passed over to its end.
MOST_LINE = 1 << 20
_BLOCK = 1 << 16


class Fault(Exception):
    """A message is refused. `number` is that of the request, or None if it has none that can be read."""

    def __init__(self, code: int, message: str, number: Any = None) -> None:
        super().__init__(message)
        self.code, self.message, self.number = code, message, number


def lines(file: BinaryIO) -> Iterator[bytes | None]:
    """The lines that come, to the end; None in place of one that is too long."""
    while line := file.readline(MOST_LINE + 1):
        if len(line) <= MOST_LINE or line.endswith(b"\n"):
            yield line
            continue
        while line and not line.endswith(b"\n"):
            line = file.readline(_BLOCK)
        yield None


def is_id(value: Any) -> bool:
    """Whether a value can be the number of a request, or a token of progress: a text or a whole number."""
    return isinstance(value, (str, int)) and not isinstance(value, bool)


def read(line: bytes) -> dict[str, Any]:
    """The message of a line: a request, a notification or a response. `Fault` if it is none."""
    try:
        found = json.loads(line.decode(), parse_constant=_no_constant)
    except (ValueError, RecursionError) as error:
        raise Fault(PARSE, f"this line is no JSON: {str(error)[:200]}") from None
    if isinstance(found, list):
        raise Fault(INVALID, "there are no batches in this version of the protocol: write one message a line")
    if not isinstance(found, dict):
        raise Fault(INVALID, "a message is an object")
    number = found.get("id")
    known = number if is_id(number) else None
    if found.get("jsonrpc") != "2.0":
        raise Fault(INVALID, 'a message has "jsonrpc": "2.0"', known)
    if "method" not in found and ("result" in found or "error" in found):
        return found
    if not isinstance(found.get("method"), str):
        raise Fault(INVALID, "a request has a method, which is a text", known)
    if "id" in found and known is None:
        raise Fault(INVALID, "the id of a request is a text or a whole number")
    return found


def _no_constant(word: str) -> NoReturn:
    raise ValueError(f"{word} is no number of JSON")


class Writer:
    """Writes messages to a descriptor, each whole, whichever thread it comes from."""

    def __init__(self, descriptor: int) -> None:
        self._descriptor = descriptor
        self._lock = threading.Lock()
        # whether nobody reads any more
        self.is_closed = False

    def write(self, message: dict[str, Any]) -> None:
        """Writes a message, if somebody reads."""
        message = {"jsonrpc": "2.0", **message}
        try:
            data = json.dumps(message, ensure_ascii=False, separators=(",", ":")).encode()
        except UnicodeEncodeError:  # half a pair, in an id
            data = json.dumps(message, separators=(",", ":")).encode()
        data += b"\n"
        with self._lock:
            while data and not self.is_closed:
                try:
                    data = data[os.write(self._descriptor, data) :]
                except OSError:
                    self.is_closed = True
