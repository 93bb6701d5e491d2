"""Names of documents. A name of a session has no space and no control byte.

So this package writes such a byte, and `%`, as `%` and two hexadecimal digits, and reads it back: callers give and get any bytes as
names, paths above all. A name pattern is matched against the quoted name.
"""

from __future__ import annotations

import re
from urllib.parse import unquote_to_bytes

from .errors import ChangeRefused
from .program import MOST_NAME

_QUOTED = re.compile(rb"[\0-\x20%\x7f]")


def to_bytes(text: str | bytes) -> bytes:
    """Text as UTF-8. What `os.fsdecode` made of bytes that are not UTF-8 becomes these bytes again. `TypeError` for a number."""
    if isinstance(text, str):
        return text.encode("utf-8", "surrogateescape")
    return text if isinstance(text, bytes) else bytes(memoryview(text))


def to_text(data: bytes) -> str:
    """The reverse of `to_bytes`: every byte that is not UTF-8 becomes a lone surrogate, as in `os.fsdecode`."""
    return data.decode("utf-8", "surrogateescape")


def quote(name: str | bytes) -> bytes:
    """The name under which a session has a document."""
    return _QUOTED.sub(lambda found: b"%%%02X" % found[0][0], to_bytes(name))


def unquote(name: bytes) -> bytes:
    """The name of a document, of that which a session writes."""
    return unquote_to_bytes(name) if b"%" in name else name


def checked(name: str | bytes) -> bytes:
    """The quoted name. `ChangeRefused` if it is empty, or over 4,096 bytes once it is quoted."""
    quoted = quote(name)
    if not quoted:
        raise ChangeRefused("name empty", b"")
    if len(quoted) > MOST_NAME:
        raise ChangeRefused("name too long", to_bytes(name))
    return quoted
