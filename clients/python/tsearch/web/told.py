"""What a visitor is told of a fault. Where the server has its files, and what its programs write, is for its log and standard error alone."""

from __future__ import annotations

from ..errors import Ended, Refused
from ..git import NoRepository

_NO_MORE = "it cannot be served; standard error of the server says why"


def told_of(error: Exception) -> str:
    """The fault in words that name no path of the server."""
    if isinstance(error, NoRepository):
        return error.told
    if isinstance(error, Refused):
        return error.reason
    if isinstance(error, Ended):
        return "the program has ended"
    text = error.strerror or "" if isinstance(error, OSError) else str(error)
    return text if text and "/" not in text else _NO_MORE
