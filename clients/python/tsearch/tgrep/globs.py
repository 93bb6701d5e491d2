"""Patterns of names for the program, made of globs. A name is a quoted one (`tsearch.names`)."""

from __future__ import annotations

from typing import NamedTuple

from ..names import quote
from ..query import escape

_ANY = b"[^/]*"
_DEEP = b"(.*/)?"
_END = b"$"
_NOTHING = b"$a"
_BYTE = b"(%[0-9A-F][0-9A-F]|[^/%])"


# A glob, and whether case is ignored in it.
Glob = tuple[bytes, bool]


class Places(NamedTuple):
    """Where globs begin, by paths from the top of the tree: those with a slash in the working folder, and others anywhere below the folder
    that is searched."""

    searched: bytes
    working: bytes


def literal(text: bytes, ignores_case: bool = False) -> bytes:
    """The pattern for a text of a name."""
    if not ignores_case:
        return escape(quote(text))
    return b"".join(_letter(text[at : at + 1]) for at in range(len(text)))


def _letter(byte: bytes) -> bytes:
    return b"[%s%s]" % (byte.upper(), byte.lower()) if byte.isalpha() and byte.isascii() else escape(quote(byte))


def under(folder: bytes) -> bytes:
    """The pattern for what is below a folder; its path ends with a slash, or is empty."""
    return b"^" + literal(folder)


def files(places: Places, globs: list[Glob]) -> bytes:
    """The pattern for files that match one of the globs."""
    return _one_matches(places, globs, _END)


def files_and_below(places: Places, globs: list[Glob]) -> bytes:
    """The same for files that match, and for all that is below folders that match."""
    return _one_matches(places, globs, b"(/|$)")


def folders(places: Places, globs: list[Glob]) -> bytes:
    """The pattern for all that is below folders that match one of the globs."""
    return _one_matches(places, globs, b"/")


def hidden(base: bytes) -> bytes:
    """The pattern for what is hidden below a folder: it, or a folder on the way, begins with a dot."""
    return under(base) + _DEEP + rb"\."


def at_depth(base: bytes, depth: int) -> bytes:
    """The pattern for files that are at most so many folders deep; 1 is the folder itself."""
    return under(base) + b"([^/]*/){0,%d}[^/]*$" % min(depth - 1, 255)


def _one_matches(places: Places, globs: list[Glob], end: bytes) -> bytes:
    # what several begin and end with is written once: a pattern has a greatest length
    found: dict[tuple[bytes, bytes], list[bytes]] = {}
    for glob, ignores_case in globs:
        begin, middle, last = _expression(places, glob, ignores_case, end)
        found.setdefault((begin, last), []).append(middle)
    return _one(*(begin + _one(*middles) + last for (begin, last), middles in found.items()))


def _one(*expressions: bytes) -> bytes:
    """The pattern that matches what one of some matches."""
    return b"(" + b"|".join(expressions) + b")"


def _expression(places: Places, glob: bytes, ignores_case: bool, end: bytes) -> tuple[bytes, bytes, bytes]:
    """The expression for a glob: what comes before its own part, that, and what comes behind it."""
    while glob.endswith(b" ") and not glob.endswith(b"\\ "):
        glob = glob[:-1]
    is_of_folders = glob.endswith(b"/")
    if is_of_folders and end == _END:
        return b"", _NOTHING, b""  # a folder is no file
    glob = glob.removesuffix(b"/")
    begin = under(places.working) if b"/" in glob else under(places.searched) + _DEEP
    expression, _ = _sequence(glob.removeprefix(b"/"), 0, ignores_case, b"")
    return begin, expression, b"/" if is_of_folders else end


def _sequence(glob: bytes, at: int, ignores_case: bool, ends: bytes) -> tuple[bytes, int]:
    """The expression for a glob up to one of some bytes, and where that is."""
    parts = []
    while at < len(glob) and glob[at : at + 1] not in (ends[:1], ends[1:]):
        if glob.startswith(b"**/", at) and (at == 0 or glob[at - 1] == 47):
            if parts[-1:] != [_DEEP]:
                parts.append(_DEEP)
            at += 3
        elif glob[at:] == b"**" and (at == 0 or glob[at - 1] == 47):
            parts.append(b".*")
            at += 2
        elif glob[at] == 42:
            parts.append(_ANY)
            at += len(glob[at:]) - len(glob[at:].lstrip(b"*"))
        elif glob[at] == 63:
            parts.append(_BYTE)
            at += 1
        elif glob[at] == 123:
            part, at = _choice(glob, at, ignores_case)
            parts.append(part)
        elif glob[at] == 91 and _end_of_brackets(glob, at) > 0:
            part, at = _brackets(glob, at, ignores_case)
            parts.append(part)
        else:
            at += glob[at] == 92 and at + 1 < len(glob)
            parts.append(literal(glob[at : at + 1], ignores_case))
            at += 1
    return b"".join(parts), at


def _choice(glob: bytes, at: int, ignores_case: bool) -> tuple[bytes, int]:
    """The expression for `{one,two}`."""
    parts, at = [], at + 1
    while True:
        part, at = _sequence(glob, at, ignores_case, b",}")
        parts.append(part)
        is_last = glob[at : at + 1] != b","
        at += 1
        if is_last:
            return _one(*parts), at


def _end_of_brackets(glob: bytes, at: int) -> int:
    """Where the brackets that begin here end; -1 if they do not. A bracket that comes first, also behind `!`, is one of the bytes."""
    return glob.find(b"]", at + 2 + _is_negated(glob, at))


def _is_negated(glob: bytes, at: int) -> bool:
    return glob[at + 1 : at + 2] in (b"!", b"^")


def _brackets(glob: bytes, at: int, ignores_case: bool) -> tuple[bytes, int]:
    """The expression for `[a-z]` or `[!a-z]`: one byte for each that it has."""
    is_negated, end = _is_negated(glob, at), _end_of_brackets(glob, at)
    inner, taken, at = glob[at + 1 + is_negated : end], set(), 0
    while at < len(inner):
        last = inner[at + 2] if inner[at + 1 : at + 2] == b"-" and at + 2 < len(inner) else inner[at]
        taken |= set(range(inner[at], last + 1))
        at += 3 if inner[at + 1 : at + 2] == b"-" and at + 2 < len(inner) else 1
    if ignores_case:
        taken |= {ord(other) for byte in taken for other in (chr(byte).upper(), chr(byte).lower()) if byte < 128}
    wanted = (set(range(1, 256)) - taken if is_negated else taken) - {47}
    return _one_of(wanted), end + 1


def _one_of(wanted: set[int]) -> bytes:
    """The expression for one byte of a set."""
    plain = sorted(byte for byte in wanted if chr(byte).isalnum() and byte < 128 or byte >= 128 or byte in b"_=,;:~@<>\"'`!&#")
    parts = [escape(quote(bytes([byte]))) for byte in sorted(wanted - set(plain))]
    if plain:
        parts.append(b"[" + _ranges(plain) + b"]")
    return _one(*parts) if parts else _NOTHING


def _ranges(values: list[int]) -> bytes:
    """The inside of brackets for these bytes, with ranges."""
    parts, first = [], values[0]
    for value, after in zip(values, [*values[1:], None]):
        if after != value + 1:
            parts.append(b"%c" % first if first == value else b"%c-%c" % (first, value) if value > first + 1 else b"%c%c" % (first, value))
            first = after or 0
    return b"".join(parts)
