"""Patterns of paths, where a session has names that begin with something else: each becomes a pattern of these names.

A pattern has to be one that the program takes. A space or a control byte in it is one in a path, which a session writes as `%20` and the
like.
"""

from __future__ import annotations

import functools
from collections.abc import Iterable

from .query import Query, escape
from .tgrep import ere
from .tgrep.ere import Anchor, Bytes, Choice, Group, Repeat, Sequence, Tree

_ANY = frozenset(range(1, 256)) - {10}
# What no name of a session has as it is.
_QUOTED = frozenset((*range(1, 33), 127)) - {10}
# A set of more bytes has the space among others, as `.` has, and as a negated one mostly has.
_FEW = 128
_EMPTY = Sequence([])


@functools.lru_cache(1_024)
def under(pattern: bytes, head: bytes) -> bytes:
    """The pattern of the names that begin with what the pattern `head` matches, and of which the rest contains a match of `pattern`. `head`
    matches one beginning of each such name; an empty one matches all names as they are."""
    if not head and not any(byte in _QUOTED for byte in pattern):
        return pattern
    tree = _with_quotes(ere.read(pattern))
    if not head:
        return _text(tree)
    later, first = _later(tree), _first(tree) if _has_begin(tree) else None
    ways = [b".*" + _closed(later)] if later else []
    ways += [_text(first)] if first else []
    return b"^" + head + b"(" + (b"|".join(ways) if ways else b"$a") + b")"


def _has_begin(tree: Tree) -> bool:
    match tree:
        case Anchor(is_end):
            return not is_end
        case Sequence(parts) | Choice(parts):
            return any(map(_has_begin, parts))
        case Repeat(part, _, _) | Group(_, part):
            return _has_begin(part)
    return False


def _with_quotes(tree: Tree) -> Tree:
    """The tree with spaces as a session writes them."""
    match tree:
        case Bytes(values) if values & _QUOTED and len(values) <= _FEW:
            quoted = [Sequence([Bytes(frozenset([letter])) for letter in b"%%%02X" % byte]) for byte in sorted(values & _QUOTED)]
            others: list[Tree] = [Bytes(values - _QUOTED)] if values - _QUOTED else []
            return Group(0, Choice([*others, *quoted]) if len(others) + len(quoted) > 1 else quoted[0])
        case Sequence(parts):
            return Sequence([_with_quotes(part) for part in parts])
        case Choice(parts):
            return Choice([_with_quotes(part) for part in parts])
        case Repeat(part, least, most):
            return Repeat(_with_quotes(part), least, most)
        case Group(number, part):
            return Group(number, _with_quotes(part))
    return tree


def _later(tree: Tree) -> Tree | None:
    """What a tree matches behind the begin of a path; None if that is nothing."""
    match tree:
        case Anchor(False):
            return None
        case Sequence(parts):
            return _sequence(list(map(_later, parts)))
        case Choice(parts):
            return _choice(list(map(_later, parts)))
        case Repeat(part, least, most):
            inside = _later(part)
            return Repeat(inside, least, most) if inside else None if least else _EMPTY
        case Group(number, part):
            return _group(_later(part))
    return tree


def _first(tree: Tree) -> Tree | None:
    """What a tree matches at the begin of a path; None if that is nothing. Where a part is empty, the next one is there too."""
    match tree:
        case Anchor(False):
            return _EMPTY
        case Sequence(parts):
            ways = []
            for at, part in enumerate(parts):
                is_passed = isinstance(part, Anchor) and at + 1 < len(parts) and not part.is_end
                ways += [] if is_passed else [_sequence([_first(part), *map(_later, parts[at + 1 :])])]
                if not ere.is_empty_at(part, True, False):
                    break
            return _choice(ways) if parts else tree
        case Choice(parts):
            return _choice(list(map(_first, parts)))
        case Repeat(part, least, most):
            return _first_of_repeat(part, least, most)
        case Group(number, part):
            return _group(_first(part))
    return tree


def _first_of_repeat(part: Tree, least: int, most: int | None) -> Tree | None:
    if most == 0:
        return _EMPTY
    first, later = _first(part), _later(part)
    # empty rounds at the begin make up for any number of rounds
    fewest = 0 if ere.is_empty_at(part, True, False) else max(least - 1, 0)
    rest: Tree | None = Repeat(later, fewest, None if most is None else most - 1) if later else None if fewest else _EMPTY
    found = _sequence([first, rest])
    return _choice([_EMPTY, found]) if least == 0 else found


def _sequence(parts: list[Tree | None]) -> Tree | None:
    known = [part for part in parts if part is not None]
    return Sequence(known) if len(known) == len(parts) else None


def _choice(parts: list[Tree | None]) -> Tree | None:
    known = [part for part in parts if part is not None]
    return Choice(known) if len(known) > 1 else known[0] if known else None


def _group(part: Tree | None) -> Tree | None:
    return None if part is None else Group(0, part)


def _text(tree: Tree) -> bytes:
    """The pattern of a tree."""
    match tree:
        case Bytes(values):
            return _set(values)
        case Anchor(is_end):
            return b"$" if is_end else b"^"
        case Sequence(parts):
            return b"".join(_closed(part) if isinstance(part, Choice) else _text(part) for part in parts)
        case Choice(parts):
            return b"|".join(map(_text, parts))
        case Repeat(part, least, most):
            return _repeated(part) + _bounds(least, most)
        case Group(_, part):
            return b"(" + _text(part) + b")"
    raise AssertionError(tree)


def _closed(tree: Tree) -> bytes:
    return b"(" + _text(tree) + b")" if isinstance(tree, Choice) else _text(tree)


def _repeated(tree: Tree) -> bytes:
    return _text(tree) if isinstance(tree, (Bytes, Group)) else b"(" + _text(tree) + b")"


def _bounds(least: int, most: int | None) -> bytes:
    short = {(0, None): b"*", (1, None): b"+", (0, 1): b"?"}.get((least, most))
    if short is not None:
        return short
    return b"{%d,}" % least if most is None else b"{%d}" % least if least == most else b"{%d,%d}" % (least, most)


def _set(values: frozenset[int]) -> bytes:
    """The pattern of one byte of a set."""
    if values == _ANY:
        return b"."
    if not values - _QUOTED:
        return b"($a)"
    others, values = _ANY - _QUOTED - values, values - _QUOTED
    if len(others) < len(values):
        return b"[^" + _ranges(others) + b"]" if others else b"."
    return b"[" + _ranges(values) + b"]" if len(values) > 1 else escape(bytes(values))


def _ranges(values: frozenset[int]) -> bytes:
    """What stands between brackets for a set: what means something there comes where it means itself."""
    odd = frozenset(b"]^-[")
    plain, parts = sorted(values - odd), [b"]"] * (93 in values)
    at = 0
    while at < len(plain):
        end = at
        while end + 1 < len(plain) and plain[end + 1] == plain[end] + 1:
            end += 1
        parts.append(bytes(plain[at : end + 1]) if end - at < 2 else b"%c-%c" % (plain[at], plain[end]))
        at = end + 1
    text = b"".join(parts) + b"[" * (91 in values) + b"^" * (94 in values)
    # a `^` is not to come first, and a `-` comes first or last
    return b"-^" if text == b"^" and 45 in values else text + b"-" * (45 in values)


def check(names: Iterable[bytes], not_names: Iterable[bytes] = ()) -> Query:
    """A query that finds nothing, and is refused as one is whose patterns of paths cannot be read. Of those that it takes `under` makes
    others."""
    wanted, unwanted = (tuple(one.replace(b" ", b"_") for one in patterns) for patterns in (names, not_names))
    return Query(b"$a", names=wanted, not_names=unwanted, header_only=True, limit=1)
