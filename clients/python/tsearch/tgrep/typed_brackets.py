"""Bracket expressions as they are typed. One in which a `\\` stands before one of the letters d, w, s, h, their capitals, t, n, r, f, v or an
x with a number is read as Perl does; any other is one of POSIX, and is left as it is: `[^\\]]` is what POSIX says."""

from __future__ import annotations

import re
from typing import NamedTuple

from .typed_parts import INSIDE, Untaken

_SYMBOL = rb"\[:[a-z]*:\]|\[\.[^\n]\.\]|\[=[^\n]=\]"
_PERL = re.compile(rb"\[(\^?)(\]?(?:\\.|" + _SYMBOL + rb"|[^\]\\])*)\]", re.DOTALL)
_NUMBER = rb"\\x(?:[0-9A-Fa-f]{2}|\{[0-9A-Fa-f]{1,8}\})"
_ITEM = re.compile(_NUMBER + rb"|\\[pP]\{[^}]*\}|\\.|" + _SYMBOL + rb"|.", re.DOTALL)
_LETTERS = re.compile(rb"(?:\\[dDwWsShHtnrfv]|" + _NUMBER + rb"|\\[pP]\{).*", re.DOTALL)
_BYTES = {b"t": 9, b"r": 13, b"f": 12, b"v": 11}
_NEEDS_SYMBOL = b"]-^["


class _Item(NamedTuple):
    """What stands in brackets: a byte, or a class as it is written there, or what is in no class (`not`), or what no line has (`none`)."""

    kind: str
    out: bytes
    at: int
    is_dash: bool = False


def read(pattern: bytes, at: int) -> tuple[bytes, int]:
    """The bracket expression that begins here, and where it ends: the rest of the pattern if it has no end. `Untaken` if there is none for it."""
    found = _PERL.match(pattern, at)
    items = [one.group() for one in _ITEM.finditer(found[2])] if found else []
    if found is None or not any(map(_LETTERS.match, items)):
        end = _end(pattern, at)
        return pattern[at:end], end
    place, read_items = found.start(2), []
    for item in items:
        read_items.append(_read_item(pattern, item, place))
        place += len(item)
    return _written(pattern, read_items, bool(found[1])), found.end()


def _end(pattern: bytes, at: int) -> int:
    """Where a bracket expression of POSIX ends."""
    place = at + 1 + (pattern[at + 1 : at + 2] == b"^")
    place += pattern[place : place + 1] == b"]"
    symbol = re.compile(rb"\[([:.=]).*?\1\]", re.DOTALL)
    while place < len(pattern) and pattern[place : place + 1] != b"]":
        found = symbol.match(pattern, place)
        place = found.end() if found else place + 1
    return min(place + 1, len(pattern))


def _read_item(pattern: bytes, item: bytes, at: int) -> _Item:
    letter = item[1:2]
    if item[:1] == b"[" and len(item) > 1:
        return _Item("byte", item[2:3], at) if letter == b"." else _Item("class", item, at)
    if item[:1] != b"\\":
        return _Item("byte", item, at, item == b"-")
    if letter in INSIDE:
        return _Item("class", INSIDE[letter], at)
    if letter.lower() in INSIDE:
        return _Item("not", INSIDE[letter.lower()], at)
    if letter in _BYTES:
        return _Item("byte", bytes([_BYTES[letter]]), at)
    if letter == b"n":
        return _Item("none", b"", at)
    if letter == b"x" and len(item) > 2:
        value = int(item[2:].strip(b"{}"), 16)
        if 0 < value < 128 and value != 10:
            return _Item("byte", bytes([value]), at)
        raise Untaken("bad escape", at, pattern, "\\x41 is for the bytes 01 to 7F but 0A: write another character outside of brackets")
    if len(item) > 2:
        raise Untaken(f"Unicode property {item.decode(errors='replace')}", at, pattern, "write a class of bytes, such as [:alpha:] or [:upper:]")
    if letter.isalnum():
        raise Untaken("bad escape", at, pattern, f"for \\{letter.decode()} write {letter.decode()}, or the byte that is meant")
    return _Item("byte", letter, at)


def _written(pattern: bytes, items: list[_Item], is_negated: bool) -> bytes:
    others = [item for item in items if item.kind == "not"]
    classes = list(dict.fromkeys(item.out for item in items if item.kind == "class"))
    singles, ranges = _bytes_of(items)
    if b"[:alnum:]_" in classes:
        singles = [one for one in singles if one != b"_"]
    if others:
        return _with_others(pattern, others, classes, singles + ranges, is_negated)
    if not (classes or singles or ranges):
        if is_negated:
            return b"."
        raise Untaken("a line feed", items[0].at, pattern, "write two patterns: a match lies within a line")
    return _joined(classes, singles, ranges, is_negated)


def _bytes_of(items: list[_Item]) -> tuple[list[bytes], list[bytes]]:
    """The bytes by themselves, and the ranges. A `-` beside a class is itself, as for Perl."""
    singles, ranges, at = [], [], 0
    while at < len(items):
        item = items[at]
        if item.kind == "byte":
            after = items[at + 1 : at + 3]
            if len(after) == 2 and after[0].is_dash and after[1].kind == "byte":
                ranges.append(b"-".join(b"[.%s.]" % end if end in _NEEDS_SYMBOL else end for end in (item.out, after[1].out)))
                at += 3
                continue
            singles.append(item.out)
        at += 1
    return list(dict.fromkeys(singles)), ranges


def _joined(classes: list[bytes], singles: list[bytes], ranges: list[bytes], is_negated: bool) -> bytes:
    """A bracket expression: `]` comes first in it, and `[`, `^` and `-` last."""
    special = [one for one in (b"[", b"^", b"-") if one in singles]
    plain = [one for one in singles if one not in (b"[", b"^", b"-", b"]")]
    first = [b"]"] if b"]" in singles else []
    parts = [*first, *classes, *ranges, *plain, *special]
    if parts[0] == b"^" and not is_negated:
        if len(parts) == 1:
            return b"\\^"
        parts.reverse()
    return b"[" + b"^" * is_negated + b"".join(parts) + b"]"


def _with_others(pattern: bytes, others: list[_Item], classes: list[bytes], rest: list[bytes], is_negated: bool) -> bytes:
    """The expression where there are such as `\\W`: alone in `[^...]`, or beside their opposite."""
    first, kinds = others[0], {item.out for item in others}
    typed = pattern[first.at : first.at + 2].decode()
    if not is_negated and kinds & set(classes):
        return b"."
    if is_negated and len(kinds) == 1 and not classes and not rest:
        return b"[" + first.out + b"]"
    if is_negated and kinds == {INSIDE[b"w"]} and not classes and rest == [b"_"]:
        return b"[[:alnum:]]"
    if is_negated:
        raise Untaken(f"{typed} beside others in [^...]", first.at, pattern, "POSIX has no brackets for this: write the bytes that are meant")
    shown = _joined(classes, [one for one in rest if len(one) == 1], [one for one in rest if len(one) > 1], False) if classes or rest else b""
    outs = [*(b"[^" + kind + b"]" for kind in dict.fromkeys(item.out for item in others)), *[shown] * bool(shown)]
    instead = outs[0] if len(outs) == 1 else b"(" + b"|".join(outs) + b")"
    raise Untaken(f"{typed} in brackets", first.at, pattern, f"POSIX has no class for it: write {instead.decode(errors='replace')}")
