"""Long lines for people to look at: what is around the matches, and marks in place of the rest."""

from __future__ import annotations

from collections.abc import Sequence

# In bytes: what a line has at most if it is shown whole, and what of a longer one is shown before and after each match.
LONGEST = 1_000
_AROUND = 100
# A gap is no shorter than its mark.
_LEAST_GAP = 40


def shortened(text: bytes, spans: Sequence[tuple[int, int]], longest: int = LONGEST) -> list[bytes]:
    """The parts of a line, an odd number of which every second one is a match, as `Hit.parts` has them. Of a line that is over `longest`
    bytes they are what is around the first matches, up to that length and a little more; a mark says how much is left out."""
    around = len(text) if len(text) <= longest else _AROUND
    parts, at, shown = [b""], 0, 0
    for number, (begin, end) in enumerate(spans):
        if shown > longest:
            break
        behind = spans[number + 1][0] if number + 1 < len(spans) else len(text)
        first = _from(text, at, begin - around)
        stop = _to(text, behind, end + around)
        parts[-1] += _gap(first - at) + text[first:begin]
        parts += [_match(text[begin:end], longest), text[end:stop]]
        shown += stop - first
        at = stop
    if not spans:
        at = _to(text, len(text), 2 * around)
        parts = [text[:at]]
    left = sum(begin >= at for begin, _ in spans)
    parts[-1] += _gap(len(text) - at, f" with {left:,} match{'es' * (left > 1)}" if left else "")
    return parts


def beginning(text: bytes, length: int) -> bytes:
    """What is shown of a line of so many bytes, more than `LONGEST`, that has no matches and begins with a text of so many."""
    at = _to(text, length, 2 * _AROUND)
    return text[:at] + _gap(length - at)


def _gap(length: int, more: str = "") -> bytes:
    return f" [... {length:,} bytes{more} ...] ".encode() if length else b""


def _match(text: bytes, longest: int) -> bytes:
    """A match, of which the first and the last bytes are shown if it is long."""
    if len(text) <= max(longest, 3 * _AROUND):
        return text
    first, last = _to(text, len(text), _AROUND), _from(text, 0, len(text) - _AROUND)
    return text[:first] + _gap(last - first) + text[last:]


def _from(text: bytes, least: int, place: int) -> int:
    """A place where what is shown begins: not within a letter of UTF-8, and at the least one if it is near that."""
    if place - least < _LEAST_GAP:
        return least
    return next((at for at in range(place, place + 4) if text[at] & 0xC0 != 0x80), place)


def _to(text: bytes, most: int, place: int) -> int:
    """A place where what is shown ends, likewise."""
    if most - place < _LEAST_GAP:
        return most
    return next((at for at in range(place, place - 4, -1) if text[at] & 0xC0 != 0x80), place)
