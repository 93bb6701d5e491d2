"""The matches of a simple pattern, which are found here: the program would look for the lines a second time to tell where they are.

Simple is a row of sets of bytes, each once or several times, where the next byte of a line always tells whether a set goes on: then there is
one match at most at a place, and the leftmost longest ones are those of Python's `re`.
"""

from __future__ import annotations

import functools
import re
from typing import NamedTuple

from ..query import MAX_PATTERN, Query, escape
from ..tgrep import ere
from ..tgrep.ere import Bytes, Group, Repeat, Sequence, Tree

_MOST_PARTS = 64
# In bytes: a longer row is left to the program. With a part that has no bound, time grows with the square.
_LONGEST_ROW, _LONGEST_REPEATED = 16_384, 1_000
# An answer that may take more work is left to the program: nothing else is done in this process meanwhile, and a thread would have its lock.
# In the worst of some patterns a step took 8 to 12 ns on a busy machine, and each match up to 70 more, whose number has a bound of its own.
# A place at which a match could begin takes so many steps, whatever stands there.
MOST_WORK = 4_000_000
_LEAST_STEPS = 4
# The text of a row that was found.
_TEXT = re.compile(rb"\0[0-9]++:([^\n]*+)")
_WORD = "[0-9A-Za-z_]"


class _Part(NamedTuple):
    values: frozenset[int]
    least: int
    most: int | None


class Marks(NamedTuple):
    """What splits a line at its matches and keeps them.

    longest: the longest row for which it is to be used.
    reach: how many bytes it looks at from a place on at most; None for all that follow.
    tries: how often it looks at each of them at most.
    is_text: whether there is one text alone that it finds, which takes a step for each byte of a line.
    """

    pattern: re.Pattern[bytes]
    longest: int
    reach: int | None
    tries: int
    is_text: bool

    def work(self, data: bytes) -> int:
        """How many steps the rows of an answer take at most."""
        if self.is_text:
            return len(data)
        total = 0
        for found in _TEXT.finditer(data):
            length = found.end(1) - found.start(1) + 1
            total += length * (2 * _LEAST_STEPS + (length if self.reach is None else 2 * min(length, self.reach)))
        return total * self.tries // 2

    def can_mark(self, data: bytes) -> bool:
        """Whether no row is too long, and all together take not too much work."""
        least = len(data) * (1 if self.is_text else _LEAST_STEPS)
        return least <= MOST_WORK and self._has_short_rows(data) and self.work(data) <= MOST_WORK

    def _has_short_rows(self, data: bytes) -> bool:
        at = 0
        while len(data) - at > self.longest:
            end = data.rfind(b"\n", at, at + self.longest + 1)
            if end < 0:
                return False
            at = end + 1
        return True


def marks_of(query: Query) -> Marks | None:
    """What finds the matches of a query; None if they are not shown or its pattern is not simple. It may be one that the program refuses."""
    if not query.spans or query.invert or query.context is None or len(query.pattern) > MAX_PATTERN:
        return None
    return _marks(escape(query.pattern) if query.literal else query.pattern, query.ignore_case, query.whole_words and not query.whole_lines)


@functools.lru_cache(256)
def _marks(pattern: bytes, ignores_case: bool, has_words: bool) -> Marks | None:
    try:
        parts = _parts_of(ere.read(pattern, ignores_case))
        if parts is None or not 1 <= sum(part.least for part in parts) <= _MOST_PARTS or len(parts) > _MOST_PARTS or not _is_simple(parts):
            return None
        text = "".join(map(_text, parts))
        shown = f"(?<!{_WORD}){text}(?!{_WORD})" if has_words else text
        found = re.compile(f"({shown})".encode())
    except (IndexError, KeyError, RecursionError, re.error):
        return None  # the program says why
    is_open = any(part.most is None for part in parts)
    is_text = not has_words and all(part.least == part.most == len(part.values) == 1 for part in parts)
    reach = None if is_open else sum(part.most or 0 for part in parts)
    return Marks(found, _LONGEST_REPEATED if is_open else _LONGEST_ROW, reach, _tries(parts), is_text)


def _tries(parts: list[_Part]) -> int:
    """How often each byte is looked at, at most, in one try from one place: by the part that has it, and when that gives it back, by each of
    the parts behind that need none, and by the next one. What a part has given back none of these takes."""
    longest = run = 0
    for part in parts:
        run = run + 1 if part.least == 0 else 0
        longest = max(longest, run)
    return longest + 2


def _parts_of(tree: Tree) -> list[_Part] | None:
    match tree:
        case Bytes(values):
            return [_Part(values, 1, 1)]
        case Group(_, part):
            return _parts_of(part)
        case Sequence(parts):
            found = [_parts_of(part) for part in parts]
            return None if None in found else [part for some in found for part in some or ()]
        case Repeat(Bytes(values), least, most) if most is None or most <= _MOST_PARTS:
            return [_Part(values, least, most)]
    return None


def _is_simple(parts: list[_Part]) -> bool:
    """Whether a part that can go on never has a byte with which what follows it begins."""
    for at, part in enumerate(parts):
        for later in parts[at + 1 :] if part.least != part.most else []:
            if part.values & later.values:
                return False
            if later.least:
                break
    return True


def _text(part: _Part) -> str:
    letters = "".join(f"\\x{value:02x}" for value in sorted(part.values))
    times = "" if part.least == part.most == 1 else f"{{{part.least},{'' if part.most is None else part.most}}}"
    return f"[{letters}]{times}" if letters else "(?!)"
