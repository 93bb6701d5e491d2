"""Extended regular expressions, for questions that are not put to the program: which names that it has not contain a match, where in a line
a match is empty, and what its groups are (`groups`). Each pattern has to be one that the program takes. A name is looked at once, whatever the pattern: there is no
backtracking."""

from __future__ import annotations

import functools
import re
from collections.abc import Iterable
from typing import NamedTuple

_CLASSES = {
    b"alnum": rb"0-9A-Za-z", b"alpha": rb"A-Za-z", b"blank": rb" \t", b"cntrl": rb"\x00-\x1f\x7f", b"digit": rb"0-9", b"graph": rb"!-~",
    b"lower": rb"a-z", b"print": rb" -~", b"punct": rb"!-/:-@\[-`{-~", b"space": rb" \t-\r", b"upper": rb"A-Z", b"xdigit": rb"0-9A-Fa-f",
}  # fmt: skip
_INTERVAL = re.compile(rb"\{([0-9]+)(,?)([0-9]*)\}")
_SYMBOL = re.compile(rb"\[([.:=])(.*?)\1\]", re.DOTALL)
_REPEATS = {b"*": (0, None), b"+": (1, None), b"?": (0, 1)}
_ANY = frozenset(range(1, 256)) - {10}
# So many states of a pattern are kept.
_MOST_STATES = 4_096


class Bytes(NamedTuple):
    """One byte of a set."""

    values: frozenset[int]


class Anchor(NamedTuple):
    """The begin of a line, or its end."""

    is_end: bool


class Sequence(NamedTuple):
    """Parts that follow one another."""

    parts: list[Tree]


class Choice(NamedTuple):
    """One of some alternatives."""

    parts: list[Tree]


class Repeat(NamedTuple):
    """A part again and again, at least and at most so often; without a bound if that is None."""

    part: Tree
    least: int
    most: int | None


class Group(NamedTuple):
    """What stands between parentheses, with its number from 1."""

    number: int
    part: Tree


Tree = Bytes | Anchor | Sequence | Choice | Repeat | Group


def read(pattern: bytes, ignores_case: bool = False) -> Tree:
    """The tree of a pattern. Where case is ignored, a letter that stands for itself or in brackets has both its cases."""
    open_groups: list[tuple[int, list[Tree], list[Tree]]] = []
    before: list[Tree] = []
    parts: list[Tree] = []
    at = count = 0
    while at < len(pattern):
        byte = pattern[at : at + 1]
        if byte == b"(":
            count += 1
            open_groups.append((count, before, parts))
            before, parts = [], []
        elif byte == b")" and open_groups:
            group = _choice(before, parts)
            number, before, parts = open_groups.pop()
            parts.append(Group(number, group))
        elif byte == b"|":
            before, parts = [*before, Sequence(parts)], []
        elif repeat := _repeat(pattern, at):
            least, most, at = repeat
            parts[-1] = Repeat(parts[-1], least, most)
            continue
        else:
            part, at = _one(pattern, at, ignores_case)
            parts.append(part)
            continue
        at += 1
    return _choice(before, parts)


def _choice(before: list[Tree], parts: list[Tree]) -> Tree:
    return Choice([*before, Sequence(parts)]) if before else Sequence(parts)


def _repeat(pattern: bytes, at: int) -> tuple[int, int | None, int] | None:
    """The bounds of a repeat that begins here, and where it ends."""
    byte = pattern[at : at + 1]
    if byte in _REPEATS:
        return *_REPEATS[byte], at + 1
    found = _INTERVAL.match(pattern, at)
    if found is None:
        return None
    least = int(found[1])
    return least, int(found[3]) if found[3] else None if found[2] else least, found.end()


def _one(pattern: bytes, at: int, ignores_case: bool) -> tuple[Tree, int]:
    """The tree for one byte or an anchor, and where its part of the pattern ends."""
    byte = pattern[at]
    if byte in b"^$":
        return Anchor(byte == 36), at + 1
    if byte == 46:
        return Bytes(_ANY), at + 1
    if byte == 91:
        return _brackets(pattern, at, ignores_case)
    at += byte == 92
    return Bytes(_cases(pattern[at : at + 1], ignores_case)), at + 1


def _cases(values: Iterable[int], ignores_case: bool) -> frozenset[int]:
    if not ignores_case:
        return frozenset(values)
    return frozenset(case[0] for value in values for case in (bytes([value]).lower(), bytes([value]).upper()))


def _brackets(pattern: bytes, at: int, ignores_case: bool) -> tuple[Tree, int]:
    at += 1
    is_negated = pattern[at : at + 1] == b"^"
    at += is_negated
    values: set[int] = set()
    is_first = True
    while is_first or pattern[at : at + 1] != b"]":
        is_first = False
        found = _SYMBOL.match(pattern, at)
        if found and found[1] == b":":
            values |= _members(found[2])
            at = found.end()
            continue
        first, at = _end_of_range(pattern, at)
        last = first
        if pattern[at : at + 1] == b"-" and pattern[at + 1 : at + 2] != b"]":
            last, at = _end_of_range(pattern, at + 1)
        values |= set(range(first, last + 1))
    found_values = _cases(values, ignores_case)
    return Bytes(_ANY - found_values if is_negated else found_values), at + 1


def _end_of_range(pattern: bytes, at: int) -> tuple[int, int]:
    found = _SYMBOL.match(pattern, at)
    return (found[2][0], found.end()) if found else (pattern[at], at + 1)


@functools.cache
def _members(name: bytes) -> frozenset[int]:
    member = re.compile(b"[" + _CLASSES[name] + b"]")
    return frozenset(byte for byte in range(256) if member.match(bytes([byte])))


def is_empty_at(tree: Tree, is_begin: bool, is_end: bool) -> bool:
    """Whether there is an empty match at a place of a line."""
    match tree:
        case Anchor(at_end):
            return is_end if at_end else is_begin
        case Sequence(parts):
            return all(is_empty_at(part, is_begin, is_end) for part in parts)
        case Choice(parts):
            return any(is_empty_at(part, is_begin, is_end) for part in parts)
        case Repeat(part, least, _):
            return least == 0 or is_empty_at(part, is_begin, is_end)
        case Group(_, part):
            return is_empty_at(part, is_begin, is_end)
    return False


class _State:
    """Steps of a pattern that can come next, after some bytes of a name: where each byte leads, and whether a match is found, or would be
    if the name ended here. Without steps none will be."""

    __slots__ = ("steps", "next", "is_found", "is_found_at_end")

    def __init__(self, steps: frozenset[int], is_found: bool, is_found_at_end: bool) -> None:
        self.steps, self.is_found, self.is_found_at_end = steps, is_found, is_found_at_end
        self.next: dict[int, _State] = {}


# What a step asks for: a byte of a set, the begin or the end of the name; and which steps come then.
_Step = tuple[frozenset[int] | bool | None, list[int]]
_FOUND = 0


class Names:
    """Tells which names contain a match of a pattern."""

    def __init__(self, pattern: bytes) -> None:
        self._steps: list[_Step] = [(None, [])]
        self._first = self._add(read(pattern), _FOUND)
        self._states: dict[frozenset[int], _State] = {}
        self._begin = self._state({self._first}, is_begin=True)

    def _add(self, tree: Tree, after: int) -> int:
        """Adds the steps of a tree, after which one comes. The first of them."""
        match tree:
            case Bytes(values):
                return self._step(values, [after])
            case Anchor(at_end):
                return self._step(at_end, [after])
            case Sequence(parts):
                for part in reversed(parts):
                    after = self._add(part, after)
                return after
            case Choice(parts):
                return self._step(None, [self._add(part, after) for part in parts])
            case Repeat(part, least, most):
                return self._add_repeat(part, least, most, after)
            case Group(_, part):
                return self._add(part, after)
        raise AssertionError(tree)

    def _add_repeat(self, part: Tree, least: int, most: int | None, after: int) -> int:
        if most is None:
            step = self._step(None, [after])
            self._steps[step][1].append(self._add(part, step))
        else:
            step = after
            for _ in range(most - least):
                step = self._step(None, [after, self._add(part, step)])
        for _ in range(least):
            step = self._add(part, step)
        return step

    def _step(self, asks: frozenset[int] | bool | None, after: list[int]) -> int:
        self._steps.append((asks, after))
        return len(self._steps) - 1

    def _closed(self, steps: set[int], is_begin: bool, is_end: bool = False) -> set[int]:
        """These steps, and those that follow without a byte, but for what only leads on."""
        found, seen, left = set(), set(steps), list(steps)
        while left:
            step = left.pop()
            asks, after = self._steps[step]
            if step == _FOUND or isinstance(asks, frozenset) or (asks is True and not is_end):
                found.add(step)
            elif asks is None or asks is True or is_begin:
                more = [one for one in after if one not in seen]
                seen.update(more)
                left += more
        return found

    def _state(self, steps: set[int], is_begin: bool = False) -> _State:
        closed = frozenset(self._closed(steps, is_begin))
        # at the begin of a name a `^` behind a `$` counts too
        state = None if is_begin else self._states.get(closed)
        if state is None:
            if len(self._states) >= _MOST_STATES:
                self._states.clear()
                self._begin.next.clear()
            at_end = self._closed(set(closed), is_begin, is_end=True)
            state = _State(closed, _FOUND in closed, _FOUND in at_end)
            if not is_begin:
                self._states[closed] = state
        return state

    def _after(self, state: _State, byte: int) -> _State:
        after = {self._first}
        for step in state.steps:
            asks, more = self._steps[step]
            if isinstance(asks, frozenset) and byte in asks:
                after.update(more)
        found = state.next[byte] = self._state(after)
        return found

    def has(self, name: bytes) -> bool:
        """Whether a name contains a match."""
        state = self._begin
        for byte in name:
            if state.is_found or not state.steps:
                return state.is_found
            state = state.next.get(byte) or self._after(state, byte)
        return state.is_found or state.is_found_at_end


@functools.lru_cache(256)
def names(pattern: bytes) -> Names:
    """What tells which names contain a match of a pattern."""
    return Names(pattern)
