"""Where the groups of a pattern are in one of its matches, by the rule of POSIX (XBD 9.1): each part of the pattern, from left to right,
takes the longest text with which the rest can still match. A match with too many ways to be taken apart has no groups."""

from __future__ import annotations

import functools

from . import ere

Groups = list[tuple[int, int] | None]

_MOST_STEPS = 100_000


class _TooLong(Exception):
    """There are too many ways."""


class _Match:
    """A line, and the steps that are left."""

    def __init__(self, line: bytes) -> None:
        self.groups: dict[int, tuple[int, int]] = {}
        self._line = line
        self._left = _MOST_STEPS
        self._ends: dict[tuple[int, int], tuple[int, ...]] = {}

    def ends(self, tree: ere.Tree, at: int) -> tuple[int, ...]:
        """Where a match of a tree from `at` on can end, the longest first."""
        key = id(tree), at
        if key not in self._ends:
            self._ends[key] = tuple(sorted(self._all_ends(tree, at), reverse=True))
        found = self._ends[key]
        self._left -= 1 + len(found)
        if self._left < 0:
            raise _TooLong
        return found

    def _all_ends(self, tree: ere.Tree, at: int) -> set[int]:
        match tree:
            case ere.Bytes(values):
                return {at + 1} if at < len(self._line) and self._line[at] in values else set()
            case ere.Anchor(is_end):
                return {at} if at == (len(self._line) if is_end else 0) else set()
            case ere.Group(_, part):
                return set(self.ends(part, at))
            case ere.Choice(parts):
                return {end for part in parts for end in self.ends(part, at)}
        return set().union(*self._layers(tree, at)[_bounds(tree)[0] :])

    def assign(self, tree: ere.Tree, begin: int, end: int) -> None:
        """Notes the groups of a match that begins and ends here."""
        match tree:
            case ere.Group(number, part):
                self.groups[number] = begin, end
                self.assign(part, begin, end)
            case ere.Choice(parts):
                self.assign(next(part for part in parts if end in self.ends(part, begin)), begin, end)
            case ere.Sequence() | ere.Repeat():
                self._assign_row(tree, begin, end)

    def _layers(self, tree: ere.Tree, at: int) -> list[set[int]]:
        """Where a match from `at` on can be after no part, after one, and so on. After the least number each part is longer than nothing."""
        least, most = _bounds(tree)
        layers = [{at}]
        while layers[-1] and len(layers) - 1 != most:
            count = len(layers) - 1
            part = _part_at(tree, count)
            layers.append({end for place in layers[-1] for end in self.ends(part, place) if end > place or count < least})
        return layers

    def _assign_row(self, tree: ere.Tree, begin: int, end: int) -> None:
        """The same for parts that follow one another: each takes the most with which the others can reach the end."""
        least, layers = _bounds(tree)[0], self._layers(tree, begin)
        good: list[set[int]] = [set() for _ in layers]
        for count in reversed(range(len(layers))):
            later = good[count + 1] if count + 1 < len(layers) else set()
            good[count] = {place for place in layers[count] if self._after(tree, count, place, later) is not None}
            if count >= least:
                good[count] |= {end} & layers[count]
        count, place = 0, begin
        while count < least or place != end:
            after = self._after(tree, count, place, good[count + 1])
            assert after is not None
            self.assign(_part_at(tree, count), place, after)
            count, place = count + 1, after

    def _after(self, tree: ere.Tree, count: int, place: int, good: set[int]) -> int | None:
        """The last of these places to which the next part leads from a place."""
        if not good:
            return None
        ends = self.ends(_part_at(tree, count), place)
        return next((end for end in ends if end in good and (end > place or count < _bounds(tree)[0])), None)


def _bounds(tree: ere.Tree) -> tuple[int, int | None]:
    """How many parts follow one another in a tree, at least and at most."""
    match tree:
        case ere.Sequence(parts):
            return len(parts), len(parts)
        case ere.Repeat(_, least, most):
            return least, most
    return 1, 1


def _part_at(tree: ere.Tree, count: int) -> ere.Tree:
    match tree:
        case ere.Sequence(parts):
            return parts[count]
        case ere.Repeat(part, _, _):
            return part
    return tree


@functools.lru_cache(64)
def _read(pattern: bytes, ignores_case: bool) -> tuple[ere.Tree, int]:
    """The tree of a pattern, and how many groups it has."""
    tree = ere.read(pattern, ignores_case)
    return tree, _groups_in(tree)


def _groups_in(tree: ere.Tree) -> int:
    match tree:
        case ere.Group(number, part):
            return max(number, _groups_in(part))
        case ere.Repeat(part, _, _):
            return _groups_in(part)
        case ere.Sequence(parts) | ere.Choice(parts):
            return max(map(_groups_in, parts), default=0)
    return 0


def groups_of(pattern: bytes, ignores_case: bool, line: bytes, begin: int, end: int) -> Groups | None:
    """The match itself, and behind it where each group of the pattern is, None for one that takes no part. The pattern is one that the
    program takes, and has a match from `begin` to `end`. None if there are too many ways."""
    tree, count = _read(pattern, ignores_case)
    match = _Match(line)
    try:
        if end not in match.ends(tree, begin):
            return None
        match.assign(tree, begin, end)
    except (_TooLong, RecursionError):
        return None
    return [(begin, end), *(match.groups.get(number) for number in range(1, count + 1))]
