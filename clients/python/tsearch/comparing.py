"""Where two texts differ, line by line, in a bounded number of steps: a shortest row of changes, or, where that takes more steps, all lines but
the first and the last ones that both have."""

from __future__ import annotations

from array import array
from collections.abc import Callable, Iterator, Sequence

from .errors import Cancelled

# A block of lines in the place of others: where it begins in the old ones, how many these are, and the same of the new ones. From 0.
Block = tuple[int, int, int, int]


class Budget:
    """How many steps some comparisons may take together, and whether they are still wanted."""

    def __init__(self, steps: int = 2_000_000, is_wanted: Callable[[], bool] = lambda: True) -> None:
        self.left = steps
        self._is_wanted = is_wanted

    def take(self, steps: int) -> bool:
        """Takes some steps. False if there are not so many left; `Cancelled` if nobody waits any more."""
        if not self._is_wanted():
            raise Cancelled("cancelled")
        if steps > self.left:
            return False
        self.left -= steps
        return True


def blocks(old: Sequence[bytes], new: Sequence[bytes], budget: Budget) -> tuple[list[Block], bool]:
    """The blocks in which lines differ, and whether they are as few lines as can be. Otherwise there is one block, of all between the first
    and the last lines that both have."""
    begin = _alike(old, new, range(min(len(old), len(new))))
    most = min(len(old), len(new)) - begin
    end = _alike(old, new, range(-1, -most - 1, -1))
    was, now = old[begin : len(old) - end], new[begin : len(new) - end]
    if not was and not now:
        return [], True
    if not was or not now:
        return [(begin, len(was), begin, len(now))], True
    found = _shortest(was, now, budget)
    if found is None:
        return [(begin, len(was), begin, len(now))], False
    return [(begin + a, removed, begin + b, added) for a, removed, b, added in found], True


def _alike(old: Sequence[bytes], new: Sequence[bytes], places: range) -> int:
    """How many of some places have the same line, before the first that has not."""
    return next((count for count, at in enumerate(places) if old[at] != new[at]), len(places))


def _shortest(old: Sequence[bytes], new: Sequence[bytes], budget: Budget) -> list[Block] | None:
    """The blocks of a shortest row of changes, by the greedy algorithm of Myers (1986); None if it takes too many steps."""
    # a line is its number: to compare two is one step then, however long they are
    numbers: dict[bytes, int] = {}
    was = array("q", (numbers.setdefault(line, len(numbers)) for line in old))
    now = array("q", (numbers.setdefault(line, len(numbers)) for line in new))
    trail: list[array[int]] = []
    # how far each diagonal has come; the diagonal of the difference `k` is at `k`, from the end if that is negative
    reached = array("q", [0]) * (2 * min(len(was) + len(now), budget.left) + 3)
    for changes in range(len(was) + len(now) + 1):
        # what is kept of each round to find the way back is a step too
        if not budget.take(2 * changes + 1):
            return None
        trail.append(reached[: changes + 1] + reached[-changes:] if changes else reached[:1])
        for k in range(-changes, changes + 1, 2):
            is_down = k == -changes or (k != changes and reached[k - 1] < reached[k + 1])
            at = begin = reached[k + 1] if is_down else reached[k - 1] + 1
            to = at - k
            while at < len(was) and to < len(now) and was[at] == now[to]:
                at += 1
                to += 1
            reached[k] = at
            if at > begin and not budget.take(at - begin):
                return None
            if at >= len(was) and to >= len(now):
                return list(_way(trail, changes, len(was), len(now)))
    return None


def _way(trail: list[array[int]], changes: int, at: int, to: int) -> Iterator[Block]:
    """The blocks of the way that has come to the end, in order."""
    steps: list[Block] = []
    for count in range(changes, 0, -1):
        before, k = trail[count], at - to
        is_down = k == -count or (k != count and _at(before, count, k - 1) < _at(before, count, k + 1))
        last = k + 1 if is_down else k - 1
        came_at = _at(before, count, last)
        came_to = came_at - last
        steps.append((came_at, 0, came_to, 1) if is_down else (came_at, 1, came_to, 0))
        at, to = came_at, came_to
    merged: list[Block] = []
    for a, removed, b, added in reversed(steps):
        if merged and merged[-1][0] + merged[-1][1] == a and merged[-1][2] + merged[-1][3] == b:
            first, gone, other, come = merged[-1]
            merged[-1] = (first, gone + removed, other, come + added)
        else:
            merged.append((a, removed, b, added))
    yield from merged


def _at(kept: array[int], count: int, k: int) -> int:
    """How far a diagonal had come before a round: of `count` to each side the first ones are kept, and then those that are negative."""
    return kept[k] if k >= 0 else kept[len(kept) + k]
