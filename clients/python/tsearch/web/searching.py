"""A search over several repositories in the session that they share: one item for all of them, and more for those that it does not tell
enough of."""

from __future__ import annotations

import asyncio
import collections
import dataclasses
import re
import time
from collections.abc import Awaitable, Callable, Coroutine, Iterator, Sequence
from typing import Any, NamedTuple

from ..answers import Answer
from ..core import TOO_LONG
from ..errors import Error, SearchRefused, TooSlow
from ..merging import parted
from ..names import quote, to_bytes
from ..paths import check, under
from ..query import MAX_PREFIXES, Query
from .apart import most_of
from .marks import marks_of
from .repositories import Filter, Found, Repository, Shared

# In seconds: how much longer than a search may take a program may be silent.
GRACE = 1.0
# So many searches for one repository each are at work for a visitor at a time.
_AT_ONCE = 4
# What part of the time of a search one of several repositories has, if it is asked by itself.
_SHARE = 4
# So often in that time it is seen whether it is over.
_LOOKS = 8
# In seconds: one that is asked apart has so long at least, and otherwise as long as the others take.
_LEAST_SHARE = 0.5
_ANY_START = b"[^:]*:[^:]*:"
_COUNT = re.compile(rb"^(\d+:[^:\0\n]*:)[^\0\n]*\0(\d+)$", re.MULTILINE)

Chosen = tuple[Repository, Filter]


class _Part(NamedTuple):
    """What is searched of a repository: its place among those that are chosen, the revision, and what the names of its documents begin with,
    as they are and as a session writes them."""

    at: int
    repository: Repository
    revision: str
    start: bytes
    quoted: bytes


class Late(TooSlow):
    """A repository has no answer in its share of the time: the others need not wait for it, and it can be asked by itself."""

    def __init__(self) -> None:
        super().__init__("too slow")


class Search:
    """A search of a visitor in some repositories, each with the filter of the host.

    query: without patterns of names it is for all files; those that it has are for paths.
    search_ms: the time of the search, in milliseconds. If one search over all of them has no answer in half of it, or too long a one, each is
        asked by itself, the smallest first, and has a quarter of it: few that have no answer then are `Late`. One that was so lately is asked
        apart from the others, and has as long as they take.
    most_bytes: so long all answers together are of those that are asked by themselves. One that would be longer with others before it is too
        long.
    """

    def __init__(self, shared: Shared, chosen: Sequence[Chosen], query: Query, revision: str, search_ms: int, most_bytes: int) -> None:
        self._shared = shared
        self._query = query
        self._marks = marks_of(query)
        self._outcomes: list[Found | int | Error | None] = [None] * len(chosen)
        self._left = most_bytes
        now = asyncio.get_running_loop().time()
        self._began, self._half, self._end = now, now + search_ms / 2_000, now + search_ms / 1_000 + GRACE
        self._share = (search_ms / 1_000 + GRACE) / _SHARE
        # how many are asked; since when those work, by their places, that have had their share and go on; those that were given up then; and how
        # long the slowest of the others took
        self._count = 0
        self._overdue: dict[int, float] = {}
        self._late: list[Repository] = []
        self._slowest = 0.0
        self._turns = asyncio.Semaphore(_AT_ONCE)
        self._groups: dict[Filter, list[_Part]] = collections.defaultdict(list)
        for at, (repository, own) in enumerate(chosen):
            try:
                found, start = repository.start(revision)
                self._groups[own].append(_Part(at, repository, found, start, quote(start)))
            except Error as fault:
                self._outcomes[at] = fault

    async def find(self) -> list[Found | Error]:
        """What each of them answers: lines with the lines around them, at most so many as the query has for all. Those of no answer have an
        error."""
        await self._each(self._find_together, self._find_alone)
        return [outcome for outcome in self._outcomes if isinstance(outcome, (Found, Error))]

    async def count(self) -> list[int | Error]:
        """How many lines each of them has."""
        await self._each(self._count_together, self._count_alone)
        return [outcome for outcome in self._outcomes if isinstance(outcome, (int, Error))]

    async def _each(self, together: _Together, alone: _Alone) -> None:
        """Asks all. Those that were slow lately are asked by themselves meanwhile, and have as long as the others take, or a little more."""
        parts = [part for some in self._groups.values() for part in some]
        self._count = len(parts)
        slow = self._shared.apart.of([part.repository for part in parts])
        apart = asyncio.create_task(self._all_groups(lambda part: part.repository in slow, None, alone)) if slow else None
        try:
            await self._all_groups(lambda part: part.repository not in slow, together, alone)
            if self._slowest < self._share / 2:
                self._shared.apart.note(_large(self._late, [part.repository for part in parts]), len(parts))
            if apart:
                least = self._began + min(_LEAST_SHARE, self._share)
                await asyncio.wait([apart], timeout=max(0.0, least - asyncio.get_running_loop().time()))
        finally:
            if apart:
                apart.cancel()
                await asyncio.wait([apart])
        for part in parts:
            if self._outcomes[part.at] is None:
                self._outcomes[part.at] = Late()

    async def _all_groups(self, has: Callable[[_Part], bool], together: _Together | None, alone: _Alone) -> None:
        groups = [(own, [part for part in parts if has(part)]) for own, parts in self._groups.items()]
        await _all([self._group(own, parts, together, alone) for own, parts in groups if parts])

    async def _group(self, own: Filter, parts: list[_Part], together: _Together | None, alone: _Alone) -> None:
        """Asks those that have one filter, each by itself if there is no way to ask all together."""
        try:
            query = await self._checked(own)
        except (Error, TimeoutError) as fault:
            for part in parts:
                self._outcomes[part.at] = _error_of(fault)
            return
        left = []
        for some in _fitting(query, parts):
            left += await self._together(query, some, together) if together and len(some) > 1 else some
        if len(left) == 1 == self._count:
            await self._alone(query, left[0], alone)  # which costs no task
        elif left:
            await self._each_alone(query, left, alone)

    async def _checked(self, own: Filter) -> Query:
        """The query with what the visitor and the host say of paths. `PatternRefused` with the number among all their patterns."""
        names = (*self._query.names, *map(to_bytes, own.names))
        not_names = (*self._query.not_names, *map(to_bytes, own.not_names))
        if names or not_names:
            async with asyncio.timeout_at(self._end):
                await self._shared.find(dataclasses.replace(check(names, not_names), lane=self._query.lane))
        among, not_among = (tuple(map(to_bytes, some)) for some in (own.under, own.not_under))
        return dataclasses.replace(self._query, names=names, not_names=not_names, under=among, not_under=not_among)

    async def _together(self, query: Query, parts: list[_Part], ask: _Together) -> list[_Part]:
        """Asks several at once, and gives those that have to be asked again."""
        try:
            async with asyncio.timeout_at(self._half):
                return await ask(query, parts)
        except (TimeoutError, TooSlow):
            return parts
        except Error as fault:
            if _is_too_long(fault):
                return parts  # that of one may be, or only that of all
            for part in parts:
                self._outcomes[part.at] = fault
            return []

    async def _each_alone(self, query: Query, parts: list[_Part], alone: _Alone) -> None:
        """Asks each by itself, the smallest first. Few that have had their share of the time are given up once no other one is left; where many
        have, all is slow, and all of the time is theirs."""
        parts = sorted(parts, key=lambda part: part.repository.kept.totals)
        tasks = {asyncio.create_task(self._alone(query, part, alone)): part for part in parts}
        left = set(tasks)
        try:
            while left:
                _, left = await asyncio.wait(left, timeout=self._share / _LOOKS, return_when=asyncio.FIRST_COMPLETED)
                if self._are_few([tasks[task] for task in left]):
                    self._late += [tasks[task].repository for task in left]
                    break
        finally:
            for task in left:
                task.cancel()
            await asyncio.wait(tasks)
        for task in tasks:
            if not task.cancelled():
                task.result()

    def _are_few(self, left: list[_Part]) -> bool:
        """Whether those that are left are few, have had their share, and twice as long as any other one took."""
        now = asyncio.get_running_loop().time()
        slow = [part for part in left if now - self._overdue.get(part.at, now) > max(self._share, 2 * self._slowest)]
        return len(slow) == len(left) and len(self._overdue) <= most_of(self._count)

    async def _alone(self, query: Query, part: _Part, ask: _Alone) -> None:
        """Asks one, in its turn, which it has for its share of the time."""
        loop, began = asyncio.get_running_loop(), time.monotonic()
        try:
            async with asyncio.timeout_at(self._end):
                await self._turns.acquire()
                at_work = loop.time()
                over = loop.call_later(self._share, self._is_over, part, at_work)
                try:
                    await ask(query, part)
                    self._slowest = max(self._slowest, loop.time() - at_work)
                finally:
                    if self._overdue.pop(part.at, None) is None:
                        over.cancel()
                        self._turns.release()
        except (Error, TimeoutError) as fault:
            self._outcomes[part.at] = fault if isinstance(fault, Error) else TooSlow("too slow") if self._count == 1 else Late()
        finally:
            part.repository.seconds += time.monotonic() - began

    def _is_over(self, part: _Part, at_work: float) -> None:
        """One has had its share. Others have its turn, and it goes on."""
        self._overdue[part.at] = at_work
        self._turns.release()

    async def _ask(self, query: Query, parts: Sequence[_Part]) -> Answer:
        sent = _in(query, parts)
        if self._marks and query.spans:
            answer = await self._shared.find(dataclasses.replace(sent, spans=False))
            if self._marks.can_mark(answer.data):
                return answer
        return await self._shared.find(sent)

    async def _find_together(self, query: Query, parts: list[_Part]) -> list[_Part]:
        began = time.monotonic()
        answer = await self._ask(query, parts)
        last = answer.data[answer.data.rfind(b"\n", 0, -1) + 1 :] if answer.more else b""
        # at the limit: of those that come before the last line all is known
        known = [part for part in parts if not answer.more or (part.quoted < last and not last.startswith(part.quoted))]
        for part, found in zip(known, parted(answer, [part.quoted for part in known])):
            await self._take(part, found)
        for part in known:
            part.repository.seconds += (time.monotonic() - began) / len(known)
        done = {part.at for part in known}
        return [part for part in parts if part.at not in done]

    async def _find_alone(self, query: Query, part: _Part) -> None:
        answer = await self._ask(query, [part])
        if len(answer.data) > self._left:
            raise SearchRefused(TOO_LONG)
        self._left -= len(answer.data)
        await self._take(part, answer)

    async def _take(self, part: _Part, answer: Answer, count: int | None = None) -> None:
        """Notes the answer of a repository, or the number that is asked for."""
        try:
            found = await part.repository.found(answer, part.revision, part.start)
            self._outcomes[part.at] = found if count is None else count
        except Error as fault:
            self._outcomes[part.at] = fault

    async def _count_together(self, query: Query, parts: list[_Part]) -> list[_Part]:
        answer = await self._ask(dataclasses.replace(query, limit=None, context=None, spans=False, counts=True), parts)
        counts: collections.Counter[bytes] = collections.Counter()
        for start, count in _COUNT.findall(answer.data):
            counts[start] += int(count)
        for part in parts:
            await self._take(part, answer, counts[part.quoted])
        return []

    async def _count_alone(self, query: Query, part: _Part) -> None:
        answer = await self._ask(dataclasses.replace(query, limit=None, context=None, spans=False, header_only=True), [part])
        await self._take(part, answer, answer.count)


_Together = Callable[[Query, list[_Part]], Awaitable[list[_Part]]]
_Alone = Callable[[Query, _Part], Awaitable[None]]


async def _all(calls: Sequence[Coroutine[Any, Any, None]]) -> None:
    """Makes some calls at once; a single one as it is, which costs no task."""
    if len(calls) == 1:
        await calls[0]
        return
    async with asyncio.TaskGroup() as tasks:
        for call in calls:
            tasks.create_task(call)


def _large(late: Sequence[Repository], asked: Sequence[Repository]) -> list[Repository]:
    """Those that were late and have as much text as the others on average, or more: a smaller one has waited for what others ask for."""
    of_all = sum(one.kept.totals[1] for one in asked)
    return [one for one in late if one.kept.totals[1] * len(asked) >= of_all]


def _is_too_long(fault: Error) -> bool:
    return isinstance(fault, SearchRefused) and fault.reason == TOO_LONG


def _error_of(fault: Exception) -> Error:
    return fault if isinstance(fault, Error) else TooSlow("too slow")


def _in(query: Query, parts: Sequence[_Part]) -> Query:
    """The query in these alone: what it says of paths is said of the names of their documents."""
    names, not_names = (tuple(under(one, _ANY_START) for one in patterns) for patterns in (query.names, query.not_names))
    among, not_among = (tuple(part.start + path for part in parts for path in paths) for paths in (query.under or (b"",), query.not_under))
    return dataclasses.replace(query, names=names, not_names=not_names, under=among, not_under=not_among)


def _fitting(query: Query, parts: list[_Part]) -> Iterator[list[_Part]]:
    """The parts, so many together as one search takes."""
    most = max(1, MAX_PREFIXES // max(1, len(query.under), len(query.not_under)))
    for at in range(0, len(parts), most):
        yield parts[at : at + most]
