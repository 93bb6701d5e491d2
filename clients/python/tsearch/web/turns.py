"""Whose turn it is: searches and files of visitors that are at work, and those that wait, by networks."""

from __future__ import annotations

import asyncio
import collections
import contextlib
import dataclasses
import functools
import ipaddress
import itertools
from collections.abc import AsyncIterator, Mapping
from dataclasses import dataclass
from typing import Any

from ..errors import Error

# In bits: the network that a visitor is, and the wider one, in which all together have a share.
_WIDE_IPV4, _WIDE_IPV6 = 24, 48
# So many of a wider network are at work for each that may be of one visitor.
_WIDE = 4
# In seconds: when who is refused should come again, if the visitor has too many or all together have.
_SOON, LATER = 1, 5


@dataclass(frozen=True)
class Networks:
    """Which addresses are one visitor, and what each has. All of it can be set in the table `visitors` of the settings, and by options.

    ipv4, ipv6: in bits, the network that is one visitor.
    at_work, waiting: how many searches and files of a visitor are at work at a time, and how many more wait. All of a /24 or a /48 have four
        times as many at work.
    all_waiting: how many of all visitors wait; half of them may be of one /24 or /48.
    connections: how many connections all have at a time. A visitor has a sixteenth of them, and a /24 or a /48 a quarter.
    """

    ipv4: int = 32
    ipv6: int = 56
    at_work: int = 2
    waiting: int = 16
    all_waiting: int = 1_024
    connections: int = 2_048


BOUNDS = {"ipv4": (8, 32), "ipv6": (16, 128), "at_work": (1, 512), "waiting": (0, 10_000), "all_waiting": (1, 100_000), "connections": (16, 1_000_000)}


class TooMany(Exception):
    """Too many wait: of a visitor, or, if `of_all`, of all. `seconds` says when to come again, and `what` what they wait for."""

    def __init__(self, of_all: bool = False, what: str = "searches") -> None:
        super().__init__()
        self.of_all = of_all
        self.seconds = LATER if of_all else _SOON
        self.what = what


class _Network:
    """What a network has: how many at work, how many that wait, and when one began last, by a count."""

    __slots__ = ("at_work", "last", "waiting")

    def __init__(self) -> None:
        self.at_work = self.last = 0
        self.waiting: collections.deque[asyncio.Future[None]] = collections.deque()

    @property
    def rank(self) -> tuple[int, int]:
        """Of those who wait the one with the lowest is the next."""
        return self.at_work, self.last


class _Wide(_Network):
    """A wider network, and the visitors in it."""

    __slots__ = ("visitors",)

    def __init__(self) -> None:
        super().__init__()
        self.visitors: dict[str, _Network] = {}


class Turns:
    """The turns of all visitors. One that is free goes to the wider network, of those who wait, with the fewest at work, and of several to that
    whose last one began the longest ago; likewise among the visitors of that network. So one with many waits for its own, and holds up nobody
    else.

    at_work: how many are at work at a time.
    """

    def __init__(self, networks: Networks, at_work: int) -> None:
        self.networks = networks
        self._most = at_work
        self._at_work = self._waiting = 0
        self._count = itertools.count(1)
        self._wides: dict[str, _Wide] = {}

    @property
    def is_idle(self) -> bool:
        """Whether nothing is at work, waits, or is kept of anybody."""
        return not (self._at_work or self._waiting or self._wides)

    @contextlib.asynccontextmanager
    async def turn(self, visitor: str) -> AsyncIterator[None]:
        """A turn of a visitor, for as long as the block lasts. `TooMany` if too many wait."""
        name = wide_of(visitor)
        wide = self._wides.setdefault(name, _Wide())
        own = wide.visitors.setdefault(visitor, _Network())
        try:
            if self._may(wide, own):
                self._begin(wide, own)
            else:
                await self._wait(wide, own)
            try:
                yield
            finally:
                self._end(wide, own)
        finally:
            # nothing is kept of who has gone
            if not own.at_work and not own.waiting and wide.visitors.get(visitor) is own:
                del wide.visitors[visitor]
            if not wide.visitors and self._wides.get(name) is wide:
                del self._wides[name]

    def _may(self, wide: _Wide, own: _Network) -> bool:
        """Whether one of a visitor may begin."""
        each = self.networks.at_work
        return self._at_work < self._most and own.at_work < each and wide.at_work < each * _WIDE

    async def _wait(self, wide: _Wide, own: _Network) -> None:
        networks = self.networks
        if len(own.waiting) >= networks.waiting or len(wide.waiting) >= max(networks.all_waiting // 2, networks.waiting):
            raise TooMany
        if self._waiting >= networks.all_waiting:
            raise TooMany(of_all=True)
        future: asyncio.Future[None] = asyncio.get_running_loop().create_future()
        own.waiting.append(future)
        wide.waiting.append(future)
        self._waiting += 1
        try:
            await future
        except asyncio.CancelledError:
            if not future.cancelled():
                self._end(wide, own)  # it has its turn, and does not take it
            elif future in own.waiting:
                self._leave(wide, own, future)
            raise

    def _leave(self, wide: _Wide, own: _Network, future: asyncio.Future[None]) -> None:
        """One waits no longer."""
        own.waiting.remove(future)
        wide.waiting.remove(future)
        self._waiting -= 1

    def _begin(self, wide: _Wide, own: _Network) -> None:
        self._at_work += 1
        for network in own, wide:
            network.at_work += 1
            network.last = next(self._count)

    def _end(self, wide: _Wide, own: _Network) -> None:
        self._at_work -= 1
        for network in own, wide:
            network.at_work -= 1
        while found := self._next():
            future = found[1].waiting[0]
            self._leave(*found, future)
            if not future.cancelled():
                self._begin(*found)
                future.set_result(None)

    def _next(self) -> tuple[_Wide, _Network] | None:
        """Whose turn it is; None if nobody who waits may begin."""
        pairs = ((wide, own) for wide in self._wides.values() if wide.waiting for own in wide.visitors.values() if own.waiting)
        return min((pair for pair in pairs if self._may(*pair)), key=lambda pair: (pair[0].rank, pair[1].rank), default=None)


@functools.lru_cache(4_096)
def wide_of(visitor: str) -> str:
    """The wider network of a visitor, an address or a network: what is none is by itself."""
    try:
        found = ipaddress.ip_network(visitor, strict=False)
    except ValueError:
        return visitor
    wide = _WIDE_IPV6 if found.version == 6 else _WIDE_IPV4
    return str(found if found.prefixlen <= wide else found.supernet(new_prefix=wide))


def networks_of(told: Mapping[str, Any], usual: Networks, place: str) -> Networks:
    """What a table of settings says, where it says nothing the usual. `Error` for what it cannot be."""
    rows = told.get("visitors", {})
    if not isinstance(rows, dict) or rows.keys() - BOUNDS.keys():
        raise Error(f"{place}: the keys of [visitors] are {', '.join(BOUNDS)}")
    for key, number in rows.items():
        least, most = BOUNDS[key]
        if type(number) is not int or not least <= number <= most:
            raise Error(f"{place}: {key} of [visitors] is a number from {least:,} to {most:,}")
    return dataclasses.replace(usual, **rows)
