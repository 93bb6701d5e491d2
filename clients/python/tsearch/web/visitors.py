"""Who asks, and how much of it is at work at a time: addresses and turns."""

from __future__ import annotations

import contextlib
import functools
import ipaddress
import json
import logging

from aiohttp import web

from .turns import Networks, TooMany, Turns


class Visitors:
    """Who asks, and whose turn it is.

    at_work: how many searches and files of all are at work at a time.
    """

    def __init__(self, proxies: frozenset[str], networks: Networks = Networks(), at_work: int = 32) -> None:
        self._proxies = [ipaddress.ip_network(one, strict=False) for one in proxies]
        self.turns = Turns(networks, at_work)

    def address_of(self, request: web.Request) -> str:
        """The network of who asks: that of the connection, or of the last address that a trusted proxy was asked from. An address is written
        as it is, without a length."""
        address = request.remote or ""
        if self.is_proxy(address):
            for named in reversed(",".join(request.headers.getall("X-Forwarded-For", [])).split(",")):
                named = named.strip()
                if _parsed(named) is None:
                    break
                address = named
                if not self.is_proxy(named):
                    break
        return self.network_of(address)

    def network_of(self, address: str) -> str:
        """The network that is one visitor."""
        found = _parsed(address)
        if found is None:
            return address
        networks = self.turns.networks
        network = ipaddress.ip_network((found, networks.ipv6 if found.version == 6 else networks.ipv4), strict=False)
        return str(network if network.prefixlen < network.max_prefixlen else found)

    def is_proxy(self, address: str) -> bool:
        """Whether it is one whose word for who asks is taken."""
        found = _parsed(address)
        return found is not None and any(found in network for network in self._proxies)

    def turn(self, address: str) -> contextlib.AbstractAsyncContextManager[None]:
        """A turn of a visitor, for as long as the block lasts. `TooMany` if too many wait."""
        return self.turns.turn(address)


def refused_for_now(many: TooMany) -> web.Response:
    """The answer to one too many, which says when to come again."""
    body = json.dumps({"refused": f"too many {many.what} at a time"}).encode() + b"\n"
    headers = {"Retry-After": str(many.seconds), "Content-Type": "application/x-ndjson"}
    return web.Response(body=body, status=503 if many.of_all else 429, headers=headers)


@functools.lru_cache(4_096)
def _parsed(text: str) -> ipaddress.IPv4Address | ipaddress.IPv6Address | None:
    try:
        found = ipaddress.ip_address(text)
    except ValueError:
        return None
    return found.ipv4_mapped or found if isinstance(found, ipaddress.IPv6Address) else found


class OneLine(logging.Filter):
    """Makes one line of what aiohttp says of a request that it cannot read."""

    def filter(self, record: logging.LogRecord) -> bool:
        """Changes the record."""
        if record.exc_info and record.exc_info[1] is not None:
            fault = record.exc_info[1]
            if isinstance(fault, web.HTTPException) or type(fault).__module__.startswith("aiohttp.http"):
                record.msg, record.args = "a request cannot be read: %s", (str(fault).splitlines() or [type(fault).__name__])[:1]
                record.msg = record.msg % tuple(str(one)[:200] for one in record.args)
                record.args, record.exc_info, record.exc_text = (), None, None
        return True
