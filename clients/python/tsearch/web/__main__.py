"""Serves a page to search repositories: python3 -m tsearch.web [OPTIONS] REPOSITORY..."""

from __future__ import annotations

import argparse
import asyncio
import contextlib
import dataclasses
import ipaddress
import json
import logging
import os
import signal
import sys

try:
    from aiohttp import web
except ImportError:
    sys.exit(f"tsearch.web: {sys.executable} has no library aiohttp (on Debian: apt-get install python3-aiohttp, for /usr/bin/python3)")

from ..bounds import Bounds
from ..errors import Error
from .connections import Connection, Connections, Door, most_of
from .limits import FIELDS, HOST
from .repositories import Filter, Served
from .reviews import Most
from .server import Server
from .settings import LOOPBACK, Limits, Settings, checked, read_served, served_of
from .sparing import Spared, Sparing
from .turns import BOUNDS, Networks
from .visitors import OneLine


_OF_VISITORS = {
    "ipv4": "the bits of an address that are one visitor",
    "ipv6": "likewise of one of IPv6",
    "at_work": "searches and files of a visitor at a time",
    "waiting": "searches and files of a visitor that wait",
    "all_waiting": "searches and files of all visitors that wait",
    "connections": "connections of all visitors",
}


# In seconds: how long a thread may keep the interpreter that another one waits for.
_SWITCH = 0.001


def _number(least: int, most: int) -> type:
    def read(text: str) -> int:
        if not (text.isascii() and text.isdigit() and len(text) < 20 and least <= int(text) <= most):
            raise argparse.ArgumentTypeError(f"{text} is no number from {least} to {most}")
        return int(text)

    return read  # type: ignore[return-value]


def _seconds(text: str) -> float:
    try:
        seconds = float(text)
    except ValueError:
        seconds = -1.0
    if not 0 < seconds < 1e9:
        raise argparse.ArgumentTypeError(f"{text} is no number of seconds")
    return seconds


def _network(text: str) -> str:
    try:
        return str(ipaddress.ip_network(text, strict=False))
    except ValueError:
        raise argparse.ArgumentTypeError(f"{text} is no address, and no network") from None


def _parser() -> argparse.ArgumentParser:
    parser = argparse.ArgumentParser(prog="python3 -m tsearch.web", description=__doc__.split(":")[0] + ".", allow_abbrev=False)
    add = parser.add_argument
    add("repositories", nargs="*", metavar="REPOSITORY", help="a folder, mostly a git repository; of a bare one HEAD is served")
    add("--revisions", action="append", default=[], metavar="REV", help="serve these branches, tags and commits, and not the files of a working tree; a name with a * is each such branch, tags/* each tag; once for each")
    add("--settings", metavar="FILE", help="a file that names the repositories, and is read again on SIGHUP")
    add("--link", default="", metavar="ADDRESS", help="what leads on to a host's own pages, with {commit}, {path}, {line} and {repository} in it")
    add("--keep-commits", action="store_true", help="show files also at commits that are in no branch any more, as after a force push, but were served")
    add("--no-alternates", action="store_true", help="serve no repository whose objects are partly in folders outside it")
    add("--host", default="127.0.0.1", help="the address to listen at, by default %(default)s: this machine alone")
    add("--port", type=_number(1, 65_535), default=8_080, help="by default %(default)s")
    add("--most-lines", type=_number(1, 100_000), default=Limits.lines, help="lines of an answer, by default %(default)s")
    add("--search-ms", type=_number(1, 4_294_967_295), default=Limits.search_ms, help="the time of a search, by default %(default)s")
    add("--most-searches", type=_number(1, 512), default=Limits.searches, help="searches at a time, by default %(default)s")
    add("--most-context", type=_number(0, 1_000), default=Limits.context, help="lines around a line, by default %(default)s")
    add("--most-reviews", type=_number(1, 100), default=Most.open, help="comparisons that are open at a time, by default %(default)s")
    add("--review-ms", type=_number(1, 4_294_967_295), default=Most.milliseconds, help="the time until one is open, by default %(default)s")
    add("--review-bytes", type=_number(1, 1 << 32), default=Most.bytes, help="bytes of the files that one compares, by default %(default)s")
    add("--review-files", type=_number(1, 10_000_000), default=Most.files, help="files that one compares, by default %(default)s")
    for field, (most, what) in FIELDS.items():
        add(f"--max-{field}", type=_number(1, most), default=getattr(HOST, field), metavar="N", help=f"{what}, by default %(default)s: what is over it is left out")
    add("--readers", type=_number(0, 16), help="threads that search, by default one for each processor")
    add("--look", type=_seconds, default=5.0, metavar="SECONDS", help="look for changed files so often, by default %(default)s")
    add("--name", action="append", default=[], help="a host name, or an address, under which the page may be called, beside localhost; once for each")
    add("--proxy", action="append", default=[], type=_network, metavar="ADDRESS", help="a proxy whose X-Forwarded-For says who asks; once for each")
    for field, meaning in _OF_VISITORS.items():
        add(f"--visitor-{field.replace('_', '-')}", type=_number(*BOUNDS[field]), default=getattr(Networks, field), help=f"{meaning}, by default %(default)s")
    add("--filter-header", metavar="NAME", help="a header that the host in front sets: what a request may see")
    add("--log", metavar="FILE", help="write a JSON line for each request; - is standard output")
    add("--slow-ms", type=_number(0, 4_294_967_295), default=Settings.slow_ms, help="name the search there from so many milliseconds on, by default %(default)s")
    add("--cluster", metavar="ADDRESS", help="keep the documents on the workers of this Dask scheduler")
    add("--shards", type=_number(1, 1_000), default=2, help="over so many of these workers, by default %(default)s")
    return parser


def _served(given: argparse.Namespace, parser: argparse.ArgumentParser) -> tuple[Served, ...]:
    if bool(given.settings) == bool(given.repositories) or (given.settings and (given.revisions or given.link)):
        parser.error("give repositories, or --settings with a file that names them")
    for folder in given.repositories:
        if not os.path.isdir(folder):
            parser.error(f"{folder} is not a folder")
    try:
        of_each = {"keep_commits": given.keep_commits, "alternates": not given.no_alternates}
        if given.settings:
            return read_served(given.settings, _bounds(given), **of_each)
        found = served_of(given.repositories, given.revisions, given.link, _bounds(given))
        return tuple(checked(dataclasses.replace(one, **of_each), one.name) for one in found)
    except Error as error:
        parser.error(str(error))


def _bounds(given: argparse.Namespace) -> Bounds:
    return Bounds(**{field: getattr(given, f"max_{field}") for field in FIELDS})


def _filters_of(request: web.Request, header: str) -> dict[str, Filter]:
    """The filters in a header: {"REPOSITORY": {"names": [ERE..], "not_names": [ERE..], "under": [PATH..], "not_under": [PATH..]}, ..}.
    Without the header nothing is seen."""
    try:
        found = json.loads(request.headers.get(header, "{}"))
        return {name: Filter(*(_texts_of(own, key) for key in Filter._fields)) for name, own in found.items()}
    except (ValueError, AttributeError):
        raise web.HTTPBadRequest(text=f"the header {header} is not understood") from None


def _texts_of(own: dict[str, object], key: str) -> tuple[str, ...]:
    found = own.get(key, [])
    if own.keys() - set(Filter._fields) or not isinstance(found, list) or not all(isinstance(one, str) for one in found):
        raise ValueError
    if key.endswith("under") and not all(found):
        raise ValueError  # a path is not empty
    return tuple(found)


def _settings(words: list[str] | None) -> tuple[argparse.Namespace, Settings]:
    parser = _parser()
    given = parser.parse_args(words)
    settings = Settings(
        served=_served(given, parser),
        limits=Limits(
            given.most_lines, given.search_ms, given.most_searches, given.most_context,
            reviews=Most(given.most_reviews, given.review_ms, given.review_bytes, given.review_files),
        ),  # fmt: skip
        bounds=_bounds(given),
        readers=given.readers,
        look=given.look,
        hosts=frozenset({*LOOPBACK, *given.name}),
        proxies=frozenset(given.proxy),
        filters=None if given.filter_header is None else lambda request: _filters_of(request, given.filter_header),
        cluster=given.cluster,
        shards=given.shards,
        file=given.settings,
        keep_commits=given.keep_commits,
        alternates=not given.no_alternates,
        log=given.log,
        slow_ms=given.slow_ms,
        networks=Networks(**{field: getattr(given, f"visitor_{field}") for field in _OF_VISITORS}),
    )
    return given, settings


def _say(text: str) -> None:
    with contextlib.suppress(OSError):
        print("tsearch.web:", *text.splitlines(), file=sys.stderr, flush=True)


def _most_connections(server: Server) -> int:
    wanted = server.visitors.turns.networks.connections
    most = most_of(wanted)
    if most < wanted:
        _say(f"there may be {most} connections at a time, and not {wanted}: the system lets a process have so few files open (ulimit -n, LimitNOFILE)")
    return most


async def _serve(host: str, port: int, settings: Settings) -> None:
    """Serves until a signal ends it. SIGHUP reads the settings again."""
    loop, ending = asyncio.get_running_loop(), asyncio.Event()
    sparing = Sparing()
    server = Server(settings, lambda text: sparing.say(_say, text))
    runner = web.AppRunner(server.application(), access_log=None, keepalive_timeout=30.0)
    await runner.setup()
    tasks: set[asyncio.Task[None]] = set()

    def read_again() -> None:
        task = loop.create_task(server.read_again())
        tasks.add(task)
        task.add_done_callback(tasks.discard)

    loop.add_signal_handler(signal.SIGHUP, read_again)
    for number in signal.SIGINT, signal.SIGTERM:
        loop.add_signal_handler(number, ending.set)
    manager = runner.server
    assert manager is not None

    connections = server.connections = Connections(server.visitors, _most_connections(server), lambda text: sparing.say(_say, text, "late"))

    def connected(networks: tuple[str, ...]) -> Connection:
        return Connection(manager, connections=connections, networks=networks, loop=loop, access_log=None, keepalive_timeout=30.0)

    door = Door(connections, connected, lambda text: sparing.say(_say, text, "no file"))
    await door.open(host, port)
    _say(f"serves at http://{host}:{port}/")
    if host not in LOOPBACK and settings.hosts == LOOPBACK:
        _say("no name is served but localhost: --name says by which others it may be called")
    await ending.wait()
    door.close()
    await runner.cleanup()


def main(words: list[str] | None = None) -> None:
    """Serves until it is interrupted."""
    given, settings = _settings(words)
    # threads that work on something large let the others go on sooner
    sys.setswitchinterval(_SWITCH)
    handler = logging.StreamHandler()
    handler.setFormatter(logging.Formatter("tsearch.web: %(message)s"))
    handler.addFilter(OneLine())
    handler.addFilter(Spared())
    for name in "aiohttp.server", "asyncio":
        logger = logging.getLogger(name)
        logger.addHandler(handler)
        logger.propagate = False
    try:
        asyncio.run(_serve(given.host, given.port, settings))
    except Error as error:
        sys.exit(f"tsearch.web: {error}")
    except OSError as error:
        sys.exit(f"tsearch.web: {error.filename or f'{given.host} {given.port}'}: {error.strerror or error}")


if __name__ == "__main__":
    main()
