"""The server of the page: the page itself, searches, reviews and files as JSON, and measurements."""

from __future__ import annotations

import asyncio
import collections
import contextlib
import dataclasses
import importlib.resources
import json
import os
import time
import urllib.parse
from collections.abc import AsyncIterator, Awaitable, Callable, Sequence
from dataclasses import dataclass
from typing import Any

from aiohttp import web

from .. import aio
from ..answers import Answer
from ..errors import Cancelled, Ended, Error, OptionRefused, PatternRefused, SearchRefused, TooSlow
from ..merging import cut
from ..names import to_bytes
from ..query import Options, Query
from ..review import Found as Reviewed
from ..review import Line
from ..shortening import LONGEST, shortened
from .absent import Absent
from .connections import Connections
from .hinting import Hinting
from .marks import marks_of
from .measures import Counted, Histogram, Log, Metrics, length_of, memory_of
from .repositories import HEAD, Filter, Found, Gone, Objects, Repository, Served, Shared, Unread, repository_of, seeing, unforeseen
from .reviews import NotOpen
from .rows import BLOCK, blocks_of, id_of
from .searching import GRACE, Late, Search
from .settings import Limits, Settings, read_told, served_in
from .told import told_of
from .turns import TooMany, networks_of, wide_of
from .views import Texts, Wanted, view, written
from .visitors import Visitors, refused_for_now

_LINES = "application/x-ndjson"
_HEADERS = {
    "Content-Security-Policy": "default-src 'none'; script-src 'self'; style-src 'self'; connect-src 'self'; img-src 'self'; "
    "base-uri 'none'; form-action 'none'; frame-ancestors 'none'",
    "X-Content-Type-Options": "nosniff",
    "Referrer-Policy": "no-referrer",
    "Cross-Origin-Resource-Policy": "same-origin",
    "Cache-Control": "no-store",
}
_FILES = {
    "/": ("page.html", "text/html"),
    "/page.js": ("page.js", "text/javascript"),
    "/page.css": ("page.css", "text/css"),
    "/icon.svg": ("icon.svg", "image/svg+xml"),
}
_OWN_SITE = ("none", "same-origin")
# In bytes: so much is written at a time, if there is more than that.
_WRITTEN = 1 << 18
# In bytes: an answer that is longer is worked on in a thread, with which this one has to share the interpreter.
_LARGE = 1 << 20
_MOST_READERS = 16
_LONGEST_LANE = 64
# In seconds: what is absent is looked for so often at most.
_LEAST_LOOK = 1.0
# How often it is seen whether a visitor has gone, in seconds.
_OFTEN = 0.2
# The name of a repository, the filter of the host, and what it answers or with what it fails.
_Outcome = tuple[str, Filter, Any]
_written = json.JSONEncoder(separators=(",", ":")).encode
_OUTCOMES = ("answered", "refused", "too slow", "cancelled", "left", "ended", "too many")


@dataclass(frozen=True)
class Asked:
    """A search as a visitor asks for it. Nothing of it reaches a session but as a pattern or a name pattern."""

    query: Query
    repositories: frozenset[str]
    revision: str
    is_whole: bool
    visitor: str
    turn: int

    @classmethod
    def of(cls, words: dict[str, list[str]], limits: Limits) -> Asked:
        """The search that the words of an address ask for. A number that is none counts as its default, and one over its limit as the
        limit."""

        def number(key: str, most: int, default: int) -> int:
            text = words.get(key, [""])[-1]
            return min(int(text), most) if _is_number(text) else default

        flags = Options(
            ignore_case="i" in words, literal="F" in words, whole_words="w" in words, whole_lines="x" in words, invert="v" in words
        )
        query = Query.of(
            words.get("q", [""])[-1],
            names=[word for word in words.get("name", []) if word],
            not_names=[word for word in words.get("not", []) if word],
            limit=max(1, number("max", limits.lines, limits.lines)),
            context=number("context", limits.context, 0),
            spans=not flags["invert"],
            **flags,
        )
        return cls(
            query,
            repositories=frozenset(word for word in words.get("repository", []) if word),
            revision=words.get("revision", [""])[-1],
            is_whole="whole" in words,
            visitor=words.get("visitor", [""])[-1],
            turn=number("turn", 2**53, 0),
        )

    @property
    def limit(self) -> int:
        """How many lines are shown at most."""
        assert self.query.limit is not None
        return self.query.limit

    def place_of(self, fault: PatternRefused, own: Filter) -> str:
        """Which pattern it is that is refused: `pattern`, or a name pattern of the field `name` or `not`, or of the `host`."""
        query = self.query
        names = ["name"] * len(query.names) + ["host"] * len(own.names) + ["not"] * len(query.not_names) + ["host"] * len(own.not_names)
        return ["pattern", *names][fault.number]


def _is_number(text: str) -> bool:
    return text.isascii() and text.isdigit() and len(text) < 20


def _words_of(request: web.Request) -> dict[str, list[str]]:
    """The words of an address. Bytes that are no UTF-8 are kept, as lone surrogates."""
    query = request.rel_url.raw_query_string
    return urllib.parse.parse_qs(query, keep_blank_values=True, encoding="utf-8", errors="surrogateescape")


class _Kept:
    """A repository that is served, the task that keeps it, and that which gets hints."""

    def __init__(self, repository: Repository, task: asyncio.Task[None], hinting: Hinting) -> None:
        self.repository = repository
        # what the settings say of it: of a folder that has become a bare repository it is still the folder
        self.entry = repository.served
        self.task = task
        self.hinting = hinting

    def take(self, served: Served) -> bool:
        """Serves this from the next look on. False if that is another repository."""
        is_taken = self.repository.take(served)
        if is_taken:
            self.entry = served
        return is_taken

    async def leave(self) -> None:
        """Ends all of it, and removes its documents."""
        await self.hinting.end()
        await self.repository.leave(self.task)

    async def end(self) -> None:
        """Ends all of it at once, before the session."""
        await self.hinting.end()
        await _end_task(self.task)


class Server:
    """The application, and what it counts."""

    def __init__(self, settings: Settings, say: Callable[[str], None]) -> None:
        self._settings = settings
        self._say = say
        self._kept: dict[str, _Kept] = {}
        # what the file of settings had when it was read last; why what is absent was so, as it was said last; and why there are no hints
        self._told: dict[str, Any] | None = None
        self._absent: dict[str, str] = {}
        self._unwatched: set[str] = set()
        self._changing = asyncio.Lock()
        # of repositories that are served no longer
        self._leaving: set[asyncio.Task[None]] = set()
        self._shared: Shared
        self._client: Any = None
        self._running: dict[str, tuple[int, asyncio.Task[web.StreamResponse]]] = {}
        # the answers that are made, each with who asked
        self._asked: dict[asyncio.Task[web.StreamResponse], web.Request] = {}
        # how many there are is told, if they are counted
        self.connections: Connections | None = None
        self.visitors = Visitors(settings.proxies, settings.networks, settings.limits.searches)
        self._texts = Texts()
        self._outcomes: collections.Counter[str] = collections.Counter()
        self._seconds = Histogram()
        self._log = Log(settings.log)

    def application(self) -> web.Application:
        """What aiohttp serves."""
        application = web.Application(middlewares=[self._logged, self._check_site])
        application.cleanup_ctx.append(self._run)
        application.on_response_prepare.append(_add_headers)
        for path in _FILES:
            application.router.add_get(path, _file)
        for path, handler in {
            "find": self._find, "count": self._count, "review": self._review, "file": self._view, "status": self._status,
        }.items():  # fmt: skip
            application.router.add_get(f"/api/{path}", handler)
        application.router.add_post("/api/look", self._look)
        application.router.add_get("/metrics", self._metrics)
        application.router.add_get("/health", self._health)
        return application

    # What is served.

    async def _run(self, application: web.Application) -> AsyncIterator[None]:
        """Starts the session, keeps the repositories in it, and ends it."""
        async with contextlib.AsyncExitStack() as stack:
            session = await self._session(stack)
            self._shared = Shared(session, self._say, self._settings.limits.reviews)
            stack.callback(self._shared.end)
            stack.push_async_callback(session.close, 2.0)
            stack.push_async_callback(self._end)
            stack.push_async_callback(_end_task, asyncio.create_task(self._watch()))
            if self._settings.file is not None:
                self._told = await asyncio.to_thread(read_told, self._settings.file)
                self.visitors.turns.networks = networks_of(self._told, self._settings.networks, self._settings.file)
            await self._serve(self._settings.served)
            stack.push_async_callback(_end_task, asyncio.create_task(self._look_for_absent()))
            yield

    async def _session(self, stack: contextlib.AsyncExitStack) -> Any:
        """The session, or a cluster in its place."""
        settings = self._settings
        limits = settings.limits
        readers = min(os.cpu_count() or 2, _MOST_READERS) if settings.readers is None else settings.readers
        options: dict[str, Any] = {"readers": readers, "search_ms": limits.search_ms, "max_answer": limits.answer}
        if settings.cluster is None:
            return await aio.Session.start(**options)
        try:
            from distributed import Client

            from ..cluster import Cluster
        except ImportError:
            raise Error("a cluster needs the library distributed (on Debian: apt-get install python3-distributed)") from None
        make: Any = Client
        try:
            self._client = await stack.enter_async_context(make(settings.cluster, asynchronous=True, direct_to_workers=True))
        except (OSError, ValueError) as error:
            raise Error(f"the scheduler {settings.cluster} cannot be reached: {error}") from None
        return Cluster(self._client, settings.shards, **options)

    async def _end(self) -> None:
        for task in list(self._leaving):
            await _end_task(task)
        for kept in self._kept.values():
            await kept.end()

    async def read_again(self) -> None:
        """Reads the file of settings again, and serves what it says now; what has not changed goes on. A file with a fault changes nothing.
        The log is opened anew."""
        try:
            self._log.open()
        except OSError as error:
            self._say(f"the log stays as it was: {error}")
        if self._settings.file is None:
            return
        try:
            told = await asyncio.to_thread(read_told, self._settings.file)
            networks = networks_of(told, self._settings.networks, self._settings.file)
        except Error as error:
            self._say(f"the settings stay as they were: {error}")
            return
        self._told, self.visitors.turns.networks = told, networks
        await self._serve(await asyncio.to_thread(self._wanted))

    async def _look_for_absent(self) -> None:
        """Serves what cannot be served once it can."""
        while True:
            await asyncio.sleep(max(self._settings.look, _LEAST_LOOK))
            if any(isinstance(one, Absent) for one in self._repositories):
                wanted = await asyncio.to_thread(self._wanted)
                if any(isinstance(one, Absent) and one.served not in wanted for one in self._repositories):
                    await self._serve(wanted)

    def _wanted(self) -> tuple[Served, ...]:
        """What the settings name, as far as it can be served now."""
        if self._settings.file is None or self._told is None:
            return self._settings.served
        settings = self._settings
        return served_in(self._told, settings.file, settings.bounds, keep_commits=settings.keep_commits, alternates=settings.alternates)

    async def _serve(self, wanted: tuple[Served, ...]) -> None:
        """Serves these repositories, and no others."""
        async with self._changing:
            now = {served.name: served for served in wanted}
            for name, kept in list(self._kept.items()):
                served = now.get(name)
                if served is not None and self._goes_on(served, kept.repository):
                    continue
                if served is None or (served != kept.entry and not kept.take(served)):
                    self._leave(self._kept.pop(name))
            for name, served in now.items():
                if name not in self._kept:
                    self._add(served)
            self._kept = {name: self._kept[name] for name in now if name in self._kept}
            self._absent = {name: self._absent[name] for name in now if name in self._absent}
            if not now and self._settings.file is not None:
                self._say(f"{self._settings.file} names no repository, so nothing is served")
            needed, there = await self._workers()
            if needed > there:
                self._say(f"{needed} workers are needed for {needed} shards, and there are {there}")

    def _goes_on(self, served: Served, repository: Repository) -> bool:
        """Whether what is served goes on though its entry has a fault by now, as while its disk is away."""
        if not served.fault or isinstance(repository, Absent) or os.path.abspath(served.path) != repository.served.path:
            return False
        if self._absent.get(served.name) != served.fault:
            self._say(f"{served.name} goes on as it was: {served.fault}")
        self._absent[served.name] = served.fault
        return True

    def _add(self, served: Served) -> None:
        try:
            repository = Absent(served, self._shared) if served.fault else repository_of(served, self._shared)
        except Error as error:
            repository = Absent(dataclasses.replace(served, fault=str(error)), self._shared)
        if isinstance(repository, Absent) and repository.served.fault != self._absent.get(served.name):
            self._say(f"{served.name} is left out: {repository.served.fault}")
        self._absent |= {served.name: repository.served.fault}
        task = asyncio.create_task(self._keep(repository))
        self._kept[served.name] = _Kept(repository, task, Hinting(repository, self._say_unwatched))

    def _say_unwatched(self, repository: Repository, fault: str) -> None:
        """Says, once for each reason, that a repository gives no hints; `api/status` says it of each."""
        if fault not in self._unwatched:
            self._unwatched.add(fault)
            self._say(f"{repository.name}: changes are seen late, by a look every {self._settings.look:g} seconds, as of all that api/status names: {fault}")

    async def _keep(self, repository: Repository) -> None:
        """Keeps a repository in the session. Of a folder that has become a bare repository HEAD is served from then on."""
        await repository.keep(self._settings.look, self._say, self._log.write)
        if not repository.has_turned:
            return
        async with self._changing:
            name, order = repository.name, list(self._kept)
            if name in self._kept and self._kept[name].repository is repository:
                self._leave(self._kept.pop(name))
                self._add(dataclasses.replace(repository.served, revisions=(HEAD,)))
                if not isinstance(self._kept[name].repository, Absent):  # otherwise it is whole no longer, and is looked for
                    self._kept[name].entry = repository.served
                self._kept = {one: self._kept[one] for one in order if one in self._kept}

    def _leave(self, kept: _Kept) -> None:
        task = asyncio.create_task(kept.leave())
        self._leaving.add(task)

        def left(task: asyncio.Task[None]) -> None:
            self._leaving.discard(task)
            fault = None if task.cancelled() else task.exception()
            if fault:
                self._log.write(**unforeseen(kept.repository.name, fault))
                self._say(f"{kept.repository.name}: its documents were not removed: {fault!r}")

        task.add_done_callback(left)

    async def _workers(self) -> tuple[int, int]:
        """How many workers of a cluster are needed, and how many there are."""
        if self._client is None:
            return 0, 0
        there = len((await self._client.scheduler.identity())["workers"])
        return self._settings.shards, there

    @property
    def _repositories(self) -> list[Repository]:
        return [kept.repository for kept in self._kept.values()]

    def _seen_by(self, request: web.Request) -> list[tuple[Repository, Filter]]:
        """The repositories that a request may see, with their filters."""
        if self._settings.filters is None:
            return [(repository, Filter()) for repository in self._repositories]
        filters = self._settings.filters(request)
        return [(repository, filters[repository.name]) for repository in self._repositories if repository.name in filters]

    # Who asks.

    @web.middleware
    async def _logged(self, request: web.Request, handler: Callable[[web.Request], Awaitable[web.StreamResponse]]) -> web.StreamResponse:
        """Writes a line of the log for each request, and notes who asks."""
        began, status, length = time.monotonic(), 0, 0
        request["address"] = self.visitors.address_of(request)
        try:
            response = await handler(request)
            status, length = response.status, length_of(request, response)
            return response
        except web.HTTPException as fault:
            status, length = fault.status, length_of(request, fault)
            raise
        finally:
            seconds = time.monotonic() - began
            more = {"query": _shown_query(request)} if seconds * 1_000 >= self._settings.slow_ms and request.path.startswith("/api/") else {}
            self._log.write(
                address=_address_of(request), method=request.method, path=request.path[:1_000], status=status, bytes=length,
                seconds=round(seconds, 4), **({"slow": True, **more} if more else {}),
            )  # fmt: skip

    @web.middleware
    async def _check_site(self, request: web.Request, handler: Callable[[web.Request], Awaitable[web.StreamResponse]]) -> web.StreamResponse:
        """A page of another site may lead its own name to this machine, or ask from a browser here, and must not read or start anything. It
        may have a link to the page."""
        host = _host_of(f"//{request.host}").rpartition("@")[2]
        name = host if host.endswith("]") else host.rpartition(":")[0] or host
        if self._settings.hosts is not None and name not in self._settings.hosts:
            raise web.HTTPForbidden(text="this name is not served: --name says which are")
        is_link = request.path == "/" and request.method == "GET" and request.headers.get("Sec-Fetch-Mode") == "navigate"
        site, origin = request.headers.get("Sec-Fetch-Site"), request.headers.get("Origin")
        is_other = site not in _OWN_SITE if site is not None else origin is not None and _host_of(origin) != request.host
        if is_other and not is_link:
            raise web.HTTPForbidden(text="")
        return await handler(request)

    # Searches.

    async def _find(self, request: web.Request) -> web.StreamResponse:
        asked = Asked.of(_words_of(request), self._settings.limits)
        return await self._while_wanted(request, asked, self._answer(request, asked))

    async def _count(self, request: web.Request) -> web.StreamResponse:
        asked = Asked.of(_words_of(request), self._settings.limits)
        return await self._while_wanted(request, asked, self._answer_count(request, asked))

    async def _review(self, request: web.Request) -> web.StreamResponse:
        asked = Asked.of(_words_of(request), self._settings.limits)
        return await self._while_wanted(request, asked, self._answer_review(request, asked))

    async def _while_wanted(self, request: web.Request, asked: Asked, answer: Any) -> web.StreamResponse:
        """Makes an answer for as long as its visitor waits for it."""
        task: asyncio.Task[web.StreamResponse] = asyncio.create_task(answer)
        self._asked[task] = request
        self._replace_search(asked, task)
        try:
            await asyncio.wait([task])
            return task.result()
        except asyncio.CancelledError:
            task.cancel()
            self._outcomes["cancelled"] += 1
            own = asyncio.current_task()
            if "begun" in request or _has_left(request) or (own and own.cancelling()):
                raise
            return _lines_of({"refused": "cancelled"}, status=409)
        except TooMany as many:
            self._outcomes["too many"] += 1
            return refused_for_now(many)
        except ConnectionResetError:
            self._outcomes["left"] += 1
            raise asyncio.CancelledError from None  # which aiohttp takes as what it is
        finally:
            del self._asked[task]
            if self._running.get(asked.visitor) == (asked.turn, task):
                del self._running[asked.visitor]

    async def _watch(self) -> None:
        """Cancels the answers of visitors who have gone."""
        while True:
            await asyncio.sleep(_OFTEN)
            for task, request in self._asked.items():
                if _has_left(request):
                    task.cancel()

    def _replace_search(self, asked: Asked, task: asyncio.Task[web.StreamResponse]) -> None:
        """A visitor who types has one search: of two, which may come in any order, the one of the earlier turn is cancelled."""
        if not asked.visitor:
            return
        turn, before = self._running.get(asked.visitor, (0, None))
        if before and turn > asked.turn:
            task.cancel()
            return
        if before:
            before.cancel()
        self._running[asked.visitor] = asked.turn, task

    async def _outcomes_of(self, request: web.Request, asked: Asked, made: Callable[[Search], Awaitable[Sequence[Any]]]) -> list[_Outcome]:
        """What each repository answers, or with what it fails; so does one that is named and is not there, or may not be seen."""
        chosen = [(found, own) for found, own in self._seen_by(request) if not asked.repositories or found.name in asked.repositories]
        strange = sorted(asked.repositories - {found.name for found, _ in chosen})
        query = dataclasses.replace(asked.query, lane=_lane_of(request))
        async with self.visitors.turn(_address_of(request)):
            limits = self._settings.limits
            outcomes = await made(Search(self._shared, chosen, query, asked.revision, limits.search_ms, limits.answer))
        told = [(repository.name, own, outcome) for (repository, own), outcome in zip(chosen, outcomes, strict=True)]
        return told + [(name, Filter(), _no_repository(name)) for name in strange]

    async def _answer(self, request: web.Request, asked: Asked) -> web.StreamResponse:
        began = time.monotonic()
        outcomes = await self._outcomes_of(request, asked, Search.find)
        self._seconds.add(time.monotonic() - began)
        refusal = self._refusal_of_all(outcomes, asked)
        if refusal is not None:
            return refusal
        self._outcomes["answered"] += 1
        return await self._write(request, asked, outcomes, began)

    def _refusal_of_all(self, outcomes: list[_Outcome], asked: Asked) -> web.Response | None:
        """The refusal of a search that cannot be read, or that no repository answers."""
        faults = [(own, found) for _, own, found in outcomes if isinstance(found, Exception)]
        for own, fault in faults:
            if isinstance(fault, (PatternRefused, OptionRefused)) or len(faults) == len(outcomes):
                return self._refusal(fault, asked, own)
        return None

    def _refusal(self, fault: Exception, asked: Asked | None = None, own: Filter = Filter()) -> web.Response:
        if isinstance(fault, PatternRefused) and asked:
            self._outcomes["refused"] += 1
            return _lines_of({"refused": fault.reason, "offset": fault.offset, "in": asked.place_of(fault, own)}, status=400)
        if isinstance(fault, OptionRefused):
            self._outcomes["refused"] += 1
            return _lines_of({"refused": fault.reason}, status=400)
        if isinstance(fault, Gone):
            self._outcomes["refused"] += 1
            return _lines_of({"refused": str(fault)}, status=404)
        outcome, told = self._fault(fault)
        self._outcomes[outcome] += 1
        return _lines_of({"refused": told.pop("fault"), **told}, status=503)

    def _fault(self, fault: Exception) -> tuple[str, dict[str, object]]:
        """What is said of a repository that gives no answer."""
        match fault:
            case TooSlow() | Cancelled():
                alone = {"alone": True} if isinstance(fault, Late) else {"milliseconds": self._settings.limits.search_ms}
                return "too slow", {"fault": fault.reason, **alone}
            case SearchRefused():
                return "refused", {"fault": fault.reason}
            case Gone():
                return "refused", {"fault": str(fault)}
            case Unread():
                return "ended", {"fault": str(fault), "again": fault.is_soon}
            case Ended():
                return "ended", {"fault": "the program starts again", "again": True}
            case Error():  # as of a shard that is lost
                return "ended", {"fault": told_of(fault), "again": True}
        raise fault

    async def _write(self, request: web.Request, asked: Asked, outcomes: list[_Outcome], began: float) -> web.StreamResponse:
        """Writes the answers, a line for each repository and for each document with its hits, and one at the end."""
        response = Counted(headers={"Content-Type": _LINES})
        request["begun"] = True
        await response.prepare(request)
        counts = [found.answer.count if isinstance(found, Found) else 0 for _, _, found in outcomes]
        lines, has_more, missing, waiting = 0, False, [], b""
        marks = marks_of(asked.query)
        for (name, _, found), share in zip(outcomes, shares(counts, asked.limit)):
            if isinstance(found, Exception):
                missing.append(_as_text(name))
                waiting += _json({"repository": _as_text(name), **self._fault(found)[1]})
                continue
            answer = found.answer
            if answer.count > share:
                answer = await _worked(answer, cut, answer, share, asked.query.context or 0)
            lines, has_more = lines + answer.count, has_more or answer.more
            waiting += _json(_head_of(name, found, answer))
            await asyncio.sleep(0)  # each has its share of the work on marks
            blocks = blocks_of(answer, name, asked.is_whole, found.start, marks)
            while block := await _worked(answer, next, blocks, b""):
                waiting += block
                if len(waiting) > _WRITTEN:
                    await response.write(waiting)
                    waiting = b""
        total: dict[str, object] = {"lines": lines, "more": has_more, "seconds": round(time.monotonic() - began, 4)}
        await response.write_eof(waiting + _json(total | ({"missing": missing} if missing else {})))
        return response

    async def _answer_count(self, request: web.Request, asked: Asked) -> web.StreamResponse:
        """How many lines each repository has in all."""
        outcomes = await self._outcomes_of(request, asked, Search.count)
        refusal = self._refusal_of_all(outcomes, asked)
        if refusal is not None:
            return refusal
        counts = {name: found for name, _, found in outcomes if isinstance(found, int)}
        return web.json_response({"counts": counts})

    async def _answer_review(self, request: web.Request, asked: Asked) -> web.StreamResponse:
        """The lines that a patch removes, adds and leaves, a line for each file, and one at the end."""
        words = {key: found[-1] for key, found in _words_of(request).items()}
        began = time.monotonic()
        try:
            repository, own = self._one(request, words.get("repository", ""))
        except Gone as gone:
            return self._refusal(gone)
        if not isinstance(repository, Objects):
            return self._refusal(Gone("there are no revisions of it"))
        try:
            found, commits = await self._reviewed(request, repository, asked, words, own)
        except NotOpen as fault:
            self._outcomes["too slow"] += 1
            return _lines_of({"refused": fault.reason}, status=503, more={"Retry-After": str(fault.seconds)})
        except TimeoutError:
            return self._refusal(TooSlow("too slow"), asked)
        except Error as fault:
            return self._refusal(fault, asked, own)
        self._seconds.add(time.monotonic() - began)
        self._outcomes["answered"] += 1
        body = _json({"repository": repository.name, **commits})
        for file in found.files:
            sides = {side: {"name": _shown(path), "id": id_of(path)} for side, path in (("before", file.before), ("after", file.after)) if path is not None}
            coarse = {"coarse": True} if file.is_coarse else {}
            body += _json({**sides, **coarse, "hits": [_review_row(line, asked.is_whole) for line in file.lines]})
        counts = {word: found.count(sign) for word, sign in (("removed", "-"), ("added", "+"), ("left", " "))}
        body += _json({**counts, "more": found.more, "seconds": round(time.monotonic() - began, 4)})
        return await written(request, body, _LINES)

    async def _reviewed(
        self, request: web.Request, repository: Objects, asked: Asked, words: dict[str, str], own: Filter
    ) -> tuple[Reviewed, dict[str, object]]:
        """What a search in a review finds, and its commits. While it is opened, the turn of the visitor is free for a search."""
        limits, address = self._settings.limits, _address_of(request)
        seconds = limits.search_ms / 1_000 + GRACE
        async with self.visitors.turn(address), asyncio.timeout(seconds):
            commits = [await repository.commit(words.get(side, "")) for side in ("before", "after")]
        query = asked.query
        options = Options(
            ignore_case=query.ignore_case, literal=query.literal, whole_words=query.whole_words, whole_lines=query.whole_lines, invert=query.invert,
            names=(*query.names, *map(to_bytes, own.names)), not_names=(*query.not_names, *map(to_bytes, own.not_names)), limit=query.limit,
            under=own.under, not_under=own.not_under, lane=_lane_of(request),
        )  # fmt: skip
        async with repository.review(commits[0], commits[1], address) as review:
            async with self.visitors.turn(address), asyncio.timeout(seconds):
                for commit in commits:
                    await repository.check_served(commit)  # it may have gone while the review was opened
                found = await review.find(query.pattern, sees=seeing(own) if any(own) else None, **options)
            return found, {"before": commits[0], "after": commits[1], "left_out": len(review.patch.left_out)}

    def _one(self, request: web.Request, name: str) -> tuple[Repository, Filter]:
        """The repository of a name, if it may be seen: `Gone` if there is none."""
        seen = self._seen_by(request)
        found = next((pair for pair in seen if pair[0].name == name), None)
        if found is None and not name and len(seen) == 1:
            found = seen[0]
        if found is None and name:
            raise _no_repository(name)
        if found is None:
            raise web.HTTPBadRequest(text="give the repository")
        return found

    # Files, what is served, and measurements.

    async def _view(self, request: web.Request) -> web.StreamResponse:
        words = {key: found[-1] for key, found in _words_of(request).items()}
        numbers = [words.get(key, "") for key in ("life", "version")]
        try:
            Wanted.of(words)
        except ValueError:
            raise web.HTTPBadRequest(text="from and to are numbers of lines") from None
        if not words.get("name") or any(numbers) and not all(map(_is_number, numbers)):
            raise web.HTTPBadRequest(text="give the repository and the name, and where they are known the commit, or the life and the version")
        try:
            repository, own = self._one(request, words.get("repository", ""))
        except Gone as gone:
            return self._refusal(gone)
        name = to_bytes(words["name"])
        try:
            async with self.visitors.turn(_address_of(request)), asyncio.timeout(self._settings.limits.search_ms / 1_000 + GRACE):
                if not await repository.admits(own, name, _lane_of(request)):
                    raise Gone("there is no such file")
                shown = await view(repository, name, words, _lane_of(request), self._texts)
        except Gone as gone:
            return web.json_response({"refused": str(gone)}, status=410)
        except TooMany as many:
            return refused_for_now(many)
        except TimeoutError:
            return self._refusal(TooSlow("too slow"))
        except Error as fault:
            return self._refusal(fault)
        if shown is None:
            return web.json_response({"refused": "there is no such file, or it is empty"}, status=404)
        return await written(request, shown)

    async def _status(self, request: web.Request) -> web.Response:
        told = []
        for repository, own in self._seen_by(request):
            left_out = repository.left_out
            one: dict[str, object] = {"repository": repository.name, "loaded": repository.is_loaded, "left_out": sum(left_out.counts.values())}
            one["left_out_for"] = left_out.counts
            if left_out.over:
                one["over"] = left_out.over
                if not any(own):
                    one["named"] = [{"name": _shown(name), "why": why} for name, why in left_out.names]
            one["revisions"] = [{"name": name, "commit": commit} for name, commit in repository.revisions.items() if name]
            one["documents"], one["bytes"] = repository.kept.totals
            if repository.served.link:
                one["link"] = repository.served.link
            if repository.fault:
                one["fault"] = repository.fault
            if repository.name in self._kept and (unwatched := self._kept[repository.name].hinting.fault):
                one["no_hints"] = unwatched
            if not repository.is_loaded:
                one["done"], one["of"] = repository.progress
            told.append(one)
        limits, more = self._settings.limits, {}
        with contextlib.suppress(Ended, TimeoutError):
            more["version"] = (await self._shared.status()).version
        needed, there = await self._workers()
        if needed:
            more["workers"] = {"needed": needed, "there": there}
        return web.json_response({"repositories": told, "lines": limits.lines, "context": limits.context, **more})

    async def _look(self, request: web.Request) -> web.Response:
        """A hint that something has changed: a hook after a push sends it. Which repositories there are is told unless that is a matter of
        who asks."""
        name = _words_of(request).get("repository", [""])[-1]
        wanted = [repository for repository in self._repositories if name in ("", repository.name)]
        for repository in wanted:
            repository.hint()
        if name and not wanted and self._settings.filters is None:
            return web.json_response({"refused": str(_no_repository(name))}, status=404)
        return web.Response(status=204)

    async def _health(self, request: web.Request) -> web.Response:
        """Whether all is served, and which is not, unless what may be seen is a matter of who asks."""
        faults = [one.name for one in self._repositories if not one.is_loaded or one.fault]
        which = {"repositories": faults} if faults and self._settings.filters is None else {}
        return web.json_response({"ok": not faults, "not_served": len(faults), **which}, status=503 if faults else 200)

    async def _metrics(self, request: web.Request) -> web.Response:
        """In the text form of Prometheus, version 0.0.4."""
        rows, session = Metrics(), self._shared.session
        rows.add("tsearch_up", "gauge", "Whether the program runs.", 0, {})
        with contextlib.suppress(Ended, TimeoutError):
            status = await self._shared.status()
            rows.add("tsearch_up", "gauge", "", 1, {})
            rows.add("tsearch_version", "gauge", "The version that is published.", status.version, {})
            rows.add("tsearch_accepted", "gauge", "Puts, loads, removes and copies in this life of the program.", status.accepted, {})
            rows.add("tsearch_open_searches", "gauge", "Searches without an entry.", status.open, {})
        rows.add("tsearch_memory_bytes", "gauge", "Memory of the program.", memory_of([getattr(session, "pid", None)]), {})
        rows.add("tsearch_restarts_total", "counter", "Programs started again.", self._shared.restarts + getattr(session, "heals", 0), {})
        for repository in self._repositories:
            label = {"repository": repository.name}
            documents, size = repository.kept.totals
            rows.add("tsearch_documents", "gauge", "Documents of the repository.", documents, label)
            rows.add("tsearch_document_bytes", "gauge", "Bytes of their files.", size, label)
            rows.add("tsearch_loaded", "gauge", "Whether all of it is loaded.", int(repository.is_loaded), label)
            rows.add("tsearch_left_out_files", "gauge", "Files that are no documents.", sum(repository.left_out.counts.values()), label)
            rows.add("tsearch_search_seconds_total", "counter", "Seconds of its searches, and a share of those of several.", round(repository.seconds, 6), label)
        for outcome in _OUTCOMES:
            rows.add("tsearch_web_searches_total", "counter", "Searches of visitors.", self._outcomes[outcome], {"outcome": outcome})
        rows.add_histogram("tsearch_web_search_seconds", "Seconds until the answers of visitors.", self._seconds)
        if self.connections is not None:
            rows.add("tsearch_web_connections", "gauge", "Connections of visitors.", len(self.connections), {})
            rows.add("tsearch_web_connections_refused_total", "counter", "Connections that were too many.", self.connections.refused, {})
        if self._client is not None:
            needed, there = await self._workers()
            rows.add("tsearch_workers_needed", "gauge", "Workers that the shards need.", needed, {})
            rows.add("tsearch_workers", "gauge", "Workers that there are.", there, {})
        return web.Response(body=rows.text().encode(), headers={"Content-Type": "text/plain; version=0.0.4; charset=utf-8"})


def shares(counts: list[int], most: int) -> list[int]:
    """How many lines of each repository are shown: as many of each, as far as it has them, and at most so many together."""
    found, left = [0] * len(counts), most
    for place, at in enumerate(sorted(range(len(counts)), key=counts.__getitem__)):
        found[at] = min(counts[at], -(-left // (len(counts) - place)) if counts[at] else 0)
        left -= found[at]
    return found


def _head_of(repository: str, found: Found, answer: Answer) -> dict[str, object]:
    """What is said of a repository before its documents."""
    head = {"repository": repository, "life": answer.life, "version": answer.version, "lines": answer.count, "more": answer.more}
    return {**head, **({"revision": found.revision, "commit": found.commit} if found.commit else {})}


async def _worked(answer: Answer, work: Callable[..., Any], *words: Any) -> Any:
    """What a function makes of an answer; others have their turn before it."""
    if len(answer.data) > _LARGE:
        return await asyncio.to_thread(work, *words)
    if len(answer.data) > BLOCK:
        await asyncio.sleep(0)
    return work(*words)


def _review_row(line: Line, is_whole: bool) -> dict[str, object]:
    """A line of a review as JSON, with its sign and its number on each side."""
    numbers = {side: number for side, number in (("before", line.before), ("after", line.after)) if number is not None}
    return {"sign": line.sign, **numbers, **_parts(line.text, line.spans or (), is_whole)}


def _parts(text: bytes, spans: Sequence[tuple[int, int]], is_whole: bool) -> dict[str, object]:
    """The parts of a line, of which every second one is a match; and `cut` if it is too long to be shown whole."""
    if len(text) > LONGEST and not is_whole:
        return {"parts": [_shown(part) for part in shortened(text, spans)], "cut": True}
    if not spans:
        return {"parts": [_shown(text)]}
    parts, at = [], 0
    for begin, end in spans:
        parts += [_shown(text[at:begin]), _shown(text[begin:end])]
        at = end
    return {"parts": [*parts, _shown(text[at:])]}


def _no_repository(name: str) -> Gone:
    return Gone(f"there is no repository {_as_text(name)}")


def _as_text(name: str) -> str:
    """A word of an address as text for a page."""
    return _shown(to_bytes(name))


def _shown(data: bytes) -> str:
    """Bytes as text for a page. What is no UTF-8 becomes U+FFFD."""
    return data.decode(errors="replace")


def _address_of(request: web.Request) -> str:
    """Who asks."""
    address: str = request["address"]
    return address


def _lane_of(request: web.Request) -> bytes:
    """The lane of who asks, which all of a wider network share: in the program, too, many searches of one hold up those of nobody else."""
    return wide_of(_address_of(request)).encode()[:_LONGEST_LANE] or b"-"


def _host_of(address: str) -> str:
    """The host and the port that an address names; nothing if it cannot be read."""
    try:
        return urllib.parse.urlsplit(address).netloc
    except ValueError:
        return ""


def _has_left(request: web.Request) -> bool:
    return request.transport is None or request.transport.is_closing()


def _shown_query(request: web.Request) -> str:
    return request.rel_url.raw_query_string[:2_000]


def _json(row: dict[str, object]) -> bytes:
    return _written(row).encode() + b"\n"


def _lines_of(row: dict[str, object], status: int, more: dict[str, str] | None = None) -> web.Response:
    return web.Response(body=_json(row), status=status, headers={"Content-Type": _LINES, **(more or {})})


async def _end_task(task: asyncio.Task[None]) -> None:
    task.cancel()
    with contextlib.suppress(asyncio.CancelledError):
        await task


async def _add_headers(request: web.Request, response: web.StreamResponse) -> None:
    for header, value in _HEADERS.items():
        response.headers.setdefault(header, value)


async def _file(request: web.Request) -> web.Response:
    name, kind = _FILES[request.path]
    text = importlib.resources.files(__package__).joinpath(name).read_text(encoding="utf-8")
    return web.Response(text=text, content_type=kind)
