"""A session and a folder for programs with asyncio. Any number of tasks of one loop share one; the standard library suffices."""

from __future__ import annotations

import asyncio
import collections
import contextlib
import dataclasses
import itertools
import os
import time
from asyncio import subprocess
from collections.abc import AsyncIterator, Awaitable, Callable, Iterator, Mapping, Sequence
from typing import TYPE_CHECKING, Any, Unpack

from .answers import Answer, Published, Status, joined
from .bounds import Bounds
from .core import Core, Sent, SentSearch, ended_by, ended_with, status_of, value_of
from .errors import ChangeRefused, Ended, Error, SearchRefused
from .feeding import LEAST, PIECE, Feeding, Turn
from .folder import BATCH, MOST_TOGETHER, Files, Progress, Refreshed, Source, Step, steps_of_all
from .git import Objects, Store
from .names import to_bytes
from .paths import check
from .program import MOST_BODY, MOST_COMMANDS, MOST_NAME, TO_END, command, kill_group
from .query import Options, Query
from .review import Found, Patch, cut, prefix_of_its_own, query_in, refused_in, seen_by, wanted_by
from .session import MOST_OPEN, MOST_TRIES

if TYPE_CHECKING:
    from .cluster import Changes as ClusterChanges
    from .cluster import Cluster

__all__ = ["Change", "Changes", "Folder", "Review", "Revisions", "Search", "Session"]

_BLOCK = 1 << 18
_MESSAGE = 4_096
# What calls a function in a thread, and waits for what it gives.
InThread = Callable[..., Awaitable[Any]]
# In bytes: so much of files is read ahead, and then sent; and so much at most of what is shown together, before others wait for it.
_BATCH, _MOST_READ = 1 << 21, 1 << 24


def _future_of(sent: Sent) -> asyncio.Future[Any]:
    """A future of what an item comes to."""
    future: asyncio.Future[Any] = asyncio.get_running_loop().create_future()

    def settle(settled: Sent) -> None:
        if future.done():
            return
        if settled.error is None:
            future.set_result(settled.value)
        else:
            future.set_exception(settled.error)
            future.exception()  # who no longer waits for it is not told at the future's end

    if sent.is_settled:
        settle(sent)
    else:
        sent.on_settled = settle
    return future


class _Connection:
    """One life of a program: its streams, its core, and the task that reads what it writes."""

    def __init__(
        self,
        reader: asyncio.StreamReader,
        writer: asyncio.StreamWriter,
        process: subprocess.Process | None,
        life: int,
        most_open: int,
        messages: Callable[[bytes], None] | None,
        max_answer: int | None = None,
    ) -> None:
        self.core = Core(life, max_answer)
        self.life = life
        self.process = process
        self.ended: Callable[[], Error] | None = None
        self._reader, self._writer = reader, writer
        self._turns = asyncio.Semaphore(most_open)
        self._draining = asyncio.Lock()
        self.is_closing = False
        self._message = b""
        self._messages = messages
        self._open: set[asyncio.Future[Any]] = set()
        self._errors = asyncio.create_task(self._take_messages())
        self.task = asyncio.create_task(self._run())

    async def send(self, make: Callable[[Core], tuple[Any, list[bytes]]]) -> Any:
        """Sends what `make` makes, and waits until the program has taken nearly all that was sent."""
        self._check_alive()
        sent, parts = make(self.core)
        self._write(parts)
        await self._drain()
        return sent

    async def begin(self, query: Query, take: Callable[[bytes], object] | None = None) -> Search:
        """Sends a search once it has its turn, which lasts until its entry."""
        await self._turns.acquire()
        try:
            self._check_alive()
            sent, parts = self.core.find(query, take)
        except BaseException:
            self._turns.release()
            raise
        future = _future_of(sent)
        self._open.add(future)
        future.add_done_callback(self._give_turn)
        self._write(parts)
        search = Search(self, sent, future)
        try:
            await self._drain()
        except asyncio.CancelledError:
            search.cancel()
            raise
        return search

    def _give_turn(self, future: asyncio.Future[Any]) -> None:
        self._open.discard(future)
        self._turns.release()

    def cancel(self, search: SentSearch) -> None:
        """Sends a cancel, at once: a short item that waits for no room."""
        if self.ended is None and not self.is_closing:
            self._write(self.core.cancel(search))

    def open_futures(self) -> set[asyncio.Future[Any]]:
        """Those of the searches that have no entry yet."""
        return set(self._open)

    def _check_alive(self) -> None:
        if self.ended:
            raise self.ended()
        if self.is_closing:
            raise Ended(None)

    def _write(self, parts: list[bytes]) -> None:
        if parts:
            self._writer.writelines(parts)

    async def _drain(self) -> None:
        # What went wrong with the writing is told once the output has ended.
        with contextlib.suppress(OSError):
            async with self._draining:
                await self._writer.drain()

    async def close(self, timeout: float | None) -> int | None:
        """Closes the input, waits for the end, and ends the program itself if it does not come in time."""
        self.is_closing = True
        if self.ended is None:
            with contextlib.suppress(OSError, RuntimeError):
                if self._writer.can_write_eof():
                    self._writer.write_eof()
                else:
                    self._writer.close()
        done, _ = await asyncio.wait([self.task], timeout=timeout)
        if not done:
            self.kill()
            await asyncio.wait([self.task], timeout=TO_END)
        return None if self.process is None else self.process.returncode

    def kill(self) -> None:
        """Ends the program, or leaves the streams, at once."""
        self.is_closing = True
        if self.process is None:
            self._writer.transport.abort()
            self._reader.feed_eof()
        elif self.process.returncode is None:
            kill_group(self.process.pid)

    async def _run(self) -> None:
        fault: Error | None = None
        try:
            await self._take_output()
        except Exception as error:  # whatever it is, nobody may wait for ever
            fault = error if isinstance(error, Error) else Ended(None, repr(error))
            self.kill()
        status = None if self.process is None else await self._status(self.process)
        await asyncio.wait([self._errors], timeout=TO_END)
        message = self._message.decode(errors="replace").strip()
        self.ended = ended_with(fault) if fault else ended_by(status, message)
        self._tell(self.core.end(self.ended))
        self._writer.close()
        with contextlib.suppress(OSError, TimeoutError):
            async with asyncio.timeout(TO_END):
                await self._writer.wait_closed()

    async def _status(self, process: subprocess.Process) -> int:
        # The pipe is closed, so that it ends even if it still reads.
        self._writer.close()
        try:
            async with asyncio.timeout(TO_END):
                return await process.wait()
        except TimeoutError:
            self.kill()
            return await process.wait()

    async def _take_output(self) -> None:
        with contextlib.suppress(OSError):
            while data := await self._reader.read(_BLOCK):
                self._tell(self.core.receive(data))

    async def _take_messages(self) -> None:
        if self.process is None or self.process.stderr is None:
            return
        with contextlib.suppress(OSError):
            while data := await self.process.stderr.read(_MESSAGE):
                self._message = (self._message + data)[-_MESSAGE:]
                if self._messages:
                    self._messages(data)

    @staticmethod
    def _tell(settled: list[Sent]) -> None:
        for sent in settled:
            if sent.on_settled:
                sent.on_settled(sent)


class Change:
    """A put, a load, a remove or a copy that was sent. Whether it is accepted is known once a text of a later item has come."""

    def __init__(self, connection: _Connection, sent: Sent) -> None:
        self._connection = connection
        self._sent = sent

    @property
    def name(self) -> bytes:
        """The name of the document, or the prefix of a `remove_under`, or what the names of a `copy_under` begin with then."""
        assert self._sent.name is not None
        return self._sent.name

    async def wait(self) -> None:
        """Returns once the change is known to be accepted, and asks for a status to know it. `ChangeRefused` if it is refused, and
        `Ended`."""
        if not self._sent.is_settled:
            await (await _asked(self._connection))
        value_of(self._sent)


class Search:
    """A search that was sent. `await search` gives its answer, or raises the errors of `find`; a task that is cancelled while it waits
    leaves the search open, and `cancel` gives it up."""

    def __init__(self, connection: _Connection, sent: SentSearch, future: asyncio.Future[Any]) -> None:
        self._connection = connection
        self._sent = sent
        self._future = future

    def __await__(self) -> Any:
        return asyncio.shield(self._future).__await__()

    def done(self) -> bool:
        """Whether the search has its answer or its refusal."""
        return self._future.done()

    def cancel(self) -> None:
        """Gives the search up, in the program too. If it has its answer already, it keeps it; else `Cancelled` is raised."""
        self._connection.cancel(self._sent)


class Changes:
    """What changes the documents of a session. A `restart` passes one to its callback, and every `Session` is one. The methods are
    those of `tsearch.Changes`, with `await`: each returns once the program has taken nearly all that was sent. `refusals` is as there."""

    def __init__(self, connection: _Connection, refusals: list[ChangeRefused] | None = None) -> None:
        self._connection = connection
        self._refusals = refusals

    @property
    def life(self) -> int:
        """How often the program was started. Versions are counted from 0 in each life."""
        return self._connection.life

    async def put(self, name: str | bytes, body: str | bytes) -> Change:
        """Adds a document, or replaces the one of this name. The body is bytes, or text that is sent as UTF-8."""
        data = body.encode() if isinstance(body, str) else to_bytes(body)
        return await self._change(lambda core: core.put(name, data))

    async def load(self, name: str | bytes, path: str | bytes | os.PathLike[str] | os.PathLike[bytes]) -> Change:
        """Adds a document, or replaces the one of this name, with the bytes of a file that the program reads. A path that is not
        absolute starts at the folder that the program runs in."""
        return await self._change(lambda core: core.load(name, os.fsencode(path)))

    async def remove(self, name: str | bytes) -> Change:
        """Removes a document."""
        return await self._change(lambda core: core.remove(name))

    async def remove_under(self, prefix: str | bytes) -> Change:
        """Removes each document whose name begins with the prefix. It is one change; it is refused if there is no such document, and
        for a prefix that cannot be a name, as the empty one."""
        return await self._change(lambda core: core.remove_under(prefix))

    async def copy_under(self, prefix: str | bytes, to: str | bytes) -> Change:
        """Puts each document whose name begins with the prefix, as the documents are before, also under the name with `to` in place of the
        prefix, in the place of one that is there. It is one change, and takes no memory for bodies. Refused, it changes nothing: if there
        is no such document, or a name would be too long. The `name` of a refusal is `to`."""
        return await self._change(lambda core: core.copy_under(prefix, to))

    async def _change(self, make: Callable[[Core], tuple[Sent, list[bytes]]]) -> Change:
        connection = self._connection

        def made(core: Core) -> tuple[Sent, list[bytes]]:
            sent, parts = make(core)
            sent.refusals = self._refusals
            return sent, parts

        return Change(connection, await connection.send(made))

    async def mark(self) -> Awaitable[object]:
        """Marks what was sent until now. Whoever awaits what is given back waits until the program has carried all of it out. `Ended`."""
        return await _asked(self._connection)


class Session(Changes):
    """A program that keeps documents and answers searches, for as many tasks of a loop as want to share it.

        async with tsearch.aio.Session.started() as session:
            await session.put("a.txt", "hello world")
            await session.publish()
            for hit in await session.find("o w"):
                print(hit.name, hit.line, hit.text)

    It does what `tsearch.Session` does, and its arguments and errors are the same. Limits of time are asyncio's: a task that is
    cancelled in `find`, by `asyncio.timeout` too, cancels its search in the program.
    """

    def __init__(self, connection: _Connection, start: Callable[[int], Awaitable[_Connection]] | None) -> None:
        super().__init__(connection)
        self._start = start
        self._restarting = asyncio.Lock()
        self.feeding = Feeding()
        self._is_closed = False

    @classmethod
    async def start(
        cls,
        program: str | os.PathLike[str] | Sequence[str] | None = None,
        *,
        readers: int | None = None,
        search_ms: int | None = None,
        max_commands: int | None = MOST_COMMANDS,
        max_body: int | None = MOST_BODY,
        max_line: int | None = MOST_BODY,
        max_name: int | None = MOST_NAME,
        max_answer: int | None = None,
        stats: bool = False,
        messages: Callable[[bytes], None] | None = None,
        most_open: int = MOST_OPEN,
    ) -> Session:
        """Starts a program. `close` ends it. The arguments are those of `tsearch.Session`."""
        if not 1 <= most_open <= 1_000:
            raise ValueError("most_open is 1 to 1,000")
        words = command(
            program, readers=readers, search_ms=search_ms, max_commands=max_commands,
            max_body=max_body, max_line=max_line, max_name=max_name, stats=stats,
        )  # fmt: skip
        pipe = subprocess.PIPE

        async def start(life: int) -> _Connection:
            # Ctrl-C at a terminal is for the client, which then ends the session.
            process = await asyncio.create_subprocess_exec(*words, stdin=pipe, stdout=pipe, stderr=pipe, start_new_session=True)
            assert process.stdin is not None and process.stdout is not None
            return _Connection(process.stdout, process.stdin, process, life, most_open, messages, max_answer)

        return cls(await start(1), start)

    @classmethod
    @contextlib.asynccontextmanager
    async def started(cls, *words: Any, **options: Any) -> AsyncIterator[Session]:
        """A session that lasts as long as its block. The arguments are those of `start`."""
        async with await cls.start(*words, **options) as session:
            yield session

    @classmethod
    def over(cls, reader: asyncio.StreamReader, writer: asyncio.StreamWriter, *, most_open: int = MOST_OPEN) -> Session:
        """A session over streams that lead to a program started elsewhere with --live, to which nothing was sent before. Such a
        session cannot be restarted."""
        return cls(_Connection(reader, writer, None, 1, most_open, None), None)

    @property
    def pid(self) -> int | None:
        """The number of the program's process, if this session started it."""
        process = self._connection.process
        return None if process is None else process.pid

    async def publish(self, *, tells: bool = True) -> Published:
        """Lets searches see all changes so far, and returns once they do, with what was refused since the publish before. Without `tells`
        that is left to the next publish. `PublishRefused` if there is no memory."""
        return await _published(self._connection, tells)

    async def status(self) -> Status:
        """What the session holds. It waits for no search."""
        return status_of(await (await _asked(self._connection)))

    async def sync(self) -> None:
        """Returns once every search that was sent before has its answer or its refusal. Nothing is sent for it: behind an item
        `sync` the cancels of other tasks would wait. `Ended` if the program ends or has ended."""
        connection = self._connection
        before = connection.open_futures()
        if before:
            await asyncio.wait(before)
        if connection.ended:
            raise connection.ended()

    async def begin(self, pattern: str | bytes, **options: Unpack[Options]) -> Search:
        """Sends a search in its turn, and does not wait for its answer. The options and the errors are those of `tsearch.Session.begin`,
        except `TimeoutError`."""
        return await self._connection.begin(Query.of(pattern, **options))

    async def find(self, pattern: str | bytes, **options: Unpack[Options]) -> Answer:
        """The lines that contain a match of a pattern, in the documents of the last publish or a later one. The options and the
        errors are those of `tsearch.Session.find`, except for `timeout`."""
        return await self.find_query(Query.of(pattern, **options))

    async def find_query(self, query: Query) -> Answer:
        """Does what `find` does, for a query that is made."""
        for _ in range(MOST_TRIES):
            searches: list[Search] = []
            try:
                for part in query.parts():
                    searches.append(await self._connection.begin(part))
                answers = [await search for search in searches]
            except BaseException:
                for search in searches:
                    search.cancel()
                raise
            if (answer := joined(answers)) is not None:
                return answer
        raise Error("the documents change too often for two searches")

    async def pass_on(self, query: Query, take: Callable[[bytes], object]) -> Answer:
        """Makes a search, and calls `take` with each piece of its rows as the program writes it. The answer that is given back has no
        rows. The errors are those of `find`. A query of which `parts` makes two searches is none for this."""
        search = await self._connection.begin(query, take)
        try:
            return await search
        except BaseException:
            search.cancel()
            raise

    def cancel(self, search: Search) -> None:
        """Gives up a search, as its own `cancel` does."""
        search.cancel()

    async def restart(self, feed: Callable[[Changes], Awaitable[object]], *, only_if_ended: bool = True) -> Published | None:
        """Starts the program again, and lets `feed` put all documents into it, as `tsearch.Session.restart` does, with its errors."""
        if self._start is None:
            raise ValueError("a session over streams cannot start a program")
        async with self._restarting:
            before = self._connection
            if self._is_closed:
                raise Ended(None)
            if only_if_ended and before.ended is None and not before.is_closing:
                return None
            connection = await self._start(before.life + 1)
            try:
                await feed(Changes(connection))
                published = await _published(connection)
                if self._is_closed:
                    raise Ended(None)
            except BaseException:
                connection.kill()
                raise
            self._connection = connection
        await before.close(None)
        return published

    async def close(self, timeout: float | None = 10.0) -> int | None:
        """Ends the session: what was sent is carried out and answered first. A program that has not ended after so many seconds is
        killed. The status of the program, negative for a signal; None over streams. A second call does nothing."""
        self._is_closed = True
        return await self._connection.close(timeout)

    def kill(self) -> None:
        """Ends the program at once. Who waits for it gets `Ended`. It can be started again."""
        self._connection.kill()

    async def __aenter__(self) -> Session:
        return self

    async def __aexit__(self, kind: type[BaseException] | None, *_: object) -> None:
        if kind is not None:
            self.kill()
        await self.close()


async def _asked(connection: _Connection) -> asyncio.Future[Any]:
    """A status that is asked for now, once it comes."""

    def make(core: Core) -> tuple[asyncio.Future[Any], list[bytes]]:
        sent, parts = core.status()
        return _future_of(sent), parts

    future: asyncio.Future[Any] = await connection.send(make)
    return future


async def _published(connection: _Connection, tells: bool = True) -> Published:
    def make(core: Core) -> tuple[tuple[Sent, asyncio.Future[Any]], list[bytes]]:
        publish, status, parts = core.publish(tells)
        return (publish, _future_of(status)), parts

    publish, future = await connection.send(make)
    published: Published = await future
    value_of(publish)  # settled before the status behind it
    return published


class Kept:
    """Keeps what a source has in a session or a cluster, as `tsearch.folder.Kept` does. A thread reads the source.

    before_change: is awaited with the name of each document that is there and is about to be replaced or removed by itself.
    published: is called with each publish, at once.
    in_parts: whether others may publish while a look sends what nobody asks for: free steps, and all of it until a look has come to its end.
    """

    in_parts = False

    def __init__(
        self,
        session: Session | Cluster,
        source: Source,
        progress: Progress | None = None,
        before_change: Callable[[bytes], Awaitable[object]] | None = None,
        published: Callable[[Published], object] | None = None,
    ) -> None:
        self._session = session
        self._source = source
        self._progress = progress or (lambda done, of: None)
        self._before_change = before_change
        self._published = published or (lambda published: None)
        self._lock = asyncio.Lock()
        self._is_pending = False
        # steps that the source has given and that are not sent; some stay where a call before them fails
        self._unsent: collections.deque[Step] = collections.deque()
        # what the program has refused, and the source has not been told: also of a look that has failed, whoever publishes next
        self._refused: list[ChangeRefused] = []
        # how often the program was started that has what the source knows of
        self._life = 0
        # the life in which a look has come to its end
        self._shown = 0
        # what reads the source in a thread
        self.in_thread: InThread = asyncio.to_thread
        # not while a publish may have been carried out that `published` has not been told of
        self.settled = asyncio.Event()
        self.settled.set()

    @property
    def life(self) -> int:
        """How often the program was started that has what was sent last."""
        return self._life

    @property
    def is_pending(self) -> bool:
        """Whether something was sent that no publish of this source has shown."""
        return self._is_pending

    @property
    def totals(self) -> tuple[int, int]:
        """How many documents were sent, and the bytes of their files."""
        return self._source.totals

    @property
    def left_out(self) -> dict[bytes, str]:
        """What is not in the session now, by its name without the prefix, with the reason."""
        return dict(self._source.left_out)

    async def refresh(self) -> Refreshed:
        """Looks at the source, sends what has changed, and publishes it, as `tsearch.Folder.refresh` does, with its errors."""
        return await self._refresh(self._source.steps)

    async def _refresh(self, look: Callable[[], Iterator[Step]]) -> Refreshed:
        async with self._lock:
            changes = _changes_of(self._session, self._refused)
            if changes.life != self._life:
                self._begin(changes.life)
                look = self._source.steps
            refreshed = await self._look_once(changes, look())
            while self._source.has_more:
                refreshed = _both(refreshed, await self._look_once(changes, self._source.steps()))
            self._shown = self._life
            return refreshed

    async def _look_once(self, changes: Changes | ClusterChanges, steps: Iterator[Step]) -> Refreshed:
        """Sends the steps of a look, and publishes them."""
        is_hidden = self.in_parts and (self._is_pending or self._shown != self._life)
        if not await self._has_more(steps) and not self._is_pending:
            await self._session.status()  # it may have ended
            return Refreshed(0, 0, self._source.take_news(), None)
        # who else changes the session waits only from here on; what is shown already goes before what nobody asks for yet
        async with Turn(self._session.feeding) as turn:
            if self._is_pending:
                await turn.take(not is_hidden)
                # of a look that has failed: a refusal of it is of no body that is sent now
                if isinstance(changes, Changes):
                    await (await changes.mark())
                await self._take_refusals(changes)
            if not self.in_parts:
                await turn.take(not is_hidden)
            put, removed = await self._send(changes, self._before_change, steps, _Parts(turn, is_hidden) if self.in_parts else None)
            await turn.take(not is_hidden)
            published = await self._publish(changes)
        return Refreshed(put, removed, self._source.take_news(), published)

    def _begin(self, life: int) -> None:
        """Begins with another program, which has nothing of it."""
        self._source.forget()
        self._unsent.clear()
        self._refused.clear()
        self._life, self._is_pending = life, False
        self._shown = 0

    async def _publish(self, changes: Changes | ClusterChanges) -> Published:
        self.settled.clear()
        try:
            published = await self._publish_once()
            if await self._take_refusals(changes):
                published = published.before(await self._publish_once())
            return published
        finally:
            self.settled.set()

    async def _publish_once(self) -> Published:
        published = await self._session.publish()
        if published.life != self._life:
            raise Ended(None)
        self._is_pending = False
        published = dataclasses.replace(published, refused=(*self._refused, *published.refused))
        self._published(published)
        return published

    async def drop(self, under: bytes = b"") -> None:
        """Removes all documents of the source from the session, a few with each publish: one that removed all of them would hold up
        searches. There is nothing to be done with the source then.

        under: what their names begin with, and no others: then whatever is left there goes, too.
        """
        async with self._lock:
            steps = self._source.removals()
            while self._life == self._session.life and (few := await self.in_thread(_few, steps, self._source)):
                await self._remove_some(few)
            if under and self._life == self._session.life:
                await self._remove_some([Step(under, None, 0, 1, under=1)])
            self._begin(0)

    async def _remove_some(self, steps: list[Step]) -> None:
        async with Turn(self._session.feeding) as turn:
            await turn.take()
            changes = _changes_of(self._session, [])
            for step in steps:
                await _remove(changes, step)
            await _publish_piece(self._session, turn)

    async def restart(self) -> Published | None:
        """Starts the program again if it has ended, and sends all documents. For a session with this source alone. None if the program
        runs. The errors are those of `Session.restart`."""
        async with self._lock:
            published = await self._session.restart(self._feed)
            if published:
                self._is_pending = False
                published = dataclasses.replace(published, refused=(*self._refused, *published.refused))
                if await self._take_refusals(_changes_of(self._session, self._refused)):
                    published = published.before(await self._publish_once())
            return published

    async def find(self, pattern: str | bytes, **options: Unpack[Options]) -> Answer:
        """A search of the session, with the options and the errors of `Session.find`, in the documents of this source as they were last
        published, and in whatever else is in the session."""
        return await self._session.find(pattern, **options)

    async def feed(self, changes: Changes) -> None:
        """Sends all documents to a new program, for `Session.restart`. A `refresh` has to follow, for what that program refuses."""
        async with self._lock:
            await self._feed(changes)

    async def _feed(self, changes: Changes) -> None:
        self._begin(changes.life)
        await self._send(Changes(changes._connection, self._refused), None, steps_of_all(self._source))
        self._is_pending = True

    async def _has_more(self, steps: Iterator[Step]) -> bool:
        """Reads on in the source. Whether there are steps to be sent."""
        await self.in_thread(_take_some, steps, self._unsent)
        return bool(self._unsent)

    async def _go_on(self, steps: Iterator[Step], parts: _Parts | None) -> bool:
        """Sees to the next step: with parts it is the turn of this source then, and was that of others if they may go between. Whether there is
        one."""
        if parts is None:
            return bool(self._unsent) or await self._has_more(steps)
        if not self._unsent and not parts.is_whole:
            if parts.size > PIECE:
                parts.size = 0
                await parts.turn.take()
                await _publish_piece(self._session, parts.turn)
            parts.turn.leave()
        if not self._unsent and not await self._has_more(steps):
            return False
        if not parts.is_whole and not self._unsent[0].free and not parts.is_hidden:
            parts.is_whole = True
            parts.turn.leave()
            await self.in_thread(_take_some, steps, self._unsent, _MOST_READ)
        await parts.turn.take(parts.is_whole)
        parts.size += max(len(self._unsent[0].body or b""), LEAST)
        return True

    async def _send(
        self,
        changes: Changes | ClusterChanges,
        before_change: Callable[[bytes], Awaitable[object]] | None,
        steps: Iterator[Step],
        parts: _Parts | None = None,
    ) -> tuple[int, int]:
        put = removed = 0
        loaded: Awaitable[object] | None = None
        while await self._go_on(steps, parts):
            step = self._unsent[0]
            name, body, done, of, path, under, source, _ = step
            self._is_pending = True
            if done % BATCH == 0 and loaded:
                # while the program has the next ones
                await loaded
                self._progress(done - BATCH, of)
                assert isinstance(changes, Changes)
                loaded = await changes.mark()
            elif not loaded:
                self._progress(done, of)
            if before_change and not under and not self._source.is_new(name):
                await before_change(name)
            if path is not None:
                assert isinstance(changes, Changes)
                loaded = loaded or await changes.mark()
                await changes.load(name, path)
                put += 1
            elif source is not None:
                assert isinstance(changes, Changes)
                await changes.copy_under(source, name)
                put += under
            elif body is None:
                await _remove(changes, step)
                removed += under or 1
            else:
                await changes.put(name, body)
                put += 1
            self._unsent.popleft()
        if loaded:
            assert isinstance(changes, Changes)
            await (await changes.mark())
        if put or removed:
            self._progress(put + removed, put + removed)
        return put, removed

    async def _take_refusals(self, changes: Changes | ClusterChanges) -> bool:
        """Removes documents whose new bodies were refused, so that the old ones are not found. Whether there are some."""
        refused = tuple(self._refused)
        self._refused.clear()
        later = {step.name for step in self._unsent} if refused else set()
        stale = self._source.take_refusals(tuple(refusal for refusal in refused if refusal.name not in later), not self._unsent)
        for name in stale:
            self._is_pending = True
            await changes.remove(name)
        return bool(stale)


class Folder(Kept):
    """Keeps the text files of a folder in a session or a cluster, as `tsearch.Folder` does.

    before_change, published: as for `Kept`.
    follows: whether symbolic links are followed.
    is_apart: whether the rules of the folders above it do not hold.
    bounds: what is taken of the folder at most.
    """

    def __init__(
        self,
        session: Session | Cluster,
        root: str | bytes | os.PathLike[str] | os.PathLike[bytes] = ".",
        *,
        prefix: str | bytes = b"",
        git: bool | None = None,
        progress: Progress | None = None,
        before_change: Callable[[bytes], Awaitable[object]] | None = None,
        published: Callable[[Published], object] | None = None,
        follows: bool = False,
        is_apart: bool = False,
        loads: bool | None = None,
        bounds: Bounds = Bounds(),
    ) -> None:
        can_load = isinstance(session, Session) and session.pid is not None
        self._files = Files(root, prefix, git, follows, is_apart, can_load if loads is None else loads, bounds)
        super().__init__(session, self._files, progress, before_change, published)

    @property
    def root(self) -> bytes:
        """The absolute path of the folder."""
        return self._files.root

    @property
    def files(self) -> Files:
        """What the session has of the folder."""
        return self._files

    async def refresh(self, changed: set[bytes] | None = None) -> Refreshed:
        """Looks through the folder as `Kept.refresh` does. With `changed` it looks at these paths alone: no others have changed since the
        last look."""
        return await (super().refresh() if changed is None else self._refresh(lambda: self._files.steps_of(changed)))


class Review:
    """The files of a patch in a session or a cluster, as `tsearch.review.Review` has them."""

    def __init__(
        self, session: Session | Cluster, patch: Patch, prefix: bytes | None, most_lines: int | None = None, in_thread: InThread = asyncio.to_thread
    ) -> None:
        self.patch = patch
        self._most_lines = most_lines
        self._in_thread = in_thread
        self._filling = asyncio.Lock()
        self._session = session
        self._prefix = prefix_of_its_own() if prefix is None else prefix
        self._has_own = prefix is None
        # the documents, with the bytes of each
        self._held: dict[bytes, int] = {}
        # the last publish of its documents
        self.published: Published | None = None
        self._is_closed = False

    @classmethod
    async def open(
        cls,
        session: Session | Cluster,
        path: str | bytes | os.PathLike[str] | os.PathLike[bytes] | Store,
        before: str,
        after: str,
        *,
        whole: bool = False,
        prefix: str | bytes | None = None,
        bounds: Bounds = Bounds(),
        most_lines: int | None = None,
        in_thread: InThread = asyncio.to_thread,
    ) -> Review:
        """Puts the files of a patch, and returns once they are found. The arguments are those of `tsearch.review.Review`.

        most_lines: how many lines an answer may have; `SearchRefused` for one that has more.
        in_thread: what calls a function in a thread.
        """
        patch = await in_thread(lambda: Patch(path if isinstance(path, Store) else Store(path), before, after, whole, bounds))
        review = cls(session, patch, None if prefix is None else to_bytes(prefix), most_lines, in_thread)
        try:
            await review._fill()
        except BaseException:
            patch.is_wanted = False
            with contextlib.suppress(Error):
                await review.close()
            raise
        return review

    async def _fill(self) -> None:
        """Puts the documents, and lets others go between: nobody searches in them yet. Copies of revisions that the session has would have their
        place here."""
        async with self._filling, Turn(self._session.feeding) as turn:
            refused: list[ChangeRefused] = []
            changes = _changes_of(self._session, refused)
            if self.published and self.published.life == changes.life:
                return  # another search has done it
            documents, size = self.patch.documents(), 0
            while batch := await self._in_thread(_some_of, documents):
                await turn.take()
                for name, body in batch:
                    self._held[name] = len(body)
                    await changes.put(self._prefix + name, body)
                    size += max(len(body), LEAST)
                if size > PIECE:
                    await _publish_piece(self._session, turn)
                    size = 0
                turn.leave()
            await turn.take()
            published = await self._session.publish(tells=False)
            if published.life != changes.life:
                raise Ended(None)  # that to which they were sent
            self.published = published
            for name in refused_in(self.patch, self._prefix, refused):
                self._held.pop(name, None)
            turn.leave()
            # what a search in it would wait for
            await self._in_thread(self.patch.compare)

    async def find(self, pattern: str | bytes, *, sees: Callable[[bytes], bool] | None = None, **options: Unpack[Options]) -> Found:
        """The lines with a match, as `tsearch.review.Review.find` gives them, with its errors."""
        asked = Query.of(pattern, **options)
        if asked.names or asked.not_names:
            await self._session.find_query(dataclasses.replace(check(asked.names, asked.not_names), lane=asked.lane))
        query = dataclasses.replace(query_in(self._prefix, asked), limit=self._most_lines)
        answer = await self._session.find_query(query)
        while self.published is None or answer.life != self.published.life:
            # the program was started again, without them
            await self._fill()
            answer = await self._session.find_query(query)
        if self._is_closed:
            raise Error("the review is closed")
        if answer.more:
            raise SearchRefused(f"over {self._most_lines:,} lines of the patch match")
        files = await self._in_thread(lambda: list(self.patch.files(answer, self._prefix)))
        return Found(answer.version, *cut(wanted_by(asked, seen_by(sees, files)), asked.limit))

    async def close(self) -> None:
        """Removes the documents, a few with each publish. A second call does nothing. `find` raises `Error` from then on."""
        self._is_closed, self.patch.is_wanted = True, False
        held, self._held = self._held, {}
        pieces = list(_in_pieces(held))
        changes = _changes_of(self._session, [])
        for piece in pieces:
            async with Turn(self._session.feeding) as turn:
                await turn.take()
                if len(pieces) == 1 and self._has_own:
                    await changes.remove_under(self._prefix)
                else:
                    for name in piece:
                        await changes.remove(self._prefix + name)
                await _publish_piece(self._session, turn)

    async def __aenter__(self) -> Review:
        return self

    async def __aexit__(self, kind: type[BaseException] | None, *_: object) -> None:
        await self.close()


class Revisions(Kept):
    """Keeps revisions of a git repository in a session or a cluster, as `tsearch.git.Revisions` does."""

    def __init__(
        self,
        session: Session | Cluster,
        path: str | bytes | os.PathLike[str] | os.PathLike[bytes],
        wanted: Sequence[str] = ("HEAD",),
        *,
        prefix: str | bytes = b"",
        progress: Progress | None = None,
        published: Callable[[Published], object] | None = None,
        bounds: Bounds = Bounds(),
        in_parts: bool = False,
    ) -> None:
        self._objects = Objects(Store(path), wanted, prefix, copies=isinstance(session, Session), bounds=bounds, stages=in_parts)
        super().__init__(session, self._objects, progress, None, published)
        self.in_parts = in_parts

    @property
    def objects(self) -> Objects:
        """What the session has of the repository."""
        return self._objects


def _changes_of(session: Session | Cluster, refusals: list[ChangeRefused] | None = None) -> Changes | ClusterChanges:
    """What changes the documents of the program that runs now, and of none that is started after it. Refusals are added to a list, if one is
    given."""
    return Changes(session._connection, refusals) if isinstance(session, Session) else session.changes(refusals)


async def _remove(changes: Changes | ClusterChanges, step: Step) -> None:
    """Sends a step that removes a document, or all under a prefix."""
    await (changes.remove_under(step.name) if step.under else changes.remove(step.name))


async def _publish_piece(session: Session | Cluster, turn: Turn) -> None:
    """Publishes a part of what nobody asks for, and leaves the turn to others. In a session the searches that came meanwhile go before the next
    part, for as long as this one took at most: so those who send much leave half of the time to those who search."""
    began = time.monotonic()
    await session.publish(tells=False)
    turn.leave()
    if isinstance(session, Session) and (waiting := session._connection.open_futures()):
        await asyncio.wait(waiting, timeout=time.monotonic() - began)


class _Parts:
    """How far a source has come that lets others go between.

    is_hidden: whether nobody asks for anything of it yet.
    is_whole: whether what is sent has to be published together, from here on.
    size: the bytes that were sent since the last publish.
    """

    def __init__(self, turn: Turn, is_hidden: bool) -> None:
        self.turn = turn
        self.is_hidden = is_hidden
        self.is_whole = False
        self.size = 0


def _both(one: Refreshed, other: Refreshed) -> Refreshed:
    """What two looks came to."""
    published = one.published.before(other.published) if one.published and other.published else one.published or other.published
    return Refreshed(one.put + other.put, one.removed + other.removed, [*one.left_out, *other.left_out], published)


def _few(steps: Iterator[Step], source: Source) -> list[Step]:
    """The next steps that remove documents of a source, for some `MOST_TOGETHER` of them, and some mebibytes."""
    few: list[Step] = []
    before = source.totals[1]
    # what a step removes is known to be gone once the next one is asked for
    while sum(step.under or 1 for step in few) < MOST_TOGETHER and before - source.totals[1] < PIECE and (step := next(steps, None)):
        few.append(step)
    return few


def _in_pieces(held: Mapping[bytes, int]) -> Iterator[list[bytes]]:
    """Documents, given with their bytes, so many at a time as one publish may remove: some mebibytes, and `MOST_TOGETHER`, at most."""
    piece: list[bytes] = []
    size = 0
    for name, length in held.items():
        if piece and (len(piece) == MOST_TOGETHER or size + length > PIECE):
            yield piece
            piece, size = [], 0
        piece.append(name)
        size += length
    if piece:
        yield piece


def _some_of(documents: Iterator[tuple[bytes, bytes]]) -> list[tuple[bytes, bytes]]:
    """The next documents, of a few mebibytes at most."""
    some, size = [], 0
    for name, body in itertools.islice(documents, BATCH):
        some.append((name, body))
        size += len(body)
        if size > _BATCH:
            break
    return some


def _take_some(steps: Iterator[Step], unsent: collections.deque[Step], most: int = _BATCH) -> None:
    """Takes the next steps, of a few mebibytes at most; with another number, of so many bytes, however many they are."""
    size = 0
    for step in itertools.islice(steps, BATCH if most == _BATCH else None):
        unsent.append(step)
        size += len(step.body or b"")
        if size > most:
            break
