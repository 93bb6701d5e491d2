"""Documents over several sessions on the workers of a Dask cluster. It needs the library distributed.

Each shard is a session in an actor on a worker of its own. A document is in the shard that its name says, and a search asks all
shards. So a document under another name mostly belongs to another shard, which has no body of it: there is no `copy_under`. Dask does not keep the order of the calls of one client to one actor. So each shard has a **lane**: all that waits in it goes as
one call, and one call is on its way at a time. A publish and a search are put into all lanes in one step, and a shard publishes once
the searches before are answered, so each answer is from the same publish in all shards. If a worker or its program ends, or does not
answer in time, the lane makes a new actor, feeds it, and sends the call again.
"""

from __future__ import annotations

import asyncio
import bisect
import contextlib
import itertools
import math
import pickle
import time
import warnings
import weakref
import zlib
from collections.abc import Collection, Iterator, Sequence
from dataclasses import dataclass
from typing import Any, NamedTuple, Unpack

from distributed import Client

from . import names
from .answers import Answer, Published, Status, joined
from .core import status_of
from .errors import ChangeRefused, Ended, Error, PublishRefused
from .feeding import Feeding
from .merging import merged, split
from .program import MOST_COMMANDS
from .query import Options, Query
from .session import Change, Search, Session

# In seconds: how long a call to a shard may take, how long an actor may take to be made, and how long a lane waits for a worker that
# no other shard has.
TO_CALL = 120.0
_TO_MAKE = 10.0
_TO_PLACE = 30.0
# In seconds: after so long without a worker it is said how many are missing.
_TO_SAY = 1.0
# In seconds: so long no shard goes to a worker that has failed. The scheduler may not know yet that it has ended.
_AVOIDED = 15.0
# How often a call is sent, each time to a new actor, before those who wait for it are told; and the seconds before the second time,
# which double from then on.
_TRIES = 6
_PAUSE = 0.05
# In bytes: a new actor is fed in calls of about so much, and who puts waits while more than this waits in a lane.
_BATCH = 1 << 20
_MOST_WAITING = 4 << 20
# How a shard refuses to remove what it has not.
_NOTHING = "no such file"


class ShardLost(Error):
    """A shard does not answer: its worker or its program has ended, and no other one has its documents yet. `shard` is its number, from
    0, and `reason` what was seen last."""

    def __init__(self, shard: int, reason: str) -> None:
        super().__init__(shard, reason)
        self.shard = shard
        self.reason = reason

    def __str__(self) -> str:
        return f"shard {self.shard} is lost: {self.reason}"


class TooFewWorkers(Error):
    """There are fewer workers than shards: a shard needs one of its own. `missing` says how many more are needed, and `there` how many there
    are."""

    def __init__(self, missing: int, there: int) -> None:
        super().__init__(missing, there)
        self.missing = missing
        self.there = there

    def __str__(self) -> str:
        return f"there are too few workers, {self.there}, and {self.missing} {'is' if self.missing == 1 else 'are'} missing: a shard needs one of its own"


class _Put(NamedTuple):
    """A document to put, or to remove if there is no body; and where its refusal is told, if not by the next publish."""

    name: bytes
    body: bytes | None
    refusals: list[ChangeRefused] | None = None

    def __reduce__(self) -> tuple[type[_Put], tuple[bytes, bytes | None]]:
        return _Put, (self.name, self.body)


class _Under:
    """The documents under a prefix, to be removed. It is one change in all lanes, and each shard has its part of them."""

    def __init__(self, prefix: bytes, shards: int, refusals: list[ChangeRefused] | None = None) -> None:
        self.prefix = prefix
        self.refusals = refusals
        # of how many shards it is not known what they say
        self._left = shards
        self._is_accepted = False
        self._refusal: ChangeRefused | None = None

    def __reduce__(self) -> tuple[type[_Under], tuple[bytes, int]]:
        return _Under, (self.prefix, self._left)

    def is_first(self) -> bool:
        """Notes that a shard has accepted it. Whether it is the first one that does."""
        was, self._is_accepted = self._is_accepted, True
        return not was

    def told(self, refusal: ChangeRefused | None) -> ChangeRefused | None:
        """Notes what a shard says. What is to be told once all have: that there is no such document, if no shard has one; or why a shard
        has not removed those that it has."""
        if refusal and (self._refusal is None or self._refusal.reason == _NOTHING):
            self._refusal = refusal
        self._left -= 1
        is_told = self._left == 0 and self._refusal and not (self._is_accepted and self._refusal.reason == _NOTHING)
        return self._refusal if is_told else None


class _Publish(NamedTuple):
    """A publish."""


Item = _Put | _Under | _Publish | Query


class Shard:
    """The actor: a session, whose items come in calls that are numbered."""

    def __init__(self, options: dict[str, Any]) -> None:
        try:
            self._session = Session(**options)
        except OSError as error:
            # among the errors of Dask it would be one of the worker
            raise Ended(None, str(error)) from None
        self._next = self._version = 0
        self._changes: list[Change] = []

    def run(self, number: int, packed: bytes) -> bytes:
        """Carries out items in their order: for each change None, for each search its answer or refusal, for each publish which of the
        changes before it were refused. A search does not see a publish behind it. Both lists are pickled, for which Dask would take a
        frame for each body."""
        return pickle.dumps(self._run(number, pickle.loads(packed)), pickle.HIGHEST_PROTOCOL)

    def _run(self, number: int, items: list[Item]) -> list[Any]:
        if number != self._next:
            raise Ended(None, f"call {number} of a shard, and not {self._next}")
        self._next += 1
        outcomes: list[Any] = [None] * len(items)
        searches: list[tuple[int, Search]] = []
        for at, item in enumerate(items):
            if isinstance(item, _Put):
                self._changes.append(self._session.remove(item.name) if item.body is None else self._session.put(item.name, item.body))
            elif isinstance(item, _Under):
                self._changes.append(self._session.remove_under(item.prefix))
            elif isinstance(item, Query):
                searches += self._begin(at, item, outcomes)
            else:
                self._collect(searches, outcomes)
                outcomes[at] = self._publish()
        self._collect(searches, outcomes)
        return outcomes

    def _begin(self, at: int, query: Query, outcomes: list[Any]) -> list[tuple[int, Search]]:
        try:
            return [(at, self._session.begin_query(query))]
        except Ended:
            raise
        except Error as refused:
            outcomes[at] = refused
            return []

    def _publish(self) -> list[tuple[int, ChangeRefused]]:
        try:
            self._version = self._session.publish().version
        except PublishRefused as refused:
            # the other shards have published
            raise Ended(None, f"a publish is refused: {refused}") from None
        changes, self._changes = self._changes, []
        refusals = enumerate(map(_refusal_of, changes))
        return [(at, refusal) for at, refusal in refusals if refusal]

    def _collect(self, searches: list[tuple[int, Search]], outcomes: list[Any]) -> None:
        """Waits for the answers. Each is of the publish before: nothing is published while a search is open."""
        for at, search in searches:
            try:
                answer = search.result()
                outcomes[at] = split(answer)  # here, where each shard does its part of it
                if answer.version != self._version:
                    raise Ended(None, f"an answer of version {answer.version}, and not {self._version}")
            except Ended:
                raise
            except Error as refused:
                outcomes[at] = refused
        searches.clear()

    def pid(self) -> int | None:
        """The number of the program's process."""
        return self._session.pid

    def close(self) -> None:
        """Ends the program."""
        self._session.kill()
        self._session.close()

    def __del__(self) -> None:
        # of a worker that was stopped, and has been left meanwhile
        with contextlib.suppress(AttributeError):
            self._session.kill()


def _refusal_of(change: Change) -> ChangeRefused | None:
    try:
        change.wait()
    except ChangeRefused as refused:
        return refused
    return None


class _Workers:
    """Which workers of a cluster have a shard."""

    _known: weakref.WeakKeyDictionary[Client, _Workers] = weakref.WeakKeyDictionary()

    def __init__(self, client: Client) -> None:
        self._client: Any = weakref.proxy(client)
        # each until when
        self._used: dict[str, float] = {}
        # how many shards wait for one, and whether that was said
        self._waiting = 0
        self._is_said = False

    @classmethod
    def of(cls, client: Client) -> _Workers:
        """Those of this client, which all its `Cluster`s share."""
        return cls._known.setdefault(client, cls(client))

    async def take(self) -> str:
        """A worker that has no shard; all actors of a worker would share one thread. `TooFewWorkers` if none comes in time; that is said before,
        once for all that wait, as a warning."""
        end, say = time.monotonic() + _TO_PLACE, time.monotonic() + _TO_SAY
        self._waiting += 1
        try:
            while True:
                known = (await self._client.scheduler.identity())["workers"]
                for worker in known:
                    if self._used.get(worker, 0) < time.monotonic():
                        self._used[worker] = math.inf
                        self._is_said = False
                        return str(worker)
                now, few = time.monotonic(), TooFewWorkers(self._waiting, len(known))
                if now > end:
                    raise few
                if now > say and not self._is_said:
                    self._is_said = True
                    warnings.warn(f"{few}; it is waited for", RuntimeWarning, stacklevel=2)
                await asyncio.sleep(0.05)
        finally:
            self._waiting -= 1

    def give(self, worker: str | None, has_failed: bool = False) -> None:
        """The worker has no shard any more."""
        if worker is not None:
            self._used[worker] = time.monotonic() + _AVOIDED if has_failed else 0


@dataclass
class _Asked:
    """An item in a lane. `waits` says whether it waits for a new actor if the shard is lost."""

    item: Item
    future: asyncio.Future[Any]
    waits: bool = True

    def settle(self, outcome: Any) -> None:
        if not self.future.done():
            self.future.set_result(outcome)


class _Names:
    """The names of documents in their order, once they are asked for: thousands of prefixes may go at a time."""

    def __init__(self, documents: Collection[bytes]) -> None:
        self._documents = documents
        self._sorted: list[bytes] | None = None
        self._more: list[bytes] = []

    def add(self, name: bytes) -> None:
        """Notes a name that may be new."""
        if self._sorted is not None:
            self._more.append(name)
            if len(self._more) > len(self._documents):
                self._sorted, self._more = None, []

    def under(self, prefix: bytes) -> list[bytes]:
        """Those that begin with a text, which go; among them may be some that have gone before."""
        if self._sorted is None:
            self._sorted = sorted(self._documents)
        elif self._more:
            self._sorted = sorted(self._sorted + self._more)
            self._more = []
        begin = bisect.bisect_left(self._sorted, prefix)
        end = bisect.bisect_left(self._sorted, True, begin, key=lambda name: not name.startswith(prefix))
        found = self._sorted[begin:end]
        del self._sorted[begin:end]
        return found


class _Lane:
    """The way to a shard. It has the documents of the last publish and the changes since, to feed a new actor."""

    def __init__(self, number: int, client: Client, call_seconds: float, options: dict[str, Any]) -> None:
        self.heals = 0
        self.documents: dict[bytes, bytes] = {}
        self._names = _Names(self.documents)
        self.bytes = self.accepted = 0
        self._number = number
        self._client = client
        self._workers = _Workers.of(client)
        self._call_seconds = call_seconds
        self._options = options
        # the changes since the last publish that was carried out, and publishes that were not
        self._pending: list[_Put | _Under | _Publish] = []
        # what was refused before a publish of which nobody was told
        self._untold: list[ChangeRefused] = []
        self._waiting: asyncio.Queue[_Asked] = asyncio.Queue()
        self._waiting_bytes = 0
        self._room = asyncio.Event()
        self._lost: ShardLost | None = None
        self._actor: Any = None
        self._made: Any = None
        self._worker: str | None = None
        self._next = 0
        self._task = asyncio.create_task(self._run())

    def send(self, item: Item, waits: bool = True) -> asyncio.Future[Any]:
        """Puts an item into the lane. Its outcome comes in the future, and an error as one."""
        asked = _Asked(item, asyncio.get_running_loop().create_future(), waits)
        if self._task.done():
            asked.settle(Ended(None, "the cluster is closed"))
        elif self._lost and not waits:
            asked.settle(self._lost)
        else:
            self._waiting.put_nowait(asked)
            self._waiting_bytes += _size_of(item)
        return asked.future

    async def wait_for_room(self) -> None:
        """Returns once not too much waits."""
        while self._waiting_bytes > _MOST_WAITING and not self._task.done():
            self._room.clear()
            await self._room.wait()

    async def pid(self) -> int | None:
        """The number of the shard's program."""
        while self._actor is None:
            await asyncio.sleep(0.01)
        found: int | None = await self._actor.pid()
        return found

    async def close(self) -> None:
        """Ends the shard, and what waits for it."""
        self._task.cancel()
        await asyncio.wait([self._task])
        if self._actor is not None:
            # a released actor would leave its program running
            with contextlib.suppress(OSError, ValueError, TimeoutError):
                async with asyncio.timeout(self._call_seconds):
                    await self._actor.close()
        self._workers.give(self._worker)

    async def _run(self) -> None:
        batch: list[_Asked] = []
        try:
            while True:
                # a shard is made, and made again if it is lost, whoever waits for it
                if self._actor is not None:
                    batch.append(await self._waiting.get())
                self._take_waiting(batch)
                # what nobody waits for any more
                batch[:] = [asked for asked in batch if not (isinstance(asked.item, Query) and asked.future.done())]
                await self._carry_out(batch)
                batch.clear()
        finally:
            # nobody may wait for ever
            self._take_waiting(batch)
            for asked in batch:
                asked.settle(Ended(None, "the cluster is closed"))

    def _take_waiting(self, batch: list[_Asked]) -> None:
        while not self._waiting.empty():
            batch.append(self._waiting.get_nowait())
        self._waiting_bytes = 0
        self._room.set()

    async def _carry_out(self, batch: list[_Asked]) -> None:
        """Sends a call until it is answered, each time to a new actor. After so many tries those who wait are told that the shard is
        lost. What they have changed and published stands all the same, and goes to the next actor."""
        for tried in range(_TRIES):
            try:
                if self._actor is None:
                    await self._make()
                outcomes = await self._send([asked.item for asked in batch])
            # whatever it is, another actor is made: Dask says OSError for a worker that ends during a call, and ValueError after that
            except Exception as fault:
                await self._lose(batch, fault)
                if isinstance(fault, TooFewWorkers):
                    outcomes = [self._lost] * len(batch)  # one was waited for, long enough
                    break
                await asyncio.sleep(_PAUSE * 2**tried)
                continue
            self._lost = None
            break
        else:
            outcomes = [self._lost] * len(batch)
        for asked, outcome in zip(batch, outcomes):
            self._note(asked.item, outcome)
            if isinstance(asked.item, _Publish) and not isinstance(outcome, ShardLost) and not asked.future.done():
                outcome, self._untold = self._untold, []
            asked.settle(outcome)

    async def _send(self, items: list[Item]) -> list[Any]:
        number, self._next = self._next, self._next + 1
        async with asyncio.timeout(self._call_seconds):
            outcomes: list[Any] = pickle.loads(await self._actor.run(number, pickle.dumps(items, pickle.HIGHEST_PROTOCOL)))
        return outcomes

    async def _lose(self, batch: list[_Asked], fault: Exception) -> None:
        """Leaves an actor that does not answer, and tells those who do not wait. Its program ends with its worker, or by this call if
        only the program has ended."""
        self.heals += 1
        self._lost = ShardLost(self._number, str(fault) or type(fault).__name__)
        for asked in batch:
            if not asked.waits:
                asked.settle(self._lost)
        batch[:] = [asked for asked in batch if asked.waits]
        actor, self._actor, self._made = self._actor, None, None
        if actor is not None:
            with contextlib.suppress(Exception):
                async with asyncio.timeout(1):
                    await actor.close()
        self._workers.give(self._worker, has_failed=not isinstance(fault, Ended))
        self._worker = None

    async def _make(self) -> None:
        """Makes an actor, and feeds it: first what is published, and then the changes since."""
        self._worker = await self._workers.take()
        self._next = 0
        submit: Any = self._client.submit
        self._made = submit(Shard, self._options, actor=True, workers=[self._worker], pure=False)
        async with asyncio.timeout(_TO_MAKE):
            self._actor = await self._made
        published = [_Put(name, body) for name, body in self.documents.items()]
        for batch in _batches(published):
            await self._send(batch)
        outcomes = await self._send([_Publish(), *self._pending])
        pending, self._pending = self._pending, []
        for item, outcome in zip(pending, outcomes[1:]):
            self._note(item, outcome)

    def _note(self, item: Item, outcome: Any) -> None:
        """Notes what the shard has after an item, or is to have once it is made again."""
        if isinstance(item, (_Put, _Under)) or (isinstance(item, _Publish) and isinstance(outcome, ShardLost)):
            self._pending.append(item)
        elif isinstance(item, _Publish):
            refused = dict(outcome)
            changes = [change for change in self._pending if not isinstance(change, _Publish)]
            last = {change.name: at for at, change in enumerate(changes) if isinstance(change, _Put)} if refused else {}
            for at, change in enumerate(changes):
                self._note_change(change, refused.get(at), not isinstance(change, _Put) or last.get(change.name, at) == at)
            self._pending.clear()

    def _note_change(self, change: _Put | _Under, refusal: ChangeRefused | None, is_last: bool) -> None:
        """Notes what a change comes to that is published, or refused. Who has a list for refusals is told that of the last change of a name
        alone: what it says is of the document."""
        if refusal is None:
            is_put = isinstance(change, _Put)
            gone = [change.name] if is_put else self._names.under(change.prefix)
            self.accepted += is_put or change.is_first()
            self.bytes += _size_of(change) - sum(len(self.documents.pop(name, b"")) for name in gone)
            if is_put and change.body is not None:
                self.documents[change.name] = change.body
                self._names.add(change.name)
        told = change.told(refusal) if isinstance(change, _Under) else refusal
        if told and change.refusals is None:
            self._untold.append(told)
        elif told and change.refusals is not None and is_last:
            change.refusals.append(told)


def _size_of(item: Item) -> int:
    return len(item.body or b"") if isinstance(item, _Put) else 0


def _batches(items: list[_Put]) -> Iterator[list[Item]]:
    batch: list[Item] = []
    size = 0
    for item in items:
        batch.append(item)
        size += _size_of(item)
        if size > _BATCH:
            yield batch
            batch, size = [], 0
    if batch:
        yield batch


class Changes:
    """What changes the documents of a cluster. Every `Cluster` is one.

    refusals: a list to which refusals are added as they come, and then no publish tells them.
    """

    def __init__(self, lanes: Sequence[_Lane], refusals: list[ChangeRefused] | None = None) -> None:
        self._lanes = lanes
        self._refusals = refusals

    @property
    def life(self) -> int:
        """1: versions are counted here, and do not begin again."""
        return 1

    async def put(self, name: str | bytes, body: str | bytes) -> None:
        """Adds a document, or replaces the one of this name. Returns once it is handed over, and not too much waits. Refusals are told
        by the publish; `ChangeRefused` at once for a bad name."""
        await self._change(_Put(names.to_bytes(name), body.encode() if isinstance(body, str) else body, self._refusals))

    async def remove(self, name: str | bytes) -> None:
        """Removes a document. Refusals are told by the publish; `ChangeRefused` at once for a bad name."""
        await self._change(_Put(names.to_bytes(name), None, self._refusals))

    async def remove_under(self, prefix: str | bytes) -> None:
        """Removes each document whose name begins with the prefix, from all shards in one change, which the next publish shows. The publish
        tells that it is refused if no shard has such a document; `ChangeRefused` at once for a prefix that cannot be a name, as the empty
        one."""
        under = _Under(names.to_bytes(prefix), len(self._lanes), self._refusals)
        names.checked(under.prefix)
        # all of them in one step, so that no publish comes between
        for lane in self._lanes:
            lane.send(under)
        for lane in self._lanes:
            await lane.wait_for_room()

    async def _change(self, change: _Put) -> None:
        names.checked(change.name)
        lane = self._lanes[zlib.crc32(change.name) % len(self._lanes)]
        lane.send(change)
        await lane.wait_for_room()


class Cluster(Changes):
    """Documents over several shards, for the tasks of one loop.

        async with Client(address, asynchronous=True) as client, Cluster(client, 4) as cluster:
            await cluster.put("a", "hello")
            await cluster.publish()
            print((await cluster.find("h")).hits())

    client: a client of Dask with `asynchronous=True` in this loop. Its workers have this package and the program.
    shards: how many; there are at least so many workers, and better one more, where the shard of one that ends finds its place.
    call_seconds: a shard that has not answered after so long is lost, and made again on another worker.
    options: those of `tsearch.Session`.

    Versions are counted here: each answer's is the number of publishes before it, the same for all shards. `ShardLost` is raised once a
    shard could not be made again in six tries. What was changed and published stands all the same, and it is tried again and again.
    """

    def __init__(self, client: Client, shards: int, *, call_seconds: float = TO_CALL, **options: Any) -> None:
        self._version = 0
        self._open = 0
        # what was refused before a publish that has failed
        self._untold: list[ChangeRefused] = []
        self.feeding = Feeding()
        super().__init__([_Lane(number, client, call_seconds, options) for number in range(shards)])

    @property
    def heals(self) -> int:
        """How often a shard was lost."""
        return sum(lane.heals for lane in self._lanes)

    async def pids(self) -> list[int | None]:
        """The numbers of the programs' processes, one for each shard."""
        return [await lane.pid() for lane in self._lanes]

    def changes(self, refusals: list[ChangeRefused] | None = None) -> Changes:
        """What changes the same documents, with a list for what is refused of these changes."""
        return Changes(self._lanes, refusals)

    async def publish(self, *, tells: bool = True) -> Published:
        """Lets searches see all changes so far, and gives what is published then, with the changes that were refused since the last publish
        that has told its own. Without `tells` they are left to the next publish. `ShardLost` if a shard could not be made again, and `Ended`
        if the cluster is closed."""
        self._version += 1
        version = self._version
        futures = [lane.send(_Publish()) for lane in self._lanes]
        try:
            outcomes = await _outcomes(futures)
        except BaseException:
            told = [future.result() for future in futures if future.done() and not future.cancelled()]
            self._untold += [refusal for outcome in told if isinstance(outcome, list) for refusal in outcome]
            raise
        refused = (*self._untold, *itertools.chain(*outcomes))
        self._untold = [] if tells else list(refused)
        return self._published(version, refused if tells else ())

    async def status(self) -> Status:
        """What is published."""
        return status_of(self._published(self._version, ()))

    def _published(self, version: int, refused: tuple[ChangeRefused, ...]) -> Published:
        documents, size, accepted = map(sum, zip(*[(len(lane.documents), lane.bytes, lane.accepted) for lane in self._lanes]))
        return Published(1, version, documents, size, accepted, MOST_COMMANDS, self._open, refused)

    async def restart(self, feed: object) -> None:
        """Nothing: shards are made again by themselves."""

    async def find(self, pattern: str | bytes, *, waits: bool = True, **options: Unpack[Options]) -> Answer:
        """The lines that contain a match, with the options and errors of `tsearch.Session.find`, and those of one session with all
        documents, byte for byte.

        waits: whether to wait for a shard that is lost. Without, `ShardLost` is raised at once.

        A search whose task is cancelled is not cancelled in the programs if it is there by then: give `search_ms`.
        """
        return await self.find_query(Query.of(pattern, **options), waits=waits)

    async def find_query(self, query: Query, *, waits: bool = True) -> Answer:
        """Does what `find` does, for a query that is made."""
        version = self._version
        self._open += 1
        try:
            parts = query.parts()
            # all of them in one step, so that no publish comes between
            outcomes = await _outcomes([lane.send(part, waits) for part in parts for lane in self._lanes])
        finally:
            self._open -= 1
        shards = len(self._lanes)
        answers = [merged(part, outcomes[at * shards : (at + 1) * shards], version) for at, part in enumerate(parts)]
        answer = joined(answers)
        assert answer is not None
        return answer

    async def close(self, timeout: float | None = None) -> None:
        """Ends all programs. `timeout` has no effect: a shard has `call_seconds` for it."""
        await asyncio.gather(*[lane.close() for lane in self._lanes])

    async def __aenter__(self) -> Cluster:
        return self

    async def __aexit__(self, *_: object) -> None:
        await self.close()


async def _outcomes(futures: list[asyncio.Future[Any]]) -> list[Any]:
    """What all lanes say. The first error is raised."""
    outcomes: list[Any] = await asyncio.gather(*futures)
    for outcome in outcomes:
        if isinstance(outcome, Error):
            # one of a shard that is lost is for several callers
            raise outcome.with_traceback(None)
    return outcomes
