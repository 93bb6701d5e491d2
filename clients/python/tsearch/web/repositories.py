"""The repositories that are served: the session that they share, what each keeps in it, and what its files were before.

The names of a repository's documents begin with its number, a colon, the revision, which is empty for files of a working tree, and a colon.
"""

from __future__ import annotations

import asyncio
import contextlib
import dataclasses
import functools
import itertools
import os
import time
import traceback
from collections.abc import Callable
from dataclasses import dataclass
from typing import TYPE_CHECKING, NamedTuple

from .. import aio
from ..answers import Answer, Published, Status
from ..bounds import Bounds
from ..errors import Ended, Error, SearchRefused
from ..folder import text_body
from ..git import FILE_KINDS, NoRepository, Store, is_glob
from ..history import History
from ..names import quote, to_bytes
from ..paths import check, under
from ..query import Query, document_pattern
from ..repository import git_folder
from ..tgrep import ere
from .apart import Apart
from .commits import Commits
from .limits import HOST, LeftOut, left_out_of
from .reviews import Most, Reviews
from .threads import Threads
from .told import told_of

if TYPE_CHECKING:
    from ..cluster import Cluster

# In seconds.
_TO_PUBLISH = 5.0
_TO_TELL = 1.0
# So long a command of git may take, one for which a visitor waits, and one of a review.
_TO_READ, _TO_ANSWER, _TO_COMPARE = 60.0, 5.0, 20.0
# So long a repository rests after a fault that nobody has foreseen, and twice as long after each one more, up to the last.
_FIRST_REST, _LONGEST_REST = 1.0, 60.0
_LONGEST_FAULT = 4_000
_UNFORESEEN = "a fault that was not foreseen; it is tried again"
# What is served of a bare repository.
HEAD = "HEAD"
# Of so many publishes it is known of which commits they were.
_MOST_COMMITS = 64


class Filter(NamedTuple):
    """Which documents of a repository may be seen: those whose paths match all of the one and none of the other patterns, and begin with
    one of `under`, if there are any, and with none of `not_under`."""

    names: tuple[str, ...] = ()
    not_names: tuple[str, ...] = ()
    under: tuple[str, ...] = ()
    not_under: tuple[str, ...] = ()


class Gone(Error):
    """A document is no longer known as it was at the version that is asked for, or is not to be seen."""


class Unread(Error):
    """A repository is still being read, or is read again, or cannot be read: `fault` says why. `is_soon` is False then."""

    def __init__(self, fault: str = "") -> None:
        super().__init__(fault or "it is still being read")
        self.is_soon = not fault


@dataclass(frozen=True)
class Served:
    """What is served: a name, which has no colon; the folder; the revisions, as `tsearch.git.Revisions` takes them, or none for the files of
    a working tree; and what leads on to a host's own pages: an address with `{commit}`, `{path}` and `{line}` in it.

    keep_commits: whether files open at commits too that were served once, and are in no branch any more.
    alternates: whether objects may be in folders outside the repository.
    bounds: what is taken of it at most.
    fault: why it cannot be served, if it cannot.
    """

    name: str
    path: bytes
    revisions: tuple[str, ...] = ()
    link: str = ""
    keep_commits: bool = False
    alternates: bool = True
    bounds: Bounds = HOST
    fault: str = ""

    def called(self, name: str) -> Served:
        """The same with another name."""
        return dataclasses.replace(self, name=name)


class Found(NamedTuple):
    """The answer of a repository: what was asked in which revision at which commit; both are empty for files of a working tree. The names
    of its documents begin with `start`."""

    answer: Answer
    revision: str
    commit: str
    start: bytes


class Shared:
    """The session of all repositories, or a cluster in its place. A program that has ended is started again with nothing in it, and each
    repository puts what it has."""

    def __init__(self, session: aio.Session | Cluster, say: Callable[[str], None], most: Most = Most()) -> None:
        self.session = session
        self.restarts = 0
        self.apart = Apart()
        self.repositories: set[Repository] = set()
        # what reads repositories, and what reads what visitors ask for
        self.reading, self.viewing, self.reviewing = Threads(16, "reading"), Threads(3, "viewing"), Threads(2, "reviewing")
        self.reviews = Reviews(session, most, self.reviewing.run)
        self._say = say
        self._numbers = itertools.count(1)

    def end(self) -> None:
        """Lets the threads end."""
        for threads in self.reading, self.viewing, self.reviewing:
            threads.end()

    def next_prefix(self) -> bytes:
        """What the names of another repository's documents begin with. It is not given again."""
        return b"%d:" % next(self._numbers)

    async def find(self, query: Query) -> Answer:
        """A search, with the errors of `Session.find`. While a shard of a cluster is lost it is refused at once, by `ShardLost`."""
        if isinstance(self.session, aio.Session):
            try:
                return await self.session.find_query(query)
            except Ended:
                self._hint()
                raise
        return await self.session.find_query(query, waits=False)

    async def start_again(self, ended: Ended) -> None:
        """Starts the program again if it has ended. The errors are those of `Session.restart`."""
        if await self.session.restart(_feed_nothing):
            self.restarts += 1
            self._say(f"{ended}; it is started again")
            self._hint()

    def _hint(self) -> None:
        for repository in self.repositories:
            repository.hint()

    async def status(self) -> Status:
        """What the session holds. `TimeoutError` if its program does not say so in a second, and `Ended`."""
        async with asyncio.timeout(_TO_TELL):
            return await self.session.status()


async def _feed_nothing(_: object) -> None:
    pass


class Repository:
    """What is served, and the task that keeps it in the session."""

    def __init__(self, served: Served, shared: Shared) -> None:
        self.served = served
        self.name = served.name
        self.shared = shared
        self.prefix = shared.next_prefix()
        # what went wrong last, and is not mended: for visitors, and as it was said to who serves the page
        self.fault = self._said = ""
        # how many files are loaded, and of how many
        self.progress = (0, 0)
        self.seconds = 0.0
        # what is left out, as of the last look
        self.left_out = LeftOut()
        self._hint = asyncio.Event()
        self._leaving = asyncio.Event()
        # whether it has become another kind of repository: then nothing keeps it any more
        self.has_turned = False
        self._rest = 0.0
        # the program that has all of it, and from which version on
        self._read: tuple[int, int] = (0, 0)
        # the program of which publishes are noted
        self._life = 0

    @property
    def kept(self) -> aio.Kept:
        """What is kept in the session."""
        raise NotImplementedError

    @property
    def roots(self) -> list[bytes]:
        """The folders in which a change is a hint."""
        raise NotImplementedError

    @property
    def revisions(self) -> dict[str, str]:
        """The commits of the revisions that there are; the first one is taken where none is asked for."""
        return {"": ""}

    @property
    def is_loaded(self) -> bool:
        """Whether the program that runs has all of it."""
        return self._read[0] == self.shared.session.life

    def take(self, served: Served) -> bool:
        """Serves this from the next look on. False if that is another repository, or has other files."""
        is_other = served.path != self.served.path or bool(served.revisions) != bool(self.served.revisions) or served.bounds != self.served.bounds
        if served.fault or is_other:
            return False
        self.served = served
        self.hint()
        return True

    def has_progress(self, done: int, of: int) -> None:
        """Notes how far it is loaded."""
        self.progress = (done, of)

    def hint(self) -> None:
        """Something may have changed."""
        self._hint.set()

    async def keep(self, seconds: float, say: Callable[[str], None], log: Callable[..., None] = lambda **row: None) -> None:
        """Keeps it in the session until it is left: looks after each hint, and after so many seconds. What goes wrong is said; a fault that
        nobody has foreseen is logged too, and the next look comes after a while, whatever hints come."""
        self.shared.repositories.add(self)
        try:
            while not self._leaving.is_set():
                self._hint.clear()
                began = time.monotonic()
                try:
                    await self._look(say)
                    self._rest = 0.0
                except Exception as error:  # whatever it is, the others are served, and this one is tried again
                    log(**unforeseen(self.name, error))
                    self._fail(say, Error(_UNFORESEEN), repr(error))
                    self._rest = min(2 * self._rest or _FIRST_REST, _LONGEST_REST)
                if self.has_turned:
                    return
                # one that takes long leaves the threads to others for as long again
                if not self._rest and self.fault and time.monotonic() - began > seconds:
                    self._rest = min(time.monotonic() - began, _LONGEST_REST)
                with contextlib.suppress(TimeoutError):
                    async with asyncio.timeout(self._rest or seconds):
                        await (self._leaving if self._rest else self._hint).wait()
                    # an editor writes several times when it saves
                    await asyncio.sleep(0.05)
        finally:
            self.shared.repositories.discard(self)

    async def leave(self, keeping: asyncio.Task[None]) -> None:
        """Ends the task that keeps it, once that has done what it does, and removes its documents."""
        self._leaving.set()
        self.hint()
        await keeping
        with contextlib.suppress(Error, OSError):
            await self.kept.drop(self.prefix)

    async def _look(self, say: Callable[[str], None]) -> None:
        try:
            refreshed = await self.kept.refresh()
            if refreshed.published or refreshed.left_out:
                self.left_out = await self.shared.reading.run(lambda: left_out_of(self.kept.left_out))
            self._begin(self.kept.life)
            if not refreshed.published:
                self._looked(None)
            self._need_kind()
            if self._read[0] != self.kept.life:
                self._read = (self.kept.life, refreshed.published.version if refreshed.published else 0)
            self.fault = self._said = ""
        except Ended as ended:
            try:
                await self.shared.start_again(ended)
            except (Error, OSError) as error:
                self._fail(say, error)
                await asyncio.sleep(1)
            self.hint()
        except (Error, OSError) as error:
            self._fail(say, error)

    def _fail(self, say: Callable[[str], None], error: Exception, more: str = "") -> None:
        """Says what is wrong, once for as long as it is. Only who serves the page is told more of it than `told_of` tells."""
        if str(error) != self._said:
            say(f"{self.name}: {error}{f': {more[:_LONGEST_FAULT]}' if more else ''}")
        self.fault, self._said = told_of(error), str(error)
        if self.kept.is_pending:
            # the publish of another one may show a part of it
            self._read = (0, 0)

    def _begin(self, life: int) -> None:
        """Notes that what follows is of another program, if it is."""
        if life != self._life:
            self._life = life
            self._started()

    def _started(self) -> None:
        """Notes that a program has nothing of it."""

    def _note(self, published: Published) -> None:
        """Notes a publish, before anybody can see what it has published."""
        self._begin(published.life)
        self._looked(published)

    def _looked(self, published: Published | None) -> None:
        """Notes what a look has come to."""

    def _need_kind(self) -> None:
        """`NoRepository` if it is of another kind than it is served as."""

    async def _settled(self) -> None:
        """Waits for what a publish says that may have been carried out."""
        if self.kept.settled.is_set():
            return
        with contextlib.suppress(TimeoutError):
            async with asyncio.timeout(_TO_PUBLISH):
                await self.kept.settled.wait()

    def start(self, revision: str) -> tuple[str, bytes]:
        """The revision that is searched, and what the names of its documents begin with. `Gone` if there is none, and `Unread`."""
        if not self.is_loaded:
            raise Unread(self.fault)
        revision = self._revision(revision)
        return revision, self.prefix + to_bytes(revision) + b":"

    def _revision(self, revision: str) -> str:
        raise NotImplementedError

    async def found(self, answer: Answer, revision: str, start: bytes) -> Found:
        """What it answers, of an answer of the session. `Unread` if that is of a program that had not all of it."""
        await self._settled()
        if answer.life != self._read[0] or answer.version < self._read[1]:
            raise Unread
        return Found(answer, revision, self._commit_at(revision, answer.version), start)

    def _commit_at(self, revision: str, version: int) -> str:
        return ""

    async def admits(self, own: Filter, path: bytes, lane: bytes) -> bool:
        """Whether a path may be seen. The lane is that of who asks."""
        if not any(own):
            return True
        if not seeing(own._replace(names=(), not_names=()))(path):
            return False
        names, not_names = (tuple(map(to_bytes, some)) for some in (own.names, own.not_names))
        await self.shared.find(dataclasses.replace(check(names, not_names), lane=lane))
        return seeing(own)(path)


class Files(Repository):
    """The files of a working tree."""

    def __init__(self, served: Served, shared: Shared) -> None:
        super().__init__(served, shared)
        # of this life of the program
        self._history = History()
        self._changed: set[bytes] = set()
        self._start = self.prefix + b":"
        self._folder = aio.Folder(
            shared.session, served.path, prefix=self._start, progress=self.has_progress, before_change=self._keep, published=self._note,
            bounds=served.bounds,
        )  # fmt: skip
        self._folder.files.hide_git()
        self._folder.in_parts = isinstance(shared.session, aio.Session)
        self._folder.in_thread = shared.reading.run

    @property
    def kept(self) -> aio.Folder:
        """The folder."""
        return self._folder

    @property
    def roots(self) -> list[bytes]:
        """The folder."""
        return [self._folder.root]

    def _looked(self, published: Published | None) -> None:
        if published:
            self._history.publish(self._changed, published.version)
            self._changed = set()

    def _started(self) -> None:
        self._history, self._changed = History(), set()

    def _need_kind(self) -> None:
        if self._folder.files.is_of_git:
            # what such a folder had before is not shown either
            self._read, self._history, self._changed = (0, 0), History(), set()
            self.has_turned = git_folder(self.served.path) == self.served.path
            told = "it is a git repository without files of its own, and not whole"
            raise NoRepository(f"{os.fsdecode(self.served.path)}: {told}", told)

    async def _keep(self, name: bytes) -> None:
        if name in self._changed:
            return
        try:
            before = await self._whole(name)
        except SearchRefused:
            before = None  # it is too long, or took too long: it cannot be shown as it was
        self._changed.add(name)
        self._history.change(name, before)

    async def _whole(self, name: bytes, lane: bytes | None = None) -> Answer:
        return await self.shared.find(Query(b"", names=(document_pattern(name),), lane=lane))

    def _revision(self, revision: str) -> str:
        if revision:
            raise Gone("there are no revisions, but the files of a folder")
        return ""

    async def view(self, path: bytes, life: int, version: int, lane: bytes) -> Answer | bytes:
        """All lines of a file as it was at the version of an answer, asked for in the lane of a visitor, or its text. `Gone` if it has changed and
        is not kept, or if the program was started again since; otherwise the errors of `Shared.find`."""
        await self._settled()
        name, history = self._start + path, self._history
        if life == self._life:
            found = history.at(name, version)
            if found is None and history.is_current(name, version):
                # mostly it is on the disk as it was, which is quicker than to ask for all lines
                body = await self.shared.viewing.run(self._folder.files.unchanged, path)
                if body is not None and life == self._life and history.is_current(name, version):
                    return body
                now = await self._whole(name, lane)
                # a change may have come meanwhile, and then it is kept by now
                found = history.at(name, version) or (now if now.life == life else None)
            if found is not None:
                return found
        raise Gone("the file has changed since this search")

    async def now(self, path: bytes, lane: bytes) -> tuple[Answer, bytes | None]:
        """All lines of a file as it is, asked for in the lane of a visitor; or its text, and the version that it is of, without lines."""
        name = self._start + path
        head = await self.shared.find(Query(b"", names=(document_pattern(name),), names_only=True, lane=lane))
        body = await self.shared.viewing.run(self._folder.files.unchanged, path)
        if body is not None and head.count and head.life == self._life and self._history.is_current(name, head.version):
            return head, body
        return await self._whole(name, lane), None


class Objects(Repository):
    """Revisions of a repository by its objects."""

    def __init__(self, served: Served, shared: Shared) -> None:
        super().__init__(served, shared)
        self._revisions = aio.Revisions(
            shared.session, served.path, served.revisions, prefix=self.prefix, progress=self.has_progress, published=self._note,
            bounds=served.bounds, in_parts=isinstance(shared.session, aio.Session),
        )  # fmt: skip
        self._revisions.in_thread = shared.reading.run
        self.store: Store = self._revisions.objects.store
        self.store.seconds = _TO_READ
        # the same, for what a visitor waits for
        self.asked = Store(served.path)
        self.asked.seconds = _TO_ANSWER
        self.compared = Store(served.path)
        self.compared.seconds = _TO_COMPARE
        # the commits from each version on
        self._commits: list[tuple[int, dict[str, str]]] = [(0, {})]
        # what is to be served and is not there, as it was said last
        self._missing: list[str] = []
        self._shown = Commits(self._revisions.objects, self.asked, shared.viewing.run)
        self._take(served)

    @property
    def kept(self) -> aio.Revisions:
        """The revisions."""
        return self._revisions

    @property
    def roots(self) -> list[bytes]:
        """The folders with the names of branches and tags."""
        return [self.store.folder]

    @property
    def revisions(self) -> dict[str, str]:
        """The commits of the revisions that are published, without those that are gone since or no longer to be served."""
        commits, named = self._commits[-1][1], self._shown.named
        return commits if commits.keys() <= named.keys() else {name: commit for name, commit in commits.items() if name in named}

    def take(self, served: Served) -> bool:
        """Serves this from the next look on. What is served stays until then, and what is not is not from now on. False too if objects may be in
        other folders no longer: what there is may be from there."""
        is_taken = served.alternates >= self.served.alternates and super().take(served)
        if is_taken:
            self._take(served)
        return is_taken

    def _take(self, served: Served) -> None:
        self._revisions.objects.wanted = served.revisions
        for store in self.store, self.asked, self.compared:
            store.reader.may_have_alternates = served.alternates
        self._shown.take(served.revisions, served.keep_commits)

    async def _look(self, say: Callable[[str], None]) -> None:
        await super()._look(say)
        missing = [name for name in self.served.revisions if not is_glob(name) and name not in self.revisions] if self.is_loaded else []
        if missing and missing != self._missing:
            say(f"{self.name}: there is no revision {', '.join(missing)}")
        self._missing = missing

    async def leave(self, keeping: asyncio.Task[None]) -> None:
        """Ends the reviews too."""
        await super().leave(keeping)
        self.shared.reviews.leave(self.prefix)

    def _looked(self, published: Published | None) -> None:
        commits = dict(self._revisions.objects.commits)
        self._shown.note(commits.values())
        if published or commits != self._commits[-1][1]:
            # without a publish they have the same files
            version = published.version if published else self._commits[-1][0]
            self._commits = [*self._commits[-_MOST_COMMITS:], (version, commits)]

    def _started(self) -> None:
        self._commits = [(0, {})]

    def _revision(self, revision: str) -> str:
        commits = self.revisions
        revision = revision or next(iter(commits), "")
        if revision not in commits:
            if self.fault and not commits:
                raise Unread(self.fault)  # as of one that was removed piece by piece
            raise Gone(f"there is no revision {revision}" if revision else "there is no commit yet")
        return revision

    def _commit_at(self, revision: str, version: int) -> str:
        known = [found for first, found in self._commits if first <= version]
        return known[-1].get(revision, "") if known else ""

    async def check_served(self, commit: str) -> None:
        """`Gone` if a commit is none that is served, or no longer."""
        if self.fault and not self.revisions:
            raise Unread(self.fault)
        if not await self._shown.may_be_shown(commit):
            raise Gone("this commit is not, or no longer, served")

    def text(self, commit: str, path: bytes) -> bytes:
        """The text of a file of a commit, read now. `Gone` if there is no such file, or it has none, or is longer than a file may be."""
        entry = self.asked.entry(commit, path)
        if entry is None or entry.kind not in FILE_KINDS:
            raise Gone("there is no such file")
        bounds = self.served.bounds
        found = dict(self.asked.bodies([entry.object], lambda number, size: bounds.over_size(size)))[entry.object]
        body = text_body(found) if isinstance(found, bytes) else found
        if isinstance(body, str):
            raise Gone(f"it cannot be shown as text: {body}")
        return body

    async def commit(self, name: str) -> str:
        """The commit of a revision that is served, or of what leads to one. `Gone` if there is none, and for a name with a pattern, with which
        git would look through all messages."""
        found = self._shown.named.get(name) or (await self.shared.viewing.run(self.asked.commits, [name]) if not set(name) & set("*?[{") else {}).get(name, "")
        if not found or not await self._shown.may_be_shown(found):
            raise Gone(f"{name} is not a commit that is served")
        return found

    def review(self, before: str, after: str, visitor: str = "") -> contextlib.AbstractAsyncContextManager[aio.Review]:
        """The review of a patch between two commits, for a search of a visitor. The errors are those of `Reviews.opened`."""
        return self.shared.reviews.opened(self.prefix, self.compared, self.served.bounds, before, after, visitor)


def seeing(own: Filter) -> Callable[[bytes], bool]:
    """Whether a path may be seen. Once it is called the program has to have taken the patterns (`paths.check`)."""
    names, not_names, among, not_among = (tuple(map(to_bytes, some)) for some in own)
    tests = functools.cache(lambda patterns: [ere.names(under(one, b"")).has for one in patterns])

    def sees(path: bytes) -> bool:
        if (among and not path.startswith(among)) or path.startswith(not_among):
            return False
        name = quote(path)
        return all(test(name) for test in tests(names)) and not any(test(name) for test in tests(not_names))

    return sees


def unforeseen(repository: str, error: BaseException) -> dict[str, str]:
    """What the log has of a fault that nobody has foreseen."""
    trace = "".join(traceback.format_exception(error))
    return {"repository": repository, "fault": repr(error)[:_LONGEST_FAULT], "traceback": trace[-_LONGEST_FAULT:]}


def repository_of(served: Served, shared: Shared) -> Repository:
    """The repository for what is served. `NoRepository` if revisions are asked for and there is none."""
    return Objects(served, shared) if served.revisions else Files(served, shared)
