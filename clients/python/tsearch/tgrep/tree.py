"""The files of a folder in a session, as they are on the disk."""

from __future__ import annotations

import asyncio
import contextlib
import os
import threading
from collections.abc import Callable
from typing import Protocol

from .. import aio
from ..answers import Answer, Published
from ..errors import Ended, Error
from ..folder import Files, text_of
from ..query import Query
from .watched import Unwatched, Watch

# So much memory is taken for each byte of text, and so much of what is free may be.
_TIMES = 2.5
_SHARE = 0.8
_MOST_READERS = 4
_MOST_TRIES = 100


class TooLarge(Error):
    """The folder has more text than there is memory for."""


class Documents(Protocol):
    """What a search is made in: a session, and what is known of its documents."""

    @property
    def session(self) -> aio.Session:
        """The session."""

    @property
    def sizes(self) -> dict[bytes, int]:
        """The lengths of the documents, in bytes, by their names."""

    def size(self, name: bytes) -> int:
        """The length of a document, or of what is left out, in bytes."""

    @property
    def has_quoted(self) -> bool:
        """Whether a session writes the name of a document in another way than it is."""

    @property
    def left_out(self) -> dict[bytes, str]:
        """What is no document, with the reason."""

    def path(self, name: bytes) -> bytes:
        """The path of its file; empty if it has none."""

    def body(self, name: bytes) -> bytes:
        """The bytes of a document; empty if it is gone."""


def readers() -> int:
    """How many readers a session of this machine has."""
    return min(len(os.sched_getaffinity(0)), _MOST_READERS)


class Notes(Protocol):
    """Who is told what changes in a tree."""

    async def change(self, name: bytes) -> None:
        """A document that is there is about to change."""

    def published(self, published: Published) -> None:
        """Changes are published, or the program has been started again."""


class Tree:
    """A folder that is kept in a session.

    root: its absolute path.
    mode: with `all` in it no rules hold, with `apart` none of the folders above, and with `follow` symbolic links are followed.
    messages: is called with what the program writes to standard error; it may be one that is compiled first.
    """

    def __init__(self, root: str, mode: str, messages: Callable[[bytes], None], watches: bool = True) -> None:
        self.root = os.fsencode(root)
        self._mode = mode
        self._messages = messages
        self._watches = watches and "follow" not in mode
        self._watch: Watch | None = None
        # the watch since whose begin the whole folder was looked through
        self._sure: Watch | None = None
        self._watching: asyncio.Future[None] | None = None
        self.unwatched = "symbolic links are followed" if "follow" in mode else ""
        self._folder: aio.Folder | None = None
        self._session: aio.Session | None = None
        # held during each look
        self.lock = asyncio.Lock()
        self._asked = self._done = 0
        self._looks: set[asyncio.Task[None]] = set()
        self.progress: Callable[[int, int], None] = lambda done, of: None
        self.notes: Notes | None = None
        # whether files are looked at already, and whether the first publish is sent
        self.has_begun = self._is_measured = False
        self.is_sent = asyncio.Event()

    @property
    def session(self) -> aio.Session:
        """The session, once it is started."""
        assert self._session
        return self._session

    @property
    def files(self) -> Files:
        """What the session has of the folder."""
        assert self._folder
        return self._folder.files

    @property
    def has_quoted(self) -> bool:
        """Whether a name is quoted in the session."""
        return bool(self.files.quoted)

    def has_folder(self, path: str) -> bool:
        """Whether a folder is in the tree, and no rule names it."""
        name = os.path.relpath(os.fsencode(path), self.root)
        return name.split(b"/")[0] != b".." and self.files.has_folder(b"" if name == b"." else name)

    @property
    def left_out(self) -> dict[bytes, str]:
        """What is not in the session, with the reason."""
        return self.files.left_out

    @property
    def sizes(self) -> dict[bytes, int]:
        """The lengths of the documents, in bytes."""
        return {name: self.size(name) for name in self.files.held}

    def size(self, name: bytes) -> int:
        """The length of a document, or of what is left out."""
        return self.files.size(name)

    def path(self, name: bytes) -> bytes:
        """The path of a document's file."""
        return os.path.join(self.root, name)

    def body(self, name: bytes) -> bytes:
        """The bytes of a document."""
        try:
            with open(self.path(name), "rb") as file:
                return text_of(file.read())
        except OSError:
            return b""

    async def load(self) -> None:
        """Starts the program, and loads all files. `Error` and `OSError` if there is no program, or too little memory."""
        self._watching = self._begun_to_watch()
        try:
            self._session = await aio.Session.start(readers=readers(), messages=self._messages)
            rules, follows, is_apart = (False if "all" in self._mode else None), "follow" in self._mode, "apart" in self._mode
            self._folder = aio.Folder(
                self._session, self.root, git=rules, follows=follows, is_apart=is_apart, progress=self._has_progress, before_change=self._change
            )
            self.has_begun = True
            await self._folder.refresh()
        finally:
            self.is_sent.set()

    async def _change(self, name: bytes) -> None:
        if self.notes:
            await self.notes.change(name)

    def _note(self, published: Published | None) -> None:
        if self.notes and published:
            self.notes.published(published)

    def _has_progress(self, done: int, of: int) -> None:
        if not self._is_measured:
            self._is_measured = True
            self._need_memory()
        if done == of:
            # who waits sends its search right behind the publish: afterwards the program is busy for a while
            self.is_sent.set()
        self.progress(done, of)

    def _need_memory(self) -> None:
        """`TooLarge` if the text to load takes more memory than there is."""
        text = self.files.text_bytes
        with contextlib.suppress(OSError, ValueError), open("/proc/meminfo", "rb") as file:
            free = next(int(line.split()[1]) * 1024 for line in file if line.startswith(b"MemAvailable:"))
            if text * _TIMES > free * _SHARE:
                raise TooLarge(f"{os.fsdecode(self.root)} has {text >> 20:,} MiB of files, too much for the memory: search a folder of it, or use rg")

    def _begun_to_watch(self) -> asyncio.Future[None]:
        """Begins to watch. Nobody waits for watchman, which may be slow or stuck, not even at the end: until it has begun, the folder is
        looked through."""
        loop = asyncio.get_running_loop()
        begun: asyncio.Future[None] = loop.create_future()

        def begin() -> None:
            self._begin_to_watch()
            with contextlib.suppress(RuntimeError):  # the loop has ended
                loop.call_soon_threadsafe(begun.set_result, None)

        threading.Thread(target=begin, daemon=True).start()
        return begun

    def _begin_to_watch(self) -> None:
        if self._watches:
            try:
                self._watch = Watch(self.root)
                self.unwatched = ""
            except Unwatched as error:
                self.unwatched = str(error)

    def watch_again(self) -> None:
        """Begins to watch again, if watchman had failed: it may have been too busy for a while."""
        if self._watches and self._watch is None and self._watching and self._watching.done():
            self._watching = self._begun_to_watch()

    async def fresh(self) -> None:
        """Returns once searches see each change that was on the disk before the call. Calls that come while a look is made share the
        next one. A look goes on if its caller is cancelled: what it was told is told once."""
        look = asyncio.create_task(self._fresh())
        self._looks.add(look)
        look.add_done_callback(self._looks.discard)
        await asyncio.shield(look)

    async def _fresh(self) -> None:
        self._asked += 1
        wanted = self._asked
        async with self.lock:
            if self._done < wanted:
                now = self._asked
                await self._look()
                self._done = now

    async def _look(self) -> None:
        assert self._folder
        watch, changed = await asyncio.to_thread(self._changes)
        for _ in range(_MOST_TRIES):
            try:
                if changed is None or self.files.needs_look(changed):
                    self._note((await self._folder.refresh(changed)).published)
                self._sure = watch
                return
            except Ended:
                self._note(await self._folder.restart())
                changed = None

    def _changes(self) -> tuple[Watch | None, set[bytes] | None]:
        """The watch, and what may have changed since the last look; None if it is not known."""
        watch = self._watch
        if watch is None:
            return None, None
        try:
            changed = watch.changes()
            if self.files.has_unwatched:
                raise Unwatched("watchman does not look into .svn and .hg")
            if changed is None or self._sure is not watch:
                return watch, None
            return watch, changed | self.files.changed_links()
        except Unwatched as error:
            watch.close()
            self._watch, self.unwatched = None, str(error)
            return None, None

    async def look_through(self) -> None:
        """Looks at all files, for changes that watchman does not tell: those through mapped memory, or through another name."""
        self._sure = None
        await self.fresh()

    async def again(self) -> None:
        """Starts the program again, if it has ended, with all files."""
        async with self.lock:
            assert self._folder
            self._note(await self._folder.restart())

    async def close(self) -> None:
        """Ends the program."""
        if self._watch:
            self._watch.close()
        if self._session:
            self._session.kill()
            await self._session.close()


async def find(documents: Documents, query: Query) -> Answer:
    """The answer to a query, which may take two searches."""
    return await documents.session.find_query(query)
