"""A folder whose text files are kept in a session."""

from __future__ import annotations

import codecs
import dataclasses
import hashlib
import os
import stat
import threading
import time
from collections.abc import Callable, Iterable, Iterator
from typing import NamedTuple, Protocol, Unpack

from . import names
from .answers import Answer, Published
from .bounds import Bounds
from .errors import ChangeRefused, Ended
from .listing import OF_GIT, File, Lister, Listing, Stamp
from .program import MOST_BODY, MOST_NAME
from .query import Options
from .session import Changes, Session

# What the program calls a file that can be no document, and what this package does.
_CALLED = {"byte 0 in body": "binary", "cannot load": "cannot be read"}
# In nanoseconds. A file that changes twice within a tick of the clock of its times may have the same ones both times.
TICK = 100_000_000
# What a file can begin with that says how it is to be read.
_MARKS = {codecs.BOM_UTF8: "", codecs.BOM_UTF16_LE: "utf-16-le", codecs.BOM_UTF16_BE: "utf-16-be"}
# In bytes: by so many it is told whether a file is binary, before all of it is read; and a small one is taken for text without that.
_HEAD = 8_192
_SMALL = 1 << 20
# So many changed files and more the program loads itself.
_LEAST_LOADED = 256
# So many files are sent, and then so many more before it is known that the program has read the first ones.
BATCH = 256
# So many documents are removed by one change, or by one publish where they may go a few at a time: searches wait for it.
MOST_TOGETHER = 64


class Step(NamedTuple):
    """A document to put, or to remove if there is no body; for how many documents steps have come before, and for how many at most. With a
    path the program is to load the document from there. With `under` so many documents are to be removed at once, which are all those whose
    names begin with this one; or, with a `source` too, to be copied at once from those whose names begin with that. One that is `free` is of what
    nobody knows of yet: a publish may show it before the others."""

    name: bytes
    body: bytes | None
    done: int
    of: int
    path: bytes | None = None
    under: int = 0
    source: bytes | None = None
    free: bool = False


class LeftOut(NamedTuple):
    """A file or a folder that is not in the session, by its path from the top of the folder, and why."""

    name: bytes
    reason: str


class Refreshed(NamedTuple):
    """What a look through a folder came to: how many documents were put or loaded, also those that were refused then, and how many were
    removed; what is left out and was not named before; and the publish, or None if nothing had changed."""

    put: int
    removed: int
    left_out: list[LeftOut]
    published: Published | None


Progress = Callable[[int, int], object]


class Source(Protocol):
    """What documents come from, and what a session has of it, as its client knows it. It sends nothing: `Kept` and `aio.Kept` send its
    steps."""

    left_out: dict[bytes, str]
    # whether the next look has more to give at once
    has_more: bool

    @property
    def totals(self) -> tuple[int, int]:
        """How many documents there are, and the bytes of their files."""

    def removals(self) -> Iterator[Step]:
        """What removes all documents, at most `MOST_TOGETHER` of them at once."""

    def forget(self) -> None:
        """A new program has nothing of it."""

    def steps(self) -> Iterator[Step]:
        """Looks at all of it, and gives what makes the session's documents those that it has, to be sent in this order."""

    def take_refusals(self, refused: tuple[ChangeRefused, ...], are_sent: bool = True) -> list[bytes]:
        """Takes what a publish says was refused, or with `are_sent` false what is refused while some of the steps given are not yet sent. The
        documents to remove: the session has an older body of each."""

    def is_new(self, name: bytes) -> bool:
        """Whether the document of a step is new to the session."""

    def take_news(self) -> list[LeftOut]:
        """What is left out and was not given before."""


class Files:
    """What a session has of a folder: a `Source`.

    Documents are named by a prefix and the path from the top of the folder.
    """

    def __init__(
        self,
        root: str | bytes | os.PathLike[str] | os.PathLike[bytes],
        prefix: str | bytes = b"",
        git: bool | None = None,
        follows: bool = False,
        is_apart: bool = False,
        loads: bool = False,
        bounds: Bounds = Bounds(),
    ) -> None:
        self.bounds = bounds
        self.has_more = False
        self.root = os.path.abspath(os.fsencode(root))
        self.prefix = names.to_bytes(prefix)
        self._lister = Lister(self.root, git is not False, follows, is_apart)
        self._loads = loads
        # how many bytes of text the files had at a first look, as far as the beginnings of the large ones tell
        self.text_bytes = 0
        self.left_out: dict[bytes, str] = {}
        # with their lengths
        self.held: dict[bytes, int] = {}
        self._bytes = 0
        # those of them that were sent once since the last publish, and never before
        self._new: set[bytes] = set()
        # those of them that a session writes in another way
        self.quoted: set[bytes] = set()
        self._known: dict[bytes, Stamp] = {}
        # of files that had changed so lately that their stamps may not tell the next change: a digest of what was read
        self._recent: dict[bytes, bytes] = {}
        self._news: list[LeftOut] = []

    def hide_git(self) -> None:
        """Leaves out git's own folders from now on, whatever they are called: each look says anew which are."""
        self._lister.hides_git = True

    def is_hidden(self, name: bytes) -> bool:
        """Whether a path leads into a folder that is left out so, as it is now."""
        return self._lister.is_hidden(name)

    @property
    def is_of_git(self) -> bool:
        """Whether the last look has found that all of it is such a folder."""
        return self.left_out.get(self.root) == OF_GIT

    def forget(self) -> None:
        """A new program has nothing of the folder."""
        self.held.clear()
        self._bytes = 0
        self._new.clear()
        self.quoted.clear()
        self._known.clear()
        self._recent.clear()

    @property
    def totals(self) -> tuple[int, int]:
        """How many documents there are, and the bytes of their files."""
        return len(self.held), self._bytes

    def removals(self) -> Iterator[Step]:
        """What removes all documents, one by one: others may have names that begin as theirs do."""
        held = list(self.held)
        for at, name in enumerate(held):
            yield Step(self.prefix + name, None, at, len(held))
            self._drop(name)

    def steps(self) -> Iterator[Step]:
        """Looks through the folder, and gives what makes the session's documents those of the folder, to be sent in this order."""
        began = time.time_ns()
        listing = self._lister.list()
        self._name_faults(listing)
        if not self.held:
            self.text_bytes = sum(file.stamp.size for file in listing.files.values() if _may_be_text(file))
        yield from self._steps(listing, self._known.keys() - listing.files.keys(), began)

    def _can_be_loaded(self, name: bytes, file: File, began: int) -> bool:
        """Whether the program can take the bytes of a file as they are, and the next change will show in its stamp."""
        is_old = name not in self._recent and max(file.stamp.modified, file.stamp.changed) <= began - TICK
        bounds = self.bounds
        is_short = file.stamp.size <= min(bounds.body, bounds.line) and len(names.quote(self.prefix + name)) <= MOST_NAME
        return is_old and is_short and not self._over_all(name, file.stamp.size) and _is_text(file.path) and _is_plain(_head_of(file))

    def _over_all(self, name: bytes, size: int) -> str:
        """Why a file of so many bytes is left out, for what there is of all; empty if it is not."""
        is_new = name not in self.held
        return self.bounds.over_all(self._bytes - self.held.get(name, 0) + size, len(self.held) + is_new, len(self.held) + is_new)

    @property
    def has_unwatched(self) -> bool:
        """Whether the folder has some in it that watchman does not look into."""
        return self._lister.has_unwatched

    def changed_links(self) -> set[bytes]:
        """Files that have changed of those whose bytes have another name too: a change through that one is told of nowhere."""
        linked = self._lister.linked & self._known.keys()
        return {name for name in linked if self._lister.stamp_at(name) != self._known[name]}

    def needs_look(self, changed: set[bytes]) -> bool:
        """Whether `steps_of` may have steps."""
        return bool(changed) or self._lister.has_news()

    def steps_of(self, changed: set[bytes]) -> Iterator[Step]:
        """The same for files that may have changed, while the caller knows that no others have. All have been looked at before."""
        began = time.time_ns()
        news = self._lister.news(changed)
        if news is None:
            yield from self.steps()
            return
        found = {name: file for name in news if (file := self._lister.file_at(name)) is not None}
        yield from self._steps(Listing(found, {}), (news & self._known.keys()) - found.keys(), began)

    def _steps(self, listing: Listing, lost: Iterable[bytes], began: int) -> Iterator[Step]:
        gone = sorted(lost)
        changed = [name for name in sorted(listing.files) if name in self._recent or self._known.get(name) != listing.files[name].stamp]
        for at, name in enumerate(gone):
            self._known.pop(name)
            self._recent.pop(name, None)
            self.left_out.pop(name, None)
            if name in self.held:
                self._drop(name)
                yield Step(self.prefix + name, None, at, len(gone) + len(changed))
        loads = self._loads and len(changed) >= _LEAST_LOADED
        for at, name in enumerate(changed, len(gone)):
            file = listing.files[name]
            if loads and self._can_be_loaded(name, file, began):
                # if it changes before it is loaded, its stamp has changed too, and the next look puts it
                self.left_out.pop(name, None)
                self._hold(name, file.stamp.size)
                self._known[name] = file.stamp
                yield Step(self.prefix + name, None, at, len(gone) + len(changed), file.path)
                continue
            for body in self._look_at(name, file):
                yield Step(self.prefix + name, body, at, len(gone) + len(changed))

    def take_refusals(self, refused: tuple[ChangeRefused, ...], are_sent: bool = True) -> list[bytes]:
        """Takes what a publish says was refused. The documents to remove: the session has an older body of each."""
        stale = []
        for refusal in refused:
            name = refusal.name.removeprefix(self.prefix)
            if refusal.name.startswith(self.prefix) and name in self.held:
                if name not in self._new:
                    stale.append(refusal.name)
                self._drop(name)
                self._recent.pop(name, None)
                if refusal.reason == "cannot load":
                    self._known.pop(name)  # it is tried again
                self._leave_out(name, called(refusal.reason))
        self._new.clear()
        return stale

    def has_folder(self, name: bytes) -> bool:
        """Whether no rule names a folder, nor one above it; its path from the top has no slash at the end."""
        return self._lister.has_folder(name)

    def is_new(self, name: bytes) -> bool:
        """Whether the document of a step is new to the session."""
        return name.removeprefix(self.prefix) in self._new

    def unchanged(self, name: bytes) -> bytes | None:
        """The text of a file that is as it was when it was looked at last; None if that is not known, or it is no document."""
        stamp, recent = self._known.get(name), self._recent.get(name)
        if stamp is None or name not in self.held or self._lister.stamp_at(name) != stamp:
            return None
        try:
            body = _body_of(File(os.path.join(self.root, name), stamp))
        except (OSError, ChangeRefused):
            return None
        if recent is not None and hashlib.blake2b(body, digest_size=16).digest() != recent:
            return None  # the stamp alone does not tell
        return body if self._lister.stamp_at(name) == stamp else None

    def size(self, name: bytes) -> int:
        """The length of a file that was looked at, also one that is left out, in bytes; 0 if there is none."""
        stamp = self._known.get(name)
        return stamp.size if stamp else 0

    def take_news(self) -> list[LeftOut]:
        """What is left out and was not given before."""
        news, self._news = self._news, []
        return news

    def _name_faults(self, listing: Listing) -> None:
        for name in self.left_out.keys() - listing.files.keys() - listing.faults.keys():
            del self.left_out[name]
        for name, reason in listing.faults.items():
            self._leave_out(name, reason)

    def _hold(self, name: bytes, size: int) -> None:
        if name in self.held:
            self._new.discard(name)
        else:
            self._new.add(name)
        self._bytes += size - self.held.get(name, 0)
        self.held[name] = size
        if names.quote(name) != name:
            self.quoted.add(name)

    def _drop(self, name: bytes) -> None:
        self._bytes -= self.held.pop(name, 0)
        self._new.discard(name)
        self.quoted.discard(name)

    def _leave_out(self, name: bytes, reason: str) -> None:
        if self.left_out.get(name) != reason:
            self.left_out[name] = reason
            self._news.append(LeftOut(name, reason))

    def _look_at(self, name: bytes, file: File) -> Iterator[bytes | None]:
        """Reads a file that may have changed: its body if it is to be put, None if its document is to be removed, or nothing."""
        began = time.time_ns()
        try:
            names.checked(self.prefix + name)
            reason = self.bounds.over_size(file.stamp.size) or self._over_all(name, file.stamp.size)
            if reason:
                raise ChangeRefused(reason, name)
            body = _body_of(file)
            if reason := self.bounds.over_line(body):
                raise ChangeRefused(reason, name)
        except FileNotFoundError:
            return  # the next look finds it gone
        except ChangeRefused as refused:
            yield from self._without(name, refused.reason)
            if refused.reason in self.bounds.of_all:
                self._known.pop(name, None)  # it may have room later
            else:
                self._known[name] = file.stamp
            return
        except OSError as error:
            # not known, so that it is tried again
            yield from self._without(name, error.strerror or str(error))
            return
        self.left_out.pop(name, None)
        before, now = self._recent.pop(name, None), hashlib.blake2b(body, digest_size=16).digest()
        if max(file.stamp.modified, file.stamp.changed) > began - TICK:
            self._recent[name] = now
        self._known[name] = file.stamp
        if before != now or name not in self.held:
            self._hold(name, len(body))
            yield body

    def _without(self, name: bytes, reason: str) -> Iterator[None]:
        self._recent.pop(name, None)
        self._leave_out(name, reason)
        if name in self.held:
            self._drop(name)
            yield None


def steps_of_all(source: Source) -> Iterator[Step]:
    """The steps of a look, and of those that follow it at once."""
    yield from source.steps()
    while source.has_more:
        yield from source.steps()


def called(reason: str) -> str:
    """What this package calls the reason for which the program refuses a document."""
    return _CALLED.get(reason, reason)


def _is_text(path: bytes) -> bool:
    """Whether the path can be that of a load."""
    try:
        path.decode()
    except UnicodeDecodeError:
        return False
    return b"\n" not in path


def _opened(file: File) -> int:
    """A descriptor of a file. Another process may have put a pipe or a link in its place."""
    return os.open(file.path, os.O_RDONLY | os.O_NOFOLLOW | os.O_NONBLOCK | os.O_CLOEXEC)


def _head_of(file: File) -> bytes:
    """How a file begins, as far as it can be read."""
    try:
        descriptor = _opened(file)
    except OSError:
        return b""
    try:
        return os.read(descriptor, _HEAD)
    except OSError:
        return b""
    finally:
        os.close(descriptor)


def _may_be_text(file: File) -> bool:
    return file.stamp.size <= _SMALL or (file.stamp.size <= MOST_BODY and not _is_binary(_head_of(file)))


def _is_binary(head: bytes) -> bool:
    """Whether a file that begins so is no text."""
    return b"\0" in head and not decoder_of(mark_of(head))


def _is_plain(head: bytes) -> bool:
    """Whether a file that begins so is as a document has it, as far as that tells."""
    return b"\0" not in head and not mark_of(head)


def mark_of(data: bytes) -> bytes:
    """The byte order mark that some bytes begin with; empty if there is none."""
    return next((mark for mark in _MARKS if data.startswith(mark)), b"")


def decoder_of(mark: bytes) -> codecs.IncrementalDecoder | None:
    """What reads the bytes behind a mark, if they are no UTF-8."""
    encoding = _MARKS.get(mark)
    return codecs.getincrementaldecoder(encoding)("replace") if encoding else None


def text_of(data: bytes) -> bytes:
    """The bytes of a file as a document has them: a byte order mark is no part of it, and UTF-16 with one becomes UTF-8."""
    mark = mark_of(data)
    decoder = decoder_of(mark)
    return decoder.decode(data[len(mark) :], True).encode() if decoder else data[len(mark) :] if mark else data


def text_body(data: bytes) -> bytes | str:
    """The text of the bytes of a file, or the reason why no document can have it."""
    if len(data) > MOST_BODY:
        return "body too long"
    if _is_binary(data[:_HEAD]):
        return "binary"
    body = text_of(data)
    return "body too long" if len(body) > MOST_BODY else "binary" if b"\0" in body else body


def _body_of(file: File) -> bytes:
    """The text of a file. `ChangeRefused` if no document can have it."""
    if file.stamp.size > MOST_BODY:
        raise ChangeRefused("body too long", file.path)
    descriptor = _opened(file)
    with open(descriptor, "rb") as opened:
        state = os.fstat(descriptor)
        if not stat.S_ISREG(state.st_mode):
            raise FileNotFoundError
        head = opened.read(_HEAD)
        if _is_binary(head):
            raise ChangeRefused("binary", file.path)
        # one that grows meanwhile is looked at again
        body = text_body(head + opened.read(max(min(state.st_size, MOST_BODY) + 1 - len(head), 0)))
    if isinstance(body, str):
        raise ChangeRefused(body, file.path)
    return body


class Kept:
    """Keeps what a source has in a session. Threads can share it; one at a time looks at the source."""

    def __init__(self, session: Session, source: Source, progress: Progress | None = None) -> None:
        self._session = session
        self._source = source
        self._progress = progress or (lambda done, of: None)
        self._lock = threading.Lock()
        self._is_pending = False
        # what the program has refused, and the source has not been told: also of a look that has failed, whoever publishes next
        self._refused: list[ChangeRefused] = []
        # how often the program was started that has what the source knows of
        self._life = 0

    @property
    def left_out(self) -> dict[bytes, str]:
        """What is not in the session now, by its name without the prefix, with the reason."""
        with self._lock:
            return dict(self._source.left_out)

    def refresh(self) -> Refreshed:
        """Looks at the source, sends what has changed, and publishes it. A search that is sent afterwards sees all of it. `Ended` if the
        program has ended: then `restart`. `PublishRefused` if there is no memory for the publish: the next `refresh` publishes again."""
        with self._lock, self._session.feeding:
            changes = Changes(self._session._connection, self._refused)
            if changes.life != self._life:
                self._begin(changes.life)
            if self._is_pending:
                # of a look that has failed: a refusal of it is of no body that is sent now
                changes.mark()()
                self._take_refusals(changes)
            put, removed = self._send(changes)
            published = None
            if put or removed or self._is_pending:
                published = self._publish(changes)
            else:
                self._session.status()  # it may have ended
            return Refreshed(put, removed, self._source.take_news(), published)

    def restart(self) -> Published | None:
        """Starts the program again if it has ended, and sends all documents. None if it runs. For a session with this source alone; with
        others it is `session.restart` with a callback that calls the `feed` of each. The errors are those of `session.restart`."""
        with self._lock:
            published = self._session.restart(self._feed)
            if published:
                self._is_pending = False
                published = self._with_own(published)
                if self._take_refusals(Changes(self._session._connection, self._refused)):
                    published = published.before(self._publish_once())
            return published

    def feed(self, changes: Changes) -> None:
        """Sends all documents to a new program, for `Session.restart`. A `refresh` has to follow, for what that program refuses."""
        with self._lock:
            self._feed(changes)

    def find(self, pattern: str | bytes, *, timeout: float | None = None, **options: Unpack[Options]) -> Answer:
        """A search of the session, with the arguments and the errors of `Session.find`, in the documents of this source as they were
        last published, and in whatever else is in the session."""
        return self._session.find(pattern, timeout=timeout, **options)

    def _feed(self, changes: Changes) -> None:
        self._begin(changes.life)
        self._send(Changes(changes._connection, self._refused))
        self._is_pending = True

    def _begin(self, life: int) -> None:
        """Begins with another program, which has nothing of it."""
        self._source.forget()
        self._refused.clear()
        self._life, self._is_pending = life, False

    def _send(self, changes: Changes) -> tuple[int, int]:
        put = removed = 0
        loaded: Callable[[], object] | None = None
        for name, body, done, of, path, under, source, _ in steps_of_all(self._source):
            self._is_pending = True
            if done % BATCH == 0 and loaded:
                # while the program has the next ones
                loaded()
                self._progress(done - BATCH, of)
                loaded = changes.mark()
            elif not loaded:
                self._progress(done, of)
            if path is not None:
                loaded = loaded or changes.mark()
                changes.load(name, path)
                put += 1
            elif source is not None:
                changes.copy_under(source, name)
                put += under
            elif under:
                changes.remove_under(name)
                removed += under
            elif body is None:
                changes.remove(name)
                removed += 1
            else:
                changes.put(name, body)
                put += 1
        if loaded:
            changes.mark()()
        if put or removed:
            self._progress(put + removed, put + removed)
        return put, removed

    def _publish(self, changes: Changes) -> Published:
        published = self._publish_once()
        return published.before(self._publish_once()) if self._take_refusals(changes) else published

    def _publish_once(self) -> Published:
        published = self._session.publish()
        if published.life != self._life:
            raise Ended(None)
        self._is_pending = False
        return self._with_own(published)

    def _with_own(self, published: Published) -> Published:
        """What is published, with what was refused of this source."""
        return dataclasses.replace(published, refused=(*self._refused, *published.refused))

    def _take_refusals(self, changes: Changes) -> bool:
        """Removes documents whose new bodies were refused, so that the old ones are not found. Whether there are some."""
        refused = tuple(self._refused)
        del self._refused[: len(refused)]
        stale = self._source.take_refusals(refused)
        for name in stale:
            self._is_pending = True
            changes.remove(name)
        return bool(stale)


class Folder(Kept):
    """Keeps the text files of a folder in a session.

        with tsearch.Session() as session:
            folder = tsearch.Folder(session, "src")
            folder.refresh()
            print(folder.find("o w").hits())

    The files are those that git tracks, and all that no .gitignore (in a repository), .ignore or .rgignore names; what is named .git is
    none. Symbolic links are left out, and so is each file that cannot be a document: a binary one (with a byte 0), one of over a mebibyte,
    one with a line of over 16,384 bytes, and one whose quoted name is over 255 bytes.

    session: the session. Others may share it, and other folders with other prefixes.
    root: the folder. Its path is made absolute now.
    prefix: what the names of its documents begin with, before their paths from the top of the folder.
    git: False to take the files that rules name, too.
    progress: is called with the number of changed files that are sent, or that the program has loaded, and of all changed files, from 0 to
        the whole.
    loads: whether the program loads files itself where many have changed, which takes less time; by default if the session has started it.

    A file has changed if its times, its length or its number have. Hits are named by their paths from the top of the folder if there is no
    prefix. Threads can share a folder; one at a time looks through it.
    """

    def __init__(
        self,
        session: Session,
        root: str | bytes | os.PathLike[str] | os.PathLike[bytes] = ".",
        *,
        prefix: str | bytes = b"",
        git: bool | None = None,
        progress: Progress | None = None,
        loads: bool | None = None,
    ) -> None:
        self._files = Files(root, prefix, git, loads=session.pid is not None if loads is None else loads)
        super().__init__(session, self._files, progress)

    @property
    def root(self) -> bytes:
        """The absolute path of the folder."""
        return self._files.root
