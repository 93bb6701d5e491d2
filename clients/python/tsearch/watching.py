"""A hint when to look through folders again. The hint may be missed and may be wrong, so who takes it also looks now and then.

The system allows each user few observers (`fs.inotify.max_user_instances`, often 128) and many folders for one
(`fs.inotify.max_user_watches`). So there is one for all that this process looks at, with one thread. It calls the system itself: the library
watchdog has an observer for each folder.
"""

from __future__ import annotations

import contextlib
import ctypes
import errno
import os
import select
import struct
import threading
from collections.abc import Callable, Iterable, Iterator

_CREATED, _MOVED_TO, _DELETED, _MOVED_FROM = 0x100, 0x80, 0x200, 0x40
_CHANGES = 0x2 | 0x4 | 0x8 | _CREATED | _MOVED_TO | _DELETED | _MOVED_FROM | 0x400 | 0x800  # modify, attributes, close after a write, itself
_FOLDERS_ALONE, _NO_LINKS = 0x0100_0000, 0x0200_0000
_OVERFLOW, _ENDED, _IS_FOLDER = 0x4000, 0x8000, 0x4000_0000
# The folders with names in git's own.
_OF_NAMES = (b"refs", b"reftable")
_HEAD = struct.Struct("iIII")
_BLOCK = 1 << 16
# In seconds: so long what changes is gathered, so that who writes without end costs each of the others a hint now and then.
_GATHERED = 0.05
# So many folders of one may be watched, and a quarter of those that the system allows.
_MOST_OF_ONE = 65_536
_ALLOWED = "/proc/sys/fs/inotify/max_user_watches"
_TOO_MANY = {
    errno.EMFILE: "the system has no observer more (fs.inotify.max_user_instances)",
    errno.ENOSPC: "the system watches no folder more (fs.inotify.max_user_watches)",
}


class Unwatched(Exception):
    """Folders are not watched. The text says why."""


class Hints:
    """What is known of the hints of one who takes them: `fault` says why there are none, or not for all; it is empty if all is well."""

    def __init__(self, changed: Callable[[], None], of_git: bool) -> None:
        self.changed = changed
        self.of_git = of_git
        self.fault = ""
        # the numbers of its watches
        self.watches: set[int] = set()

    def __bool__(self) -> bool:
        return not self.fault


class _Watch:
    """A folder that is watched: its path, whether those in it are too, and who takes hints of it."""

    def __init__(self, path: bytes) -> None:
        self.path = path
        self.takers: dict[Hints, bool] = {}


class Observer:
    """What watches folders for all who take hints. Any thread may call it."""

    def __init__(self) -> None:
        self._system = ctypes.CDLL(None, use_errno=True)
        self._file = self._system.inotify_init1(os.O_CLOEXEC | os.O_NONBLOCK)
        if self._file < 0:
            raise Unwatched(_reason(ctypes.get_errno()))
        self._lock = threading.RLock()
        self._watches: dict[int, _Watch] = {}
        self._takers: set[Hints] = set()
        self._most = _most_of_one()
        self._ending, self._end = os.pipe2(os.O_CLOEXEC)
        self._thread = threading.Thread(target=self._run, name="hints", daemon=True)
        self._thread.start()

    @property
    def is_used(self) -> bool:
        """Whether anybody takes hints."""
        return bool(self._takers)

    def add(self, roots: Iterable[bytes], hints: Hints) -> None:
        """Watches folders. `fault` says what could not be."""
        with self._lock:
            self._takers.add(hints)
        try:
            for root in roots:
                self._add(root, hints, not hints.of_git, is_root=True)
                for part in _OF_NAMES if hints.of_git else ():
                    self._add(os.path.join(root, part), hints, True, is_root=True)
        except Unwatched as unwatched:
            hints.fault = str(unwatched)

    def remove(self, hints: Hints) -> None:
        """Watches what nobody else wants no longer."""
        with self._lock:
            self._takers.discard(hints)
            for number in hints.watches:
                watch = self._watches.get(number)
                if watch and watch.takers.pop(hints, None) is not None and not watch.takers:
                    del self._watches[number]
                    self._system.inotify_rm_watch(self._file, number)
            hints.watches.clear()

    def close(self) -> None:
        """Ends it."""
        os.write(self._end, b"x")
        self._thread.join()
        for file in self._file, self._ending, self._end:
            os.close(file)

    def _add(self, top: bytes, hints: Hints, is_deep: bool, is_root: bool = False) -> None:
        """Watches a folder, and those in it if it is deep. `Unwatched` if the system does not."""
        left = [top]
        while left:
            folder = left.pop()
            with self._lock:
                if hints not in self._takers:
                    return
                if len(hints.watches) >= self._most:
                    raise Unwatched(f"it has more than {self._most} folders, which are the share of one")
                number = self._system.inotify_add_watch(self._file, folder, _CHANGES | _FOLDERS_ALONE | (0 if is_root else _NO_LINKS))
                if number < 0:
                    reason = ctypes.get_errno()
                    if reason in (errno.ENOENT, errno.ENOTDIR, errno.ELOOP) or (reason == errno.EACCES and not is_root):
                        continue  # it has gone, or is none
                    raise Unwatched(_reason(reason))
                watch = self._watches.setdefault(number, _Watch(folder))
                watch.path = folder
                watch.takers[hints] = is_deep or watch.takers.get(hints, False)
                hints.watches.add(number)
            is_root = False
            if is_deep:
                left += _folders_in(folder, hints.of_git)

    def _run(self) -> None:
        """Takes what the system tells, and gives the hints."""
        files = [self._file, self._ending]
        while self._ending not in select.select(files, [], [])[0]:
            changed: set[Hints] = set()
            with contextlib.suppress(BlockingIOError):
                while data := os.read(self._file, _BLOCK):
                    self._take(data, changed)
            for hints in changed:
                with contextlib.suppress(Exception):  # as of a loop that is closed: the others are told
                    hints.changed()
            # others change meanwhile
            if select.select([self._ending], [], [], _GATHERED)[0]:
                return

    def _take(self, data: bytes, changed: set[Hints]) -> None:
        """Notes who is to be told of some events."""
        at = 0
        while at < len(data):
            number, kind, _, length = _HEAD.unpack_from(data, at)
            name = data[at + _HEAD.size : at + _HEAD.size + length].rstrip(b"\0")
            at += _HEAD.size + length
            with self._lock:
                if kind & _OVERFLOW:
                    changed |= self._takers
                    continue
                watch = self._watches.get(number)
                if watch is None:
                    continue
                takers = dict(watch.takers)
                if kind & _ENDED:
                    del self._watches[number]
                    for hints in takers:
                        hints.watches.discard(number)
            is_new = kind & _IS_FOLDER and kind & (_CREATED | _MOVED_TO)
            for hints, is_deep in takers.items():
                if name == b".git" and not hints.of_git:
                    continue
                changed.add(hints)
                if is_new and is_deep:
                    try:
                        self._add(os.path.join(watch.path, name), hints, True)
                    except Unwatched as unwatched:
                        hints.fault = str(unwatched)


def _folders_in(folder: bytes, of_git: bool) -> list[bytes]:
    """The folders in a folder; that of git, which changes with each command, is none of a working tree's."""
    found = []
    with contextlib.suppress(OSError), os.scandir(folder) as entries:
        for entry in entries:
            with contextlib.suppress(OSError):
                if entry.is_dir(follow_symlinks=False) and (of_git or entry.name != b".git"):
                    found.append(entry.path)
    return found


def _most_of_one() -> int:
    try:
        with open(_ALLOWED, encoding="ascii") as file:
            return min(_MOST_OF_ONE, max(1, int(file.read()) // 4))
    except (OSError, ValueError):
        return _MOST_OF_ONE


def _reason(number: int) -> str:
    return _TOO_MANY.get(number) or os.strerror(number)


_lock = threading.Lock()
_observer: Observer | None = None


@contextlib.contextmanager
def hints(roots: list[bytes], changed: Callable[[], None], of_git: bool = False) -> Iterator[Hints]:
    """Calls `changed`, in another thread, when something may have changed below one of the folders. With `of_git` they are git's own, and
    what counts is the names of branches and tags. What it gives is false where there are no hints, or not of all folders: the system watches
    no more, or one has too many. Its `fault` says so, also of folders that come later."""
    global _observer
    taken = Hints(changed, of_git)
    with _lock:
        try:
            _observer = _observer or Observer()
        except Unwatched as unwatched:
            taken.fault = str(unwatched)
        observer = None if taken.fault else _observer
        if observer:
            observer.add(roots[:0], taken)  # it is used from here on
    try:
        if observer:
            observer.add(roots, taken)
        yield taken
    finally:
        with _lock:
            if observer:
                observer.remove(taken)
                if not observer.is_used and _observer is observer:
                    _observer = None
                    observer.close()
