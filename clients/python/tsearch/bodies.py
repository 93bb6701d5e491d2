"""The bytes of objects of a git repository, from `git cat-file --batch`. It ends at an object that it cannot unpack, and waits for ever at one
that the system does not give; and what it has gathered by then is lost: so the object is found by asking again for one after the other, and the
others are read all the same."""

from __future__ import annotations

import contextlib
import os
import select
import subprocess
import threading
import time
from collections.abc import Callable, Iterator, Sequence
from contextlib import AbstractContextManager
from typing import IO

MISSING, CORRUPT, SLOW = "missing in the repository", "corrupt in the repository", "not given by git in time"
BEHIND = "not read behind too many objects that cannot be read"
# Why an object has no bytes: it may be mended.
UNREAD = frozenset({MISSING, CORRUPT, SLOW, BEHIND})
# So many that are corrupt are passed in one go: each costs a command.
_MOST_CORRUPT = 64
# In seconds: for one object git may take a part of all its time, or so long if that is more.
_OF_ONE, _LEAST_OF_ONE = 4, 5.0
# In bytes: what so many of them have taken does not count against the time, up to a second.
_IN_A_SECOND = 1 << 20
_BLOCK = 1 << 18
# In seconds: the system waits no longer in one call.
_LONGEST_WAIT = 1_000_000
# In milliseconds: so often it is seen whether it is over.
_OFTEN = 100


_Begun = Callable[..., AbstractContextManager[subprocess.Popen[bytes]]]


class TooLong(Exception):
    """git has not answered in time."""


class Patience:
    """How long it is waited for git. What whoever reads does meanwhile does not count.

    seconds: for all together, beyond a second for each mebibyte that comes where `of_bytes` is true.
    """

    def __init__(self, seconds: float, of_bytes: bool = True) -> None:
        self.left = seconds
        self._of_one = min(seconds, max(seconds / _OF_ONE, _LEAST_OF_ONE))
        self._left_of_one = seconds
        self._of_bytes = of_bytes

    def begin(self) -> None:
        """Another object is asked for."""
        self._left_of_one = self._of_one

    def some(self, fd: int, poll: select.poll) -> bytes:
        """The next bytes; empty at the end. `TooLong` if they do not come in time."""
        began = time.monotonic()
        is_there = poll.poll(max(min(self.left, self._left_of_one, _LONGEST_WAIT), 0) * 1_000)
        data = os.read(fd, _BLOCK) if is_there else b""
        spent = time.monotonic() - began - (len(data) / _IN_A_SECOND if self._of_bytes else 0)
        self.left -= max(spent, 0)
        self._left_of_one -= max(spent, 0)
        if not is_there:
            raise TooLong
        return data


class Pipe:
    """What a command writes, as far as there is patience."""

    def __init__(self, file: IO[bytes], patience: Patience) -> None:
        self._fd = file.fileno()
        self._poll = select.poll()
        self._poll.register(self._fd, select.POLLIN)
        self._patience = patience
        self._data, self._at = b"", 0

    def some(self) -> bytes:
        """The next bytes; empty at the end. `TooLong`."""
        return self._patience.some(self._fd, self._poll)

    def line(self) -> bytes:
        """The next line, or what is there of it."""
        while (end := self._data.find(b"\n", self._at) + 1) == 0:
            data = self.some()
            self._data, self._at = self._data[self._at :] + data, 0
            if not data:
                end = len(self._data)
                break
        line = self._data[self._at : end]
        self._at = end
        return line

    def take(self, length: int) -> bytes:
        """So many bytes, or what is there of them."""
        parts = [self._data[self._at : self._at + length]]
        left = length - len(parts[0])
        self._at += len(parts[0])
        while left and (data := self.some()):
            parts.append(data[:left])
            self._data, self._at = data, len(parts[-1])
            left -= len(parts[-1])
        return b"".join(parts)


def bodies_of(begun: _Begun, wanted: Sequence[bytes], seconds: float) -> Iterator[tuple[bytes, bytes | str]]:
    """Each of some objects, by its number, with its bytes, or with the reason why it has none.

    begun: starts `git cat-file --batch` with these words more.
    seconds: how long it is waited for git, beyond a second for each mebibyte.
    """
    at = corrupt = 0
    words: tuple[bytes, ...] = (b"--buffer",)
    patience = Patience(seconds)
    while at < len(wanted) and corrupt < _MOST_CORRUPT and patience.left > 0:
        reason = CORRUPT
        try:
            for body in _read(begun, words, wanted[at:], patience):
                yield wanted[at], body
                at += 1
        except TooLong:
            reason = SLOW
        if at < len(wanted) and not words:
            yield wanted[at], reason
            at += 1
            corrupt += 1
        words = ()
    for number in wanted[at:]:
        yield number, BEHIND


def _read(begun: _Begun, words: Sequence[bytes], wanted: Sequence[bytes], patience: Patience) -> Iterator[bytes | str]:
    """The bodies of the objects in their order, up to the first one that does not come."""
    with begun(*words) as process:
        assert process.stdin and process.stdout
        is_over = threading.Event()
        feeder = threading.Thread(target=_feed, args=(process.stdin, wanted, is_over), daemon=True)
        feeder.start()
        pipe = Pipe(process.stdout, patience)
        try:
            for _ in wanted:
                patience.begin()
                head = pipe.line().split()
                if len(head) == 2:
                    yield MISSING  # since its length was asked for
                    continue
                if len(head) != 3:
                    return
                length = int(head[2])
                body = pipe.take(length)
                if len(body) != length or pipe.take(1) != b"\n":
                    return
                yield body
        finally:
            process.kill()
            is_over.set()
            feeder.join()


def _feed(stdin: IO[bytes], wanted: Sequence[bytes], is_over: threading.Event) -> None:
    """Writes the numbers of objects until it is over: the system may not let the other side end, which then reads no more."""
    left = memoryview(b"".join(b"%s\n" % number for number in wanted))
    with contextlib.suppress(OSError), stdin:
        os.set_blocking(stdin.fileno(), False)
        poll = select.poll()
        poll.register(stdin.fileno(), select.POLLOUT)
        while left and not is_over.is_set():
            if poll.poll(_OFTEN):
                with contextlib.suppress(BlockingIOError):
                    left = left[os.write(stdin.fileno(), left) :]
