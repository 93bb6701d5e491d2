"""Starts to be the server of a tree: one process at a time has its lock, and listens."""

from __future__ import annotations

import asyncio
import contextlib
import fcntl
import os
import socket
import sys
import time

# In seconds: how long a server that ends may take to answer the calls that it has.
_TO_END = 60.0
# And how long one that has the lock may be without a socket: it listens at once, or has lost the socket, and ends.
_TO_LISTEN = 6.0


def main() -> None:
    """Runs a server. The words are the number of a pipe that is closed once the server listens, the path of the socket, the folder and
    the mode. A second server of the same tree ends once the first one listens."""
    pipe, path, root, mode = int(sys.argv[1]), *sys.argv[2:5]
    try:
        lock = _locked(path)
        listening = None if lock is None else _listening(path)
    except OSError as error:
        os.write(pipe, (error.strerror or str(error)).encode())
        sys.exit(2)
    if lock is not None and listening is not None:
        os.close(pipe)
        from .serving import Server

        asyncio.run(Server(path, root, mode, lock).run(listening))


def _locked(path: str) -> int | None:
    """The lock of a tree, which one server has at a time; None once another one listens. `OSError` if none does."""
    lock = os.open(path + ".lock", os.O_RDWR | os.O_CREAT | os.O_CLOEXEC, 0o600)
    began = time.monotonic()
    end = began + _TO_END
    while time.monotonic() < end:
        try:
            fcntl.flock(lock, fcntl.LOCK_EX | fcntl.LOCK_NB)
            os.ftruncate(lock, 0)
            os.write(lock, b"%d\n" % os.getpid())
            return lock
        except BlockingIOError:
            if _is_listening(path):
                return None
            if not os.path.lexists(path):
                end = min(end, began + _TO_LISTEN)
        time.sleep(0.01)
    raise OSError("another server has its lock, and does not listen")


def _is_listening(path: str) -> bool:
    with contextlib.suppress(OSError), socket.socket(socket.AF_UNIX) as probe:
        probe.connect(path)
        return True
    return False


def _listening(path: str) -> socket.socket:
    """The socket. One that a killed server has left is removed."""
    with contextlib.suppress(FileNotFoundError):
        os.unlink(path)
    listening = socket.socket(socket.AF_UNIX)
    listening.bind(path)
    os.chmod(path, 0o600)
    listening.listen(128)
    listening.setblocking(False)
    return listening
