"""Starts git to read a repository, which may be a stranger's. No other module starts it.

The settings of a repository name programs: filters, hooks, monitors, what compares and what fetches; and each version of git knows more of
them. So git never sees them. For each call there is a folder, with settings of this module's own, in which links lead to the names, the
objects and the index of the repository. There git finds no hook, no filter and no remote, so it runs nothing of the repository, and it
cannot fetch. Neither are the settings of the user and of the machine read, since attributes of a repository choose among the programs that
they name.
"""

from __future__ import annotations

import contextlib
import os
import re
import stat
import subprocess
import tempfile
from collections.abc import Iterator, Sequence
from typing import IO

# Settings that name no program: how objects and names are kept, and how files are compared with them.
_OF_OBJECTS = re.compile(rb"extensions\.(?:objectformat|compatobjectformat|refstorage)")
_OF_FILES = re.compile(rb"core\.(?:ignorecase|precomposeunicode|filemode|symlinks|autocrlf|eol|checkstat|trustctime)")
# Of the user's settings this one too: a stranger's could lead to a pipe.
_OF_USER = b"core.attributesfile"
_OWN = b"[core]\n\tfsmonitor = false\n\thooksPath = /dev/null\n"
# What is of the repository as a whole, and what of one of its working trees.
_COMMON = (b"refs", b"packed-refs", b"reftable", b"shallow", b"logs/refs", b"info/attributes", b"info/exclude")
_OF_TREE = tuple(b"logs/HEAD ORIG_HEAD FETCH_HEAD MERGE_HEAD CHERRY_PICK_HEAD REVERT_HEAD REBASE_HEAD BISECT_HEAD AUTO_MERGE".split())
_SHARED_INDEX = b"sharedindex."
_IN_MEMORY = "/dev/shm"
# What the names of the folders begin with that are made.
_BEGIN = "tsearch-git-"
# In bytes: no settings and no HEAD are longer.
_MOST = 1 << 20
# In seconds: so long a command that is killed may take to end. One that waits for a disk may never.
_TO_END = 5.0
# Whoever starts this package may set where git's own programs are. All other variables of git are dropped: a hook has some for itself, some
# name programs, and others make git write.
_KEPT = b"GIT_EXEC_PATH"
_SET = {
    b"LC_ALL": b"C",
    b"GIT_CONFIG_NOSYSTEM": b"1",
    b"GIT_CONFIG_GLOBAL": os.devnull.encode(),
    b"GIT_OPTIONAL_LOCKS": b"0",
    b"GIT_NO_REPLACE_OBJECTS": b"1",
    b"GIT_NO_LAZY_FETCH": b"1",
    b"GIT_ALLOW_PROTOCOL": b"none",
    b"GIT_TERMINAL_PROMPT": b"0",
    b"GIT_PAGER": b"cat",
    b"GIT_EDITOR": b":",
}


class Unreadable(OSError):
    """The folder is no repository, or one that may not be read. The text says why, without paths."""


class Reader:
    """Starts git to read a repository.

    folder: its own folder.
    common: the folder that it shares with its other working trees, by default the same.
    top: the folder of its working tree, for commands that look at files.
    of_user: whether the user's settings count too, as far as they name no program.
    """

    def __init__(self, folder: bytes, common: bytes | None = None, top: bytes | None = None, of_user: bool = False) -> None:
        self._folder = os.path.abspath(folder)
        self._common = os.path.abspath(common or folder)
        self._top = None if top is None else os.path.abspath(top)
        self._of_user = of_user
        # it changes into the working tree by itself: one who has the working folder on the PATH does not start a program of the tree
        self._begin = [b"git", b"-C", self._top] if self._top is not None else [b"git"]
        # whether objects may be elsewhere
        self.may_have_alternates = True
        # those of the repository, and what git sees of them
        self._settings: tuple[bytes, bytes] | None = None

    def run(self, words: Sequence[str | bytes], stdin: bytes = b"", *, seconds: float) -> subprocess.CompletedProcess[bytes]:
        """Runs a command of git to its end. `OSError` and `subprocess.SubprocessError` if it does not come to that."""
        pipe = subprocess.PIPE
        with self._made() as (folder, environment):
            process = subprocess.Popen([*self._begin, *words], stdin=pipe, stdout=pipe, stderr=pipe, env=environment, cwd=folder)
            try:
                stdout, stderr = process.communicate(stdin, timeout=seconds)
            finally:
                _end(process)
        return subprocess.CompletedProcess(process.args, process.returncode, stdout, self.named(stderr))

    def named(self, said: bytes) -> bytes:
        """What git has said, with the repository in place of the folder that was made: who reads it knows the repository."""
        places = b"|".join(map(re.escape, (_IN_MEMORY.encode(), tempfile.gettempdirb())))
        return re.sub(rb"(?:%s)/%s\w+" % (places, _BEGIN.encode()), lambda _: self._folder, said)

    @contextlib.contextmanager
    def begun(
        self, words: Sequence[str | bytes], block: int, *, stdin: IO[bytes] | int = subprocess.PIPE, stderr: IO[bytes] | int = subprocess.DEVNULL,
        pipesize: int = -1,
    ) -> Iterator[subprocess.Popen[bytes]]:  # fmt: skip
        """A command of git with pipes, which is killed at the end of the block. What it says beside its answer is for a file, if any."""
        with self._made() as (folder, environment):
            process = subprocess.Popen(
                [*self._begin, *words], stdin=stdin, stdout=subprocess.PIPE, stderr=stderr, env=environment, cwd=folder, bufsize=block,
                pipesize=pipesize,
            )  # fmt: skip
            try:
                yield process
            finally:
                _end(process)

    @contextlib.contextmanager
    def _made(self) -> Iterator[tuple[bytes, dict[bytes, bytes]]]:
        """The folder that git takes for the repository, for as long as the block lasts, and git's environment."""
        if not self.may_have_alternates:
            self._need_own_objects()
        head = _head(os.path.join(self._folder, b"HEAD"))
        text = text_of_file(os.path.join(self._common, b"config"), _MOST)
        if self._settings is None or self._settings[0] != text:
            self._settings = text, self._harmless(text)
        files = {b"HEAD": head, b"config": self._settings[1]}
        with self._filled(files) as made:
            folder = os.fsencode(made)
            yield folder, self._environment(folder)

    def _filled(self, files: dict[bytes, bytes]) -> tempfile.TemporaryDirectory[str]:
        """Such a folder: in memory, if that may be, since on a disk that is busy each would take long."""
        with contextlib.suppress(OSError):
            return self._filled_in(files, _IN_MEMORY)
        return self._filled_in(files, None)

    def _filled_in(self, files: dict[bytes, bytes], place: str | None) -> tempfile.TemporaryDirectory[str]:
        made = tempfile.TemporaryDirectory(prefix=_BEGIN, dir=place)
        try:
            folder = os.fsencode(made.name)
            for name, text in files.items():
                with open(os.path.join(folder, name), "wb") as file:
                    file.write(text)
            for path, link in [(os.path.join(of, name), os.path.join(folder, name)) for of, name in self._linked()]:
                if os.path.isfile(path) or os.path.isdir(path):
                    os.makedirs(os.path.dirname(link), exist_ok=True)
                    os.symlink(path, link)
        except BaseException:
            made.cleanup()
            raise
        return made

    def _linked(self) -> Iterator[tuple[bytes, bytes]]:
        """What the folder has by links, if it is there: the folder in which it is, and its path there."""
        yield from ((self._common, name) for name in _COMMON)
        yield from ((self._folder, name) for name in _OF_TREE)
        if self._top is not None:
            # an index that is split has its other part there
            yield from ((self._folder, name) for name in os.listdir(self._folder) if name.startswith(_SHARED_INDEX))

    def _environment(self, folder: bytes) -> dict[bytes, bytes]:
        found = {**_environment_of_user(), **_SET, b"GIT_DIR": folder, b"GIT_OBJECT_DIRECTORY": os.path.join(self._common, b"objects")}
        if self._top is not None:
            found |= {b"GIT_WORK_TREE": self._top, b"GIT_INDEX_FILE": os.path.join(self._folder, b"index")}
        return found

    def _harmless(self, text: bytes) -> bytes:
        """What names no program of the repository's settings, which have this text, and of the user's."""
        kept = [pair for pair in _listed([b"--list"]) if pair[0] == _OF_USER or _OF_FILES.fullmatch(pair[0])] if self._of_user else []
        own = _listed([b"--file", b"-", b"--list"], text) if self._top is not None or b"extensions" in text.lower() else []
        of_objects = [pair for pair in own if _OF_OBJECTS.fullmatch(pair[0])]
        kept += [pair for pair in own if _OF_FILES.fullmatch(pair[0])] + of_objects
        more = b"[core]\n\trepositoryFormatVersion = %d\n\tbare = %s\n" % (bool(of_objects), b"true" if self._top is None else b"false")
        return _OWN + b"".join(_setting(key, value) for key, value in kept) + more

    def _need_own_objects(self) -> None:
        """`Unreadable` if some objects are outside the folder of the repository."""
        own, left = os.path.realpath(self._common), {os.path.realpath(os.path.join(self._common, b"objects"))}
        seen: set[bytes] = set()
        while left:
            if not all(path.startswith(own.rstrip(b"/") + b"/") for path in left):
                raise Unreadable("it has objects in another folder")
            seen |= left
            left = {os.path.realpath(path) for one in left for path in _alternates(one)} - seen


def _end(process: subprocess.Popen[bytes]) -> None:
    """Kills a command that has not ended, and closes its pipes. It is waited for no longer than it may be, as one that the system does not let
    end: then the module `subprocess` does so later."""
    process.kill()
    for file in process.stdin, process.stdout, process.stderr:
        if file is not None:
            with contextlib.suppress(OSError):
                file.close()
    with contextlib.suppress(subprocess.TimeoutExpired):
        process.wait(_TO_END)


def with_filters(top: bytes, words: Sequence[bytes], *, seconds: float) -> subprocess.CompletedProcess[bytes]:
    """Runs a command of git in a working tree with all settings, for who asks for its filters. Monitors, hooks and what fetches stay shut off."""
    environment = {**_environment_of_user(), **{key: text for key, text in _SET.items() if not key.startswith(b"GIT_CONFIG")}}
    begin = [b"git", b"-C", top, b"-c", b"core.fsmonitor=false", b"-c", b"core.hooksPath=/dev/null"]
    return subprocess.run([*begin, *words], stdin=subprocess.DEVNULL, capture_output=True, env=environment, cwd="/", timeout=seconds, check=False)


def not_run(error: OSError | subprocess.SubprocessError) -> str:
    """Why the command git has not run to its end."""
    return "the command git is missing (apt-get install git)" if getattr(error, "filename", None) in ("git", b"git") else str(error)


def _environment_of_user() -> dict[bytes, bytes]:
    return {key: text for key, text in os.environb.items() if not key.startswith(b"GIT_") or key == _KEPT}


def _listed(words: Sequence[bytes], text: bytes = b"") -> list[tuple[bytes, bytes]]:
    """Settings with their values, of a text or of the user. None are read from a file that a text names."""
    environment = {**_environment_of_user(), b"GIT_DIR": os.devnull.encode(), b"LC_ALL": b"C"}
    done = subprocess.run([b"git", b"config", b"-z", *words], input=text, capture_output=True, env=environment, cwd="/", timeout=60, check=False)
    rows = (row.partition(b"\n") for row in done.stdout.split(b"\0")[:-1])
    return [(key, value if line else b"true") for key, line, value in rows]


def _setting(key: bytes, value: bytes) -> bytes:
    """A setting as it stands in a file."""
    section, _, name = key.partition(b".")
    quoted = value.replace(b"\\", b"\\\\").replace(b'"', b'\\"').replace(b"\n", b"\\n")
    return b'[%s]\n\t%s = "%s"\n' % (section, name, quoted)


def _head(path: bytes) -> bytes:
    """What HEAD is. An old one is a link to a name."""
    with contextlib.suppress(OSError):
        return b"ref: %s\n" % os.readlink(path)
    if not (head := text_of_file(path, _MOST)):
        with contextlib.suppress(FileNotFoundError):
            os.close(os.open(path, os.O_RDONLY | os.O_NONBLOCK | os.O_CLOEXEC))  # which says what is wrong
        raise Unreadable("it is not a git repository")
    return head


def _alternates(objects: bytes) -> Iterator[bytes]:
    """Where else objects are, as a folder of objects says."""
    for line in text_of_file(os.path.join(objects, b"info", b"alternates")).split(b"\n"):
        if line and not line.startswith(b"#"):
            yield os.path.join(objects, line)


def text_of_file(path: bytes, most: int = -1) -> bytes:
    """The bytes of a file, or so many of them; empty if it is not there, or no file. Nobody waits for a pipe that stands in its place."""
    with contextlib.suppress(OSError), open(os.open(path, os.O_RDONLY | os.O_NONBLOCK | os.O_CLOEXEC), "rb") as file:
        if stat.S_ISREG(os.fstat(file.fileno()).st_mode):
            return file.read(most)
    return b""
