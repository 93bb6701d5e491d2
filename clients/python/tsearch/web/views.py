"""Files for people to look at, by windows of lines: however long a file or a line is, a window is small, and made in a thread."""

from __future__ import annotations

import asyncio
import bisect
import collections
import contextlib
import json
import threading
from collections.abc import Callable, Mapping
from typing import NamedTuple

from aiohttp import web

from ..answers import Answer
from ..core import after_line
from ..shortening import LONGEST, beginning
from .measures import Counted
from .repositories import Files, Gone, Objects, Repository
from .rows import id_of

# So many lines a window has at most, and so many bytes of text; but one line in any case.
MOST_LINES, MOST_BYTES = 2_000, 1 << 18
# In bytes: what a line has at most that is shown whole, if long lines are wanted whole.
_LONGEST_WHOLE = 1 << 18
# Lines are counted by so many bytes at a time, between which others have their turn.
_PIECE = 1 << 18
# In bytes: so much of the texts that were looked at last is kept for their next windows.
MOST_KEPT = 64 << 20
# In bytes: so much is written at a time; and in seconds: so long the visitor may take to read it.
_WRITTEN = 1 << 16
TO_TAKE = 30.0
_LONGEST_NUMBER = 12


class Wanted(NamedTuple):
    """The first and the last line that are asked for, from 1, and whether long lines are wanted whole."""

    first: int
    last: int
    is_whole: bool

    @classmethod
    def of(cls, words: Mapping[str, str]) -> Wanted:
        """What the words of an address ask for. `ValueError` if they are no numbers of lines."""
        first, last = (words.get(key, "") for key in ("from", "to"))
        for text in first, last:
            if text and not (text.isascii() and text.isdigit() and len(text) <= _LONGEST_NUMBER):
                raise ValueError
        begin = max(int(first or 1), 1)
        return cls(begin, min(int(last) if last else begin + MOST_LINES, begin + MOST_LINES - 1), "whole" in words)


class Window(NamedTuple):
    """Some lines of a text, from the first one on; how many the whole has; and whether one of these is cut."""

    lines: list[bytes]
    first: int
    of: int
    is_cut: bool


class Text:
    """A text, of which it is known where its lines are.

    has_names: whether it is the rows of an answer, with the name of the document and the number before each line.
    """

    def __init__(self, data: bytes, has_names: bool = False) -> None:
        self.data = data
        self._has_names = has_names
        # how many lines end before each piece
        self._before = [0]
        for at in range(0, len(data), _PIECE):
            self._before.append(self._before[-1] + data.count(b"\n", at, at + _PIECE))
        self.lines = self._before[-1] + (data[-1:] not in (b"\n", b""))

    def _begin_of(self, line: int) -> int:
        """Where a line begins."""
        if line <= 1:
            return 0
        # it begins behind the line feed of this number
        ended = line - 1
        piece = bisect.bisect_left(self._before, ended) - 1
        begin = piece * _PIECE
        return begin + after_line(self.data[begin : begin + _PIECE], 0, ended - self._before[piece])

    def window(self, wanted: Wanted) -> Window:
        """The lines that are wanted, as many as a window has."""
        shown: list[bytes] = []
        size, is_cut = 0, False
        longest = _LONGEST_WHOLE if wanted.is_whole else LONGEST
        at = self._begin_of(wanted.first) if wanted.first <= self.lines else len(self.data)
        for _ in range(wanted.first, min(wanted.last, self.lines) + 1):
            end = self.data.find(b"\n", at)
            end = len(self.data) if end < 0 else end
            begin = self._text_from(at)
            line = self.data[begin:end] if end - begin <= longest else beginning(self.data[begin : begin + LONGEST], end - begin)
            size += len(line)
            if shown and size > MOST_BYTES:
                break
            is_cut = is_cut or end - begin > longest
            shown.append(line)
            at = end + 1
        return Window(shown, wanted.first, self.lines, is_cut)

    def _text_from(self, at: int) -> int:
        """Where the text of the line begins that begins at a place."""
        return self.data.index(b":", self.data.index(b"\0", at)) + 1 if self._has_names else at


# By what a text is known: its repository, the commit, and the path.
Key = tuple[bytes, str, bytes]


class Texts:
    """The texts that were looked at last, up to so many bytes. Threads share it."""

    def __init__(self, most: int = MOST_KEPT) -> None:
        self._most = most
        self._lock = threading.Lock()
        self._kept: collections.OrderedDict[Key, Text] = collections.OrderedDict()
        self._size = 0

    def of(self, key: Key, read: Callable[[], bytes]) -> Text:
        """The text of a key, which is read if it is not kept."""
        with self._lock:
            if key in self._kept:
                self._kept.move_to_end(key)
                return self._kept[key]
        text = Text(read())
        with self._lock:
            if key not in self._kept and len(text.data) <= self._most:
                self._kept[key] = text
                self._size += len(text.data)
            while self._size > self._most:
                self._size -= len(self._kept.popitem(last=False)[1].data)
        return text


async def view(repository: Repository, name: bytes, words: Mapping[str, str], lane: bytes, texts: Texts) -> bytes | None:
    """What is shown of a file, as JSON; None if there is no such file, or it is empty. `Gone` if it is not known as it was then, and otherwise the
    errors of a search."""
    wanted, run = Wanted.of(words), repository.shared.viewing.run
    if isinstance(repository, Objects):
        commit = words.get("commit") or next(iter(repository.revisions.values()), "")
        await repository.check_served(commit)
        key = (repository.prefix, commit, name)
        return await run(_shown, repository.name, name, wanted, {"commit": commit}, lambda: texts.of(key, lambda: repository.text(commit, name)))
    assert isinstance(repository, Files)
    repository.start("")  # `Unread` if it is not there
    if await run(repository.kept.files.is_hidden, name):
        raise Gone("there is no such file")  # what is git's own by now is not shown as it was before either
    place: dict[str, object] = {}
    found: Answer | bytes | None = None
    if words.get("version"):
        with contextlib.suppress(Gone) if "now" in words else contextlib.nullcontext():
            life, version = int(words["life"]), int(words["version"])
            found = await repository.view(name, life, version, lane)
            place = {"life": life, "version": version}
    if found is None:
        answer, body = await repository.now(name, lane)
        found = answer if body is None else body
        place = {"life": answer.life, "version": answer.version, **({"changed": True} if words.get("version") else {})}
    text = found
    return await run(_shown, repository.name, name, wanted, place, lambda: Text(text) if isinstance(text, bytes) else Text(text.data, True))


def _shown(repository: str, name: bytes, wanted: Wanted, place: dict[str, object], text: Callable[[], Text]) -> bytes | None:
    """A window as JSON."""
    window = text().window(wanted)
    if not window.of:
        return None
    lines = [line.decode(errors="replace") for line in window.lines]
    told = {"repository": repository, "name": name.decode(errors="replace"), "id": id_of(name), "from": window.first, "of": window.of, "lines": lines}
    return json.dumps({**told, **place, **({"cut": True} if window.is_cut else {})}, ensure_ascii=False).encode(errors="replace")


async def written(request: web.Request, body: bytes, kind: str = "application/json") -> web.StreamResponse:
    """Writes an answer piece by piece, as the visitor reads it. One who reads too slowly is left."""
    response = Counted(headers={"Content-Type": kind})
    response.content_length = len(body)
    request["begun"] = True
    await response.prepare(request)
    try:
        for at in range(0, len(body), _WRITTEN):
            async with asyncio.timeout(TO_TAKE):
                await response.write(body[at : at + _WRITTEN])
        async with asyncio.timeout(TO_TAKE):
            await response.write_eof()
    except TimeoutError:
        if request.transport is not None:
            request.transport.abort()
        raise ConnectionResetError("the visitor does not read") from None
    return response
