"""The core of a session, without input and output: calls give the bytes to send, and the bytes that come settle what was sent.

Both faces, `tsearch.Session` and `tsearch.aio.Session`, own one core each, and call it from one thread at a time. A call that sends an
item gives its `Sent`, which `receive` settles with a value or an error. Entries of searches come in any order and are known by their
numbers; all other texts come in the order of their items (docs/SCRIPT.md, "A session").
"""

from __future__ import annotations

import collections
import dataclasses
import re
from collections.abc import Callable
from dataclasses import dataclass

from .answers import Answer, Published, Status, View
from .errors import (
    Cancelled,
    ChangeRefused,
    Ended,
    Error,
    NotUnderstood,
    OptionRefused,
    PublishRefused,
    Refused,
    SearchRefused,
    TooSlow,
)
from .names import checked, to_bytes
from .query import Query

# A put's length has at most this many digits.
_MOST_DIGITS = 9
_REFUSED_LINE = re.compile(rb"line (\d+) refused: (.*)")
_STATUS = re.compile(rb"line (\d+) status version (\d+) documents (\d+) bytes (\d+) accepted (\d+) of (\d+) open (\d+)")
_REFUSED_SEARCH = re.compile(rb"search (\d+) refused: (?:name pattern (\d+): )?(.*?)(?: at (\d+))?")
_ANSWER = re.compile(rb"search (\d+) version (\d+) (?:lines|names) (\d+)( and more)?(?: rows (\d+))?(?: candidates (\d+) of (\d+))?")
# No text of a session that is not part of an answer is this long.
_LONGEST_HEAD = 1_024
# How a search is refused whose answer has more bytes than the session takes.
TOO_LONG = "answer too long"
_OF_SEARCHES = {"cancelled": Cancelled, "too slow": TooSlow, "out of memory": SearchRefused}


class Sent:
    """An item that was sent, until it is settled and from then on. The face that waits for it sets `on_settled`."""

    __slots__ = ("line", "name", "refusals", "publish", "is_settled", "value", "error", "on_settled")

    def __init__(self, line: int, name: bytes | None = None) -> None:
        self.line = line
        # of a put, a load, a remove or a copy: the document's, the prefix, or what a copy leads to, as it was given
        self.name = name
        # of these: where its refusal is told, if not by the next publish
        self.refusals: list[ChangeRefused] | None = None
        # of a status: the publish that it follows; it tells what was refused before, unless that is
        self.publish: Sent | None = None
        self.is_settled = False
        self.value: object = None
        self.error: Exception | None = None
        self.on_settled: Callable[[Sent], None] | None = None

    def refusal(self, reason: str) -> Refused:
        """The error for a refusal of this item."""
        return PublishRefused(reason) if self.name is None else ChangeRefused(reason, self.name)


class SentSearch(Sent):
    """A search that was sent."""

    __slots__ = ("number", "query", "take", "is_wanted", "fault")

    def __init__(self, line: int, number: int, query: Query, take: Callable[[bytes], object] | None) -> None:
        super().__init__(line)
        self.number = number
        self.query = query
        # what the rows are handed to as they come; the answer then has none
        self.take = take
        # not once it is cancelled, or `take` has failed: then its answer is passed over
        self.is_wanted = True
        # what `take` has raised
        self.fault: Exception | None = None


@dataclass
class _Coming:
    """An answer of which so many rows are still to come."""

    search: SentSearch
    answer: Callable[[bytes], Answer]
    left: int
    parts: list[bytes]
    size: int = 0


class Core:
    """A session's state, as its client knows it."""

    def __init__(self, life: int = 1, max_answer: int | None = None) -> None:
        self._life = life
        self._max_answer = max_answer
        self._next_line = 1
        self._searches = 0
        self._open: dict[int, SentSearch] = {}
        # what is no search and not settled, in the order of the lines
        self._items: collections.deque[Sent] = collections.deque()
        self._refused: list[ChangeRefused] = []
        self._rest = b""
        self._coming: _Coming | None = None
        self._settled: list[Sent] = []

    @property
    def open_numbers(self) -> frozenset[int]:
        """The numbers of the searches that have no entry yet, or not all of it; cancelled ones too."""
        coming = () if self._coming is None else (self._coming.search.number,)
        return frozenset((*self._open, *coming))

    @property
    def open_count(self) -> int:
        """How many there are of them."""
        return len(self._open) + (self._coming is not None)

    # What is sent.

    def put(self, name: str | bytes, body: bytes) -> tuple[Sent, list[bytes]]:
        """A put. `ChangeRefused` at once for a bad name, and for a body too long to be sent as one."""
        quoted = checked(name)
        if len(str(len(body))) > _MOST_DIGITS:
            raise ChangeRefused("body too long", to_bytes(name))
        return self._item(to_bytes(name), [b"put %s %d\n" % (quoted, len(body)), body, b"\n"])

    def load(self, name: str | bytes, path: bytes) -> tuple[Sent, list[bytes]]:
        """A load. `ChangeRefused` at once for a bad name, and for a path that is empty or has a line feed or a byte 0."""
        quoted = checked(name)
        if not path or b"\n" in path or b"\0" in path:
            raise ChangeRefused("cannot load", to_bytes(name))
        return self._item(to_bytes(name), [b"load %s %s\n" % (quoted, path)])

    def remove(self, name: str | bytes) -> tuple[Sent, list[bytes]]:
        """A remove. `ChangeRefused` at once for a bad name."""
        return self._item(to_bytes(name), [b"remove %s\n" % checked(name)])

    def remove_under(self, prefix: str | bytes) -> tuple[Sent, list[bytes]]:
        """A remove of all documents whose names begin with the prefix. `ChangeRefused` at once for a prefix that is a bad name."""
        return self._item(to_bytes(prefix), [b"removeunder %s\n" % checked(prefix)])

    def copy_under(self, prefix: str | bytes, to: str | bytes) -> tuple[Sent, list[bytes]]:
        """A copy of all documents whose names begin with the prefix. `ChangeRefused` at once if one of the two is a bad name. What is
        refused is called by `to`."""
        try:
            begin = checked(prefix)
        except ChangeRefused as refused:
            raise ChangeRefused(refused.reason, to_bytes(to)) from None
        return self._item(to_bytes(to), [b"copyunder %s %s\n" % (begin, checked(to))])

    def publish(self, tells: bool = True) -> tuple[Sent, Sent, list[bytes]]:
        """A publish and a status behind it, by which the publish and all before it are known to be carried out. Without `tells` the next
        one that tells has what was refused."""
        publish, first = self._item(None, [b"publish\n"])
        status, second = self._item(None, [b"status\n"])
        status.publish = publish if tells else None
        return publish, status, first + second

    def status(self) -> tuple[Sent, list[bytes]]:
        """A status."""
        return self._item(None, [b"status\n"])

    def find(self, query: Query, take: Callable[[bytes], object] | None = None) -> tuple[SentSearch, list[bytes]]:
        """A search. `PatternRefused` at once for what cannot be sent as a pattern. `take` is called with each piece of the answer's
        rows as it comes, from anywhere in a row to anywhere; what it raises is the search's error."""
        item = query.item()
        self._searches += 1
        search = SentSearch(self._next_line, self._searches, query, take)
        self._next_line += 1
        self._open[search.number] = search
        return search, [item]

    def cancel(self, search: SentSearch) -> list[bytes]:
        """A cancel, and from now on the search's answer is passed over. Nothing is sent for a search that has its entry, or that was
        cancelled before."""
        if search.is_settled or not search.is_wanted:
            return []
        search.is_wanted = False
        if self._coming and self._coming.search is search:
            self._coming.parts.clear()
            return []
        return self._item(None, [b"cancel %d\n" % search.number])[1]

    def _item(self, name: bytes | None, parts: list[bytes]) -> tuple[Sent, list[bytes]]:
        sent = Sent(self._next_line, name)
        self._next_line += sum(part.count(b"\n") for part in parts)
        self._items.append(sent)
        return sent, parts

    # What comes.

    def receive(self, data: bytes) -> list[Sent]:
        """Takes bytes that came, and gives what they settle. `NotUnderstood` if they are not what a session writes."""
        data = self._rest + data
        at = 0
        while at < len(data):
            if self._coming:
                at = self._take_lines(self._coming, data, at)
                continue
            end = data.find(b"\n", at)
            if end < 0:
                break
            self._take_head(data[at:end])
            at = end + 1
        self._rest = data[at:]
        if len(self._rest) > _LONGEST_HEAD:
            raise NotUnderstood(f"not the beginning of a text of a session: {self._rest[:80]!r}")
        settled, self._settled = self._settled, []
        return settled

    def end(self, ended: Callable[[], Error]) -> list[Sent]:
        """Settles all that is left with an error, a new one for each. Nothing can be sent from now on."""
        left = [*self._items, *self._open.values(), *([self._coming.search] if self._coming else [])]
        self._items.clear()
        self._open.clear()
        self._coming = None
        for sent in left:
            self._settle(sent, error=ended())
        settled, self._settled = self._settled, []
        return settled

    def _settle(self, sent: Sent, value: object = None, error: Exception | None = None) -> None:
        sent.is_settled, sent.value, sent.error = True, value, error
        self._settled.append(sent)

    def _accept_before(self, line: int) -> None:
        """The items before this line that are not settled are accepted: a refusal would have come by now."""
        while self._items and self._items[0].line < line:
            self._settle(self._items.popleft())

    def _take_head(self, head: bytes) -> None:
        if found := _ANSWER.fullmatch(head):
            self._begin_answer(*found.groups())
        elif found := _REFUSED_SEARCH.fullmatch(head):
            number, reason, offset = found.groups()[1:]
            search = self._entry(int(found[1]))
            self._settle(search, error=_error_of(search.query, int(number or 0), reason.decode(errors="replace"), offset))
        elif found := _STATUS.fullmatch(head):
            line, version, documents, size, accepted, most, open_now = map(int, found.groups())
            sent = self._item_at(line, head)
            refused: tuple[ChangeRefused, ...] = ()
            if sent.publish and sent.publish.error is None:
                refused, self._refused = tuple(self._refused), []
            self._settle(sent, Published(self._life, version, documents, size, accepted, most, open_now, refused))
        elif found := _REFUSED_LINE.fullmatch(head):
            sent = self._item_at(int(found[1]), head)
            error = sent.refusal(found[2].decode(errors="replace"))
            if isinstance(error, ChangeRefused):
                (self._refused if sent.refusals is None else sent.refusals).append(error)
            self._settle(sent, error=error)
        else:
            raise NotUnderstood(f"not a text of a session: {head[:80]!r}")

    def _item_at(self, line: int, head: bytes) -> Sent:
        self._accept_before(line)
        if not self._items or self._items[0].line != line:
            raise NotUnderstood(f"nothing was sent in this line: {head[:80]!r}")
        return self._items.popleft()

    def _entry(self, number: int) -> SentSearch:
        """The search whose entry comes. All texts of items before it have come."""
        search = self._open.pop(number, None)
        if search is None:
            raise NotUnderstood(f"an entry of search {number}, which is not open")
        self._accept_before(search.line)
        return search

    def _begin_answer(
        self, number: bytes, version: bytes, count: bytes, more: bytes | None, rows: bytes | None, candidates: bytes | None, documents: bytes | None
    ) -> None:
        search = self._entry(int(number))
        view = search.query.view
        found, of = (None if word is None else int(word) for word in (candidates, documents))

        def answer(data: bytes) -> Answer:
            return Answer(self._life, int(version), int(count), more is not None, view, data, found, of)

        self._coming = _Coming(search, answer, 0 if view is View.HEADER else int(rows or count), [])
        self._end_answer(self._coming)

    def _take_lines(self, coming: _Coming, data: bytes, at: int) -> int:
        """Takes rows of the answer that is coming, and gives where it has come to."""
        count = data.count(b"\n", at)
        # mostly nothing follows the last row
        is_all = count == coming.left and data.endswith(b"\n")
        end = len(data) if count < coming.left or is_all else after_line(data, at, coming.left)
        if coming.search.is_wanted:
            try:
                (coming.search.take or self._keeper_of(coming))(data[at:end])
            except Exception as error:  # it is for who made the search, and others go on
                coming.search.is_wanted, coming.search.fault = False, error
                coming.parts.clear()
        coming.left -= min(count, coming.left)
        self._end_answer(coming)
        return end

    def _keeper_of(self, coming: _Coming) -> Callable[[bytes], object]:
        """What keeps the rows of an answer, up to so many bytes."""

        def keep(rows: bytes) -> None:
            coming.size += len(rows)
            if self._max_answer is not None and coming.size > self._max_answer:
                raise SearchRefused(TOO_LONG)
            coming.parts.append(rows)

        return keep

    def _end_answer(self, coming: _Coming) -> None:
        if coming.left:
            return
        self._coming = None
        if coming.search.is_wanted:
            self._settle(coming.search, coming.answer(b"".join(coming.parts)))
        else:
            self._settle(coming.search, error=coming.search.fault or Cancelled("cancelled"))


def after_line(data: bytes, at: int, lines: int) -> int:
    """The offset after so many line feeds from `at` on; there are that many. Halves what is left, which looks at it twice."""
    end = len(data)
    while end - at > 1:
        middle = (at + end) // 2
        before = data.count(b"\n", at, middle)
        if before < lines:
            at, lines = middle, lines - before
        else:
            end = middle
    return end


def _error_of(query: Query, number: int, reason: str, offset: bytes | None) -> Error:
    """The error for the refusal of a search."""
    if offset is None:
        return _OF_SEARCHES.get(reason, OptionRefused)(reason)
    return query.refusal(reason, int(offset), number)


def value_of(sent: Sent) -> object:
    """What a settled item came to: its value, or its error, which is raised."""
    if sent.error is not None:
        raise sent.error
    return sent.value


def status_of(published: object) -> Status:
    """A status without what was refused."""
    assert isinstance(published, Published)
    return Status(**{field.name: getattr(published, field.name) for field in dataclasses.fields(Status)})


def ended_with(error: Error) -> Callable[[], Error]:
    """What makes an error like this one for each who waits."""
    return lambda: type(error)(*error.args)


def ended_by(status: int | None, message: str) -> Callable[[], Error]:
    """What makes the error for each who waits when the program ends."""
    return lambda: Ended(status, message)
