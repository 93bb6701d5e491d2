"""A session for programs with threads. Any number of them share one; it needs the standard library alone."""

from __future__ import annotations

import collections
import contextlib
import os
import selectors
import socket
import stat
import subprocess
import threading
import time
from collections.abc import Callable, Sequence
from concurrent.futures import Future
from concurrent.futures import TimeoutError as FutureTimeoutError
from typing import Any, Protocol, Unpack

from .answers import Answer, Published, Status, joined
from .core import Core, Sent, SentSearch, ended_by, ended_with, status_of, value_of
from .errors import ChangeRefused, Ended, Error
from .names import to_bytes
from .program import MOST_BODY, MOST_COMMANDS, MOST_NAME, TO_END, command, kill_group
from .query import Options, Query

# In bytes. Whoever sends waits while more than this has not gone to the program.
MOST_WAITING = 1 << 20
# The program takes no item, not even a cancel, while 1,024 searches are open.
MOST_OPEN = 512
# How often a query that takes two searches is made, until both are of one version.
MOST_TRIES = 100
_BLOCK = 1 << 18
# Of standard error only so much is kept.
_MESSAGE = 4_096


class HasDescriptor(Protocol):
    """A file, a pipe or a socket."""

    def fileno(self) -> int: ...


def _deadline(timeout: float | None) -> float | None:
    return None if timeout is None else time.monotonic() + timeout


def _left(deadline: float | None) -> float | None:
    return None if deadline is None else max(0.0, deadline - time.monotonic())


def _future_of(sent: Sent) -> Future[Any]:
    """A future of what an item comes to. To be called before the item can be settled by another thread."""
    future: Future[Any] = Future()

    def settle(settled: Sent) -> None:
        if settled.error is None:
            future.set_result(settled.value)
        else:
            future.set_exception(settled.error)

    if sent.is_settled:
        settle(sent)
    else:
        sent.on_settled = settle
    return future


def _result(future: Future[Any], deadline: float | None) -> Any:
    try:
        return future.result(_left(deadline))
    except FutureTimeoutError:
        if future.done():
            raise
        raise TimeoutError("no answer in the time that was given") from None


class _Connection:
    """One life of a program: its pipes, its core, and the thread that reads what it writes and writes what it could not take at once.

    Everything but the pipes belongs to who holds `lock`. `room` is notified when there may be room for another item.
    """

    def __init__(
        self,
        reading: int,
        writing: int,
        process: subprocess.Popen[bytes] | None,
        life: int,
        most_open: int,
        messages: Callable[[bytes], None] | None,
        max_answer: int | None = None,
    ) -> None:
        self.core = Core(life, max_answer)
        self.life = life
        self.process = process
        self.lock = threading.Lock()
        self.room = threading.Condition(self.lock)
        self._most_open = most_open
        self._messages = messages
        self._reading, self._writing = reading, writing
        self._waiting: collections.deque[memoryview] = collections.deque()
        self._waiting_bytes = 0
        self.is_closing = False
        self._is_left = False
        self._message = b""
        self.ended: Callable[[], Error] | None = None
        self._woken, self._wake = os.pipe2(os.O_NONBLOCK | os.O_CLOEXEC)
        os.set_blocking(writing, False)
        os.set_blocking(reading, False)
        self._thread = threading.Thread(target=self._run, name="tsearch session", daemon=True)
        self._thread.start()

    # For any thread.

    def send(self, make: Callable[[Core], tuple[Any, list[bytes]]], deadline: float | None = None, is_search: bool = False) -> Any:
        """Sends what `make` makes, in its turn, once there is room for it."""
        with self.lock:
            if not self.room.wait_for(lambda: self._has_room(is_search), _left(deadline)):
                raise TimeoutError("the program takes no more in the time that was given")
            self._check_alive()
            sent, parts = make(self.core)
            self._write(parts)
        return sent

    def cancel(self, search: SentSearch) -> None:
        """Sends a cancel, at once: a short item that waits for no room."""
        with self.lock:
            if self.ended is None and not self.is_closing:
                self._write(self.core.cancel(search))

    def _check_alive(self) -> None:
        if self.ended:
            raise self.ended()
        if self.is_closing:
            raise Ended(None)

    def _has_room(self, is_search: bool) -> bool:
        if self.ended is not None or self.is_closing:
            return True
        return self._waiting_bytes <= MOST_WAITING and not (is_search and self.core.open_count >= self._most_open)

    def _write(self, parts: list[bytes]) -> None:
        for part in parts:
            if part:
                self._waiting.append(memoryview(part))
                self._waiting_bytes += len(part)
        self._flush()
        if self._waiting:
            self._wake_thread()

    def _flush(self) -> None:
        """Writes what the pipe takes now."""
        try:
            while self._waiting:
                written = os.writev(self._writing, [self._waiting[at] for at in range(min(len(self._waiting), 64))])
                self._waiting_bytes -= written
                while self._waiting and written >= len(self._waiting[0]):
                    written -= len(self._waiting.popleft())
                if written:
                    self._waiting[0] = self._waiting[0][written:]
        except BlockingIOError:
            pass
        except OSError:
            # The other side takes no more. What it wrote before is still read, and then all that waits is told.
            self._waiting.clear()
            self._waiting_bytes = 0

    def _wake_thread(self) -> None:
        if self._wake < 0:
            return
        try:
            os.write(self._wake, b"\0")
        except BlockingIOError:
            pass  # it is awake

    def close(self, timeout: float | None) -> int | None:
        """Closes the input, waits for the end, and ends the program itself if it does not come in time."""
        with self.lock:
            self.is_closing = True
            self.room.notify_all()
            self._wake_thread()
        self._thread.join(timeout)
        if self._thread.is_alive():
            self.kill()
            self._thread.join(TO_END)
        return None if self.process is None else self.process.returncode

    def kill(self) -> None:
        """Ends the program, or leaves the pipes, at once."""
        with self.lock:
            self.is_closing = True
            self._waiting.clear()
            self._waiting_bytes = 0
            self._is_left = True
            self.room.notify_all()
            self._wake_thread()
        self._kill_program()

    def _kill_program(self) -> None:
        if self.process is not None and self.process.poll() is None:
            kill_group(self.process.pid)

    # For the thread of the connection.

    def _run(self) -> None:
        fault: Error | None = None
        try:
            self._serve()
        except Exception as error:  # whatever it is, nobody may wait for ever
            fault = error if isinstance(error, Error) else Ended(None, repr(error))
            self._kill_program()
        status = None if self.process is None else self._status()
        message = self._message.decode(errors="replace").strip()
        with self.lock:
            self.ended = ended_with(fault) if fault else ended_by(status, message)
            left = self.core.end(self.ended)
            self._waiting.clear()
            self._close_writing()
            os.close(self._reading)
            os.close(self._woken)
            os.close(self._wake)
            self._wake = -1
            self.room.notify_all()
        self._tell(left)

    def _close_writing(self) -> None:
        """Closes the input of the program. The two directions of a socket are closed apart."""
        if self._writing < 0:
            return
        if stat.S_ISSOCK(os.fstat(self._writing).st_mode):
            with contextlib.suppress(OSError), socket.socket(fileno=self._writing) as end:
                end.shutdown(socket.SHUT_WR)
        else:
            os.close(self._writing)
        self._writing = -1

    def _status(self) -> int:
        assert self.process is not None
        if self.process.stderr is not None:
            self.process.stderr.close()
        try:
            return self.process.wait(TO_END)
        except subprocess.TimeoutExpired:
            self._kill_program()
            return self.process.wait()

    def _serve(self) -> None:
        """Reads and writes until the output of the program ends."""
        with selectors.DefaultSelector() as selector:
            selector.register(self._reading, selectors.EVENT_READ)
            selector.register(self._woken, selectors.EVENT_READ)
            errors = None if self.process is None or self.process.stderr is None else self.process.stderr.fileno()
            if errors is not None:
                os.set_blocking(errors, False)
                selector.register(errors, selectors.EVENT_READ)
            writes = False
            while True:
                ready = {key.fd for key, _ in selector.select()}
                if errors in ready and not self._take_message(errors):
                    selector.unregister(errors)
                if self._reading in ready and not self._take_output():
                    break
                if self._woken in ready:
                    self._take_wakes()
                if self._is_left and self.process is None:
                    break
                writes = self._write_more(selector, writes)
            if errors is not None and errors in selector.get_map():
                self._take_rest(errors)

    def _take_wakes(self) -> None:
        try:
            os.read(self._woken, _BLOCK)
        except BlockingIOError:
            pass

    def _write_more(self, selector: selectors.BaseSelector, writes: bool) -> bool:
        """Writes what waits, and closes the input once nothing does and it is to be closed. Whether more waits."""
        with self.lock:
            if self._writing < 0:
                return False
            self._flush()
            wants = bool(self._waiting)
            if self._waiting_bytes <= MOST_WAITING:
                self.room.notify_all()
            if wants and not writes:
                selector.register(self._writing, selectors.EVENT_WRITE)
            elif writes and not wants:
                selector.unregister(self._writing)
            if self.is_closing and not wants:
                self._close_writing()
        return wants

    def _take_output(self) -> bool:
        """Takes what the program has written. Whether there may be more."""
        try:
            data = os.read(self._reading, _BLOCK)
        except BlockingIOError:
            return True
        except OSError:
            return False
        if not data:
            return False
        with self.lock:
            settled = self.core.receive(data)
            self.room.notify_all()
        self._tell(settled)
        return True

    def _tell(self, settled: list[Sent]) -> None:
        for sent in settled:
            if sent.on_settled:
                sent.on_settled(sent)

    def _take_message(self, errors: int) -> bool:
        try:
            data = os.read(errors, _BLOCK)
        except BlockingIOError:
            return True
        except OSError:
            return False
        self._message = (self._message + data)[-_MESSAGE:]
        if data and self._messages:
            self._messages(data)
        return bool(data)

    def _take_rest(self, errors: int) -> None:
        """Takes what is left of the messages once the output has ended."""
        deadline = time.monotonic() + TO_END
        with selectors.DefaultSelector() as selector:
            selector.register(errors, selectors.EVENT_READ)
            while selector.select(_left(deadline)) and self._take_message(errors):
                pass


class Change:
    """A put, a load, a remove or a copy that was sent. Whether it is accepted is known once a text of a later item has come."""

    def __init__(self, connection: _Connection, sent: Sent) -> None:
        self._connection = connection
        self._sent = sent
        self._future: Future[Any] | None = None

    @property
    def name(self) -> bytes:
        """The name of the document, or the prefix of a `remove_under`, or what the names of a `copy_under` begin with then."""
        assert self._sent.name is not None
        return self._sent.name

    def wait(self, timeout: float | None = None) -> None:
        """Returns once the change is known to be accepted, and asks for a status to know it. `ChangeRefused` if it is refused,
        `TimeoutError` if that is not known in so many seconds, and `Ended`."""
        deadline = _deadline(timeout)
        with self._connection.lock:
            if self._future is None:
                self._future = _future_of(self._sent)
        if not self._future.done():
            self._connection.send(Core.status, deadline)
        _result(self._future, deadline)


class Search:
    """A search that was sent."""

    def __init__(self, connection: _Connection, sent: SentSearch, future: Future[Any]) -> None:
        self._connection = connection
        self._sent = sent
        self._future = future

    def done(self) -> bool:
        """Whether the search has its answer or its refusal."""
        return self._future.done()

    def cancel(self) -> None:
        """Gives the search up, in the program too. If it has its answer already, it keeps it; else `result` raises `Cancelled`."""
        self._connection.cancel(self._sent)

    def result(self, timeout: float | None = None) -> Answer:
        """The answer. `TimeoutError` if it does not come in so many seconds; the search goes on then. Else the errors of `find`."""
        answer: Answer = _result(self._future, _deadline(timeout))
        return answer


class Changes:
    """What changes the documents of a session. A `restart` passes one to its callback, and every `Session` is one.

    A name is bytes, or text that is taken as UTF-8. It may have any bytes and at most 4,096 of them once it is quoted
    (`tsearch.quote`). A name that is empty or too long, and a path that cannot be sent, raise `ChangeRefused` at once. All other
    refusals are in the `Published` of the next publish, and raised by the `wait` of the change. A change that is refused changes
    nothing: an older document of that name stays. Each call waits while a mebibyte has not gone to the program, and raises `Ended`
    once the program has ended.

    refusals: a list to which refusals are added as they come, and then no publish tells them.
    """

    def __init__(self, connection: _Connection, refusals: list[ChangeRefused] | None = None) -> None:
        self._connection = connection
        self._refusals = refusals

    @property
    def life(self) -> int:
        """How often the program was started. Versions are counted from 0 in each life."""
        return self._connection.life

    def put(self, name: str | bytes, body: str | bytes) -> Change:
        """Adds a document, or replaces the one of this name. The body is bytes, or text that is sent as UTF-8."""
        data = body.encode() if isinstance(body, str) else to_bytes(body)
        return self._change(lambda core: core.put(name, data))

    def load(self, name: str | bytes, path: str | bytes | os.PathLike[str] | os.PathLike[bytes]) -> Change:
        """Adds a document, or replaces the one of this name, with the bytes of a file that the program reads. A path that is not
        absolute starts at the folder that the program runs in."""
        return self._change(lambda core: core.load(name, os.fsencode(path)))

    def remove(self, name: str | bytes) -> Change:
        """Removes a document."""
        return self._change(lambda core: core.remove(name))

    def remove_under(self, prefix: str | bytes) -> Change:
        """Removes each document whose name begins with the prefix. It is one change; it is refused if there is no such document, and
        for a prefix that cannot be a name, as the empty one."""
        return self._change(lambda core: core.remove_under(prefix))

    def copy_under(self, prefix: str | bytes, to: str | bytes) -> Change:
        """Puts each document whose name begins with the prefix, as the documents are before, also under the name with `to` in place of the
        prefix, in the place of one that is there. It is one change, and takes no memory for bodies. Refused, it changes nothing: if there
        is no such document, or a name would be too long. The `name` of a refusal is `to`."""
        return self._change(lambda core: core.copy_under(prefix, to))

    def _change(self, make: Callable[[Core], tuple[Sent, list[bytes]]]) -> Change:
        connection = self._connection

        def made(core: Core) -> tuple[Sent, list[bytes]]:
            sent, parts = make(core)
            sent.refusals = self._refusals
            return sent, parts

        return Change(connection, connection.send(made))

    def mark(self) -> Callable[[], object]:
        """Marks what was sent until now. What is given back waits until the program has carried all of it out, and raises `Ended`."""
        future = _asked(self._connection, None)
        return lambda: _result(future, None)


class Session(Changes):
    """A program that keeps documents and answers searches, for as many threads as want to share it.

        with tsearch.Session() as session:
            session.put("a.txt", "hello world")
            session.publish()
            for hit in session.find("o w"):
                print(hit.name, hit.line, hit.text)

    program: the path of the program, or the words of a command to which the options below are added; by default `find_program()`.
    readers: how many threads of the program answer, 0 to 16; by default the program's 2.
    search_ms: a search without an answer in so many milliseconds raises `TooSlow`.
    max_commands: how many puts, loads, removes and copies the session takes; by default as many as it can.
    max_body, max_line, max_name: how many bytes a body, a line and a quoted name may have; by default as many as they can, and with None as
        many as the program takes by itself.
    max_answer: how many bytes an answer may have; `SearchRefused` for one that has more. By default as many as there is memory for.
    stats: whether answers say how many documents were candidates.
    messages: is called with what the program writes to standard error, in the session's own thread; it must not call the session.
    most_open: how many searches are at the program at a time, 1 to 1,000; the next `find` waits for its turn.

    `ValueError` is raised for a `most_open` out of its range, `Error` if there is no program, and `OSError` if it cannot be started.
    `Ended` is raised by each call that waits for a program when it ends, and by each call after that, until `restart`. A `timeout` is
    in seconds; None is no limit.

    feeding: a lock for who sends changes and takes what their publish says was refused, so that no publish of another thread takes it.
    """

    def __init__(
        self,
        program: str | os.PathLike[str] | Sequence[str] | None = None,
        *,
        readers: int | None = None,
        search_ms: int | None = None,
        max_commands: int | None = MOST_COMMANDS,
        max_body: int | None = MOST_BODY,
        max_line: int | None = MOST_BODY,
        max_name: int | None = MOST_NAME,
        max_answer: int | None = None,
        stats: bool = False,
        messages: Callable[[bytes], None] | None = None,
        most_open: int = MOST_OPEN,
    ) -> None:
        if not 1 <= most_open <= 1_000:
            raise ValueError("most_open is 1 to 1,000")
        self._words: list[str] | None = command(
            program, readers=readers, search_ms=search_ms, max_commands=max_commands,
            max_body=max_body, max_line=max_line, max_name=max_name, stats=stats,
        )  # fmt: skip
        self._messages, self._most_open, self._max_answer = messages, most_open, max_answer
        self._restarting, self._swapping, self._is_closed = threading.Lock(), threading.Lock(), False
        self.feeding = threading.RLock()
        super().__init__(self._start(1))

    @classmethod
    def over(cls, reading: int | HasDescriptor, writing: int | HasDescriptor, *, most_open: int = MOST_OPEN) -> Session:
        """A session over pipes or a socket that lead to a program started elsewhere with --live, to which nothing was sent before.
        The descriptors are duplicated, and the files set not to block: the caller closes its own. Such a session cannot be restarted."""
        session = cls.__new__(cls)
        session._words = None
        session._messages, session._most_open, session._max_answer = None, most_open, None
        session._restarting, session._swapping, session._is_closed = threading.Lock(), threading.Lock(), False
        session.feeding = threading.RLock()
        here, there = (os.dup(file if isinstance(file, int) else file.fileno()) for file in (reading, writing))
        Changes.__init__(session, _Connection(here, there, None, 1, most_open, None))
        return session

    def _start(self, life: int) -> _Connection:
        assert self._words is not None
        pipe = subprocess.PIPE
        # Ctrl-C at a terminal is for the client, which then ends the session or only its search.
        process = subprocess.Popen(self._words, stdin=pipe, stdout=pipe, stderr=pipe, bufsize=0, start_new_session=True)
        assert process.stdin is not None and process.stdout is not None
        reading, writing = os.dup(process.stdout.fileno()), os.dup(process.stdin.fileno())
        process.stdin.close()
        process.stdout.close()
        return _Connection(reading, writing, process, life, self._most_open, self._messages, self._max_answer)

    @property
    def pid(self) -> int | None:
        """The number of the program's process, if this session started it."""
        process = self._connection.process
        return None if process is None else process.pid

    def publish(self, timeout: float | None = None, *, tells: bool = True) -> Published:
        """Lets searches see all changes so far, and returns once they do, with what was refused since the publish before. Without `tells`
        that is left to the next publish. `PublishRefused` if there is no memory, and `TimeoutError` if it takes longer than `timeout`: then
        the publish is carried out all the same."""
        return _publish(self._connection, _deadline(timeout), tells)

    def status(self, timeout: float | None = None) -> Status:
        """What the session holds. It waits for no search. `TimeoutError` if it does not come in `timeout`."""
        deadline = _deadline(timeout)
        return status_of(_result(_asked(self._connection, deadline), deadline))

    def sync(self, timeout: float | None = None) -> None:
        """Returns once every search that was sent before has its answer or its refusal. Nothing is sent for it: behind an item
        `sync` the cancels of other threads would wait. `TimeoutError` if a search is still open after `timeout`, and
        `Ended` if the program ends or has ended."""
        deadline = _deadline(timeout)
        connection = self._connection
        with connection.lock:
            before = connection.core.open_numbers
            done = connection.room.wait_for(lambda: not before & connection.core.open_numbers, _left(deadline))
            if connection.ended:
                raise connection.ended()
        if not done:
            raise TimeoutError("searches are open after the time that was given")

    def begin(self, pattern: str | bytes, *, timeout: float | None = None, **options: Unpack[Options]) -> Search:
        """Sends a search and does not wait for its answer. The options are those of `find`, but `spans` beside `context` or `column`
        is refused: that takes two searches. `timeout` is for its turn: `TimeoutError` if that does not come in time. `PatternRefused`
        at once for what cannot be sent as a pattern; all other refusals are raised by `result`."""
        return self.begin_query(Query.of(pattern, **options), _deadline(timeout))

    def begin_query(self, query: Query, deadline: float | None = None) -> Search:
        """Does what `begin` does, for a query that is made, and until a time of the monotonic clock."""
        connection = self._connection

        def make(core: Core) -> tuple[Search, list[bytes]]:
            sent, parts = core.find(query)
            return Search(connection, sent, _future_of(sent)), parts

        search: Search = connection.send(make, deadline, is_search=True)
        return search

    def find(self, pattern: str | bytes, *, timeout: float | None = None, **options: Unpack[Options]) -> Answer:
        """The lines that contain a match of a pattern, in the documents of the last publish or a later one.

        pattern: a POSIX extended regular expression (docs/PATTERNS.md), as bytes, or as text that is sent as UTF-8.
        timeout: in seconds. After that the search is cancelled in the program, and `TimeoutError` raised.

        What is found:
        ignore_case: ASCII letters match both their cases.
        literal: `pattern` is a text, and not a pattern.
        whole_words: only matches with no ASCII letter, digit or `_` right before or after them.
        whole_lines: only matches that are the whole line; then `whole_words` does not matter.
        invert: the lines that contain no match.
        names, not_names: a pattern, or up to 16. Only documents whose quoted names contain a match of each of `names`, and of none of
            `not_names`.
        under, not_under: a prefix, or up to 4,096. Only documents whose names begin with one of `under`, if there are any, and with none
            of `not_under`. They are texts of the names, no patterns; case counts in them, and they are not quoted.
        names_ignore_case: ASCII letters match both their cases in these.
        limit: at most so many lines, or names, from 1; the program stops once it has them, and `answer.more` says whether there are more.

        Whose it is:
        lane: a word of 1 to 64 bytes, without a space; lanes are served one after the other, however many searches wait in each.

        What is shown, instead of lines:
        context: so many lines, 0 to 1,000, before and after each line too, in `answer.rows()`.
        column: `hit.column`, where the first match begins.
        spans: `hit.spans`, where the matches are. Beside `context` or `column` it takes a second search of the same version.
        names_only: the names of documents with such a line, in `answer.names()`.
        counts: these names with the numbers of their lines, in `answer.counts()`.
        header_only: nothing but `answer.count` and `answer.more`.

        `PatternRefused` for a pattern that cannot be read, `OptionRefused` for options that exclude each other, for numbers, lanes and
        prefixes out of their range and for over 16 name patterns or 4,096 prefixes of a kind, `TooSlow` after the time of `search_ms`,
        `SearchRefused` if the program has no memory for it, `Error` if two searches were not of one version in 100 tries, and `Ended`.
        """
        return self.find_query(Query.of(pattern, **options), timeout=timeout)

    def find_query(self, query: Query, *, timeout: float | None = None) -> Answer:
        """Does what `find` does, for a query that is made."""
        deadline = _deadline(timeout)
        for _ in range(MOST_TRIES):
            answers = self._answers(query, deadline)
            if (answer := joined(answers)) is not None:
                return answer
        raise Error("the documents change too often for two searches")

    def _answers(self, query: Query, deadline: float | None) -> list[Answer]:
        """Those of the searches that are made for a query."""
        searches: list[Search] = []
        try:
            for part in query.parts():
                searches.append(self.begin_query(part, deadline))
            return [search.result(_left(deadline)) for search in searches]
        except BaseException:
            # as a timeout and Ctrl-C; there is nothing to cancel after a refusal
            for search in searches:
                search.cancel()
            raise

    def cancel(self, search: Search) -> None:
        """Gives up a search, as its own `cancel` does."""
        search.cancel()

    def restart(self, feed: Callable[[Changes], object], *, only_if_ended: bool = True) -> Published | None:
        """Starts the program again, and lets `feed` put all documents into it. They are published, and from then on this session is
        that of the new program. Until then calls of other threads raise `Ended`, so no answer is from half of the documents. What
        `feed` raises is raised, and then nothing has changed.

        None if the program runs: another thread has started it again. With `only_if_ended=False` one that runs is replaced, as is
        needed once it is full; it answers until then, and what was sent to it is answered. `Ended` if the session was closed,
        `ValueError` if it is one over pipes, `OSError` if the program cannot be started, and `PublishRefused`.
        """
        if self._words is None:
            raise ValueError("a session over pipes cannot start a program")
        with self._restarting:
            before = self._connection
            if self._is_closed:
                raise Ended(None)
            if only_if_ended and before.ended is None and not before.is_closing:
                return None
            connection = self._start(before.life + 1)
            try:
                feed(Changes(connection))
                published = _publish(connection, None)
                with self._swapping:
                    if self._is_closed:
                        raise Ended(None)
                    self._connection = connection
            except BaseException:
                connection.kill()
                raise
        before.close(None)
        return published

    def close(self, timeout: float | None = 10.0) -> int | None:
        """Ends the session: what was sent is carried out and answered first. A program that has not ended after so many seconds is
        killed. The status of the program, negative for a signal; None over pipes. A second call does nothing."""
        with self._swapping:
            self._is_closed = True
            connection = self._connection
        return connection.close(timeout)

    def kill(self) -> None:
        """Ends the program at once. Who waits for it gets `Ended`. It can be started again."""
        self._connection.kill()

    def __enter__(self) -> Session:
        return self

    def __exit__(self, kind: type[BaseException] | None, *_: object) -> None:
        if kind is not None:
            self.kill()
        self.close()


def _asked(connection: _Connection, deadline: float | None) -> Future[Any]:
    """The status, once it comes."""

    def make(core: Core) -> tuple[Future[Any], list[bytes]]:
        sent, parts = core.status()
        return _future_of(sent), parts

    future: Future[Any] = connection.send(make, deadline)
    return future


def _publish(connection: _Connection, deadline: float | None, tells: bool = True) -> Published:
    def make(core: Core) -> tuple[tuple[Sent, Future[Any]], list[bytes]]:
        publish, status, parts = core.publish(tells)
        return (publish, _future_of(status)), parts

    publish, future = connection.send(make, deadline)
    published: Published = _result(future, deadline)
    value_of(publish)  # settled before the status behind it
    return published


