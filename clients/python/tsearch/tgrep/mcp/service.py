"""The server: what a client says, in the order in which it comes, and the calls of tools, each in a thread of its own."""

from __future__ import annotations

import os
import signal
import sys
import threading
import time
import traceback
from collections.abc import Callable
from typing import Any, BinaryIO

from .. import VERSION
from ..arguments import Refused
from . import tools, wire
from .answers import Answer
from .asked import Asked, GivenUp
from .roots import Refusal, Root, root_of, roots_of
from .schemas import Unfit, check
from .wire import Fault, Writer

# The versions of the protocol, the newest first. That of 2025-03-26 has batches, and is not spoken.
VERSIONS = ("2025-06-18", "2024-11-05")
# So many calls are worked on at once, and so many may be under way.
_AT_ONCE = 8
_MOST_CALLS = 64
# In seconds: how long a client may take to say its roots.
_TO_SAY_ROOTS = 60.0
_OFTEN = 0.1


def main(given: dict[str, Any]) -> int:
    """Serves a client at standard input and output, to the end of its input. The status is 0. `Refused` if there is no folder to start in."""
    start = os.path.abspath(given.get("root", os.getcwd()))
    if not os.path.isdir(start):
        raise Refused(f"--root {given['root']}: there is no such folder")
    # who closes a pipe or a socket is seen where it is written to
    signal.signal(signal.SIGPIPE, signal.SIG_IGN)
    # nothing else that writes to standard output comes between the messages
    output = os.dup(1)
    os.dup2(2, 1)
    with open(0, "rb", closefd=False) as file:
        Service(Writer(output), start).run(file)
    return 0


class Roots:
    """The folders that may be searched: the client's, if it has some to say, and otherwise that of the start."""

    def __init__(self, start: str) -> None:
        self._known = threading.Event()
        self._roots: tuple[Root, ...] = ()
        self._start = start

    def begin(self) -> None:
        """Takes the folder of the start."""
        self.take((root_of(self._start),))

    def ask(self) -> None:
        """They are not known until the client has said them."""
        self._known.clear()

    def take(self, roots: tuple[Root, ...]) -> None:
        """Takes those that the client says."""
        self._roots = roots
        self._known.set()

    def wait(self, seconds: float) -> tuple[Root, ...] | None:
        """The roots; None if they are not known in this time."""
        return self._roots if self._known.wait(seconds) else None


class Call:
    """A call of a tool that is under way."""

    def __init__(self, number: Any, params: dict[str, Any], writer: Writer) -> None:
        self.number = number
        self.tool: str
        self.given: dict[str, Any]
        self.tool, self.given, self._token = _read_call(params)
        self._writer = writer
        self._told = 0
        self.asked = Asked(self.say)

    def say(self, text: str) -> None:
        """Tells the client how far the call is, if it wants to know. The numbers go up by 1: nobody knows how many there will be."""
        if self._token is not None and not self.asked.is_cancelled:
            self._told += 1
            params = {"progressToken": self._token, "progress": self._told, "message": text}
            self._writer.write({"method": "notifications/progress", "params": params})


def _read_call(params: dict[str, Any]) -> tuple[str, dict[str, Any], Any]:
    """The tool of a call, its arguments and its token of progress, if it has one. `Fault` if something is wrong there."""
    name, meta = params.get("name"), params.get("_meta", {})
    tool = tools.BY_NAME.get(name) if isinstance(name, str) else None
    if tool is None:
        raise Fault(wire.PARAMS, f"unknown tool: there are {', '.join(tools.BY_NAME)}")
    token = meta.get("progressToken") if isinstance(meta, dict) else meta
    if token is not None and not wire.is_id(token):
        raise Fault(wire.PARAMS, "a progressToken is a text or a whole number")
    try:
        return tool["name"], check(params.get("arguments", {}), tool["inputSchema"], "arguments"), token
    except Unfit as unfit:
        raise Fault(wire.PARAMS, str(unfit)) from None


class Service:
    """A server and its one client."""

    def __init__(self, writer: Writer, start: str) -> None:
        self._writer = writer
        self._roots = Roots(start)
        self._lock = threading.Lock()
        self._calls: dict[Any, Call] = {}
        self._slots = threading.Semaphore(_AT_ONCE)
        self._is_begun = self._is_ready = self._has_roots = False
        self._asked_roots = 0
        self._requests: dict[str, Callable[[dict[str, Any]], dict[str, Any]]] = {
            "initialize": self._initialize, "ping": lambda params: {}, "tools/list": self._list_tools,
        }  # fmt: skip

    def run(self, file: BinaryIO) -> None:
        """Takes messages until no more come, and then gives up what is under way."""
        for line in wire.lines(file):
            try:
                if line is None:
                    raise Fault(wire.INVALID, f"a line has at most {wire.MOST_LINE:,} bytes")
                if line.strip():
                    self._take(wire.read(line))
            except Fault as fault:
                self._refuse(fault.number, fault)
            if self._writer.is_closed:
                break
        with self._lock:
            for call in self._calls.values():
                call.asked.cancel()

    def _refuse(self, number: Any, fault: Fault) -> None:
        self._writer.write({"id": number, "error": {"code": fault.code, "message": fault.message}})

    def _take(self, message: dict[str, Any]) -> None:
        """Takes a request, a notification or a response. What is wrong with the last two is told to nobody."""
        params = message.get("params", {})
        if "method" not in message:
            self._take_response(message)
        elif "id" not in message:
            if isinstance(params, dict):
                self._notified(message["method"], params)
        else:
            try:
                if not isinstance(params, dict):
                    raise Fault(wire.PARAMS, "params are an object")
                self._request(message["id"], message["method"], params)
            except Fault as fault:
                self._refuse(message["id"], fault)

    # Requests.

    def _request(self, number: Any, method: str, params: dict[str, Any]) -> None:
        if method not in self._requests and method != "tools/call":
            raise Fault(wire.NO_METHOD, f"there is no method {ascii(method)[1:81]}")
        if not self._is_begun and method not in ("initialize", "ping"):
            raise Fault(wire.INVALID, "the first request is initialize")
        if method == "tools/call":
            self._call(number, params)
        else:
            self._writer.write({"id": number, "result": self._requests[method](params)})

    def _initialize(self, params: dict[str, Any]) -> dict[str, Any]:
        version, capabilities = params.get("protocolVersion"), params.get("capabilities", {})
        if self._is_begun:
            raise Fault(wire.INVALID, "initialize came before")
        if not isinstance(version, str) or not isinstance(capabilities, dict):
            raise Fault(wire.PARAMS, "initialize has a protocolVersion, which is a text, and capabilities, which are an object")
        self._is_begun, self._has_roots = True, isinstance(capabilities.get("roots"), dict)
        return {
            "protocolVersion": version if version in VERSIONS else VERSIONS[0],
            "capabilities": {"tools": {"listChanged": False}},
            "serverInfo": {"name": "tgrep", "title": "tgrep, a code search", "version": VERSION},
            "instructions": tools.INSTRUCTIONS,
        }

    def _list_tools(self, params: dict[str, Any]) -> dict[str, Any]:
        if params.get("cursor") is not None:
            raise Fault(wire.PARAMS, "there is no such cursor: all tools are on one page")
        return {"tools": tools.TOOLS}

    def _call(self, number: Any, params: dict[str, Any]) -> None:
        """Begins a call of a tool."""
        if not self._is_ready:
            raise Fault(wire.INVALID, "before a tool is called, the client sends notifications/initialized")
        call = Call(number, params, self._writer)
        with self._lock:
            if number in self._calls:
                raise Fault(wire.INVALID, "a request with this id is under way")
            if len(self._calls) >= _MOST_CALLS:
                raise Fault(wire.INTERNAL, f"{_MOST_CALLS} calls are under way: wait for one of them")
            self._calls[number] = call
        threading.Thread(target=self._work, args=(call,), daemon=True).start()

    def _work(self, call: Call) -> None:
        """Answers a call. One that was cancelled has no answer."""
        try:
            with self._slots:
                told = {"result": self._result(call)}
        except GivenUp:
            told = {}
        except Exception:  # whatever it is, the client is told
            traceback.print_exc(file=sys.stderr)
            told = {"error": {"code": wire.INTERNAL, "message": "the server has a fault, which standard error has"}}
        finally:
            call.asked.close()
        with self._lock:
            del self._calls[call.number]
            is_answered = bool(told) and not call.asked.is_cancelled
        if is_answered:
            self._writer.write({"id": call.number, **told})

    def _result(self, call: Call) -> dict[str, Any]:
        try:
            roots = self._wait_for_roots(call)
            call.say(f"{call.tool} begins")
            found, text = Answer(call.tool, call.given, roots, call.asked).answer()
        except Refusal as refusal:
            call.asked.check()
            return {"content": [{"type": "text", "text": str(refusal)}], "isError": True}
        return {"content": [{"type": "text", "text": text}], "structuredContent": found, "isError": False}

    def _wait_for_roots(self, call: Call) -> tuple[Root, ...]:
        until = time.monotonic() + _TO_SAY_ROOTS
        while time.monotonic() < until:
            call.asked.check()
            if (roots := self._roots.wait(_OFTEN)) is not None:
                return roots
        raise Refusal("the client has not said its roots, so nothing may be searched")

    # Notifications and responses.

    def _notified(self, method: str, params: dict[str, Any]) -> None:
        if method == "notifications/cancelled":
            number = params.get("requestId")
            with self._lock:
                call = self._calls.get(number) if wire.is_id(number) else None
                if call:
                    call.asked.cancel()
        elif method == "notifications/initialized" and self._is_begun and not self._is_ready:
            self._is_ready = True
            if self._has_roots:
                self._ask_roots()
            else:
                self._roots.begin()
        elif method == "notifications/roots/list_changed" and self._is_ready and self._has_roots:
            self._ask_roots()

    def _ask_roots(self) -> None:
        """Asks the client for its roots. Calls wait for the answer to the last request."""
        self._roots.ask()
        self._asked_roots += 1
        self._writer.write({"id": f"roots-{self._asked_roots}", "method": "roots/list"})

    def _take_response(self, message: dict[str, Any]) -> None:
        if self._asked_roots and message.get("id") == f"roots-{self._asked_roots}":
            # a client that cannot say its roots names none, so nothing is searched
            self._roots.take(roots_of(message.get("result")))
