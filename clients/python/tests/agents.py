"""A client of the Model Context Protocol, for tests: it knows the protocol's specification of 2025-06-18, and nothing of the server."""

from __future__ import annotations

import json
import os
import pathlib
import queue
import subprocess
import threading
from typing import Any

from helpers import SECONDS
from warmed import TGREP, Place

VERSION = "2025-06-18"


class Client:
    """A server that is started in a folder, and what it says. Each message is held against JSON-RPC 2.0."""

    def __init__(self, folder: pathlib.Path, *words: str) -> None:
        self.process = subprocess.Popen([*TGREP, "--mcp", *words], cwd=folder, stdin=subprocess.PIPE, stdout=subprocess.PIPE)
        self._came: queue.Queue[dict[str, Any] | None] = queue.Queue()
        self._answers: dict[Any, dict[str, Any]] = {}
        # what came beside answers
        self.others: list[dict[str, Any]] = []
        self._number = 0
        self.schemas: dict[str, Any] = {}
        self._reading = threading.Thread(target=self._read, daemon=True)
        self._reading.start()

    def _read(self) -> None:
        assert self.process.stdout
        for line in self.process.stdout:
            self._came.put(json.loads(line))
        self._came.put(None)

    def take(self) -> dict[str, Any]:
        """The next message."""
        message = self._came.get(timeout=SECONDS)
        if message is None:
            raise EOFError
        assert message["jsonrpc"] == "2.0", message
        if "method" in message:
            assert "result" not in message and "error" not in message, message
            self.others.append(message)
        else:
            assert "id" in message and ("result" in message) != ("error" in message), message
            if "error" in message:
                assert isinstance(message["error"]["code"], int) and message["error"]["message"], message
        return message

    def write(self, data: bytes) -> None:
        """Sends bytes."""
        assert self.process.stdin
        self.process.stdin.write(data)
        self.process.stdin.flush()

    def send(self, **message: Any) -> None:
        """Sends a message."""
        self.write(json.dumps({"jsonrpc": "2.0", **message}).encode() + b"\n")

    def begin(self, method: str, params: dict[str, Any] | None = None) -> int:
        """Sends a request, and gives its number."""
        self._number += 1
        self.send(id=self._number, method=method, **({} if params is None else {"params": params}))
        return self._number

    def answer(self, number: Any) -> dict[str, Any]:
        """The answer to a request."""
        while number not in self._answers:
            message = self.take()
            if "method" not in message:
                self._answers[message["id"]] = message
        return self._answers.pop(number)

    def ask(self, method: str, params: dict[str, Any] | None = None) -> dict[str, Any]:
        """Sends a request, and gives its answer."""
        return self.answer(self.begin(method, params))

    def other(self, method: str) -> dict[str, Any]:
        """The next request or notification of the server of this method."""
        while True:
            for message in self.others:
                if message["method"] == method:
                    self.others.remove(message)
                    return message
            self.take()

    def hello(self, roots: list[pathlib.Path] | None = None) -> dict[str, Any]:
        """Makes the server ready, with these roots if there are any."""
        capabilities = {} if roots is None else {"roots": {"listChanged": True}}
        given = {"protocolVersion": VERSION, "capabilities": capabilities, "clientInfo": {"name": "test", "version": "1"}}
        result = self.ask("initialize", given)["result"]
        self.send(method="notifications/initialized")
        if roots is not None:
            self.say_roots(roots)
        self.schemas = {tool["name"]: tool["outputSchema"] for tool in self.ask("tools/list")["result"]["tools"]}
        return result

    def say_roots(self, roots: list[pathlib.Path]) -> None:
        """Answers the server's request for the roots."""
        asked = self.other("roots/list")
        self.send(id=asked["id"], result={"roots": [{"uri": root.as_uri(), "name": root.name} for root in roots]})

    def call(self, tool: str, **arguments: Any) -> dict[str, Any]:
        """Calls a tool, and gives what is structured in its result."""
        return self.checked(tool, self.ask("tools/call", {"name": tool, "arguments": arguments}))

    def checked(self, tool: str, answer: dict[str, Any]) -> dict[str, Any]:
        """What is structured in an answer, held against the schema of its tool."""
        result = answer["result"]
        assert result.get("isError") is not True, result
        assert [part["type"] for part in result["content"]] == ["text"] and result["content"][0]["text"], result
        fits(result["structuredContent"], self.schemas[tool])
        assert len(json.dumps(result)) < 1 << 18, len(json.dumps(result))
        return result["structuredContent"]

    def refused(self, tool: str, **arguments: Any) -> str:
        """Calls a tool that tells an error, and gives the text of that."""
        result = self.ask("tools/call", {"name": tool, "arguments": arguments})["result"]
        assert result["isError"] is True and "structuredContent" not in result, result
        return result["content"][0]["text"]

    def pages(self, tool: str, **arguments: Any) -> list[dict[str, Any]]:
        """All pages of an answer."""
        found = [self.call(tool, **arguments)]
        while found[-1]["more"]:
            found.append(self.call(tool, **arguments, cursor=found[-1]["next_cursor"]))
        assert "next_cursor" not in found[-1]
        return found

    def close(self) -> int:
        """Ends the input, and gives the status of the server."""
        assert self.process.stdin and self.process.stdout
        self.process.stdin.close()
        status = self.process.wait(SECONDS)
        self._reading.join(SECONDS)
        self.process.stdout.close()
        return status


def fits(value: Any, schema: dict[str, Any]) -> None:
    """Fails if a value does not meet a JSON Schema, of the words that the schemas here have."""
    known = {"type", "properties", "required", "items", "anyOf", "enum", "minimum", "description", "additionalProperties", "maxLength"}
    assert set(schema) <= known, schema
    if "anyOf" in schema:
        assert any(_fits(value, one) for one in schema["anyOf"]), (value, schema)
        return
    kinds = {"object": dict, "array": list, "string": str, "boolean": bool, "integer": int}
    assert isinstance(value, kinds[schema["type"]]), (value, schema)
    assert schema["type"] != "integer" or (not isinstance(value, bool) and value >= schema.get("minimum", value)), (value, schema)
    assert "enum" not in schema or value in schema["enum"], (value, schema)
    if isinstance(value, dict):
        assert set(schema.get("required", ())) <= set(value) <= set(schema["properties"]), (value, schema)
        for key, one in value.items():
            fits(one, schema["properties"][key])
    if isinstance(value, list):
        for one in value:
            fits(one, schema["items"])


def _fits(value: Any, schema: dict[str, Any]) -> bool:
    try:
        fits(value, schema)
        return True
    except AssertionError:
        return False


class Agents(Place):
    """A folder, with clients."""

    def client(self, *words: str, folder: pathlib.Path | None = None) -> Client:
        client = Client(folder or self.top, *words)
        self.addCleanup(lambda: client.process.poll() is None and client.close())
        return client

    def ready(self, *roots: pathlib.Path, folder: pathlib.Path | None = None) -> Client:
        """A client that is ready; with roots, those that it says."""
        client = self.client(folder=folder)
        client.hello(list(roots) or None)
        return client

    def git(self, *words: str) -> str:
        identity = ["-c", "user.name=a", "-c", "user.email=a@b"]
        environment = {**os.environ, "GIT_CONFIG_NOSYSTEM": "1", "GIT_CONFIG_GLOBAL": os.devnull}
        return subprocess.run(["git", "-C", str(self.top), *identity, *words], check=True, capture_output=True, text=True, env=environment).stdout.strip()
