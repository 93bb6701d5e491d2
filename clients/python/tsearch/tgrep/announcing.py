"""`tgrep --socket`: where an editor reaches the server of a tree, which is started if need be."""

import json
import os
import socket

from . import client, places
from .arguments import Refused

_TRIES = 5
# In seconds.
_TO_ANSWER = 60


def announce(root, mode, terminal):
    """Shows the socket and the folder as JSON, and returns the status."""
    try:
        path = places.socket_of(places.folder_of_user(), root, mode)
        for _ in range(_TRIES):
            connection = client.connect(path) or client.start(path, root, mode, terminal)
            if connection is None:
                return 2
            try:
                answer = _greeted(connection)
            except OSError:
                answer = None
            finally:
                connection.close()
            if answer and "error" not in answer:
                terminal.output(json.dumps({"socket": path, "root": answer["root"]}).encode() + b"\n")
                return 0
    except Refused as refused:
        terminal.say(refused)
        return 2
    terminal.say(f"the server of {root} ends again and again")
    return 2


def _greeted(connection):
    """What the server answers to a hello; None if it ends. One of another version makes room for another server."""
    hello = {"id": 0, "do": "hello", "token": os.fsencode(places.token()).decode("utf-8", "surrogateescape")}
    connection.settimeout(_TO_ANSWER)
    connection.sendall(json.dumps(hello).encode() + b"\n", socket.MSG_NOSIGNAL)
    data = b""
    while more := connection.recv(4_096):
        *lines, data = (data + more).split(b"\n")
        for answer in map(json.loads, lines):
            if answer.get("id") == 0:
                return answer
    return None
