"""Starts a server. A client imports this where it has found none."""

import os
import subprocess
import sys

from . import places

_PACKAGES = os.path.dirname(os.path.dirname(os.path.dirname(os.path.abspath(__file__))))


def start(path, root, mode):
    """Starts the server of a tree in the background, and returns once it listens, or has ended since another one does. What it says if
    it cannot start."""
    code = f"import sys; sys.path.insert(0, {_PACKAGES!r}); from tsearch.tgrep.server import main; main()"
    reading, writing = os.pipe()
    environment = {**os.environ, "TSEARCH": places.program_words()} if os.environ.get("TSEARCH") else None
    try:
        # its working folder is not one that somebody may want to remove; nothing of a terminal is left to it
        server = subprocess.Popen(
            [sys.executable, "-P", "-c", code, str(writing), path, root, mode],
            stdin=subprocess.DEVNULL, stdout=subprocess.DEVNULL, stderr=subprocess.DEVNULL,
            cwd="/", env=environment, start_new_session=True, pass_fds=[writing],
        )  # fmt: skip
    except OSError as error:
        os.close(reading)
        return error.strerror
    finally:
        os.close(writing)
    server.returncode = 0  # it goes on when this call has ended
    said = b""
    with open(reading, "rb") as pipe:
        said = pipe.read()
    return said.decode(errors="replace")
