"""A folder with a warm server, for tests."""

from __future__ import annotations

import base64
import os
import pathlib
import subprocess
import sys
import tempfile
import unittest
import unittest.mock

from helpers import TOP
from tsearch.warm import Warm

TGREP = [sys.executable, str(TOP / "tgrep")]


class Place(unittest.TestCase):
    """A folder of its own for each test, with servers of its own."""

    def setUp(self) -> None:
        room = tempfile.TemporaryDirectory(ignore_cleanup_errors=True)
        self.addCleanup(room.cleanup)
        self.top = pathlib.Path(os.path.realpath(room.name), "tree")
        self.top.mkdir()
        (self.top.parent / "runtime").mkdir(mode=0o700)
        more = {"HOME": room.name, "XDG_RUNTIME_DIR": f"{room.name}/runtime", "TGREP_IDLE": "60"}
        patch = unittest.mock.patch.dict(os.environ, more)
        patch.start()
        self.addCleanup(patch.stop)
        self.addCleanup(lambda: subprocess.run([*TGREP, "--stop"], cwd=self.top, capture_output=True, check=False))

    def write(self, documents: dict[bytes, bytes]) -> None:
        for name, body in documents.items():
            path = self.top / os.fsdecode(name)
            path.parent.mkdir(parents=True, exist_ok=True)
            path.write_bytes(body)

    def warm(self) -> Warm:
        warm = Warm(self.top)
        self.addCleanup(warm.close)
        return warm


def text_of(shown: str | dict[str, str]) -> bytes:
    return shown.encode() if isinstance(shown, str) else base64.b64decode(shown["base64"])


def asked(options: dict) -> dict:
    """The options of a find in Python as those of the protocol."""
    given = {key: [one] if key in ("names", "not_names") and isinstance(one, str) else one for key, one in options.items() if one is not None}
    for key, show in ("names_only", "names"), ("counts", "counts"), ("header_only", "nothing"):
        if given.pop(key, False):
            given["show"] = show
    return given


def shown_by(warm: Warm, pattern: str, **options: object) -> tuple[int, bool, list]:
    """What a find shows, as `found_in` says it; without gaps."""
    rows: list = []
    *_, last = parts = list(warm.parts(warm.send("find", pattern=pattern, **asked(options))))
    for part in parts:
        rows += [text_of(name) for name in part.get("names", [])]
        rows += [(text_of(one["name"]), one["count"]) for one in part.get("counts", [])]
        for document in part.get("documents", []):
            for line in document["lines"]:
                spans = tuple(map(tuple, line["spans"])) if "spans" in line else None
                row = text_of(document["name"]), line["line"], text_of(line["text"]), line.get("column"), spans
                rows.append((*row, "around" not in line))
    return last["count"], last["more"], rows
