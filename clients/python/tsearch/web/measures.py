"""What is counted and logged: measurements for Prometheus, and requests as JSON lines."""

from __future__ import annotations

import bisect
import contextlib
import json
import os
import sys
import time
from collections.abc import Iterable
from typing import IO

from aiohttp import web

_BOUNDS = (0.005, 0.01, 0.025, 0.05, 0.1, 0.25, 0.5, 1.0, 2.5, 5.0, 10.0)


class Histogram:
    """How many values there were up to each of some bounds, and their sum."""

    def __init__(self) -> None:
        self.counts = [0] * (len(_BOUNDS) + 1)
        self.sum = 0.0

    def add(self, value: float) -> None:
        """Counts a value."""
        self.counts[bisect.bisect_left(_BOUNDS, value)] += 1
        self.sum += value


class Metrics:
    """Measurements, by name and labels; a later value of the same ones stands."""

    def __init__(self) -> None:
        self._heads: dict[str, str] = {}
        self._values: dict[str, dict[str, float]] = {}

    def add(self, name: str, kind: str, meaning: str, value: float, labels: dict[str, str], suffix: str = "") -> None:
        """Adds a value. What several have in common is told once."""
        self._heads.setdefault(name, f"# HELP {name} {meaning}\n# TYPE {name} {kind}\n")
        escaped = {key: text.replace("\\", r"\\").replace('"', r"\"").replace("\n", r"\n") for key, text in labels.items()}
        shown = ",".join(f'{key}="{text}"' for key, text in escaped.items())
        self._values.setdefault(name, {})[f"{name}{suffix}{{{shown}}}" if shown else name + suffix] = value

    def add_histogram(self, name: str, meaning: str, found: Histogram) -> None:
        """Adds a histogram."""
        count = 0
        for bound, number in zip((*map(str, _BOUNDS), "+Inf"), found.counts):
            count += number
            self.add(name, "histogram", meaning, count, {"le": bound}, "_bucket")
        self.add(name, "histogram", meaning, round(found.sum, 6), {}, "_sum")
        self.add(name, "histogram", meaning, count, {}, "_count")

    def text(self) -> str:
        """All of it, in the text form of Prometheus, version 0.0.4."""
        return "".join(head + "".join(f"{row} {value}\n" for row, value in self._values[name].items()) for name, head in self._heads.items())


def memory_of(processes: Iterable[int | None]) -> int:
    """How many bytes of memory some processes have in use."""
    pages = 0
    for process in processes:
        with contextlib.suppress(OSError, ValueError, IndexError), open(f"/proc/{process}/statm", encoding="ascii") as file:
            pages += int(file.read().split()[1])
    return pages * os.sysconf("SC_PAGE_SIZE")


class Counted(web.StreamResponse):
    """An answer that comes piece by piece: how many bytes its body has so far."""

    written = 0

    async def write(self, data: bytes) -> None:
        """Writes a piece."""
        self.written += len(data)
        await super().write(data)

    async def write_eof(self, data: bytes = b"") -> None:
        """Writes the last piece."""
        self.written += len(data)
        await super().write_eof(data)


def length_of(request: web.BaseRequest, response: web.StreamResponse) -> int:
    """How many bytes the body of an answer has. One that does not come piece by piece is sent only after it is logged."""
    if isinstance(response, Counted):
        return response.written
    return 0 if request.method == "HEAD" else response.content_length or 0


class Log:
    """Writes JSON lines into a file, which is opened again on demand: then it may have been moved away. `-` is standard output."""

    def __init__(self, path: str | None) -> None:
        self._path = path
        self._file: IO[str] | None = None
        self.open()

    def open(self) -> None:
        """Opens the file, which may be another one by now. `OSError` if it cannot be."""
        if self._path == "-":
            self._file = sys.stdout
        elif self._path is not None:
            before, self._file = self._file, open(self._path, "a", encoding="utf-8", buffering=1)
            if before:
                before.close()

    def write(self, **row: object) -> None:
        """Writes a line, with the time. What does not fit on the disk is lost."""
        if self._file:
            stamp = time.strftime("%Y-%m-%dT%H:%M:%SZ", time.gmtime())
            with contextlib.suppress(OSError):
                self._file.write(json.dumps({"time": stamp, **row}) + "\n")
                self._file.flush()
