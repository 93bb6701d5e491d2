"""What the tests share: the program, documents, a plain model of searches, and a program that is none."""

from __future__ import annotations

import contextlib
import os
import pathlib
import random
import re
import signal
import sys
import textwrap
import time
from collections.abc import Iterator

TESTS = pathlib.Path(__file__).resolve().parent
PACKAGE = TESTS.parent
TOP = PACKAGE.parent.parent
sys.path.insert(0, str(PACKAGE))

# How long anything may take, in seconds: far more than it does on a machine with much else to do. Nothing that goes well takes longer for it.
SECONDS = 180.0

# Among large counts, a star with a `$` takes a round for each byte of a line, and each round looks at all that can come next.
SLOW = r"x([ab]|a([ab]{250}){15}c|d$)*e|^end$"


def slow_documents(count: int = 100, length: int = 1_500, seed: int = 1) -> dict[str, bytes]:
    """Documents of random lines, in which the slow pattern looks at each byte, and one line that it finds. A search that is cancelled
    goes on with the document at which it is, so these are short. Those of another seed have other bodies: the same are matched once."""
    source = random.Random(seed)
    found = {f"slow/{number}": b"x" + bytes(source.choices(b"ab", k=length)) + b"\n" for number in range(count)}
    return {**found, "slow/end": b"end\n"}


def slow_file(number: int) -> bytes:
    """A line in which the slow pattern looks at each byte. No other number has the same: that would be matched once."""
    return b"xab" * 5_000 + f"{number:010b}".translate({48: "a", 49: "b"}).encode() + b"\n"


def until(holds, seconds: float = SECONDS) -> None:
    """Waits until something holds."""
    end = time.monotonic() + seconds
    while not holds():
        if time.monotonic() > end:
            raise AssertionError(f"not in {seconds} seconds")
        time.sleep(0.01)


class Model:
    """Documents and the answers to searches, by Python's `re`. Its patterns mean the same there for lines of these bytes."""

    WORDS = ["alpha", "beta", "gamma", "x=1", "call(x)", "[i]", "Alpha", "the end", "a|b", "", "zeta;", "100%"]
    PATTERNS = ["alpha", "^beta", "a$", "[a-g]{3}", "(al|be)[pt]", "x=1|gamma", "e.*e", "^$", "\\[i]", "call\\(", "zz", "p?h*a+"]

    def __init__(self, seed: int, count: int = 30) -> None:
        source = random.Random(seed)
        self.documents = {b"dir %d/f%d.c" % (at % 3, at): self.body(source) for at in range(count)}

    def body(self, source: random.Random) -> bytes:
        return "\n".join(" ".join(source.choices(self.WORDS, k=source.randint(0, 4))) for _ in range(source.randint(0, 12))).encode()

    def find(self, pattern: str, **options) -> Shown:
        return found_in(self.documents, pattern, **options)

    def options(self, source: random.Random) -> dict:
        """Options of a search, with one view."""
        flags = ["ignore_case", "literal", "whole_words", "whole_lines", "invert", "names_ignore_case"]
        options: dict = {flag: True for flag in flags if source.random() < 0.15}
        options |= source.choice([{}, {}, {"names": "1/F"}, {"not_names": [r"f1", "2\\.c$"]}, {"names": ["dir", "[02-9]"], "not_names": "f2"}])
        options |= source.choice([{}, {}, {"under": ["dir 1/", "f"]}, {"not_under": "dir"}, {"under": "dir", "not_under": ["dir 2/f1", "d/"]}])
        views = [{}, {"names_only": True}, {"counts": True}, {"header_only": True}, {"context": source.choice([0, 1, 3])}]
        if not options.get("invert"):
            views += [{"column": True}, {"spans": True}, {"context": 2, "spans": True}, {"column": True, "spans": True}]
        return {**options, **source.choice(views), "limit": source.choice([None, None, 1, 3, 10])}


def lines_of(body: bytes) -> list[bytes]:
    """The lines of a body: a line feed at its end begins no other."""
    lines = body.split(b"\n")
    return lines if lines[-1] else lines[:-1]


def quoted(name: bytes) -> bytes:
    """The name as a session has it, by which answers are sorted."""
    return b"".join(b"%%%02X" % byte if byte <= 32 or byte in b"%\x7f" else bytes([byte]) for byte in name)


def hits_of(documents: dict[bytes, bytes], pattern: str, ignore_case: bool = False) -> list[tuple[bytes, int, bytes]]:
    return [row[:3] for row in found_in(documents, pattern, ignore_case=ignore_case)[2]]


def plain(answer) -> list[tuple[bytes, int, bytes]]:
    """The hits of an answer, without columns and spans."""
    return [hit[:3] for hit in answer]


def shown(answer) -> Shown:
    """What an answer shows: how many there are, whether there are more, and the rows, or the names."""
    if answer.view.value == "header":
        return answer.count, answer.more, []
    if answer.view.value in ("names", "counts"):
        return answer.count, answer.more, list(answer.counts().items()) if answer.view.value == "counts" else answer.names()
    return answer.count, answer.more, [row and (*row.hit, row.is_found) for row in answer.rows()]


Shown = tuple[int, bool, list]


def found_in(documents: dict[bytes, bytes], pattern: str, **options) -> Shown:
    """What a search shows, by Python's `re`, for patterns of which the first match that it tries is the longest."""
    get = options.get
    compiled = compile_for(pattern, get)
    names = [name for name in sorted(documents, key=quoted) if is_named(quoted(name), get)]
    found = {name: [bool(compiled.search(line)) != bool(get("invert")) for line in lines_of(documents[name])] for name in names}
    limit = get("limit") or sum(map(len, found.values())) + 1
    if get("names_only") or get("counts"):
        counts = [(name, sum(marks)) for name, marks in found.items() if any(marks)]
        rows = counts if get("counts") else [name for name, _ in counts]
        return min(len(rows), limit), len(rows) > limit, rows[:limit]
    hits = [(name, at) for name, marks in found.items() for at, mark in enumerate(marks) if mark]
    kept, rows, around = set(hits[:limit]), [], get("context")
    for name in names:
        lines, last = lines_of(documents[name]), None
        for at, line in enumerate(lines):
            if any((name, near) in kept for near in range(at - (around or 0), at + (around or 0) + 1)):
                if around is not None and rows and last != at - 1:
                    rows.append(None)
                rows.append((name, at + 1, line, *places(compiled, line, get, (name, at) in kept), (name, at) in kept))
                last = at
    return len(kept), len(hits) > limit, [] if get("header_only") else rows


def compile_for(pattern: str, get) -> re.Pattern[bytes]:
    text = re.escape(pattern) if get("literal") else pattern
    if get("whole_lines"):
        text = f"^(?:{text})$"
    elif get("whole_words"):
        text = f"(?<![A-Za-z0-9_])(?:{text})(?![A-Za-z0-9_])"
    return re.compile(text.encode(), re.IGNORECASE if get("ignore_case") else 0)


def is_named(name: bytes, get) -> bool:
    def matches(ere: str) -> bool:
        return bool(re.search(ere.encode(), name, re.IGNORECASE if get("names_ignore_case") else 0))

    lists = (get(key, []) for key in ("names", "not_names", "under", "not_under"))
    wanted, unwanted, among, not_among = ([found] if isinstance(found, str) else found for found in lists)
    starts, others = (tuple(quoted(one.encode()) for one in some) for some in (among, not_among))
    is_under = (not starts or name.startswith(starts)) and not name.startswith(others)
    return is_under and all(map(matches, wanted)) and not any(map(matches, unwanted))


def places(compiled: re.Pattern[bytes], line: bytes, get, is_found: bool) -> tuple:
    """The column and the spans of a line, as far as they are asked for."""
    column = compiled.search(line).start() + 1 if get("column") else None
    spans = tuple(found.span() for found in compiled.finditer(line) if found.end() > found.start())
    return column, spans if get("spans") and is_found else None


def _told_of(pid: int) -> tuple[str, str, int]:
    """What a process is called, its state, and which process has started it, as in /proc; empty texts and 0 if there is none."""
    try:
        with open(f"/proc/{pid}/stat", encoding="utf-8", errors="replace") as file:
            name, _, rest = file.read().partition("(")[2].rpartition(")")
        state, parent = rest.split()[:2]
        return name, state, int(parent)
    except (OSError, ValueError):
        return "", "", 0


def state_of(pid: int) -> str:
    """The state of a process; empty if there is none."""
    return _told_of(pid)[1]


def named(pid: int) -> str:
    """What a process is called; empty if there is none."""
    return _told_of(pid)[0]


def children_of(pid: int) -> list[int]:
    """The processes that a process has started and that have not ended. All processes are looked at: the list of children that Linux has lacks some
    while others end."""
    told = {int(entry): _told_of(int(entry)) for entry in os.listdir("/proc") if entry.isdecimal()}
    return sorted(child for child, (_, state, parent) in told.items() if parent == pid and state not in ("Z", "X"))


def stop(pid: int) -> None:
    """Stops a process, and returns once it has stopped."""
    os.kill(pid, signal.SIGSTOP)
    until(lambda: state_of(pid) in ("T", "Z", ""))


@contextlib.contextmanager
def stopped(pid: int) -> Iterator[None]:
    """Stops a process for as long as the block lasts."""
    stop(pid)
    try:
        yield
    finally:
        with contextlib.suppress(ProcessLookupError):
            os.kill(pid, signal.SIGCONT)


def stand_in(code: str) -> list[str]:
    """The command of a program that is written for a test. It has `items`, the lines that come, and `say`, which writes bytes."""
    begin = """
        import os, signal, sys, time
        items = iter(sys.stdin.buffer.readline, b"")
        def say(data):
            os.write(1, data)
    """
    return [sys.executable, "-c", textwrap.dedent(begin) + textwrap.dedent(code)]
