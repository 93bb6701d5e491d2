"""The rows of an answer as JSON. Most of the work of a search is here, so there is little for each row: what stands before a text, and what is
written of it, are split, changed and joined for many rows at a time."""

from __future__ import annotations

import functools
import itertools
import json
import re
import urllib.parse
from collections.abc import Callable, Iterator, Sequence

from ..answers import Answer, Hit
from ..names import unquote
from ..shortening import LONGEST, shortened
from .marks import Marks

# In bytes: so much of an answer, and the rest of its row, is worked on in one go.
BLOCK = 1 << 16
# In bytes: an answer whose spans take more, without the texts, is shown without marks.
_MOST_SPANS = 1 << 20
# So many matches and not many more are marked here.
_MOST_MARKS = 100_000
# A row behind its name, with the gap that may follow, and the spans of one.
_ROW = re.compile(rb"\0([0-9]++)([:-])(.*+)(?:\n--\n|\n)")
_SPANS = re.compile(rb"\0[0-9]+:([0-9,-]*):")
_GAP = b"--\n"
_NEXT, _END = b'"]},{"line":', b'"]}]}\n'
# What stands between the number of a line that was found, or of one around it, and its text, which may be cut.
_WHOLE = {b":": b',"parts":["', b"-": b',"around":true,"parts":["'}
_CUT = {b":": b',"cut":true,"parts":["', b"-": b',"around":true,"cut":true,"parts":["'}
_ESCAPED = {b"\\": b"\\\\", b'"': b'\\"', b"\t": b"\\t"}
_CONTROLS = bytes(byte for byte in range(32) if byte not in b"\0\n")
_CONTROL = re.compile(b"[" + _CONTROLS + b"]")
_quoted = json.encoder.encode_basestring_ascii
# Marks the matches in the next line that was found: a byte 0 stands before and behind each.
_Mark = Callable[[bytes], bytes]


def blocks_of(answer: Answer, repository: str, is_whole: bool, start: bytes = b"", marks: Marks | None = None) -> Iterator[bytes]:
    """The files of an answer as lines of JSON, from anywhere in one to anywhere: the repository, the name behind its start, its address, and
    its lines, the long ones whole or around their matches. An answer without spans has those of the marks."""
    mark = _mark_of(answer, marks)
    data, at, before = answer.data, 0, b""
    while at < len(data):
        end = data.find(b"\n", at + BLOCK) + 1 or len(data)
        end += len(_GAP) if data.startswith(_GAP, end) else 0
        pieces = _ROW.split(data[at:end])[:-1]
        pieces[::4] = [_NEXT if name == before else (before and _END) + _head_of(repository, before := name, start) for name in pieces[::4]]
        pieces[2::4], pieces[3::4] = _shown(pieces[2::4], pieces[3::4], mark, is_whole)
        at = end
        yield b"".join(pieces) + (_END if at == len(data) else b"")


@functools.lru_cache(1_024)
def _head_of(repository: str, name: bytes, start: bytes) -> bytes:
    """What stands before the first line of a file."""
    path = unquote(name).removeprefix(start)
    shown = _quoted(path.decode(errors="replace"))
    return f'{{"repository":{_quoted(repository)},"name":{shown},"id":{_quoted(id_of(path))},"hits":[{{"line":'.encode()


def id_of(path: bytes) -> str:
    """A path as it stands in an address."""
    return urllib.parse.quote(path, safe="/")


def _mark_of(answer: Answer, marks: Marks | None) -> _Mark:
    if answer.spans_data is None and marks:
        return _Marking(marks).marked
    told = _SPANS.findall(answer.spans_data or b"")
    spans = map(_spans_of, told if sum(map(len, told)) <= _MOST_SPANS else [])
    return lambda text: b"\0".join(Hit(b"", 0, text, None, tuple(next(spans, ()))).parts())


class _Marking:
    """Marks matches until there are too many."""

    def __init__(self, marks: Marks) -> None:
        self._split = marks.pattern.split
        self._left = _MOST_MARKS

    def marked(self, text: bytes) -> bytes:
        """The next line."""
        if self._left <= 0:
            return text
        parts = self._split(text)
        self._left -= len(parts) // 2
        return b"\0".join(parts)


def _spans_of(text: bytes) -> list[tuple[int, int]]:
    """The matches that `FROM-TO,FROM-TO` says."""
    spans = [span.partition(b"-") for span in text.split(b",")] if text else []
    return [(int(first) - 1, int(last)) for first, _, last in spans]


def _shown(signs: Sequence[bytes], texts: Sequence[bytes], mark: _Mark, is_whole: bool) -> tuple[list[bytes], list[bytes]]:
    """What is written between the number and the text of each line, and for the text."""
    heads = [_WHOLE[sign] for sign in signs]
    shown = [mark(text) if sign == b":" else text for sign, text in zip(signs, texts)]
    for at, text in enumerate(texts) if not is_whole and max(map(len, texts), default=0) > LONGEST else ():
        if len(text) > LONGEST:
            ends = list(itertools.accumulate(map(len, shown[at].split(b"\0"))))
            shown[at] = b"\0".join(shortened(text, list(zip(ends[::2], ends[1::2]))))
            heads[at] = _CUT[signs[at]]
    return heads, _written(b"\n".join(shown)).replace(b"\0", b'","').split(b"\n")


def _written(text: bytes) -> bytes:
    """What stands between the quotes of a JSON text. A byte 0 and a line feed, of which no line has any, stay for what they part."""
    for byte, escaped in _ESCAPED.items():
        text = text.replace(byte, escaped)
    if len(text.translate(None, _CONTROLS)) < len(text):
        text = _CONTROL.sub(lambda found: b"\\u%04x" % found[0][0], text)
    return text if text.isascii() else text.decode(errors="replace").encode()
