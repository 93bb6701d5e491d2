"""The parts of a pattern that was typed, and how they are written."""

from __future__ import annotations

from dataclasses import dataclass, field
from typing import Optional

from ..errors import PatternRefused

WORD, OTHER = b"[[:alnum:]_]", b"[^[:alnum:]_]"
# What stands in brackets for a letter behind a `\`.
INSIDE = {b"d": b"0-9", b"w": b"[:alnum:]_", b"s": b"[:space:]", b"h": b"[:blank:]"}
SHORT = {
    letter: out
    for small, inside in INSIDE.items()
    for letter, out in ((small, b"[" + inside + b"]"), (small.upper(), b"[^" + inside + b"]"))
}
# What to write in place of an escape that is refused.
FOLLOW = {
    b"B": "write a pattern without it",
    b"n": "write two patterns: a match lies within a line",
    b"R": "a match lies within a line: leave it out",
    b"N": "for \\N write .",
    b"Q": "-F takes a text as it is",
    b"E": "-F takes a text as it is",
    b"K": "rg -P has it",
    b"G": "rg -P has it",
    b"X": "for \\X write .",
    b"C": "for \\C write .",
    b"0": "a line has no byte 0: leave it out",
    b"c": "write the control byte as \\x and its number",
    b"u": "write the character itself",
    b"U": "write the character itself",
    b"l": "write the letter itself",
    b"L": "write the letter itself",
}


class Untaken(PatternRefused):
    """A pattern that was typed has no translation. `offset` is that of the fault in it, and `instead` says what to write."""

    def __init__(self, reason: str, offset: int, pattern: bytes, instead: str) -> None:
        super().__init__(reason, offset, 0, pattern)
        self.instead = instead


@dataclass
class Part:
    """A part of a pattern.

    kind: `set` (one byte), `group`, `edge` (`^` or `$`), `boundary`, `bar` (before an alternative but the first), or `made`.
    at: its offset in what was typed.
    out: how it is written, unless it is a group.
    alternatives: those of a group.
    end: where the end of a group was typed, if it was.
    repeats: what repeats it, with the offsets.
    ends: of what is made, whether its first and its last byte are of a word, as in `word_edges`.
    """

    kind: str
    at: int
    out: bytes
    alternatives: Optional[list[list[Part]]] = None
    end: Optional[int] = None
    repeats: list[tuple[bytes, int]] = field(default_factory=list)
    ends: tuple[str, str] = ("", "")


Alternatives = list[list[Part]]


def written(tree: Alternatives, pattern: bytes) -> tuple[bytes, tuple[int, ...]]:
    """A tree as a pattern, with the offset in what was typed for each byte of it and for its end."""
    parts: list[tuple[bytes, int]] = []
    _write(tree, parts)
    offsets: list[int] = []
    for out, at in parts:
        is_same = pattern.startswith(out, at)
        offsets += range(at, at + len(out)) if is_same else [at] * len(out)
    return b"".join(out for out, _ in parts), (*offsets, len(pattern))


def _write(tree: Alternatives, parts: list[tuple[bytes, int]]) -> None:
    for alternative in tree:
        for part in alternative:
            if part.kind == "bar":
                parts.append((b"|", part.at))
                continue
            if part.alternatives is None:
                parts.append((part.out, part.at))
            else:
                parts.append((b"(", part.at))
                _write(part.alternatives, parts)
                parts += [] if part.end is None else [(b")", part.end)]
            parts += part.repeats
