"""What hands type, in the dialect that Perl, Python and rg share, as the extended regular expression that finds the same lines.

A pattern is read into parts and written again. What POSIX defines is written as it was; so is what cannot be read, for the program to
refuse. `word_edges` has what `\\b` becomes."""

from __future__ import annotations

import functools
import re
from dataclasses import dataclass
from typing import Optional

from ..query import MAX_PATTERN
from . import typed_brackets, word_edges
from .typed_parts import FOLLOW, SHORT, Alternatives, Part, Untaken, written

_MOST_LEVELS = 64
_INTERVAL = re.compile(rb"\{[0-9]+(,?)[0-9]*\}")
_FLAGS = re.compile(rb"\(\?([a-zA-Z]+)\)")
_NAMED = re.compile(rb"\(\?(P?<[A-Za-z_]|P[=>]|&|')")
_BYTES = {b"t": 9, b"r": 13, b"f": 12, b"v": 11, b"a": 7, b"e": 27}
_ENDS = {b"A": b"^", b"z": b"$", b"Z": b"$"}
_SPECIAL = b"\\^$.[|()*+?{"
_PUNCTUATION = frozenset(b"!\"#$%&'()*+,-./:;<=>?@[\\]^_`{|}~")
# What follows `(?`, the reason, and what to write instead.
_GROUPS = (
    (b"(?=", "look-ahead", "write what follows into the pattern, or use rg -P"),
    (b"(?!", "look-ahead", "write tgrep PATTERN | grep -v OTHER, or use rg -P"),
    (b"(?<=", "look-behind", "write what comes before into the pattern, or use rg -P"),
    (b"(?<!", "look-behind", "write tgrep PATTERN | grep -v OTHER, or use rg -P"),
    (b"(?>", "possessive group", "write ( for (?>, or use rg -P"),
    (b"(?#", "comment in a pattern", "leave it out"),
)


@dataclass(frozen=True)
class Typed:
    """The patterns of a call as the program takes them, and what else they ask for: that case is ignored, and that a match is of whole
    words. `offsets` has for each byte of each pattern, and for its end, the offset of what it was typed as."""

    patterns: tuple[bytes, ...]
    ignores_case: bool
    whole_words: bool
    offsets: tuple[tuple[int, ...], ...]


def as_they_are(patterns: tuple[bytes, ...]) -> Typed:
    """The patterns of a call that are not translated."""
    return Typed(patterns, False, False, tuple(tuple(range(len(pattern) + 1)) for pattern in patterns))


@functools.lru_cache(64)
def translated(patterns: tuple[bytes, ...], *, words: bool = False, lines: bool = False) -> Typed:
    """The translation of the patterns of one call. `Untaken` if one has what there is no such expression for. Where they are too long
    together, the program refuses them as they are.

    words, lines: whether -w or -x is given.
    """
    if sum(map(len, patterns)) + len(patterns) > MAX_PATTERN + 1:
        return as_they_are(patterns)
    readers = [_Reader(pattern) for pattern in patterns]
    ignores_case = [reader.ignores_case for reader in readers]
    if any(ignores_case) and not all(ignores_case):
        first = ignores_case.index(True)
        raise Untaken("(?i) in one of several patterns", 0, patterns[first], "write -i, which holds for all of them")
    trees = [(reader.pattern, reader.read()) for reader in readers]
    whole_words = word_edges.settle(trees, words=words, lines=lines)
    found = [written(tree, pattern) for pattern, tree in trees]
    return Typed(tuple(out for out, _ in found), any(ignores_case), whole_words, tuple(offsets for _, offsets in found))


class _Reader:
    """Reads one pattern into parts."""

    def __init__(self, pattern: bytes) -> None:
        self.pattern = pattern
        self.ignores_case = False
        self._at = 0
        self._read_flags()

    def _refuse(self, reason: str, at: int, instead: str) -> Untaken:
        return Untaken(reason, at, self.pattern, instead)

    def _read_flags(self) -> None:
        """Reads flags at the begin. That `.` takes line feeds, and `^` and `$` each line, is so or cannot be seen."""
        while found := _FLAGS.match(self.pattern, self._at):
            if set(found[1]) - set(b"imsu"):
                raise self._refuse(f"flag ({found[0][1:-1].decode()})", self._at, "only (?i), (?m), (?s) and (?u) are read: leave it out")
            self.ignores_case |= b"i" in found[1]
            self._at = found.end()

    def read(self) -> Alternatives:
        """The alternatives of the pattern, each the list of its parts. A group that has no end is written without one."""
        top: Alternatives = [[]]
        open_groups: list[tuple[Part, Alternatives]] = []
        now = top
        while self._at < len(self.pattern):
            byte, at = self.pattern[self._at : self._at + 1], self._at
            if byte == b"(":
                if len(open_groups) == _MOST_LEVELS:
                    raise self._refuse(f"too deep (over {_MOST_LEVELS} levels)", at, "write fewer groups in one another")
                group = self._open_group()
                now[-1].append(group)
                open_groups.append((group, now))
                now = group.alternatives or []
            elif byte == b")" and open_groups:
                group, now = open_groups.pop()
                group.end = at
                self._at += 1
                self._read_repeats(group)
            elif byte == b"|":
                now.append([])
                now[-1].append(Part("bar", at, b""))
                self._at += 1
            else:
                now[-1].append(self._read_part(byte))
        return top

    def _open_group(self) -> Part:
        at, rest = self._at, self.pattern[self._at :]
        if rest.startswith(b"(?:"):
            self._at += 3
            return Part("group", at, b"", [[]])
        if rest.startswith(b"(?"):
            if _NAMED.match(rest):
                raise self._refuse("named group", at, "write ( for a group without a name; there are no references to one")
            for begin, reason, instead in _GROUPS:
                if rest.startswith(begin):
                    raise self._refuse(reason, at, instead)
            if _FLAGS.match(rest):
                raise self._refuse("flag within a pattern", at, "write -i for (?i), which holds for the whole pattern")
            raise self._refuse("group of another kind", at, "write ( for a group, \\? for the character itself, or use rg -P")
        self._at += 1
        return Part("group", at, b"", [[]])

    def _read_part(self, byte: bytes) -> Part:
        at = self._at
        if byte == b"\\":
            part = self._read_escape()
        elif byte == b"[":
            out, self._at = typed_brackets.read(self.pattern, at)
            part = Part("set", at, out)
        else:
            self._at += 1
            part = Part("edge" if byte in b"^$" else "set", at, byte)
        if part.kind == "set":
            self._read_repeats(part)
        elif part.kind == "boundary" and self._repeat_at(self._at):
            raise self._refuse("nothing to repeat", self._at, f"leave out what follows {part.out.decode()}")
        return part

    def _read_escape(self) -> Part:
        at, after = self._at, self.pattern[self._at + 1 : self._at + 2]
        self._at += 2
        if after in SHORT:
            return Part("set", at, SHORT[after])
        if after and after in b"b<>":
            return Part("boundary", at, b"\\" + after)
        if after in _ENDS:
            return Part("edge", at, _ENDS[after])
        if after in _BYTES:
            return Part("set", at, bytes([_BYTES[after]]))
        if after == b"x":
            return Part("set", at, self._hexadecimal(at))
        if after and after in b" '`":
            return Part("set", at, after)
        if not after or after[0] in _PUNCTUATION or not after.isalnum():
            return Part("set", at, self.pattern[at : at + 2])
        if after in b"pP":
            end = self.pattern.find(b"}", at) + 1 if self.pattern[at + 2 : at + 3] == b"{" else at + 3
            name = self.pattern[at : end or at + 3].decode(errors="replace")
            raise self._refuse(f"Unicode property {name}", at, "write a class of bytes, such as [[:alpha:]] or [[:upper:]]")
        if after.isdigit() and after != b"0" or after in b"gk":
            raise self._refuse("back-reference", at, "grep -E and rg -P have them")
        raise self._refuse("bad escape", at, FOLLOW.get(after, f"for \\{after.decode()} write {after.decode()}"))

    def _hexadecimal(self, at: int) -> bytes:
        """The byte of `\\x41` or `\\x{41}`, as it is written in a pattern."""
        found = re.compile(rb"\\x(?:([0-9A-Fa-f]{2})|\{([0-9A-Fa-f]{1,8})\})").match(self.pattern, at)
        value = int(found[1] or found[2], 16) if found else 0
        if not found or not 0 < value < 128 or value == 10:
            raise self._refuse("bad escape", at, "\\x41 is for the bytes 01 to 7F but 0A: write another character as it is")
        self._at = found.end()
        return b"\\" * (bytes([value]) in _SPECIAL) + bytes([value])

    def _read_repeats(self, part: Part) -> None:
        """Reads what repeats a part. Whether it takes as much as it can, or as little, does not change the lines."""
        while self._at < len(self.pattern):
            at, found = self._at, self._repeat_at(self._at)
            if found is None:
                return
            part.repeats.append((found, at))
            self._at += len(found)
            after = self.pattern[self._at : self._at + 1]
            if after == b"+":
                what = found.decode() + "+"
                raise self._refuse(f"possessive {what}", at, f"write {found.decode()}, or (x{found.decode()})+ for a group that is repeated")
            if after == b"?":
                self._at += 1

    def _repeat_at(self, at: int) -> Optional[bytes]:
        byte = self.pattern[at : at + 1]
        if byte and byte in b"*+?":
            return byte
        found = _INTERVAL.match(self.pattern, at)
        return found[0] if found else None
