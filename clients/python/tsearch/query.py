"""What a search asks for, and the item `find` that is sent for it (docs/SCRIPT.md)."""

from __future__ import annotations

import dataclasses
import re
from collections.abc import Iterable
from dataclasses import dataclass
from typing import TypedDict

from .answers import View
from .errors import OptionRefused, PatternRefused
from .names import quote, to_bytes

MAX_PATTERN = 1_024
# So many prefixes of a kind a search has.
MAX_PREFIXES = 4_096
_LANE = re.compile(rb"[^ \n]{1,64}")
_SPECIAL = re.compile(rb"[\\^$.[|()*+?{]")

Patterns = str | bytes | Iterable[str] | Iterable[bytes] | Iterable[str | bytes]


class Options(TypedDict, total=False):
    """The options of `find`. `Session.find` says what each means."""

    ignore_case: bool
    literal: bool
    whole_words: bool
    whole_lines: bool
    invert: bool
    names: Patterns
    not_names: Patterns
    under: Patterns
    not_under: Patterns
    names_ignore_case: bool
    limit: int | None
    context: int | None
    column: bool
    spans: bool
    names_only: bool
    counts: bool
    header_only: bool
    lane: str | bytes | None


def escape(text: str | bytes) -> bytes:
    """The pattern whose matches are exactly this text, as bytes. `re.escape` will not do: it escapes a space, which is refused."""
    return _SPECIAL.sub(rb"\\\g<0>", to_bytes(text))


def document_pattern(name: str | bytes) -> bytes:
    """The name pattern that only this document's name matches."""
    return b"^" + escape(quote(name)) + b"$"


def _list_of(patterns: Patterns) -> tuple[bytes, ...]:
    return (to_bytes(patterns),) if isinstance(patterns, (str, bytes)) else tuple(map(to_bytes, patterns))


@dataclass(frozen=True)
class Query:
    """A search: the pattern and its options."""

    pattern: bytes
    ignore_case: bool = False
    literal: bool = False
    whole_words: bool = False
    whole_lines: bool = False
    invert: bool = False
    names: tuple[bytes, ...] = ()
    not_names: tuple[bytes, ...] = ()
    under: tuple[bytes, ...] = ()
    not_under: tuple[bytes, ...] = ()
    names_ignore_case: bool = False
    limit: int | None = None
    context: int | None = None
    column: bool = False
    spans: bool = False
    names_only: bool = False
    counts: bool = False
    header_only: bool = False
    lane: bytes | None = None

    @classmethod
    def of(
        cls,
        pattern: str | bytes,
        names: Patterns = (),
        not_names: Patterns = (),
        under: Patterns = (),
        not_under: Patterns = (),
        lane: str | bytes | None = None,
        **options: bool | int | None,
    ) -> Query:
        """The query for the arguments of `find`."""
        lists = {"names": names, "not_names": not_names, "under": under, "not_under": not_under}
        queue = None if lane is None else to_bytes(lane)
        return cls(to_bytes(pattern), lane=queue, **{word: _list_of(given) for word, given in lists.items()}, **options)  # type: ignore[arg-type]

    @property
    def view(self) -> View:
        """What is shown of each line or document."""
        shown = {
            View.CONTEXT: self.context is not None,
            View.COLUMN: self.column,
            View.SPANS: self.spans,
            View.NAMES: self.names_only,
            View.COUNTS: self.counts,
            View.HEADER: self.header_only,
        }
        return next((view for view, is_on in shown.items() if is_on), View.LINES)

    def parts(self) -> list[Query]:
        """The searches to make for it. One shows either context, or columns, or spans; for spans beside one of the others there is a
        second search, which finds the same lines in the same version."""
        if not self.spans or self.view is View.SPANS:
            return [self]
        return [dataclasses.replace(self, spans=False), dataclasses.replace(self, context=None, column=False)]

    def item(self) -> bytes:
        """The item. `PatternRefused` for what would be something else, or would be too long to be sent, and `OptionRefused` for such a
        lane and for an empty prefix."""
        self._check()
        if self.lane is not None and not _LANE.fullmatch(self.lane):
            raise OptionRefused("option --lane needs a word of 1 to 64 bytes")
        for word, prefixes in ((b"--under", self.under), (b"--not-under", self.not_under)):
            if not all(prefixes):
                raise OptionRefused(f"option {word.decode()} needs a word of 1 byte or more")
        flags = {
            b"-i": self.ignore_case,
            b"-F": self.literal,
            b"-w": self.whole_words,
            b"-x": self.whole_lines,
            b"-v": self.invert,
            b"-I": self.names_ignore_case,
            b"--column": self.column,
            b"--spans": self.spans,
            b"-l": self.names_only,
            b"-c": self.counts,
            b"-q": self.header_only,
        }
        # a byte 0 ends each name, so no name has to be guessed
        words = [b"find -Z", *[word for word, is_on in flags.items() if is_on]]
        words += [b"-n " + name for name in self.names] + [b"-N " + name for name in self.not_names]
        words += [b"--under " + quote(one) for one in self.under] + [b"--not-under " + quote(one) for one in self.not_under]
        words += [b"%s %d" % (word, number) for word, number in ((b"-m", self.limit), (b"-C", self.context)) if number is not None]
        words += [b"--lane " + self.lane] if self.lane else []
        return b" ".join([*words, b"--", self.pattern]) + b"\n"

    def pattern_at(self, number: int) -> bytes:
        """The name pattern with this number, from 1; those of `not_names` come last. The pattern itself is number 0."""
        return (self.pattern, *self.names, *self.not_names)[number]

    def refusal(self, reason: str, offset: int, number: int = 0) -> PatternRefused:
        """The refusal of the pattern with this number."""
        return PatternRefused(reason, offset, number, self.pattern_at(number))

    def _check(self) -> None:
        for number in [*range(1, 1 + len(self.names) + len(self.not_names)), 0]:
            pattern = self.pattern_at(number)
            if len(pattern) > MAX_PATTERN:
                raise self.refusal("pattern too long", MAX_PATTERN, number)
            if b"\n" in pattern:
                raise self.refusal("bad byte", pattern.index(b"\n"), number)
            if number and b" " in pattern:
                raise self.refusal("space, which no quoted name has: write %20", pattern.index(b" "), number)
