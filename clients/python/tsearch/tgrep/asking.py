"""What a call asks the program, of what is given."""

from __future__ import annotations

import dataclasses
import functools
import os
import re
from collections.abc import Callable
from typing import Any

from ..errors import PatternRefused
from ..names import quote, to_bytes
from ..query import MAX_PATTERN, Query, escape
from . import ere, globs, typed
from .arguments import Refused
from .types import TYPES

# A pattern that matches nothing: there is no byte after the end of a line.
_NOTHING = b"$a"
_CAPITAL = re.compile(rb"[A-Z]")


@dataclasses.dataclass(frozen=True)
class Piece:
    """A part of what a call searches: a path that was given.

    under: what the names of its documents begin with (a folder's path with a slash), or, of a single file, the whole name.
    shown: what is shown in place of that, as it was typed.
    is_file: whether it is a single file.
    line: how many lines come before the document, if that is a block of a text.
    first, last: which lines of the text are shown of it; a `last` of 0 is no bound.
    """

    under: bytes
    shown: bytes
    is_file: bool
    line: int = 0
    first: int = 0
    last: int = 0

    def displayed(self, name: bytes) -> bytes:
        """The path that is shown for a document."""
        return self.shown if self.is_file else self.shown + name.removeprefix(self.under)


def patterns_of(given: dict[str, Any]) -> list[bytes]:
    """The patterns as they were typed. One with a line feed is several, as for grep."""
    return [part for pattern in given.get("patterns", []) for part in to_bytes(pattern).split(b"\n")]


def translation_of(given: dict[str, Any]) -> typed.Typed:
    """The patterns as the program takes them. `typed.Untaken` if one cannot be translated."""
    patterns = tuple(patterns_of(given))
    if given.get("literal") or given.get("posix"):
        return typed.as_they_are(patterns)
    return typed.translated(patterns, words=bool(given.get("words")), lines=bool(given.get("lines")))


def query_of(given: dict[str, Any]) -> Query:
    """The query for all documents, without a view. `typed.Untaken` if a pattern cannot be translated."""
    found = translation_of(given)
    patterns = found.patterns
    is_literal = bool(given.get("literal"))
    if not patterns:
        pattern, is_literal = _NOTHING, False
    elif len(patterns) == 1:
        pattern = patterns[0]
    else:
        # a bar binds the least, so no pattern needs parentheses
        pattern = b"|".join(map(escape, patterns) if is_literal else patterns)
        is_literal = False
    case = given.get("case")
    ignores_case = found.ignores_case or case == "ignore" or (case == "smart" and not any(map(_CAPITAL.search, patterns)))
    return Query(
        pattern,
        ignore_case=ignores_case,
        literal=is_literal,
        whole_words=bool(given.get("words")) or found.whole_words,
        whole_lines=bool(given.get("lines")),
        invert=bool(given.get("invert")),
    )


def as_typed(given: dict[str, Any], refused: PatternRefused) -> PatternRefused:
    """A refusal of a translated pattern, as one of what was typed."""
    patterns, found = patterns_of(given), translation_of(given)
    for pattern, out, offsets in zip(patterns, found.patterns, found.offsets):
        if out == refused.pattern or len(patterns) == 1:
            return PatternRefused(refused.reason, offsets[min(refused.offset, len(out))], 0, pattern)
    return refused


def single_patterns(given: dict[str, Any]) -> tuple[bytes, ...]:
    """The patterns that are joined to one, and so have to be patterns by themselves."""
    patterns = translation_of(given).patterns
    return () if given.get("literal") or len(patterns) < 2 else patterns


@dataclasses.dataclass(frozen=True)
class Filter:
    """Which documents of a piece are searched: those whose names have a match of each of `wanted` and of none of `unwanted`, and that have
    at most so many bytes."""

    wanted: tuple[bytes, ...]
    unwanted: tuple[bytes, ...] = ()
    largest: int | None = None

    @property
    def sent(self) -> tuple[tuple[bytes, ...], tuple[bytes, ...]]:
        """The patterns that the program takes."""
        return tuple(filter(_is_taken, self.wanted)), tuple(filter(_is_taken, self.unwanted))

    @property
    def is_sent(self) -> bool:
        """Whether the program leaves out all that is to be left out."""
        return self.largest is None and all(map(_is_taken, (*self.wanted, *self.unwanted)))

    def has(self, name: bytes, size: int) -> bool:
        """Whether a document is searched. The names are those that the program would say."""
        if self.largest is not None and size > self.largest:
            return False
        wanted, unwanted = self._tests
        if not wanted and not unwanted:
            return True
        quoted = quote(name)
        return all(test(quoted) for test in wanted) and not any(test(quoted) for test in unwanted)

    @functools.cached_property
    def _tests(self) -> tuple[list[Callable[[bytes], bool]], list[Callable[[bytes], bool]]]:
        # the pattern of all names is left out
        return [ere.names(one).has for one in self.wanted if one != globs.under(b"")], [ere.names(one).has for one in self.unwanted]


def _is_taken(pattern: bytes) -> bool:
    return len(pattern) <= MAX_PATTERN


def filter_of(given: dict[str, Any], piece: Piece, here: bytes | None) -> Filter:
    """The filter for a piece. `here` is the path of the working folder from the top of the tree, if it is in the tree."""
    if piece.is_file:
        return Filter((b"^" + globs.literal(piece.under) + b"$",))
    places = globs.Places(piece.under, piece.under if here is None else here)
    wanted, unwanted = [globs.under(piece.under)], []
    if given.get("no_hidden"):
        unwanted.append(globs.hidden(piece.under))
    if "max_depth" in given:
        wanted.append(globs.at_depth(piece.under, given["max_depth"]) if given["max_depth"] else _NOTHING)
    chosen, left_out = _of_globs(given)
    if chosen:
        wanted.append(globs.files(places, chosen))
    if left_out:
        unwanted.append(globs.files_and_below(places, left_out))
    _of_grep(given, places, wanted, unwanted)
    wanted += map(to_bytes, given.get("names", []))
    unwanted += map(to_bytes, given.get("not_names", []))
    return Filter(tuple(wanted), tuple(unwanted), given.get("largest"))


def _of_globs(given: dict[str, Any]) -> tuple[list[globs.Glob], list[globs.Glob]]:
    """The globs of -g and --iglob that take files, and those that leave files out. `Refused` where one that leaves out comes before one
    that takes, since the last would count for each file."""
    chosen, left_out = [], []
    for text, ignores_case in given.get("all_globs", []):
        glob = to_bytes(text)
        if glob.startswith(b"!"):
            left_out.append((glob[1:], ignores_case))
        elif left_out:
            raise Refused("a -g with a ! before one without is refused: write those with a ! last")
        else:
            chosen.append((glob.removeprefix(b"\\") if glob.startswith(b"\\!") else glob, ignores_case))
    return chosen, left_out


def _of_grep(given: dict[str, Any], places: globs.Places, wanted: list[bytes], unwanted: list[bytes]) -> None:
    """The patterns for types of files and for the options that grep has."""
    types = {name: list(found) for name, found in TYPES.items()}
    for text in given.get("type_add", []):
        name, separator, glob = text.partition(":")
        if not separator:
            raise Refused(f"--type-add {text}: write --type-add TYPE:GLOB")
        types.setdefault(name, []).append(glob)
    for key, into in ("types", wanted), ("not_types", unwanted):
        found = [(to_bytes(glob), False) for name in given.get(key, []) for glob in _globs_of_type(name, types)]
        if found:
            into.append(globs.files(places, found))
    for key, make, into in ("include", globs.files, wanted), ("exclude", globs.files, unwanted), ("exclude_dir", globs.folders, unwanted):
        found = [(to_bytes(glob).rstrip(b"/"), False) for glob in given.get(key, [])]
        if found:
            into.append(make(places, found))


def _globs_of_type(name: str, types: dict[str, list[str]]) -> list[str]:
    if name == "all":
        return sorted({glob for found in types.values() for glob in found})
    if name not in types:
        raise Refused(f"there is no type {name}: tgrep --type-list lists the types, and -g '*.{name}' takes files by their names")
    return types[name]


def piece_of(typed: str, real: str, is_folder: bool, root: str) -> Piece:
    """The piece for a path in the tree. Nothing was typed for the working folder."""
    name = os.path.relpath(real, root)
    inside = b"" if name == "." else os.fsencode(name)
    if not is_folder:
        return Piece(inside, os.fsencode(typed), True)
    shown = os.fsencode(typed)
    return Piece(inside + b"/" * bool(inside), shown + b"/" * bool(shown and not shown.endswith(b"/")), False)


def inside(path: str, root: str) -> bytes | None:
    """The path of a folder from the top of a tree, with a slash at its end unless it is the top; None if it is not in the tree."""
    name = os.path.relpath(path, root)
    if name == ".":
        return b""
    return None if name == ".." or name.startswith("../") else os.fsencode(name) + b"/"
