"""Which paths the rules of .gitignore, .ignore and .rgignore name. It reads the rules itself, so they hold without git too, and where
git refuses a repository of another owner. Patterns are those of gitignore(5)."""

from __future__ import annotations

import os
import re
from collections.abc import Iterable
from typing import NamedTuple

# Each file of rules has a rank; the first of them that says something about a path decides.
RULE_FILES = (b".rgignore", b".ignore", b".gitignore")
GIT = len(RULE_FILES) - 1
_CLASSES = {
    b"alpha": rb"A-Za-z",
    b"digit": rb"0-9",
    b"alnum": rb"A-Za-z0-9",
    b"upper": rb"A-Z",
    b"lower": rb"a-z",
    b"space": rb"\t-\r ",
    b"blank": rb"\t ",
    b"punct": rb"!-/:-@\[-`{-~",
    b"xdigit": rb"0-9A-Fa-f",
    b"cntrl": rb"\x00-\x1f\x7f",
    b"graph": rb"!-~",
    b"print": rb" -~",
}
_NEVER = b"(?!)"
_STAR = b"[^/]*"
_STARS = re.compile(rb"\*+")


class _Rule(NamedTuple):
    """The expression of a rule, and whether it takes a path back."""

    expression: bytes
    is_taken_back: bool


class Rules:
    """The rules of one file, for paths from its folder."""

    def __init__(self, text: bytes) -> None:
        rules = [rule for line in text.split(b"\n") if (rule := _rule(line.removesuffix(b"\r")))]
        # the last rule that matches decides, so it is tried first
        rules.reverse()
        self._taken_back = [rule.is_taken_back for rule in rules]
        self._expression = re.compile(b"|".join(b"(%s)" % rule.expression for rule in rules), re.DOTALL) if rules else None

    def verdict(self, path: bytes) -> bool | None:
        """Whether a path is ignored; None if no rule says so. A folder's path ends with a slash."""
        found = self._expression.fullmatch(path) if self._expression else None
        return None if found is None or found.lastindex is None else not self._taken_back[found.lastindex - 1]


def _rule(line: bytes) -> _Rule | None:
    """The rule of a line, or None for a line without one."""
    is_taken_back = line.startswith(b"!")
    if is_taken_back:
        line = line[1:]
    elif line.startswith(b"#"):
        return None
    while line.endswith(b" ") and not line.endswith(b"\\ "):
        line = line[:-1]
    is_of_folders = line.endswith(b"/")
    line = line.removesuffix(b"/")
    if not line:
        return None
    is_anchored = b"/" in line
    expression = wildcard(line.removeprefix(b"/"))
    if not is_anchored:
        expression = b"(?:.*/)?" + expression
    return _Rule(expression + (b"/" if is_of_folders else b"/?"), is_taken_back)


def wildcard(pattern: bytes) -> bytes:
    """The expression, without groups that are numbered, that matches what a pattern with `*`, `?`, `[` and `**` matches. Whoever wrote
    the pattern, it takes no time that doubles with each star: a star before the last takes the fewest bytes that it can, and no others
    are tried, since the next star can take the rest."""
    *before, last = _between_deep(pattern)
    if not before:
        return _within(last)
    middle = (b"(?>(?:[^/]*/)*?%s)" % _within(parts) for parts in before[1:])
    return _within(before[0]) + b"".join(middle) + b"(?:.*/)?" + _within(last)


def _between_deep(pattern: bytes) -> list[list[bytes]]:
    """The expressions of the parts of a pattern, in lists between which there is `**/`. Each but the last ends with a slash."""
    lists: list[list[bytes]] = [[]]
    at = 0
    while at < len(pattern):
        found = _STARS.match(pattern, at)
        stars = len(found[0]) if found else 0
        # git takes three stars and more as two
        is_deep = stars > 1 and (at == 0 or pattern[at - 1] == 47)
        if is_deep and pattern.startswith(b"/", at + stars):
            lists.append([])
            at += stars + 1
        elif is_deep and at and at + stars == len(pattern):
            lists[-1].append(b".+")
            at += stars
        elif stars:
            lists[-1].append(_STAR)
            at += stars
        else:
            part, at = _one(pattern, at)
            lists[-1].append(part)
    return lists


def _within(parts: list[bytes]) -> bytes:
    """The expression for parts that follow one another."""
    stars = [at for at, part in enumerate(parts) if part == _STAR]
    found = [b"".join(parts[: stars[0]] if stars else parts)]
    for begin, end in zip(stars, [*stars[1:], len(parts)]):
        rest = parts[begin + 1 : end]
        # a slash, or the end, leaves a star no choice
        is_free = end < len(parts) and b"/" not in rest
        found.append(b"(?>[^/]*?%s)" % b"".join(rest) if is_free else _STAR + b"".join(rest))
    return b"".join(found)


def _one(pattern: bytes, at: int) -> tuple[bytes, int]:
    """The expression for one byte of a path, and where its part of the pattern ends."""
    byte = pattern[at : at + 1]
    if byte == b"?":
        return b"[^/]", at + 1
    if byte == b"[":
        return _brackets(pattern, at)
    if byte == b"\\":
        # one at the end matches nothing
        return (re.escape(pattern[at + 1 : at + 2]), at + 2) if at + 1 < len(pattern) else (_NEVER, at + 1)
    return re.escape(byte), at + 1


def _brackets(pattern: bytes, at: int) -> tuple[bytes, int]:
    begin = at + 1
    is_negated = pattern[begin : begin + 1] in (b"!", b"^")
    at = begin + is_negated
    items, is_first = [], True
    while pattern[at : at + 1] != b"]" or is_first:
        if at >= len(pattern):
            return _NEVER, len(pattern)
        is_first = False
        found = re.compile(rb"\[:([a-z]*):\]").match(pattern, at)
        if found:
            if found[1] not in _CLASSES:
                return _NEVER, len(pattern)
            items.append(_CLASSES[found[1]])
            at = found.end()
            continue
        first, at = _end_of_range(pattern, at)
        if pattern[at : at + 1] == b"-" and pattern[at + 1 : at + 2] not in (b"]", b""):
            last, at = _end_of_range(pattern, at + 1)
            if first <= last:
                items.append(b"%s-%s" % (re.escape(first), re.escape(last)))
        else:
            items.append(re.escape(first))
    inner = b"".join(items)
    if is_negated:
        return b"[^/%s]" % inner, at + 1
    return (b"(?!/)[%s]" % inner if inner else _NEVER), at + 1


def _end_of_range(pattern: bytes, at: int) -> tuple[bytes, int]:
    at += pattern[at : at + 1] == b"\\" and at + 1 < len(pattern)
    return pattern[at : at + 1], at + 1


class Chain(NamedTuple):
    """The rules that hold in a folder: for each rank those of the folder and of the folders above, with their paths from the top, the
    nearest first; and at the end those of the repository and of the user."""

    ranks: tuple[tuple[tuple[bytes, Rules], ...], ...] = ((),) * len(RULE_FILES)
    is_in_repository: bool = False

    def with_rules(self, rank: int, folder: bytes, rules: Rules) -> Chain:
        """The chain with the rules of a folder before the others of their rank."""
        ranks = list(self.ranks)
        ranks[rank] = ((folder, rules), *ranks[rank])
        return Chain(tuple(ranks), self.is_in_repository)

    def in_repository(self, rules: Iterable[tuple[bytes, Rules]]) -> Chain:
        """The chain at the top of a repository: with these rules of git alone."""
        ranks = list(self.ranks)
        ranks[GIT] = tuple(rules)
        return Chain(tuple(ranks), True)

    def ignores(self, path: bytes, ranks: range = range(len(RULE_FILES))) -> bool:
        """Whether a path from the top is ignored, if no folder above it is. A folder's path ends with a slash."""
        for rank in ranks:
            for folder, rules in self.ranks[rank]:
                verdict = rules.verdict(path[len(folder) :])
                if verdict is not None:
                    return verdict
        return False


def rules_at(path: bytes) -> Rules | None:
    """The rules of a file, or None if it is not there or cannot be read. A symbolic link has none, as in git."""
    try:
        with open(os.open(path, os.O_RDONLY | os.O_NOFOLLOW | os.O_NONBLOCK | os.O_CLOEXEC), "rb") as file:
            return Rules(file.read())
    except OSError:
        return None
