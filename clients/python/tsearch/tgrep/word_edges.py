"""What `\\b` becomes in an extended regular expression, which has none: nothing where a byte of a word is always beside one of none, and
else an option, a byte, or a narrower set beside it. The lines are the same; a match may have a byte or the rest of a word more."""

from __future__ import annotations

import copy
import functools
from collections.abc import Iterable
from typing import Optional

from . import ere
from .typed_parts import OTHER, WORD, Alternatives, Part, Untaken

_WORD_BYTES = frozenset(b"ABCDEFGHIJKLMNOPQRSTUVWXYZabcdefghijklmnopqrstuvwxyz0123456789_")
# What is on a side of a `\b`: a byte of a word; another, or the end of the line; what is outside of the match; or one or the other of them.
_IS_WORD, _IS_OTHER, _IS_OUTSIDE, _IS_EITHER = "word", "other", "outside", "either"
_OPPOSITE = {_IS_WORD: _IS_OTHER, _IS_OTHER: _IS_WORD}
_THROUGH = "through"
# There is no byte after the end of a line.
_NEVER = b"$a"
_BEFORE, _BEHIND = b"(^|" + OTHER + b")", b"($|" + OTHER + b")"
# By what is on the left and on the right: what is written, and which of both its ends are.
_FORMS = {
    (_IS_WORD, _IS_OTHER): (b"", _IS_OTHER),
    (_IS_OTHER, _IS_WORD): (b"", _IS_OTHER),
    (_IS_WORD, _IS_WORD): (_NEVER, _IS_EITHER),
    (_IS_OTHER, _IS_OTHER): (_NEVER, _IS_EITHER),
    (_IS_OUTSIDE, _IS_WORD): (_BEFORE, _IS_OTHER),
    (_IS_OUTSIDE, _IS_OTHER): (WORD, _IS_WORD),
    (_IS_WORD, _IS_OUTSIDE): (_BEHIND, _IS_OTHER),
    (_IS_OTHER, _IS_OUTSIDE): (WORD, _IS_WORD),
    (_IS_OUTSIDE, _IS_OUTSIDE): (WORD, _IS_WORD),
}
# Sets with bytes of both kinds, narrowed to those of one. Each is the same with case ignored.
_NARROWED = {
    (b".", _IS_WORD): WORD,
    (b".", _IS_OTHER): OTHER,
    (b"[^[:space:]]", _IS_WORD): WORD,
    (b"[^[:space:]]", _IS_OTHER): b"[^[:alnum:]_[:space:]]",
    (b"[^[:blank:]]", _IS_WORD): WORD,
    (b"[^[:blank:]]", _IS_OTHER): b"[^[:alnum:]_[:blank:]]",
    (b"[^0-9]", _IS_WORD): b"[[:alpha:]_]",
    (b"[^0-9]", _IS_OTHER): OTHER,
}
_INSTEAD = "write -w for whole words, or (^|[^[:alnum:]_]) before a word and ($|[^[:alnum:]_]) behind it"
_Trees = list[tuple[bytes, Alternatives]]


def settle(trees: _Trees, *, words: bool, lines: bool) -> bool:
    """Replaces each `\\b` in patterns and their trees. Whether a match has to be of whole words for it. `Untaken` if there is no form for one.

    words, lines: whether a match is of whole words, or a whole line, anyway.
    """
    if not any(_has_boundary(tree) for _, tree in trees):
        return False
    if words or lines:
        for pattern, tree in trees:
            _resolve(pattern, tree, {_IS_OTHER}, {_IS_OTHER})
        return False
    whole = copy.deepcopy(trees)
    try:
        if all(_as_words(pattern, alternative) for pattern, tree in whole for alternative in tree):
            trees[:] = whole
            return True
    except Untaken:
        pass
    for pattern, tree in trees:
        _resolve(pattern, tree, {_IS_OUTSIDE}, {_IS_OUTSIDE})
    return False


def _has_boundary(tree: Alternatives) -> bool:
    return any(part.kind == "boundary" or _has_boundary(part.alternatives or []) for alternative in tree for part in alternative)


def _as_words(pattern: bytes, alternative: list[Part]) -> bool:
    """Makes an alternative that begins with a `\\b` before a word one for matches of whole words: it goes on to the end of the word, if
    there is no `\\b` at its end. Whether it can be."""
    first = 1 if alternative and alternative[0].kind == "bar" else 0
    if len(alternative) <= first or alternative[first].kind != "boundary" or alternative[first].out == b"\\>":
        return False
    del alternative[first]
    if _side(alternative[first:], {_IS_EITHER}, is_left=False) != {_IS_WORD}:
        return False
    last, right = alternative[-1], _IS_EITHER
    if last.kind == "boundary":
        alternative.pop()
        right = _IS_OTHER
        if last.out == b"\\<" or _side(reversed(alternative), {_IS_EITHER}, is_left=True) != {_IS_WORD}:
            return False
    elif last.kind != "edge" and not (last.out in (b".", WORD) and last.repeats and last.repeats[-1][0] in b"*+"):
        alternative.append(Part("set", last.at, WORD, repeats=[(b"*", last.at)]))
    _resolve(pattern, [alternative], {_IS_OTHER}, {right})
    return True


def _resolve(pattern: bytes, tree: Alternatives, left: set[str], right: set[str]) -> None:
    """Replaces each `\\b` in alternatives with these kinds on their sides."""
    for alternative in tree:
        while (at := next((at for at, part in enumerate(alternative) if part.kind == "boundary"), None)) is not None:
            _replace(pattern, alternative, at, left, right)
        for at, part in enumerate(alternative):
            if part.alternatives and _has_boundary(part.alternatives):
                before, behind = _around(alternative, at, at, left, right)
                if any(repeat != b"?" for repeat, _ in part.repeats):
                    # one copy is beside another, where a byte that is taken is missing
                    before, behind = (
                        {_IS_EITHER if kind == _IS_OUTSIDE else kind for kind in kinds | _kinds(part, is_left)[0]}
                        for kinds, is_left in ((before, True), (behind, False))
                    )
                _resolve(pattern, part.alternatives, before, behind)


def _around(parts: list[Part], first: int, last: int, left: set[str], right: set[str]) -> tuple[set[str], set[str]]:
    """The kinds on both sides of some parts."""
    return _side(reversed(parts[:first]), left, is_left=True), _side(parts[last + 1 :], right, is_left=False)


def _side(parts: Iterable[Part], outer: set[str], *, is_left: bool) -> set[str]:
    """The kinds that may be on a side where these parts follow, the nearest first, and then what is outside of them."""
    found: set[str] = set()
    for part in parts:
        if part.kind == "bar":
            continue
        if part.kind == "boundary":
            outer = {_IS_EITHER}
            continue
        kinds, may_be_empty = _kinds(part, is_left)
        found |= kinds
        if not may_be_empty:
            return found
    return found | outer


def _kinds(part: Part, is_left: bool) -> tuple[set[str], bool]:
    """The kinds that the nearest byte of a part may have, and whether the part may be empty."""
    may_be_empty = any(repeat in b"*?" or repeat[1:].lstrip(b"0")[:1] in (b",", b"}") for repeat, _ in part.repeats if repeat != b"+")
    if part.kind == "edge":
        # a `$` on the left, or a `^` on the right, says something of the other side
        return {_IS_OTHER if (part.out == b"^") == is_left else _IS_EITHER}, False
    if part.kind == "made":
        return {part.ends[is_left]}, may_be_empty
    if part.alternatives is None:
        return {_kind_of(part.out)}, may_be_empty
    found: set[str] = set()
    for alternative in part.alternatives:
        found |= _side(reversed(alternative) if is_left else alternative, {_THROUGH}, is_left=is_left)
    return found - {_THROUGH}, may_be_empty or _THROUGH in found


@functools.lru_cache(256)
def _kind_of(out: bytes) -> str:
    """The kind of all bytes of a set. It is the same with case ignored, or one of both then."""
    try:
        tree = ere.read(out)
    except (LookupError, ValueError):
        return _IS_EITHER
    only = tree.parts[0] if isinstance(tree, ere.Sequence) and len(tree.parts) == 1 else None
    if not isinstance(only, ere.Bytes) or not only.values:
        return _IS_EITHER
    return _IS_WORD if only.values <= _WORD_BYTES else _IS_EITHER if only.values & _WORD_BYTES else _IS_OTHER


def _only(kinds: set[str]) -> str:
    return _IS_OUTSIDE if _IS_OUTSIDE in kinds else next(iter(kinds)) if len(kinds) == 1 else _IS_EITHER


def _replace(pattern: bytes, parts: list[Part], at: int, left: set[str], right: set[str]) -> None:
    """Replaces one `\\b`. Where all on a side may be empty, what is outside counts alone: a match with less is enough for a line."""
    boundary = parts[at]
    before, behind = map(_only, _around(parts, at, at, left, right))
    is_known = {b"\\<": behind in _OPPOSITE, b"\\>": before in _OPPOSITE}.get(boundary.out, True)
    if is_known and (before, behind) in _FORMS:
        out, ends = _FORMS[before, behind]
        if (boundary.out == b"\\<" and behind != _IS_WORD) or (boundary.out == b"\\>" and before != _IS_WORD):
            out, ends = _NEVER, _IS_EITHER
        parts[at : at + 1] = [Part("made", boundary.at, out, ends=(ends, ends))] if out else []
        return
    if boundary.out == b"\\b" and (_narrow_behind(parts, at, before, right) or _narrow_before(parts, at, behind, left)):
        return
    raise Untaken(f"no form for {boundary.out.decode()} here", boundary.at, pattern, _INSTEAD)


def _narrow_behind(parts: list[Part], at: int, before: str, right: set[str]) -> bool:
    """Narrows the set behind a `\\b`, also where another comes right behind it. Whether there is a form."""
    part = parts[at + 1] if at + 1 < len(parts) else None
    has_other = at + 2 < len(parts) and parts[at + 2].kind == "boundary" and parts[at + 2].out == b"\\b"
    last = at + 2 if has_other else at + 1
    behind = _only(_side(parts[last + 1 :], right, is_left=False))
    if part is None or before not in _OPPOSITE:
        return False
    made = _narrowed(part, before, behind, is_begin=True, is_end=has_other)
    if made:
        parts[at : last + 1] = [made]
    return made is not None


def _narrow_before(parts: list[Part], at: int, behind: str, left: set[str]) -> bool:
    """Narrows the set before a `\\b`. Whether there is a form."""
    if at == 0 or behind not in _OPPOSITE:
        return False
    before = _only(_side(reversed(parts[: at - 1]), left, is_left=True))
    made = _narrowed(parts[at - 1], before, behind, is_begin=False, is_end=True)
    if made:
        parts[at - 1 : at + 1] = [made]
    return made is not None


def _narrowed(part: Part, before: str, behind: str, *, is_begin: bool, is_end: bool) -> Optional[Part]:
    """A set between bytes of these kinds, with a `\\b` at its begin, at its end, or at both; None if there is no form for it."""
    repeat = part.repeats[0][0] if part.repeats else b""
    if part.kind != "set" or len(part.repeats) > 1 or repeat not in (b"", b"*", b"+", b"?"):
        return None
    may_be_empty = repeat in (b"*", b"?")
    if (may_be_empty and before not in _OPPOSITE) or ((may_be_empty or is_end) and behind not in _OPPOSITE):
        return None
    first, last = _OPPOSITE.get(before, ""), _OPPOSITE.get(behind, "")
    begin, end = (_within(part.out, kind) if is_wanted else b"" for kind, is_wanted in ((first, is_begin), (last, is_end)))
    if begin is None or end is None:
        return None
    is_both, star = is_begin and is_end, part.out + b"*"
    if repeat in (b"", b"?"):
        if is_both and first != last:
            return None
        out = begin or end
    elif part.out in (begin, end) and (begin == end or not is_both):
        out = part.out + b"+"
    elif is_both and first == last:
        out = begin + b"(" + star + end + b")?"
    else:
        out = begin + star + end
    if may_be_empty and before != behind:
        out = b"(" + out + b")?"
    return Part("made", part.at, out, ends=_ends(part, first, last, is_begin, is_end))


def _ends(part: Part, first: str, last: str, is_begin: bool, is_end: bool) -> tuple[str, str]:
    kind = _kind_of(part.out)
    return first if is_begin else kind, last if is_end else kind


def _within(out: bytes, kind: str) -> Optional[bytes]:
    """The bytes of a set that have this kind, where there is a set for them."""
    return out if _kind_of(out) == kind else _NARROWED.get((out, kind))
