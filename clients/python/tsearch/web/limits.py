"""What is taken of a repository at most, as options and the file of settings say it, and what is told of it."""

from __future__ import annotations

import collections
import dataclasses
from collections.abc import Mapping
from typing import Any, NamedTuple

from ..bounds import Bounds, is_over
from ..errors import Error
from ..program import MOST_BODY

# What a host can live with, whatever is pushed.
HOST = Bounds(body=2 << 20, line=1 << 16, bytes=256 << 20, files=500_000, branches=1_000, objects=500_000)
_MOST = 1 << 40
# What each bound can be at most, and what it is of.
FIELDS = {
    "body": (MOST_BODY, "bytes of a file"),
    "line": (MOST_BODY, "bytes of a line"),
    "bytes": (_MOST, "bytes of all files of a repository that differ"),
    "files": (_MOST, "files of all branches of a repository"),
    "branches": (_MOST, "branches and tags of a repository"),
    "objects": (_MOST, "files of a repository that differ"),
}
# So many files that are over a bound are named.
MOST_NAMED = 20


def bounds_of(told: Any, place: str, base: Bounds) -> Bounds:
    """The bounds that a table of the settings says, and otherwise those of `base`. `Error` says what is wrong with it."""
    if not isinstance(told, Mapping) or told.keys() - FIELDS.keys():
        raise Error(f"{place}: the keys are {', '.join(FIELDS)}")
    for key, number in told.items():
        most = FIELDS[key][0]
        if isinstance(number, bool) or not isinstance(number, int) or not 1 <= number <= most:
            raise Error(f"{place}: {key} is no number from 1 to {most}")
    return dataclasses.replace(base, **told)


class LeftOut(NamedTuple):
    """What is left out of a repository: how much for each reason, and what is over a bound, of which the first are named with theirs."""

    counts: dict[str, int] = {}
    over: int = 0
    names: tuple[tuple[bytes, str], ...] = ()


def left_out_of(left_out: Mapping[bytes, str]) -> LeftOut:
    """The same of all names that are left out, with their reasons."""
    counts = collections.Counter(left_out.values())
    over = sum(count for reason, count in counts.items() if is_over(reason))
    names = []
    for name, reason in left_out.items() if over else ():
        if is_over(reason):
            names.append((name, reason))
            if len(names) == MOST_NAMED:
                break
    return LeftOut(dict(counts), over, tuple(names))
