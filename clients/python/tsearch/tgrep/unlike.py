"""Which files of a working tree are not as in a commit (`--changed`).

Git compares them, without the programs that settings name: a file with an attribute `filter` is compared as it is, but that of Git LFS, of
which the commit has only the digest, by that digest. With `--run-filters` git runs the filters, as `git status` does.
"""

from __future__ import annotations

import contextlib
import hashlib
import os
import re
import subprocess
from collections.abc import Sequence
from typing import NamedTuple

from ..git import NoRepository, Store
from ..reading_git import Reader, not_run, with_filters
from ..repository import Repository, repository_at, rules_of_user

# In seconds.
_GIT_TIME = 120
# Submodules have no files here, and to compare them git would read their settings.
_COMPARE = (b"diff", b"--name-only", b"-z", b"--no-renames", b"--no-ext-diff", b"--no-textconv", b"--ignore-submodules=all")
_OTHERS = (b"ls-files", b"-z", b"--others", b"--exclude-standard")
_FILTERS = (b"check-attr", b"-z", b"--stdin", b"filter")
_NO_FILTER = (b"unspecified", b"unset", b"set")
_POINTER = re.compile(rb"version https://git-lfs\.github\.com/spec/v1\n(?:.*\n)*?oid sha256:([0-9a-f]{64})\nsize (\d+)\n")
# In bytes: no pointer of Git LFS is longer.
_LONGEST_POINTER = 1_024


class Unlike(NamedTuple):
    """The files that are not as in a commit, and those that git does not know and no rule names; and how many of them were compared without
    the filter that they have."""

    names: list[bytes]
    unfiltered: int


def unlike(store: Store, commit: str, runs_filters: bool) -> Unlike:
    """What is not as in a commit. `NoRepository` if git cannot tell."""
    tree = repository_at(store.path)
    if tree is None:
        raise NoRepository(f"{os.fsdecode(store.path)} has no working tree")
    compare = (*_COMPARE, commit.encode(), b"--")
    others = _names(_run(tree, [b"-c", b"core.excludesFile=" + rules_of_user(tree), *_OTHERS]))
    if runs_filters:
        return Unlike(sorted({*_names(_run(tree, compare, runs_filters=True)), *others}), 0)
    names = _names(_run(tree, compare))
    filtered = _filtered(tree, names)
    same, known = _same_by_digest(store, commit, filtered) if filtered else (set(), set())
    return Unlike(sorted({*names, *others} - same), len(filtered) - len(known))


def _run(tree: Repository, words: Sequence[bytes], stdin: bytes = b"", runs_filters: bool = False) -> bytes:
    top = os.fsdecode(tree.top)
    try:
        if runs_filters:
            done = with_filters(tree.top, words, seconds=_GIT_TIME)
        else:
            done = Reader(tree.folder, tree.common, tree.top, of_user=True).run(words, stdin, seconds=_GIT_TIME)
    except (OSError, subprocess.SubprocessError) as error:
        raise NoRepository(f"{top}: {not_run(error)}") from None
    if done.returncode:
        raise NoRepository(f"{top}: {done.stderr.decode(errors='replace').strip()}")
    return done.stdout


def _names(data: bytes) -> list[bytes]:
    return data.split(b"\0")[:-1]


def _filtered(tree: Repository, names: list[bytes]) -> list[bytes]:
    """The files that have a filter by their attributes, and are there."""
    if not names:
        return []
    rows = iter(_names(_run(tree, _FILTERS, b"".join(name + b"\0" for name in names))))
    found = [name for name, _, value in zip(rows, rows, rows) if value not in _NO_FILTER]
    return [name for name in found if os.path.isfile(os.path.join(tree.top, name))]


def _same_by_digest(store: Store, commit: str, names: list[bytes]) -> tuple[set[bytes], set[bytes]]:
    """Of files with a filter, those that have the digest that a pointer of Git LFS in the commit names, and all that have a pointer there."""
    entries = store.files(commit)
    objects = {name: entries[name].object for name in names if name in entries}
    bodies = dict(store.bodies(list(set(objects.values()))))
    same, known = set(), set()
    for name, number in objects.items():
        body = bodies[number]
        pointer = _POINTER.fullmatch(body) if isinstance(body, bytes) and len(body) <= _LONGEST_POINTER else None
        if pointer:
            known.add(name)
            if _has_digest(os.path.join(store.path, name), pointer[1].decode(), int(pointer[2])):
                same.add(name)
    return same, known


def _has_digest(path: bytes, digest: str, size: int) -> bool:
    with contextlib.suppress(OSError), open(path, "rb") as file:
        return os.fstat(file.fileno()).st_size == size and hashlib.file_digest(file, "sha256").hexdigest() == digest
    return False
