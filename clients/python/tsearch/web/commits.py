"""Which commits of a repository may be shown: those of the revisions that are served now, and those that lead to one of them."""

from __future__ import annotations

import fnmatch
from collections.abc import Iterable

from ..aio import InThread
from ..git import Objects, Store, is_glob

_LENGTHS = (40, 64)


def is_wanted(name: str, wanted: Iterable[str]) -> bool:
    """Whether the name of a revision is one of these names, or of a pattern among them."""
    return any(name == one or is_glob(one) and fnmatch.fnmatchcase(name, one) for one in wanted)


class Commits:
    """The commits that may be shown.

    objects: what the session has of the repository, and what its names were at the last look.
    store: what says of objects whether one leads to another one; in_thread: what calls it in a thread.
    """

    def __init__(self, objects: Objects, store: Store, in_thread: InThread) -> None:
        self._objects = objects
        self._store = store
        self._in_thread = in_thread
        # the names of the revisions, or patterns of them; and whether what was served once still may be shown
        self._wanted: tuple[str, ...] = ()
        self._keeps = False
        self._kept: set[str] = set()
        # of what `named` was made last, and what it was
        self._named: tuple[dict[str, str], tuple[str, ...], dict[str, str]] = ({}, (), {})
        # the commits of the revisions, and commits of which it is known that they are among these, or lead to one
        self._reached: tuple[frozenset[str], set[str]] = (frozenset(), set())

    def take(self, wanted: tuple[str, ...], keeps: bool) -> None:
        """Takes what is to be served from now on."""
        self._wanted, self._keeps = wanted, keeps
        if not keeps:
            self._kept.clear()

    @property
    def named(self) -> dict[str, str]:
        """The commits of the revisions that are to be served, as they were at the last look at the names. A look that has begun before may
        see others, too."""
        named, wanted = self._objects.named, self._wanted
        if self._named[0] is not named or self._named[1] != wanted:
            self._named = (named, wanted, {name: commit for name, commit in named.items() if is_wanted(name, wanted)})
        return self._named[2]

    def note(self, commits: Iterable[str]) -> None:
        """Notes commits that are served."""
        if self._keeps:
            self._kept.update(commits)

    async def may_be_shown(self, commit: str) -> bool:
        """Whether a commit is served, or leads to one that is; or, if such are kept, was."""
        tips, known = await self._known()
        if commit in known or commit in self._kept:
            return True
        if len(commit) not in _LENGTHS or not commit.isalnum():
            return False
        is_before = await self._in_thread(self._store.are_before, [commit], tips)
        if is_before:
            known.add(commit)
            self.note([commit])
        return is_before

    async def _known(self) -> tuple[frozenset[str], set[str]]:
        tips = frozenset(self.named.values())
        before, known = self._reached
        if tips != before:
            # if those before lead to these, so does all that led to them
            has_moved = before <= tips or await self._in_thread(self._store.are_before, list(before - tips), tips)
            known = {*known, *tips} if has_moved else set(tips)
            self._reached = tips, known
        return tips, known
