"""Which files a folder has: those that the rules of .gitignore (in a repository), .ignore and .rgignore do not name, and those that
git tracks all the same; nothing that is named .git."""

from __future__ import annotations

import os
import stat
from collections.abc import Iterator
from typing import NamedTuple

from .ignored import GIT, RULE_FILES, Chain, rules_at
from .repository import Repository, Unknown, is_of_git, repository_above, repository_at, rules_of, rules_of_user, settings_of_user, tracked

_GIT_FOLDER = b".git"
# What watchman writes into a folder for a moment, to know that it has been told of all changes before.
_COOKIE = b".watchman-cookie-"
# What is below such folders watchman does not tell, by its default.
_UNWATCHED = {b".svn", b".hg"}
_NOT_THERE = (FileNotFoundError, NotADirectoryError)
OF_GIT = "a folder of git's own"
_NO_INDEX = "files that git tracks though rules name them are left out: the index is of a kind that is not known"


class Stamp(NamedTuple):
    """What tells that a file may have changed: its times in nanoseconds, its length in bytes and its number."""

    modified: int
    changed: int
    size: int
    number: int


class File(NamedTuple):
    """A regular file: where it is, and its stamp before anything of it is read."""

    path: bytes
    stamp: Stamp


class Listing(NamedTuple):
    """The files of a folder by their paths from its top, and what could not be listed, with the reason."""

    files: dict[bytes, File]
    faults: dict[bytes, str]


class Lister:
    """Lists the files below a folder.

    root: its absolute path.
    uses_rules: whether rules hold. Those of .gitignore hold where the folder is in a repository and is not ignored there itself.
    is_apart: whether the rules of the folders above it do not hold.
    follows: whether symbolic links are followed; otherwise they are left out.
    """

    def __init__(self, root: bytes, uses_rules: bool = True, follows: bool = False, is_apart: bool = False) -> None:
        self.root = root
        self._begin = root.rstrip(b"/") + b"/"
        self._uses_rules = uses_rules
        self._follows = follows
        self._is_apart = is_apart
        self._chains: dict[bytes, Chain] = {}
        self._repositories: dict[bytes, Repository] = {}
        self._tracked: dict[bytes, set[bytes]] = {}
        self._stamps: dict[bytes, Stamp | None] = {}
        # whether git's own folders are left out whatever they are called, with all that is in them
        self.hides_git = False
        # those of the files whose bytes have another name too, through which they may change
        self.linked: set[bytes] = set()
        # whether there are folders that watchman does not look into
        self.has_unwatched = False
        repository = repository_above(root) if uses_rules else None
        # the paths that rules are asked about begin at the top of the repository
        self._from_top = b"" if repository is None else _inside(os.path.relpath(root, repository.top))
        self._repository = None if repository is None or not is_apart and self._is_ignored(repository) else repository

    def _is_ignored(self, repository: Repository) -> bool:
        """Whether the folder is ignored in its repository."""
        chain, parts, at = self._at_top(repository), self._from_top.split(b"/")[:-1], b""
        for part in parts:
            chain = self._entered(chain, at, os.path.join(repository.top, at), None)
            at += part + b"/"
            if chain.ignores(at):
                return True
        return False

    def _at_top(self, repository: Repository) -> Chain:
        return Chain().in_repository([(b"", rules) for rules in rules_of(repository)])

    def _above(self) -> Chain:
        """The rules that hold in the folder, without those of the folder itself."""
        if self._repository is None:
            return Chain()
        chain, at = self._at_top(self._repository), b""
        for part in () if self._is_apart else self._from_top.split(b"/")[:-1]:
            chain = self._entered(chain, at, os.path.join(self._repository.top, at), None)
            at += part + b"/"
        return chain

    def _entered(self, chain: Chain, at: bytes, path: bytes, names: frozenset[bytes] | None) -> Chain:
        """The chain with the rules of a folder, whose files are named, if they are known."""
        for rank, file in enumerate(RULE_FILES):
            if (names is None or file in names) and (rank != GIT or chain.is_in_repository):
                rules = rules_at(os.path.join(path, file))
                chain = chain.with_rules(rank, at, rules) if rules else chain
        return chain

    def _chain_in(self, folder: bytes, chain: Chain, names: frozenset[bytes] | None) -> Chain:
        """The chain for what is in a folder, of the chain that holds for the folder itself."""
        if not self._uses_rules:
            return Chain()
        path, at = os.path.join(self.root, folder), self._from_top + _inside(folder)
        if folder and (names is None or _GIT_FOLDER in names) and (inner := repository_at(path)):
            self._repositories[folder] = inner
            chain = chain.in_repository([(at, rules) for rules in rules_of(inner)])
        chain = self._chains[folder] = self._entered(chain, at, path, names)
        return chain

    def list(self) -> Listing:
        """All files. What cannot be read, or whose rules cannot, is among the faults."""
        listing = Listing({}, {})
        self._chains.clear()
        self._repositories.clear()
        self.linked.clear()
        self.has_unwatched = False
        if self._repository:
            self._repositories[b""] = self._repository
            if repository_at(self._repository.top) is None:
                listing.faults[self.root] = "not a git repository any more"
        for path, is_folder in self._walk(listing):
            if not is_folder:
                self._add(listing, path)
        self._tracked = {folder: self._tracked_in(folder, listing) for folder in self._repositories}
        for names in self._tracked.values():
            for name in names - listing.files.keys():
                if (file := self.file_at(name)) is not None:
                    listing.files[name] = file
        self._stamps = {path: _stamp_of(path) for path in self._controls()}
        return listing

    def _walk(self, listing: Listing) -> Iterator[tuple[bytes, bool]]:
        """The paths below the folder that no rule names, and whether each is that of a folder."""
        folders: list[tuple[bytes, Chain, frozenset[tuple[int, int]]]] = [(b"", self._above(), frozenset())]
        while folders:
            folder, chain, above = folders.pop()
            try:
                with os.scandir(os.path.join(self.root, folder)) as scanned:
                    entries = list(scanned)
                above = self._with_number(folder, above)
            except OSError as error:
                if not folder or not isinstance(error, _NOT_THERE):
                    listing.faults[folder or self.root] = error.strerror or str(error)
                continue
            names = frozenset(entry.name for entry in entries)
            if self.hides_git and is_of_git(os.path.join(self.root, folder).rstrip(b"/"), names):
                listing.faults[folder or self.root] = OF_GIT
                continue
            chain = self._chain_in(folder, chain, names)
            for entry in entries:
                path = _inside(folder) + entry.name
                is_folder = self._is_wanted(entry, chain, path)
                if is_folder:
                    folders.append((path, chain, above))
                    self.has_unwatched |= entry.name in _UNWATCHED
                if is_folder is not None:
                    yield path, is_folder

    def _with_number(self, folder: bytes, above: frozenset[tuple[int, int]]) -> frozenset[tuple[int, int]]:
        """The numbers of the folders that lead to this one, with its own: who follows links could go round for ever."""
        if not self._follows:
            return above
        state = os.stat(os.path.join(self.root, folder))
        if (state.st_dev, state.st_ino) in above:
            raise FileNotFoundError
        return above | {(state.st_dev, state.st_ino)}

    def _is_wanted(self, entry: os.DirEntry[bytes], chain: Chain, path: bytes) -> bool | None:
        """Whether an entry is a folder; None if it is left out."""
        if entry.name == _GIT_FOLDER or entry.name.startswith(_COOKIE) or (entry.is_symlink() and not self._follows):
            return None
        is_folder = entry.is_dir()
        return None if chain.ignores(self._from_top + path + b"/" * is_folder) else is_folder

    def _add(self, listing: Listing, name: bytes) -> None:
        try:
            file = self._file(name)
        except OSError as error:
            listing.faults[name] = error.strerror or str(error)
        else:
            if file:
                listing.files[name] = file

    def _file(self, name: bytes) -> File | None:
        """A regular file, or None if it is none or gone."""
        path = self._begin + name
        try:
            state = os.stat(path) if self._follows else os.lstat(path)
        except _NOT_THERE:
            return None
        if not stat.S_ISREG(state.st_mode):
            return None
        if state.st_nlink > 1:
            self.linked.add(name)
        return File(os.path.realpath(path) if self._follows else path, _stamp(state))

    def _tracked_in(self, folder: bytes, listing: Listing | None) -> set[bytes]:
        """The files below the folder that one of its repositories tracks, by their paths from the folder's top."""
        repository = self._repositories[folder]
        try:
            names = tracked(repository)
        except Unknown:
            if listing:
                listing.faults[repository.index] = _NO_INDEX
            return set()
        if folder:
            return {_inside(folder) + name for name in names}
        return {name[len(self._from_top) :] for name in names if name.startswith(self._from_top)}

    def file_at(self, name: bytes) -> File | None:
        """The file of this name, if it is there and belongs to the list. It is asked for once all files are listed."""
        try:
            file = self._file(name)
        except OSError:
            return None
        parts = name.split(b"/")
        if file is None or _GIT_FOLDER in parts or self._has_link(parts) or self.is_hidden(name):
            return None
        is_tracked = any(name in names for names in self._tracked.values())
        return file if self._is_listed(parts, range(GIT if is_tracked else len(RULE_FILES))) else None

    def stamp_at(self, name: bytes) -> Stamp | None:
        """The stamp of a file now, whether it belongs to the list or not; None if it is not there."""
        return _stamp_of(self._begin + name)

    def has_folder(self, name: bytes) -> bool:
        """Whether a folder is one that is listed, as `file_at` says it of a file."""
        parts = [*name.split(b"/"), b""] if name else [b""]
        return _GIT_FOLDER not in parts and not self._has_link(parts) and self._is_listed(parts, range(len(RULE_FILES)))

    def _has_link(self, parts: list[bytes]) -> bool:
        """Whether a folder on the way is a symbolic link, which the list does not follow."""
        paths = (os.path.join(self.root, *parts[:count]) for count in range(1, len(parts)))
        return not self._follows and any(map(os.path.islink, paths))

    def is_hidden(self, name: bytes) -> bool:
        """Whether a folder on the way to a file is git's own, and such are left out."""
        parts = name.split(b"/")[:-1]
        paths = (os.path.join(self.root, *parts[:count]).rstrip(b"/") for count in range(len(parts) + 1))
        return self.hides_git and any(map(is_of_git, paths))

    def _is_listed(self, parts: list[bytes], ranks: range) -> bool:
        """Whether the rules of these ranks name neither a path nor a folder above it."""
        chain = self._chains.get(b"") or self._chain_in(b"", self._above(), None)
        for count in range(1, len(parts)):
            folder = b"/".join(parts[:count])
            if chain.ignores(self._from_top + folder + b"/", ranks):
                return False
            chain = self._chains.get(folder) or self._chain_in(folder, chain, None)
        return not parts[-1] or not chain.ignores(self._from_top + b"/".join(parts), ranks)

    def _controls(self) -> Iterator[bytes]:
        """The files outside the list that say what is in it."""
        for repository in self._repositories.values():
            yield rules_of_user(repository)
            yield from settings_of_user(repository)
            yield repository.exclude
            yield repository.index

    def has_news(self) -> bool:
        """Whether a file outside the list has changed that says what is in it."""
        return any(_stamp_of(path) != stamp for path, stamp in self._stamps.items())

    def news(self, names: set[bytes]) -> set[bytes] | None:
        """Of files that may have changed, all that have to be looked at, with those that git tracks since or does no longer. None if
        all files have to be."""
        if any(name.rpartition(b"/")[2] in (*RULE_FILES, _GIT_FOLDER) or not _UNWATCHED.isdisjoint(name.split(b"/")) for name in names):
            return None
        changed = {path for path, stamp in self._stamps.items() if _stamp_of(path) != stamp}
        found = set(names)
        for folder, repository in self._repositories.items():
            if repository.index in changed:
                self._stamps[repository.index] = _stamp_of(repository.index)
                before, self._tracked[folder] = self._tracked[folder], self._tracked_in(folder, None)
                found |= before ^ self._tracked[folder]
                changed.discard(repository.index)
        return None if changed else found


def _inside(folder: bytes) -> bytes:
    """What the paths of the files in a folder begin with."""
    return b"" if folder in (b"", b".") else folder + b"/"


def _stamp(state: os.stat_result) -> Stamp:
    return Stamp(state.st_mtime_ns, state.st_ctime_ns, state.st_size, state.st_ino)


def _stamp_of(path: bytes) -> Stamp | None:
    try:
        return _stamp(os.stat(path))
    except OSError:
        return None
