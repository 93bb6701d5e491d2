"""What is known of a git repository without git: where it is, the rules of its own and of the user, and which files it tracks."""

from __future__ import annotations

import os
import re
import struct
import subprocess
from collections.abc import Collection
from typing import NamedTuple

from .ignored import Rules
from .reading_git import Reader, text_of_file

_GIT_FOLDER = b".git"
_GIT_PARTS = {b"HEAD", b"config", b"objects", b"refs", b"packed-refs"}
# In seconds.
_GIT_TIME = 60
_SECTION = re.compile(rb"\s*\[\s*([A-Za-z0-9.-]+)(?:\s+\"(.*)\")?\s*\]")
_SETTING = re.compile(rb"\s*([A-Za-z0-9-]+)\s*=(.*)", re.DOTALL)


class Unknown(Exception):
    """The index of a repository is of a kind that cannot be read."""


class Repository(NamedTuple):
    """The folder at its top, its own folder, and the folder that it shares with its other working trees."""

    top: bytes
    folder: bytes
    common: bytes

    @property
    def index(self) -> bytes:
        """The path of the index."""
        return os.path.join(self.folder, b"index")

    @property
    def exclude(self) -> bytes:
        """The path of the rules of the repository alone."""
        return os.path.join(self.common, b"info", b"exclude")


def repository_at(top: bytes) -> Repository | None:
    """The repository with its top in this folder, if there is one."""
    folder = os.path.join(top, _GIT_FOLDER)
    if os.path.isfile(folder):
        head = text_of_file(folder)
        if not head.startswith(b"gitdir:"):
            return None
        folder = os.path.join(top, head[7:].strip())
    if not os.path.isfile(os.path.join(folder, b"HEAD")):
        return None
    return Repository(top, folder, common_of(folder))


def common_of(folder: bytes) -> bytes:
    """The folder that a repository shares with its other working trees, of its own folder: that folder itself, if it has no others."""
    common = text_of_file(os.path.join(folder, b"commondir")).strip()
    return os.path.normpath(os.path.join(folder, common)) if common else folder


def git_folder(path: bytes) -> bytes | None:
    """The own folder of the repository that has its top here, or that is here without a working tree; None if there is none."""
    found = repository_at(path)
    if found:
        return found.folder
    has_all = os.path.isfile(os.path.join(path, b"HEAD")) and all(os.path.isdir(os.path.join(path, part)) for part in (b"objects", b"refs"))
    return path if has_all else None


def is_of_git(path: bytes, names: Collection[bytes] | None = None) -> bool:
    """Whether a folder is git's own, or seems to become or to have been one: by its name, by its objects and names, or by a HEAD beside what else
    git has there. `names` is what is in it, if that is known."""
    parts = {part for part in _GIT_PARTS if os.path.lexists(os.path.join(path, part))} if names is None else _GIT_PARTS.intersection(names)
    return path.endswith(_GIT_FOLDER) or parts >= {b"objects", b"refs"} or (b"HEAD" in parts and len(parts) > 1)


def repository_above(folder: bytes) -> Repository | None:
    """The repository that a folder is in."""
    while True:
        found = repository_at(folder)
        above = os.path.dirname(folder)
        if found or above == folder:
            return found
        folder = above


def rules_of_user(repository: Repository | None) -> bytes:
    """The path of the rules that the user has for all repositories, whether it is there or not."""
    path = os.path.join(_config(), b"git", b"ignore")
    for file in settings_of_user(repository):
        path = _setting(file, b"core", b"excludesfile") or path
    return os.path.join(_home(), path[2:]) if path.startswith(b"~/") else path


def settings_of_user(repository: Repository | None) -> list[bytes]:
    """The paths of the settings of git that say where those rules are, whether they are there or not. The last one that says it counts."""
    files = [b"/etc/gitconfig", os.path.join(_config(), b"git", b"config"), os.path.join(_home(), b".gitconfig")]
    return [*files, os.path.join(repository.common, b"config")] if repository else files


def _home() -> bytes:
    return os.fsencode(os.environ.get("HOME") or "/")


def _config() -> bytes:
    return os.fsencode(os.environ.get("XDG_CONFIG_HOME") or "") or os.path.join(_home(), b".config")


def rules_of(repository: Repository) -> list[Rules]:
    """The rules of a repository and of the user."""
    return [Rules(text_of_file(path)) for path in (repository.exclude, rules_of_user(repository))]


def tracked(repository: Repository) -> set[bytes]:
    """The files that a repository tracks, by their paths from its top. Those that git lists, if the index is of a kind that is not read
    here. `Unknown` if there is no git either."""
    data = text_of_file(repository.index)
    if not data:
        return set()
    is_long = _setting(os.path.join(repository.common, b"config"), b"extensions", b"objectformat") == b"sha256"
    try:
        return _entries(data, 32 if is_long else 20)
    except (Unknown, struct.error, IndexError):
        return _tracked_by_git(repository)


def _entries(data: bytes, digest: int) -> set[bytes]:
    """The names in an index of the versions 2 to 4 (gitformat-index)."""
    magic, version, count = struct.unpack_from(">4sII", data)
    if magic != b"DIRC" or version not in (2, 3, 4):
        raise Unknown
    at, names, name = 12, set(), b""
    for _ in range(count):
        begin = at
        mode = int.from_bytes(data[at + 24 : at + 28], "big")
        flags = int.from_bytes(data[at + 40 + digest : at + 42 + digest], "big")
        at += 42 + digest + (2 if flags & 0x4000 else 0)
        if version == 4:
            dropped, at = _number(data, at)
            kept = name[: len(name) - dropped]
        else:
            kept = b""
        end = data.index(b"\0", at)
        name = kept + data[at:end]
        at = end + 1 if version == 4 else begin + (end - begin + 8) // 8 * 8
        if mode >> 12 == 4:
            raise Unknown  # a folder of a sparse index
        names.add(name)
    if data.startswith(b"link", at):
        raise Unknown  # the rest is in another file
    return names


def _number(data: bytes, at: int) -> tuple[int, int]:
    """A number of an index of version 4, and where it ends."""
    number = data[at] & 127
    while data[at] & 128:
        at += 1
        number = ((number + 1) << 7) | (data[at] & 127)
    return number, at + 1


def _tracked_by_git(repository: Repository) -> set[bytes]:
    try:
        done = Reader(repository.folder, repository.common, repository.top).run([b"ls-files", b"-z", b"--cached"], seconds=_GIT_TIME)
        done.check_returncode()
    except (OSError, subprocess.SubprocessError) as error:
        raise Unknown from error
    return set(done.stdout.split(b"\0")[:-1])


def _setting(file: bytes, section: bytes, name: bytes) -> bytes:
    """The value of a setting in a file of settings of git; empty if it is not there."""
    value, here = b"", b""
    for line in text_of_file(file).split(b"\n"):
        if found := _SECTION.match(line):
            here = b"" if found[2] else found[1].lower()
            line = line[found.end() :]
        if (found := _SETTING.match(line)) and here == section and found[1].lower() == name:
            value = found[2].strip().strip(b'"')
    return value
