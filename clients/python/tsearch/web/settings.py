"""What the page is told: limits, what is served, and the file of it, which is read again while it serves."""

from __future__ import annotations

import dataclasses
import itertools
import os
import string
import tomllib
import urllib.parse
from collections.abc import Callable, Collection, Mapping, Sequence
from dataclasses import dataclass, field
from typing import Any

from aiohttp import web

from ..bounds import Bounds
from ..errors import Error
from ..git import NoRepository, Store
from ..names import to_bytes
from ..repository import git_folder
from .limits import HOST, bounds_of
from .repositories import HEAD, Filter, Served
from .reviews import Most
from .turns import Networks

LOOPBACK = frozenset({"localhost", "127.0.0.1", "[::1]"})
# What can be said of a repository, or of all of them.
_OF_EACH = {"keep_commits", "alternates"}
_TABLES = {"repository", "visitors", "limits"}
_KEYS = {"path", "name", "revisions", "link", "limits", *_OF_EACH}
_FIELDS = {"commit", "path", "line", "repository"}


@dataclass(frozen=True)
class Limits:
    """What no visitor can lift: how many lines an answer has, the milliseconds of a search, how many searches of all visitors are at
    work at a time, how many lines are shown before and after each line, and how many bytes what a repository answers has, and what all do that
    are asked by themselves: lines may be long. And what reviews have."""

    lines: int = 500
    search_ms: int = 3_000
    searches: int = 32
    context: int = 5
    answer: int = 64 << 20
    reviews: Most = Most()


@dataclass(frozen=True)
class Settings:
    """What is served, and how.

    served: the repositories. With `file` they are those that it names, also after it has changed.
    bounds: what is taken of each repository at most, unless `file` says otherwise.
    look: after how many seconds they are looked at without a hint.
    hosts: the names under which the page may be called, or None for any.
    networks: which addresses are one visitor, and what each has; with `file` as it says in its table `visitors`.
    proxies: the addresses of proxies, which say from where they were asked.
    filters: gives for each request the repositories that it may see, and of each of them which documents; None for all.
    readers: how many threads of the program answer, by default one for each processor, up to 16.
    cluster, shards: the address of a Dask scheduler on whose workers the documents are, and over how many.
    keep_commits, alternates: as for `Served`, for those repositories of the file that it does not say it of.
    log, slow_ms: the file of the requests, and after how many milliseconds a search is named there with its pattern.
    """

    served: tuple[Served, ...]
    limits: Limits = Limits()
    bounds: Bounds = HOST
    readers: int | None = None
    look: float = 5.0
    hosts: frozenset[str] | None = LOOPBACK
    proxies: frozenset[str] = field(default_factory=frozenset)
    filters: Callable[[web.Request], Mapping[str, Filter]] | None = None
    cluster: str | None = None
    shards: int = 1
    file: str | None = None
    keep_commits: bool = False
    alternates: bool = True
    log: str | None = None
    slow_ms: int = 1_000
    networks: Networks = Networks()


def read_told(path: str) -> dict[str, Any]:
    """What a file of settings has: TOML, with a table for each repository. `Error` says what is wrong with all of it."""
    try:
        with open(path, "rb") as file:
            told = tomllib.load(file)
    except OSError as error:
        raise Error(f"{path}: {error.strerror}") from None
    except (tomllib.TOMLDecodeError, UnicodeDecodeError) as error:
        raise Error(f"{path}: {error}") from None
    if told.keys() - _TABLES - _OF_EACH or not isinstance(told.get("repository", []), list):
        raise Error(f"{path}: there are tables [[repository]] alone, one [visitors] and one [limits], and before them keep_commits and alternates")
    _check_each(told, path)
    bounds_of(told.get("limits", {}), f"{path}, limits", HOST)
    return told


def _check_each(told: Mapping[str, Any], place: str) -> None:
    if not all(isinstance(told[key], bool) for key in _OF_EACH & told.keys()):
        raise Error(f"{place}: keep_commits and alternates are true or false")


def served_in(told: Mapping[str, Any], path: str, bounds: Bounds = HOST, *, keep_commits: bool = False, alternates: bool = True) -> tuple[Served, ...]:
    """What a file of settings says is served. An entry that cannot be has a `fault`, and the others stand.

    bounds, keep_commits, alternates: as for `Settings`.
    """
    of_all = {"keep_commits": keep_commits, "alternates": alternates, **{key: told[key] for key in _OF_EACH & told.keys()}}
    bounds = bounds_of(told.get("limits", {}), f"{path}, limits", bounds)
    found: dict[str, Served] = {}
    for number, row in enumerate(told.get("repository", []), 1):
        place = f"{path}, repository {number}"
        try:
            served = _served(row, place, os.path.dirname(os.path.abspath(path)), bounds, of_all)
            if served.name in found:
                raise Error(f"{place}: two repositories are called {served.name}")
        except Error as error:
            served = Served(_free(_name_in(row, number), found), _path_in(row, path), fault=str(error))
        found[served.name] = served
    return tuple(found.values())


def read_served(path: str, bounds: Bounds = HOST, *, keep_commits: bool = False, alternates: bool = True) -> tuple[Served, ...]:
    """What a file of settings says is served, as it is now. `Error` says what is wrong with all of it."""
    return served_in(read_told(path), path, bounds, keep_commits=keep_commits, alternates=alternates)


def _name_in(row: Any, number: int) -> str:
    """What an entry with a fault is called: by its own name, or the last part of its path, as far as it has them."""
    texts = [row.get(key) for key in ("name", "path")] if isinstance(row, dict) else []
    names = [os.path.basename(text.rstrip("/")).removesuffix(".git") for text in texts if isinstance(text, str)]
    return next((name for name in names if name and ":" not in name and name.isprintable()), f"repository {number}")


def _path_in(row: Any, file: str) -> bytes:
    """The folder that an entry with a fault names; empty if it names none."""
    path = row.get("path") if isinstance(row, dict) else None
    return os.fsencode(os.path.join(os.path.dirname(os.path.abspath(file)), path)) if isinstance(path, str) and "\0" not in path else b""


def _free(name: str, taken: Collection[str]) -> str:
    """The name, or with a number if another one has it."""
    return next(one for one in itertools.chain([name], (f"{name}-{number}" for number in itertools.count(2))) if one not in taken)


def _served(row: Any, place: str, base: str, bounds: Bounds, of_all: dict[str, Any]) -> Served:
    if not isinstance(row, dict) or row.keys() - _KEYS:
        raise Error(f"{place}: the keys are path, name, revisions, link, limits, keep_commits and alternates")
    path, revisions, link, name = row.get("path"), row.get("revisions", []), row.get("link", ""), row.get("name", "")
    if not isinstance(path, str) or not isinstance(name, str) or not isinstance(link, str):
        raise Error(f"{place}: path, name and link are texts, and a path is needed")
    if not isinstance(revisions, list) or not all(isinstance(one, str) and one for one in revisions):
        raise Error(f"{place}: revisions is a list of names")
    if ":" in name or "\n" in name:
        raise Error(f"{place}: a name has no colon")
    _check_each(row, place)
    of_each = {key: row.get(key, value) for key, value in of_all.items()}
    bounds = bounds_of(row.get("limits", {}), f"{place}, limits", bounds)
    found = dataclasses.replace(served_of([os.path.join(base, path)], revisions, link, bounds)[0], **of_each)
    return checked(found.called(name) if name else found, place)


def served_of(roots: Sequence[str], revisions: Sequence[str] = (), link: str = "", bounds: Bounds = HOST) -> list[Served]:
    """What is served of each folder: these revisions, or its files; HEAD of a repository that has no files. Each is called by the last part
    of its path, without `.git`; of two with the same name the second has a number."""
    found: dict[str, Served] = {}
    for root in roots:
        path = os.path.abspath(to_bytes(root))
        base = os.path.basename(path).decode(errors="replace").removesuffix(".git").replace(":", "-") or "-"
        name, number = base, 2
        while name in found:
            name, number = f"{base}-{number}", number + 1
        is_bare = git_folder(path) == path
        found[name] = Served(name, path, tuple(revisions) or ((HEAD,) if is_bare else ()), link, bounds=bounds)
    return list(found.values())


def checked(served: Served, place: str) -> Served:
    """The same. `Error` if it cannot be served."""
    if not os.path.isdir(served.path):
        raise Error(f"{place}: {os.fsdecode(served.path)} is not a folder")
    if served.revisions:
        try:
            Store(served.path)
        except NoRepository as error:
            raise Error(f"{place}: {error}") from None
    if served.link:
        _check_link(served.link, place)
    return served


def _check_link(link: str, place: str) -> None:
    try:
        fields = {name for _, name, _, _ in string.Formatter().parse(link) if name is not None}
    except ValueError as error:
        raise Error(f"{place}: link: {error}") from None
    if fields - _FIELDS or urllib.parse.urlsplit(link).scheme not in ("http", "https"):
        raise Error(f"{place}: a link is an address of http or https with {{commit}}, {{path}}, {{line}} and {{repository}} in it")
