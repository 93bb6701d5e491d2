"""The folders that may be searched, and the paths below them."""

from __future__ import annotations

import dataclasses
import os
from typing import Any
from urllib.parse import unquote_to_bytes, urlsplit

from .. import places

MOST_ROOTS = 64


class Refusal(Exception):
    """A call cannot be answered: the text tells the model why, and what to do instead."""


@dataclasses.dataclass(frozen=True)
class Root:
    """A folder that may be searched: its path as it was named, and as it is without symbolic links."""

    path: str
    real: str


@dataclasses.dataclass(frozen=True)
class Place:
    """A path below a root, without symbolic links: a folder, or a file."""

    root: Root
    real: str
    is_folder: bool


def root_of(path: str) -> Root:
    """The root that a folder is."""
    return Root(path, os.path.realpath(path))


def roots_of(result: Any) -> tuple[Root, ...]:
    """The folders of a client's answer to `roots/list`. What is no folder of this machine is left out."""
    listed = result.get("roots") if isinstance(result, dict) else None
    uris = [one.get("uri") for one in listed if isinstance(one, dict)] if isinstance(listed, list) else []
    paths = [path for path in map(_path_of, uris) if path]
    return tuple({root.real: root for root in map(root_of, paths[:MOST_ROOTS])}.values())


def _path_of(uri: Any) -> str:
    """The path of a folder that a URI names; empty if it names none."""
    try:
        parts = urlsplit(uri) if isinstance(uri, str) else None
    except ValueError:
        return ""
    if parts is None or parts.scheme != "file" or parts.netloc not in ("", "localhost"):
        return ""
    path = os.fsdecode(unquote_to_bytes(parts.path.encode("utf-8", "surrogateescape")))
    return path if path.startswith("/") and "\0" not in path and os.path.isdir(path) else ""


def place_of(path: bytes, roots: tuple[Root, ...], may_be_gone: bool = False) -> Place:
    """The place of a path: an absolute one, or one from a root. `Refusal` if it is below no root, also by a symbolic link, or not there."""
    if b"\0" in path:
        raise Refusal("a path has no byte 0")
    is_outside = True
    for root in roots:
        real = os.path.realpath(os.path.join(root.path, os.fsdecode(path)))
        within = next((one for one in (root, *roots) if places.is_below(real, one.real)), None)
        if within is not None:
            is_outside = False
            if may_be_gone or os.path.exists(real):
                return Place(within, real, os.path.isdir(real))
    shown = ascii(os.fsdecode(path))[1:-1]
    if is_outside:
        raise Refusal(f"{shown} is outside the folders that may be searched: {said_of(roots)}")
    raise Refusal(f"there is no {shown} in {said_of(roots)}; list_files shows what there is")


def said_of(roots: tuple[Root, ...]) -> str:
    """The roots in words."""
    return ", ".join(ascii(root.path)[1:-1] for root in roots)
