"""What an editor is told beside finds: which files a tree has, and what a patch does."""

from __future__ import annotations

import asyncio
import json
import os
from typing import Any

from ..errors import Error
from ..git import Store
from ..names import quote
from . import editor_requests, places
from .editor_requests import shown_text
from .following import Gone
from .past import Past, ends
from .tree import Tree


class NoComparison(Error):
    """A patch cannot be searched: there is no such commit, or the pattern is none."""


async def listed(tree: Tree, given: dict[str, Any]) -> dict[str, Any]:
    """The files of a folder, in the order of a find: each with its length and, if its text is not searched, the reason. `Gone` if a
    rule names the folder."""
    folder = given.get("folder", b"").strip(b"/")
    if folder and not tree.has_folder(os.fsdecode(os.path.join(tree.root, folder))):
        raise Gone("a rule names this folder, so it is not in the tree")
    found, left_out = editor_requests.filter_of(given), dict(tree.left_out)
    names = {*tree.files.held, *left_out}
    after = quote(given.get("after", b""))

    def chosen() -> list[bytes]:
        return sorted((name for name in names if quote(name) > after and found.has(name, 0)), key=quote)

    those = await asyncio.to_thread(chosen)
    shown = those[: given.get("limit")]
    rows = [{"name": shown_text(name), "bytes": tree.size(name), **({"left_out": left_out[name]} if name in left_out else {})} for name in shown]
    return {"files": rows, "count": len(shown), "more": len(shown) < len(those), "left": len(those) - len(shown)}


async def compared(tree: Tree, past: Past, given: dict[str, Any]) -> dict[str, Any]:
    """The lines with a match that a patch removes, adds and leaves, and the two commits. `NoComparison` if there are none."""
    root = os.fsdecode(tree.root)
    before, after = await asyncio.to_thread(_ends, places.top_of(root) or root, given["range"].decode("utf-8", "surrogateescape"))
    limit = given.get("limit")
    words = {
        **editor_requests.words_of(given),
        "patterns": [os.fsdecode(given["pattern"])],
        "diff": f"{before}..{after}",
        "show": "json",
        "literal": given.get("literal", False),
        "words": given.get("whole_words", False),
        "case": "ignore" if given.get("ignore_case") else "as it is",
        **({} if limit is None else {"limit": limit + 1}),
    }
    folder = os.path.join(root, os.fsdecode(given.get("folder", b"").strip(b"/")))
    request = {
        "given": words, "root": root, "here": folder, "paths": [("", folder, True)],
        "is_single": False, "is_last": True, "carried": "", "terminal": False,
    }  # fmt: skip
    reply = _Gathered()
    status, _ = await past.answer(request, reply)
    if status == 2:
        raise NoComparison(reply.said)
    rows = await asyncio.to_thread(reply.rows)
    more = limit is not None and len(rows) > limit
    told = {"messages": reply.said.split("\n")} if reply.said else {}
    return {"rows": rows[:limit], "count": len(rows[:limit]), "more": more, "before": before, "after": after, **told}


def _ends(top: str, words: str) -> tuple[str, str]:
    try:
        return ends(Store(top), words)
    except Error as error:
        raise NoComparison(str(error)) from None


class _Gathered:
    """Gathers what is written for a call (`answering.Reply`)."""

    def __init__(self) -> None:
        self._output: list[bytes] = []
        self._errors: list[bytes] = []

    def output(self, data: bytes) -> None:
        """Takes rows."""
        self._output.append(data)

    def error(self, data: bytes) -> None:
        """Takes a message."""
        self._errors.append(data)

    @property
    def said(self) -> str:
        """The messages, without the name of the command."""
        lines = b"".join(self._errors).decode(errors="replace").rstrip("\n").split("\n")
        return "\n".join(line.removeprefix("tgrep: ") for line in lines)

    def rows(self) -> list[dict[str, Any]]:
        """The rows."""
        return [json.loads(line) for line in b"".join(self._output).splitlines()]
