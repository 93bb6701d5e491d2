"""The answers of the tools: what is asked of the trees, page by page."""

from __future__ import annotations

import dataclasses
import os
import re
from collections.abc import Callable
from typing import Any, NamedTuple

from ...query import MAX_PATTERN, document_pattern
from ...warm import WarmRefused
from ..editor_requests import shown_text, text_of
from . import pages, texts, tools
from .asked import Asked, Tree
from .finding import Finding
from .pages import MOST_TEXT, Page, Shown
from .roots import Place, Refusal, Root, place_of, said_of

_COMMIT = re.compile(r"[0-9a-f]{40,64}")
_VERSION = re.compile(r"([0-9]{1,9})\.([1-9][0-9]{0,8})\.([0-9]{1,9})")
_MOST_MESSAGES = 20
_FLAGS = ("literal", "ignore_case", "whole_words")
# What messages call by the options of the command, and what the tools call it.
_WORDS = {"-F": "literal", "-w": "whole_words", "-i": "ignore_case", "-g": "globs", "--diff": "range"}
_WORD = re.compile(r"(?<!\S)(-F|-w|-i|-g|--diff)\b")


class Piece(NamedTuple):
    """A part of what is searched: a folder or a file of a tree."""

    tree: Tree
    place: Place
    name: bytes


class Answer:
    """One call of a tool. The arguments are those of its schema."""

    def __init__(self, tool: str, given: dict[str, Any], roots: tuple[Root, ...], asked: Asked) -> None:
        self._given, self._roots, self._asked = given, roots, asked
        self._digest = pages.digest_of(tool, given, roots)
        self._make: Callable[[], dict[str, Any]] = getattr(self, f"_{tool}")
        self._text: Callable[[dict[str, Any]], str] = getattr(texts, tool)

    def answer(self) -> tuple[dict[str, Any], str]:
        """The structured answer, and its text. `Refusal` if there is none, `GivenUp` if the call is cancelled."""
        if not self._roots:
            raise Refusal("the client names no folder of this machine as a root, so there is nothing to search")
        try:
            found = self._make()
        except WarmRefused as refused:
            self._asked.check()
            raise Refusal(_said(refused)) from None
        return found, self._text(found)

    # Where.

    def _places(self, key: str, may_be_gone: bool = False) -> list[Place]:
        """The places of the paths that are given, by default all roots."""
        given = self._given.get(key, [])
        paths = given if isinstance(given, list) else [given]
        if not paths:
            return [Place(root, root.real, True) for root in self._roots if os.path.isdir(root.real)]
        return [place_of(pages.read_text(path), self._roots, may_be_gone) for path in paths]

    def _piece(self, place: Place) -> Piece:
        tree = self._asked.tree_of(place.root)
        return Piece(tree, place, tree.folder_of(place) if place.is_folder else tree.name_of(place.real))

    def _shown(self, tree: Tree, root: Root, name: bytes) -> Shown:
        """The path of a file of a tree: from the root, or, where there are several, from the top of the machine."""
        inside = os.path.relpath(os.path.join(os.fsencode(tree.top), name), os.fsencode(root.real))
        return shown_text(inside if len(self._roots) == 1 else os.path.join(os.fsencode(root.path), inside))

    def _asked_of(self, piece: Piece) -> dict[str, Any]:
        """What a request says of where, and of what."""
        given = {key: self._given[key] for key in ("globs", "types", "pattern") if key in self._given}
        flags = {key: True for key in _FLAGS if self._given.get(key)}
        folder = piece.name if piece.place.is_folder else piece.tree.name_of(piece.place.root.real)
        return {**given, **flags, **({"folder": shown_text(folder)} if folder else {})}

    # search

    def _search(self) -> dict[str, Any]:
        given = self._given
        if given.get("counts") and given.get("files_only"):
            raise Refusal("counts and files_only exclude each other: leave out one of them")
        kind = "counts" if given.get("counts") else "paths" if given.get("files_only") else "files"
        at, *behind = pages.place_of(given.get("cursor"), self._digest, (int, str, int, int)) or [0, "", 0, 0]
        page, places = Page(given.get("limit", tools.LINES)), self._places("paths")
        rows: list[Any] = []
        found: dict[str, Any] = {"found": 0, "more": False, kind: rows}
        left_out = {}
        for number in range(at, len(places)):
            piece = self._piece(places[number])
            finding = Finding(piece.tree, kind, page, behind, lambda name, piece=piece: self._shown(piece.tree, piece.place.root, name))
            found["found"] += finding.fill(rows, self._query_of(piece, kind, finding.limit))
            left_out[piece.tree.top] = finding.last.get("left_out", 0)
            if not finding.has_found and not piece.place.is_folder:
                self._need_file(piece, finding.last)
            behind = finding.behind if finding.more else ["", 0, 0]
            if finding.more or (page.rows <= 0 and number + 1 < len(places)):
                place = [number + (not finding.more), *behind]
                found.update(more=True, next_cursor=pages.cursor_of(self._digest, place))
                break
        return {**found, **({"not_searched": sum(left_out.values())} if any(left_out.values()) else {})}

    def _query_of(self, piece: Piece, kind: str, limit: int) -> dict[str, Any]:
        """What is asked of a tree."""
        asked = {**self._asked_of(piece), "limit": limit}
        if not piece.place.is_folder:
            pattern = document_pattern(piece.name)
            if len(pattern) > MAX_PATTERN:
                raise Refusal("this path is too long to search in it alone: search its folder")
            asked["names"] = [shown_text(pattern)]
        if kind != "files":
            return {**asked, "show": "counts" if kind == "counts" else "names"}
        # the columns of lines that have others around them are told by their spans alone
        around = {"context": self._given["context"], "spans": True} if self._given.get("context") else {"column": True}
        return {**asked, **around, "units": "characters", "cut": MOST_TEXT}

    def _need_file(self, piece: Piece, last: dict[str, Any]) -> None:
        """`Refusal` if a file is not searched, in which nothing was found."""
        try:
            piece.tree.ask("open", name=shown_text(piece.name), life=last["life"], version=last["version"], first=1, last=1)
        except WarmRefused as refused:
            if piece.tree.is_gone(refused):
                raise Refusal(_not_searched(piece.place)) from None
            raise

    # read_lines

    def _read_lines(self) -> dict[str, Any]:
        place = self._places("path")[0]
        if place.is_folder:
            raise Refusal("this is a folder: list_files shows what is in it")
        first = self._given.get("from", 1)
        last = min(self._given.get("to", first + tools.READ - 1), first + tools.MOST_LINES - 1)
        if last < first:
            raise Refusal("to is before from")
        tree, version = self._asked.tree_of(place.root), self._given.get("version")
        name = tree.name_of(place.real)
        try:
            life, number, token = self._state(tree, version)
            opened = tree.ask("open", name=shown_text(name), life=life, version=number, first=first, last=last)
        except WarmRefused as refused:
            if not tree.is_gone(refused):
                raise
            raise Refusal(f"{refused}: leave out version to read it as it is now" if version else _not_searched(place)) from None
        rows = _rows_of(opened["lines"], first)
        behind = first + len(rows)
        is_more = behind <= opened["of"]
        path = self._shown(tree, place.root, name)
        return {"path": path, "version": token, "lines": rows, "of": opened["of"], "more": is_more, **({"next_from": behind} if is_more else {})}

    def _state(self, tree: Tree, version: str | None) -> tuple[int, int, str]:
        """The state of a tree that is asked for, by default that of now, and what tells of it."""
        if version is None:
            last = tree.ask("find", pattern="$a", show="nothing", limit=1)
            return last["life"], last["version"], tree.version_of(last)
        found = _VERSION.fullmatch(version)
        if found is None:
            raise Refusal("version is that of an answer of search: write it as it was, or leave it out")
        status = tree.ask("status")
        if int(found[1]) != status["process"] or int(found[3]) > status["version"]:
            raise Refusal("the file is not known as it was then: leave out version to read it as it is now")
        return int(found[2]), int(found[3]), version

    # list_files

    def _list_files(self) -> dict[str, Any]:
        at, after = pages.place_of(self._given.get("cursor"), self._digest, (int, str)) or [0, ""]
        page, places = Page(self._given.get("limit", tools.FILES)), self._places("under")
        found: dict[str, Any] = {"files": [], "more": False}
        for number in range(at, len(places)):
            piece = self._piece(places[number])
            if not piece.place.is_folder:
                raise Refusal("under is a folder, and this is a file: read_lines shows it")
            last, left = self._list_piece(piece, page, pages.name_in(after), found["files"])
            if left or (page.rows <= 0 and number + 1 < len(places)):
                place = [number, last.hex()] if left else [number + 1, ""]
                found.update(more=True, next_cursor=pages.cursor_of(self._digest, place), left=left)
                break
            after = ""
        return found

    def _list_piece(self, piece: Piece, page: Page, after: bytes, rows: list[dict[str, Any]]) -> tuple[bytes, int]:
        """Lists the files behind one. The last that is listed, and how many are left."""
        behind = {"after": shown_text(after)} if after else {}
        listed = piece.tree.ask("list", **self._asked_of(piece), **behind, limit=max(page.rows, 1))
        count = 0
        for row in listed["files"]:
            name = text_of(row.pop("name"))
            shown = {"path": self._shown(piece.tree, piece.place.root, name), **row}
            if not page.has_room(shown["path"]):
                break
            page.take(shown["path"])
            rows.append(shown)
            count, after = count + 1, name
        return after, listed["left"] + len(listed["files"]) - count

    # compare

    def _compare(self) -> dict[str, Any]:
        if "under" not in self._given and len(self._roots) > 1:
            raise Refusal(f"there are several roots: say with under which is compared: {said_of(self._roots)}")
        cursor = pages.place_of(self._given.get("cursor"), self._digest, (str, str, int))
        before, after, seen = cursor or ("", "", 0)
        if cursor and not (_COMMIT.fullmatch(before) and _COMMIT.fullmatch(after)):
            raise Refusal("this cursor is none of this question")
        # what is compared need not be there now, and a rule that names it now may not have then
        place = self._places("under", may_be_gone=True)[0]
        tree, page = self._asked.tree_of(place.root), Page(self._given.get("limit", tools.LINES))
        piece = Piece(tree, dataclasses.replace(place, is_folder=True), tree.name_of(place.real))
        range_of = f"{before}..{after}" if cursor else self._given["range"]
        told = tree.ask("compare", **self._asked_of(piece), range=range_of, limit=seen + page.rows)
        rows, taken, outside = [], 0, 0
        for row in told["rows"][seen:]:
            shown = self._compared(piece, row)
            if shown and not page.has_room(shown["text"]):
                break
            taken += 1
            outside += shown is None
            if shown:
                page.take(shown["text"])
                rows.append(shown)
        found = {"lines": rows, "before": told["before"], "after": told["after"], "more": told["more"] or seen + taken < len(told["rows"])}
        if found["more"]:
            found["next_cursor"] = pages.cursor_of(self._digest, [told["before"], told["after"], seen + taken])
        # messages name files, which may be outside a root that is not all of the tree
        is_all = not tree.name_of(place.root.real)
        messages = {"messages": told["messages"][:_MOST_MESSAGES]} if is_all and "messages" in told else {}
        return {**found, **messages, **({"outside": outside} if outside else {})}

    def _compared(self, piece: Piece, row: dict[str, Any]) -> dict[str, Any] | None:
        """A line of a patch as it is shown; None if it is one of a file outside the root, on either side."""
        shown: dict[str, Any] = {"sign": row["sign"]}
        folder = piece.tree.name_of(piece.place.root.real)
        for side, key in ("before", "old"), ("after", "new"):
            if side in row:
                name = text_of(row[side]["path"])
                if folder and not name.startswith(folder + b"/"):
                    return None
                shown.update({f"{key}_path": self._shown(piece.tree, piece.place.root, name), f"{key}_line": row[side]["line"]})
        return {**shown, **pages.cut(text_of(row["text"]), row["spans"][0][0] if row["spans"] else 0)}


def _rows_of(lines: list[Shown], first: int) -> list[dict[str, Any]]:
    """Lines as they are shown, as many as go into a page."""
    page, rows = Page(tools.MOST_LINES), []
    for at, text in enumerate(lines, first):
        row = {"line": at, **pages.cut(text_of(text))}
        if not page.has_room(row["text"]):
            break
        page.take(row["text"])
        rows.append(row)
    return rows


def _not_searched(place: Place) -> str:
    return (
        f"{ascii(place.real)[1:-1]} is not searched: it is binary, too long, a link, or named by a rule of .gitignore, .ignore or .rgignore; "
        "list_files shows what is searched"
    )


def _said(refused: WarmRefused) -> str:
    """What is told of a refusal: for a pattern how it is written."""
    told = refused.told
    message = _WORD.sub(lambda found: _WORDS[found[1]], told["message"])
    if refused.kind != "pattern":
        return message
    where = "the pattern" if told.get("in") == "pattern" else "a pattern that globs or types make"
    hint = f": {_WORD.sub(lambda found: _WORDS[found[1]], told['hint'])}" if told.get("hint") else ""
    return f"{where} is refused, {message} at byte {told['offset']}{hint}. {tools.PATTERNS}"
