"""One find of a page: its rows behind a place, as many as go in."""

from __future__ import annotations

from collections.abc import Callable, Iterator
from typing import Any, NamedTuple

from ...names import quote
from ..editor_requests import text_of
from .asked import Tree
from .pages import Page, Shown, name_in


class _Row(NamedTuple):
    """A line, a path or a count, by the name of its file. The line is 0 if it is none."""

    name: bytes
    line: int
    is_found: bool
    shown: dict[str, Any]


class Finding:
    """A find in one piece.

    behind: the place that the page begins behind, and then that which the next one does: the digits of a name, a line of that file, and how
    many rows were found up to there. more: whether something is left. last: what the server says at the end.
    """

    def __init__(self, tree: Tree, kind: str, page: Page, behind: list[Any], path_of: Callable[[bytes], Shown]) -> None:
        self._tree, self._kind, self._page, self._path_of = tree, kind, page, path_of
        self.behind = behind
        self.limit = behind[2] + page.rows
        self.last: dict[str, Any] = {}
        self.more = self.has_found = False
        self._files: list[dict[str, Any]] = []
        self._name: bytes | None = None

    def fill(self, rows: list[Any], query: dict[str, Any]) -> int:
        """Adds what goes into the page, and gives how many rows were found."""
        name, line, _ = self.behind
        begin = (quote(name_in(name)), line)
        count = seen = 0
        for part in self._tree.parts("find", **query):
            self.last = part
            for row in () if self.more else self._rows_of(part):
                if name and (quote(row.name), row.line) <= begin:
                    seen += row.is_found
                    continue
                is_taken = self._take(row, rows)
                if not is_taken and not self._page.is_empty:
                    self.more = True
                    break
                if is_taken and row.is_found:
                    count, seen = count + 1, seen + 1
                    self.behind = [row.name.hex(), row.line, seen]
        self.has_found = bool(count or seen)
        if self.last["more"] and not self.more:
            self.more = True
            self.behind = [*self.behind[:2], max(self.limit, seen)]
        self._say_version()
        return count

    def _rows_of(self, part: dict[str, Any]) -> Iterator[_Row]:
        """The rows of a message."""
        for name in part.get("names", []):
            yield _Row(text_of(name), 0, True, {})
        for one in part.get("counts", []):
            yield _Row(text_of(one["name"]), 0, True, {"count": one["count"]})
        for document in part.get("documents", []):
            for line in document["lines"]:
                if spans := line.pop("spans", None):
                    line["column"] = spans[0][0] + 1
                yield _Row(text_of(document["name"]), line["line"], not line.get("around"), line)

    def _take(self, row: _Row, rows: list[Any]) -> bool:
        """Adds a row, if there is room."""
        path = self._path_of(row.name)
        texts = [row.shown["text"]] if self._kind == "files" and row.name == self._name else [path, row.shown.get("text", "")]
        if not self._page.has_room(*texts, is_found=row.is_found):
            return False
        self._page.take(*texts, is_found=row.is_found)
        if self._kind == "paths":
            rows.append(path)
        elif self._kind == "counts":
            rows.append({"path": path, **row.shown})
        else:
            if row.name != self._name:
                self._files.append({"path": path, "version": "", "lines": []})
                rows.append(self._files[-1])
            self._files[-1]["lines"].append(row.shown)
        self._name = row.name
        return True

    def _say_version(self) -> None:
        if self._files:
            version = self._tree.version_of(self.last)
            for file in self._files:
                file["version"] = version
