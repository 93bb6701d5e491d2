"""What a patch does to the lines with a match of a pattern: those that it adds, those that it removes, and those that it leaves.

    with tsearch.Session() as session, tsearch.review.Review(session, "redis.git", "7.0", "unstable") as review:
        for file in review.find("malloc").files:
            for line in file.lines:
                print(file.name, line.sign, line.before, line.after, line.text)
"""

from __future__ import annotations

import bisect
import contextlib
import dataclasses
import itertools
import os
import re
import threading
from collections.abc import Callable, Iterable, Iterator
from types import TracebackType
from typing import NamedTuple, Unpack

from .answers import Answer, Hit
from .bounds import Bounds
from .comparing import Budget, blocks
from .core import after_line
from .errors import Cancelled, ChangeRefused, Ended, SearchRefused
from .folder import called, text_body
from .git import FILE_KINDS, Entry, NoRepository, Store, reason_of, rows_of
from .names import quote, to_bytes
from .paths import check, under
from .query import Options, Query
from .session import Changes, Session
from .tgrep import ere

ADDED, REMOVED, LEFT = "+", "-", " "
_BEFORE, _AFTER = b"-:", b"+:"
_INDEX = re.compile(rb"index ([0-9a-f]+)\.\.([0-9a-f]+)")
_HUNK = re.compile(rb"@@ -(\d+)(?:,(\d+))? \+(\d+)(?:,(\d+))? @@")
_FILE = b"diff --git "
# Texts that git does not compare are compared here, up to so many lines and in so many steps for all of a patch. A longer one, and one that
# takes more, is replaced as a whole, but for the first and the last lines that both have.
_MOST_COMPARED, _MOST_STEPS = 100_000, 1_000_000
# In so many places a file differs, and all files of a patch together; one that differs in more is replaced from the first to the last.
_MOST_HUNKS, _MOST_HUNKS_OF_ALL = 50_000, 200_000
_numbers = itertools.count(1)


class Hunk(NamedTuple):
    """Lines that a patch puts in the place of others: the first one on each side, and how many there are. Numbers count from 1."""

    before: int
    removed: int
    after: int
    added: int


class Changed(NamedTuple):
    """A file that two commits do not have alike: its path and what it is on each side, None on the side that has it not."""

    before: bytes | None
    after: bytes | None
    was: Entry | None
    now: Entry | None


class Line(NamedTuple):
    """A line with a match: `+`, `-` or a space for one that is added, removed or left; its number on each side, None where it is not; and
    its text with the places of the matches, as those of a `Hit`."""

    sign: str
    before: int | None
    after: int | None
    text: bytes
    spans: tuple[tuple[int, int], ...] | None

    def parts(self) -> list[bytes]:
        """The text in an odd number of parts, of which every second one is a match."""
        return Hit(b"", 0, self.text, None, self.spans).parts()


class File(NamedTuple):
    """A file with such lines: its path before and after, None where it is not, and the lines in the order of the patch. One that is coarse has
    lines that are both removed and added: to compare it as exactly as others would take too long."""

    before: bytes | None
    after: bytes | None
    lines: list[Line]
    is_coarse: bool = False

    @property
    def name(self) -> bytes:
        """The path after the patch, or of a file that goes the one before."""
        return (self.before or b"") if self.after is None else self.after


class Found(NamedTuple):
    """What a search in a review finds: the version that all of it is of, the files in the order of their paths, and whether a limit left
    out some lines."""

    version: int
    files: list[File]
    more: bool

    def count(self, sign: str) -> int:
        """How many lines there are of a sign."""
        return sum(line.sign == sign for file in self.files for line in file.lines)


class Patch:
    """The files in which two commits differ. It sends nothing.

    whole: whether it has the files too that both have alike.
    bounds: what it has at most. Files that are too long, or have too long lines, are left out; `SearchRefused` if there are too many, or they
        have too many bytes together.
    """

    def __init__(self, store: Store, before: str, after: str, whole: bool = False, bounds: Bounds = Bounds()) -> None:
        self.store = store
        self.bounds = bounds
        # what takes long ends soon after this is false
        self.is_wanted = True
        self._budget = Budget(_MOST_STEPS, lambda: self.is_wanted)
        # the pairs of objects that are compared coarsely
        self._coarse: set[tuple[bytes, bytes]] = set()
        commits = store.commits([before, after])
        for name in before, after:
            if name not in commits:
                raise NoRepository(f"{name} is not a commit of {os.fsdecode(store.path)}", f"{name} is not a commit of it")
        self.before, self.after = commits[before], commits[after]
        self.changed = list(_changed(store, self.before, self.after, bounds.files))
        if bounds.files is not None and len(self.changed) > bounds.files:
            raise SearchRefused(f"the patch has over {bounds.files:,} files")
        self._whole = whole
        self._hunks: dict[tuple[bytes, bytes], list[Hunk]] | None = None
        # threads search at a time
        self._comparing = threading.Lock()
        # of both sides, by the name of the document
        self.left_out: dict[bytes, str] = {}
        # of files whose text git does not compare
        self._texts: dict[bytes, bytes] = {}

    def documents(self) -> Iterator[tuple[bytes, bytes]]:
        """The names and the bodies of what is searched: `-:` and the path for a file as it was, and `+:` and the path as it is."""
        wanted = [(_BEFORE + one.before, one.was) for one in self.changed if one.before is not None]
        wanted += [(_AFTER + one.after, one.now) for one in self.changed if one.after is not None]
        if self._whole:
            known = {one.after for one in self.changed}
            wanted += [(_AFTER + path, entry) for path, entry in self.store.files(self.after).items() if path not in known]
        by_object: dict[bytes, list[bytes]] = {}
        for name, entry in wanted:
            if entry is None or entry.kind not in FILE_KINDS:
                self.left_out[name] = reason_of(entry)
            else:
                by_object.setdefault(entry.object, []).append(name)
        for number, found in self.store.bodies(list(by_object), self._over()):
            body = text_body(found) if isinstance(found, bytes) else found
            if isinstance(body, bytes):
                body = self.bounds.over_size(len(body)) or self.bounds.over_line(body) or body
            for name in by_object[number]:
                if isinstance(body, str):
                    self.left_out[name] = body
                else:
                    yield name, body
            if isinstance(found, bytes) and isinstance(body, bytes) and b"\0" in found:
                self._texts[number] = body

    def _over(self) -> Callable[[bytes, int], str]:
        """What says of objects with their bytes, one after the other, why they are left out."""
        size = 0

        def over(number: bytes, more: int) -> str:
            nonlocal size
            if not self.is_wanted:
                raise Cancelled("cancelled")
            reason = self.bounds.over_size(more)
            size += 0 if reason else more
            if self.bounds.bytes is not None and size > self.bounds.bytes:
                raise SearchRefused(f"the files of the patch have over {self.bounds.bytes:,} bytes")
            return reason

        return over

    def hunks(self, was: Entry, now: Entry) -> list[Hunk]:
        """Where two files differ."""
        if was.object == now.object:
            return []
        self.compare()
        with self._comparing:
            assert self._hunks is not None
            pair = (was.object, now.object)
            if pair not in self._hunks:
                self._hunks[pair], is_exact = _compared(self._text(was.object), self._text(now.object), self._budget)
                if not is_exact:
                    self._coarse.add(pair)
            return self._hunks[pair]

    def compare(self) -> None:
        """Lets git compare the files, if it has not."""
        with self._comparing:
            if self._hunks is None:
                self._hunks, self._coarse = _hunks(self.store, self.before, self.after, lambda: self.is_wanted)

    def is_coarse(self, was: Entry | None, now: Entry | None) -> bool:
        """Whether two files are compared coarsely."""
        return was is not None and now is not None and (was.object, now.object) in self._coarse

    def _text(self, number: bytes) -> bytes:
        if number not in self._texts:
            found = dict(self.store.bodies([number]))[number]
            body = text_body(found) if isinstance(found, bytes) else b""
            self._texts[number] = body if isinstance(body, bytes) else b""
        return self._texts[number]

    def files(self, answer: Answer, prefix: bytes) -> Iterator[File]:
        """The files of an answer, whose documents have a prefix, with their lines."""
        hits: dict[bytes, list[Hit]] = {name.removeprefix(prefix): found for name, found in answer.by_document()}
        files = []
        for before, after, was, now in self.changed:
            old = hits.pop(_BEFORE + before, []) if before is not None else []
            new = hits.pop(_AFTER + after, []) if after is not None else []
            if old or new:
                is_on_both = was is not None and now is not None and {_BEFORE + (before or b""), _AFTER + (after or b"")}.isdisjoint(self.left_out)
                hunks = self.hunks(was, now) if is_on_both and was and now else None
                files.append(File(before, after, _lines(old, new, hunks), self.is_coarse(was, now)))
        for name, found in hits.items():
            path = name.removeprefix(_AFTER)
            files.append(File(path, path, [Line(LEFT, hit.line, hit.line, hit.text, hit.spans) for hit in found]))
        return iter(sorted(files, key=lambda file: quote(file.name)))


def _changed(store: Store, before: str, after: str, most: int | None) -> Iterator[Changed]:
    """The files that differ; with `most` the first ones, and one more if there are more."""
    with contextlib.closing(rows_of(store, ["diff-tree", "-r", "-z", "--raw", "--no-abbrev", "-M", before, after])) as rows:
        yield from itertools.islice(_changed_in(rows), None if most is None else most + 1)


def _changed_in(rows: Iterator[bytes]) -> Iterator[Changed]:
    for row in rows:
        old_kind, new_kind, old, new, status = row.removeprefix(b":").split(b" ")
        path = next(rows)
        was = None if status == b"A" else path
        now = None if status == b"D" else next(rows) if status.startswith(b"R") else path
        yield Changed(was, now, Entry(old_kind, old) if was is not None else None, Entry(new_kind, new) if now is not None else None)


Pair = tuple[bytes, bytes]


def _hunks(store: Store, before: str, after: str, is_wanted: Callable[[], bool]) -> tuple[dict[Pair, list[Hunk]], set[Pair]]:
    """The hunks for each pair of objects that git compares, and the pairs with too many: these have one, from the first to the last."""
    words = ("diff-tree", "-r", "-M", "-p", "-U0", "--full-index", "--diff-filter=MR", "--no-ext-diff", "--no-textconv", "--no-color")
    data = store.run(*words, before, after)
    found: dict[Pair, list[Hunk]] = {}
    coarse: set[Pair] = set()
    pair, at, count = (b"", b""), 0, 0
    while at < len(data):
        if not is_wanted():
            raise Cancelled("cancelled")
        end = data.find(b"\n", at) + 1 or len(data)
        line = data[at:end]
        at = end
        if line.startswith(_FILE):
            pair = (b"", b"")
        elif index := _INDEX.match(line):
            pair = (index[1], index[2])
        elif line.startswith(b"--- "):
            found[pair] = []  # it is compared
        elif hunk := _HUNK.match(line):
            old, removed, new, added = (1 if text is None else int(text) for text in hunk.groups())
            hunks = found[pair]
            hunks.append(Hunk(old + (removed == 0), removed, new + (added == 0), added))
            count += 1
            if pair in coarse or len(hunks) > _MOST_HUNKS or count > _MOST_HUNKS_OF_ALL:
                coarse.add(pair)
                count -= len(hunks) - 1
                found[pair] = [_around(hunks[0], hunks[-1])]
            for lines in removed, added:
                at = after_line(data, at, lines) if lines else at
                # "\ No newline at end of file"
                at = data.find(b"\n", at) + 1 if data.startswith(b"\\ ", at) else at
    return found, coarse


def _around(first: Hunk, last: Hunk) -> Hunk:
    """One that has two others, and all between."""
    return Hunk(first.before, last.before + last.removed - first.before, first.after, last.after + last.added - first.after)


def _compared(old: bytes, new: bytes, budget: Budget) -> tuple[list[Hunk], bool]:
    """Where two texts differ, and whether that is exact."""
    lines = [text.count(b"\n") + 1 for text in (old, new)]
    if max(lines) > _MOST_COMPARED:
        return [Hunk(1, lines[0], 1, lines[1])], False
    found, is_exact = blocks(old.split(b"\n"), new.split(b"\n"), budget)
    return [Hunk(a + 1, removed, b + 1, added) for a, removed, b, added in found], is_exact


def _lines(old: list[Hit], new: list[Hit], hunks: list[Hunk] | None) -> list[Line]:
    """The lines of a file in the order of the patch. Without hunks the file is on one side alone."""
    if hunks is None:
        return [Line(REMOVED, hit.line, None, hit.text, hit.spans) for hit in old] + [Line(ADDED, None, hit.line, hit.text, hit.spans) for hit in new]
    found: list[tuple[tuple[int, int, int], Line]] = []
    befores, afters = [hunk.before for hunk in hunks], [hunk.after for hunk in hunks]
    for hit in old:
        hunk = _hunk_at(hunks, befores, hit.line)
        if hunk and hit.line < hunk.before + hunk.removed:
            found.append(((hunk.after, 0, hit.line), Line(REMOVED, hit.line, None, hit.text, hit.spans)))
    for hit in new:
        hunk = _hunk_at(hunks, afters, hit.line)
        if hunk and hit.line < hunk.after + hunk.added:
            found.append(((hunk.after, 1, hit.line), Line(ADDED, None, hit.line, hit.text, hit.spans)))
        else:
            moved = hunk.before + hunk.removed - hunk.after - hunk.added if hunk else 0
            found.append(((hit.line, 2, 0), Line(LEFT, hit.line + moved, hit.line, hit.text, hit.spans)))
    return [line for _, line in sorted(found, key=lambda pair: pair[0])]


def _hunk_at(hunks: list[Hunk], firsts: list[int], line: int) -> Hunk | None:
    """The last hunk that does not begin behind a line."""
    at = bisect.bisect_right(firsts, line)
    return hunks[at - 1] if at else None


def cut(files: Iterable[File], limit: int | None) -> tuple[list[File], bool]:
    """The files with the first lines up to a limit, and whether there are more."""
    kept: list[File] = []
    for file in files:
        if limit is None:
            kept.append(file)
        elif limit == 0:
            return kept, True
        elif len(file.lines) > limit:
            return [*kept, file._replace(lines=file.lines[:limit])], True
        else:
            kept.append(file)
            limit -= len(file.lines)
    return kept, False


def prefix_of_its_own() -> bytes:
    """What the names of a review's documents begin with, if nothing else is said: each has another one."""
    return b"review-%d:" % next(_numbers)


def query_in(prefix: bytes, asked: Query) -> Query:
    """The query in a review. Its limit is left out: it is for the lines of both sides. So is what it says of paths: that is for files, which
    may have two."""
    return dataclasses.replace(asked, names=(), not_names=(), under=(prefix,), not_under=(), limit=None, spans=not asked.invert)


def wanted_by(asked: Query, files: Iterable[File]) -> Iterator[File]:
    """The files that a query asks for, by their paths after the patch if they have one. The program has to have taken the patterns
    (`paths.check`)."""
    wanted, unwanted = ([ere.names(under(one, b"")).has for one in patterns] for patterns in (asked.names, asked.not_names))
    for file in files:
        name = quote(file.name)
        if asked.under and not file.name.startswith(asked.under) or file.name.startswith(asked.not_under):
            continue
        if file.lines and all(test(name) for test in wanted) and not any(test(name) for test in unwanted):
            yield file


def seen_by(sees: Callable[[bytes], bool] | None, files: Iterable[File]) -> Iterator[File]:
    """The files as they are for who sees some paths alone, or with None all: one whose path before is not seen is new."""
    for file in files:
        if sees is None or None in (file.before, file.after) or sees(file.before or b""):
            yield file
        else:
            yield file._replace(before=None, lines=[line._replace(sign=ADDED, before=None) for line in file.lines if line.sign != REMOVED])


class Review:
    """The files of a patch in a session, as they are before and after it, until the end of the block.

    session: the session. Others may share it.
    path: the repository, as for `tsearch.git.Revisions`.
    before, after: names of two commits. What they are called now is what is searched, however branches move later.
    whole: whether the files too are searched that the patch does not change; all their lines are left.
    prefix: what the names of its documents begin with.

    Every answer is of one version. `Error` if there is no such commit, and the errors of `tsearch.git.Store`.
    """

    def __init__(
        self,
        session: Session,
        path: str | bytes | os.PathLike[str] | os.PathLike[bytes],
        before: str,
        after: str,
        *,
        whole: bool = False,
        prefix: str | bytes | None = None,
    ) -> None:
        self._session = session
        self._prefix = prefix_of_its_own() if prefix is None else to_bytes(prefix)
        self._has_own = prefix is None
        self._patch = Patch(Store(path), before, after, whole)
        self._held: set[bytes] = set()
        self._life = 0
        self._fill()

    def _fill(self) -> None:
        """Puts the documents. Copies of revisions that the session has would have their place here."""
        refused: list[ChangeRefused] = []
        with self._session.feeding:
            changes = Changes(self._session._connection, refused)
            for name, body in self._patch.documents():
                changes.put(self._prefix + name, body)
                self._held.add(name)
            published = self._session.publish(tells=False)
            if published.life != changes.life:
                raise Ended(None)  # that to which they were sent
        self._life = published.life
        self._held -= refused_in(self._patch, self._prefix, refused)

    @property
    def left_out(self) -> dict[bytes, str]:
        """What is not searched, with the reason: `-:` or `+:` for the side, and the path."""
        return dict(self._patch.left_out)

    @property
    def commits(self) -> tuple[str, str]:
        """The commits before and after."""
        return self._patch.before, self._patch.after

    def find(
        self, pattern: str | bytes, *, timeout: float | None = None, sees: Callable[[bytes], bool] | None = None, **options: Unpack[Options]
    ) -> Found:
        """The lines with a match. The options are those of `Session.find` that say what is found; those for names are for paths, and `limit`
        for all lines together. With `sees` a file that had another path before, of which that is not true, is taken for a new one. The errors
        are those of `Session.find`."""
        asked = Query.of(pattern, **options)
        if asked.names or asked.not_names:
            self._session.find_query(dataclasses.replace(check(asked.names, asked.not_names), lane=asked.lane), timeout=timeout)
        answer = self._session.find_query(query_in(self._prefix, asked), timeout=timeout)
        while answer.life != self._life:
            # the program was started again, without them
            self._fill()
            answer = self._session.find_query(query_in(self._prefix, asked), timeout=timeout)
        files = seen_by(sees, self._patch.files(answer, self._prefix))
        return Found(answer.version, *cut(wanted_by(asked, files), asked.limit))

    def close(self) -> None:
        """Removes the documents. A second call does nothing."""
        with self._session.feeding:
            changes = Changes(self._session._connection, [])
            if self._held and self._has_own:
                changes.remove_under(self._prefix)
            for name in () if self._has_own else self._held:
                changes.remove(self._prefix + name)
            if self._held:
                self._held.clear()
                self._session.publish(tells=False)

    def __enter__(self) -> Review:
        return self

    def __exit__(self, kind: type[BaseException] | None, error: BaseException | None, trace: TracebackType | None) -> None:
        self.close()


def refused_in(patch: Patch, prefix: bytes, refused: Iterable[ChangeRefused]) -> set[bytes]:
    """Takes what was refused of a review's documents, and gives the names without the prefix."""
    names = set()
    for refusal in refused:
        name = refusal.name.removeprefix(prefix)
        patch.left_out[name] = called(refusal.reason)
        names.add(name)
    return names
