"""A git repository by its objects: any number of its branches, tags and commits in a session, from a bare repository too.

    with tsearch.Session() as session:
        revisions = tsearch.git.Revisions(session, "redis.git", ["unstable", "7.*", "tags/7.0.*"])
        revisions.refresh()
        print(session.find("o w", names="^unstable:src/").hits())

Objects are read by the command git, so packs, alternates and hashes of each kind are; nothing of the repository is run, and nothing fetched
(`reading_git`).
"""

from __future__ import annotations

import collections
import contextlib
import fnmatch
import itertools
import os
import resource
import stat
import subprocess
import tempfile
import time
from collections.abc import Callable, Collection, Generator, Iterable, Iterator, Mapping, Sequence
from typing import NamedTuple

from . import names
from .bodies import CORRUPT, MISSING, UNREAD, Patience, Pipe, TooLong, bodies_of
from .bounds import Bounds
from .errors import ChangeRefused, Error
from .feeding import PIECE
from .folder import MOST_TOGETHER, TICK, Kept, LeftOut, Progress, Step, called, text_body
from .program import MOST_BODY, MOST_NAME
from .reading_git import Reader, Unreadable, not_run
from .repository import common_of, git_folder
from .session import Session

FILE_KINDS = (b"100644", b"100755", b"100664")
_REASONS = {b"120000": "symbolic link", b"160000": "submodule"}
# The kind of a folder in a commit, and of one that cannot be read: the reason is its kind.
_FOLDER = b"040000"
_REASONS |= {reason.encode(): reason for reason in UNREAD}
# Why a revision is left out of which nothing can be read.
_UNREADABLE = "its top folder cannot be read"
# So many folders are read one by one for a commit of which git does not list all files.
_MOST_FOLDERS = 20_000
_BRANCHES, _TAGS = "refs/heads/", "refs/tags/"
_OF_TAGS = "tags/"
# Where names are, in the repository's own folder.
_OF_NAMES = (b"HEAD", b"packed-refs", b"refs", b"reftable")
# Bodies are read ahead by so many bytes, and git may be so many ahead of that.
_BLOCK, _PIPE = 1 << 18, 1 << 20
# In seconds: how long git may take to list what has changed.
_GIT_TIME = 600
# In bytes: how much memory of its own it may take for that.
_GIT_MEMORY = 1 << 30
_LONGEST_ROW = 1 << 20
# In seconds: when files that git could not read are read again at first, and at the latest: each time it is twice as long.
_AGAIN, _LATEST = 60.0, 3_600.0
# So many revisions that come, or some more than so many documents of them, a look gives at most.
_MOST_COMING, _MOST_COPIED = 512, 16_384
# Of revisions that are left out so many are named.
_MOST_NAMED = 1_000
# In bytes: texts of a push that are longer together are put one after the other before they are shown; and what the names begin with that they
# have until then. No name of a revision has a `~`.
_STAGED, _STAGE = 1 << 22, b"~:"
# How the program, and this package, refuse what another document of the same body need not be refused for.
_TOO_LONG = "name too long"


class NoRepository(Error):
    """A folder is not a git repository, or git cannot read it. `told` says so without the path and the words of git."""

    def __init__(self, message: str, told: str = "git cannot read it") -> None:
        super().__init__(message)
        self.told = told


class Entry(NamedTuple):
    """A file of a commit: its kind, as git writes it, and the number of its bytes' object."""

    kind: bytes
    object: bytes


class Store:
    """The objects and the names of a repository: a bare one, or that of a working tree. `NoRepository` if there is none."""

    def __init__(self, path: str | bytes | os.PathLike[str] | os.PathLike[bytes]) -> None:
        self.path = os.path.abspath(os.fsencode(path))
        found = git_folder(self.path)
        if found is None:
            raise NoRepository(f"{os.fsdecode(self.path)} is not a git repository", "it is not a git repository")
        self.folder = found
        # in seconds: how long a command may take
        self.seconds: float = _GIT_TIME
        # a repository that is named like this may have any owner
        self.reader = Reader(found, common_of(found))

    def run(self, *words: str | bytes, stdin: bytes = b"", may_be_none: bool = False) -> bytes:
        """What a command of git writes. `NoRepository` with its message if it fails; with `may_be_none` status 1 says that there is nothing."""
        try:
            done = self.reader.run(words, stdin, seconds=self.seconds)
        except subprocess.TimeoutExpired:
            raise self.late() from None
        except (OSError, subprocess.SubprocessError) as error:
            raise self.not_run(error) from None
        if done.returncode and not (may_be_none and done.returncode == 1):
            raise self.failed(done.returncode, done.stderr)
        return done.stdout

    def failed(self, status: int, said: bytes) -> NoRepository:
        """The fault of a command of git that has ended with a status, and has said this."""
        message = said.decode(errors="replace").strip().rpartition("\n")[2]
        return NoRepository(f"{os.fsdecode(self.path)}: {message or f'git ends with status {status}'}")

    def late(self) -> NoRepository:
        """The fault of a command of git that is waited for too long."""
        return NoRepository(f"{os.fsdecode(self.path)}: git does not answer in {self.seconds:g} seconds", "git does not answer in time")

    def not_run(self, error: OSError | subprocess.SubprocessError) -> NoRepository:
        """The fault of a command of git that has not run to its end."""
        return NoRepository(f"{os.fsdecode(self.path)}: {not_run(error)}", *([str(error)] if isinstance(error, Unreadable) else []))

    def commits(self, wanted: Sequence[str], most: int | None = None) -> dict[str, str]:
        """The commits of names: a branch, a tag, a commit, or what else git reads as one; a name with a `*`, `?` or `[` is each branch of
        such a name, or behind `tags/` each tag; with `most` so many of each. Each in the order of the names; what is not there is left out."""
        plain = [name for name in wanted if not is_glob(name)]
        found = dict(zip(plain, self._resolved(plain)))
        every = self._branches_and_tags([name for name in wanted if name not in found], most)
        commits: dict[str, str] = {}
        for name in wanted:
            each = {name: found[name]} if name in found else every[name]
            commits |= {one: commit for one, commit in each.items() if commit and one not in commits}
        return commits

    def _resolved(self, wanted: Sequence[str]) -> list[str]:
        """The commit of each name, empty if it is none. Of a branch and a tag of one name it is the branch's."""
        fit = [names.to_bytes("" if _is_unfit(name) else name) for name in wanted]
        commits = self._commits_of([one for name in fit for one in (_BRANCHES.encode() + name, name)])
        return [branch or other for branch, other in zip(commits[::2], commits[1::2])]

    def _commits_of(self, wanted: Collection[bytes]) -> list[str]:
        """The commit that each of some names of objects is or leads to, empty if there is none."""
        asked = b"".join(b"%s^{commit}\n" % name for name in wanted)
        rows = self.run("cat-file", "--batch-check=%(objectname) %(objecttype)", stdin=asked).splitlines() if asked else []
        return [row.removesuffix(b" commit").decode() if row.endswith(b" commit") else "" for row in rows]

    def _branches_and_tags(self, globs: Collection[str], most: int | None) -> dict[str, dict[str, str]]:
        """The first branches, or behind `tags/` tags, of each glob, by their names without what is before them, with their commits. The others are
        passed as they come, and git reads no object for them: one that is missing is that one's fault alone."""
        starts = {glob: "refs/" if glob.startswith(_OF_TAGS) else _BRANCHES for glob in globs}
        found: dict[str, dict[str, bytes]] = {glob: {} for glob in globs}
        places = [place for place in (_BRANCHES, _TAGS) if any(place.startswith(start) for start in starts.values())]
        words = ["for-each-ref", "--format=%(objectname) %(refname)%00", *places]
        with contextlib.closing(rows_of(self, words)) as rows:
            for row in rows if places else ():
                number, _, one = row.removeprefix(b"\n").partition(b" ")
                name = names.to_text(one)
                for glob, start in starts.items():
                    if len(found[glob]) != most and fnmatch.fnmatchcase(name, start + glob):
                        found[glob][name.removeprefix(start)] = number
                if all(len(some) == most for some in found.values()):
                    break
        numbers = list({number for some in found.values() for number in some.values()})
        commits = dict(zip(numbers, self._commits_of(numbers)))
        return {glob: {name: commits[number] for name, number in some.items()} for glob, some in found.items()}

    def stamp(self) -> frozenset[tuple[bytes, int, int, int]]:
        """What tells that a name may be another commit's: the times, lengths and numbers of the files with the names. git puts a new file in
        the place of one that it changes."""
        with contextlib.suppress(OSError), open(os.path.join(self.folder, b"commondir"), "rb") as file:
            return _stamps_in(self.folder) | _stamps_in(os.path.join(self.folder, file.read().strip()))
        return _stamps_in(self.folder)

    def files(self, commit: str, most: int | None = None, *, may_lack: bool = False) -> dict[bytes, Entry]:
        """The files of a commit by their paths, in the order of these; with `most` the first ones. `NoRepository` if a folder is missing, or git
        cannot read it; with `may_lack` it is there instead with a `/` behind its path, and the reason as its kind."""
        try:
            split = (row.partition(b"\t") for row in rows_of(self, ["ls-tree", "-r", "-z", "--full-tree", commit], most))
            return {path: Entry(*head.split(b" ")[::2]) for head, _, path in split}
        except NoRepository as failed:
            found = self._files_by_folders(commit, most) if may_lack else None
            if found is None:
                raise failed
            return found

    def _files_by_folders(self, commit: str, most: int | None) -> dict[bytes, Entry] | None:
        """The same, by each folder for itself. None if there are too many, or the commit or its top folder cannot be read."""
        of_commit = dict(self.bodies([commit.encode()]))[commit.encode()]
        if isinstance(of_commit, str) or not of_commit.startswith(b"tree "):
            return None
        found: dict[bytes, Entry] = {}
        level, count = {of_commit[5:].partition(b"\n")[0]: [b""]}, 0
        while level:
            count += sum(map(len, level.values()))
            if count > _MOST_FOLDERS or (most is not None and len(found) > most):
                return None
            below: dict[bytes, list[bytes]] = {}
            for number, body in self.bodies(list(level)):
                entries = None if isinstance(body, str) else _entries_of(body, len(number) // 2)
                reason = body if isinstance(body, str) else CORRUPT
                if entries is None and b"" in level[number]:
                    return None
                for place in level[number]:
                    if entries is None:
                        found[place] = Entry(reason.encode(), number)
                    for name, entry in entries or ():
                        if entry.kind == _FOLDER:
                            below.setdefault(entry.object, []).append(place + name + b"/")
                        else:
                            found[place + name] = entry
            level = below
        return dict(sorted(found.items()))

    def changes(self, before: str, after: str, most: int | None = None) -> dict[bytes, Entry | None]:
        """The files that two commits do not have alike, as they are in the second; None for one that it has not. `NoRepository` if git cannot
        compare the two, or there are more than `most`."""
        found = next(self.all_changes([(before, after)], most))
        if found is None:
            raise NoRepository(f"{os.fsdecode(self.path)}: git does not compare {before} with {after}")
        return found

    def all_changes(self, pairs: Sequence[tuple[str, str]], most: int | None = None) -> Iterator[dict[bytes, Entry | None] | None]:
        """The same for some pairs of commits, mostly by one command for all of them; None for each pair that git cannot compare, or with more than
        `most`."""
        trees = self._trees({commit for pair in pairs for commit in pair})
        asked = [(trees[before], trees[after]) for before, after in pairs]
        at = 0
        while at < len(asked):
            if b"" not in asked[at]:
                end = next((one for one in range(at, len(asked)) if b"" in asked[one]), len(asked))
                with contextlib.suppress(NoRepository):
                    for found in self._compared(asked[at:end], most):
                        yield found
                        at += 1
                    continue
            yield None
            at += 1

    def _compared(self, asked: Sequence[tuple[bytes, bytes]], most: int | None) -> Iterator[dict[bytes, Entry | None]]:
        """What pairs of trees do not have alike, up to the first one that git cannot compare, or that has too much: `NoRepository`."""
        lines = b"".join(b"%s %s\n" % pair for pair in asked if pair[0] != pair[1])
        words = ["diff-tree", "--stdin", "-r", "-z", "--raw", "--no-renames", "--no-abbrev"]
        with contextlib.closing(rows_of(self, words, stdin=lines)) as rows:
            head = next(rows, None) if lines else None
            for before, after in asked:
                found: dict[bytes, Entry | None] = {}
                if before != after and head is not None:
                    # a pair without a file that differs has this line alone
                    begin = b"%s %s\n" % (before, after)
                    if not head.startswith(begin):
                        raise NoRepository(f"{os.fsdecode(self.path)}: git does not compare {before.decode()} with {after.decode()}")
                    head = head.removeprefix(begin)
                    while head is not None and head.startswith(b":"):
                        _, kind, _, number, status = head.split(b" ")
                        found[next(rows)] = None if status == b"D" else Entry(kind, number)
                        if most is not None and len(found) > most:
                            raise NoRepository(f"{os.fsdecode(self.path)}: over {most:,} files differ")
                        head = next(rows, None)
                yield found

    def _trees(self, commits: Collection[str]) -> dict[str, bytes]:
        """The tree of each commit; empty if one is not there."""
        asked = b"".join(b"%s^{tree}\n" % commit.encode() for commit in commits)
        rows = self.run("cat-file", "--batch-check=%(objectname) %(objecttype)", stdin=asked).splitlines()
        return {commit: row.removesuffix(b" tree") if row.endswith(b" tree") else b"" for commit, row in zip(commits, rows)}

    def are_before(self, commits: Sequence[str], others: Iterable[str]) -> bool:
        """Whether each of some commits is there, and is one of others or leads to one."""
        asked = [b"^" + other.encode() for other in others]
        if not asked or not all(self._resolved(commits)):
            return False
        return not self.run("rev-list", "-n", "1", "--stdin", stdin=b"\n".join([*(one.encode() for one in commits), *asked]) + b"\n")

    def entry(self, commit: str, path: bytes) -> Entry | None:
        """A file of a commit; None if there is none."""
        rows = self.run("--literal-pathspecs", "ls-tree", "-z", "--full-tree", commit, "--", path).split(b"\0")
        head, _, found = rows[0].partition(b"\t")
        return Entry(*head.split(b" ")[::2]) if found == path else None

    def bodies(self, objects: Sequence[bytes], over: Callable[[bytes, int], str] = lambda number, size: "") -> Iterator[tuple[bytes, bytes | str]]:
        """Each of some objects with its bytes, or with the reason why they are not read: none of too many bytes is, nor one for which `over` has
        a reason. It is called for each object of no more, with the number of its bytes, before any is read."""
        reasons = {
            number: MISSING if size is None else "body too long" if size > MOST_BODY else over(number, size)
            for number, size in self.sizes(objects)
        }
        yield from ((number, reason) for number, reason in reasons.items() if reason)
        if wanted := [number for number, reason in reasons.items() if not reason]:
            yield from bodies_of(self._begun, wanted, self.seconds)

    def sizes(self, objects: Sequence[bytes]) -> list[tuple[bytes, int | None]]:
        """How many bytes each of some objects has; None if it is missing."""
        asked = b"".join(b"%s\n" % one for one in objects)
        rows = self.run("cat-file", "--batch-check=%(objectsize)", stdin=asked).splitlines() if objects else []
        return [(number, int(size) if size.isdigit() else None) for number, size in zip(objects, rows)]

    @contextlib.contextmanager
    def _begun(self, *words: bytes) -> Iterator[subprocess.Popen[bytes]]:
        """A command that gives the bytes of objects, and is killed at the end of the block."""
        with contextlib.ExitStack() as stack:
            try:
                process = stack.enter_context(self.reader.begun([b"cat-file", b"--batch", *words], _BLOCK, pipesize=_PIPE))
            except OSError as error:
                raise self.not_run(error) from None
            yield process


def rows_of(store: Store, words: Sequence[str], most: int | None = None, stdin: bytes = b"") -> Generator[bytes, None, None]:
    """The texts behind each of which a command of git writes a byte 0, one by one as they come; with `most` so many, and then the command is
    ended. `NoRepository` if it fails, or is waited for too long."""
    rest, count = b"", 0
    patience = Patience(store.seconds, of_bytes=False)
    with tempfile.TemporaryFile() as asked, tempfile.TemporaryFile() as said, contextlib.ExitStack() as stack:
        asked.write(stdin)
        asked.seek(0)
        try:
            process = stack.enter_context(store.reader.begun(words, _BLOCK, stdin=asked, stderr=said))
        except OSError as error:
            raise store.not_run(error) from None
        assert process.stdout
        # what it keeps before it writes grows with the repository
        with contextlib.suppress(OSError, ValueError):
            resource.prlimit(process.pid, resource.RLIMIT_DATA, (_GIT_MEMORY, _GIT_MEMORY))
        pipe = Pipe(process.stdout, patience)
        try:
            while count != most and (data := pipe.some()):
                *rows, rest = (rest + data).split(b"\0")
                for row in rows[: None if most is None else most - count]:
                    yield row
                count += len(rows) if most is None else min(len(rows), most - count)
                if len(rest) > _LONGEST_ROW:
                    raise NoRepository(f"{os.fsdecode(store.path)}: a path of over {_LONGEST_ROW:,} bytes")
            if count != most and process.wait(store.seconds):
                said.seek(0)
                raise store.failed(process.returncode, store.reader.named(said.read(_BLOCK)))
        except (TooLong, subprocess.TimeoutExpired):
            raise store.late() from None


def _entries_of(body: bytes, length: int) -> list[tuple[bytes, Entry]] | None:
    """What is in a folder, of its object, where the number of one has so many bytes. None if it is no folder."""
    found, at = [], 0
    while at < len(body):
        end = body.find(b"\0", at) + 1
        kind, _, name = body[at : end - 1].partition(b" ")
        if not end or not name or end + length > len(body):
            return None
        found.append((name, Entry(kind.rjust(6, b"0"), body[end : end + length].hex().encode())))
        at = end + length
    return found


def reason_of(entry: Entry | None) -> str:
    """Why there is no document for what is no file."""
    return _REASONS.get(entry.kind, "no file") if entry else "no file"


def _stamps_in(folder: bytes) -> frozenset[tuple[bytes, int, int, int]]:
    left = [os.path.join(folder, part) for part in _OF_NAMES]
    found = set()
    while left:
        path = left.pop()
        try:
            state = os.lstat(path)
            found.add((path, state.st_mtime_ns, state.st_size, state.st_ino))
            left += [entry.path for entry in os.scandir(path)] if stat.S_ISDIR(state.st_mode) else []
        except OSError:
            continue  # it is gone, or was never there
    return frozenset(found)


def is_glob(name: str) -> bool:
    """Whether it is the pattern of names."""
    return any(letter in name for letter in "*?[")


def _is_unfit(name: str) -> bool:
    """Whether a name cannot be asked for in a line, or is more than a name."""
    return any(letter in name for letter in "\n\0:") or name.startswith(("-", "^"))


class _Copies:
    """The revisions that began as copies of others, each with the paths in which the two differ."""

    def __init__(self) -> None:
        self._changed: dict[tuple[str, str], Collection[bytes]] = {}

    def add(self, base: str, revision: str, changed: Collection[bytes]) -> None:
        """Notes a copy of a base."""
        self._changed[base, revision] = changed

    def and_more(self, others: _Copies) -> _Copies:
        """These and others."""
        copies = _Copies()
        copies._changed = {**self._changed, **others._changed}
        return copies

    def of(self, base: str, path: bytes) -> list[str]:
        """The revisions that have a file by a copy of a base."""
        return [revision for (other, revision), changed in self._changed.items() if other == base and path not in changed]

    def changed(self, revision: str) -> Collection[bytes] | None:
        """The paths in which a revision differs from that which it is a copy of; None if it is none."""
        return next((changed for (_, one), changed in self._changed.items() if one == revision), None)


class _Text:
    """A text that documents of a session have: the number of its object, its bytes, and how many have it."""

    __slots__ = ("number", "size", "count")

    def __init__(self, number: bytes, size: int) -> None:
        self.number = number
        self.size = size
        self.count = 0


# What a document is known to have whose text is about to be replaced or to go.
_GOING = _Text(b"", 0)


class Objects:
    """What a session has of a repository's revisions, as its client knows it: a document for each file, named `prefix`, the name of the
    revision, a colon and the path. It sends nothing.

    copies: whether a revision that comes begins as a copy of the documents of the first one, if more of them stay than go, and then costs
        the files in which the two differ. A cluster cannot copy.
    bounds: what is taken of the repository at most.

    Steps of what nobody knows of yet are `free`. With `stages`, for a session that can copy, the texts of a large push come by such ones too:
    under names of no revision, and once all are there as copies under their own.
    """

    def __init__(
        self, store: Store, wanted: Sequence[str], prefix: str | bytes = b"", *, copies: bool = False, bounds: Bounds = Bounds(), stages: bool = False
    ) -> None:
        self._copies = copies
        self._stages = stages and copies
        self.bounds = bounds
        # whether the next look has more to give at once
        self.has_more = False
        # the revisions that a look has come to the end of
        self._shown: set[str] = set()
        # those of which files are left out that may have room later
        self._cut: set[str] = set()
        # what is left out that is a whole revision, or the end of one
        self._behind: dict[bytes, str] = {}
        # whether the session may have texts under names of no revision
        self._has_staged = False
        # the texts that differ, and their bytes
        self._texts: dict[bytes, _Text] = {}
        self._text_bytes = 0
        self._documents = 0
        # revisions that were refused as copies: their files are put
        self._is_put: set[str] = set()
        # of these the next look puts all files
        self._anew: set[str] = set()
        # the copies since refusals were taken last, and those before that may have been sent only then
        self._copied, self._copied_before = _Copies(), _Copies()
        self.store = store
        self.root = store.path
        self.prefix = names.to_bytes(prefix)
        # the names of the revisions, as `Store.commits` takes them
        self.wanted = tuple(wanted)
        # the commit of each revision that the session has
        self.commits: dict[str, str] = {}
        # the commits that the revisions were at the last look at their names, before the session has their files
        self.named: dict[str, str] = {}
        # of the look before, if that has seen all, and what was wanted then
        self._seen: tuple[frozenset[tuple[bytes, int, int, int]], tuple[str, ...]] | None = None
        # when a look began that goes on, what told then whether names change, what was wanted, and the commits
        self._begun: tuple[int, frozenset[tuple[bytes, int, int, int]], tuple[str, ...], dict[str, str] | None] | None = None
        self.left_out: dict[bytes, str] = {}
        # when files that could not be read are read again, and how long that was after the time before
        self._next_read = self._rest = 0.0
        # the paths of each revision, with the texts of the files
        self.held: dict[str, dict[bytes, _Text]] = {}
        self._bytes = 0
        self._new: set[bytes] = set()
        self._news: list[LeftOut] = []

    def forget(self) -> None:
        """A new program has nothing of the repository."""
        self._seen, self._begun, self.has_more = None, None, False
        self.commits = {}
        self.left_out.clear()
        self.held.clear()
        self._is_put.clear()
        self._anew.clear()
        self._copied, self._copied_before = _Copies(), _Copies()
        self._shown.clear()
        self._cut.clear()
        self._behind.clear()
        self._texts.clear()
        self._has_staged = False
        self._bytes = self._text_bytes = self._documents = 0
        self._new.clear()

    @property
    def totals(self) -> tuple[int, int]:
        """How many documents there are, and the bytes of their files."""
        return self._documents, self._bytes

    def removals(self) -> Iterator[Step]:
        """What removes all documents, those of a folder or of a revision together."""
        return self._removals({revision: list(paths) for revision, paths in self.held.items()}, self.totals[0])

    def steps(self) -> Iterator[Step]:
        """Looks at the revisions, and gives what makes the session's documents those of their commits now. If there is more to give, the next
        look has it: of those that come, some at a time."""
        goes_on, self.has_more = self.has_more and self._begun is not None and self._begun[2] == self.wanted, False
        if not goes_on:
            self._begun = (time.time_ns(), self.store.stamp(), self.wanted, None)
        assert self._begun
        began, stamp, wanted, names_then = self._begun
        if (stamp, wanted) == self._seen and not self._anew:
            yield from self._read_again()
            return
        for revision in self._anew:
            self.commits.pop(revision, None)
        self._anew.clear()
        # those that go on have the names of their beginning
        all_now = self.store.commits(wanted, self._most_names) if names_then is None else names_then
        self._begun = (began, stamp, wanted, all_now)
        now = self._first_of(all_now)
        if names_then is None:
            self.named = now
        elif self.store.stamp() != stamp:
            # what is gone or has moved meanwhile is not shown as it was
            there = self.store.commits(wanted, self._most_names)
            self.named = {revision: there[revision] for revision in now if revision in there}
        gone = [one for one in self.held if one not in now]
        self._take_in(gone)
        removed = {revision: list(self.held[revision]) for revision in gone}
        put: list[tuple[bytes, Entry]] = []
        base, coming = self._coming(now)
        later = set(coming)
        changed = [revision for revision in now if revision not in later and self.commits.get(revision) != now[revision]]
        new = [revision for revision in changed if revision not in self._shown]
        for revision, commit in now.items() if len(changed) > len(new) else ():
            if revision in self._shown and revision not in later and self.commits.get(revision) != commit:
                self._change(revision, self._changes(revision, commit), removed, put)
        # of a look that fails midway it is not known which documents were sent: the next one sends all of these revisions
        is_known = self.commits
        self._seen, self.commits = None, {revision: commit for revision, commit in self.commits.items() if now.get(revision) == commit}
        done = yield from self._steps(removed, put)
        for revision in gone:
            del self.held[revision]
        self._is_put &= now.keys()
        self._shown &= now.keys()
        if (gone or put or any(removed.values())) and (new or coming):
            self._show({revision: now[revision] for revision in now if revision in is_known}, now)
            self.has_more = True
            return
        for revision in new:
            done = yield from self._anew_of(revision, now[revision], done)
        self._show({revision: now[revision] for revision in now if revision not in later}, now)
        left_out, done = yield from self._all_beside(base, coming, now, done)
        if self.has_more:
            return
        # a file that changes twice within a tick of the clock has another number, mostly
        is_settled = all(modified <= began - TICK for _, modified, _, _ in stamp)
        is_whole = all(is_glob(name) or name in now or name in left_out for name in wanted)
        self._seen = (stamp, wanted) if is_settled and is_whole else None

    def _read_again(self) -> Iterator[Step]:
        """The steps for files that git could not read, and now can: it is tried after a while, and later each time."""
        unread = [name for name, reason in self.left_out.items() if reason in UNREAD]
        if not unread or time.monotonic() < self._next_read:
            return
        self._rest = min(2 * self._rest or _AGAIN, _LATEST)
        self._next_read = time.monotonic() + self._rest
        found: dict[str, dict[bytes, Entry | None]] = {}
        # of revisions with a folder that can be read now: all that is not there yet
        more: dict[str, dict[bytes, Entry | None]] = {}
        for revision, paths in itertools.groupby(sorted(map(_split, unread)), lambda pair: pair[0]):
            files = self._files(revision, self.commits[revision]) if revision in self.commits else {}
            found[revision] = {path: files[path] for _, path in paths if path in files}
            start = self._start(revision)
            if files and any(start + path not in self.left_out for _, path in map(_split, unread) if path not in files):
                held = self.held.get(revision, {})
                more[revision] = {path: entry for path, entry in files.items() if path not in held and start + path not in self.left_out}
        numbers = {entry.object for changed in found.values() for entry in changed.values() if entry is not None}
        bodies = self.store.bodies(list(numbers), lambda number, size: self.bounds.over_size(size))
        mended = {number for number, body in bodies if isinstance(body, bytes) or body not in UNREAD}
        removed: dict[str, list[bytes]] = {}
        put: list[tuple[bytes, Entry]] = []
        seen, commits, self._seen = self._seen, self.commits, None
        for revision, changed in found.items():
            some = {path: entry for path, entry in changed.items() if entry is not None and entry.object in mended} | more.get(revision, {})
            if some:
                self._change(revision, some, removed, put)
                self.commits = {one: commit for one, commit in self.commits.items() if one != revision}
        if put:
            self._rest = self._next_read = 0.0
        yield from self._steps(removed, put)
        self._seen, self.commits = seen, commits

    def _first_of(self, commits: dict[str, str]) -> dict[str, str]:
        """The commits of the first revisions, so many as there may be. The others are left out."""
        most = self.bounds.branches
        for name in self._behind:
            self.left_out.pop(name, None)
        behind: dict[bytes, str] = {name: reason for name, reason in self._behind.items() if _split(name)[0] in commits and reason != self.bounds.over_branches}
        if most is not None and len(commits) > most:
            names_of_all = list(commits)
            behind |= {self._start(name): self.bounds.over_branches for name in names_of_all[most : most + _MOST_NAMED]}
            commits = {name: commits[name] for name in names_of_all[:most]}
        self._behind = {}
        for name, reason in behind.items():
            self._leave_behind(_split(name)[0], reason)
        return commits

    def _leave_behind(self, revision: str, reason: str) -> None:
        """Notes that a revision, or the end of one, is left out."""
        name = self._start(revision)
        self._behind[name] = reason
        self._leave_out(name, reason)

    def _show(self, commits: dict[str, str], now: Mapping[str, str]) -> None:
        """Notes of which commits all was given."""
        self.commits = {**commits, **{revision: commit for revision, commit in self.commits.items() if now.get(revision) == commit}}
        self.commits = {revision: self.commits[revision] for revision in now if revision in self.commits}
        self._shown.update(self.commits)

    def _anew_of(self, revision: str, commit: str, done: int) -> Generator[Step, None, int]:
        """The steps for a revision that nobody knows of yet, behind so many others."""
        removed: dict[str, list[bytes]] = {}
        put: list[tuple[bytes, Entry]] = []
        self._change(revision, self._changes(revision, commit), removed, put)
        return (yield from _free(self._steps(removed, put, done)))

    def _all_beside(self, base: str, coming: list[str], now: dict[str, str], done: int) -> Generator[Step, None, tuple[set[str], int]]:
        """The steps for some revisions of which the session has nothing, at most so many as a look is to give. Those that are left out, and how
        many steps have come before the next ones."""
        left_out: set[str] = set()
        came: dict[str, str] = {}
        if not coming:
            return left_out, done
        some, first = coming[:_MOST_COMING], self._documents
        base_left_out = {name: reason for name, reason in self.left_out.items() if name.startswith(self._start(base)) and name not in self._behind}
        with contextlib.closing(self.store.all_changes([(now[base], now[one]) for one in some], self._most_files)) as found:
            for count, (revision, of_git) in enumerate(zip(some, found), 1):
                changed = self._compared(now[base], now[revision]) if of_git is None else of_git
                if changed is not None and self._has_room(base, changed, len(base_left_out)):
                    done = yield from _free(self._beside(base, base_left_out, revision, now[revision], changed, done))
                    came[revision] = now[revision]
                else:
                    self._leave_behind(revision, self.bounds.over_files if changed is not None else _UNREADABLE)
                    left_out.add(revision)
                if self._documents - first > _MOST_COPIED:
                    break
        self._show(came, now)
        self.has_more = len(coming) > count
        return left_out, done

    def _compared(self, before: str, after: str) -> dict[bytes, Entry | None] | None:
        """What two commits do not have alike that git does not compare, by all of their files. None if it does not list these either."""
        try:
            was, now = (self.store.files(commit, self._most_files, may_lack=True) for commit in (before, after))
        except NoRepository:
            return None
        gone: dict[bytes, Entry | None] = dict.fromkeys(path for path in was if path not in now)
        return {**gone, **{path: entry for path, entry in now.items() if was.get(path) != entry}}

    def _has_room(self, base: str, changed: Mapping[bytes, Entry | None], left_out: int) -> bool:
        """Whether a revision fits in that differs from another one in these paths."""
        room = self._room()
        return room is None or len(self.held.get(base, {})) + left_out + len(changed) <= room

    def _room(self) -> int | None:
        """How many documents more there may be."""
        return None if self.bounds.files is None else self.bounds.files - self._documents - len(self.left_out)

    @property
    def _most_names(self) -> int | None:
        """So many revisions of a pattern of names tell whether there are too many, and name others."""
        return None if self.bounds.branches is None else self.bounds.branches + _MOST_NAMED

    @property
    def _most_files(self) -> int | None:
        """So many files of a commit tell whether there are too many."""
        return None if self.bounds.files is None else self.bounds.files + 1

    def _take_in(self, gone: Collection[str]) -> None:
        """What of some revisions is left out no longer is."""
        for name in [name for name in self.left_out if _split(name)[0] in gone] if gone else []:
            del self.left_out[name]
            self._behind.pop(name, None)
        self._cut.difference_update(gone)

    def _coming(self, now: Mapping[str, str]) -> tuple[str, list[str]]:
        """The first revision, and the others of which the session has nothing, and which may begin as copies of it."""
        first = next(iter(now), "")
        passed = {first, *self._is_put}
        return first, [one for one in now if one not in passed and one not in self.commits and not self.held.get(one)] if self._copies else []

    def _beside(
        self, base: str, left_out: Mapping[bytes, str], revision: str, own: str, changed: Mapping[bytes, Entry | None], done: int
    ) -> Generator[Step, None, int]:
        """The steps for a revision of which the session has nothing, behind so many others, once it has another one, which leaves out some
        files, and from which it differs in these paths."""
        if self._is_to_copy(base, left_out, revision, changed):
            done = yield from self._copy(base, left_out, revision, changed, done)
        else:
            changed = self._changes(revision, own)
        removed: dict[str, list[bytes]] = {}
        put: list[tuple[bytes, Entry]] = []
        self._change(revision, changed, removed, put)
        return (yield from self._steps(removed, put, done))

    def _is_to_copy(self, base: str, left_out: Mapping[bytes, str], revision: str, changed: Mapping[bytes, Entry | None]) -> bool:
        """Whether a revision begins as a copy of another one, from which it differs in these paths: if more of the documents stay than go, and
        neither of the two has names that are too long."""
        held = self.held.get(base, {})
        lost = [path for path in changed if path in held]
        if len(held) - len(lost) <= sum(changed[path] is None for path in lost):
            return False
        longest = len(names.quote(self.prefix + self._start(revision))) + max(len(names.quote(path)) for path in held)
        return longest <= MOST_NAME and _TOO_LONG not in left_out.values()

    def _copy(
        self, base: str, left_out: Mapping[bytes, str], revision: str, changed: Mapping[bytes, Entry | None], done: int
    ) -> Generator[Step, None, int]:
        """The step that makes a revision a copy of another one, from which it differs in these paths. What is left out there is so here."""
        start, from_start = self._start(revision), self._start(base)
        held = self.held[revision] = dict(self.held[base])
        self._documents += len(held)
        for text in held.values():
            text.count += 1
            self._bytes += text.size
        self._copied.add(base, revision, changed.keys())
        for name, reason in left_out.items():
            if (path := name.removeprefix(from_start)) not in changed:
                self._leave_out(start + path, reason)
        if base in self._cut:
            self._cut.add(revision)
        if from_start in self._behind:
            self._leave_behind(revision, self._behind[from_start])
        yield Step(self.prefix + start, None, done, done + len(held), under=len(held), source=self.prefix + from_start)
        return done + len(held)

    def _change(
        self, revision: str, changed: Mapping[bytes, Entry | None], removed: dict[str, list[bytes]], put: list[tuple[bytes, Entry]]
    ) -> None:
        """Notes what is to be removed and to be put for the files of a revision that have changed, so many as there is room for."""
        start, held = self._start(revision), self.held[revision]
        removed[revision] = [path for path in changed if changed[path] is None and path in held]
        self._pass_over(start, changed)
        for path in changed:
            if text := held.get(path):
                self._give_up(text)
                held[path] = _GOING
        room = self._room()
        put_there = [(start + path, entry) for path, entry in changed.items() if entry is not None and path in held]
        new = [(start + path, entry) for path, entry in changed.items() if entry is not None and path not in held]
        room = None if room is None else max(room + sum(map(len, removed.values())) - len(put), 0)
        if room is not None and len(new) > room:
            self._cut.add(revision)
            self._leave_behind(revision, self.bounds.over_files)
            new = new[:room]
        put += put_there + new

    def _give_up(self, text: _Text) -> None:
        """Notes that one document less has a text."""
        self._bytes -= text.size
        text.count -= 1
        if not text.count and self._texts.get(text.number) is text:
            del self._texts[text.number]
            self._text_bytes -= text.size

    def _start(self, revision: str) -> bytes:
        return names.to_bytes(revision) + b":"

    def _changes(self, revision: str, commit: str) -> Mapping[bytes, Entry | None]:
        """What a revision has at a commit otherwise than the session has it."""
        before, start = self.commits.get(revision), self._start(revision)
        held = self.held.setdefault(revision, {})
        self._behind.pop(start, None)
        self.left_out.pop(start, None)
        if before is not None:
            with contextlib.suppress(NoRepository):  # git has dropped the commit
                changed = self.store.changes(before, commit, self._most_files)
                if revision not in self._cut:
                    return changed
                # what was left out may have room now
                self._cut.discard(revision)
                over = self.bounds.of_all
                files = self._files(revision, commit)
                again = {path: one for path, one in files.items() if path not in held and self.left_out.get(start + path, over[0]) in over}
                return {**again, **changed}
        self._cut.discard(revision)
        files = self._files(revision, commit)
        return {**dict.fromkeys(held.keys() - files.keys()), **files}

    def _files(self, revision: str, commit: str) -> dict[bytes, Entry]:
        """All files of a revision. Folders that could not be read, and now can or are gone, are left out no more."""
        files, start = self.store.files(commit, self._most_files, may_lack=True), self._start(revision)
        for name in [name for name in self.left_out if name.startswith(start) and name.endswith(b"/")]:
            if name[len(start) :] not in files and self.left_out[name] in UNREAD:
                del self.left_out[name]
        return files

    def _pass_over(self, start: bytes, changed: Mapping[bytes, Entry | None]) -> None:
        """What is left out no longer is, if it has changed."""
        for path in changed:
            self.left_out.pop(start + path, None)

    def _steps(self, removed: dict[str, list[bytes]], put: list[tuple[bytes, Entry]], done: int = 0) -> Generator[Step, None, int]:
        """The steps that remove some paths of revisions and put others, behind so many. How many have come before the next ones."""
        of = done + sum(map(len, removed.values())) + len(put)
        by_object: dict[bytes, list[bytes]] = collections.defaultdict(list)
        others = []
        for name, entry in put:
            if entry.kind in FILE_KINDS:
                by_object[entry.object].append(name)
            else:
                others.append((name, reason_of(entry)))
        staged: set[bytes] = set()
        admission = _Admission(self)
        bodies = self.store.bodies(list(by_object), admission.over) if by_object else iter(())
        if self._stages and any(self._is_shown(name) for name, _ in put):
            # all sizes are known once the first one is there
            first = list(itertools.islice(bodies, 1))
            bodies = itertools.chain(first, bodies)
            if admission.size > _STAGED:
                bodies = yield from self._staged(bodies, staged, done, of)
        done = yield from self._removals(removed, of, done)
        for name, reason in others:
            yield from self._without(name, reason, done, of)
            done += 1
        for number, found in bodies:
            body = self._body_of(number, found, admission)
            for name in by_object[number]:
                yield from self._put(name, number, body, done, of, number in staged)
                done += 1
        if self._has_staged:
            yield Step(self.prefix + _STAGE, None, done, of, under=max(len(staged), 1))
            self._has_staged = False
        return done

    def _body_of(self, number: bytes, found: bytes | str | int, admission: _Admission) -> bytes | str | int:
        """The text of an object, or why no document has it. Of one that is staged there is its length."""
        if not isinstance(found, bytes):
            return found
        body = text_body(found)
        if isinstance(body, bytes):
            return self.bounds.over_size(len(body)) or self.bounds.over_line(body) or admission.over_text(number, len(body)) or body
        return body

    def _is_shown(self, name: bytes) -> bool:
        return _split(name)[0] in self._shown

    def _staged(
        self, bodies: Iterator[tuple[bytes, bytes | str]], staged: set[bytes], done: int, of: int
    ) -> Generator[Step, None, Iterator[tuple[bytes, bytes | str | int]]]:
        """The steps that put texts under names of no revision. Each object with the length of what is put, or why nothing is."""
        self._has_staged = True
        told: list[tuple[bytes, bytes | str | int]] = []
        admission = _Admission(self)
        for number, found in bodies:
            body = self._body_of(number, found, admission)
            if isinstance(body, bytes):
                staged.add(number)
                yield Step(self.prefix + _STAGE + number, body, done, of, free=True)
            told.append((number, len(body) if isinstance(body, bytes) else body))
        return iter(told)

    def _removals(self, removed: dict[str, list[bytes]], of: int, done: int = 0) -> Generator[Step, None, int]:
        """The steps that remove some paths of revisions, behind so many. How many have come before the next ones."""
        for revision, gone in removed.items():
            start = self._start(revision)
            for begin, paths in _gathered(gone, self.held[revision]):
                yield Step(self.prefix + start + begin, None, done, of, under=0 if [begin] == paths else len(paths))
                # only now: what a look that fails here has not removed the next one removes
                for path in paths:
                    self._drop(start + path)
                done += len(paths)
        return done

    def _put(self, name: bytes, number: bytes, body: bytes | str | int, done: int, of: int, is_staged: bool = False) -> Iterator[Step]:
        """The step for a document with the text of an object; a text in place of its body is the reason why it can be none. One that is staged is
        copied."""
        if not isinstance(body, str):
            try:
                names.checked(self.prefix + name)
            except ChangeRefused as refused:
                body = refused.reason
        if isinstance(body, str):
            if body in self.bounds.of_all:
                self._cut.add(_split(name)[0])
            yield from self._without(name, body, done, of)
            return
        revision, path = _split(name)
        held = self.held[revision]
        (self._new.discard if path in held else self._new.add)(name)
        self._hold(held, path, number, body if isinstance(body, int) else len(body))
        if is_staged:
            yield Step(self.prefix + name, None, done, of, under=1, source=self.prefix + _STAGE + number)
        else:
            assert isinstance(body, bytes)
            yield Step(self.prefix + name, body, done, of)

    def _hold(self, held: dict[bytes, _Text], path: bytes, number: bytes, size: int) -> None:
        """Notes that the session has a document with the text of an object."""
        before = held.get(path)
        if before is None:
            self._documents += 1
        else:
            self._give_up(before)
        text = self._texts.get(number)
        if text is None:
            text = self._texts[number] = _Text(number, size)
            self._text_bytes += size
        text.count += 1
        self._bytes += text.size
        held[path] = text

    def _without(self, name: bytes, reason: str, done: int, of: int) -> Iterator[Step]:
        revision, path = _split(name)
        self._leave_out(name, reason)
        if path in self.held[revision]:
            yield Step(self.prefix + name, None, done, of)
            self._drop(name)

    def _drop(self, name: bytes) -> None:
        """Notes that the session has a document no longer."""
        revision, path = _split(name)
        text = self.held.get(revision, {}).pop(path, None)
        if text is not None:
            self._documents -= 1
            self._give_up(text)
        self._new.discard(name)

    def _leave_out(self, name: bytes, reason: str) -> None:
        if self.left_out.get(name) != reason:
            self.left_out[name] = reason
            self._news.append(LeftOut(name, reason))

    def take_refusals(self, refused: tuple[ChangeRefused, ...], are_sent: bool = True) -> list[bytes]:
        """Takes what a publish says was refused, or with `are_sent` false what is refused while some of the steps given are not yet sent. The
        documents to remove: the session has an older body of each."""
        stale = []
        for refusal in refused:
            name = refusal.name.removeprefix(self.prefix)
            revision, path = _split(name)
            if not refusal.name.startswith(self.prefix) or revision not in self.held:
                continue
            if not path:
                self._take_refused_copy(revision)
            elif path in self.held[revision]:
                is_stale = name not in self._new
                for one in (revision, *self._copied.of(revision, path)):
                    own = self._start(one) + path
                    if is_stale:
                        stale.append(self.prefix + own)
                    self._drop(own)
                    if one == revision or refusal.reason != _TOO_LONG:
                        self._leave_out(own, called(refusal.reason))
                    else:
                        self._put_anew(one)
                for one in self._copied_before.of(revision, path):
                    self._put_anew(one)
        self._new.clear()
        self._copied_before = _Copies() if are_sent else self._copied_before.and_more(self._copied)
        self._copied = _Copies()
        return stale

    def _take_refused_copy(self, revision: str) -> None:
        """The session has refused to make a revision a copy: it has the files alone that were put then."""
        held = self.held[revision]
        changed = next((paths for copies in (self._copied, self._copied_before) if (paths := copies.changed(revision)) is not None), held)
        for path in [path for path in held if path not in changed]:
            self._drop(self._start(revision) + path)
        self._put_anew(revision)

    def _put_anew(self, revision: str) -> None:
        """The next look puts all files of a revision, which is no copy any more."""
        self._is_put.add(revision)
        self._anew.add(revision)
        self.commits.pop(revision, None)

    def is_new(self, name: bytes) -> bool:
        """Whether the document of a step is new to the session."""
        return name.removeprefix(self.prefix) in self._new

    def take_news(self) -> list[LeftOut]:
        """What is left out and was not given before."""
        news, self._news = self._news, []
        return news


class _Admission:
    """Which texts come in, in their order, and how many bytes all of them have."""

    def __init__(self, objects: Objects) -> None:
        self._objects = objects
        self.size = 0
        self._count = 0

    def over(self, number: bytes, size: int) -> str:
        """Why an object of so many bytes is not read; empty if it is."""
        return self._objects.bounds.over_size(size) or self._over_all(number, size)

    def over_text(self, number: bytes, size: int) -> str:
        """Why a text is not taken that was read, of so many bytes; empty if it is. It may have more of them than the object."""
        objects = self._objects
        if number in objects._texts:
            return ""
        return objects.bounds.over_all(objects._text_bytes + size, 0, len(objects._texts) + 1)

    def _over_all(self, number: bytes, size: int) -> str:
        objects = self._objects
        if number in objects._texts:
            return ""
        reason = objects.bounds.over_all(objects._text_bytes + self.size + size, 0, len(objects._texts) + self._count + 1)
        if not reason:
            self.size += size
            self._count += 1
        return reason


def _free(steps: Generator[Step, None, int]) -> Generator[Step, None, int]:
    """The same steps, of what nobody knows of yet."""
    while True:
        try:
            step = next(steps)
        except StopIteration as ended:
            return int(ended.value)
        yield step._replace(free=True)


def _gathered(gone: list[bytes], held: Mapping[bytes, _Text]) -> Iterator[tuple[bytes, list[bytes]]]:
    """The paths that go, of all that are held: those of a folder of which none stays together, unless they are too many or have too much text,
    behind what they begin with, which ends with a `/` or is empty for all; and each other one behind itself."""
    lost = set(gone)
    staying = _folders(path for path in held if path not in lost) if len(lost) > 1 else set()
    counts = collections.Counter(folder for path in gone for folder in _above(path))
    sizes: collections.Counter[bytes] = collections.Counter()
    for path in gone:
        for folder in _above(path):
            sizes[folder] += held[path].size
    groups: dict[bytes, list[bytes]] = {}
    for path in gone:
        begin = next((one for one in _above(path) if one not in staying and counts[one] <= MOST_TOGETHER and sizes[one] <= PIECE), path)
        groups.setdefault(begin, []).append(path)
    for begin, paths in groups.items():
        yield begin if len(paths) > 1 else paths[0], paths


def _folders(paths: Iterable[bytes]) -> set[bytes]:
    """All folders that paths are in, as `_above` gives them."""
    found: set[bytes] = set()
    for path in paths:
        if path[: path.rfind(b"/") + 1] not in found:
            found.update(_above(path))
    return found


def _above(path: bytes) -> Iterator[bytes]:
    """The folders that a path is in, each as the beginning of the path, from the empty one at the top."""
    at = 0
    yield path[:0]
    while at := path.find(b"/", at) + 1:
        yield path[:at]


def _split(name: bytes) -> tuple[str, bytes]:
    """The revision and the path of a document's name. No name of a revision has a colon."""
    revision, _, path = name.partition(b":")
    return names.to_text(revision), path


class Revisions(Kept):
    """Keeps revisions of a git repository in a session.

    session: the session. Others may share it.
    path: the repository: a bare one, or the folder of a working tree, of which the objects count and not the files.
    wanted: names of branches, of tags and of commits, by default that of HEAD. A name with a `*`, `?` or `[` is each branch of such a name,
        or behind `tags/` each tag; those that come later belong to it too.
    prefix: what the names of its documents begin with. Then come the revision, a colon and the path, as in `git show main:src/a.c`.
    progress: is called with the number of changed files that are sent, and of all.

    A look costs the files in which a revision differs from its commit before, however far it moves; for one that comes, those in which it
    differs from the first one, if more of that one's files stay than go. Left out are submodules, symbolic links, and each file that can be
    no document, as for `tsearch.Folder`. Where the session refuses to copy a revision, `commits` lacks it until the next look, which puts its
    files. `NoRepository` if there is no repository.
    """

    def __init__(
        self,
        session: Session,
        path: str | bytes | os.PathLike[str] | os.PathLike[bytes],
        wanted: Sequence[str] = ("HEAD",),
        *,
        prefix: str | bytes = b"",
        progress: Progress | None = None,
    ) -> None:
        self._objects = Objects(Store(path), wanted, prefix, copies=True)
        super().__init__(session, self._objects, progress)

    @property
    def commits(self) -> dict[str, str]:
        """The commit of each revision that the session has."""
        return dict(self._objects.commits)
