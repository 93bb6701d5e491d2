"""Repositories of git that tests make."""

from __future__ import annotations

import os
import pathlib
import subprocess

_WHO = "A <a@example.org> 1700000000 +0000"
_PATHS = {byte: b"\\%03o" % byte for byte in [*range(32), *range(127, 256), *b'"\\']}


def quoted_path(path: bytes) -> bytes:
    """A path as `git fast-import` reads it."""
    return b'"' + b"".join(_PATHS.get(byte, bytes([byte])) for byte in path) + b'"'


class Made:
    """A repository, bare unless it is said, and the files that each branch has."""

    def __init__(self, path: pathlib.Path, is_bare: bool = True, sha256: bool = False) -> None:
        self.path = path
        self._environment = {key: text for key, text in os.environ.items() if not key.startswith("GIT_")}
        self._environment |= {"HOME": str(path.parent), "GIT_CONFIG_NOSYSTEM": "1", "LC_ALL": "C"}
        for role in "AUTHOR", "COMMITTER":
            self._environment |= {f"GIT_{role}_NAME": "A", f"GIT_{role}_EMAIL": "a@example.org"}
        words = ["--bare"] * is_bare + ["--object-format=sha256"] * sha256
        if not path.exists():
            subprocess.run(["git", "init", "-q", "-b", "main", *words, str(path)], env=self._environment, check=True)
        self.files: dict[str, dict[bytes, bytes]] = {}

    def git(self, *words: str, stdin: bytes | None = None) -> str:
        """What a command of git writes."""
        command = ["git", "-C", str(self.path), "-c", "protocol.file.allow=always", *words]
        done = subprocess.run(command, env=self._environment, input=stdin, capture_output=True, check=False)
        assert done.returncode == 0, (words, done.stderr)
        return done.stdout.decode(errors="surrogateescape").strip()

    def commit(self, branch: str, changed: dict[bytes, bytes | None], start: str | None = "", other: bytes = b"") -> str:
        """Makes a commit on a branch: files with their bytes, or None for those that go. It follows the commit before; or, if it is said, a
        name, or with None nothing, so that history is written anew. `other` are lines more for `git fast-import`. The commit."""
        before = self.files.get(branch, {}) if start == "" else self.files.get(start, {}) if start else {}
        reset = b"reset refs/heads/%s\n\n" % branch.encode() if start is None else b""
        parent = self.git("rev-parse", "-q", "--verify", start or branch) if start != "" else self._tip(branch)
        lines = [reset, b"commit refs/heads/%s\ncommitter %s\ndata 1\nc\n" % (branch.encode(), _WHO.encode())]
        lines += [b"from %s\n" % parent.encode()] if parent and start is not None else []
        for path, body in changed.items():
            lines.append(b"D %s\n" % quoted_path(path) if body is None else b"M 100644 inline %s\ndata %d\n%s\n" % (quoted_path(path), len(body), body))
        self.git("fast-import", "--quiet", "--force", stdin=b"".join([*lines, other, b"\n"]))
        self.files[branch] = {path: body for path, body in {**before, **changed}.items() if body is not None}
        return self._tip(branch)

    def _tip(self, branch: str) -> str:
        return self.git("for-each-ref", "--format=%(objectname)", f"refs/heads/{branch}")
