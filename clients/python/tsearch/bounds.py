"""What is taken of a folder or a repository at most. What is over it is left out, and named with the bound that it is over."""

from __future__ import annotations

from dataclasses import dataclass

from .program import MOST_BODY

# So the reasons begin for which something is left out that is over a bound.
_OVER = "over "


@dataclass(frozen=True)
class Bounds:
    """The most bytes of a file and of one line. And of all of a folder or a repository together: the most bytes of texts that differ, of
    documents and of what is left out, of revisions, and of texts that differ. None is as many as there is memory for."""

    body: int = MOST_BODY
    line: int = MOST_BODY
    bytes: int | None = None
    files: int | None = None
    branches: int | None = None
    objects: int | None = None

    def over_size(self, size: int) -> str:
        """Why a file of so many bytes is left out; empty if it is not."""
        if size <= self.body:
            return ""
        return "body too long" if self.body >= MOST_BODY else f"{_OVER}{self.body:,} bytes"

    def over_line(self, body: bytes) -> str:
        """Why a text is left out for one of its lines; empty if it is not."""
        return f"{_OVER}{self.line:,} bytes in a line" if has_longer_line(body, self.line) else ""

    def over_all(self, size: int, files: int, objects: int) -> str:
        """Why one more is left out that makes so many of all; empty if it is not."""
        for number, most, what in (files, self.files, "files"), (objects, self.objects, "different files"), (size, self.bytes, "bytes of all files"):
            if most is not None and number > most:
                return f"{_OVER}{most:,} {what}"
        return ""

    @property
    def of_all(self) -> tuple[str, ...]:
        """The reasons for which something is left out that may have room once something else goes."""
        endless = 1 << 62
        return tuple(reason for reason in (self.over_all(0, endless, 0), self.over_all(0, 0, endless), self.over_all(endless, 0, 0)) if reason) or ("",)

    @property
    def over_branches(self) -> str:
        """Why a revision is left out behind others."""
        return f"{_OVER}{self.branches or 0:,} branches and tags"

    @property
    def over_files(self) -> str:
        """Why files are left out behind others."""
        return f"{_OVER}{self.files or 0:,} files"


def is_over(reason: str) -> bool:
    """Whether something is left out because it is over a bound."""
    return reason.startswith(_OVER)


def has_longer_line(body: bytes, most: int) -> bool:
    """Whether a line of a text has more than so many bytes. It looks at little more than the last line feed of each such piece."""
    at = 0
    while len(body) - at > most:
        end = body.rfind(b"\n", at, at + most + 1)
        if end < 0:
            return True
        at = end + 1
    return False
