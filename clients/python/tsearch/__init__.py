"""Clients of tsearch, a live trigram code search.

`Session` is a program that keeps documents and answers searches, shared by any number of threads; `tsearch.aio.Session` is the same
for asyncio. `Folder` keeps the files of a folder in a session, `tsearch.git.Revisions` branches of a git repository, and
`tsearch.review.Review` the files of a patch. `tsearch.tgrep` is the command `tgrep` of the
terminal, and `python3 -m tsearch.web` serves a page. README.md in this package's folder shows each.
"""

# As in pyproject.toml.
__version__ = "0.1.0"

# A part is loaded once a name of it is used: the command tgrep starts in some milliseconds, and needs none of them for that.
TYPE_CHECKING = False
if TYPE_CHECKING:
    from .answers import Answer, Hit, Published, Row, Status, TextHit, View
    from .errors import (
        Cancelled,
        ChangeRefused,
        Ended,
        Error,
        NotUnderstood,
        OptionRefused,
        PatternRefused,
        PublishRefused,
        Refused,
        SearchRefused,
        TooSlow,
    )
    from .folder import Folder, LeftOut, Refreshed
    from .names import quote, unquote
    from .program import find_program
    from .query import Options, escape
    from .session import Change, Changes, Search, Session

__all__ = [
    "Answer",
    "Cancelled",
    "Change",
    "ChangeRefused",
    "Changes",
    "Ended",
    "Error",
    "Folder",
    "Hit",
    "LeftOut",
    "NotUnderstood",
    "OptionRefused",
    "Options",
    "PatternRefused",
    "PublishRefused",
    "Published",
    "Refreshed",
    "Refused",
    "Row",
    "Search",
    "SearchRefused",
    "Session",
    "Status",
    "TextHit",
    "TooSlow",
    "View",
    "escape",
    "find_program",
    "quote",
    "unquote",
]

_PARTS = {
    "answers": ("Answer", "Hit", "Published", "Row", "Status", "TextHit", "View"),
    "errors": (
        "Cancelled",
        "ChangeRefused",
        "Ended",
        "Error",
        "NotUnderstood",
        "OptionRefused",
        "PatternRefused",
        "PublishRefused",
        "Refused",
        "SearchRefused",
        "TooSlow",
    ),
    "folder": ("Folder", "LeftOut", "Refreshed"),
    "names": ("quote", "unquote"),
    "program": ("find_program",),
    "query": ("Options", "escape"),
    "session": ("Change", "Changes", "Search", "Session"),
}


def __getattr__(name: str) -> object:
    import importlib

    for part, names in _PARTS.items():
        if name in names:
            found = getattr(importlib.import_module(f".{part}", __name__), name)
            globals()[name] = found
            return found
    raise AttributeError(f"module {__name__!r} has no attribute {name!r}")


def __dir__() -> list[str]:
    """The public names, for completion: most are not loaded yet."""
    return sorted({*__all__, *(name for name in globals() if name.startswith("__"))})
