"""The tools, as agents are told of them: what each takes and gives, as JSON Schemas."""

from __future__ import annotations

from typing import Any

MOST_LINES, MOST_FILES, MOST_CONTEXT = 1_000, 5_000, 50
LINES, FILES, READ = 100, 500, 200
_MOST_PATTERN, _MOST_PATH = 1_024, 4_096

PATTERNS = (
    "Patterns are POSIX extended regular expressions over bytes, within a line: . [a-z] [^a-z] [[:alnum:]_] ( | ) * + ? {2,5} ^ $ and \\ before "
    "such a byte; there is no \\d, \\w, \\s, \\b, (?:, lookaround or lazy repeat: write [0-9], [[:alnum:]_], [[:space:]], whole_words, (. "
    "literal takes the pattern as a text."
)
INSTRUCTIONS = (
    "Searches the files of the client's roots, from an index that sees each change on the disk. Files that .gitignore, .ignore or .rgignore name, "
    f"binary files and symbolic links are left out. {PATTERNS} Answers are pages: next_cursor, with the same other arguments, goes on."
)

_BYTES: dict[str, Any] = {
    "type": "object",
    "properties": {"base64": {"type": "string", "maxLength": 2 * _MOST_PATH}},
    "required": ["base64"],
    "additionalProperties": False,
}


def _text(about: str, most: int, least: int = 0) -> dict[str, Any]:
    return {"type": "string", "minLength": least, "maxLength": most, "description": about}


def _number(about: str, least: int, most: int, default: int | None = None) -> dict[str, Any]:
    return {"type": "integer", "minimum": least, "maximum": most, "description": about, **({} if default is None else {"default": default})}


def _flag(about: str) -> dict[str, Any]:
    return {"type": "boolean", "default": False, "description": about}


def _list(about: str, items: dict[str, Any], most: int = 32) -> dict[str, Any]:
    return {"type": "array", "items": items, "maxItems": most, "description": about}


def _path(about: str) -> dict[str, Any]:
    return {"anyOf": [{"type": "string", "maxLength": _MOST_PATH}, _BYTES], "description": about}


def _input(required: list[str], **properties: Any) -> dict[str, Any]:
    return {"type": "object", "properties": properties, "required": required, "additionalProperties": False}


_PATTERN = {
    "pattern": _text(PATTERNS, _MOST_PATTERN),
    "literal": _flag("the pattern is a text"),
    "ignore_case": _flag("ASCII letters match both their cases"),
    "whole_words": _flag("only matches with no letter, digit or _ right before or after them"),
}
_NAMES = {
    "globs": _list("only files that match one, such as *.c or src/**; with ! before it, none that match; those with ! come last", _text("", 256, 1)),
    "types": _list("only files of these types, such as c, py or go", _text("", 64, 1)),
}
_CURSOR = {"cursor": _text("next_cursor of the page before, with the same other arguments", 16_384)}

# What comes out. An outputSchema says nothing of more keys, so clients take those of later versions.
_SHOWN = {"anyOf": [{"type": "string"}, {"type": "object", "properties": {"base64": {"type": "string"}}, "required": ["base64"]}]}
_COUNT = {"type": "integer", "minimum": 0}
_YES = {"type": "boolean"}
_LINE = {
    "type": "object",
    "properties": {
        "line": {**_COUNT, "description": "from 1"}, "text": _SHOWN, "column": {**_COUNT, "description": "of the first match, in characters from 1"},
        "around": {**_YES, "description": "the line is only near one that is found"},
        "from": {**_COUNT, "description": "where the text begins in the line, in characters, if only a part is shown"},
        "of": {**_COUNT, "description": "the length of the whole line, if only a part is shown"},
    },
    "required": ["line", "text"],
}  # fmt: skip
_PAGE = {"more": {**_YES, "description": "whether something is left out of this page"}, "next_cursor": {"type": "string"}}


def _rows(properties: dict[str, Any], required: list[str]) -> dict[str, Any]:
    return {"type": "array", "items": {"type": "object", "properties": properties, "required": required}}


def _output(required: list[str], **properties: Any) -> dict[str, Any]:
    return {"type": "object", "properties": properties, "required": required}


def _tool(name: str, title: str, about: str, takes: dict[str, Any], gives: dict[str, Any]) -> dict[str, Any]:
    hints = {"title": title, "readOnlyHint": True, "destructiveHint": False, "idempotentHint": True, "openWorldHint": False}
    return {"name": name, "title": title, "description": about, "inputSchema": takes, "outputSchema": gives, "annotations": hints}


_LINES_OF_FILES = _rows(
    {"path": _SHOWN, "version": {"type": "string", "description": "for read_lines, to read the file as it was searched"}, "lines": {"type": "array", "items": _LINE}},
    ["path", "version", "lines"],
)  # fmt: skip
_SEARCH = _tool(
    "search", "Search", "Finds the lines of files that match a pattern, in the order of the paths.",
    _input(
        ["pattern"], **_PATTERN,
        paths=_list("only these files and folders, by default all roots; globs with a / begin at the folder", _path("")), **_NAMES,
        context=_number("lines shown before and after each", 0, MOST_CONTEXT, 0),
        limit=_number("lines of a page, or files with counts and files_only", 1, MOST_LINES, LINES),
        counts=_flag("only how many lines each file has"), files_only=_flag("only the paths of the files"), **_CURSOR,
    ),
    _output(
        ["found", "more"], files=_LINES_OF_FILES, counts=_rows({"path": _SHOWN, "count": _COUNT}, ["path", "count"]),
        paths={"type": "array", "items": _SHOWN}, found={**_COUNT, "description": "lines of this page, or files"}, **_PAGE,
        not_searched={**_COUNT, "description": "files that are or may be text and are not searched, since they are too long or cannot be read"},
    ),
)  # fmt: skip
_READ = _tool(
    "read_lines", "Read lines", "Shows lines of a file that is searched; with version as it was searched.",
    _input(
        ["path"], path=_path("the file"), **{"from": _number("the first line", 1, 2**31, 1)},
        to=_number(f"the last line, by default {READ} lines on; a page has at most {MOST_LINES}", 1, 2**32),
        version=_text("that of an answer of search", 64),
    ),
    _output(
        ["path", "version", "lines", "of", "more"], path=_SHOWN, version={"type": "string"}, lines={"type": "array", "items": _LINE},
        of={**_COUNT, "description": "how many lines the file has"}, more=_PAGE["more"],
        next_from={**_COUNT, "description": "from of the next page, with the same version"},
    ),
)  # fmt: skip
_FILES = _tool(
    "list_files", "List files", "Lists the files that are searched, and those that are left out with the reason.",
    _input([], under=_path("only files of this folder, by default all roots"), **_NAMES, limit=_number("files of a page", 1, MOST_FILES, FILES), **_CURSOR),
    _output(
        ["files", "more"], files=_rows({"path": _SHOWN, "bytes": _COUNT, "left_out": {"type": "string"}}, ["path", "bytes"]),
        left={**_COUNT, "description": "how many files of this root or folder come behind this page"}, **_PAGE,
    ),
)  # fmt: skip
_COMPARE = _tool(
    "compare", "Compare", "Finds the lines with a match that a patch between two git revisions removes (-), adds (+) and leaves (space), in the files that it changes.",
    _input(
        ["range", "pattern"],
        range=_text("A..B; HEAD stands for what is left out; A...B begins where B has left A", 512, 2), **_PATTERN,
        under=_path("only this folder or file; needed where there are several roots"), **_NAMES,
        limit=_number("lines of a page", 1, MOST_LINES, LINES), **_CURSOR,
    ),
    _output(
        ["lines", "before", "after", "more"],
        lines=_rows(
            {"sign": {"type": "string", "enum": ["-", "+", " "]}, "old_path": _SHOWN, "old_line": _COUNT, "new_path": _SHOWN, "new_line": _COUNT,
             "text": _SHOWN, "from": _COUNT, "of": _COUNT},
            ["sign", "text"],
        ),
        before={"type": "string"}, after={"type": "string"}, outside={**_COUNT, "description": "lines of files outside the roots, which are not shown"},
        messages={"type": "array", "items": {"type": "string"}}, **_PAGE,
    ),
)  # fmt: skip

TOOLS = (_SEARCH, _READ, _FILES, _COMPARE)
BY_NAME = {tool["name"]: tool for tool in TOOLS}
