"""The answers as text, for who reads no structured content: lines as `tgrep` writes them, and at the end what is left out."""

from __future__ import annotations

from typing import Any

from .pages import readable


def search(found: dict[str, Any]) -> str:
    """The text of a search."""
    rows = []
    for file in found.get("files", []):
        rows.append(readable(file["path"]))
        before, has_around = 0, any("around" in one for one in file["lines"])
        for line in file["lines"]:
            rows += ["--"] * (has_around and 0 < before < line["line"] - 1)
            rows.append(_line(line))
            before = line["line"]
    rows += [f"{readable(one['path'])}: {one['count']}" for one in found.get("counts", [])]
    rows += [readable(path) for path in found.get("paths", [])]
    what = "line" if "files" in found else "file"
    end = f"{found['found']:,} {what}{'' if found['found'] == 1 else 's'}"
    if found.get("not_searched"):
        end += f"; {found['not_searched']:,} files that may be text are not searched (list_files says why)"
    return _whole(rows, end, found)


def read_lines(found: dict[str, Any]) -> str:
    """The text of some lines of a file."""
    rows = [_line(line) for line in found["lines"]]
    end = f"{readable(found['path'])} has {found['of']:,} lines, version {found['version']}"
    if found["more"]:
        end += f"; go on with from {found['next_from']}"
    return "\n".join([*rows, f"[{end}]"])


def list_files(found: dict[str, Any]) -> str:
    """The text of a list."""
    rows = [f"{readable(one['path'])} {one['bytes']}{' (left out: ' + one['left_out'] + ')' if 'left_out' in one else ''}" for one in found["files"]]
    return _whole(rows, f"{len(rows):,} files", found)


def compare(found: dict[str, Any]) -> str:
    """The text of a comparison."""
    rows = []
    for line in found["lines"]:
        path = readable(line["new_path"] if "new_path" in line else line["old_path"])
        rows.append(f"{path}:{line.get('old_line', '')}:{line.get('new_line', '')}:{line['sign']}{readable(line['text'])}{_cut(line)}")
    end = f"{len(rows):,} lines of {found['before'][:12]}..{found['after'][:12]}"
    if found.get("outside"):
        end += f"; {found['outside']:,} lines of files outside the roots are not shown"
    return _whole([*rows, *(f"[{readable(one)}]" for one in found.get("messages", []))], end, found)


def _line(line: dict[str, Any]) -> str:
    return f"{line['line']}{'-' if line.get('around') else ':'}{readable(line['text'])}{_cut(line)}"


def _cut(line: dict[str, Any]) -> str:
    return f" [cut: from character {line['from'] + 1} of {line['of']}]" if "of" in line else ""


def _whole(rows: list[str], end: str, found: dict[str, Any]) -> str:
    left = f" ({found['left']:,} behind this page)" if found.get("left") else ""
    more = f"; there are more{left}: the same arguments with cursor {found['next_cursor']}" if found["more"] else ""
    return "\n".join([*rows, f"[{end}{more}]"])
