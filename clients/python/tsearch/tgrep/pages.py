"""`--help`, the manual page, and completions for shells, all of the table of options."""

from __future__ import annotations

from typing import Any

from . import VERSION
from .options import GROUPS, REFUSED
from .types import TYPES

_SUMMARY = "searches files for a POSIX extended regular expression, through a server that keeps them"
_USES = (
    "tgrep [OPTIONS] PATTERN [PATH...]",
    "tgrep [OPTIONS] -e PATTERN ... [PATH...]",
    "tgrep [OPTIONS] --files [PATH...]",
    "tgrep --status | --stop | --socket | --mcp",
)
_TEXTS = (
    (
        "Paths",
        "Without PATH the working folder is searched, or standard input if that is a file or a pipe and there is no -r. A PATH that is - is "
        "standard input. Paths are shown as they were typed. A file is searched whatever rules name it.",
    ),
    (
        "The server",
        "The first call in a tree starts a server for it, in the background; the tree is the git repository that the folder is in, and otherwise "
        "the folder. Later calls ask it, and see each change that was on the disk before. It ends after 30 minutes without a call, once 8 others "
        "were called since, with the folder, or by --stop. Other users cannot reach it: its socket is in $XDG_RUNTIME_DIR/tgrep, /tmp/tgrep-UID or "
        "~/.cache/tgrep, which is the user's alone. With watchman and its library for Python it is told what has changed; otherwise each call "
        "looks through the folder. A write through mapped memory is told to nobody, so it may be seen later.",
    ),
    (
        "What is left out",
        "What .gitignore names is left out in a git repository, unless git tracks it; what .ignore and .rgignore name, everywhere. So are symbolic "
        "links (-R follows them), what is named .git, files with a byte 0, and, with a message, files of over 64 MiB that are not "
        "named as a PATH. If nothing is found and a file could not be searched, the status is 2.",
    ),
    (
        "Patterns",
        "What Perl, Python and rg share is translated, unless there is --posix or -F: \\d \\w \\s \\h and their capitals, also in brackets, \\b \\< \\>, "
        "(?:...), a leading (?i), *? +? ??, \\t and \\x41. The lines are the same; with \\b a match may be a byte or the rest of a word longer. What has "
        "no such form is refused, with the place and what to write: look-around, back-references, possessive repeats and \\p{..}. docs/PATTERNS.md has the table.",
    ),
    (
        "How it differs from grep and rg",
        "Lines have their numbers and paths unless -N and -h say otherwise; a single file has no path. Hidden files are searched, as by grep. -h, "
        "-L, -r, -s, -E and -I mean what they mean for grep, and all other letters what they mean for both or for rg. -c and -l show no file "
        "without a line. At a terminal a line of over 1,000 bytes is shown around its matches, unless -M says otherwise. A pattern is a POSIX extended regular expression over bytes.",
    ),
    ("Status", "0 if a line was found, 1 if none was, and 2 after an error, such as a file that may not be read; with -q 0 once a line is found."),
    (
        "Environment",
        "TSEARCH names the program; TGREP_IDLE is how many seconds a server stays without a call, and TGREP_LOOK how many it waits between looks through its folder. Colours are shown at a "
        "terminal alone, and not with a NO_COLOR that is not empty, unless --color or -p says otherwise.",
    ),
)
_WIDTH = 100
_COLUMN = 36


def page(given: dict[str, Any]) -> str:
    """The page that is asked for."""
    if given.get("help"):
        return help_page()
    if given.get("manual"):
        return manual()
    if given.get("type_list"):
        return "".join(f"{name}: {', '.join(globs)}\n" for name, globs in sorted(TYPES.items()))
    if "completion" in given:
        return {"bash": bash, "zsh": zsh, "fish": fish}[given["completion"]]()
    return f"tgrep {VERSION}\n"


def _rows() -> list[tuple[str, list[tuple[tuple[str, ...], str | None, Any, str]]]]:
    """The groups of options, each option with its words, what follows them, the values that may, and its text."""
    return [(group, [(words, metavar, value, text) for words, metavar, _, value, text in rows]) for group, rows in GROUPS]


def _wrapped(text: str, width: int) -> list[str]:
    lines = [""]
    for word in text.split():
        if lines[-1] and len(lines[-1]) + 1 + len(word) > width:
            lines.append("")
        lines[-1] += " " * bool(lines[-1]) + word
    return lines


def _named(words: tuple[str, ...], metavar: str | None) -> str:
    if metavar is None:
        return ", ".join(words)
    if metavar[0] == "[":
        return ", ".join(f"{word}[={metavar[1:]}" for word in words)
    return ", ".join(f"{word}={metavar}" if word.startswith("--") else f"{word} {metavar}" for word in words)


def help_page() -> str:
    """What --help shows."""
    lines = [f"tgrep {_SUMMARY}.", "", *(f"  {use}" for use in _USES)]
    for group, rows in _rows():
        lines += ["", f"{group}:"]
        for words, metavar, _, text in rows:
            first, *more = _wrapped(text, _WIDTH - _COLUMN)
            name = f"  {_named(words, metavar)}"
            lines += [name.ljust(_COLUMN) + first] if len(name) < _COLUMN else [name, " " * _COLUMN + first]
            lines += [" " * _COLUMN + line for line in more]
    for title, text in _TEXTS:
        lines += ["", f"{title}:", *(f"  {line}" for line in _wrapped(text, _WIDTH - 2))]
    return "\n".join(lines) + "\n"


def _roff(text: str) -> str:
    text = text.replace("\\", "\\e").replace("-", "\\-")
    return f"\\&{text}" if text.startswith((".", "'")) else text


def manual() -> str:
    """The manual page tgrep.1."""
    lines = [".TH TGREP 1", ".SH NAME", f"tgrep \\- {_roff(_SUMMARY)}", ".SH SYNOPSIS"]
    for use in _USES:
        lines += [_roff(use), ".br"]
    lines.append(".SH OPTIONS")
    for group, rows in _rows():
        lines.append(f".SS {_roff(group)}")
        for words, metavar, _, text in rows:
            lines += [".TP", f".B {_roff(_named(words, metavar))}", _roff(text)]
    for title, text in _TEXTS:
        lines += [f'.SH "{title.upper()}"', *map(_roff, _wrapped(text, _WIDTH))]
    lines.append('.SH "WHAT IS REFUSED"')
    for word, instead in REFUSED.items():
        lines += [".TP", f".B {_roff(word)}", _roff(instead)]
    lines += [".SH SEE ALSO", "grep(1), rg(1), watchman(1)"]
    return "\n".join(lines) + "\n"


def _all() -> list[tuple[tuple[str, ...], str | None, Any, str]]:
    return [row for _, rows in _rows() for row in rows]


def _choices(metavar: str | None, value: Any) -> list[str]:
    """What may follow an option, where that is known."""
    return list(value) if isinstance(value, tuple) else sorted(TYPES) if metavar == "TYPE" else []


def bash() -> str:
    """The completion for bash."""
    words = " ".join(word for words, _, _, _ in _all() for word in words if len(word) > 2)
    cases = []
    for names, metavar, value, _ in _all():
        if choices := _choices(metavar, value):
            cases.append(f"    {' | '.join(names)}) COMPREPLY=($(compgen -W '{' '.join(choices)}' -- \"$word\")); return ;;")
        elif metavar in ("FILE", "FOLDER"):
            cases.append(f"    {' | '.join(names)}) COMPREPLY=($(compgen -f -- \"$word\")); return ;;")
        elif metavar:
            cases.append(f"    {' | '.join(names)}) return ;;")
    return "\n".join([
        "# Completion of tgrep for bash: source it.",
        "_tgrep() {",
        "    local word=${COMP_WORDS[COMP_CWORD]}",
        '    case ${COMP_WORDS[COMP_CWORD - 1]} in',
        *cases,
        "    esac",
        f"    if [[ $word == -* ]]; then COMPREPLY=($(compgen -W '{words}' -- \"$word\")); else COMPREPLY=($(compgen -f -- \"$word\")); fi",
        "}",
        "complete -o filenames -F _tgrep tgrep",
        "",
    ])  # fmt: skip


def zsh() -> str:
    """The completion for zsh."""

    def quoted(text: str) -> str:
        return text.replace("\\", "\\\\").replace("'", "'\\''").replace("[", "\\[").replace("]", "\\]").replace(":", "\\:")

    rows = []
    for words, metavar, value, text in _all():
        for word in words:
            action = f"({' '.join(_choices(metavar, value))})" if _choices(metavar, value) else "_files" if metavar in ("FILE", "FOLDER") else ""
            # what follows may come in the same word
            joined = "" if metavar is None else "=" if word.startswith("--") else "+"
            rows.append(f"    '*{word}{joined}[{quoted(text)}]{f':{quoted(metavar)}:{action}' if metavar else ''}' \\")
    return "\n".join(["#compdef tgrep", "_arguments -s -S \\", *rows, "    '*:file:_files'", ""])


def fish() -> str:
    """The completion for fish."""
    rows = []
    for words, metavar, value, text in _all():
        names = " ".join(f"-l {word[2:]}" if word.startswith("--") else f"-s {word[1]}" for word in words)
        choices = _choices(metavar, value)
        more = f" -x -a '{' '.join(choices)}'" if choices else " -r" if metavar in ("FILE", "FOLDER") else " -x" if metavar else ""
        escaped = text.replace("\\", "\\\\").replace("'", "\\'")
        rows.append(f"complete -c tgrep {names}{more} -d '{escaped}'")
    return "\n".join(rows) + "\n"
