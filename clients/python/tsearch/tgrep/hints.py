"""What to write in place of a pattern that is refused, or that would not mean what its writer is used to."""

from __future__ import annotations

import re

from ..errors import PatternRefused

_ESCAPES = {
    "d": "[0-9]",
    "D": "[^0-9]",
    "w": "[[:alnum:]_]",
    "W": "[^[:alnum:]_]",
    "s": "[[:space:]]",
    "S": "[^[:space:]]",
    "b": "-w for whole words",
    "<": "-w for whole words",
    ">": "-w for whole words",
    "B": "a pattern without it",
    "t": "a tab, as in $'\\t'",
    "n": "two patterns: a match lies within a line",
    "h": "[[:blank:]]",
}


def hint(refused: PatternRefused) -> str:
    """The hint for a refusal; empty if there is none."""
    pattern, at = refused.pattern.decode(errors="replace"), refused.offset
    after = pattern[at + 1 : at + 2]
    if refused.number and refused.reason.startswith("space"):
        return "a space in a path is %20"
    if refused.number and refused.reason == "nothing to repeat":
        return "--name takes a regular expression: -g takes globs such as '*.txt'"
    if refused.reason == "bad escape":
        if not after:
            return "-F takes it as a text"
        if after in _ESCAPES:
            return f"for \\{after} write {_ESCAPES[after]}"
        if after.isdigit():
            return "there are no back-references: rg -P or grep -E has them"
        return f"for \\{after} write {after}"
    if refused.reason == "nothing to repeat":
        return _of_repeat(pattern, at)
    if refused.reason in ("group not closed", "bracket not closed", "bad interval"):
        return f"write \\{pattern[at]} for the character itself, or -F for a text"
    if refused.reason == "pattern too long" and refused.number:
        return "--name and --not-name take at most 1,024 bytes each"
    if refused.reason == "pattern too long":
        return "write fewer patterns, or use rg -f FILE"
    return ""


def _of_repeat(pattern: str, at: int) -> str:
    """The hint for a repeat of nothing."""
    if pattern[at - 1 : at + 1] == "(?":
        if pattern[at + 1 : at + 2] == ":":
            return "write ( for (?:"
        if re.match(r"\(\?[a-z]*i[a-z]*\)", pattern[at - 1 :]):
            return "write -i for (?i)"
        return "there is no lookaround and there are no named groups: rg -P has them"
    if pattern.startswith("*.") or (pattern[at] in "*?" and at == 0):
        return "this looks like a glob: write -g GLOB for names of files, \\* for a star, or -F for a text"
    return f"write \\{pattern[at]} for the character itself, or -F for a text"
