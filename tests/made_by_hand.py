#!/usr/bin/env python3
"""Finds the places of the sources that make the error of refused memory by hand.

A contract cannot say that memory is there: code that answers "out of memory" although nothing was refused is
proved too. So each place that makes such an error (`AllocError`, `AllocFailed` or an `OutOfMemory`) instead of
passing one on with `?` is listed in made_by_hand.txt with its reason. Any other place is a fault, and so is a
listed place that no longer exists.

A place is a file, a function, and the statement or match arm that makes the error, after the heads of the
blocks around it in that function. So a changed condition is a new place. Tests (`#[cfg(test)]`, and crates
whose names end in `_tests`) and contracts are skipped, and so are patterns, comparisons and types. The check
cannot see a growth that asks for more memory than there can be.

Usage: tests/made_by_hand.py           checks the list
       tests/made_by_hand.py --print   prints the places as the list has them, for copying
"""

import re
import sys

from built import TOP
from counted import Counted

LIST = TOP / "tests/made_by_hand.txt"
ERRORS = {"AllocError", "AllocFailed", "OutOfMemory"}
TOKEN = re.compile(
    r"""(?P<space>\s+|//[^\n]*)
      | (?P<text>b?r(?P<fence>\#*)"(?:.|\n)*?"(?P=fence) | [bc]?"(?:\\(?:.|\n)|[^"\\])*" | b?'(?:\\[^u]|\\u\{[^}]*\}|\\x..|[^'\\])')
      | (?P<life>'[A-Za-z_]\w*)
      | (?P<word>[A-Za-z_]\w*|\d[\w.]*?(?=\W|\.\.|$))
      | (?P<mark>=>|->|::|==|!=|<=|>=|&&|\|\||\.\.=|\.\.|.)""",
    re.VERBOSE,
)
CLOSERS = {"(": ")", "[": "]", "{": "}"}
CLAUSES = {"requires", "ensures"}


class Token:
    def __init__(self, text, line):
        self.text = text
        self.line = line


class Place:
    """Where an error is made."""

    def __init__(self, path, line, function, made):
        self.path = path
        self.line = line
        self.function = function
        self.made = made

    def key(self):
        return self.path, self.function, self.made


def without_block_comments(text):
    """The text with spaces in place of block comments, which may be nested."""
    parts, depth, at = [], 0, 0
    for mark in re.finditer(r'"(?:\\.|[^"\\])*"|//[^\n]*|/\*|\*/', text, re.DOTALL):
        found = mark.group()
        if depth == 0 and found == "/*":
            parts.append(text[at : mark.start()])
            at, depth = mark.start(), 1
        elif depth > 0 and found in ("/*", "*/"):
            depth += 1 if found == "/*" else -1
            if depth == 0:
                parts.append(re.sub(r"[^\n]", " ", text[at : mark.end()]))
                at = mark.end()
    return "".join(parts) + text[at:]


def tokens_of(text):
    tokens, line = [], 1
    for found in TOKEN.finditer(without_block_comments(text)):
        if found.lastgroup != "space":
            tokens.append(Token(found.group(), line))
        line += found.group().count("\n")
    return tokens


def ends_of_brackets(tokens):
    """For each opening bracket the place of its closing one."""
    ends, opened = {}, []
    for at, token in enumerate(tokens):
        if token.text in CLOSERS:
            opened.append(at)
        elif token.text in CLOSERS.values() and opened:
            ends[opened.pop()] = at
    return ends


class Source:
    """The tokens of a file, and what each of them is part of."""

    def __init__(self, path, text):
        self.path = path
        self.tokens = tokens_of(text)
        self.ends = ends_of_brackets(self.tokens)
        # tokens that make no value: contracts, tests, imports, types, patterns
        self.dead = [False] * len(self.tokens)
        self.test_modules = []
        # the bodies of the functions: where each begins, and the function's name
        self.bodies = {}
        for at in range(len(self.tokens)):
            self.mark(at)

    def text(self, at):
        return self.tokens[at].text if 0 <= at < len(self.tokens) else ""

    def texts(self, start, count):
        return [self.text(at) for at in range(start, start + count)]

    def kill(self, start, end):
        for at in range(start, min(end, len(self.tokens))):
            self.dead[at] = True

    def next_of(self, start, marks):
        """The place of the first of these marks outside brackets, or the end of what is around it."""
        at = start
        while at < len(self.tokens):
            text = self.text(at)
            if text in marks:
                return at
            if text in CLOSERS.values():
                return at
            at = self.ends.get(at, at) + 1
        return at

    def mark(self, at):
        text = self.text(at)
        if text == "#" and self.text(at + 1) == "[":
            self.mark_attribute(at)
        elif text == "ghost" or (text == "use" and self.text(at - 1) not in (".", "::")):
            self.mark_import(at, self.next_of(at, {";"}))
        elif text in CLAUSES:
            self.mark_clause(at)
        elif text == "fn" and re.match(r"\w", self.text(at + 1)):
            self.mark_header(at)
        elif text in ("impl", "trait") and self.text(at - 1) not in (":", "&", "(", "<", ",", "->", "dyn"):
            self.kill(at, self.next_of(at, {"{", ";"}))
        elif text in ("struct", "enum", "union") and re.match(r"\w", self.text(at + 1)):
            end = self.next_of(at, {"{", ";"})
            self.kill(at, self.ends.get(end, end) + 1)
        elif text == "match":
            self.mark_match(at)
        elif text == "let":
            self.kill(at, self.next_of(at, {"=", ";"}))
        elif text == "matches" and self.text(at + 1) == "!":
            self.kill(self.next_of(at + 3, {","}), self.ends.get(at + 2, at))

    def mark_attribute(self, at):
        """An attribute and, if it is that of tests, the item after it."""
        end = self.ends.get(at + 1, at + 1) + 1
        self.kill(at, end)
        if self.texts(at + 2, 4) != ["cfg", "(", "test", ")"]:
            return
        while self.text(end) == "#":
            end = self.ends.get(end + 1, end + 1) + 1
        stop = self.next_of(end, {"{", ";"})
        words = [self.text(i) for i in range(end, stop)]
        if "mod" in words and self.text(stop) == ";":
            self.test_modules.append(words[-1])
        self.kill(at, self.ends.get(stop, stop) + 1)

    def mark_import(self, start, end):
        """An import or a ghost item. An error under another name would not be seen, so that is reported."""
        for at in range(start, end):
            if self.text(start) == "use" and self.text(at) in ERRORS and self.text(at + 1) == "as":
                continue
            self.dead[at] = True

    def mark_clause(self, at):
        end = at + 1
        while self.text(end) not in ("{", ";", "") and end < at + 4:
            end += 1
        if self.text(end) == "{":
            self.kill(at, self.ends.get(end, end) + 1)

    def mark_header(self, at):
        """The header of a function and its clauses, up to its body."""
        end = at
        while end < len(self.tokens) and self.text(end) not in ("{", ";"):
            if self.text(end) in CLAUSES:
                end = self.next_of(end, {"{", ";"})
            end = self.ends.get(end, end) + 1
        self.kill(at, end)
        if self.text(end) == "{":
            self.bodies[end] = self.text(at + 1)

    def mark_match(self, at):
        """The patterns of a match, without their guards."""
        block = self.next_of(at, {"{", ";"})
        if self.text(block) != "{" or block not in self.ends:
            return
        at = block + 1
        while at < self.ends[block]:
            arrow = self.next_of(at, {"=>"})
            self.kill(at, min(arrow, self.next_of(at, {"if", "=>"})))
            body = arrow + 1
            if self.text(body) == "{":
                at = self.ends.get(body, body) + 1
                if self.text(at) == ",":
                    at += 1
            else:
                at = self.next_of(body, {","}) + 1

    def is_made(self, at):
        """Whether the error that this token names is made there."""
        if self.text(at) not in ERRORS or self.dead[at]:
            return False
        first = at
        while self.text(first - 1) == "::":
            first -= 2
        # a type's argument, or a side of a comparison
        if self.text(at + 1) == ">" and self.text(first - 1) in ("<", ","):
            return False
        if self.text(first - 1) in ("==", "!=") or self.text(at + 1) in ("==", "!="):
            return False
        return True

    def openings(self, at):
        """The brackets around a token, from the outermost."""
        return [start for start, end in sorted(self.ends.items()) if start < at < end]

    def start_of_part(self, at, least):
        """Where the statement, arm or member that holds a token begins."""
        at -= 1
        starts = {end: start for start, end in self.ends.items()}
        while at >= least:
            text = self.text(at)
            if text in (";", ",") or text in CLOSERS:
                return at + 1
            if text == "}" and self.text(at + 1) not in ("else", ".", "?", ")", ",", "=>"):
                return at + 1
            at = starts.get(at, at) - 1
        return at + 1

    def place(self, at):
        """The function that makes the error, and how: the statement or arm after the heads of the blocks around it."""
        openings = self.openings(at)
        function, heads, last = "-", [], -1
        for block in openings:
            if self.text(block) != "{":
                continue
            if block in self.bodies:
                function, heads = self.bodies[block], []
            else:
                heads.append(self.joined(self.start_of_part(block, last + 1), block))
            last = block
        # the brackets of calls around the error are part of its statement
        outer = next((start for start in openings if start > last), at)
        start = self.start_of_part(outer, last + 1)
        end = self.next_of(start, {";", ","}) if outer == at else self.next_of(outer, {";", ","})
        made = self.joined(start, max(end, at + 1))
        return function, " / ".join(heads + [made])

    def joined(self, start, end):
        """Tokens as one line, with spaces only between words and around some operators."""
        line = ""
        for at in range(start, end):
            text = self.text(at)
            if text in ("=>", "==", "!=", "=", "&&", "||", ">=", "<=", "+", "-", "{", "}"):
                line += f" {text} "
            elif line and re.match(r"[\w\"'&]", text) and re.search(r"[\w\"',:;)\]]$", line) and not line.endswith("::"):
                line += " " + text
            else:
                line += text
        return re.sub(r"\s+", " ", line).strip()


def test_files(crate):
    """The files that are read only for tests: those of modules under `#[cfg(test)]`."""
    found = set()
    for path in crate.rglob("*.rt"):
        for name in Source(path, path.read_text()).test_modules:
            base = path.parent if path.stem in ("lib", "main", "mod") else path.with_suffix("")
            found |= {base / f"{name}.rt", base / name / "mod.rt"}
            found |= set((base / name).rglob("*.rt"))
    return found


def places():
    """All places of the sources, in the order of files and lines."""
    found = []
    for crate in sorted((TOP / "crates").iterdir()):
        sources = crate / "src"
        if crate.name.endswith("_tests") or not sources.is_dir():
            continue
        passed_over = test_files(sources)
        for path in sorted(set(sources.rglob("*.rt")) - passed_over):
            source = Source(path, path.read_text())
            for at in range(len(source.tokens)):
                if source.is_made(at):
                    function, made = source.place(at)
                    found.append(Place(str(path.relative_to(TOP)), source.tokens[at].line, function, made))
    return found


def listed():
    """The places of the list. Each is three lines: file and function, what is made, the reason."""
    found, record = [], []
    for number, line in enumerate(LIST.read_text().splitlines() + [""], 1):
        line = line.strip()
        if line.startswith("#"):
            continue
        if line:
            record.append((number, line))
            continue
        if not record:
            continue
        if len(record) < 3:
            sys.exit(f"{LIST.relative_to(TOP)}:{record[0][0]}: a place is three lines: file and function, what is made, the reason")
        path, _, function = record[0][1].partition(" ")
        found.append(Place(path, record[0][0], function, record[1][1]))
        record = []
    return found


def main():
    here = places()
    if sys.argv[1:] == ["--print"]:
        for place in here:
            print(f"{place.path} {place.function}\n    {place.made}\n    REASON\n")
        return
    if sys.argv[1:]:
        sys.exit(__doc__)
    expected = listed()
    counted = Counted()
    left = [place.key() for place in expected]
    for place in here:
        if place.key() in left:
            left.remove(place.key())
        else:
            counted.fails(f"{place.path}:{place.line}: in {place.function}: an error of refused memory is made by hand: {place.made}")
    for place in expected:
        if place.key() in left:
            left.remove(place.key())
            counted.fails(f"{LIST.relative_to(TOP)}:{place.line}: this place no longer exists: {place.path}, {place.function}: {place.made}")
    print(f"{len(here)} places make the error of refused memory by hand")
    counted.passes(0 if counted.failed else 1)
    counted.end()


if __name__ == "__main__":
    main()
