#!/usr/bin/env python3
"""Finds the public functions without an `ensures`, and compares them with the list of docs/PROVED.md.

A function without an `ensures` meets its contract with any body, so docs/PROVED.md ("What is only tested") names each one that can be
called from outside its crate: a `pub fn` that the crate's lib.rs shows by `pub mod` or `pub use`, a `pub fn` of a type that is `pub`, and a
function of a trait that is `pub`. What a type does for a trait has the trait's contract and is not looked at. Tests (`#[cfg(test)]`,
and crates whose names end in `_tests`) are skipped, and so is a crate without lib.rs, which nothing can call.

The list of docs/PROVED.md is one item that says how many public functions have no `ensures`; it names each as `NAME` of `CRATE`, where
NAME is that of a function, or TYPE::FUNCTION.

Usage: tests/without_ensures.py [--print]   The last line counts: N passed, M failed. --print shows the functions as the
page has them.
"""

import re
import sys

from built import TOP
from counted import Counted
from made_by_hand import Source, test_files

PAGE = TOP / "docs/PROVED.md"
ITEM = re.compile(r"^- ([\w-]+) public functions have no `ensures`.*$", re.MULTILINE)
NAMED = re.compile(r"`([\w:]+)` of `(\w+)`")
NUMBERS = "No One Two Three Four Five Six Seven Eight Nine Ten Eleven Twelve Thirteen Fourteen Fifteen Sixteen Seventeen Eighteen Nineteen".split()
NUMBERS += ["Twenty", *(f"Twenty-{number.lower()}" for number in NUMBERS[1:10])]


class File(Source):
    """A source file, whose functions are found with what is around them."""

    def is_public(self, at):
        """Whether `pub`, for every crate, stands before the item whose keyword is here."""
        at -= 1
        while self.text(at) in ("const", "unsafe", "async", "ghost"):
            at -= 1
        return self.text(at) == "pub"

    def in_tests(self, at):
        """Whether the token is below `#[cfg(test)]`."""
        return any(start <= at < end for start, end in self.tests)

    def mark_attribute(self, at):
        super().mark_attribute(at)
        if self.texts(at + 2, 4) == ["cfg", "(", "test", ")"]:
            stop = self.next_of(self.ends.get(at + 1, at + 1) + 1, {"{", ";"})
            self.tests.append((at, self.ends.get(stop, stop) + 1))

    def __init__(self, path):
        self.tests = []
        super().__init__(path, path.read_text(encoding="utf-8"))

    def functions(self):
        """Each function as its name, whether it may be called from outside, whether a module must show it, and whether it
        has an `ensures`."""
        for at in range(len(self.tokens)):
            if self.text(at) != "fn" or not re.match(r"\w", self.text(at + 1)) or self.in_tests(at):
                continue
            around = [start for start in self.openings(at) if self.text(start) == "{"]
            if any(start in self.bodies for start in around):
                continue
            name, owner = self.text(at + 1), self.owner(around[-1]) if around else None
            if owner is None:
                yield name, self.is_public(at), True, self.has_ensures(at)
            else:
                kind, type_name, public = owner
                yield f"{type_name}::{name}", public and (kind == "trait" or self.is_public(at)), False, self.has_ensures(at)

    def owner(self, block):
        """What kind of block this is, the name of its type or trait, and whether what it has may be called from outside; None
        if it is a module."""
        start = self.start_of_head(block)
        words = self.texts(start, block - start)
        if "trait" in words:
            at = start + words.index("trait")
            return "trait", self.text(at + 1), self.is_public(at)
        if "impl" not in words:
            return None
        at = start + words.index("impl") + 1
        if self.text(at) == "<":
            at = self.after_angles(at)
        head = self.texts(at, block - at)
        return "impl", self.text(at), "for" not in head

    def start_of_head(self, block):
        """Where what stands before this block begins: after the item or the brace before it. A comma can stand between parameters."""
        at = block
        while at > 0 and self.text(at - 1) not in (";", "{", "}"):
            at -= 1
        return at

    def after_angles(self, at):
        """The place after the angle brackets that begin here."""
        depth = 0
        while True:
            depth += {"<": 1, ">": -1}.get(self.text(at), 0)
            at += 1
            if depth == 0:
                return at

    def has_ensures(self, at):
        """Whether the function that begins here has an `ensures` before its body."""
        while self.text(at) not in ("{", ";", ""):
            if self.text(at) == "ensures":
                return True
            if self.text(at) in ("requires", "where"):
                # a clause is in braces, with or without a name
                at = self.clause_end(at)
            else:
                at = self.ends.get(at, at) + 1
        return False

    def clause_end(self, at):
        if self.text(at) == "where":
            return at + 1
        while self.text(at) != "{":
            at += 1
        return self.ends[at] + 1

    def types(self):
        """The types and traits that are `pub`."""
        for at in range(len(self.tokens)):
            if self.text(at) in ("struct", "enum", "trait", "union") and self.is_public(at) and not self.in_tests(at):
                yield self.text(at + 1)


def shown_by(sources):
    """The modules that lib.rs makes public, and the names that `pub use` shows, in all files of a crate."""
    modules, names = set(), set()
    for path in sources:
        text = re.sub(r"//[^\n]*", "", path.read_text(encoding="utf-8"))
        modules |= set(re.findall(r"\bpub mod (\w+)", text))
        for use in re.findall(r"\bpub use ([^;]*);", text):
            names |= set(re.findall(r"\w+", use.rpartition("::")[2] if "{" not in use else use[use.index("{") :]))
            if use.endswith("*"):
                modules |= set(re.findall(r"(\w+)::\*", use))
    return modules, names


def public_functions():
    """The public functions of all crates: crate, name, file, and whether there is an `ensures`."""
    for crate in sorted((TOP / "crates").iterdir()):
        sources = crate / "src"
        if crate.name.endswith("_tests") or not (sources / "lib.rt").is_file():
            continue
        paths = sorted(set(sources.rglob("*.rt")) - test_files(sources))
        files = [File(path) for path in paths]
        modules, names = shown_by(paths)
        types = {name for file in files for name in file.types()}
        for file in files:
            module = file.path.stem
            for name, callable_, by_module, ensured in file.functions():
                seen = module in modules | {"lib"} or name in names if by_module else name.split("::")[0] in types
                if callable_ and seen:
                    yield crate.name, name, file.path, ensured


def listed():
    """The functions that the page names, and the number that it gives; None if there is no such item."""
    item = ITEM.search(PAGE.read_text(encoding="utf-8"))
    if item is None:
        sys.exit("tests/without_ensures.py: docs/PROVED.md has no item that begins with: - N public functions have no `ensures`")
    count = NUMBERS.index(item[1]) if item[1] in NUMBERS else None
    return count, [(crate, name) for name, crate in NAMED.findall(item[0])]


def main():
    if sys.argv[1:] not in ([], ["--print"]):
        sys.exit(__doc__)
    found = list(public_functions())
    without = sorted((crate, name) for crate, name, _, ensured in found if not ensured)
    if sys.argv[1:]:
        print(", ".join(f"`{name}` of `{crate}`" for crate, name in without))
        return
    counted = Counted()
    count, named = listed()
    for crate, name in without:
        counted.judge([None if (crate, name) in named else f"docs/PROVED.md does not name `{name}` of `{crate}`, which has no `ensures`"])
    for crate, name in named:
        if (crate, name) not in without:
            counted.fails(f"docs/PROVED.md names `{name}` of `{crate}`, which has an `ensures` or is not public")
    right = count == len(named) == len(set(named))
    counted.judge([None if right else f"docs/PROVED.md says {count} and names {len(named)}"])
    print(f"{len(found)} public functions, {len(without)} without an `ensures`")
    counted.end()


if __name__ == "__main__":
    main()
