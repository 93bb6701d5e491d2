#!/usr/bin/env python3
"""Looks at the public definitions of the crates' specs/, and compares docs/DEFINITIONS.md with them.

A public definition is one that is `pub` in a file of specs/ that is not Private. Each has a comment above it, or docs/DEFINITIONS.md
explains it: a paragraph with the list after it has the name in code type, in a section whose title names the crate. If the name has
several definitions or is an ordinary word, the file must stand there in code type too.

Of the page, each file must be one of a crate that the section's title or the paragraph names, and define the name that it stands right
behind; each other name in code type must be in some source or spec. Its last section lists the names that have several definitions. --write
writes that section; without --write it must be as --write would leave it.

Usage: tests/definitions.py [--write]   The last line counts: N passed, M failed.
"""

import collections
import functools
import re
import sys

from built import TOP
from counted import Counted

PAGE = TOP / "docs/DEFINITIONS.md"
CRATES = TOP / "crates"
LAST = "Names with several definitions"
BEGIN = re.compile(r"((?:  )?)((?:unfoldable|abbrev) |)pub (record |data |)([^\W\d][\w'-]*)")
CODE = re.compile(r"`([^`\n]+)`")
PLACED = re.compile(r"`([^`\s]+)(?: [^`\n]*)?` \(`([\w/]+\.antt)`")
# what is written like a name of the specs, and not like an ordinary word
NAME = re.compile(r"[A-Za-z][A-Za-z0-9]*_\w+|[A-Z][a-z0-9]*[A-Z]\w*")


class Definition:
    """A public definition: its name, its crate, its file from the crate on and below specs/, its place, and the comment above it."""

    def __init__(self, name, path, line, comment):
        self.name = name
        self.crate = path.relative_to(CRATES).parts[0]
        self.file = str(path.relative_to(CRATES))
        self.below = self.file.partition("/specs/")[2]
        self.place = f"crates/{self.file}:{line}"
        self.comment = comment


def definitions_of(path):
    """The public definitions of a file. Those in a `mutual` block or a `module` are indented, and so are the fields of a record."""
    lines = path.read_text(encoding="utf-8").split("\n")
    block = ""
    for at, line in enumerate(lines):
        if line[:1] not in ("", " ", "-"):
            block = line.split()[-1 if line.endswith("mutual") else 0]
        found = BEGIN.match(line)
        if not found or found[4] in ("use", "mod") or found[1] and not (found[2] or found[3] or block in ("mutual", "module")):
            continue
        above = at
        while lines[above - 1].startswith(found[1] + "--"):
            above -= 1
        yield Definition(found[4], path, at + 1, " ".join(line.strip()[2:].strip() for line in lines[above:at]))


def all_definitions():
    """The public definitions of all crates, in the order of the names of crates and files."""
    found = []
    for specs in sorted(CRATES.glob("*/specs")):
        for path in sorted(specs.rglob("*.antt")):
            if not {"Lib.antt", "Private.antt", "Private"} & set(path.relative_to(specs).parts):
                found += definitions_of(path)
    return found


class Block:
    """A paragraph with the list after it: where it begins, the crates of its section, and what it says."""

    def __init__(self, line, crates, lines):
        self.place = f"docs/DEFINITIONS.md:{line}"
        self.crates = crates
        self.lines = lines
        codes = [code.strip() for line in lines for code in CODE.findall(line)]
        self.files = {code for code in codes if code.endswith(".antt")}
        # of several words in code type the first is the name
        self.names = {code.split()[0] for code in codes} - self.files
        self.placed = sorted({pair for line in lines for pair in PLACED.findall(line)})

    def explains(self, definition, alone):
        """Whether the definition is explained here; `alone` if its name needs no file beside it."""
        with_file = alone or definition.file in self.files or definition.below in self.files
        return definition.crate in self.crates and definition.name in self.names and with_file


def parts_of_page():
    """The part of the page that is written by hand, its blocks, and the title and the lines of the last section."""
    text = PAGE.read_text(encoding="utf-8")
    start = re.search(rf"^## .*{LAST}$", text, re.MULTILINE)
    if start is None:
        sys.exit(f"tests/definitions.py: docs/DEFINITIONS.md has no section with the title: {LAST}")
    hand, last = text[: start.start()], text[start.start() :]
    blocks, crates, begin, lines = [], [], 1, []
    for number, line in enumerate(hand.split("\n") + ["## "], 1):
        if line.startswith(("- ", "  ")) and lines:
            lines.append(line)
        elif line:
            if lines:
                blocks.append(Block(begin, crates, lines))
            if line.startswith("## "):
                crates = CODE.findall(line)
            begin, lines = number, [line]
    title, *lines = last.split("\n")
    return hand, blocks, title, lines


def last_section(definitions):
    """The lines of the last section after its title."""
    files = collections.defaultdict(list)
    for definition in definitions:
        files[definition.name].append(f"`{definition.file}`")
    yield from ["", "This section is written by `tests/definitions.py --write`. Most of these definitions have different meanings.", ""]
    yield from [f"- `{name}`: {', '.join(files[name])}" for name in sorted(files) if len(files[name]) > 1]
    yield ""


def faults_of_last(present, expected):
    """The lines that the last section lacks, and those that it should not have."""
    for line in expected:
        yield None if line in present else f"docs/DEFINITIONS.md, {LAST}: this line is missing: {line}"
    for line in present:
        if line not in expected:
            yield f"docs/DEFINITIONS.md, {LAST}: no definition has this line: {line}"
    yield None if present == expected else f"docs/DEFINITIONS.md, {LAST}: it is not as tests/definitions.py --write writes it"


@functools.cache
def words_of(crate):
    """The words of the sources and the specs of a crate."""
    paths = [path for folder in ("src", "specs") for path in (CRATES / crate / folder).rglob("*") if path.suffix in (".rt", ".antt")]
    return {word for path in paths for word in re.findall(r"\w+", path.read_text(encoding="utf-8"))}


def faults_of_block(block, definitions):
    """Which names and files of a block are not there, or None for each that is."""
    for name, file in block.placed:
        there = any(definition.name == name and file in (definition.file, definition.below) for definition in definitions)
        yield None if there else f"{block.place}: no file {file} defines `{name}`"
    for file in sorted(block.files):
        crates = [*block.crates, *block.names]
        there = (CRATES / file).is_file() or any((CRATES / crate / "specs" / file).is_file() for crate in crates)
        yield None if there else f"{block.place}: no crate of the section, and none named here, has a file {file} in its specs"
    for name in sorted(block.names):
        if NAME.fullmatch(name):
            there = any(name in words_of(crate.name) for crate in sorted(CRATES.iterdir()))
            yield None if there else f"{block.place}: no source and no spec has the name `{name}`"


def main():
    if sys.argv[1:] not in ([], ["--write"]):
        sys.exit(__doc__)
    definitions = all_definitions()
    hand, blocks, title, last = parts_of_page()
    count = collections.Counter(definition.name for definition in definitions)
    expected = list(last_section(definitions))
    if sys.argv[1:]:
        PAGE.write_text("\n".join([hand + title, *expected]), encoding="utf-8")
        return
    counted = Counted()
    for definition in definitions:
        alone = count[definition.name] == 1 and NAME.fullmatch(definition.name) is not None
        if definition.comment or any(block.explains(definition, alone) for block in blocks):
            counted.passes()
        else:
            counted.fails(
                f"{definition.place}: `{definition.name}` has no comment above it, and docs/DEFINITIONS.md does not explain it "
                f"in a section whose title names `{definition.crate}`"
            )
    for block in blocks:
        counted.judge(faults_of_block(block, definitions))
    counted.judge(faults_of_last(last, expected))
    print(f"{len(definitions)} public definitions, {sum(not definition.comment for definition in definitions)} of them without a comment")
    counted.end()


if __name__ == "__main__":
    main()
