"""What the repository is made of: python3 bench/counts.py

Prints the lines of each crate: of code, of contracts (what begins with `requires`, `ensures` or `ghost`, up to its last brace), of specs, of
proofs, its must-fail edits, and those that `./test --long` tries; then the words of each page. Empty lines and comments count. It needs no program.
"""
import pathlib
import re

import command

TOP = pathlib.Path(__file__).resolve().parent.parent
CONTRACT = re.compile(r"\s*(pub |pub\(crate\) )?(requires|ensures|ghost)\b")


def lines_of(folder, pattern):
    return [line for path in sorted(folder.rglob(pattern)) for line in path.read_text(encoding="utf-8").splitlines()]


def contract_lines(lines):
    """How many of the lines are part of a contract."""
    count = depth = 0
    for line in lines:
        if depth or CONTRACT.match(line):
            count += 1
            depth = max(0, depth + line.count("{") - line.count("}"))
    return count


def row_of(crate):
    """Lines of code, of contracts, of specs, of proofs, and edits that each `./test` tries and that it tries with --long."""
    source = lines_of(crate / "src", "*.rt")
    contracts = contract_lines(source)
    others = [len(lines_of(crate / part, "*.antt")) for part in ("specs", "proofs")]
    edits = [len(list(folder.glob("*.edit"))) for folder in (crate / "must-fail", TOP / "tests/wrong_bodies" / crate.name)]
    return [len(source) - contracts, contracts, *others, *edits]


def main():
    command.words(__doc__, 0, 0)
    columns = ["code", "contracts", "specs", "proofs", "edits", "with --long"]
    command.head(["crate", *columns], "Lines of each crate")
    rows = {crate.name: row_of(crate) for crate in sorted((TOP / "crates").iterdir()) if crate.is_dir()}
    for name, row in rows.items():
        command.row("`%s`" % name, *row)
    command.row("all", *map(sum, zip(*rows.values())))
    command.head(["page", "words"], "Words of each page")
    pages = [path for path in sorted(TOP.rglob("*.md")) if "results" not in path.parts and "out" not in path.parts]
    words = {str(path.relative_to(TOP)): len(path.read_text(encoding="utf-8").split()) for path in pages}
    for page, count in words.items():
        command.row("`%s`" % page, count)
    command.row("all", sum(words.values()))


if __name__ == "__main__":
    main()
