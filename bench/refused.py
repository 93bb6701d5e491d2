"""Which files of folders are refused as documents, and why: python3 bench/refused.py FOLDER..

Of the files with a long line it counts those over the limit, and those over 4,096 bytes, a quarter of it.
"""
import command
import corpus

QUARTER = 4_096


def cause_of(name, body):
    """The first cause for which a file is refused, or the length of its longest line."""
    if not corpus.is_name(name):
        return "name"
    if len(body) > corpus.MAX_BODY:
        return "size"
    if b"\0" in body:
        return "byte 0"
    return max(map(len, body.split(b"\n")))


def cells_of(folder):
    causes, size = [], 0
    for name, body in corpus.named_bodies(folder):
        size += len(body)
        causes.append(cause_of(name, body))
    lengths = [cause for cause in causes if isinstance(cause, int)]
    over = [sum(length > most for length in lengths) for most in (QUARTER, corpus.MAX_LINE)]
    return [len(causes), size] + [causes.count(cause) for cause in ("name", "size", "byte 0")] + over


def main():
    folders = command.words(__doc__, 1, None)
    long_lines = ["a line over %d" % most for most in (QUARTER, corpus.MAX_LINE)]
    command.head(["folder", "files", "bytes", "name", "over 1 MiB", "byte 0", *long_lines])
    for folder in folders:
        command.row(command.code(folder), *cells_of(folder))


if __name__ == "__main__":
    main()
