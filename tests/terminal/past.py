"""`--at`, `--changed` and `--diff` of tgrep, with git as the judge."""

import base64
import contextlib
import json
import os
import random
import re
import shutil
import subprocess
import tempfile

from counted import Counted, Wrong
from terminal.faults import programs_of, until
from terminal.trees import FOO, environment_in, run, stop_all

FIRST = {
    "a.c": FOO,
    "src/a.c": b"one\ntwo foo\nthree\nfour\nfive\nsix\nfoo foo\neight\n",
    "src/gone.c": b"foo gone\n",
    "src/sub/moved.c": b"int a;\nint b;\nint c;\nint foo;\nint d;\n",
    "b c/sp ace.txt": b"foo in a space\n",
    "caf\udce9": b"caf\xe9 foo\n",
    "bin": b"foo\0",
    "empty": b"",
}
SECOND = {
    "src/a.c": b"zero\none\ntwo bar\nthree\nfour foo\nfive\nsix\nfoo foo\neight",
    "src/new.c": b"foo new\nfoo again\n",
    "lib/moved.c": b"int a;\nint b;\nint foo;\nint foo2;\nint d;\n",
    "b c/sp ace.txt": b"foo in a space\nand more foo\n",
}
GONE = ["src/gone.c", "src/sub/moved.c"]
WHO = ["-c", "user.name=A", "-c", "user.email=a@example.org", "-c", "init.defaultBranch=main"]
AT = [[], ["-i"], ["-w"], ["-c"], ["-l"], ["-C1"], ["-v"], ["-o"]]
PATTERNS = ["foo", "^f", "int [a-d]", "caf", "[0-9]", "x|bar", "nothing", "o$"]


def git(top, *words):
    """What git writes."""
    return subprocess.run(["git", *WHO, *words], cwd=top, capture_output=True, check=True).stdout


def write(top, files):
    """Writes files of a tree."""
    for name, body in files.items():
        path = os.path.join(top, name)
        os.makedirs(os.path.dirname(path), exist_ok=True)
        with open(path, "wb") as file:
            file.write(body)


def make_history(folder):
    """A repository of three commits: the first, the second, and one on a branch that left after the first."""
    top = os.path.join(folder, "tree")
    os.mkdir(top)
    git(top, "init", "-q")
    write(top, FIRST)
    git(top, "add", "-A")
    git(top, "commit", "-q", "-m", "first")
    git(top, "tag", "v1")
    git(top, "checkout", "-q", "-b", "side")
    write(top, {"side.c": b"foo side\n"})
    git(top, "add", "-A")
    git(top, "commit", "-q", "-m", "side")
    git(top, "checkout", "-q", "main")
    write(top, SECOND)
    for name in GONE:
        os.unlink(os.path.join(top, name))
    git(top, "add", "-A")
    git(top, "commit", "-q", "-m", "second")
    return top


def expect(found, wanted, what):
    """`Wrong` unless the status and what is written are as they should be."""
    if found[:2] != wanted[:2]:
        raise Wrong(f"{what}: {found} and not {wanted}")


def by_git(top, words, where):
    """The status and the lines of `git grep`, in the order of paths as tgrep has it."""
    command = ["git", "-c", "core.quotePath=false", "grep", "--no-color", "-I", "-n", "-E", *words]
    done = subprocess.run(command, cwd=where, capture_output=True, check=False)
    return done.returncode, done.stdout


def finds_in_a_commit(folder, environment):
    """The lines, the names and the counts that `git grep` finds in it, from the top and from below."""
    top = make_history(folder)
    for revision in "v1", "HEAD", "side":
        for more in AT:
            for pattern in PATTERNS if not more else PATTERNS[:3]:
                for inside in ".", "src":
                    where = os.path.join(top, inside)
                    start = f"{revision}:{'./' if inside != '.' else ''}".encode()
                    status, wanted = by_git(top, [*more, "-e", pattern, revision], where)
                    own = run([*more, "--at", revision, "-e", pattern], where, environment)
                    if inside != ".":
                        wanted = wanted.replace(b"%s:" % revision.encode(), start)
                        wanted = re.sub(rb"(?m)^%s-" % revision.encode(), start, wanted)
                    wanted = wanted.replace(f"{revision}-".encode(), start) if "-C1" in more else wanted
                    if sorted(own[1].split(b"\n")) != sorted(wanted.split(b"\n")) or own[0] != status or own[2]:
                        raise Wrong(f"--at {revision} {more} {pattern} in {inside}: {own} and not {status, wanted}")
    expect(run(["--at", "v1", "foo", "src/gone.c"], top, environment), (0, b"1:foo gone\n"), "a file")
    expect(run(["--at", "v1", "-H", "foo", "./src/gone.c"], top, environment), (0, b"v1:src/gone.c:1:foo gone\n"), "a file with its name")
    expect(run(["--at", "v1", "foo", "sub"], f"{top}/src", environment), (0, b"v1:./sub/moved.c:4:int foo;\n"), "a folder below")
    expect(run(["--at", "v1", "foo", f"{top}/src/sub"], "/", environment), (2, b""), "from outside")
    expect(run(["--at", "v1", "-g", "*.c", "-l", "foo", "src"], top, environment), (0, b"v1:src/a.c\nv1:src/gone.c\nv1:src/sub/moved.c\n"), "globs")
    expect(run(["--at", "none", "foo"], top, environment), (2, b""), "no commit")
    expect(run(["--at", "v1", "foo", "nowhere"], top, environment), (2, b""), "no such path")
    # what is shown opens with git
    shown = run(["--at", "v1", "-l", "foo", "sub"], f"{top}/src", environment)[1].decode().strip()
    expect((0, git(f"{top}/src", "show", shown)), (0, FIRST["src/sub/moved.c"]), shown)
    git(folder, "clone", "-q", "--bare", top, "bare.git")
    expect(run(["--at", "main", "new"], f"{folder}/bare.git", environment), (0, b"main:src/new.c:1:foo new\n"), "a bare repository")


def finds_in_what_has_changed(folder, environment):
    """Files that are not as in a commit, that are new, and no others."""
    top = make_history(folder)
    expect(run(["--changed", "foo"], top, environment), (1, b""), "nothing has changed")
    write(top, {"a.c": FOO + b"foo changed\n", "untracked.c": b"foo untracked\n", "left.o": b"foo left\n", ".gitignore": b"*.o\n"})
    git(top, "add", ".gitignore")
    wanted = b"a.c:3:  return FOO + foo_bar;\na.c:1:int foo(void)\na.c:6:foo bar foo\na.c:7:foo changed\nuntracked.c:1:foo untracked\n"
    found = run(["--changed", "foo"], top, environment)
    expect((found[0], sorted(found[1].split(b"\n"))), (0, sorted(wanted.split(b"\n"))), "changed")
    found = run(["--changed=v1", "-l", "foo"], top, environment)
    names = git(top, "diff", "--name-only", "--diff-filter=d", "v1").split(b"\n")[:-1]
    with_foo = [name for name in names if b"foo" in open(os.path.join(os.fsencode(top), name.strip(b'"')), "rb").read()]
    expect((found[0], found[1].split(b"\n")[:-1]), (0, sorted([*with_foo, b"untracked.c"])), "since v1")
    expect(run(["--changed=v1", "foo", "new.c"], f"{top}/src", environment), (0, b"1:foo new\n2:foo again\n"), "a file")
    # a link is not followed, to whatever it leads
    write(folder, {"outside": b"foo outside\n"})
    os.symlink("../outside", f"{top}/link")
    write(top, {"..x": b"foo dots\n"})
    expect(run(["--changed", "-c", "foo", ".", "..x"], f"{top}", environment), (0, b"./..x:1\n./a.c:4\n./untracked.c:1\n..x:1\n"), "links")
    expect(run(["--changed", "foo", "../..x"], f"{top}/src", environment), (0, b"1:foo dots\n"), "a name that begins with two dots")
    # each call has had a session of its own, which has ended with it
    status = run(["--status"], top, environment)[1].decode()
    server = int(re.search(r"process: *(\d+)", status)[1])
    until(lambda: len(programs_of(server, environment["TSEARCH"])) == 1)
    os.unlink(f"{top}/..x")
    os.unlink(f"{top}/a.c")
    expect(run(["--changed", "-c", "foo"], top, environment), (0, b"untracked.c:1\n"), "a file that is gone")
    expect(run(["--changed=none", "foo"], top, environment), (2, b""), "no commit")


def lines_of_patch(top, before, after, pattern):
    """The rows of a patch by `git diff`, with all lines around."""
    shown = git(top, "-c", "core.quotePath=false", "diff", "-M", "-U100000", "--no-color", before, after)
    rows = []
    for part in re.split(rb"(?m)^diff --git ", shown)[1:]:
        head, _, body = part.partition(b"\n@@")
        name = re.search(rb"^\+\+\+ b/(.*?)\t?$", head, re.MULTILINE) or re.search(rb"^--- a/(.*?)\t?$", head, re.MULTILINE)
        old = new = 0
        for line in body.split(b"\n")[1:]:
            old, new = old + (line[:1] in b" -" and line != b""), new + (line[:1] in b" +" and line != b"")
            if line[:1] in (b" ", b"-", b"+") and re.search(pattern, line[1:]):
                numbers = (b"" if line[:1] == b"+" else b"%d" % old, b"" if line[:1] == b"-" else b"%d" % new)
                rows.append(b"%s:%s:%s:%s" % (name[1], *numbers, line))
    return sorted(rows)


def finds_in_a_patch(folder, environment):
    """The lines that it removes, adds and leaves, as `git diff` has them."""
    top = make_history(folder)
    for before, after in ("v1", "main"), ("main", "v1"), ("side", "main"), ("v1", "v1"):
        for pattern in b"foo", b"int", b"^", b"o$", b"nothing":
            wanted = lines_of_patch(top, before, after, pattern)
            own = run(["--diff", f"{before}..{after}", "-e", pattern.decode()], top, environment)
            if sorted(own[1].split(b"\n")[:-1]) != wanted or own[0] != (0 if wanted else 1) or own[2]:
                raise Wrong(f"{before}..{after} {pattern}: {own} and not {wanted}")
    expect(run(["--diff", "side...main", "foo side|new"], top, environment), (0, b"src/new.c::1:+foo new\n"), "from where they have left one another")
    expect(run(["--diff", "v1..", "-c", "foo", "."], f"{top}/src", environment), (0, b"./a.c:-1 +1 1\n./gone.c:-1 +0 0\n./new.c:-0 +2 0\n"), "counts")
    expect(run(["--diff", "v1..", "-l", "foo", "lib", "src/a.c"], top, environment), (0, b"lib/moved.c\nsrc/a.c\n"), "paths")
    expect(run(["--diff", "v1..", "--limit", "1", "-g", "new*", "foo"], top, environment), (0, b"src/new.c::1:+foo new\n"), "a glob and a limit")
    expect(run(["--diff", "v1..", "--limit", "2", "-l", "int|foo"], top, environment), (0, b"b c/sp ace.txt\nlib/moved.c\n"), "a limit of names")
    expect(run(["--diff", "v1..", "-m", "1", "foo"], top, environment), (0, b"b c/sp ace.txt:1:1: foo in a space\nlib/moved.c:4:3: int foo;\nsrc/a.c:2::-two foo\nsrc/gone.c:1::-foo gone\nsrc/new.c::1:+foo new\n"), "so many of each")
    expect(run(["--diff", "v1..", "--json", "gone"], top, environment), (0, b'{"type":"line","sign":"-","before":{"path":"src/gone.c","line":1},"text":"foo gone","spans":[[4,8]]}\n'), "JSON")
    expect(run(["--diff", "v1..", "--color=always", "gone"], top, environment)[1:2], (b"\x1b[0m\x1b[35msrc/gone.c\x1b[0m:\x1b[0m\x1b[32m1\x1b[0m::-foo \x1b[0m\x1b[1m\x1b[31mgone\x1b[0m\n",), "colours")
    for words in (["--diff", "v1", "x"], ["--diff", "v1..", "-C1", "x"], ["--diff", "none..", "x"], ["--diff", "v1..", "("], ["--diff", "v1..", "--at", "v1", "x"]):
        found = run(words, top, environment)
        if found[0] != 2 or found[1] or not found[2].startswith(b"tgrep: "):
            raise Wrong(f"{words}: {found}")
    # a patch stays as it is, and is kept for the next call; the server goes on when its session is killed
    status = run(["--status"], top, environment)[1].decode()
    server = int(re.search(r"process: *(\d+)", status)[1])
    for program in programs_of(server, environment["TSEARCH"]):
        with contextlib.suppress(ProcessLookupError):  # it may be one that ends
            os.kill(program, 9)
    for _ in range(2):
        found = run(["--diff", "v1..", "gone"], top, environment)
    expect(found, (0, b"src/gone.c:1::-foo gone\n"), "after its session was killed")


ODD = [b"caf\xe9", b"\xff\xfe/x y", b"tab\tname", b'quote"d\\', b"new\nline", "é/ü".encode(), b"-n", b"a/b/c.txt"]
LINES = [b"foo one", b"foo two", b"int x;", b"int y;", b"\xff foo", b"", b"end foo"]


def rows_of_files(top, before, after, pattern):
    """The same by what git says of each pair of files: side by side, with renames."""
    words = git(top, "diff", "--name-status", "-z", "-M", before, after).split(b"\0")[:-1]
    rows = []
    while words:
        status = words.pop(0)
        old = words.pop(0)
        new = words.pop(0) if status.startswith(b"R") else old
        if status in (b"A", b"D"):
            side, sign, name = (after, "+", new) if status == b"A" else (before, "-", old)
            lines = git(top, "show", os.fsdecode(b"%s:%s" % (side.encode(), name))).split(b"\n")
            numbered = [(sign, at if sign == "-" else None, at if sign == "+" else None, line) for at, line in enumerate(lines[:-1], 1)]
        else:
            numbered = compared(git(top, "diff", "-U100000", "--no-color", os.fsdecode(b"%s:%s" % (before.encode(), old)), os.fsdecode(b"%s:%s" % (after.encode(), new))))
            if not numbered:
                lines = git(top, "show", os.fsdecode(b"%s:%s" % (after.encode(), new))).split(b"\n")
                numbered = [(" ", at, at, line) for at, line in enumerate(lines[:-1], 1)]
        rows += [(sign, old if left else None, left, new if right else None, right, line) for sign, left, right, line in numbered if re.search(pattern, line)]
    return sorted(rows, key=repr)


def compared(shown):
    """The lines of a file in a comparison that shows all of them: sign, numbers and text."""
    old = new = 0
    rows = []
    for line in shown.partition(b"\n@@")[2].split(b"\n")[1:]:
        sign = line[:1].decode()
        if sign in ("-", "+", " "):
            old, new = old + (sign != "+"), new + (sign != "-")
            rows.append((sign, None if sign == "+" else old, None if sign == "-" else new, line[1:]))
    return rows


def bytes_of(told):
    """A path or a text in JSON."""
    return base64.b64decode(told["base64"]) if isinstance(told, dict) else told.encode()


def rows_of_call(output):
    """The rows that a call has written."""
    rows = []
    for told in map(json.loads, output.splitlines()):
        sides = [value for side in ("before", "after") for value in ((bytes_of(told[side]["path"]), told[side]["line"]) if side in told else (None, None))]
        rows.append((told["sign"], *sides, bytes_of(told["text"])))
    return sorted(rows, key=repr)


def finds_in_patches_of_any_history(folder, environment):
    """Between commits that lead to one another and that have nothing in common, with files that move and change, and paths in no encoding."""
    source = random.Random(7)
    top = os.path.join(folder, "odd")
    os.mkdir(top)
    git(top, "init", "-q")
    body = lambda: b"".join(source.choice(LINES) + b"\n" for _ in range(source.randrange(12, 40)))  # noqa: E731
    files = {name: body() for name in ODD[:5]}
    for number in range(6):
        if number:
            moved = source.choice(sorted(files))
            lines = files.pop(moved).splitlines(keepends=True)
            files[source.choice([name for name in ODD if name not in files and name != moved])] = b"".join(lines[:2] + [b"foo moved\n"] + lines[3:])
            files[source.choice(sorted(files))] = body()
        git(top, "rm", "-q", "-r", "--cached", "--ignore-unmatch", ".")
        for name, text in files.items():
            written = subprocess.run(["git", "hash-object", "-w", "--stdin"], cwd=top, input=text, capture_output=True, check=True).stdout.strip()
            git(top, "update-index", "--add", "--cacheinfo", b"100644," + written + b"," + name)
        tree = git(top, "write-tree").decode().strip()
        # every second commit begins a history of its own
        parents = ["-p", f"c{number - 1}"] if number % 2 else []
        commit = git(top, "commit-tree", *parents, "-m", "c", tree).decode().strip()
        git(top, "tag", f"c{number}", commit)
    renamed = 0
    for before, after in ((0, 1), (1, 2), (2, 3), (3, 0), (5, 0), (4, 5)):
        wanted = rows_of_files(top, f"c{before}", f"c{after}", b"foo")
        own = run(["--diff", f"c{before}..c{after}", "--json", "foo"], top, environment)
        if rows_of_call(own[1]) != wanted or own[0] != 0 or own[2]:
            raise Wrong(f"c{before}..c{after}: {own} and not {wanted}")
        renamed += sum(row[1] is not None and row[3] is not None and row[1] != row[3] for row in wanted)
    if renamed < 20:
        raise Wrong(f"only {renamed} lines of files that have moved")


TESTS = [finds_in_a_commit, finds_in_what_has_changed, finds_in_a_patch, finds_in_patches_of_any_history]


def check(program):
    """Runs all, and gives the counts."""
    counted = Counted()
    if not shutil.which("git"):
        print("there is no command git, so --at, --changed and --diff of tgrep are not tested")
        return counted
    for test in TESTS:
        with tempfile.TemporaryDirectory(ignore_cleanup_errors=True) as folder:
            folder = os.path.realpath(folder)
            environment = environment_in(folder, program)
            try:
                test(folder, environment)
                counted.passes()
            except (Wrong, OSError, ValueError, subprocess.SubprocessError) as wrong:
                counted.fails(f"{test.__name__}: {wrong!r}")
            finally:
                stop_all(environment)
    return counted
