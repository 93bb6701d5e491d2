"""The trees that calls of tgrep search, and the environment of the calls."""

import contextlib
import os
import signal
import subprocess
import time

from built import TOP

TGREP = TOP / "tgrep"
# How long a call, or what follows one, may take, also where other work has the processors.
SECONDS = 180
FOO = b"int foo(void)\n{\n  return FOO + foo_bar;\n}\n\nfoo bar foo\n"
PLAIN = {
    "a.txt": b"hello world\nsay foo\n\nfoo bar foo\nthe end\n",
    "none.txt": b"nothing here\n",
    "empty": b"",
    "crlf.txt": b"foo\r\nint x;\r\nend\r\n",
    "latin": b"caf\xe9 foo \xff\n",
    "caf\udce9": b"foo in a name\n",
    "to do.txt": b"foo and more\na|b f.o a(b\n",
    "p%cent": b"foo 100%\n",
    "c:olon": b"foo:1:foo\n",
    "-n": b"foo -n\n-n\n=x\nx\n",
    "-d/--": b"--\nfoo--\n",
    ".hidden": b"foo hidden\n",
    ".dir/x.c": b"foo\nint two;\n",
    "no-end": b"one\nfoo at the end",
    "binary": b"foo\0foo\n",
    "sub/b.c": FOO * 3 + b"last line with foo",
    "sub/deep/c d.txt": b"one\ntwo\nthree\nfoo\nfive\nsix\nseven\nfoo\nfoo\nten xx xxx\n",
    "sub/deep/FOO.h": b"#define FOO_BAR 12\n\\ * [ $ ab )b aac x+y\n",
    "patterns": b"foo\ntwo|one\n",
    "line\nfeed": b"foo in a line feed\n",
}
# Files that begin with a byte order mark.
MARKS = {
    "eight.txt": b"\xef\xbb\xbffoo first\nsecond foo\n",
    "little.txt": "\ufefffoo sixteen \u00e9\nint \U0001f600\n".encode("utf-16-le"),
    "big.txt": "\ufefffoo big\nint\n".encode("utf-16-be"),
    "two": b"\xef\xbb\xbf\n\xef\xbb\xbffoo\n",
    "alone": b"\xef\xbb\xbf",
    "none": b"foo\n",
}
REPOSITORY = {
    ".gitignore": b"build/\n*.o\n!kept.o\n",
    "a.c": FOO,
    "main.C": FOO,
    "README.md": b"Foo is foo( here\nfooo bar\n",
    "Makefile": b"all: foo\n",
    "x.py": b"import foo\nfoo(1)  # foo, and foo again, in a line of more than twenty bytes\n",
    "kept.o": b"foo kept\n",
    "left.o": b"foo left\n",
    "build/x.c": b"foo built\n",
    "src/a.c": b"one\ntwo foo\nthree\nfour\nfive\nsix\nfoo foo\neight\n",
    "src/a.h": b"void foo(void);\n",
    "src/.gitignore": b"/gen.c\n",
    "src/gen.c": b"foo generated\n",
    "src/left.o": b"foo left\n",
    "src/sub/b.c": b"foo b\nBar\n",
    ".github/x.yml": b"run: foo\n",
    ".ignore": b"secret\n",
    "secret": b"foo secret\n",
}


def make_trees(folder):
    """The trees of the rows, in a folder."""
    for tree, files in ("plain", PLAIN), ("repo", REPOSITORY), ("marks", MARKS):
        for name, body in files.items():
            path = os.path.join(folder, tree, name)
            os.makedirs(os.path.dirname(path), exist_ok=True)
            with open(path, "wb") as file:
                file.write(body)
    plain = os.path.join(folder, "plain")
    os.symlink("a.txt", os.path.join(plain, "link-file"))
    os.symlink("sub", os.path.join(plain, "link-dir"))
    os.mkfifo(os.path.join(plain, "fifo"))
    os.makedirs(os.path.join(folder, "repo/.git/info"))
    for name, body in ("HEAD", "ref: refs/heads/main\n"), ("config", "[core]\n\trepositoryformatversion = 0\n"):
        with open(os.path.join(folder, "repo/.git", name), "w", encoding="ascii") as file:
            file.write(body)
    for name in "objects", "refs":
        os.mkdir(os.path.join(folder, "repo/.git", name))


def environment_in(folder, program, **more):
    """The environment of the calls, whose servers and settings are in a folder of their own."""
    runtime = os.path.join(folder, "runtime")
    os.makedirs(runtime, mode=0o700, exist_ok=True)
    names = {"HOME": folder, "XDG_RUNTIME_DIR": runtime, "TSEARCH": str(program), "LC_ALL": "C", **more}
    return {**os.environ, **names}


def run(words, cwd, environment, given=None, command=TGREP):
    """The status, and what is written to standard output and to standard error."""
    stdin = {"stdin": subprocess.DEVNULL} if given is None else {"input": given}
    done = subprocess.run([command, *words], cwd=cwd, env=environment, capture_output=True, timeout=SECONDS, check=False, **stdin)
    return done.returncode, done.stdout, done.stderr


def stop_all(environment):
    """Ends all servers of an environment, whatever their trees."""
    folder = os.path.join(environment["XDG_RUNTIME_DIR"], "tgrep")
    servers = []
    for name in os.listdir(folder) if os.path.isdir(folder) else ():
        if name.endswith(".lock"):
            path = os.path.join(folder, name)
            with contextlib.suppress(OSError, ValueError):
                # the number may be another process' by now
                if is_server(process_of(path), path.removesuffix(".lock")):
                    servers.append(process_of(path))
                    os.kill(servers[-1], signal.SIGTERM)
    end = time.monotonic() + SECONDS
    while time.monotonic() < end and any(os.path.exists(f"/proc/{server}/fd/0") for server in servers):
        time.sleep(0.01)


def is_server(process, path):
    """Whether a process is the server with this socket."""
    with open(f"/proc/{process}/cmdline", "rb") as file:
        return os.fsencode(path) in file.read().split(b"\0")


def process_of(lock):
    """The server whose lock it is, or was."""
    with open(lock, encoding="ascii") as file:
        return int(file.read())
