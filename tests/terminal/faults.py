"""The server of tgrep: fresh answers, and faults."""

import concurrent.futures
import contextlib
import fcntl
import json
import os
import pathlib
import re
import shutil
import signal

import stat
import subprocess
import sys
import tempfile
import time

from counted import Counted, Wrong
from terminal.trees import SECONDS, TGREP, environment_in, is_server, process_of, run, stop_all

MANY = 10_000
CALLS = 50


class Place:
    """A folder to search, and the environment of its calls."""

    def __init__(self, folder, program, **more):
        self.top = pathlib.Path(folder, "tree")
        self.top.mkdir()
        self.environment = environment_in(folder, program, **more)
        self.program = program

    @property
    def way(self):
        """How a command is run there."""
        return {"cwd": self.top, "env": self.environment, "stdin": subprocess.DEVNULL, "check": False}

    def write(self, name, body):
        """Writes a file, and the folders above it."""
        path = self.top / name
        path.parent.mkdir(parents=True, exist_ok=True)
        path.write_bytes(body)

    def call(self, *words, **how):
        """The status and what a call writes."""
        return run(words, self.top, self.environment, **how)

    def wants(self, words, status, shown, said=None, **how):
        """`Wrong` if a call does not come out so. Without `said` standard error is not looked at."""
        found = self.call(*words, **how)
        if found[:2] != (status, shown) or (said is not None and said not in found[2]):
            raise Wrong(f"{words}: {found}, and not {status, shown, said}")

    @property
    def sockets(self):
        """The paths of the sockets of servers."""
        folder = pathlib.Path(self.environment["XDG_RUNTIME_DIR"], "tgrep")
        return [path for path in folder.iterdir() if is_socket(path)] if folder.is_dir() else []

    @property
    def servers(self):
        """The processes of the servers that have a socket. One that ends takes its socket and then its lock away."""
        found = set()
        for path in self.sockets:
            with contextlib.suppress(FileNotFoundError):
                found.add(process_of(f"{path}.lock"))
        return found

    @property
    def server(self):
        """The process of the one server."""
        (path,) = self.sockets
        return process_of(f"{path}.lock")


def until(holds, seconds=SECONDS):
    """Waits until something holds."""
    end = time.monotonic() + seconds
    while not holds():
        if time.monotonic() > end:
            raise Wrong(f"not in {seconds} seconds")
        time.sleep(0.01)


def is_socket(path):
    """Whether a path is that of a socket. It may go at any time."""
    try:
        return stat.S_ISSOCK(path.lstat().st_mode)
    except FileNotFoundError:
        return False


def told_of(process):
    """The state of a process, and which one has started it; none if it is not there."""
    try:
        state, parent = pathlib.Path(f"/proc/{process}/stat").read_text(encoding="ascii", errors="replace").rpartition(")")[2].split()[:2]
        return state, int(parent)
    except (OSError, ValueError):
        return None, None


def programs_of(process, program):
    """The processes with a program that a process has started and that have not ended. All processes are looked at: the list of children that
    Linux has lacks some while others end."""
    name = os.path.basename(program)[:15]
    found = []
    for entry in os.listdir("/proc"):
        with contextlib.suppress(OSError):
            if entry.isdecimal() and told_of(entry)[1] == process and is_running(entry) and pathlib.Path(f"/proc/{entry}/comm").read_text().strip() == name:
                found.append(int(entry))
    return found


def is_running(process):
    """Whether a process is there and has not ended."""
    return told_of(process)[0] not in (None, "Z")


def each_change_is_found(place):
    """What is written, renamed or removed right before a call."""
    place.write("a", b"one\n")
    place.wants(["-e", "one|two|three"], 0, b"a:1:one\n")
    for step in range(30):
        place.write("a", b"two %02d\n" % step)
        place.write(f"new/{step}/b", b"two new\n")
        place.wants([f"two {step:02}"], 0, b"a:1:two %02d\n" % step)
        os.rename(place.top / f"new/{step}", place.top / f"new/{step} moved")
        place.wants(["-c", "two new"], 0, b"".join(sorted(b"new/%d moved/b:1\n" % number for number in range(step + 1))))
    shutil.rmtree(place.top / "new")
    place.wants(["-l", "two"], 0, b"a\n")
    os.unlink(place.top / "a")
    place.wants(["."], 1, b"")


def rules_hold(place):
    """Rules of git that change: of a folder, of the repository; a file that is tracked."""
    for name in "a.c", "b.o", "s/c.c", "s/d.x":
        place.write(name, b"foo\n")
    git = ["git", "-c", "user.name=a", "-c", "user.email=a@b"]
    subprocess.run([*git, "init", "-q"], cwd=place.top, check=True)
    place.wants(["-l", "foo"], 0, b"a.c\nb.o\ns/c.c\ns/d.x\n")
    place.write(".gitignore", b"*.o\n")
    place.wants(["-l", "foo"], 0, b"a.c\ns/c.c\ns/d.x\n")
    place.write("s/.gitignore", b"c.c\n")
    place.wants(["-l", "foo"], 0, b"a.c\ns/d.x\n")
    place.write("s/new.o", b"foo\n")
    place.write("s/new.c", b"foo\n")
    place.wants(["-l", "foo"], 0, b"a.c\ns/d.x\ns/new.c\n")
    subprocess.run([*git, "add", "-f", "b.o"], cwd=place.top, check=True)
    place.wants(["-l", "foo"], 0, b"a.c\nb.o\ns/d.x\ns/new.c\n")
    subprocess.run([*git, "rm", "-q", "--cached", "b.o"], cwd=place.top, check=True)
    place.wants(["-l", "foo"], 0, b"a.c\ns/d.x\ns/new.c\n")
    place.write(".git/info/exclude", b"d.x\n")
    place.wants(["-l", "foo"], 0, b"a.c\ns/new.c\n")
    os.unlink(place.top / "s/.gitignore")
    place.wants(["-l", "foo"], 0, b"a.c\ns/c.c\ns/new.c\n")
    place.wants(["-l", "foo", "--no-ignore"], 0, b"a.c\nb.o\ns/c.c\ns/d.x\ns/new.c\ns/new.o\n")


def rules_hold_without_git(place):
    """Without git on the PATH, and in a repository of another owner."""
    for name in ".git/HEAD", "build/x", "a":
        place.write(name, b"foo\n")
    place.write(".gitignore", b"build/\n")
    bare = pathlib.Path(place.environment["HOME"], "bin")
    bare.mkdir()
    place.environment["PATH"] = str(bare)
    place.wants(["foo"], 0, b"a:1:foo\n")
    place.call("--stop")
    if os.getuid() == 0:
        for path in place.top, *place.top.rglob("*"):
            os.chown(path, 12345, 12345)
        place.wants(["foo"], 0, b"a:1:foo\n")


def many_files_change_at_once(place):
    """Ten thousand, more than once."""
    place.write("a", b"foo\n")
    place.wants(["foo"], 0, b"a:1:foo\n")
    for step in range(2):
        for number in range(MANY):
            place.write(f"d{number % 100}/f{number}", b"bar %d %d\n" % (step, number))
        status, shown, _ = place.call("-c", f"bar {step}")
        if (status, shown.count(b"\n")) != (0, MANY):
            raise Wrong(f"{shown.count(b'@')} of {MANY}")
    shutil.rmtree(place.top / "d7")
    status, shown, _ = place.call("-l", "bar 1")
    if shown.count(b"\n") != MANY - MANY // 100:
        raise Wrong(f"{shown.count(b'@')}")


def what_watchman_leaves_out(place):
    """It does not look into folders of other kinds of repositories, by its default, whether they are there before or come."""
    for name in ".svn/sub/a", ".hg/x/b", "src/c":
        place.write(name, b"one\n")
    place.wants(["one"], 0, b".hg/x/b:1:one\n.svn/sub/a:1:one\nsrc/c:1:one\n")
    place.wants(["two"], 1, b"")
    for name in ".svn/sub/a", ".hg/x/b", "src/c":
        place.write(name, b"two\n")
    place.wants(["two"], 0, b".hg/x/b:1:two\n.svn/sub/a:1:two\nsrc/c:1:two\n")
    place.call("--stop")
    for name in ".svn", ".hg":
        shutil.rmtree(place.top / name)
    place.wants(["two"], 0, b"src/c:1:two\n")
    place.write("src/.hg/x/b", b"one\n")
    place.wants(["one"], 0, b"src/.hg/x/b:1:one\n")
    place.write("src/.hg/x/b", b"three\n")
    place.wants(["three"], 0, b"src/.hg/x/b:1:three\n")


def what_the_settings_of_a_folder_above_leave_out(place):
    """Watchman watches the top of the repository."""
    place.write(".git/HEAD", b"")
    place.write(".watchmanconfig", b'{"ignore_dirs": ["sub/out"]}\n')
    for name in "out/a", "src/b":
        place.write(f"sub/{name}", b"one\n")
    place.wants(["--root", "sub", "one", "sub"], 0, b"sub/out/a:1:one\nsub/src/b:1:one\n")
    place.wants(["--root", "sub", "two", "sub"], 1, b"")
    for name in "out/a", "src/b":
        place.write(f"sub/{name}", b"two\n")
    place.wants(["--root", "sub", "two", "sub"], 0, b"sub/out/a:1:two\nsub/src/b:1:two\n")


def files_with_another_name_outside(place):
    """A write through that name is told of nowhere."""
    outside = pathlib.Path(place.environment["HOME"], "x")
    outside.write_bytes(b"one\n")
    place.write("s1/y", b"one\n")
    os.link(outside, place.top / "x")
    (place.top / "s2").mkdir()
    os.link(place.top / "s1/y", place.top / "s2/y")
    place.wants(["one"], 0, b"s1/y:1:one\ns2/y:1:one\nx:1:one\n")
    place.wants(["two"], 1, b"")
    outside.write_bytes(b"two\n")
    place.write("s1/y", b"two\n")
    place.wants(["two"], 0, b"s1/y:1:two\ns2/y:1:two\nx:1:two\n")


def other_rules_of_the_user(place):
    """A file of settings of git that comes names other rules."""
    home = pathlib.Path(place.environment["HOME"])
    place.environment["XDG_CONFIG_HOME"] = str(home / "config")
    place.write(".git/HEAD", b"")
    for name in "a", "b":
        place.write(name, b"foo\n")
        place.write(f"inner/{name}", b"foo\n")
        (home / f"no {name}").write_text(f"{name}\n", encoding="ascii")
    place.write("inner/.git/HEAD", b"")
    place.wants(["-l", "foo"], 0, b"a\nb\ninner/a\ninner/b\n")
    for name, file, shown in (
        ("a", home / ".gitconfig", b"b\ninner/b\n"),
        ("b", place.top / ".git/config", b"a\ninner/b\n"),
        ("b", place.top / "inner/.git/config", b"a\ninner/a\n"),
    ):
        file.write_text(f"[core]\nexcludesFile = {home}/no {name}\n", encoding="ascii")
        place.wants(["-l", "foo"], 0, shown)


def what_no_watcher_tells(place):
    """A write through a name outside that a file was given later, and one through mapped memory, are seen by a look now and then."""
    place.environment["TGREP_LOOK"] = "0.1"
    place.write("a", b"one\n")
    place.write("b", b"one\n")
    place.wants(["one"], 0, b"a:1:one\nb:1:one\n")
    place.wants(["two"], 1, b"")
    outside = pathlib.Path(place.environment["HOME"], "x")
    os.link(place.top / "a", outside)
    outside.write_bytes(b"two\n")

    def is_seen():
        time.sleep(1)
        return place.call("two")[:2] == (0, b"a:1:two\n")

    until(is_seen)


def a_lost_socket(place):
    """A server whose socket is removed makes room soon; one whose socket's folder was made anew leaves the socket of another alone."""
    place.write("a", b"foo\n")
    place.call("foo")
    server, (path,) = place.server, place.sockets
    path.unlink()
    place.wants(["foo"], 0, b"a:1:foo\n")
    # where other work has the processors it may not make room in time, and the call goes on without one
    until(lambda: not place.call("foo")[2] and place.servers and server not in place.servers)
    until(lambda: not is_running(server))
    server = place.server
    shutil.rmtree(path.parent)
    place.wants(["foo"], 0, b"a:1:foo\n")
    if place.server == server:
        raise Wrong("it is the same server")
    os.kill(server, signal.SIGTERM)
    until(lambda: not is_running(server))
    if place.sockets != [path]:
        raise Wrong("the socket of the other server is gone")
    server = place.server
    place.wants(["foo"], 0, b"a:1:foo\n")
    # a process that has the lock and does not listen
    place.call("--stop")
    until(lambda: not is_running(server))
    with open(f"{path}.lock", "rb") as held:
        fcntl.flock(held, fcntl.LOCK_EX)
        place.wants(["foo"], 0, b"a:1:foo\n", b"has its lock, and does not listen")


def a_user_has_eight_servers(place):
    """The one that was called the longest ago ends where there are more."""
    for number in range(10):
        place.write(f"{number}/a", b"foo\n")
    words = [["--root", str(number), "foo", str(number)] for number in range(10)]
    servers = []
    for number in 0, 1, 2, 3, 4, 5, 6, 0, 7, 8, 9:
        before = place.servers
        place.wants(words[number], 0, b"%d/a:1:foo\n" % number)
        servers += place.servers - before
    until(lambda: len(place.sockets) == 8)
    until(lambda: not any(map(is_running, servers[1:3])))
    time.sleep(3)
    if [number for number, server in enumerate(servers) if is_running(server)] != [0, 3, 4, 5, 6, 7, 8, 9]:
        raise Wrong("another server has ended")


def a_killed_server_is_started_again(place):
    """The server, its program, and both."""
    place.write("a", b"foo\n")
    place.wants(["foo"], 0, b"a:1:foo\n")
    server = place.server
    (program,) = programs_of(server, place.program)
    os.kill(program, signal.SIGKILL)
    until(lambda: not is_running(program))
    place.write("a", b"foo again\n")
    place.wants(["foo"], 0, b"a:1:foo again\n")
    if place.server != server:
        raise Wrong("the server has ended with its program")
    # while nothing changes in the tree, too
    (program,) = programs_of(server, place.program)
    os.kill(program, signal.SIGKILL)
    until(lambda: not is_running(program))
    place.wants(["foo"], 0, b"a:1:foo again\n")
    os.kill(server, signal.SIGKILL)
    until(lambda: not is_running(server))
    if len(place.sockets) != 1:
        raise Wrong("there is no stale socket")
    place.wants(["foo"], 0, b"a:1:foo again\n")
    if place.server == server:
        raise Wrong("it is the same server")


def no_program_is_left_by_a_killed_server(place):
    """A program ends with the pipe to it."""
    place.write("a", b"foo\n")
    place.call("foo")
    programs = programs_of(place.server, place.program)
    if len(programs) != 1:
        raise Wrong(f"it has the programs {programs}")
    os.kill(place.server, signal.SIGKILL)
    until(lambda: not any(map(is_running, programs)))


def a_server_ends_when_it_should(place):
    """Without calls, with its folder, and when it is told to."""
    place.environment["TGREP_IDLE"] = "0.3"
    place.write("a", b"foo\n")
    place.call("foo")
    until(lambda: not place.sockets)
    place.environment["TGREP_IDLE"] = ""
    place.call("foo")
    server = place.server
    place.wants(["--stop"], 0, b"")
    until(lambda: not is_running(server))
    place.wants(["--stop"], 1, b"", b"no server keeps")
    place.call("foo")
    server = place.server
    shutil.rmtree(place.top)
    until(lambda: not is_running(server))
    if place.sockets:
        raise Wrong("its socket is left")


def another_folder_of_the_same_name(place):
    """A folder that is removed and made again has another server."""
    place.write("a", b"foo\n")
    place.call("foo")
    server = place.server
    os.rename(place.top, f"{place.top}.old")
    place.top.mkdir()
    place.write("b", b"foo\n")
    place.wants(["foo"], 0, b"b:1:foo\n")
    if place.server == server:
        raise Wrong("it is the same server")


def a_version_that_differs_restarts_it(place):
    """The program is another one."""
    place.write("a", b"foo\n")
    place.call("foo")
    server = place.server
    copy = pathlib.Path(place.environment["HOME"], "another")
    shutil.copy(place.program, copy)
    place.environment["TSEARCH"] = str(copy)
    place.wants(["foo"], 0, b"a:1:foo\n")
    if place.server == server:
        raise Wrong("it is the same server")
    until(lambda: not is_running(server))
    server = place.server
    copy.touch()
    place.wants(["foo"], 0, b"a:1:foo\n")
    if place.server == server:
        raise Wrong("it is the same server")


def a_program_that_waits(place, before):
    """Has calls use a script that does this before it becomes the program, where WAIT waits for a file of its name and `.go`."""
    script = pathlib.Path(place.environment["HOME"], "waits")
    wait = f"while [ ! -e '{script}.go' ]; do sleep 0.05; done"
    script.write_text(f"#!/bin/sh\n{before.replace('WAIT', wait)}\nexec '{place.program}' \"$@\"\n", encoding="ascii")
    script.chmod(0o755)
    place.environment["TSEARCH"] = str(script)
    return script


def a_program_that_is_compiled_first(place):
    """As by the first call in a clone: the program is a new one once it runs, and the server stays."""
    compiled = a_program_that_waits(place, "touch -d 2001-01-01 \"$0\"\nWAIT")
    place.write("a", b"foo\n")
    with concurrent.futures.ThreadPoolExecutor(2) as pool:
        calls = [pool.submit(place.call, "foo")]
        until(lambda: compiled.stat().st_mtime < 10**9)
        server = place.server
        calls.append(pool.submit(place.call, "foo"))
        time.sleep(0.5)
        pathlib.Path(f"{compiled}.go").touch()
        for call in calls:
            if call.result()[:2] != (0, b"a:1:foo\n"):
                raise Wrong(str(call.result()))
    place.wants(["foo"], 0, b"a:1:foo\n")
    if place.server != server:
        raise Wrong("it is another server")


def a_program_that_is_named_wrongly(place):
    """What the variable TSEARCH names is found from the working folder, as a command too; what cannot be run is named."""
    place.write("a", b"foo\n")
    place.write("script", b"")
    place.call("--stop")
    for named, why in ("/none/tsearch", "is not there"), ("./script", "may not be executed"), (str(place.top), "is a folder"), ("none", "is not there"):
        place.environment["TSEARCH"] = named
        shown = str(place.top / named) if named.startswith(".") else named
        for words in ["foo"], ["foo", "a"]:
            place.wants(words, 2, b"", f"tgrep: the variable TSEARCH names {shown}, which {why}\n".encode())
        for words, given in (["--no-server", "foo"], None), (["foo"], b"foo\n"):
            place.wants(words, 2, b"", f"tgrep: the variable TSEARCH names {named}, which {why}\n".encode(), given=given)
    place.write("script", b"none\n")
    os.chmod(place.top / "script", 0o700)
    place.environment["TSEARCH"] = str(place.top / "script")
    place.wants(["foo"], 2, b"", f"tgrep: [Errno 8] Exec format error: '{place.top}/script'\n".encode())
    place.wants(["foo"], 2, b"", f"tgrep: {place.top}/script: Exec format error\n".encode(), given=b"foo\n")
    os.unlink(place.top / "script")
    bin = pathlib.Path(place.environment["HOME"], "bin")
    bin.mkdir()
    shutil.copy(place.program, bin / "own-tsearch")
    place.environment["PATH"] = f"{bin}:{os.environ['PATH']}"
    servers = set()
    for named in str(bin / "own-tsearch"), os.path.relpath(bin / "own-tsearch", place.top), "own-tsearch":
        place.environment["TSEARCH"] = named
        place.wants(["foo"], 0, b"a:1:foo\n")
        servers.add(place.server)
    if len(servers) != 1:
        raise Wrong("there is a server for each name")


def first_calls_at_once_make_one_server(place):
    """Fifty of them, and fifty with changes between."""
    for number in range(200):
        place.write(f"f{number}", b"foo %d\n" % number)
    with concurrent.futures.ThreadPoolExecutor(CALLS) as pool:
        found = list(pool.map(lambda number: place.call(f"foo {number}$"), range(CALLS)))
        for number, (status, shown, _) in enumerate(found):
            if (status, shown) != (0, b"f%d:1:foo %d\n" % (number, number)):
                raise Wrong(f"{number}: {status} {shown}")
        server = place.server

        def change(number):
            place.write(f"f{number}", b"changed %d\n" % number)
            return place.call(f"changed {number}$")

        for number, (status, shown, _) in enumerate(pool.map(change, range(CALLS))):
            if (status, shown) != (0, b"f%d:1:changed %d\n" % (number, number)):
                raise Wrong(f"{number}: {status} {shown}")
    if place.server != server:
        raise Wrong("there is another server")
    (path,) = place.sockets
    servers = [process for process in os.listdir("/proc") if process.isdecimal() and is_server_there(process, path)]
    if servers != [str(server)]:
        raise Wrong(f"there are the servers {servers}")


def is_server_there(process, path):
    """Whether a process is a server with this socket."""
    try:
        return is_server(process, str(path))
    except OSError:
        return False


def others_are_kept_out(place):
    """The folder of the sockets is the user's alone, and a server answers no other user."""
    place.write("a", b"foo\n")
    place.call("foo")
    (path,) = place.sockets
    if stat.S_IMODE(path.parent.stat().st_mode) != 0o700 or stat.S_IMODE(path.stat().st_mode) != 0o600:
        raise Wrong("others may enter")
    path.parent.chmod(0o755)
    place.wants(["foo"], 0, b"a:1:foo\n", b"is not a folder of this user alone")
    if os.getuid() == 0:
        # even where the folder lets another user in
        for folder in path.parents:
            if place.environment["HOME"].startswith(str(folder)) or str(folder).startswith(place.environment["HOME"]):
                folder.chmod(0o755) if folder != pathlib.Path("/") and folder != pathlib.Path("/tmp") else None
        path.chmod(0o666)
        code = "import os, socket, sys; os.setuid(12345); it = socket.socket(socket.AF_UNIX); it.connect(sys.argv[1])"
        code += "; it.sendall(b'x'); print(it.recv(99))"
        said = subprocess.run([sys.executable, "-c", code, path], capture_output=True, check=False).stdout
        if b"another user" not in said:
            raise Wrong(f"another user gets {said}")
    path.parent.chmod(0o700)


def a_full_disk(place):
    """Where the answer goes, and where a socket would be made."""
    place.write("a", b"foo\n")
    with open("/dev/full", "wb") as full:
        done = subprocess.run([TGREP, "foo"], stdout=full, stderr=subprocess.PIPE, **place.way)
    if done.returncode != 2 or b"No space left on device" not in done.stderr:
        raise Wrong(str(done))
    place.call("--stop")
    folder = pathlib.Path(place.environment["XDG_RUNTIME_DIR"], "tgrep")
    shutil.rmtree(folder)
    folder.write_bytes(b"")
    place.wants(["foo"], 0, b"a:1:foo\n", b"no server is used")
    folder.unlink()
    folder.mkdir(mode=0o700)
    # a file system with room for its top alone
    mounted = subprocess.run(["mount", "-t", "tmpfs", "-o", "nr_inodes=1,mode=700", "tmpfs", folder], capture_output=True, check=False)
    if mounted.returncode == 0:
        try:
            place.wants(["foo"], 0, b"a:1:foo\n", b"there is no server, so the files are read for this call alone: No space left on device")
        finally:
            subprocess.run(["umount", folder], check=True)


def a_slow_reader_takes_no_memory(place):
    """What it has not taken waits in no memory of the server, other calls are answered meanwhile, and it gets all."""
    line = b"some " * 200 + b"\n"
    for number in range(40):
        place.write(f"f{number}", line * 1_000)
    place.write("other", b"other\n")
    place.wants(["other"], 0, b"other:1:other\n")
    words = {**place.way, "stdout": subprocess.PIPE}
    del words["check"]
    with subprocess.Popen([TGREP, "-h", "-N", "some"], **words) as call:
        call.stdout.read(len(line))
        for _ in range(20):
            place.wants(["other"], 0, b"other:1:other\n")
            time.sleep(0.05)
        status = pathlib.Path(f"/proc/{place.server}/status").read_text(encoding="ascii")
        memory = int(status.partition("VmRSS:")[2].split()[0])
        if memory > 48 << 10:
            raise Wrong(f"the server has {memory:,} KiB")
        if call.stdout.read() != line * 39_999 or call.wait(SECONDS):
            raise Wrong("not all has come")


def names_with_control_bytes(place):
    """They do not reach a terminal in messages."""
    place.write("a\x1b[31mb\nc", b"")
    os.truncate(place.top / "a\x1b[31mb\nc", (64 << 20) + 1)
    for words in ["foo"], ["foo", "a\x1b[31mb\nc"], ["foo", "a\x1b"], ["foo", "--a\x1b"]:
        _, _, said = place.call(*words)
        if b"\x1b" in said or said.count(b"\n") != 1 or b"^[" not in said:
            raise Wrong(f"{words}: {said}")


def a_socket_path_that_is_too_long(place):
    """The call goes on without a server, and says why."""
    place.write("a", b"foo\n")
    runtime = pathlib.Path(place.environment["HOME"], "x" * 100)
    runtime.mkdir()
    place.environment["XDG_RUNTIME_DIR"] = str(runtime)
    place.wants(["foo"], 0, b"a:1:foo\n", b"is too long for a socket")


def patterns_of_a_file_with_carriage_returns(place):
    """They end lines there, as for rg."""
    place.write("a", b"foo\n")
    place.write("patterns", b"foo\r\nbar\r\n")
    place.wants(["-f", "patterns", "a"], 0, b"1:foo\n")


def several_trees_are_one_answer(place):
    """One summary, one limit, and the same lines between files, as rg has them for folders of one tree."""
    for name in "one", "two":
        place.write(f"{name}/.git/HEAD", b"")
        place.write(f"{name}/a", b"x\nfoo\ny\n")
    trees = ["one", "two"]
    place.wants(["--limit", "1", "foo", *trees], 0, b"one/a:2:foo\n")
    place.wants(["-l", "--limit", "1", "foo", *trees], 0, b"one/a\n")
    for words in ["--heading", "-n", "foo"], ["-n", "--no-heading", "-C1", "foo"], ["-n", "--heading", "-C1", "foo"]:
        wanted = run(["--sort=path", *words, *trees], place.top, place.environment, command="rg") if shutil.which("rg") else None
        if wanted:
            place.wants([*words, *trees], 0, wanted[1])
    _, shown, _ = place.call("--json", "foo", *trees)
    messages = [json.loads(line) for line in shown.splitlines()]
    totals = messages[-1]["data"]["stats"]
    numbers = [totals[key] for key in ("searches", "searches_with_match", "bytes_searched", "matched_lines", "matches")]
    if [message["type"] for message in messages] != ["begin", "match", "end"] * 2 + ["summary"] or numbers != [2, 2, 16, 2, 2]:
        raise Wrong(str(messages))
    _, shown, _ = place.call("--stats", "foo", *trees)
    if shown.count(b" files searched") != 1 or b"2 files searched" not in shown or b"\n16 bytes searched" not in shown:
        raise Wrong(str(shown))


def closed_streams(place):
    """Standard output and input that are closed, or full, are errors, and are told."""
    place.write("a", b"foo\n" * 100_000)
    for command, said in (
        (f"'{TGREP}' foo >&-", b"standard output: Bad file descriptor"),
        (f"'{TGREP}' --no-server foo >&-", b"standard output: Bad file descriptor"),
        (f"'{TGREP}' foo - <&-", b"standard input: Bad file descriptor"),
        (f"'{TGREP}' -f - a <&-", b"standard input: Bad file descriptor"),
        (f"'{TGREP}' --no-server foo >/dev/full", b"No space left on device"),
        (f"'{TGREP}' foo ''", b"No such file or directory"),
    ):
        done = subprocess.run(["bash", "-c", command], capture_output=True, **place.way)
        if (done.returncode, done.stdout) != (2, b"") or said not in done.stderr or b"Traceback" in done.stderr:
            raise Wrong(f"{command}: {done}")


def nobody_reads_on(place):
    """`| head` ends the search, and the call by SIGPIPE."""
    place.write("a", b"foo\n" * 200_000)
    for number in range(20):
        place.write(f"b{number}", b"foo\n" * 200_000)
    place.call("-q", "foo")
    with subprocess.Popen([TGREP, "foo"], cwd=place.top, env=place.environment, stdout=subprocess.PIPE, stdin=subprocess.DEVNULL) as call:
        if call.stdout.readline() != b"a:1:foo\n":
            raise Wrong("another line comes first")
        call.stdout.close()
        if call.wait(SECONDS) != -signal.SIGPIPE:
            raise Wrong(f"status {call.returncode}")
    place.wants(["-m1", "-h", "foo", "a"], 0, b"1:foo\n")


def files_that_cannot_be_searched(place):
    """They are named, and a search that finds nothing is not sure."""
    place.write("wide", b"x" * 2_000_000 + b"foo\n")
    place.write("bin", b"foo\0\n")
    place.write("a", b"foo\n")
    place.wants(["-c", "foo"], 0, b"a:1\nwide:1\n", b"")
    place.write("large", b"some text\n" * (7 << 20) + b"foo\n")
    # again at each call: another terminal may not have seen it
    for _ in range(2):
        place.wants(["-c", "foo"], 0, b"a:1\nwide:1\n", b"large: over 64 MiB")
    place.wants(["-q", "bar"], 2, b"", b"large: over 64 MiB")
    if place.call("-q", "foo") != (0, b"", b""):
        raise Wrong("what is sure has a message")
    place.wants(["foo", "a"], 0, b"1:foo\n", b"")
    place.wants(["bar"], 2, b"", b"large: over 64 MiB")
    place.wants(["-s", "bar", "-g", "!large"], 1, b"")
    place.wants(["-a", "-c", "foo"], 0, b"a:1\nwide:1\n", b"bin: binary")
    place.wants(["foo", "bin"], 2, b"", b"bin: binary")
    place.wants(["-L", "foo"], 2, b"", b"large: over 64 MiB")
    # one that is typed is searched, block by block
    place.wants(["foo", "large"], 0, b"%d:foo\n" % ((7 << 20) + 1), b"")
    place.wants(["-c", "-v", "t$", "a", "large"], 0, b"a:1\nlarge:1\n", b"")
    os.truncate(place.top / "large", 1_000)
    place.wants(["-c", "text|foo"], 0, b"a:1\nlarge:100\nwide:1\n", b"")


def long_lines(place):
    """They are whole, unless a form is asked for in which they are not."""
    line = b"x" * 5_000 + b" foo " + b"y" * 5_000 + b"foo" + b"z" * 5_000
    place.write("a", line + b"\n")
    place.wants(["foo"], 0, b"a:1:" + line + b"\n")
    place.wants(["-M", "100", "foo"], 0, b"a:1:[Omitted long matching line]\n")
    status, shown, _ = place.call("-M", "400", "--max-columns-preview", "foo")
    gap = rb" \[\.\.\. [\d,]+ bytes \.\.\.\] "
    if status or not re.fullmatch(b"a:1:%sx{99,100} foo y{95,99}%sy{99,100}fooz{99,100}%s\n" % (gap, gap, gap), shown):
        raise Wrong(str(shown))
    # what would be written over and over again
    place.write("a", b"foo " * 5_000 + b"\n")
    status, shown, _ = place.call("--vimgrep", "foo")
    if (status, shown.count(b"\n"), len(shown) < 3_000_000) != (0, 5_000, True) or not shown.startswith(b"a:1:1:foo foo"):
        raise Wrong(f"{status} {len(shown)} {shown[:200]}")


def standard_input_is_searched_as_it_comes(place):
    """A line is shown before the next one comes, and an input without an end ends with who reads."""
    place.top.joinpath("a").write_bytes(b"")
    with subprocess.Popen([TGREP, "-n", "foo"], stdin=subprocess.PIPE, stdout=subprocess.PIPE, cwd=place.top, env=place.environment) as call:
        for number in range(1, 4):
            call.stdin.write(b"foo\n")
            call.stdin.flush()
            if (line := call.stdout.readline()) != b"%d:foo\n" % number:
                raise Wrong(str(line))
        call.stdin.close()
        if call.stdout.read() or call.wait(SECONDS):
            raise Wrong("more, or an error")
    for command in f"yes foo | '{TGREP}' foo | head -1", f"yes foo | '{TGREP}' -m1 foo", f"yes foo | '{TGREP}' --limit 1 foo":
        way = {**place.way, "timeout": SECONDS}
        done = subprocess.run(["bash", "-c", command], capture_output=True, **way)
        if done.stdout != b"1:foo\n":
            raise Wrong(f"{command}: {done}")


def without_a_server(place):
    """The same answers, and standard input."""
    for name in "a", "s/b c":
        place.write(name, b"one foo\ntwo\n")
    for words in ["foo"], ["-c", "o", "s"], ["foo", "a", "s"], ["-o", "t.o"], ["-L", "zz"], ["zz"], ["-C1", "foo"]:
        status, shown, _ = place.call(*words)
        place.wants(["--no-server", *words], status, shown)
    for words, given, wanted in (
        (["foo"], b"x\nfoo\n", b"2:foo\n"),
        (["foo", "-"], b"foo\n", b"1:foo\n"),
        (["foo", "-", "a"], b"foo\n", b"<stdin>:1:foo\na:1:one foo\n"),
        (["-c", "foo"], b"foo\nfoo\n", b"2\n"),
        (["-H", "foo"], b"foo\n", b"<stdin>:1:foo\n"),
        (["-r", "-l", "foo"], b"foo\n", b"a\ns/b c\n"),
        (["-f", "-", "a"], b"two\n", b"2:two\n"),
        (["foo$"], b"x\n" * 1_000_000 + b"foo\n", b"1000001:foo\n"),
    ):
        found = place.call(*words, given=given)
        if found[:2] != (0, wanted):
            raise Wrong(f"{words}: {found}")
    done = subprocess.run(["bash", "-c", f"'{TGREP}' -H foo <(echo foo)"], capture_output=True, **place.way)
    if not done.stdout.endswith(b":1:foo\n"):
        raise Wrong(str(done))


def trees_beside_each_other(place):
    """Paths of another tree, of a folder that rules name, and of a file outside."""
    place.write(".git/HEAD", b"")
    place.write(".gitignore", b"out\n")
    place.write("a", b"foo\n")
    place.write("out/b", b"foo\n")
    other = pathlib.Path(place.environment["HOME"], "other")
    other.mkdir()
    (other / "c").write_bytes(b"foo\n")
    place.wants(["foo", "out", "../other", "a", "../other/c"], 0, b"out/b:1:foo\n../other/c:1:foo\na:1:foo\n../other/c:1:foo\n")
    place.wants(["foo"], 0, b"a:1:foo\n")
    place.wants(["foo", "out/b"], 0, b"1:foo\n")
    place.wants(["foo", "--root", "../other", "../other"], 0, b"../other/c:1:foo\n")
    place.wants(["foo", "--root", "../other"], 0, b"../other/c:1:foo\n")
    place.wants(["foo", "--root", "../other", "."], 2, b"", b"leave out one")
    for name in "../none", "a":
        place.wants(["foo", "--root", name], 2, b"", b"there is no such folder")


def a_slow_search_is_given_up(place):
    """By its limit of time."""
    place.write("a", (b"a" * 16_000 + b"\n") * 60)
    place.wants(["--search-ms", "50", r"x([ab]|a([ab]{250}){15}c|d$)*e|(.*.*){60}=$"], 2, b"", b"too slow")


def watchman_that_comes_later(place):
    """The server tries again."""
    watchman = shutil.which("watchman")
    if not watchman:
        return
    told = subprocess.run([watchman, "--no-pretty", "get-sockname"], capture_output=True, check=True, env=place.environment)
    place.environment.update({"TGREP_LOOK": "0.1", "WATCHMAN_SOCK": f"{place.environment['HOME']}/socket"})
    place.write("a", b"foo\n")
    place.wants(["foo"], 0, b"a:1:foo\n")
    if b"by looking through the folder" not in place.call("--status")[1]:
        raise Wrong("it is watched")
    os.symlink(json.loads(told.stdout)["sockname"], place.environment["WATCHMAN_SOCK"])
    until(lambda: b"by watchman" in place.call("--status")[1])
    place.write("a", b"foo again\n")
    place.wants(["foo"], 0, b"a:1:foo again\n")


def it_looks_through_the_folder_without_watchman(place):
    """As --status says; a terminal is told once (screen.py)."""
    stub = pathlib.Path(place.environment["HOME"], "stub")
    stub.mkdir()
    place.environment["WATCHMAN_SOCK"] = str(stub / "none")
    place.environment["PATH"] = str(stub)
    place.write("a", b"foo\n")
    place.wants(["foo"], 0, b"a:1:foo\n")
    if b"by looking through the folder" not in place.call("--status")[1]:
        raise Wrong("it is watched")
    for step in range(20):
        place.write("a", b"foo %02d\n" % step)
        status, shown, said = place.call("foo")
        if (status, shown, said) != (0, b"a:1:foo %02d\n" % step, b""):
            raise Wrong(f"{status} {shown} {said}")


def each_use_is_counted(place):
    """--status and --stats."""
    place.write("a", b"foo\nbar foo foo\n")
    place.write("b", b"bar\n")
    status, shown, _ = place.call("--stats", "foo")
    for wanted in b"a:1:foo\na:2:bar foo foo\n", b"3 matches", b"2 matched lines", b"1 files contained", b"2 files searched", b"20 bytes searched":
        if status or wanted not in shown:
            raise Wrong(str(shown))
    status, shown, _ = place.call("--status")
    if status or b"2 with 20 bytes" not in shown:
        raise Wrong(str(shown))


def files_are_searched_while_the_tree_is_loaded(place):
    """A call for a file alone does not wait for the tree, and one for the tree does."""
    slow = a_program_that_waits(place, "case \"$*\" in *'--readers 0'*) ;; *) WAIT ;; esac")
    place.write("a", b"foo\n")
    place.write("b", b"foo\n")
    with concurrent.futures.ThreadPoolExecutor(1) as pool:
        whole = pool.submit(place.call, "foo")
        until(lambda: place.sockets)
        place.wants(["foo", "a"], 0, b"1:foo\n")
        pathlib.Path(f"{slow}.go").touch()
        if whole.result()[:2] != (0, b"a:1:foo\nb:1:foo\n"):
            raise Wrong(str(whole.result()))


def files_that_may_not_be_read(place):
    """They are named at each call, and are an error, as for grep."""
    if os.getuid() != 0:
        return
    place.write("a", b"foo\n")
    place.write("b", b"foo\n")
    home = pathlib.Path(place.environment["HOME"])
    for path in home, *home.rglob("*"):
        os.chown(path, 12345, 12345)
    (place.top / "b").chmod(0)
    for words, wanted in ((["foo"], (2, b"a:1:foo\n")), (["bar"], (2, b"")), (["-q", "foo"], (0, b"")), (["-s", "foo"], (2, b"a:1:foo\n"))):
        command = [str(TGREP), *words]
        done = subprocess.run(command, user=12345, group=12345, capture_output=True, **place.way)
        if (done.returncode, done.stdout) != wanted or (b"tgrep: b: " in done.stderr) == (words[0] == "-s"):
            raise Wrong(f"{words}: {done}")
    (place.top / "d").mkdir(mode=0)
    done = subprocess.run([str(TGREP), "--files"], user=12345, group=12345, capture_output=True, **place.way)
    if (done.returncode, done.stdout) != (2, b"a\n"):
        raise Wrong(f"a folder that may not be read: {done}")


TESTS = [
    files_that_may_not_be_read,
    files_are_searched_while_the_tree_is_loaded,
    each_change_is_found,
    rules_hold,
    rules_hold_without_git,
    what_watchman_leaves_out,
    what_the_settings_of_a_folder_above_leave_out,
    files_with_another_name_outside,
    other_rules_of_the_user,
    what_no_watcher_tells,
    a_lost_socket,
    a_user_has_eight_servers,
    many_files_change_at_once,
    a_killed_server_is_started_again,
    no_program_is_left_by_a_killed_server,
    a_server_ends_when_it_should,
    another_folder_of_the_same_name,
    a_version_that_differs_restarts_it,
    a_program_that_is_compiled_first,
    a_program_that_is_named_wrongly,
    first_calls_at_once_make_one_server,
    others_are_kept_out,
    a_full_disk,
    a_slow_reader_takes_no_memory,
    several_trees_are_one_answer,
    names_with_control_bytes,
    a_socket_path_that_is_too_long,
    patterns_of_a_file_with_carriage_returns,
    closed_streams,
    nobody_reads_on,
    files_that_cannot_be_searched,
    long_lines,
    standard_input_is_searched_as_it_comes,
    without_a_server,
    trees_beside_each_other,
    a_slow_search_is_given_up,
    it_looks_through_the_folder_without_watchman,
    watchman_that_comes_later,
    each_use_is_counted,
]


def check(program):
    """Runs all, and gives the counts."""
    counted = Counted()
    for test in TESTS:
        with tempfile.TemporaryDirectory(ignore_cleanup_errors=True) as folder:
            place = Place(os.path.realpath(folder), program)
            try:
                test(place)
                counted.passes()
            except (Wrong, OSError, ValueError, subprocess.SubprocessError) as wrong:
                counted.fails(f"{test.__name__}: {wrong!r}")
            finally:
                with contextlib.suppress(OSError):
                    stop_all(place.environment)
    return counted



