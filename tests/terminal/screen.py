"""tgrep at a terminal, that of tmux: colours, progress, control bytes, Ctrl-C."""

import contextlib
import json
import os
import pathlib
import re
import shlex
import shutil
import socket
import subprocess
import tempfile
import time

from counted import Counted, Wrong
from terminal.faults import Place, until
from terminal.trees import TGREP, stop_all

FILES = 3_000
SLOW = "x([ab]|a([ab]{250}){15}c|d$)*e|(.*.*){60}=$"
DONE = re.compile(r"^done (\d+)$", re.MULTILINE)


class Screen:
    """A terminal of tmux, with a shell in the folder of a place."""

    def __init__(self, place):
        self._socket = os.path.join(place.environment["HOME"], "tmux")
        environment = {**place.environment, "LC_ALL": "C.UTF-8", "TERM": "xterm"}
        command = ["new-session", "-d", "-x", "100", "-y", "40", "-c", str(place.top), "env PS1='$ ' bash --norc --noprofile"]
        self._tmux(*command, env=environment)

    def _tmux(self, *words, **how):
        return subprocess.run(["tmux", "-S", self._socket, *words], capture_output=True, check=True, text=True, **how).stdout

    def type(self, text):
        """Types a line."""
        self._tmux("send-keys", text, "Enter")

    def press(self, key):
        """Presses a key."""
        self._tmux("send-keys", key)

    def written_to(self, path):
        """Has all that is written to the terminal from now on written into a file too."""
        self._tmux("pipe-pane", f"cat > {shlex.quote(str(path))}")

    def shown(self, *words):
        """What is on the screen."""
        return self._tmux("capture-pane", "-p", *words)

    def run(self, *words):
        """Runs tgrep, and gives the status once it is shown."""
        self._tmux("send-keys", "clear", "Enter")
        until(lambda: not DONE.search(self.shown()))
        self.type(f"'{TGREP}' " + " ".join(words) + "; echo done $?")
        until(lambda: DONE.search(self.shown()))
        return int(DONE.search(self.shown())[1])

    def close(self):
        """Ends the terminal."""
        with contextlib.suppress(subprocess.CalledProcessError):
            self._tmux("kill-server")


def colours_and_control_bytes(place, screen):
    """Matches, paths and numbers have colours; a line cannot tell the terminal what to do."""
    place.write("a", b"say foo \x1b[2J foo\n")
    if screen.run("foo") != 0:
        raise Wrong("status")
    text = screen.shown("-e")
    if not re.search(r"\x1b\[35ma\x1b\[(0|39)m:\x1b\[32m1\x1b\[(0|39)m:say \x1b\[(1m\x1b\[31m|1;31m|31m\x1b\[1m)foo", text):
        raise Wrong(repr(text))
    if "^[[2J" not in screen.shown():
        raise Wrong(repr(screen.shown()))
    screen.type("export NO_COLOR=1")
    if screen.run("foo") != 0 or "\x1b[31m" in screen.shown("-e") or "a:1:say foo" not in screen.shown():
        raise Wrong(repr(screen.shown("-e")))
    screen.run("--color=always", "foo")
    if not re.search(r"\x1b\[[0-9;]*31m", screen.shown("-e")):
        raise Wrong(repr(screen.shown("-e")))
    screen.type("unset NO_COLOR")
    if screen.run("--color=never", "foo") != 0 or "\x1b[31m" in screen.shown("-e") or "a:1:say foo ^[[2J foo" not in screen.shown():
        raise Wrong(repr(screen.shown("-e")))


def progress_that_goes_away(place, screen):
    """While a first call loads the tree."""
    for number in range(FILES):
        place.write(f"d{number % 50}/f{number}", b"foo %d\n" % number * 200)
    written = pathlib.Path(place.environment["HOME"], "written")
    screen.written_to(written)
    screen.type(f"'{TGREP}' -c 'foo 77$'; echo done $?")
    until(lambda: DONE.search(screen.shown()))
    # it may have been on the screen for a moment
    until(lambda: written.exists() and re.search(rb"loading: [\d,]+ of 3,000 files", written.read_bytes()))
    if "loading" in screen.shown() or "d27/f77:200" not in screen.shown():
        raise Wrong(screen.shown())


def long_lines_do_not_flood(place, screen):
    """They are shown around their matches."""
    place.write("a", b"x" * 100_000 + b" foo " + b"y" * 100_000 + b"\nfoo\n")
    for words in ["foo"], ["--color=never", "foo"], ["-A1", "foo"], ["-o", ".*oo.*"]:
        if screen.run(*map(shlex.quote, words)) != 0 or not re.search(r"\[\.\.\. [\d,]+ bytes \.\.\.\]", screen.shown().replace("\n", "")):
            raise Wrong(screen.shown())
    if screen.run("-M0", "-c", "foo") != 0 or "a:2" not in screen.shown():
        raise Wrong(screen.shown())


def open_searches(place):
    """How many searches the program has open, as the server tells editors."""
    with socket.socket(socket.AF_UNIX) as connection:
        connection.connect(json.loads(place.call("--socket")[1])["socket"])
        connection.sendall(b'{"id": 1, "do": "status"}\n')
        with connection.makefile("rb") as lines:
            return next(told["open"] for told in map(json.loads, lines) if told.get("id") == 1)


def ctrl_c_ends_a_search(place, screen):
    """At once, with the status of that signal, and the server goes on."""
    place.write("a", (b"a" * 16_000 + b"\n") * 60)
    place.write("b", b"foo\n")
    screen.run("foo", "b")
    server = place.server
    screen.type(f"'{TGREP}' '{SLOW}' a; echo done $?")
    time.sleep(0.5)
    screen.press("C-c")
    screen.type(f"'{TGREP}' foo b; echo done $?")
    until(lambda: re.search(r"^1:foo\ndone 0", screen.shown(), re.MULTILINE))
    until(lambda: open_searches(place) == 0)
    if place.server != server:
        raise Wrong("there is another server")


def a_folder_that_is_not_watched_is_named_once(place, screen):
    """At a terminal."""
    place.write("a", b"foo\n")
    place.call("--stop")
    screen.type(f"export WATCHMAN_SOCK='{place.top}/none' PATH=/nowhere")
    screen.type(f"'{TGREP}' foo; '{TGREP}' foo; echo done $?")
    until(lambda: DONE.search(screen.shown()))
    if screen.shown().replace("\n", "").count("each call looks through the folder") != 1:
        raise Wrong(screen.shown())


TESTS = [
    colours_and_control_bytes,
    progress_that_goes_away,
    long_lines_do_not_flood,
    ctrl_c_ends_a_search,
    a_folder_that_is_not_watched_is_named_once,
]


def check(program):
    """Runs all, and gives the counts."""
    counted = Counted()
    if not shutil.which("tmux"):
        print("there is no command tmux, so the tests of tgrep at a terminal are left out")
        return counted
    for test in TESTS:
        with tempfile.TemporaryDirectory(ignore_cleanup_errors=True) as folder:
            place = Place(os.path.realpath(folder), program)
            screen = Screen(place)
            try:
                test(place, screen)
                counted.passes()
            except (Wrong, OSError, ValueError, subprocess.SubprocessError) as wrong:
                counted.fails(f"{test.__name__}: {wrong!r}")
            finally:
                screen.close()
                with contextlib.suppress(OSError):
                    stop_all(place.environment)
    return counted
