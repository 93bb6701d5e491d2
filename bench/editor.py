#!/usr/bin/env python3
"""The plugin for Neovim over a tree: from a key to what it finds on the screen, how long the editor is held up, and how it starts.

Usage: bench/editor.py [--rounds N] FOLDER     It needs neovim and python3-msgpack. The folder is copied.

A key is timed from when it is sent to Neovim until Neovim has written the screen with the first lines that it finds, 200 where there are
as many. A block is the longest time between two ticks of a timer in Neovim, which ticks each millisecond: by the clock, and in seconds of
the processor, which does not count what others do on the machine. It says how loaded the machine is, and takes no quiet one for granted.
"""

import argparse
import os
import pathlib
import shutil
import statistics
import subprocess
import sys
import tempfile
import time

TOP = pathlib.Path(__file__).resolve().parent.parent
sys.path.insert(0, str(TOP / "tests"))
from editors.neovim import Neovim  # noqa: E402
from terminal.trees import environment_in, run, stop_all  # noqa: E402

PATTERNS = ["ListenAndServe", "return err", "func (s *", "sched_setaffinity", "[a-z]+Reader", "x.*y.*z", "import", "^type .* struct", "NOTE|BUG", "0x[0-9a-f]{8}"]
LITERAL = "func (s *"
LINES = 215
WATCH = """
_G.ticks = { wall = 0, cpu = 0, count = 0 }
local uv = vim.loop
local function cpu() local used = uv.getrusage(); return (used.utime.sec + used.stime.sec) * 1e3 + (used.utime.usec + used.stime.usec) / 1e3 end
local before, used = uv.hrtime(), cpu()
_G.ticker = _G.ticker or uv.new_timer()
_G.ticker:start(0, 1, function()
  local now, spent = uv.hrtime(), cpu()
  _G.ticks.wall = math.max(_G.ticks.wall, (now - before) / 1e6)
  _G.ticks.cpu = math.max(_G.ticks.cpu, spent - used)
  _G.ticks.count = _G.ticks.count + 1
  before, used = now, spent
end)
"""
SHOWN = """
local channel = ...
local Window = getmetatable(require("tgrep.window").current()).__index
local show_first = Window.show_first
function Window:show_first(documents)
  show_first(self, documents)
  vim.rpcnotify(channel, "shown", self.asked.pattern, #self.hits)
end
"""


class Timed(Neovim):
    """A Neovim whose screen is not kept: only when it was ready counts."""

    def __init__(self, *words, **how):
        self.shown = None
        self.waits_for = None
        super().__init__(*words, **how)

    def _redraw(self, batches):
        if self.waits_for and self.shown and any(batch[0] == "flush" for batch in batches):
            self.flushed_at = time.perf_counter()
            self.waits_for = None

    def _note(self, words):
        if words[0] == self.waits_for and not self.shown:
            self.shown = words

    def key(self, key, pattern):
        """The milliseconds of one key, after which the window searches for this pattern; and the number of lines of its first screen."""
        self.shown, self.flushed_at = None, 0.0
        self.waits_for = pattern
        began = time.perf_counter()
        self.type(key)
        while self.waits_for:
            time.sleep(0.0002)
            if time.perf_counter() - began > 60:
                raise SystemExit(f"{pattern}: nothing on the screen in 60 seconds")
        return (self.flushed_at - began) * 1_000, self.shown[1]


def summary(name, times):
    """One row."""
    print(f"{name:34} {len(times):6} {statistics.median(times):8.1f} {sorted(times)[int(len(times) * 0.95)]:8.1f} {max(times):8.1f}")


def keys(neovim, rounds):
    """From a key to the screen, for each letter of each pattern."""
    neovim.type(":Tgrep<CR>")
    neovim.until(lambda: neovim.listed() is not None, "a window")
    channel = neovim.call("nvim_get_api_info")[0]
    neovim.lua(SHOWN, channel)
    everything, large = [], []
    for number in range(rounds + 1):
        for pattern in PATTERNS:
            typed = ""
            if pattern == LITERAL:
                neovim.type("<M-f>")
            found = []
            for letter in pattern:
                typed += letter
                if pattern != LITERAL and not is_whole(typed):
                    neovim.type("<lt>" if letter == "<" else letter)
                    time.sleep(0.05)
                    continue
                found.append(neovim.key(letter, typed))
                time.sleep(0.03)
            neovim.lua("vim.api.nvim_buf_set_lines(0, 0, -1, false, { '' })")
            neovim.type("<Space><BS>")
            time.sleep(0.1)
            if pattern == LITERAL:
                neovim.type("<M-f>")
            if number:
                everything += [spent for spent, _ in found]
                large += [spent for spent, count in found if count >= 200]
                if number == rounds:
                    summary(f"  {pattern}", [spent for spent, _ in found])
    summary("all keys", everything)
    summary("keys with 200 lines or more", large)
    neovim.type("<Esc>")


def is_whole(pattern):
    """Whether this much of a pattern can be searched for."""
    return pattern.count("(") == pattern.count(")") and pattern.count("[") == pattern.count("]") and pattern.count("{") == pattern.count("}")


def blocks(neovim, what, act):
    """The longest block while something is done."""
    neovim.lua(WATCH)
    act()
    found = neovim.lua("_G.ticker:stop(); return _G.ticks")
    print(f"{what:50} {found['wall']:8.1f} ms by the clock {found['cpu']:8.1f} ms of the processor")


def started(environment):
    """How long the plugin takes as Neovim starts, and all of its modules when it is used first."""
    times = {"plugin/tgrep.lua": [], "all modules": []}
    with tempfile.TemporaryDirectory() as room:
        for number in range(20):
            log = os.path.join(room, f"log{number}")
            code = "let t = reltime() | lua for _, m in ipairs({'config','client','buffers','search','list','window','replace'}) do require('tgrep.'..m) end"
            code += " | call writefile([string(reltimefloat(reltime(t)) * 1000)], '" + log + ".modules') | qa!"
            code = code.replace(" | call", "\ncall").replace(" | qa!", "\nqa!").replace(" | lua", "\nlua")
            script = os.path.join(room, "script.vim")
            pathlib.Path(script).write_text(code, encoding="ascii")
            subprocess.run(["nvim", "--clean", "--headless", "--startuptime", log, "--cmd", f"set rtp^={TOP / 'clients/neovim'}", "-S", script],
                           env=environment, check=False, capture_output=True, timeout=60, stdin=subprocess.DEVNULL)  # fmt: skip
            row = next(row for row in pathlib.Path(log).read_text(encoding="utf-8").splitlines() if "plugin/tgrep.lua" in row)
            times["plugin/tgrep.lua"].append(float(row.split()[1]))
            times["all modules"].append(float(pathlib.Path(log + ".modules").read_text(encoding="ascii")))
    for name, found in times.items():
        summary(f"start: {name}", found)


def measure(folder, rounds):
    """All of it."""
    with tempfile.TemporaryDirectory(ignore_cleanup_errors=True) as room:
        room = os.path.realpath(room)
        tree = os.path.join(room, "tree")
        shutil.copytree(folder, tree, symlinks=True)
        environment = environment_in(room, os.environ.get("TSEARCH") or str(TOP / "tsearch"), TERM="xterm", LC_ALL="C.UTF-8")
        run(["-q", "return", "."], tree, environment)
        print(f"{'milliseconds':34} {'times':>6} {'median':>8} {'95 %':>8} {'worst':>8}")
        started(environment)
        neovim = Timed(tree, environment, lines=LINES)
        keys(neovim, rounds)
        neovim.close()
        neovim = Neovim(tree, environment, lines=LINES)
        try:
            print("\nthe longest block of the editor")
            typed(neovim)
            filled(neovim)
            large(neovim, tree)
        finally:
            neovim.close()
            stop_all(environment)


def typed(neovim):
    """Blocks while one types."""
    neovim.type(":Tgrep<CR>")
    neovim.until(lambda: neovim.listed() is not None, "a window")

    def act():
        for letter in "return err":
            neovim.type(letter)
            time.sleep(0.15)
        neovim.until(lambda: " line" in neovim.told(), "an answer")
        for _ in range(20):
            neovim.type("<C-n>")
            time.sleep(0.05)

    blocks(neovim, "typing in the window, and moving", act)
    neovim.type("<Esc>")
    neovim.until(lambda: neovim.listed() is None, "no window")


def filled(neovim):
    """Blocks while a list is filled."""

    def act():
        neovim.type(":Tgrep return<CR>")
        neovim.until(lambda: "lines" in neovim.messages(), "an answer", 120)

    blocks(neovim, "a list of 50,000 lines", act)
    neovim.command("cclose")


def large(neovim, tree):
    """Blocks while a large buffer that is not saved is sent and searched, and how long that takes; then an edit of it."""
    text = "".join(f"line {number} of a large buffer\n" for number in range(190_000))
    pathlib.Path(tree, "large.txt").write_text(text, encoding="ascii")
    neovim.command("edit large.txt")

    def search(word, edit):
        def act():
            neovim.type(edit)
            neovim.lua("vim.fn.setqflist({}, 'f')")
            began = time.perf_counter()
            neovim.lua("require('tgrep').list({ pattern = ... }) _G.list = require('tgrep.list').last()", word)
            neovim.until(lambda: not neovim.lua("return _G.list.search.is_on"), "an answer")
            act.seconds = time.perf_counter() - began

        return act

    for what, word, edit in (("a buffer of 5 MB is sent", "first_edit", "ggOfirst_edit<Esc>"), ("its next edit", "next_edit", "Gonext_edit<Esc>")):
        act = search(word, edit)
        blocks(neovim, what, act)
        print(f"{'':4}found {len(neovim.quickfix())} after {act.seconds * 1_000:.0f} ms")
        neovim.command("cclose")


def main():
    parser = argparse.ArgumentParser(description=__doc__, formatter_class=argparse.RawDescriptionHelpFormatter)
    parser.add_argument("folder", metavar="FOLDER")
    parser.add_argument("--rounds", type=int, default=3)
    given = parser.parse_args()
    print(f"load {os.getloadavg()[0]:.1f} before")
    measure(given.folder, given.rounds)
    print(f"load {os.getloadavg()[0]:.1f} after")


if __name__ == "__main__":
    sys.exit(main())
