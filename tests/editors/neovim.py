"""A Neovim that a test runs: keys are typed into it, and its screen, its windows and its lists are read back (api-ui-events of its manual)."""

import os
import pathlib
import queue
import subprocess
import threading
import time

import msgpack
from built import TOP
from counted import Wrong

PLUGIN = TOP / "clients/neovim"
SECONDS = 240


class Failed(Wrong):
    """Neovim has answered with an error."""


class Neovim:
    """A Neovim without a terminal, with the plugin on its path, in a folder."""

    def __init__(self, folder, environment, columns=120, lines=60, init=""):
        command = ["nvim", "--clean", "--embed", "--cmd", f"set rtp^={PLUGIN} | set noswapfile | set shortmess+=I"]
        self.process = subprocess.Popen(
            [*command, *(["-c", init] if init else [])], cwd=folder, env=environment, stdin=subprocess.PIPE, stdout=subprocess.PIPE,
            stderr=subprocess.DEVNULL,
        )  # fmt: skip
        self._answers = queue.Queue()
        self._number = 0
        self._lock = threading.Lock()
        self.screen = {}
        self.flushes = 0
        # when the screen was last ready, and what is called then
        self.flushed_at = 0.0
        self.on_flush = lambda: None
        self._thread = threading.Thread(target=self._read, daemon=True)
        self._thread.start()
        self.call("nvim_ui_attach", columns, lines, {"ext_linegrid": True, "rgb": True})

    def _read(self):
        unpacker = msgpack.Unpacker(raw=False, unicode_errors="surrogateescape", strict_map_key=False)
        while data := os.read(self.process.stdout.fileno(), 1 << 18):
            unpacker.feed(data)
            for message in unpacker:
                if message[0] == 1:
                    self._answers.put(message[1:])
                elif message[0] == 2 and message[1] == "redraw":
                    self._redraw(message[2])
                elif message[0] == 2:
                    self._note(message[2])
        self._answers.put(None)

    def _note(self, words):
        """Takes what the plugin tells besides."""

    def _redraw(self, batches):
        for name, *events in batches:
            for event in events:
                if name == "grid_line":
                    self._draw(*event[1:4])
                elif name == "grid_clear":
                    self.screen.clear()
                elif name == "grid_scroll":
                    self._scroll(*event[1:6])
                elif name == "flush":
                    self.flushes += 1
                    self.flushed_at = time.perf_counter()
                    self.on_flush()

    def _draw(self, row, column, cells):
        line = self.screen.setdefault(row, {})
        for cell in cells:
            for _ in range(cell[2] if len(cell) > 2 else 1):
                line[column] = cell[0]
                column += 1

    def _scroll(self, top, bottom, left, right, rows):
        moved = {}
        for row in range(top, bottom):
            source = self.screen.get(row + rows, {}) if top <= row + rows < bottom else {}
            moved[row] = {column: source.get(column, " ") for column in range(left, right)}
        for row, cells in moved.items():
            self.screen.setdefault(row, {}).update(cells)

    def rows(self):
        """The rows of the screen, as text."""
        return ["".join(cells.get(column, " ") for column in range(max(cells, default=-1) + 1)) for _, cells in sorted(self.screen.items())]

    def call(self, method, *words):
        """What a function of the API gives."""
        with self._lock:
            self._number += 1
            self.process.stdin.write(msgpack.packb([0, self._number, method, list(words)], unicode_errors="surrogateescape"))
            self.process.stdin.flush()
            try:
                answer = self._answers.get(timeout=SECONDS)
            except queue.Empty:
                raise Failed(f"{method}: no answer in {SECONDS} seconds; the screen has {self.rows()}") from None
        if answer is None:
            raise Failed(f"{method}: Neovim has ended")
        if answer[1]:
            raise Failed(f"{method}: {answer[1]}")
        return answer[2]

    def lua(self, code, *words):
        """What some Lua gives."""
        return self.call("nvim_exec_lua", code, list(words))

    def command(self, text):
        """Runs a command."""
        self.call("nvim_command", text)

    def type(self, keys):
        """Types keys."""
        self.call("nvim_input", keys)

    def lines(self, buffer=0):
        """The lines of a buffer."""
        return self.call("nvim_buf_get_lines", buffer, 0, -1, False)

    def until(self, holds, what, seconds=SECONDS):
        """Waits until something holds, and gives it."""
        end = time.monotonic() + seconds
        while True:
            if found := holds():
                return found
            if time.monotonic() > end:
                raise Failed(f"{what}: not in {seconds} seconds; messages: {self.messages()}; the screen has {[row for row in self.rows() if row.strip()][:40]}")
            time.sleep(0.01)

    def messages(self):
        """What Neovim has said."""
        return self.call("nvim_exec", "messages", True)

    # What the plugin shows.

    def listed(self):
        """The lines of the window's list, or None if it is not open."""
        return self.lua("""
            local window = require("tgrep.window").current()
            return window and vim.list_slice(vim.api.nvim_buf_get_lines(window.buffers.list, 0, -1, false), 1, #window.hits) or vim.NIL""")

    def told(self):
        """What the window says of the search."""
        return self.lua("""local window = require("tgrep.window").current(); return window and window.told or vim.NIL""")

    def marked(self, part="list"):
        """The texts that are marked as matches in a part of the window."""
        return self.lua("""
            local window = require("tgrep.window").current()
            local space, found = vim.api.nvim_get_namespaces().tgrep, {}
            for _, mark in ipairs(vim.api.nvim_buf_get_extmarks(window.buffers[...], space, 0, -1, { details = true })) do
              if mark[4].hl_group == "Search" then
                local line = vim.api.nvim_buf_get_lines(window.buffers[...], mark[2], mark[2] + 1, false)[1]
                found[#found + 1] = line:sub(mark[3] + 1, mark[4].end_col)
              end
            end
            return found""", part)

    def quickfix(self):
        """The quickfix list, as `path:line:text`."""
        root = self.lua("return require('tgrep.client').of().root") or ""
        items = self.lua("""
            local found = {}
            for at, item in ipairs(vim.fn.getqflist()) do
              found[at] = { vim.api.nvim_buf_get_name(item.bufnr), item.lnum, item.col, item.text }
            end
            return found""")
        return [f"{os.path.relpath(path, root)}:{line}:{text}" for path, line, _, text in items]

    def close(self):
        """Ends it."""
        self.process.kill()
        self.process.wait()
        self._thread.join(SECONDS)
        self.process.stdin.close()
        self.process.stdout.close()


def grep(root, *words):
    """What GNU grep finds in a folder, as `path:line:text`, in the order of the paths. The words are options and a pattern."""
    done = subprocess.run(
        ["grep", "-rIn", *([] if "-F" in words else ["-E"]), *words, "."], cwd=root, env={**os.environ, "LC_ALL": "C"}, capture_output=True, check=False, stdin=subprocess.DEVNULL
    )
    rows = [line.removeprefix(b"./").decode(errors="replace") for line in done.stdout.splitlines()]
    return sorted(rows, key=lambda row: (row.split(":")[0].encode(), int(row.split(":")[1])))


def write(path, text):
    """Writes a file."""
    pathlib.Path(path).write_text(text, encoding="utf-8")
