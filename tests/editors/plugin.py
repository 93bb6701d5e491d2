"""The plugin in a Neovim: keys are typed, and what is shown is read back. GNU grep is the judge of what is found."""

import contextlib
import os
import pathlib
import random
import shutil
import signal
import subprocess
import tempfile

from counted import Counted, Wrong
from editors import trees
from editors.neovim import PLUGIN, Neovim, grep, write
from terminal.faults import programs_of
from terminal.trees import TGREP, environment_in, run, stop_all

WORD = "ListenAndServe"
SAMPLE = "func "


class Place:
    """A tree, and the environment of its servers."""

    def __init__(self, folder, program, make=trees.make, **more):
        self.program = program
        self.room = pathlib.Path(os.path.realpath(folder))
        self.top = self.room / "tree"
        self.top.mkdir()
        make(self.top)
        self.environment = environment_in(str(self.room), program, TERM="xterm", LC_ALL="C.UTF-8", **more)
        status, _, said = run(["-q", WORD, "."], self.top, self.environment)
        if status:
            raise Wrong(f"tgrep finds no {WORD}: {status} {said}")

    @contextlib.contextmanager
    def neovim(self, **how):
        """A Neovim in the tree."""
        neovim = Neovim(self.top, self.environment, **how)
        try:
            yield neovim
        finally:
            neovim.close()

    def files(self):
        """Files with the word `return`."""
        done = subprocess.run(["grep", "-rIl", "--include=*.go", "return", "src"], cwd=self.top, capture_output=True, check=True, text=True)
        return sorted(done.stdout.split())


def wants(found, wanted, what):
    """`Wrong` if what is found is not what is wanted. Of rows that are long only the place counts, since they are cut."""
    if isinstance(found, list) and isinstance(wanted, list):
        found, wanted = map(_cut, (found, wanted))
    if found != wanted and not (isinstance(found, list) and isinstance(wanted, list)):
        raise Wrong(f"{what}: {found!r} and not {wanted!r}")
    if found != wanted:
        at = next((at for at, pair in enumerate(zip(found, wanted)) if pair[0] != pair[1]), min(len(found), len(wanted)))
        raise Wrong(f"{what}: {len(found)} and not {len(wanted)}; at {at}: {found[at : at + 3]!r} and not {wanted[at : at + 3]!r}")


def _cut(rows):
    return [":".join(row.split(":")[:2]) if isinstance(row, str) and len(row) > 450 else row for row in rows]


def rows_of(neovim):
    """The rows of the window's list, as grep writes them."""
    return [row.replace(": ", ":", 1) if row else row for row in neovim.listed() or []]


def lists_what_a_pattern_finds(place):
    """`:Tgrep` fills the quickfix list."""
    with place.neovim() as neovim:
        for typed, words in ((f":Tgrep {WORD}<CR>", [WORD]), (":Tgrep -w -i reader<CR>", ["-w", "-i", "reader"]),
                             (":Tgrep -g f1*.go -g s*.go -F (addr<CR>", ["-F", "--include=f1*.go", "--include=s*.go", "(addr"]),
                             (":Tgrep -v -i -g *r.go [a-z ]<CR>", ["-v", "-i", "--include=*r.go", "[a-z ]"])):
            neovim.type(typed)
            wanted = grep(place.top, *words)
            neovim.until(lambda: len(neovim.quickfix()) == len(wanted), f"a list of {len(wanted)} lines for {typed}")
            wants(neovim.quickfix(), wanted, typed)
            neovim.command("cclose")
        neovim.type(":Tgrep fo(o<CR>")
        neovim.until(lambda: "group not closed at 2" in neovim.messages(), "a refusal")


def shows_what_is_found_as_one_types(place):
    """The window: lines, marks, a preview, options and paths by keys, and then a file."""
    with place.neovim() as neovim:
        neovim.type(":Tgrep<CR>")
        neovim.until(lambda: neovim.listed() is not None, "a window")
        wanted = grep(place.top, WORD)
        for letter in WORD:
            neovim.type(letter)
        neovim.until(lambda: neovim.told() == f"{len(wanted)} lines", "all lines of a word")
        wants(rows_of(neovim), wanted, WORD)
        wants(set(neovim.marked()), {WORD}, "marks")
        neovim.until(lambda: neovim.marked("preview"), "a preview")
        wants(set(neovim.marked("preview")), {WORD}, "marks of the preview")
        shown = neovim.until(lambda: [row for row in neovim.rows() if wanted[0].split(":")[0] in row], "the first line on the screen")
        wants(bool(shown), True, "the screen")
        # options by keys
        neovim.type("<M-i>")
        wanted = grep(place.top, "-i", WORD)
        neovim.until(lambda: neovim.told() == f"{len(wanted)} lines", "lines of both cases")
        neovim.type("<M-w>")
        wanted = grep(place.top, "-i", "-w", WORD)
        neovim.until(lambda: neovim.told() == f"{len(wanted)} lines", "words alone")
        wants(rows_of(neovim), wanted, "-i -w")
        neovim.type("<M-i><M-w><C-u><Esc>")
        neovim.until(lambda: neovim.listed() is None, "the window closed")
        # a text, and paths
        neovim.type(":Tgrep<CR>(addr<M-f>")
        wanted = grep(place.top, "-F", "(addr")[:1000]
        neovim.until(lambda: len(neovim.listed() or []) == min(len(wanted), 1000) and "-F" in "".join(neovim.rows()), "a text")
        wants(rows_of(neovim), wanted, "-F")
        neovim.type("<Tab>*r.go *37.go")
        wanted = grep(place.top, "-F", "--include=*r.go", "--include=*37.go", "(addr")[:1000]
        if wanted:
            neovim.until(lambda: _cut(rows_of(neovim)) == _cut(wanted), "paths alone that match a glob")
        else:
            neovim.until(lambda: neovim.told() == "0 lines", "no path that matches a glob")
        neovim.type("<BS>" * 11)
        wanted = grep(place.top, "-F", "(addr")[:1000]
        neovim.until(lambda: _cut(rows_of(neovim)) == _cut(wanted), "all paths again")
        neovim.type("<C-n><C-n><CR>")
        neovim.until(lambda: neovim.listed() is None, "the window closed")
        path, line = wanted[2].split(":")[:2]
        wants(neovim.lua("return { vim.api.nvim_buf_get_name(0), vim.api.nvim_win_get_cursor(0)[1] }"), [str(place.top / path), int(line)], "the file")


def a_window_becomes_a_list(place):
    """`<C-q>`, with all lines, and those of a filter."""
    with place.neovim() as neovim:
        neovim.type(f":Tgrep<CR>{WORD}")
        neovim.until(lambda: neovim.listed() and neovim.told() != "", "lines")
        neovim.type("<C-q>")
        wanted = grep(place.top, WORD)
        neovim.until(lambda: len(neovim.quickfix()) == len(wanted), "a list")
        wants(neovim.quickfix(), wanted, "the list")
        wants(neovim.listed(), None, "the window")


def unsaved_buffers_are_searched(place):
    """As they are on the screen: changed, new, taken back, saved."""
    name = place.files()[3]
    with place.neovim() as neovim:
        neovim.command(f"edit {name}")
        neovim.type("ggOan_unsaved_line of_mine<Esc>")
        neovim.command("edit src/new_file.go")
        neovim.type("ian_unsaved_line of a new file<Esc>")
        neovim.type(":Tgrep an_unsaved_line<CR>")
        wanted = sorted([f"{name}:1:an_unsaved_line of_mine", "src/new_file.go:1:an_unsaved_line of a new file"])
        neovim.until(lambda: sorted(neovim.quickfix()) == wanted, "two unsaved lines")
        # by a path that leads there through a link
        os.symlink(place.top, place.room / "link")
        neovim.command("cclose")
        neovim.command(f"edit {place.room / 'link' / place.files()[4]}")
        neovim.type("ggOan_unsaved_line by a link<Esc>:Tgrep an_unsaved_line by<CR>")
        neovim.until(lambda: neovim.quickfix() == [f"{place.files()[4]}:1:an_unsaved_line by a link"], "a line behind a link")
        neovim.command("cclose")
        neovim.command("bwipeout!")
        # what follows is only of the buffer
        neovim.command(f"buffer {name}")
        neovim.type("u:Tgrep an_unsaved_line<CR>")
        neovim.until(lambda: neovim.quickfix() == ["src/new_file.go:1:an_unsaved_line of a new file"], "what is taken back")
        neovim.command("cclose")
        neovim.command("buffer src/new_file.go")
        neovim.type("A, saved<Esc>:w<CR>:Tgrep an_unsaved_line<CR>")
        neovim.until(lambda: neovim.quickfix() == ["src/new_file.go:1:an_unsaved_line of a new file, saved"], "what is saved")
        done = run(["an_unsaved_line"], place.top, place.environment)
        wants(done[1], b"src/new_file.go:1:an_unsaved_line of a new file, saved\n", "what others see")
        os.unlink(place.top / "src/new_file.go")


def what_is_found_follows(place):
    """Edits of buffers, and changes of files, while the window and while the list is open."""
    name = place.files()[5]
    with place.neovim(lines=40) as neovim:
        neovim.command(f"edit {name}")
        buffer = neovim.call("nvim_get_current_buf")
        neovim.type(":Tgrep<CR>followed_word")
        neovim.until(lambda: neovim.told() == "0 lines", "nothing yet")
        neovim.lua("vim.api.nvim_buf_set_lines(..., 0, 0, true, { 'a followed_word' })", buffer)
        neovim.until(lambda: rows_of(neovim) == [f"{name}:1:a followed_word"], "an edit of a buffer")
        write(place.top / "src/followed.go", "a followed_word in a file\n")
        neovim.until(lambda: len(neovim.listed()) == 2, "a new file")
        neovim.type("<C-q>")
        neovim.until(lambda: len(neovim.quickfix()) == 2, "a list")
        write(place.top / "src/followed.go", "x\n\na followed_word, twice: followed_word\n")
        neovim.until(lambda: f"{neovim.quickfix()}".count("src/followed.go:3:") == 1, "a list that follows a file")
        neovim.command("wincmd p")
        neovim.type("ggdd")
        neovim.until(lambda: len(neovim.quickfix()) == 1, "a list that follows a buffer")
        os.unlink(place.top / "src/followed.go")
        neovim.until(lambda: len(neovim.quickfix()) == 0, "a list of nothing")


def server_of(place):
    """The process of the tree's server."""
    (lock,) = pathlib.Path(place.environment["XDG_RUNTIME_DIR"], "tgrep").glob("*.lock")
    return int(lock.read_text(encoding="ascii"))


def a_killed_server_is_started_again(place):
    """The server, and its program, are killed while one types, and what is unsaved is found all the same."""
    name = place.files()[1]
    with place.neovim() as neovim:
        neovim.command(f"edit {name}")
        neovim.type("ggOa_kept_line<Esc>:Tgrep<CR>a_kept")
        neovim.until(lambda: neovim.told() == "1 line", "an unsaved line")
        server = server_of(place)
        for program in programs_of(server, place.program):
            with contextlib.suppress(ProcessLookupError):  # it may be one that ends
                os.kill(program, signal.SIGKILL)
        neovim.type("_line")
        neovim.until(lambda: neovim.told() == "1 line" and neovim.lua("return require('tgrep.window').current().asked.pattern") == "a_kept_line",
                     "the line without its program")
        os.kill(server, signal.SIGKILL)
        neovim.type("<BS>")
        neovim.until(lambda: rows_of(neovim) == [f"{name}:1:a_kept_line"] and neovim.lua("return require('tgrep.client').of().state") == "connected",
                     "the line with a new server")
        neovim.type("<BS>")
        neovim.until(lambda: rows_of(neovim) == [f"{name}:1:a_kept_line"] and neovim.told() == "1 line", "the line once more")


def a_server_is_killed_with_a_search(place):
    """It has been asked, and cannot answer: the same is asked of the server that comes in its place."""
    name = place.files()[1]
    with place.neovim() as neovim:
        neovim.command(f"edit {name}")
        neovim.type("ggOa_kept_line<Esc>:Tgrep<CR>a_kept_line2")
        neovim.until(lambda: neovim.told() == "0 lines", "nothing")
        server = server_of(place)
        os.kill(server, signal.SIGSTOP)
        neovim.type("<BS>")
        neovim.until(lambda: neovim.lua("""
            local window = require("tgrep.window").current()
            return window.asked.pattern == "a_kept_line" and window.client.waiting[window.searching.number] ~= nil"""), "a search that waits")
        os.kill(server, signal.SIGKILL)
        neovim.until(lambda: neovim.told() == "1 line", "the line with a new server")
        wants(rows_of(neovim), [f"{name}:1:a_kept_line"], "what is found")


def a_large_buffer(place):
    """One of five megabytes, unsaved: it is found, or named as one that cannot be searched. Others are found in any case."""
    with place.neovim() as neovim:
        text = "".join(f"line {number} of a large buffer\n" for number in range(190_000))
        write(place.top / "src/large.go", text)
        neovim.command("edit src/large.go")
        wants(neovim.lua("return vim.fn.wordcount().bytes > 5e6"), True, "the size")
        neovim.type("GOthe_last_but_one<Esc>ggOthe_first<Esc>")
        neovim.type(":Tgrep the_last_but_one|the_first|line 170000 of<CR>")
        neovim.until(lambda: "lines" in neovim.messages(), "an answer")
        if "src/large.go is not searched" in neovim.messages():
            wants(neovim.quickfix(), [], "what is found in it")
        else:
            wants(neovim.quickfix(), ["src/large.go:1:the_first", "src/large.go:170002:line 170000 of a large buffer", "src/large.go:190001:the_last_but_one"], "what is found in it")
        os.unlink(place.top / "src/large.go")


def a_thousand_edits(place):
    """Of all kinds, with searches between: each answer has the buffer as it is then."""
    source, name = random.Random(3), place.files()[9]
    with place.neovim() as neovim:
        neovim.command(f"edit {name}")
        neovim.type("ggOedited_word<Esc>")
        for turn in range(20):
            for _ in range(50):
                count = neovim.call("nvim_buf_line_count", 0)
                at = source.randrange(count)
                neovim.type(source.choice([
                    f"{at + 1}GOan edited_word {source.random()}<Esc>", f"{at + 1}Gdd", f"{at + 1}Gyy{source.randint(1, 9)}p", "u", f"{at + 1}GJ",
                    f"{at + 1}GA edited_word<Esc>", f"{at + 1}G:s/e/edited_word/<CR>", f":{at + 1}m0<CR>", f":{at + 1}t$<CR>", "<C-r>", ":%s/nil/nil /<CR>",
                ]))  # fmt: skip
            lines = neovim.lines()
            wanted = [f"{name}:{number}:{line}" for number, line in enumerate(lines, 1) if "edited_word" in line]
            neovim.lua("vim.fn.setqflist({}, 'f')")
            neovim.lua("require('tgrep').list({ pattern = 'edited_word' })")
            neovim.until(lambda: neovim.quickfix() == wanted, f"turn {turn}: {len(wanted)} lines")
            neovim.command("cclose")


def searches_are_cancelled(place):
    """A slow search holds up none that is typed after it."""
    with place.neovim() as neovim:
        neovim.type(":Tgrep<CR>(a|b|e)*(c|d|i){1,9}((e|f)*|o)*[xyz]{2,8}(n|t)*q$")
        neovim.type("<C-u>")
        neovim.lua("vim.api.nvim_buf_set_lines(0, 0, -1, false, { ... })", WORD)
        neovim.type("<Space><BS>")
        wanted = grep(place.top, WORD)
        neovim.until(lambda: neovim.told() == f"{len(wanted)} lines", "a quick search")
        neovim.type("<C-c>")
        neovim.until(lambda: neovim.listed() is None, "the window closed")


def replaces_what_is_shown(place):
    """As a text and by groups, what was changed meanwhile is skipped, and lines that are taken out or edited in the preview count."""
    for at in range(4):
        write(place.top / f"src/r{at}.go", f"x := old_name({at}, b)\nkeep\ny(old_name({at}, c)); old_name(1, 2)\n")
    with place.neovim() as neovim:
        neovim.command("edit src/r0.go")
        neovim.type("GOthe old_name(7, 8) unsaved<Esc>")
        neovim.type(r":Tgrep old_name<CR>")
        neovim.until(lambda: len(neovim.quickfix()) == 9, "a list")
        neovim.command("cclose")
        neovim.type(":TgrepReplace new_name<CR>")
        neovim.until(lambda: neovim.lines()[0].startswith("# 9 lines in 4 files"), "a preview")
        shown = neovim.lines()
        wants([row for row in shown if row.startswith("  1 ")][:2], ["  1 - x := old_name(0, b)", "  1 + x := new_name(0, b)"], "the preview")
        wants("  4 + y(new_name(0, c)); new_name(1, 2)" in shown, True, "two matches of a line")
        # one is taken out, one is edited, and two files change meanwhile
        neovim.lua("""
            for at, line in ipairs(vim.api.nvim_buf_get_lines(0, 0, -1, false)) do
              if line:find("+ x := new_name(1, b)", 1, true) then vim.api.nvim_buf_set_lines(0, at - 1, at, false, { "  1 + edited(1)" }) end
            end
            for at = vim.api.nvim_buf_line_count(0), 1, -1 do
              if vim.fn.getline(at):find("the new_name(7, 8)", 1, true) then vim.fn.deletebufline("%", at) end
            end""")
        write(place.top / "src/r2.go", "changed\nx := old_name(2, b)\n")
        neovim.command("write")
        neovim.until(lambda: neovim.lines()[0].startswith("# 6 lines changed in 3 buffers"), "what is changed")
        wants(neovim.lines()[1:], ["# skipped: src/r2.go: it has changed since"], "what is skipped")
        bodies = {at: neovim.lua("local b = vim.fn.bufnr('src/r' .. ... .. '.go'); return b > 0 and vim.api.nvim_buf_get_lines(b, 0, -1, false) or vim.NIL", at)
                  for at in (0, 1, 3)}  # fmt: skip
        wants(bodies[0], ["x := new_name(0, b)", "keep", "the old_name(7, 8) unsaved", "y(new_name(0, c)); new_name(1, 2)"], "an unsaved buffer")
        wants(bodies[1], ["edited(1)", "keep", "y(new_name(1, c)); new_name(1, 2)"], "an edited line")
        wants(bodies[3][0], "x := new_name(3, b)", "a file that was not loaded")
        wants((place.top / "src/r1.go").read_text(encoding="utf-8").count("old_name"), 3, "the files, which are not written")
        neovim.command("bwipeout! | wall")
        wants((place.top / "src/r1.go").read_text(encoding="utf-8"), "edited(1)\nkeep\ny(new_name(1, c)); new_name(1, 2)\n", "the files once they are saved")
        wants((place.top / "src/r2.go").read_text(encoding="utf-8"), "changed\nx := old_name(2, b)\n", "the file that was skipped")
        # one step back takes all changes of a buffer back, and a file that was loaded for them has its type once it is shown
        neovim.command("buffer src/r3.go")
        neovim.type("u")
        neovim.until(lambda: neovim.lines() == ["x := old_name(3, b)", "keep", "y(old_name(3, c)); old_name(1, 2)"], "an undo")
        wants(neovim.lua("return vim.bo.filetype"), "go", "the type")
        neovim.type("<C-r>")
        neovim.until(lambda: neovim.lines()[0] == "x := new_name(3, b)", "a redo")
        # groups
        neovim.type(r":Tgrep -g r3.go (new_name)\(([0-9]), ([a-z])\)<CR>")
        neovim.until(lambda: len(neovim.quickfix()) == 2, "a list")
        neovim.command("cclose")
        neovim.type(r":TgrepReplace \1_of(\3, \2)\\<CR>")
        neovim.until(lambda: neovim.lines()[0].startswith("# "), "a preview")
        wants([row for row in neovim.lines() if " + " in row], ["  1 + x := new_name_of(b, 3)\\", "  3 + y(new_name_of(c, 3)\\); new_name(1, 2)"], "groups")
        neovim.command("write")
        neovim.until(lambda: neovim.lines()[0].startswith("# 2 lines changed"), "what is changed")
    for at in range(4):
        os.unlink(place.top / f"src/r{at}.go")


def a_file_that_another_editor_has_open_is_skipped(place):
    """Nobody is asked what to do."""
    write(place.top / "src/open.go", "open_elsewhere\n")
    swap = place.room / "swap"
    swap.mkdir()
    how = f"set swapfile directory={swap}//"
    with place.neovim() as other, place.neovim() as neovim:
        for one in other, neovim:
            one.command(how)
        other.command("edit src/open.go")
        other.type("Aunsaved there<Esc>:preserve<CR>")
        neovim.type(":Tgrep open_elsewhere<CR>")
        neovim.until(lambda: len(neovim.quickfix()) == 1, "a list")
        neovim.until(lambda: "tgrep: 1 line" in neovim.messages().splitlines(), "one line")
        neovim.command("cclose")
        neovim.type(":TgrepReplace x<CR>")
        neovim.until(lambda: neovim.lines()[0].startswith("# 1 line"), "a preview")
        neovim.command("write")
        neovim.until(lambda: neovim.lines()[0].startswith("# 0 lines changed"), "nothing changed")
        wants(neovim.lines()[1:], ["# skipped: src/open.go: it cannot be read, or is open in another editor"], "what is skipped")
    os.unlink(place.top / "src/open.go")


def without_watchman_changes_are_found_too(place):
    """A key does not wait for a look through the folder: what has changed on the disk comes later, and what was saved at once."""
    def make(top):
        write(top / "a.c", f"int {WORD};\n")

    with tempfile.TemporaryDirectory(ignore_cleanup_errors=True) as folder:
        inner = Place(folder, place.program, make, WATCHMAN_SOCK="/none")
        with inner.neovim() as neovim:
            neovim.type(":Tgrep<CR>later_word")
            neovim.until(lambda: neovim.told() == "0 lines" and not neovim.lua("return require('tgrep.client').of().watched"), "nothing yet")
            write(inner.top / "b.c", "int later_word;\n")
            neovim.until(lambda: rows_of(neovim) == ["b.c:1:int later_word;"], "a new file")
            neovim.type("<Esc>")
            neovim.until(lambda: neovim.listed() is None, "the window closed")
            neovim.command("edit c.c")
            neovim.type("iint later_word too;<Esc>:w<CR>:Tgrep later_word<CR>")
            neovim.until(lambda: neovim.quickfix() == ["b.c:1:int later_word;", "c.c:1:int later_word too;"], "a saved buffer")
        stop_all(inner.environment)


def a_command_that_is_missing_is_named(place):
    """In the list and in the window."""
    with place.neovim() as neovim:
        neovim.lua("require('tgrep').setup({ command = '/none/tgrep' })")
        neovim.type(":Tgrep foo<CR>")
        neovim.until(lambda: "/none/tgrep cannot be started" in neovim.messages(), "a message")
        neovim.type(":Tgrep<CR>foo")
        neovim.until(lambda: "cannot be started" in (neovim.told() or ""), "what the window says")
        neovim.type("<Esc>")
        neovim.lua("require('tgrep').setup({ command = ... })", str(TGREP))
        neovim.type(f":Tgrep {WORD}<CR>")
        neovim.until(neovim.quickfix, "a list once it is there")


def has_help_and_health(place):
    """`:help tgrep` and `:checkhealth tgrep`."""
    with place.neovim() as neovim:
        neovim.command(f"helptags {os.fspath(neovim_doc(place))}")
        neovim.command(f"set rtp+={place.room / 'help'}")
        for topic in "tgrep", ":Tgrep", ":TgrepReplace", "tgrep-keys":
            neovim.command(f"help {topic}")
            wants(neovim.lua("return vim.bo.buftype .. vim.fn.expand('%:t')"), "helptgrep.txt", topic)
        neovim.command("checkhealth tgrep")
        report = "\n".join(neovim.lines())
        for part in "Neovim is of version 0.7 or later", "tgrep 0.", "the server of", "files with":
            if part not in report:
                raise Wrong(f"the health says no {part!r}: {report}")
        if "ERROR" in report:
            raise Wrong(report)


def is_found_as_a_package(place):
    """By the commands of its page: the plugin, its help, and the command of the clone."""
    page = (PLUGIN / "README.md").read_text(encoding="utf-8")
    lines = page.split("looks for packages:\n\n")[1].split("\n\n")[0].replace("/path/to/clients/neovim", str(PLUGIN))
    home = place.room / "home"
    home.mkdir()
    own = {name: text for name, text in place.environment.items() if not name.startswith("XDG_")}
    way = {"env": {**own, "HOME": str(home)}, "check": True, "capture_output": True, "stdin": subprocess.DEVNULL}
    tags = PLUGIN / "doc/tags"
    were_there = tags.exists()
    try:
        subprocess.run(["sh", "-e", "-c", lines], **way)
        shown = 'io.stdout:write(require("tgrep.config").command()[1] .. " " .. vim.fn.exists(":TgrepReplace"))'
        done = subprocess.run(["nvim", "--headless", "-c", f"lua {shown}", "-c", "help :TgrepReplace", "-c", "qa!"], **way)
        wants(done.stdout.decode(), f"{TGREP} 2", "the command, and whether the plugin is there")
        wants(done.stderr.decode(), "", "what it says")
    finally:
        if not were_there:
            tags.unlink(missing_ok=True)


def neovim_doc(place):
    """A copy of the help, whose tags are written."""
    folder = place.room / "help/doc"
    if not folder.is_dir():
        shutil.copytree(TGREP.parent / "clients/neovim/doc", folder)
    return folder


TESTS = [
    lists_what_a_pattern_finds, shows_what_is_found_as_one_types, a_window_becomes_a_list, unsaved_buffers_are_searched, what_is_found_follows,
    a_killed_server_is_started_again, a_server_is_killed_with_a_search, a_large_buffer, a_thousand_edits, searches_are_cancelled,
    replaces_what_is_shown,
    a_file_that_another_editor_has_open_is_skipped, without_watchman_changes_are_found_too,
    a_command_that_is_missing_is_named, has_help_and_health, is_found_as_a_package,
]  # fmt: skip


def check(program, wanted):
    """Runs all, or those that are named, and gives the counts."""
    counted = Counted()
    if not trees.is_there():
        print("tests/editor.py: Go's sources are not there (apt-get install golang-1.19-src), so Neovim searches a tree that is made")
    with tempfile.TemporaryDirectory(ignore_cleanup_errors=True) as folder:
        place = Place(folder, program)
        for test in TESTS:
            if wanted and test.__name__ not in wanted:
                continue
            try:
                test(place)
                counted.passes()
            except (Wrong, OSError, ValueError, subprocess.SubprocessError) as wrong:
                counted.fails(f"{test.__name__}: {wrong!r}")
        with contextlib.suppress(OSError):
            stop_all(place.environment)
    return counted
