"""Repositories of strangers: no program runs that one of them names, whatever reads it."""

import hashlib
import importlib.util
import os
import pathlib
import shutil
import subprocess
import sys
import tempfile
import unittest
import unittest.mock

from helpers import PACKAGE
from made import Made
from serving import serving_in

# The settings of git-config(1) that name a program, or where one is, and those of later versions. PROGRAM stands for one.
SETTINGS = """
alias.diff !PROGRAM
alias.ls-files !PROGRAM
browser.planted.cmd PROGRAM
browser.planted.path PROGRAM
core.alternateRefsCommand PROGRAM
core.askPass PROGRAM
core.editor PROGRAM
core.fsmonitor PROGRAM
core.gitProxy PROGRAM
core.hooksPath HOOKS
core.pager PROGRAM
core.sshCommand PROGRAM
credential.helper !PROGRAM
credential.https://git.example.helper !PROGRAM
diff.external PROGRAM
diff.guitool planted
diff.planted.command PROGRAM
diff.planted.textconv PROGRAM
diff.tool planted
difftool.planted.cmd PROGRAM
difftool.planted.path PROGRAM
filter.planted.clean PROGRAM
filter.served.process PROGRAM
filter.planted.smudge PROGRAM
gpg.openpgp.program PROGRAM
gpg.program PROGRAM
gpg.ssh.defaultKeyCommand PROGRAM
gpg.ssh.program PROGRAM
gpg.x509.program PROGRAM
guitool.planted.cmd PROGRAM
help.browser planted
hook.planted.command PROGRAM
hook.planted.event post-index-change
imap.tunnel PROGRAM
init.templateDir HOOKS
instaweb.browser PROGRAM
instaweb.httpd PROGRAM
interactive.diffFilter PROGRAM
man.planted.cmd PROGRAM
man.planted.path PROGRAM
man.viewer planted
merge.planted.driver PROGRAM
merge.tool planted
mergetool.planted.cmd PROGRAM
mergetool.planted.path PROGRAM
pager.cat-file PROGRAM
pager.diff PROGRAM
pager.diff-tree PROGRAM
pager.for-each-ref PROGRAM
pager.ls-files PROGRAM
pager.ls-tree PROGRAM
protocol.allow always
protocol.ext.allow always
protocol.file.allow always
remote.origin.promisor true
remote.origin.receivepack PROGRAM
remote.origin.uploadpack PROGRAM
remote.origin.url TOP
remote.other.promisor true
remote.other.url ext::PROGRAM
remote.third.promisor true
remote.third.vcs ext
remote.third.url PROGRAM
sendemail.ccCmd PROGRAM
sendemail.headerCmd PROGRAM
sendemail.sendmailCmd PROGRAM
sendemail.smtpServer PROGRAM
sendemail.tocmd PROGRAM
sequence.editor PROGRAM
submodule.sub.update !PROGRAM
tar.planted.command PROGRAM
trailer.planted.cmd PROGRAM
trailer.planted.command PROGRAM
uploadpack.packObjectsHook PROGRAM
web.browser planted
"""
# Those of gitattributes(5) that choose a program which the settings name.
ATTRIBUTES = b"*.c filter=planted diff=planted merge=planted\n*.served filter=served\n"
# githooks(5): those that some command runs in a working tree or a repository.
HOOKS = ["fsmonitor-watchman", "post-checkout", "post-index-change", "pre-auto-gc", "pre-commit", "post-update", "reference-transaction"]
LATER = {b"src/a.c": b"needle 2!\n", b"plain": b"two\n"}
FILES = {b".gitattributes": ATTRIBUTES, b"src/a.c": b"needle one\n", b"far/b.c": b"needle far\n", b"plain": b"one\n", b"z.served": b"served\n"}
WORDS = [["needle"], ["--at=HEAD", "needle"], ["--changed", "needle"], ["--changed=HEAD~1", "needle"], ["--diff=HEAD~1..HEAD", "needle"]]


def tgrep(words: list[str], top: pathlib.Path) -> subprocess.CompletedProcess[bytes]:
    """A call of tgrep in a folder, without a server."""
    command = [sys.executable, "-B", "-m", "tsearch", "--no-server", *words]
    return subprocess.run(command, cwd=top, env={**os.environ, "PYTHONPATH": str(PACKAGE)}, stdin=subprocess.DEVNULL, capture_output=True, check=False)


class Planted(unittest.TestCase):
    """Repositories in which each setting names a program that writes a file, each in another place of its settings."""

    @classmethod
    def setUpClass(cls) -> None:
        cls.top = pathlib.Path(cls.enterClassContext(tempfile.TemporaryDirectory()))
        cls.marks = cls.top / "ran"
        cls.marks.mkdir()
        home = cls.top / "home"
        home.mkdir()
        environment = {key: text for key, text in os.environ.items() if not key.startswith("GIT_")}
        cls.enterClassContext(unittest.mock.patch.dict(os.environ, {**environment, "HOME": str(home), "XDG_CONFIG_HOME": str(home)}, clear=True))
        # by the place of the settings
        cls.trees = {place: cls.tree(place) for place in ("config", "included", "worktree", "submodule", "user")}
        cls.bare = Made(cls.top / "made/bare.git")
        cls.bare.commit("main", FILES)
        cls.bare.commit("main", LATER)
        cls.plant("bare", cls.bare.path / "config")
        (cls.bare.path / "info/attributes").write_bytes(ATTRIBUTES)
        cls.plant("config", cls.trees["config"] / ".git/config")
        cls.plant("included", cls.trees["included"] / ".git/other")
        with open(cls.trees["included"] / ".git/config", "a") as file:
            file.write("[include]\n\tpath = other\n[includeIf \"gitdir:**\"]\n\tpath = other\n")
        cls.plant("worktree", cls.made("worktree").path / ".git/worktrees/worktree-linked/config.worktree")
        cls.plant("submodule", cls.trees["submodule"] / ".git/modules/sub/config")
        cls.plant("user", home / ".gitconfig")
        cls.lazy = cls.sparse()
        for tree in cls.trees.values():
            (tree / ".git/info/attributes").write_bytes(ATTRIBUTES) if (tree / ".git").is_dir() else None
            # as long as they are in the commit, so that git has to compare them
            (tree / "src/a.c").write_bytes(b"needle 22\n")
            (tree / "z.served").write_bytes(b"SERVED\n")

    @classmethod
    def made(cls, place: str) -> Made:
        return Made(cls.top / "made" / place, is_bare=False)

    @classmethod
    def tree(cls, place: str) -> pathlib.Path:
        """A working tree with two commits, whose index has to be read by git."""
        made = cls.made(place)
        made.commit("main", FILES)
        made.git("reset", "-q", "--hard")
        path = made.path
        if place == "submodule":
            made.git("submodule", "--quiet", "add", str(cls.made("config").path), "sub")
            made.git("commit", "-q", "-m", "sub")
            (path / "sub/src/a.c").write_bytes(b"needle below\n")
        made.commit("main", LATER)
        made.git("reset", "-q", "--hard")
        if place == "worktree":
            path = cls.top / "made/worktree-linked"
            made.git("config", "extensions.worktreeConfig", "true")
            made.git("worktree", "add", "-q", "--detach", str(path), "main")
            made = Made(path, is_bare=False)
        made.git("update-index", "--split-index")
        return path

    @classmethod
    def sparse(cls) -> pathlib.Path:
        """A working tree with a sparse index of which an object is missing that a remote would give."""
        path = cls.tree("lazy")
        made = Made(path, is_bare=False)
        made.git("update-index", "--no-split-index")
        made.git("sparse-checkout", "init", "--cone", "--sparse-index")
        made.git("sparse-checkout", "set", "src")
        for name in "HEAD:far", "HEAD~1:src/a.c":
            number = made.git("rev-parse", name)
            os.unlink(path / f".git/objects/{number[:2]}/{number[2:]}")
        made.git("config", "core.repositoryFormatVersion", "1")
        made.git("config", "extensions.partialClone", "origin")
        cls.plant("lazy", path / ".git/config")
        return path

    @classmethod
    def plant(cls, place: str, file: pathlib.Path) -> None:
        """Adds all settings to a file."""
        hooks = cls.top / f"hooks-{place}"
        hooks.mkdir()
        for hook in HOOKS:
            cls.program(hooks / hook, f"{place} hook {hook}")
        for number, row in enumerate(SETTINGS.strip().splitlines()):
            key, _, value = row.partition(" ")
            program = cls.top / f"hooks-{place}/program-{number}"
            cls.program(program, f"{place} {key}")
            value = value.replace("PROGRAM", str(program)).replace("HOOKS", str(hooks)).replace("TOP", str(cls.top / "made/bare.git"))
            subprocess.run(["git", "config", "-f", str(file), "--add", key, value], check=True)

    @classmethod
    def program(cls, path: pathlib.Path, mark: str) -> None:
        mark = mark.replace("/", "-")
        reads = "cat\n" if mark.endswith(("clean", "smudge")) else ""
        path.write_text(f"#!/bin/sh\n: > '{cls.marks}/{mark}'\n{reads}exit 1\n")
        path.chmod(0o755)

    def setUp(self) -> None:
        self.ran()

    def ran(self) -> set[str]:
        """The programs that have run since the last call, with the place of the setting."""
        found = {path.name for path in self.marks.iterdir()}
        for name in found:
            (self.marks / name).unlink()
        return found


@unittest.skipUnless(shutil.which("git"), "the command git is missing")
class Strangers(Planted):
    def test_that_git_itself_runs_them(self) -> None:
        """So that the other tests can fail."""
        run = lambda *words: subprocess.run(["git", *words], stdin=subprocess.DEVNULL, capture_output=True, check=False)  # noqa: E731
        for place, tree in self.trees.items():
            with self.subTest(place):
                at = str(tree / "sub") if place == "submodule" else str(tree)
                run("-C", at, "-c", "core.fsmonitor=", "status")
                self.assertLessEqual({f"{place} filter.planted.clean", f"{place} filter.served.process"}, self.ran())
                run("-C", at, "status")
                self.assertIn(f"{place} core.fsmonitor", self.ran())
                run("-C", at, "diff", "HEAD~1", "HEAD", "--", "src/a.c")
                self.assertIn(f"{place} diff.planted.command", self.ran())
                run("-C", at, "diff", "HEAD~1", "HEAD", "--", "plain")
                self.assertIn(f"{place} diff.external", self.ran())
                run("-C", at, "diff", "--no-ext-diff", "HEAD~1", "HEAD", "--", "src/a.c")
                self.assertIn(f"{place} diff.planted.textconv", self.ran())
        for words in ["ls-files"], ["cat-file", "-p", "HEAD~1:src/a.c"]:
            run("-C", str(self.lazy), *words)
            self.assertTrue({"remote.origin.uploadpack", "remote.other.url"} & {mark.partition(" ")[2] for mark in self.ran()}, words)
        # of a submodule too, where a working tree is compared without settings of its own
        run("-C", str(self.trees["submodule"]), "-c", "core.fsmonitor=", "diff", "--name-only", "HEAD")
        self.assertTrue(any(mark.startswith("submodule ") for mark in self.ran()))

    def test_at_the_terminal(self) -> None:
        for place, tree in {**self.trees, "lazy": self.lazy}.items():
            for words in WORDS:
                done = tgrep(words, tree)
                self.assertEqual(self.ran(), set(), (place, words))
                if place != "lazy":
                    self.assertEqual(done.returncode, 0, (place, words, done.stderr))
                    self.assertIn(b"needle", done.stdout, (place, words))
        self.assertIn(b"src/a.c", tgrep(["needle"], self.lazy).stdout)
        done = tgrep(["--changed", "needle"], self.trees["submodule"] / "sub")
        self.assertEqual((done.stdout, self.ran()), (b"src/a.c:1:needle below\n", set()))
        for words in WORDS[1::3]:
            self.assertEqual((tgrep(words, self.bare.path).returncode, self.ran()), (0, set()), words)

    def test_with_the_working_folder_on_the_path(self) -> None:
        """What a repository has under the name of git is not taken for it."""
        tree = self.trees["included"]
        self.program(tree / "git", "a git of its own")
        self.addCleanup((tree / "git").unlink)
        with unittest.mock.patch.dict(os.environ, PATH=f".::{os.environ['PATH']}"):
            for words in WORDS:
                done = tgrep(words, tree)
                self.assertEqual((done.returncode, self.ran()), (0, set()), words)

    def test_filters_that_are_asked_for(self) -> None:
        """They alone run."""
        tree = self.trees["config"]
        done = tgrep(["--changed", "needle"], tree)
        self.assertIn(b"tgrep: 2 files have a filter of git and were compared without it: --run-filters runs it\n", done.stderr)
        self.assertEqual(self.ran(), set())
        tgrep(["--changed", "--run-filters", "needle"], tree)
        ran = self.ran()
        self.assertTrue(ran and all(mark.startswith(("config filter.", "user filter.")) for mark in ran), ran)
        done = tgrep(["--run-filters", "needle"], tree)
        self.assertEqual((done.returncode, done.stderr), (2, b"tgrep: --run-filters goes with --changed\n"))

    @unittest.skipUnless(importlib.util.find_spec("aiohttp"), "the library aiohttp (python3-aiohttp) is missing")
    def test_the_page(self) -> None:
        """Over working trees, bare repositories, revisions, and reviews."""
        rows = [f'[[repository]]\npath = "{tree}"\nname = "files of {place}"\n' for place, tree in {**self.trees, "lazy": self.lazy}.items()]
        made = {**self.trees, "lazy": self.lazy, "bare": self.bare.path}
        rows += [f'[[repository]]\npath = "{tree}"\nname = "{place}"\nrevisions = ["HEAD", "*"]\n' for place, tree in made.items()]
        (self.top / "host.toml").write_text("".join(rows) + f'[[repository]]\npath = "{self.bare.path}"\nname = "HEAD"\n')
        count = len(rows) + 1
        with serving_in(self.top, "--settings", str(self.top / "host.toml"), count=count) as server:
            self.assertEqual(self.ran(), set())
            found = {row["repository"]: row for row in server.find("needle", max=200) if "lines" in row and "repository" in row}
            # of the one that lacks objects those are found that are there
            self.assertEqual({name for name, row in found.items() if row["lines"]}, {*(f"files of {place}" for place in (*self.trees, "lazy")), *made, "HEAD"})
            for place in (*self.trees, "bare"):
                commit = found[place]["commit"]
                self.assertEqual(server.get(f"/api/file?repository={place}&commit={commit}&name=far/b.c")[0], 200)
                told = server.lines("/api/review", repository=place, before=f"{commit}~1", after=commit, q="needle")
                self.assertEqual((told[-1].get("removed"), told[-1].get("added")), (1, 1), (place, told))
            server.lines("/api/review", repository="lazy", before="HEAD~1", after="HEAD", q="needle")
            server.get("/api/status")
        self.assertEqual(self.ran(), set())

    def test_the_package(self) -> None:
        import tsearch
        from tsearch import git, review

        with tsearch.Session() as session:
            for place, tree in {**self.trees, "bare": self.bare.path}.items():
                revisions = git.Revisions(session, tree, ["HEAD", "*"], prefix=f"{place}:")
                self.assertGreater(revisions.refresh().put, 0)
                with review.Review(session, tree, "HEAD~1", "HEAD") as reviewed:
                    self.assertEqual(len(reviewed.find("needle").files), 1)
                if place != "bare":
                    self.assertGreater(tsearch.Folder(session, tree, prefix=f"files of {place}:").refresh().put, 0)
            self.assertGreater(tsearch.Folder(session, self.lazy, prefix="lazy:").refresh().put, 0)
            # a folder is not there, and is not fetched
            told = git.Revisions(session, self.lazy, prefix="commits of lazy:").refresh().left_out
            self.assertTrue(told)
            self.assertEqual({reason for _, reason in told}, {"missing in the repository"})
            with self.assertRaises(git.NoRepository):
                store = git.Store(self.lazy)
                store.files(store.commits(["HEAD"])["HEAD"])
        self.assertEqual(self.ran(), set())


@unittest.skipUnless(shutil.which("git"), "the command git is missing")
class Pipes(unittest.TestCase):
    def test_pipes_in_place_of_files(self) -> None:
        """Nobody waits for who writes to them."""
        with tempfile.TemporaryDirectory() as top:
            for name in "config", "index", "info/exclude", "commondir", "packed-refs":
                made = Made(pathlib.Path(top, name.replace("/", "-")), is_bare=False)
                made.commit("main", {b"a": b"needle\n"})
                made.git("reset", "-q", "--hard")
                (made.path / ".git" / name).unlink(missing_ok=True)
                os.mkfifo(made.path / ".git" / name)
                for words in WORDS[:2]:
                    done = tgrep(words, made.path)
                    self.assertIn(b"needle", done.stdout, (name, words, done.stderr))


@unittest.skipUnless(shutil.which("git"), "the command git is missing")
class Compared(unittest.TestCase):
    """`--changed` beside `git diff`."""

    def setUp(self) -> None:
        self.top = pathlib.Path(self.enterContext(tempfile.TemporaryDirectory()))
        self.made = Made(self.top / "made", is_bare=False)
        home = self.top / "home"
        home.mkdir()
        self.enterContext(unittest.mock.patch.dict(os.environ, {"HOME": str(home), "XDG_CONFIG_HOME": str(home)}))

    def changed(self) -> tuple[list[bytes], bytes]:
        done = tgrep(["--changed", "--files"], self.made.path)
        return done.stdout.splitlines(), done.stderr

    def write(self, name: str, body: bytes) -> None:
        """Writes a file so that its stamp tells nothing."""
        path = self.made.path / name
        path.write_bytes(body)
        os.utime(path, (1, 1))

    def test_git_lfs(self) -> None:
        """Its files are told by the digests in the commit, without its program."""
        body = b"large\n" * 100
        pointer = b"version https://git-lfs.github.com/spec/v1\noid sha256:%s\nsize %d\n" % (hashlib.sha256(body).hexdigest().encode(), len(body))
        self.made.commit("main", {b"a.bin": pointer, b"b.bin": pointer, b"c.bin": pointer, b"other": b"x\n"})
        self.made.git("reset", "-q", "--hard")
        self.made.commit("main", {b".gitattributes": b"*.bin filter=lfs diff=lfs merge=lfs -text\n"})
        self.made.git("reset", "-q", "--hard")
        for name in "a.bin", "b.bin":
            self.write(name, body)
        self.assertEqual(self.changed(), ([], b""))
        self.write("a.bin", body[::-1])
        self.write("b.bin", body + b"x")
        self.assertEqual(self.changed(), ([b"a.bin", b"b.bin"], b""))

    def test_ends_of_lines(self) -> None:
        """As the settings of the repository, of the user and of .gitattributes say."""
        self.made.commit("main", {b".gitattributes": b"*.sh text eol=lf\n*.bat text eol=crlf\n", b"a.sh": b"a\n", b"a.bat": b"a\n", b"a.txt": b"a\nb\n"})
        self.made.git("reset", "-q", "--hard")
        self.write("a.bat", b"a\r\n")
        self.write("a.txt", b"a\r\nb\r\n")
        self.assertEqual(self.changed()[0], [b"a.txt"])
        for words in ["config", "core.autocrlf", "true"], ["config", "--unset", "core.autocrlf"], ["config", "--global", "core.autocrlf", "input"]:
            subprocess.run(["git", *words], cwd=self.made.path, check=True)
            judge = subprocess.run(["git", "diff", "--name-only", "HEAD"], cwd=self.made.path, capture_output=True, check=True).stdout.splitlines()
            self.assertEqual(self.changed()[0], judge, words)
        self.assertEqual(judge, [])
        # and as the user's attributes say
        subprocess.run(["git", "config", "--global", "--unset", "core.autocrlf"], check=True)
        self.assertEqual(self.changed()[0], [b"a.txt"])
        (self.top / "attributes").write_text("*.txt text\n")
        subprocess.run(["git", "config", "--global", "core.attributesFile", str(self.top / "attributes")], check=True)
        self.assertEqual(self.changed()[0], [])


if __name__ == "__main__":
    unittest.main()
