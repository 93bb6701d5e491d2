"""The rules of .gitignore, with git as the judge: random rules over random trees, and indexes of each version."""

import os
import pathlib
import random
import re
import shutil
import subprocess
import sys
import tempfile
import unittest
import unittest.mock

import helpers
from tsearch import repository
from tsearch.ignored import Rules
from tsearch.listing import Lister

assert helpers.PACKAGE.is_dir()
NAMES = ["a", "b", "ab", "a.c", "b.o", ".h", "x y", "[a]", "d", "-", "caf\xe9", "a#", "!b", "A1"]
PARTS = ["x y", " ", *"a b * ? ** .c .o [ab] [!a] [a-c]* d / / \\ [ []a] [^b]? [[:alpha:]] # ! - \\[a\\] [[:digit:]] é".split()]
GIT = ["-c", "user.name=a", "-c", "user.email=a@b", "-c", "core.fsmonitor=false"]


def git(folder: pathlib.Path, *words: str) -> bytes:
    return subprocess.run(["git", *GIT, "-C", folder, *words], check=True, capture_output=True).stdout


def write(top: pathlib.Path, name: str, body: str = "x\n") -> None:
    path = top / name
    if not path.exists() and not any(above.is_file() for above in path.parents):
        path.parent.mkdir(parents=True, exist_ok=True)
        path.write_text(body, encoding="utf-8")


def listed(top: pathlib.Path) -> set[bytes]:
    return set(Lister(os.fsencode(top)).list().files)


@unittest.skipUnless(shutil.which("git"), "there is no command git")
class Ignored(unittest.TestCase):
    def setUp(self) -> None:
        self.top = pathlib.Path(self.enterContext(tempfile.TemporaryDirectory())).resolve()
        git(self.top, "init", "-q")

    def of_git(self) -> set[bytes]:
        found = git(self.top, "ls-files", "-z", "--cached", "--others", "--exclude-standard", "--deduplicate")
        return {name for name in found.split(b"\0")[:-1] if os.path.isfile(os.path.join(os.fsencode(self.top), name))}

    def rule(self, source: random.Random) -> str:
        return "".join(source.choices(PARTS, k=source.randint(1, 4)))

    def test_random_rules(self) -> None:
        source = random.Random(7)
        for _ in range(120):
            write(self.top, "/".join(source.choices(NAMES, k=source.randint(1, 4))))
        kept = 0
        for step in range(150):
            files = [".gitignore", "a/.gitignore", "d/.gitignore", ".git/info/exclude", "a/b/.gitignore"]
            for name in files:
                path = self.top / name
                if path.parent.is_dir():
                    path.unlink(missing_ok=True)
                if path.parent.is_dir() and source.random() < 0.6:
                    rules = ["!" * (source.random() < 0.3) + self.rule(source) for _ in range(source.randint(1, 4))]
                    path.write_text("\n".join(rules), encoding="utf-8")
            wanted = self.of_git()
            kept += len(wanted)
            with self.subTest(step=step, rules={name: (self.top / name).read_text() for name in files if (self.top / name).exists()}):
                self.assertEqual(listed(self.top), wanted)
        self.assertGreater(kept, 3_000)

    def test_rules_with_many_stars(self) -> None:
        """Over names of two letters, so that each star can end in many places."""
        source = random.Random(11)

        def part() -> str:
            text = "".join(source.choices("ab*?", (2, 2, 4, 1), k=source.randint(1, 7)))
            return "**" if source.random() < 0.25 else re.sub(r"\*+", "*", text)

        for _ in range(150):
            write(self.top, "/".join("".join(source.choices("ab", k=source.randint(1, 4))) for _ in range(source.randint(1, 5))))
        kept = 0
        for step in range(150):
            rule = "/".join(part() for _ in range(source.choice([1, 1, 2, 3, 4, 5])))
            (self.top / ".gitignore").write_text(f"{rule}\n!.gitignore\n", encoding="utf-8")
            wanted = self.of_git()
            kept += 1 < len(wanted) < 100
            with self.subTest(step=step, rule=rule):
                self.assertEqual(listed(self.top), wanted)
        self.assertGreater(kept, 20)

    def test_files_that_are_tracked_though_rules_name_them(self) -> None:
        for name in "a.o", "out/b", "out/c d", "e":
            write(self.top, name)
        write(self.top, ".gitignore", "*.o\nout/\n")
        git(self.top, "add", "-f", "a.o", "out/b", "e")
        for version in "2", "3", "4":
            git(self.top, "update-index", "--index-version", version)
            if version == "3":
                git(self.top, "add", "-N", "-f", "out/c d")
            found = repository.repository_at(os.fsencode(self.top))
            assert found
            wanted = {name for name in git(self.top, "ls-files", "-z").split(b"\0") if name}
            self.assertEqual(repository._entries(pathlib.Path(os.fsdecode(found.index)).read_bytes(), 20), wanted, version)
            self.assertEqual(listed(self.top), self.of_git())
        git(self.top, "update-index", "--split-index")
        self.assertEqual(listed(self.top), self.of_git())

    def test_a_repository_with_long_digests(self) -> None:
        shutil.rmtree(self.top / ".git")
        git(self.top, "init", "-q", "--object-format=sha256")
        write(self.top, "a.o")
        write(self.top, ".gitignore", "*.o\n")
        git(self.top, "add", "-f", "a.o")
        self.assertEqual(listed(self.top), {b"a.o", b".gitignore"})

    def test_a_working_tree_beside(self) -> None:
        write(self.top, "a")
        git(self.top, "add", "a")
        git(self.top, "commit", "-q", "-m", "a")
        write(self.top, ".git/info/exclude2")
        (self.top / ".git/info/exclude").write_text("b\n")
        beside = self.top / "beside"
        git(self.top, "worktree", "add", "-q", str(beside))
        write(beside, "b")
        write(beside, "c")
        self.assertEqual(listed(beside), {b"a", b"c"})

    def test_rules_of_the_user(self) -> None:
        write(self.top, "a")
        write(self.top, "b")
        write(self.top, "rules", "a\nrules\n")
        git(self.top, "config", "core.excludesFile", str(self.top / "rules"))
        self.assertEqual(listed(self.top), self.of_git())
        self.assertEqual(listed(self.top), {b"b"})

    def test_without_git_and_of_another_owner(self) -> None:
        write(self.top, "a")
        write(self.top, "build/b")
        write(self.top, ".gitignore", "build\n")
        with unittest.mock.patch.dict(os.environ, {"PATH": "/nowhere"}):
            self.assertEqual(listed(self.top), {b"a", b".gitignore"})
        if os.getuid() == 0:
            for path in self.top, *self.top.rglob("*"):
                os.chown(path, 12345, 12345)
            self.assertEqual(listed(self.top), {b"a", b".gitignore"})


class OfRipgrep(unittest.TestCase):
    def test_rules_of_ripgrep(self) -> None:
        with tempfile.TemporaryDirectory() as name:
            top = pathlib.Path(name)
            for name, body in (".ignore", "a\n*.x\n"), (".rgignore", "!b.x\n"), (".gitignore", "c\n"), ("s/.ignore", "!a\n"):
                write(top, name, body)
            for name in "a", "b.x", "c.x", "c", "s/a":
                write(top, name)
            self.assertEqual(listed(top), {b".ignore", b".rgignore", b".gitignore", b"b.x", b"c", b"s/a", b"s/.ignore"})
            if shutil.which("rg"):
                done = subprocess.run(["rg", "--files", "--hidden", "--null"], cwd=top, capture_output=True, check=True)
                self.assertEqual(listed(top), set(done.stdout.split(b"\0")[:-1]))

    def test_rules_and_settings_that_a_stranger_wrote_end(self) -> None:
        """A star that tries all ways would take longer than there is time. Another process does it, since nothing else would end it."""
        code = """if True:
            import os, sys
            from tsearch.ignored import Rules
            from tsearch.repository import _setting
            for rule, path in (
                (b"*a" * 20 + b"b", b"a" * 120),
                (b"*[a]" * 20 + b"*b", b"a" * 250),
                (b"/" + b"*a*/" * 20 + b"b", b"aaaaaaaaa/" * 40),
                (b"**/a/" * 20 + b"b", b"a/" * 200 + b"a"),
                (b"**/*a*a/" * 20 + b"*b*b", b"aaaa/" * 200 + b"a"),
                (b"a/" + b"**/*/" * 20 + b"b", b"a/" * 200 + b"a"),
            ):
                assert Rules(rule).verdict(path) is None, rule
            open(sys.argv[1], "wb").write(b"[core]\\nexcludesFile = \\"a" + b" " * 300_000 + b'b" \\r\\n')
            assert len(_setting(os.fsencode(sys.argv[1]), b"core", b"excludesfile")) == 300_002
        """
        environment = {**os.environ, "PYTHONPATH": str(helpers.PACKAGE)}
        settings = os.path.join(self.enterContext(tempfile.TemporaryDirectory()), "config")
        subprocess.run([sys.executable, "-c", code, settings], env=environment, timeout=helpers.SECONDS, check=True)

    def test_a_rule_that_is_wrong_names_nothing(self) -> None:
        for text in b"[", b"a\\", b"[[:none:]]", b"", b"#a", b"/", b"!":
            self.assertIsNone(Rules(text).verdict(b"a"), text)


if __name__ == "__main__":
    unittest.main()
