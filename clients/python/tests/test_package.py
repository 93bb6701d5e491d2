"""The package as it is installed: its command, its version, its names."""

from __future__ import annotations

import contextlib
import importlib.util
import io
import os
import pathlib
import subprocess
import sys
import tempfile
import tomllib
import unittest
import unittest.mock
import zipfile

from helpers import PACKAGE, SECONDS, TOP

import tsearch

# What pip writes for a command of the package.
COMMAND = f"#!{sys.executable}\nimport sys\n\nfrom tsearch.program import main\n\nsys.exit(main())\n"


class Command(unittest.TestCase):
    def setUp(self) -> None:
        self.top = pathlib.Path(self.enterContext(tempfile.TemporaryDirectory()))

    def written(self, name: str, text: str) -> str:
        path = self.top / name
        path.parent.mkdir(exist_ok=True)
        path.write_text(text)
        path.chmod(0o755)
        return str(path)

    def run_with(self, program: str, *words: str) -> subprocess.CompletedProcess[str]:
        environment = {**os.environ, "TSEARCH": program, "PYTHONPATH": str(PACKAGE)}
        return subprocess.run([program, *words], env=environment, stdin=subprocess.DEVNULL, capture_output=True, text=True, timeout=SECONDS, check=False)

    def test_a_command_that_would_start_itself(self) -> None:
        """It is refused, also where a script is between; and so is a session of it."""
        command = self.written("bin/tsearch", COMMAND)
        script = self.written("bin/script", f'#!/bin/sh\nexec "{command}" "$@"\n')
        link = self.top / "link"
        link.symlink_to(command)
        for program in command, script, str(link):
            done = self.run_with(program, "--live")
            self.assertEqual((done.returncode, done.stdout), (1, ""), program)
            self.assertRegex(done.stderr, r"^tsearch: the variable TSEARCH names .* would start itself for ever: unset it, or name the program\n$")
        with unittest.mock.patch.dict(os.environ, {"TSEARCH": command}), self.assertRaises(tsearch.Error) as raised:
            tsearch.Session()
        self.assertIn("would start itself for ever", str(raised.exception))
        # a program that is named like this and is another one
        other = self.written("other/tsearch", '#!/bin/sh\necho "$@"\n')
        self.assertEqual(self.run_with(other, "a").stdout, "a\n")

    def test_which_program_it_is(self) -> None:
        """`--version` says whether the program that the package brings along is the proved one."""
        for folder, said in ("proved", "proved"), ("compiled", "compiled with checks"), ("strange", "not known to be proved"):
            built = self.written(f"{folder}/tsearch", "#!/bin/sh\necho tsearch 1.2.3\n")
            (self.top / "current").unlink(missing_ok=True)
            (self.top / "current").symlink_to(folder)
            wheel = self.wheel(self.top / "current/tsearch")
            installed = self.top / f"installed-{folder}"
            zipfile.ZipFile(wheel).extractall(installed)
            (installed / "tsearch/built/tsearch").chmod(0o755)
            environment = {key: text for key, text in os.environ.items() if key != "TSEARCH"} | {"PYTHONPATH": str(installed)}
            for more, which in ({}, said), ({"TSEARCH": built}, f"named by the variable TSEARCH: {built}"):
                command = [sys.executable, "-B", "-c", "from tsearch.program import main; main()", "--version"]
                done = subprocess.run(command, env=environment | more, cwd="/", capture_output=True, text=True, timeout=SECONDS, check=False)
                self.assertEqual((done.returncode, done.stdout, done.stderr), (0, f"tsearch 1.2.3 ({which})\n", ""))

    def wheel(self, built: pathlib.Path) -> str:
        """The package with a program, as pip is given it."""
        spec = importlib.util.spec_from_file_location("backend", PACKAGE / "backend.py")
        assert spec and spec.loader
        backend = importlib.util.module_from_spec(spec)
        spec.loader.exec_module(backend)
        with unittest.mock.patch.object(backend, "BUILT", built), contextlib.redirect_stderr(io.StringIO()):
            return str(self.top / backend.build_wheel(str(self.top)))


class Names(unittest.TestCase):
    def test_names_and_version(self) -> None:
        """Completion shows what there is, and nothing else."""
        code = "import tsearch; print(*dir(tsearch), sep='\\n'); print(tsearch.__version__)"
        environment = {**os.environ, "PYTHONPATH": str(PACKAGE)}
        *names, version = subprocess.run([sys.executable, "-B", "-c", code], env=environment, capture_output=True, text=True, check=True).stdout.splitlines()
        self.assertEqual({name for name in names if not name.startswith("_")}, set(tsearch.__all__))
        self.assertTrue(all(hasattr(tsearch, name) for name in names))
        with open(TOP / "clients/python/pyproject.toml", "rb") as file:
            self.assertEqual(version, tomllib.load(file)["project"]["version"])


if __name__ == "__main__":
    unittest.main()
