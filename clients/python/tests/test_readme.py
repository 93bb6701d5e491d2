"""The examples of README.md run, one after the other, and print what is shown below them."""

import contextlib
import io
import re
import subprocess
import sys
import unittest

from helpers import PACKAGE, SECONDS

README = PACKAGE / "README.md"
BLOCK = re.compile(r"^```(python|output)\n(.*?)^```$", re.MULTILINE | re.DOTALL)


class Readme(unittest.TestCase):
    def test_examples(self) -> None:
        blocks = BLOCK.findall(README.read_text(encoding="utf-8"))
        self.assertGreater(len(blocks), 10)
        known: dict[str, object] = {}
        for (kind, code), (after, wanted) in zip(blocks, [*blocks[1:], ("", "")]):
            if kind == "python":
                with self.subTest(code=code), contextlib.redirect_stdout(io.StringIO()) as written:
                    exec(compile(code, str(README), "exec"), known)
                if after == "output":
                    self.assertEqual(written.getvalue(), wanted)

    def test_options_that_are_named_exist(self) -> None:
        text = README.read_text(encoding="utf-8")
        for module, title in ("tsearch", "## At the terminal"), ("tsearch.web", "## In the browser"):
            section = text.split(title)[1].split("\n## ")[0]
            command = [sys.executable, "-B", "-m", module, "--help"]
            done = subprocess.run(command, cwd=PACKAGE, capture_output=True, text=True, timeout=SECONDS, check=False)
            if done.returncode and "aiohttp" in done.stderr:
                self.skipTest("the library aiohttp is missing (python3-aiohttp)")
            for option in set(re.findall(r"(?<![\w-])--[a-z][a-z-]*", section)) - {"--help"}:
                self.assertIn(option, done.stdout, module)

    def test_names_that_are_public_have_a_text(self) -> None:
        import tsearch
        from tsearch import aio

        for module in tsearch, aio:
            for name in module.__all__:
                found = getattr(module, name)
                self.assertTrue(found.__doc__, name)
                for member, value in vars(found).items() if isinstance(found, type) else ():
                    if not member.startswith("_") and callable(value) and member not in ("count", "index"):
                        self.assertTrue(value.__doc__, f"{name}.{member}")


if __name__ == "__main__":
    unittest.main()
