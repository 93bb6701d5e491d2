"""Patterns of paths in names that begin with something else, by Python's `re`, which means the same by these patterns."""

from __future__ import annotations

import random
import re
import unittest

from helpers import quoted  # puts the package on the path of modules

import tsearch
from tsearch.paths import under

HEAD = b"[^:]*:"
PATHS = [b"a", b"b", b"ab", b"ba", b"aab", b"a/b", b"b/a", b"abab/a", b"a b", b" a", b"b ", b"a-b", b"]^", b"a:b", b"aa/bb/a b"]


def pattern(source: random.Random, depth: int = 3) -> str:
    """A pattern in which anchors stand anywhere."""
    if depth == 0 or source.random() < 0.2:
        return source.choice(["a", "b", "/", ".", "^", "$", "^", "[ab]", "[^a]", "[^/ ]", " ", "[ a]", r"\^", "[]^-]", "a", ":"])
    kind = source.choice("ssscrrg")
    if kind == "s":
        return "".join(grouped(pattern(source, depth - 1)) for _ in range(source.randint(0, 3)))
    if kind == "c":
        return "(" + "|".join(pattern(source, depth - 1) for _ in range(source.randint(1, 3))) + ")"
    if kind == "r":
        return "(" + pattern(source, depth - 1) + ")" + source.choice(["*", "+", "?", "{2}", "{0,2}", "{1,}", "{0}"])
    return "(" + pattern(source, depth - 1) + ")"


def grouped(text: str) -> str:
    return f"({text})" if "|" in text else text


def in_quoted(text: str) -> bytes:
    """The pattern for a name as a session has it, in Python's form: there is no space but one that is written so."""
    return text.replace("[ a]", "(%20|a)").replace("[^/ ]", "(?!%20)[^/]").replace(" ", "(%20)").encode()


class Paths(unittest.TestCase):
    def test_random_patterns(self) -> None:
        source = random.Random(7)
        count = found = 0
        for _ in range(6_000):
            text = pattern(source)
            if "[^/ ]" in text:  # one byte that is no space is also a part of a quoted one
                continue
            made = under(text.encode(), HEAD)
            for path in PATHS:
                wanted = bool(re.search(in_quoted(text), quoted(path)))
                for name in b"ab/a:" + quoted(path), b":" + quoted(path):
                    count += 1
                    found += wanted
                    self.assertEqual(bool(re.search(made, name)), wanted, (text, made, name))
        self.assertGreater(min(found, count - found), 5_000)

    def test_in_the_program(self) -> None:
        """It takes what is made, and means the same."""
        source = random.Random(8)
        with tsearch.Session() as session:
            for path in PATHS:
                session.put(b"main:" + path, b"x\n")
            session.publish()
            for _ in range(400):
                text = pattern(source)
                try:
                    session.find("$a", names=text.replace(" ", "_"), header_only=True)
                except tsearch.PatternRefused:
                    continue
                made = under(text.encode(), b"main:")
                found = set(session.find("", names=made, names_only=True).names())
                wanted = {b"main:" + path for path in PATHS if re.search(made, b"main:" + quoted(path))}
                self.assertEqual(found, wanted, (text, made))

    def test_what_is_made(self) -> None:
        for text, wanted in {
            "x": "^h:(.*x)",
            "^src/": "^h:(src/)",
            "(^|/)test/": "^h:(.*(/)test/|(|/)test/|test/)",
            "^a|b$": "^h:(.*b$|a|b$)",
            "a b": "^h:(.*a(%20)b)",
            "a *b": "^h:(.*a(%20)*b)",
            "x^": "^h:($a)",
            "[]^-]": "^h:(.*[]^-])",
            "[-^]": "^h:(.*[-^])",
            "[^]a-z[]": "^h:(.*[^]a-z[])",
        }.items():
            self.assertEqual(under(text.encode(), b"h:").decode(), wanted, text)
        self.assertEqual(under(b"^a b", b""), b"^a(%20)b")


if __name__ == "__main__":
    unittest.main()
