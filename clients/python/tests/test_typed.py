"""Patterns as they are typed: what the program is given for them, with Python's `re` as the judge of the lines that are found."""

import random
import re
import unittest
import warnings

from helpers import SECONDS

import tsearch
from tsearch.query import Query
from tsearch.tgrep import arguments, asking, ere, typed
from tsearch.tgrep.typed_parts import Untaken

W, NOT = "[[:alnum:]_]", "[^[:alnum:]_]"
BEFORE, BEHIND = f"(^|{NOT})", f"($|{NOT})"
# What is typed, what the program is given for it, and of which options.
PAIRS = (
    (r"\d", "[0-9]"),
    (r"\D+", "[^0-9]+"),
    (r"\w*\W", f"{W}*{NOT}"),
    (r"\s\S", "[[:space:]][^[:space:]]"),
    (r"\h", "[[:blank:]]"),
    (r"a\tb", "a\tb"),
    (r"\x41\x2e\x5B", r"A\.\["),
    (r"\x{7e}", "~"),
    (r"\Afoo\z", "^foo$"),
    (r"\/\.\"\-\#", r"\/\.\"\-\#"),
    (r"a\ b\'\`", "a b'`"),
    (r"[\w-]", "[[:alnum:]_-]"),
    (r"[\w_.]+", "[[:alnum:]_.]+"),
    (r"[^\s,]", "[^[:space:],]"),
    (r"[\d\-a-f]", "[0-9a-f-]"),
    (r"[\]\w[^-]", "[][:alnum:]_[^-]"),
    (r"[\t ]", "[\t ]"),
    (r"[^\n]*", ".*"),
    (r"[\s\S]*?", ".*"),
    (r"[^\W]", W),
    (r"[^\W_]", "[[:alnum:]]"),
    (r"[\x5e]", r"\^"),
    (r"[\x5e\x2d]", "[-^]"),
    (r"[\x5b-\x5d\n]", "[[.[.]-[.].]]"),
    (r"[[:alpha:]\d]", "[[:alpha:]0-9]"),
    (r"[\w-.]", "[[:alnum:]_.-]"),
    (r"(?:ab|c)*", "(ab|c)*"),
    (r"((?:a)b)", "((a)b)"),
    (r"a*?b+?c??d{2,3}?", "a*b+c?d{2,3}"),
    (r"(a|b)+?", "(a|b)+"),
    ("(?i)foo", "foo", "i"),
    ("(?m)(?is)foo", "foo", "i"),
    ("(?s)a.b", "a.b"),
    (r"\bfoo\b", "foo", "w"),
    (r"\<foo\>", "foo", "w"),
    (r"\b(foo|bar)\b", "(foo|bar)", "w"),
    (r"\bfoo\b|\bbar", f"foo|bar{W}*", "w"),
    (r"\bfoo", f"foo{W}*", "w"),
    (r"\b\w+", f"{W}+", "w"),
    (r"foo\b", f"foo{BEHIND}"),
    (r"foo\>", f"foo{BEHIND}"),
    (r"\bfoo|bar", f"{BEFORE}foo|bar"),
    (r"x(?:\bfoo|,)", f"x($afoo|,)"),
    (r"(\bfoo|\bbar)\(", rf"({BEFORE}foo|{BEFORE}bar)\("),
    (r"\b,", f"{W},"),
    (r"^\bfoo\b$", "^foo$"),
    (r"foo\b\(", r"foo\("),
    (r"foo\b\s*\(", r"foo[[:space:]]*\("),
    (r"\bfoo\b.*\bbar\b", f"foo{NOT}(.*{NOT})?bar", "w"),
    (r"foo\b.*bar", f"foo{NOT}.*bar"),
    (r"foo.*?\bbar", f"foo.*{NOT}bar"),
    (r"foo\b\s*\bbar", "foo[[:space:]]+bar"),
    (r"foo\b.?bar", f"foo{NOT}bar"),
    (r"foo\b", "foo", "w", "-w"),
    (r"\bfoo\b", "foo", "", "-x"),
)
# What is refused, at which offset, why, and what is in the line that says what to write.
REFUSED = (
    ("x(?=y)", 1, "look-ahead", "rg -P"),
    ("x(?!y)", 1, "look-ahead", "grep -v"),
    ("ab(?<=b)c", 2, "look-behind", "rg -P"),
    ("(?<!b)c", 0, "look-behind", "grep -v"),
    ("(?>a)", 0, "possessive group", "write ("),
    ("a(?P<n>b)", 1, "named group", "write ("),
    ("(?<n>b)", 0, "named group", "write ("),
    ("(?P=n)", 0, "named group", "no references"),
    ("(?#n)a", 0, "comment", "leave it out"),
    ("a(?i)b", 1, "flag within", "-i"),
    ("(?i:a)", 0, "group of another kind", "rg -P"),
    ("(?x)a", 0, "flag (?x)", "leave it out"),
    (r"(a)\1", 3, "back-reference", "grep -E"),
    (r"(a)\g{1}", 3, "back-reference", "grep -E"),
    ("xa*+", 2, "possessive *+", "write *"),
    ("a{2}+", 1, "possessive {2}+", "write {2}"),
    ("(a)++", 3, "possessive ++", "write +"),
    (r"a\p{Lu}", 1, r"Unicode property \p{Lu}", "[[:upper:]]"),
    (r"\PL", 0, r"Unicode property \PL", "[[:alpha:]]"),
    (r"[a\p{L}]", 2, r"Unicode property \p{L}", "[:alpha:]"),
    (r"[a\W_]", 2, r"\W in brackets", f"write ({NOT}|[a_])"),
    (r"[\S]", 1, r"\S in brackets", "write [^[:space:]]"),
    (r"[^\Wa]", 2, r"\W beside others", "the bytes"),
    (r"[\n]", 1, "a line feed", "within a line"),
    (r"[\w\y]", 3, "bad escape", "write y"),
    (r"a\nb", 1, "bad escape", "within a line"),
    (r"a\B", 1, "bad escape", "without it"),
    (r"\Qa\E", 0, "bad escape", "-F"),
    (r"\x4", 0, "bad escape", r"\x41"),
    (r"\xe9", 0, "bad escape", "as it is"),
    (r"\y", 0, "bad escape", "write y"),
    (r"\b*", 2, "nothing to repeat", r"\b"),
    (r"(\bfoo,){2}bar", 1, r"no form for \b", "-w"),
    (r"foo\b[a,]", 3, r"no form for \b", "-w"),
    (r"\<.", 0, r"no form for \<", "-w"),
    ("(" * 65, 64, "too deep (over 64 levels)", "fewer"),
)
# Patterns that only POSIX, or the program, gives a meaning, are what they are.
POSIX = r"""
a b|c ^$ () (|a)b a{2} a{2,} a{,3} a{} f{ ) ] } []a] [^]a] [a\] [^\]]* [\.] [\\] [\-x] [[:alpha:]_] [[.-.]-0] [[=a=]] [%--] [a-c-] [--@] \. \\ \( \^ a\{2}
\/ \" \# (a)(b) ((a|b)*c){2} a** a*{2} [z-a] (a [a [[:alpha: [[:no:]] a{1 a{3,2} *a (* |* ^* \ [ ( [[.ab.]] 
""".split()
TOKENS = ["a", "b", "-", "_", ".", ",", " ", "[a-c]", "[^b]", "[^,]", "[_-]", r"\.", r"\(", "1"]
TYPED = [r"\d", r"\w", r"\s", r"\D", r"\W", r"\S", r"[\w-]", r"[^\s]", r"[\d.]", r"[\s\S]", r"[^\W_]", r"\x61", r"\t", r"[a\t]"]
REPEATS = ["", "", "", "", "*", "+", "?", "{2}", "{1,2}", "{0,1}"]


def made(source: random.Random, depth: int, tokens: list[str], edges: list[str], groups: list[str], lazy: list[str]) -> str:
    """A random pattern."""
    alternatives = []
    for _ in range(source.choice([1, 1, 1, 2])):
        parts = []
        for _ in range(source.randint(1, 4)):
            if edges and source.random() < 0.3:
                parts.append(source.choice(edges))
            is_group = depth and source.random() < 0.25
            part = f"{source.choice(groups)}{made(source, depth - 1, tokens, edges, groups, lazy)})" if is_group else source.choice(tokens)
            repeat = source.choice(REPEATS)
            parts.append(part + repeat + (source.choice(lazy) if repeat else ""))
        if edges and source.random() < 0.3:
            parts.append(source.choice(edges))
        alternatives.append("".join(parts))
    return "|".join(alternatives)


def lines_from(source: random.Random, count: int) -> list[bytes]:
    return ["".join(source.choices("aab_-., 1(\té", k=source.randint(0, 8))).encode() for _ in range(count)]


def finds(found: typed.Typed, *, words: bool = False, lines: bool = False) -> ere.Names:
    """What tells whether a line is found by the program for a translation, by sets of states and not by backtracking."""
    pattern = found.patterns[0]
    if lines:
        pattern = b"^(" + pattern + b")$"
    elif words or found.whole_words:
        pattern = f"{BEFORE}(".encode() + pattern + f"){BEHIND}".encode()
    return ere.Names(pattern)


def judged(pattern: str, *, words: bool = False, lines: bool = False) -> re.Pattern[bytes]:
    text = f"(?:{pattern})"
    text = f"^{text}$" if lines else rf"(?<!\w){text}(?!\w)" if words else text
    with warnings.catch_warnings():
        warnings.simplefilter("ignore", FutureWarning)
        return re.compile(text.encode())


class Tables(unittest.TestCase):
    def test_pairs(self) -> None:
        for pattern, wanted, flags, option in ((*pair, "", "")[:4] for pair in PAIRS):
            with self.subTest(pattern=pattern, option=option):
                query = asking.query_of(arguments.read([*[option] * bool(option), "-e", pattern]))
                self.assertEqual(query.pattern.decode(), wanted)
                self.assertEqual((query.ignore_case, query.whole_words), ("i" in flags, "w" in flags))

    def test_refusals(self) -> None:
        for pattern, offset, reason, instead in REFUSED:
            with self.subTest(pattern=pattern), self.assertRaises(Untaken) as caught:
                typed.translated((pattern.encode(),))
            refused = caught.exception
            self.assertEqual((refused.offset, refused.pattern), (offset, pattern.encode()))
            self.assertIn(reason, refused.reason)
            self.assertIn(instead, refused.instead)
            self.assertNotIn("\n", refused.instead)

    def test_options(self) -> None:
        def query(*words: str) -> Query:
            return asking.query_of(arguments.read(list(words)))

        for pattern in r"\d", r"a*?", "(?:a)", r"\bfoo\b", "(?i)x", "a*+":
            self.assertEqual(query("--posix", pattern).pattern, pattern.encode())
            self.assertEqual((query("-F", pattern).pattern, query("-F", pattern).literal), (pattern.encode(), True))
        self.assertEqual(query("-e", r"\d", "-e", "(?:a)").pattern, b"[0-9]|(a)")
        self.assertTrue(query("-e", "(?i)a", "-e", "(?i)b").ignore_case)
        self.assertEqual([query("-S", pattern).ignore_case for pattern in (r"\S\W\D", r"\x41", "a")], [True, False, True])
        both = query("-e", r"\bfoo\b", "-e", r"\bbar")
        self.assertEqual((both.pattern, both.whole_words), (f"foo|bar{W}*".encode(), True))
        other = query("-e", r"\bfoo\b", "-e", "bar")
        self.assertEqual((other.pattern, other.whole_words), (f"{BEFORE}foo{BEHIND}|bar".encode(), False))
        with self.assertRaises(Untaken) as caught:
            query("-e", "a", "-e", "(?i)b")
        self.assertEqual(caught.exception.pattern, b"(?i)b")

    def test_offsets_of_the_program_are_those_of_what_was_typed(self) -> None:
        for pattern, out, offset in (r"\w[z-a]", b"[[:alnum:]_][z-a]", 4), (r"\d(?:a", b"[0-9](a", 2), (r"(?i)\d{3,2}", b"[0-9]{3,2}", 6):
            found = typed.translated((pattern.encode(),))
            self.assertEqual(found.patterns, (out,))
            with self.subTest(pattern=pattern), tsearch.Session() as session, self.assertRaises(tsearch.PatternRefused) as caught:
                session.find(out, timeout=SECONDS)
            refused = asking.as_typed({"patterns": [pattern]}, caught.exception)
            self.assertEqual((refused.pattern, refused.offset), (pattern.encode(), offset))


class Unchanged(unittest.TestCase):
    def test_what_posix_defines(self) -> None:
        source = random.Random(3)
        patterns = [*POSIX, *(made(source, 3, TOKENS, ["^", "$"], ["("], [""]) for _ in range(2_000))]
        for pattern in patterns:
            found = typed.translated((pattern.encode(),))
            self.assertEqual((found.patterns, found.ignores_case, found.whole_words), ((pattern.encode(),), False, False))
            self.assertEqual(found.offsets[0], tuple(range(len(pattern.encode()) + 1)))

    def test_what_is_too_long(self) -> None:
        for pattern in b"(?:a)" * 200_000, b"[[:" * 340, b"(" * 64 + b"\\ba|" * 150, b"\\b.*" * 200, b"[a\\d" * 200:
            try:
                typed.translated((pattern,))
            except Untaken:
                self.assertLessEqual(len(pattern), 1_024)
        self.assertEqual(typed.translated((rb"\d",) * 400).patterns, (rb"\d",) * 400)

    def test_any_bytes(self) -> None:
        """Whatever is typed is translated or refused, at a place in it; what is made is not changed again."""
        source = random.Random(4)
        pieces = [*map(chr, range(1, 128)), *r"\b \w \d [ ] ( ) (?: * +? {2} [^ \W - ^ $ | [: :] \\ \x41 \t".split(), "é"]
        count = 0
        for _ in range(5_000):
            pattern = "".join(source.choices(pieces, k=source.randint(0, 12))).encode()
            try:
                found = typed.translated((pattern,))
            except Untaken as refused:
                self.assertTrue(0 <= refused.offset <= len(pattern) and refused.pattern == pattern)
                continue
            self.assertEqual(len(found.offsets[0]), len(found.patterns[0]) + 1)
            self.assertTrue(all(0 <= at <= len(pattern) for at in found.offsets[0]))
            count += 1
        self.assertGreater(count, 500)


class Lines(unittest.TestCase):
    """The lines that are found are those of `re` for what was typed."""

    def test_random_patterns(self) -> None:
        source = random.Random(5)
        tokens, edges, groups, lazy = [*TOKENS, *TYPED * 2], [r"\b", r"\b", "^", "$"], ["(", "(?:"], ["", "", "?"]
        taken = of_edges = 0
        for _ in range(3_000):
            pattern = made(source, 2, tokens, source.choice([[], edges]), groups, lazy)
            option = source.choice([{}, {}, {}, {"words": True}, {"lines": True}])
            try:
                found = typed.translated((pattern.encode(),), **option)
            except Untaken as refused:
                self.assertIn(r"no form for \b", refused.reason)
                continue
            names, judge = finds(found, **option), judged(pattern, **option)
            taken += 1
            of_edges += r"\b" in pattern
            for line in lines_from(source, 20):
                self.assertEqual(names.has(line), bool(judge.search(line)), (pattern, option, found.patterns, found.whole_words, line))
        self.assertGreater(taken, 1_500)
        self.assertGreater(of_edges, 150)

    def test_words_as_they_are_sought(self) -> None:
        """Patterns of words and of what is between them, as most with a `\\b` are."""
        source = random.Random(6)
        words = ["a", "ab", r"\w+", "(?:a|b)", "[ab]+", "a1?"]
        between = [".*", r"\s*", r"\s+", r"\(", ".*?", ".+", "", "-", r"\W+", r"\S*", r"\D+", " "]
        taken = 0
        for _ in range(2_000):
            parts = []
            for at in range(source.randint(1, 3)):
                parts += [source.choice(between)] * bool(at) + [source.choice(["", r"\b"]), source.choice(words), source.choice(["", r"\b"])]
            pattern = "".join(parts)
            option = source.choice([{}, {}, {"words": True}, {"lines": True}])
            try:
                found = typed.translated((pattern.encode(),), **option)
            except Untaken:
                continue
            taken += 1
            names, judge = finds(found, **option), judged(pattern, **option)
            for line in lines_from(source, 40):
                self.assertEqual(names.has(line), bool(judge.search(line)), (pattern, option, found.patterns, found.whole_words, line))
        self.assertGreater(taken, 1_000)

    def test_by_the_program(self) -> None:
        source = random.Random(7)
        lines = sorted(set(lines_from(source, 3_000)))
        patterns = [pair[0] for pair in PAIRS if len(pair) < 4 and "[:" not in pair[0] and r"\h" not in pair[0] and r"\<" not in pair[0]]
        patterns += [made(source, 1, [*TOKENS, *TYPED], [r"\b", "^", "$"], ["(?:"], ["", "?"]) for _ in range(150)]
        with tsearch.Session() as session:
            session.put("lines", b"\n".join(lines) + b"\n")
            session.publish()
            for pattern in patterns:
                try:
                    query = asking.query_of({"patterns": [pattern]})
                    judge = re.compile(pattern.encode())
                except (Untaken, re.error):
                    continue
                options = {"ignore_case": query.ignore_case, "whole_words": query.whole_words}
                found = [hit.text for hit in session.find(query.pattern, timeout=SECONDS, **options)]
                self.assertEqual(found, [line for line in lines if judge.search(line)], (pattern, query.pattern))


if __name__ == "__main__":
    unittest.main()
