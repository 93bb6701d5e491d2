"""Random scripts with every item and every option of docs/SCRIPT.md, and with whatever is refused.

A script has a few names, bodies and patterns of its own, so that its items meet each other: bodies are put again under other names, and
names are under the prefixes that are copied and removed. Its kind says how many documents it begins with and what its items mostly are.
"""

import collections
import os

from compare.compare_find import NAME_PATTERNS, NAMES, PREFIXES, WORDS, random_body
from compare.compare_with_grep import Patterns
from judge.random_finds import random_find
from judge.transcripts import USUAL, Lengths

# The limits of time, in milliseconds: with the first some searches may be too slow, and with the second none is.
SEARCH_MS = [1, 4_294_967_295]
READERS = [0, 1, 2, 3, 16]

# What a script is like: its share of all scripts, the numbers of documents to begin with and of items behind them, each the least and the
# greatest, and how often each item is there.
Kind = collections.namedtuple("Kind", "share documents items weights")
EVEN = {"put": 8, "load": 2, "remove": 3, "removeunder": 1, "copyunder": 2, "publish": 5, "search": 12, "find": 20, "cancel": 8, "status": 3, "sync": 2}
EVEN.update(bad=2, nothing=1)
SEARCHES = {**EVEN, "put": 4, "remove": 1, "publish": 3, "search": 20, "find": 60}
TYPED = {"put": 2, "remove": 1, "copyunder": 1, "publish": 2, "search": 3, "typed": 40, "status": 1}
COPIED = {"copyunder": 12, "removeunder": 4, "put": 3, "publish": 8, "search": 4, "find": 14, "cancel": 5, "status": 4, "sync": 2}
CROWD = {"put": 4, "publish": 2, "search": 300, "find": 100, "cancel": 10, "status": 4}
KINDS = {
    "a few items": Kind(30, (0, 0), (0, 60), EVEN),
    "many searches": Kind(30, (2, 12), (100, 400), SEARCHES),
    "searches as one types": Kind(15, (5, 30), (50, 200), TYPED),
    "many documents": Kind(12, (200, 400), (30, 100), SEARCHES),
    "many copies": Kind(4, (100, 300), (30, 80), COPIED),
    "more searches than can be open": Kind(4, (2, 5), (1_100, 1_400), CROWD),
    "little memory": Kind(20, (100, 500), (20, 80), {**EVEN, "put": 40}),
}
# A copy may double the documents. It is left out where there would be more than so many.
MOST_DOCUMENTS = {"many documents": 4_000, "many copies": 20_000}
FEW_DOCUMENTS = 1_000

LANES = [b"a", b"b", b"--", b"-m", b"\xff", b"x" * 64]
BAD_NAMES = [b"", b"a b", b"a\x7f", b"\ta", b"n" * 256, b"n" * 4_097]
BAD_BODIES = [b"a\0b", b"\0", b"x" * 16_385, b"a\n" + b"b" * 16_385 + b"\n"]
TOO_LONG = (b"ab " * 50 + b"\n") * 6_945
BAD_PATTERNS = [b"(a", b"a{2,1}", b"*a", b"b|*", b"^+", b"[a", b"[b-a]", b"[[:x:]]", b"a\\", b"\\w", b"a\0", b"a" * 1_025, b"(a{255}){17}"]
BAD_PATTERNS += [b"(" * 65 + b")" * 65, b"a" + b"?" * 64]
BAD_LINES = [b"pull", b"PUT a 1", b" publish", b"publish ", b"publish\r", b"sync 1", b"status 1", b"cancel", b"cancel 1x", b"cancel -1", b"remove", b"removeunder"]
BAD_LINES += [b"copyunder a", b"load a", b"load a ", b"searchin a", b"isearchin b", b"findx -- a", b"\xef\xbb\xbfpublish", b"\0"]
NOTHING = [b"", b"#", b"# search a"]
# What can be last: a put that ends the script, or one that ends with it.
ENDS = [b"put\n", b"put \n", b"put a\n", b"put a x\n", b"put a 1234567890\n", b"put a 1\nab\n", b"put a 5\nab", b"put a 99999999\nab\n", b"put a 1", b"put a 2\nab"]
ENDS += [b"publish", b"search a"]

# The files of a folder that a load can find, and paths at which it finds none.
FILES = {b"plain": b"ab\nb a\n\naB", b"two words": b"a b\n", b"empty": b"", b"zero": b"a\0b\n", b"folder/line": b"x" * 16_385, b"folder/long": TOO_LONG}
ALSO = {b"link": b"plain", b"./folder/../plain": b"plain"}
NO_FILES = [b"nothing", b"folder", b"pipe", b"broken", b"plain/x", b"plain ", b"\xff", b"a\0b", b"/dev/null"]
LOADED = {**FILES, **{path: FILES[other] for path, other in ALSO.items()}}


def write_files(folder):
    """Makes these files, a pipe, a link that leads nowhere, and a file whose path is not UTF-8."""
    os.mkdir(os.path.join(folder, b"folder"))
    for path, body in [*FILES.items(), (b"\xff", b"ab\n")]:
        with open(os.path.join(folder, path), "wb") as file:
            file.write(body)
    os.symlink(b"plain", os.path.join(folder, b"link"))
    os.symlink(b"nowhere", os.path.join(folder, b"broken"))
    os.mkfifo(os.path.join(folder, b"pipe"))


def random_cancel(chance, asked):
    """A cancel, after so many searches: mostly of the last one or one of the last, else of any, or of one that was not asked."""
    number = chance.choice([asked] * 6 + [max(asked - chance.randrange(4), 0)] * 2 + [chance.randrange(asked + 1), asked + 1, 0, 2**32 + asked])
    return b"cancel %d" % number


class Maker:
    """Makes one script."""

    def __init__(self, chance, kind):
        self.chance, self.kind, self.most = chance, KINDS[kind], MOST_DOCUMENTS.get(kind, FEW_DOCUMENTS)
        self.asked, self.documents = 0, set()
        few, count = chance.sample(NAMES, chance.randint(3, len(NAMES))), chance.randint(*self.kind.documents)
        self.first = [b"%s%d" % (chance.choice(few[:-1]), number) for number in range(count)]
        self.names = few + self.first
        is_large, is_short = kind == "searches as one types" and chance.randrange(2) == 0, kind == "little memory"
        self.bodies = [self.many_trigrams() if is_short else random_body(chance, is_large) for _ in range(8 + count // 3)]
        self.patterns = [Patterns(chance).alternatives(chance.randint(0, 3))[0] for _ in range(5)] + chance.sample(WORDS, 8)

    def some(self, good, bad, one_in):
        """One of these, or of the bad ones."""
        return self.chance.choice(bad if self.chance.randrange(one_in) == 0 else good)

    def many_trigrams(self):
        """Lines with many trigrams of their own, which take much memory."""
        return b"".join(b"%s\n" % bytes(self.chance.choices(b"abcdefghijklmnopqrstuvwxyz ", k=70)) for _ in range(10))

    def name(self):
        name = self.some(self.names, BAD_NAMES, 40)
        self.documents.add(name)
        return name

    def prefix(self):
        return self.some(PREFIXES, BAD_NAMES, 20)

    def pattern(self):
        return self.some(self.patterns, BAD_PATTERNS, 30)

    def put_of(self, name):
        body = self.some(self.bodies, BAD_BODIES, 40)
        if self.chance.randrange(4) == 0:
            body = random_body(self.chance, False)
        if self.chance.randrange(1_000) == 0:
            body = TOO_LONG
        return b"put %s %d\n%s" % (name, len(body), body)

    def put(self):
        return self.put_of(self.name())

    def load(self):
        return b"load %s %s" % (self.name(), self.some(list(LOADED), NO_FILES, 3))

    def remove(self):
        return b"remove " + self.name()

    def removeunder(self):
        prefix = self.some(self.names, [*PREFIXES, *BAD_NAMES], 2)
        self.documents = {name for name in self.documents if not (prefix and name.startswith(prefix))}
        return b"removeunder " + prefix

    def copyunder(self):
        prefix, other = self.prefix(), self.prefix()
        documents = {*self.documents, *(other + name[len(prefix) :] for name in self.documents if name.startswith(prefix))}
        if len(documents) > self.most:
            return self.removeunder()
        self.documents = documents
        return b"copyunder %s %s" % (prefix, other)

    def publish(self):
        return b"publish"

    def search(self):
        """A search that is no find."""
        self.asked += 1
        word = self.chance.choice([b"search", b"search", b"isearch"])
        if self.chance.randrange(3):
            return self.chance.choice([word, word + b" "]) if self.chance.randrange(30) == 0 else word + b" " + self.pattern()
        return b"%sin %s %s" % (word, self.some(NAME_PATTERNS, [b"(", b"*"], 15), self.pattern())

    def find(self):
        self.asked += 1
        names, prefixes = self.chance.choice([NAME_PATTERNS, []]), self.chance.choice([PREFIXES, []])
        line = random_find(self.chance, [self.pattern()], names, (), prefixes, LANES)
        return line if self.chance.randrange(100) else line[: line.find(b"--")]

    def typed(self):
        """A search with a limit, and mostly a cancel of the one before it."""
        self.asked += 1
        words = [b"find", b"-m %d" % self.chance.choice([1, 20, 200]), *[b"--lane " + self.chance.choice(LANES)] * self.chance.randrange(2), b"--", self.pattern()]
        return b" ".join(words) + (b"\ncancel %d" % (self.asked - 1) if self.asked > 1 and self.chance.randrange(5) else b"")

    def cancel(self):
        return random_cancel(self.chance, self.asked)

    def status(self):
        return b"status"

    def sync(self):
        return b"sync"

    def bad(self):
        return self.chance.choice(BAD_LINES)

    def nothing(self):
        return self.chance.choice(NOTHING)

    def items(self):
        """The items, and what is last, which may end the script."""
        self.documents.update(self.first)
        items = [self.put_of(name) for name in self.first] + [b"publish"] * bool(self.first)
        words = self.chance.choices(list(self.kind.weights), list(self.kind.weights.values()), k=self.chance.randint(*self.kind.items))
        items += [getattr(self, word)() for word in words]
        last = self.chance.choice(ENDS) if self.chance.randrange(3) == 0 else b""
        return [item + b"\n" for item in items], last


def random_options(chance, kind):
    """The options of the program, by the names that the judge has for them, and `search_ms`."""
    few = [] if KINDS[kind].documents[1] > 30 else [5, 30]
    options = {"max_commands": chance.choice([*few, 1_000, 1_000_000, 4_294_967_294]), "stats": chance.randrange(4) == 0, "times": chance.randrange(4) == 0}
    if chance.randrange(6) == 0:
        options["lengths"] = Lengths(chance.choice([1, 3, 7, 256, 4_096]), chance.choice([1, 10, 100, 1 << 21]), chance.choice([1, 3, 9, 20_000]))
    if chance.randrange(3) == 0:
        options["search_ms"] = chance.choice(SEARCH_MS)
    return options


def words_of(options):
    """The words of the program's call for these options."""
    words = ["--max-commands", str(options["max_commands"]), *["--stats"] * options["stats"], *["--times"] * options["times"]]
    if "lengths" in options:
        name, body, line = map(str, options.get("lengths", USUAL))
        words += ["--max-name", name, "--max-body", body, "--max-line", line]
    return words + (["--search-ms", str(options["search_ms"])] if "search_ms" in options else [])


def random_kind(chance, number):
    """The kind of the script with this number. The first scripts have one each."""
    kinds = list(KINDS)
    return kinds[number] if number < len(kinds) else chance.choices(kinds, [kind.share for kind in KINDS.values()])[0]
