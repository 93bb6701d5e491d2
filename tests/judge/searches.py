"""What a search asks for, and its answer for some documents. Written by docs/SCRIPT.md, apart from the program.

A search is read once, with its options; or it is refused, with the first fault from the left. Its answer is a header and rows. All searches
are of one kind: `search`, `searchin`, `isearch` and `isearchin` have the options that a `find` could say in their place.
"""

import collections
import functools

from judge import trees
from judge.trees import Refused

MOST_LINES, MOST_CONTEXT, MOST_NAMES, MOST_PREFIXES, MOST_LANE = 4_294_967_295, 1_000, 16, 4_096, 64

# The options that take a word, those that take one of a byte or more, which names begin with, the one that takes a short word, which no
# answer shows, and those that take a number, with the least and the greatest. The others take nothing.
WORDS = (b"-n", b"-N")
PREFIXES = (b"--under", b"--not-under")
LANE = b"--lane"
NUMBERS = {b"-m": (1, MOST_LINES), b"-C": (0, MOST_CONTEXT)}
MARKS = (b"--column", b"--spans")
VIEWS = (b"-l", b"-c", b"-q", b"-C", *MARKS)
OPTIONS = (b"-i", b"-F", b"-w", b"-x", b"-v", *WORDS, *PREFIXES, LANE, b"-I", b"-m", *VIEWS, b"-Z")

# The words of the other searches: whether it has a name pattern, and whether it ignores case in its pattern.
OTHERS = {b"search": (False, False), b"searchin": (True, False), b"isearch": (False, True), b"isearchin": (True, True)}


def exclude(one, other):
    return one in VIEWS and other in VIEWS or (one in MARKS and other == b"-v") or (one == b"-v" and other in MARKS)


def said(line):
    """The options of a `find` in their order, each with its word or number or None, and the pattern."""
    left, options, counts = line.removeprefix(b"find").removeprefix(b" "), [], collections.Counter()
    while True:
        word, _, after = left.partition(b" ")
        if word == b"--":
            return options, after
        if not left:
            raise Refused("no -- before the pattern")
        left, value = after, None
        check_option(word, counts)
        counts[word] += 1
        if word in WORDS:
            if not left:
                raise Refused("no -- before the pattern")
            value, _, left = left.partition(b" ")
        elif word in PREFIXES:
            value, _, left = left.partition(b" ")
            if not value:
                raise Refused(f"option {word.decode()} needs a word of 1 byte or more")
        elif word == LANE:
            value, _, left = left.partition(b" ")
            if not 1 <= len(value) <= MOST_LANE:
                raise Refused(f"option {LANE.decode()} needs a word of 1 to {MOST_LANE} bytes")
        elif word in NUMBERS:
            digits, _, left = left.partition(b" ")
            value = number_of(word, digits)
        options.append((word, value))


def check_option(option, earlier):
    """Refuses a word that is no option, and one that cannot come after these, of which it is given how often each was there."""
    shown = option.decode("latin-1")
    if option not in OPTIONS:
        raise Refused(f"bad option {shown}")
    for other in earlier:
        if other == option and option not in WORDS + PREFIXES:
            raise Refused(f"option {shown} twice")
        if other != option and exclude(other, option):
            raise Refused(f"{other.decode()} and {shown} exclude each other")
    most = MOST_PREFIXES if option in PREFIXES else MOST_NAMES
    if earlier[option] == most:
        raise Refused(f"option {shown} over {most} times")


def number_of(option, digits):
    """The number after an option. Only decimal digits make one, and as many as one likes."""
    least, greatest = NUMBERS[option]
    is_number = digits and all(digit in trees.DIGITS for digit in digits)
    number = int(digits.lstrip(b"0")[:20] or b"0") if is_number else -1
    if not least <= number <= greatest:
        raise Refused(f"option {option.decode()} needs a number from {least} to {greatest}")
    return number


class Lines:
    """The lines of a body, and its places."""

    def __init__(self, body):
        self.texts = body.split(b"\n")
        if not self.texts[-1]:
            self.texts.pop()
        self.places = trees.Text(body)

    def with_one_of(self, places):
        """The lines, counted from 0, that have one of these places."""
        bits, at, found = bin(places)[:1:-1], 0, []
        for number, text in enumerate(self.texts):
            end = at + len(text) + 1
            if bits.find("1", at, end) >= 0:
                found.append(number)
            at = end
        return found


@functools.lru_cache(2_000)
def lines_of(body):
    return Lines(body)


@functools.lru_cache(2_000)
def text_of(line):
    return trees.Text(line)


class Test:
    """Which lines have a match of a pattern, and where. What was found in a body or a line is kept."""

    def __init__(self, pattern, ignores_case=False, is_literal=False, edge=None):
        self.tree, self.edge = trees.tree_of(pattern, ignores_case, is_literal), edge
        if edge == b"-x":
            trees.as_line(self.tree)
        elif edge == b"-w":
            trees.as_word(self.tree)

    def ends(self, text, places):
        """The places where matches end that begin at one of these."""
        if self.edge == b"-x":
            return self.tree.after(text, places & text.starts) & text.ends
        if self.edge == b"-w":
            in_words = text.before(trees.WORD_BYTES)
            return self.tree.after(text, places & ~(in_words << 1)) & ~in_words
        return self.tree.after(text, places)

    def first(self, text, least):
        """The first place from `least` on where a match begins, or None. The text is one line."""
        greatest = len(text.body)
        if not self.ends(text, bits_from(least, greatest)):
            return None
        low, high = least, greatest
        while low < high:
            middle = (low + high) // 2
            if self.ends(text, bits_from(least, middle)):
                high = middle
            else:
                low = middle + 1
        return low

    @functools.lru_cache(10_000)
    def spans(self, line):
        """The columns of the first and last byte of each match: the one that begins first from the end of the one before, and the longest
        that begins there. A match without a byte is none."""
        text, spans, at = text_of(line), [], 0
        while (start := self.first(text, at)) is not None:
            end = self.ends(text, 1 << start).bit_length() - 1
            if end > start:
                spans.append((start + 1, end))
            at = max(end, start + 1)
        return spans

    @functools.lru_cache(20_000)
    def lines_with_match(self, body):
        lines = lines_of(body)
        return lines.with_one_of(self.ends(lines.places, lines.places.every))


@functools.lru_cache(1_000)
def test_of(pattern, ignores_case=False, is_literal=False, edge=None):
    """The test of a pattern, so that searches with the same one find what they need among what was found."""
    return Test(pattern, ignores_case, is_literal, edge)


def bits_from(first, last):
    return (1 << last + 1) - (1 << first)


class Search:
    """What a search asks for."""

    def __init__(self, test, names, options, under=(), not_under=()):
        """The test of lines; tests of names, each with whether names must have a match; the other options with their values; and what names
        must begin with one of, if there are any, and with none of."""
        self.test, self.names, self.under, self.not_under = test, names, tuple(under), tuple(not_under)
        self.inverts, self.limit, self.zero = b"-v" in options, options.get(b"-m"), b"-Z" in options
        self.view = next((option for option in options if option in VIEWS), None)
        self.context, self.lane = options.get(b"-C", 0), options.get(LANE)
        self.of_names = self.view in (b"-l", b"-c")

    def hits(self, documents, any_name=False):
        """The lines that are found, counted from 0, by the documents that have any, in the order of names."""
        found = {}
        for name in sorted(documents):
            if any_name or self.admits(name):
                matched = self.test.lines_with_match(documents[name])
                if self.inverts:
                    count, matched = len(lines_of(documents[name]).texts), set(matched)
                    matched = [line for line in range(count) if line not in matched]
                if matched:
                    found[name] = matched
        return found

    def admits(self, name):
        """Whether a document of this name is searched."""
        if self.under and not name.startswith(self.under) or name.startswith(self.not_under):
            return False
        return all(bool(test.lines_with_match(name)) == wanted for test, wanted in self.names)

    def begin(self, name, mark):
        return name + (b"\0" if self.zero else mark)

    def row(self, name, line, text):
        """The row of a line that is found."""
        place = b"%d:" % (line + 1)
        if self.view == b"--column":
            place += b"%d:" % (self.test.first(text_of(text), 0) + 1)
        elif self.view == b"--spans":
            place += b",".join(b"%d-%d" % span for span in self.test.spans(text)) + b":"
        return self.begin(name, b":") + place + text + b"\n"

    def row_of_name(self, name, lines):
        if self.view == b"-l":
            return self.begin(name, b"") + b"\n"
        return self.begin(name, b":") + b"%d\n" % len(lines)

    def rows_around(self, documents, hits):
        """The rows of these hits and of the lines near them."""
        rows, last = [], None
        for name, hit in hits.items():
            texts = lines_of(documents[name]).texts
            near = {line for at in hit for line in range(at - self.context, at + self.context + 1) if 0 <= line < len(texts)}
            for line in sorted(near):
                if last not in (None, (name, line - 1)):
                    rows.append(b"--\n")
                last = name, line
                is_hit = line in hit
                rows.append(self.row(name, line, texts[line]) if is_hit else self.begin(name, b"-") + b"%d-%s\n" % (line + 1, texts[line]))
        return rows

    def rows_of_lines(self, documents, hits):
        return [self.row(name, line, lines_of(documents[name]).texts[line]) for name, lines in hits.items() for line in lines]

    def answer(self, documents):
        """The words of the header after the version, without candidates, and the rows."""
        found = self.hits(documents)
        total = len(found) if self.of_names else sum(map(len, found.values()))
        shown = total if self.limit is None else min(total, self.limit)
        hits = dict(list(found.items())[:shown]) if self.of_names else first_lines(found, shown)
        if self.of_names:
            rows = [self.row_of_name(name, lines) for name, lines in hits.items()]
        elif self.view == b"-C":
            rows = self.rows_around(documents, hits)
        else:
            rows = [] if self.view == b"-q" else self.rows_of_lines(documents, hits)
        head = b"%s %d" % (b"names" if self.of_names else b"lines", shown)
        head += b" and more" if shown < total else b""
        head += b" rows %d" % len(rows) if self.view == b"-C" else b""
        return head, b"".join(rows)


def first_lines(found, count):
    """The first so many lines of those that are found, by their documents."""
    left, hits = count, {}
    for name, lines in found.items():
        if left > 0:
            hits[name] = lines[:left]
            left -= len(lines)
    return hits


def read(line):
    """The search of a line that is one. Raises Refused, with the reason of its refusal."""
    search, reason = read_once(line)
    if search is None:
        raise Refused(reason)
    return search


@functools.lru_cache(10_000)
def read_once(line):
    """The search of a line and None, or None and the reason of its refusal."""
    word, _, rest = line.partition(b" ")
    try:
        if word == b"find":
            options, pattern = said(line)
            names = [(value, option == b"-n") for option, value in options if option in WORDS]
            prefixes = [[value for option, value in options if option == wanted] for wanted in PREFIXES]
            return search_of(pattern, dict(options), [(f"name pattern {number}", *name) for number, name in enumerate(names, 1)], *prefixes), None
        is_named, ignores_case = OTHERS[word]
        name, _, pattern = rest.partition(b" ") if is_named else (None, None, rest)
        return search_of(pattern, {b"-i": None} if ignores_case else {}, [("name pattern", name, True)] if is_named else []), None
    except Refused as refused:
        return None, str(refused)


def search_of(pattern, options, names, under=(), not_under=()):
    """The search of a pattern with these options, and with patterns of names: what each is called, the pattern, and whether names must
    have a match of it. They are looked at first. The last two are prefixes of names."""
    tests = []
    for called, name, wanted in names:
        try:
            tests.append((test_of(name, b"-I" in options), wanted))
        except Refused as refused:
            raise Refused(f"{called}: {refused}") from None
    edge = b"-x" if b"-x" in options else b"-w" if b"-w" in options else None
    return Search(test_of(pattern, b"-i" in options, b"-F" in options, edge), tests, options, under, not_under)


def is_search(line):
    """Whether a line of a script is a search."""
    word, _, rest = line.partition(b" ")
    return word == b"find" or word in OTHERS and (not OTHERS[word][0] or b" " in rest)
