"""Patterns as trees, and what trees match. Written by docs/PATTERNS.md, apart from the program.

A text is a body of lines, and a place in it is before one of its bytes or at its end. Sets of places are the bits of a number: bit N
is the place before byte N. A tree leads from a set of places, at which words of the tree may begin, to the places at which these words
end. No set of a tree has a line feed, so no word goes from one line into the next, and all lines of a text are looked at together.
"""

import re
import string

MOST_BYTES, MOST_OPEN, MOST_HEIGHT, MOST_LEAVES, MOST_COUNT = 1_024, 64, 64, 4_096, 255

LETTERS, DIGITS = string.ascii_letters.encode(), string.digits.encode()
PUNCTUATION = string.punctuation.encode()
LINE_BYTES = frozenset(range(1, 256)) - {10}
WORD_BYTES = frozenset(LETTERS + DIGITS + b"_")

# The classes in the POSIX locale.
CLASSES = {
    b"upper": string.ascii_uppercase.encode(),
    b"lower": string.ascii_lowercase.encode(),
    b"alpha": LETTERS,
    b"digit": DIGITS,
    b"alnum": LETTERS + DIGITS,
    b"xdigit": string.hexdigits.encode(),
    b"punct": PUNCTUATION,
    b"graph": LETTERS + DIGITS + PUNCTUATION,
    b"print": LETTERS + DIGITS + PUNCTUATION + b" ",
    b"blank": b" \t",
    b"space": b" \t\n\v\f\r",
    b"cntrl": bytes([*range(1, 32), 127]),
}
# What can follow a backslash.
ESCAPABLE = frozenset(PUNCTUATION) - frozenset(b"<>`'")


class Refused(Exception):
    """Why a pattern cannot be read, as it is written, with the offset."""


def refuse(reason, at):
    raise Refused(f"{reason} at {at}")


class Text:
    """A body as sets of places."""

    def __init__(self, body):
        self.body, self.known = body, {}
        self.every = (1 << len(body) + 1) - 1
        feeds = self.before(frozenset(b"\n"))
        self.starts, self.ends = feeds << 1 | 1, feeds | 1 << len(body)

    def before(self, members):
        """The places before a byte of this set."""
        if members not in self.known:
            bits = self.body[::-1].translate(bytes(b"01"[byte in members] for byte in range(256)))
            self.known[members] = int(bits or b"0", 2)
        return self.known[members]


# A tree has its height, its leaves, and `after(text, places)`: the places at which words end that begin at one of these.


class Leaf:
    """What all leaves share."""

    height = leaves = 1


class Empty(Leaf):
    """The empty text."""

    def after(self, _text, places):
        return places


class Start(Leaf):
    """The empty text at the start of a line."""

    def after(self, text, places):
        return places & text.starts


class End(Leaf):
    """The empty text at the end of a line."""

    def after(self, text, places):
        return places & text.ends


class Set(Leaf):
    """One byte of a set."""

    def __init__(self, members):
        self.members = frozenset(members)

    def after(self, text, places):
        return (places & text.before(self.members)) << 1


class Parts:
    """What trees of several parts share."""

    def __init__(self, *parts):
        self.parts = parts
        self.height = 1 + max(part.height for part in parts)
        self.leaves = sum(part.leaves for part in parts)


class Row(Parts):
    """A word of each part, one after the other."""

    def after(self, text, places):
        for part in self.parts:
            places = part.after(text, places)
        return places


class Either(Parts):
    """A word of one of the parts."""

    def after(self, text, places):
        reached = 0
        for part in self.parts:
            reached |= part.after(text, places)
        return reached


class Times:
    """Words of a tree, one after the other: at least so many, and at most so many, or any number if `most` is None."""

    def __init__(self, tree, least, most):
        self.tree, self.least, self.most = tree, least, most
        self.height = 1 + tree.height
        self.leaves = tree.leaves * max(least if most is None else most, 1)

    def after(self, text, places):
        for _ in range(self.least):
            places = self.tree.after(text, places)
        if self.most is None and isinstance(self.tree, Set):
            return along(text.before(self.tree.members), places)
        reached, new, count = places, places, self.least
        while new and count != self.most:
            new = self.tree.after(text, new) & ~reached
            reached, count = reached | new, count + 1
        return reached


def along(through, places):
    """The places that are reached from these by steps over bytes whose places are `through`. The sum carries a bit over each run of them."""
    return ((places & through) + through ^ through) | places


def row_of(parts):
    """Any number of parts, one after the other."""
    return Row(*parts) if len(parts) > 1 else parts[0] if parts else Empty()


def with_other_case(members):
    """The bytes, and the other case of each letter among them."""
    return {*members, *(byte ^ 32 for byte in members if byte in LETTERS)}


class Reader:
    """A pattern that is read from left to right. The first fault that is met ends it."""

    def __init__(self, pattern, ignores_case):
        self.pattern, self.ignores_case, self.at, self.open = pattern, ignores_case, 0, []

    def ahead(self, count=1):
        """The next bytes, fewer at the end."""
        return self.pattern[self.at : self.at + count]

    def take(self, count=1):
        self.at += count
        return self.pattern[self.at - count : self.at]

    def set_of(self, members):
        """A tree of one of these bytes, with case or without."""
        return Set(with_other_case(members) if self.ignores_case else members)

    def alternatives(self):
        branches = [self.branch()]
        while self.ahead() == b"|":
            self.take()
            branches.append(self.branch())
        return branches[0] if len(branches) == 1 else Either(*branches)

    def branch(self):
        """Pieces up to a bar, a `)` that closes a group, or the end."""
        pieces = []
        while self.ahead() not in (b"", b"|") and not (self.ahead() == b")" and self.open):
            pieces.append(self.piece())
        return row_of(pieces)

    def piece(self):
        """An anchor, or an atom and its duplications."""
        if self.duplication():
            refuse("nothing to repeat", self.at)
        if self.ahead() in (b"^", b"$"):
            anchor = Start() if self.take() == b"^" else End()
            if self.duplication():
                refuse("nothing to repeat", self.at)
            return anchor
        tree = self.atom()
        while duplication := self.duplication():
            length, least, most = duplication
            self.take(length)
            tree = Times(tree, least, most)
        return tree

    def duplication(self):
        """The length and the counts of a duplication that comes next, or None. It is not taken."""
        signs = {b"*": (1, 0, None), b"+": (1, 1, None), b"?": (1, 0, 1)}
        if self.ahead() in signs:
            return signs[self.ahead()]
        if not re.match(rb"\{[0-9]", self.ahead(2)):
            return None
        interval = re.compile(rb"\{([0-9]+)(,([0-9]*))?\}").match(self.pattern, self.at)
        if not interval:
            refuse("bad interval", self.at)
        least = int(interval[1])
        most = least if interval[2] is None else int(interval[3]) if interval[3] else None
        if least > MOST_COUNT or most is not None and not least <= most <= MOST_COUNT:
            refuse("bad interval", self.at)
        return len(interval[0]), least, most

    def atom(self):
        begin, byte = self.at, self.take()
        if byte == b"(":
            return self.group(begin)
        if byte == b"[":
            return self.bracket(begin)
        if byte == b".":
            return Set(LINE_BYTES)
        if byte == b"\\":
            if not self.ahead() or self.ahead()[0] not in ESCAPABLE:
                refuse("bad escape", begin)
            byte = self.take()
        return self.set_of(byte)

    def group(self, begin):
        if len(self.open) == MOST_OPEN:
            refuse("too deep (over 64 levels)", begin)
        self.open.append(begin)
        tree = self.alternatives()
        if not self.take():
            refuse("group not closed", self.open[-1])
        self.open.pop()
        return tree

    def bracket(self, begin):
        """The rest of a bracket expression."""
        leaves_out = self.ahead() == b"^"
        self.take(leaves_out)
        members, is_first = set(), True
        while is_first or self.ahead() != b"]":
            members |= self.item(begin, is_first)
            is_first = False
        self.take()
        tree = self.set_of(members)
        return Set(LINE_BYTES - tree.members) if leaves_out else Set(tree.members & LINE_BYTES)

    def item(self, begin, is_first):
        """The members of a byte, a symbol or a range."""
        if self.ahead() == b"-" and not is_first:
            dash = self.at
            self.take()
            if not self.ahead():
                refuse("bracket not closed", begin)
            if self.ahead() != b"]":
                refuse("bad range", dash)
            return {45}
        members, is_end = self.part(begin)
        if self.ahead() != b"-" or self.ahead(2) in (b"-", b"-]"):
            return members
        dash = self.at
        self.take()
        if not is_end or self.ahead(2) in (b"[:", b"[="):
            refuse("bad range", dash)
        (low,), (high,) = members, self.part(begin)[0]
        if low > high:
            refuse("bad range", dash)
        return set(range(low, high + 1))

    def part(self, begin):
        """The members of a byte or a symbol, and whether it can be an end of a range."""
        if not self.ahead():
            refuse("bracket not closed", begin)
        if self.ahead(2) not in (b"[:", b"[.", b"[="):
            return set(self.take()), True
        opening, kind = self.at, self.take(2)[1:]
        end = self.pattern.find(kind + b"]", self.at)
        if end < 0:
            refuse("bracket not closed", begin)
        name = self.take(end - self.at)
        self.take(2)
        members = CLASSES.get(name, b"") if kind == b":" else name if len(name) == 1 else b""
        if not members:
            refuse("unknown class", opening)
        return set(members), kind == b"."


def check_bytes(pattern):
    """Refuses a pattern or a literal text for its length or a byte."""
    if len(pattern) > MOST_BYTES:
        refuse("pattern too long", MOST_BYTES)
    for at, byte in enumerate(pattern):
        if byte not in LINE_BYTES:
            refuse("bad byte", at)


def within_limits(tree):
    """The tree, unless it is too high or too large."""
    if tree.height > MOST_HEIGHT:
        refuse("too deep (over 64 levels)", 0)
    if tree.leaves > MOST_LEAVES:
        refuse("too large (over 4096 leaves)", 0)
    return tree


def tree_of(pattern, ignores_case=False, is_literal=False):
    """The tree of a pattern, or of a literal text."""
    check_bytes(pattern)
    reader = Reader(pattern, ignores_case)
    if is_literal:
        return row_of([reader.set_of([byte]) for byte in pattern])
    return within_limits(reader.alternatives())


# Nothing of a line, or a byte of it that is in no word.
BESIDE_WORDS = Set(LINE_BYTES - WORD_BYTES)


def as_word(tree):
    """The tree of `-w`, which is within the limits."""
    return within_limits(Row(Either(Start(), BESIDE_WORDS), tree, Either(End(), BESIDE_WORDS)))


def as_line(tree):
    """The tree of `-x`, which is within the limits."""
    return within_limits(Row(Start(), tree, End()))
