"""What a pattern asks of the trigrams of a document: the analysis of trigram/specs/Analysis.antt over Python's values, for trees
without alternatives.

A tree is Text, some bytes; Range, one byte of a range; Cat, trees one after the other; or Times, so many copies of a tree.
"""

import collections

Text = collections.namedtuple("Text", "bytes")
Range = collections.namedtuple("Range", "low high")
Cat = collections.namedtuple("Cat", "trees")
Times = collections.namedtuple("Times", "tree count")

# The words of a tree, or their ends and tests that the trigrams of a word pass.
Known = collections.namedtuple("Known", "texts")
Loose = collections.namedtuple("Loose", "nullable prefixes suffixes tests")

MOST_TEXTS, LONGEST = 16, 64


def pattern_of(tree):
    """The tree as a pattern."""
    if isinstance(tree, Text):
        return tree.bytes
    if isinstance(tree, Range):
        return b"[%c-%c]" % (tree.low, tree.high)
    if isinstance(tree, Cat):
        return b"".join(map(pattern_of, tree.trees))
    return b"(%s){%d}" % (pattern_of(tree.tree), tree.count)


def word_of(tree, chance):
    """One of the words of a tree."""
    if isinstance(tree, Text):
        return tree.bytes
    if isinstance(tree, Range):
        return bytes([chance.randint(tree.low, tree.high)])
    if isinstance(tree, Cat):
        return b"".join(word_of(part, chance) for part in tree.trees)
    return b"".join(word_of(tree.tree, chance) for _ in range(tree.count))


def trigrams_of(text):
    return frozenset(text[at : at + 3] for at in range(len(text) - 2))


def has_one(texts):
    """The test that is passed by the sets with all trigrams of one of the texts."""
    needed = {trigrams_of(text) for text in texts}
    return lambda held: any(trigrams <= held for trigrams in needed)


def kept(texts, cut, is_end):
    """The ends of the texts that are kept: of two bytes, of one, or of none, and none with a shorter end among them."""
    ends = next(ends for ends in ({cut(text, count) for text in texts} for count in (2, 1, 0)) if len(ends) <= MOST_TEXTS)
    return {end for end in ends if not any(part != end and is_end(end, part) for part in ends)}


def settled(nullable, prefixes, suffixes, tests):
    first = kept(prefixes, lambda text, count: text[:count], bytes.startswith)
    last = kept(suffixes, lambda text, count: text[max(0, len(text) - count) :], bytes.endswith)
    return Loose(nullable, first, last, [*tests, has_one(prefixes), has_one(suffixes)])


def joins(left, right):
    return {first + second for first in left for second in right}


def both(left, right):
    """Two neighbours."""
    if isinstance(left, Known) and isinstance(right, Known):
        texts = joins(left.texts, right.texts)
        if len(texts) <= MOST_TEXTS and all(len(text) <= LONGEST for text in texts):
            return Known(texts)
        return settled(b"" in texts, texts, texts, [])
    if isinstance(left, Known):
        suffixes = right.suffixes | left.texts if right.nullable else right.suffixes
        return settled(b"" in left.texts and right.nullable, joins(left.texts, right.prefixes), suffixes, right.tests)
    if isinstance(right, Known):
        prefixes = left.prefixes | right.texts if left.nullable else left.prefixes
        return settled(left.nullable and b"" in right.texts, prefixes, joins(left.suffixes, right.texts), left.tests)
    prefixes = left.prefixes | right.prefixes if left.nullable else left.prefixes
    suffixes = right.suffixes | left.suffixes if right.nullable else right.suffixes
    across = has_one(joins(left.suffixes, right.prefixes))
    return settled(left.nullable and right.nullable, prefixes, suffixes, [*left.tests, *right.tests, across])


def analysis_of(tree):
    if isinstance(tree, Text):
        parts = [Known({bytes([byte])}) for byte in tree.bytes]
    elif isinstance(tree, Range):
        texts = {bytes([byte]) for byte in range(tree.low, tree.high + 1)}
        return Known(texts) if len(texts) <= MOST_TEXTS else Loose(False, {b""}, {b""}, [])
    elif isinstance(tree, Cat):
        # A text is as many members as it has bytes.
        members = [[Text(bytes([byte])) for byte in part.bytes] if isinstance(part, Text) else [part] for part in tree.trees]
        parts = [analysis_of(member) for part in members for member in part]
    else:
        parts = [analysis_of(tree.tree)] * tree.count
    whole = parts[0]
    for part in parts[1:]:
        whole = both(whole, part)
    return whole


def is_asked(tree):
    """The test that the trigrams of each document pass that has a word of the tree in a line."""
    analysis = analysis_of(tree)
    if isinstance(analysis, Known):
        return has_one(analysis.texts)
    return lambda held: all(test(held) for test in analysis.tests)
