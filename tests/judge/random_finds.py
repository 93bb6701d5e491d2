"""Random lines of `find`, most of which are searches and some of which are refused."""

FLAGS = [b"-i", b"-F", b"-w", b"-x", b"-v", b"-I", b"-Z"]
MARKS = [b"--column", b"--spans"]
FAULTS = [b"-z", b"-m 0", b"-C 1001", b"-m", b"-n (", b"-N *", b"-l -c", b"--column --spans", b"-i -i", b"-m 1 -m 1", b"", b"-m -- -- a", b"--under  -i", b"--not-under"]
FAULTS += [b"--lane", b"--lane  -i", b"--lane " + b"x" * 65, b"--lane a --lane b", b"-v --spans", b" ".join([b"-n a"] * 17), b" ".join([b"--not-under \xff"] * 4_097)]


def random_find(chance, patterns, names, left_out=(), prefixes=(), lanes=()):
    """A `find` with some options, but none of those that are left out. Its pattern is one of `patterns`, and it looks at names by patterns of
    `names`, if there are any, and by `prefixes`, if there are any. It may be in one of `lanes`."""
    views = [b"", b"", b"-l", b"-c", b"-q", *MARKS, b"-C %d" % chance.choice([0, 0, 1, 1, 2, 3, 1000])]
    view = chance.choice([view for view in views if view not in left_out])
    words = [flag for flag in FLAGS if flag not in left_out and chance.randrange(4) == 0]
    if names:
        words += [b"%s %s" % (chance.choice([b"-n", b"-n", b"-N"]), chance.choice(names)) for _ in range(chance.choice([0, 0, 0, 1, 1, 2]))]
    if prefixes:
        words += [b"--under " + chance.choice(prefixes) for _ in range(chance.choice([0, 0, 1, 2, 3, 30]))]
        words += [b"--not-under " + chance.choice(prefixes) for _ in range(chance.choice([0, 0, 0, 1, 2]))]
    if lanes and chance.randrange(4) == 0:
        words.append(b"--lane " + chance.choice(lanes))
    if chance.randrange(2):
        words.append(b"-m %d" % chance.choice([1, 1, 2, 2, 3, 4, 7, 20, 4_294_967_295]))
    if view in MARKS and chance.randrange(20):
        words = [word for word in words if word != b"-v"]
    words += [view] * bool(view)
    if chance.randrange(12) == 0:
        words.append(chance.choice(FAULTS))
    chance.shuffle(words)
    return b" ".join([b"find", *words, b"--", chance.choice(patterns)])
