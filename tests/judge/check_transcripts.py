#!/usr/bin/env python3
"""Judges texts of the built program by the plain conditions of transcripts.py.

First the judge itself is tested: it must read and match the patterns of tests/patterns.rows and tests/lines.rows, accept the texts of
tests/cases, which are written by hand, and refuse each text of a table, each wrong in one thing. Then every beginning of a script with a
replacement, a pending put and syncs is run with several numbers of readers, and is sent to sessions with as many. Every text must be
legal. As many scripts are tried at once as there are processors. Random scripts are tried by random_use.py.

Usage: tests/judge/check_transcripts.py   The last line counts: N passed, M failed.
"""

import concurrent.futures
import os
import pathlib
import subprocess
import sys

sys.path.insert(0, str(pathlib.Path(__file__).resolve().parent.parent))

import patterns  # noqa: E402
from built import PROGRAM, TOP, need_program, rows_of  # noqa: E402
from counted import Counted  # noqa: E402
from judge import searches, transcripts, trees  # noqa: E402

READERS = [0, 1, 2, 16]
SECONDS = 60

REPLACEMENT = b"put f 3\nold\npublish\nsearch old\nsync\nput f 3\nnew\nsearch old\nsync\npublish\nsearch old\nsearch new\n"
OLD, OLD_AGAIN = b"search 1 version 1 lines 1\nf:1:old\n", b"search 2 version 1 lines 1\nf:1:old\n"
NO_OLD, NEW = b"search 3 version 2 lines 0\n", b"search 4 version 2 lines 1\nf:1:new\n"

# Two publishes and three searches of two readers: the first two searches may be answered at two versions.
BESIDE = b"put a 1\nx\nput b 1\nx\npublish\nsearch x\nsearch x\nsearch x\nput a 1\ny\npublish\n"
BOTH = b"search %d version 2 lines 2\na:1:x\nb:1:x\n"
ONE = b"search %d version 3 lines 1\nb:1:x\n"

# Three publishes after three searches, which find nothing at any of them.
THRICE = b"put a 1\nx\npublish\nsearch q\nsearch q\nsearch q\nput a 1\nx\npublish\nput a 1\nx\npublish\n"
IN_LANES = THRICE.replace(b"search q\nsearch q", b"find --lane a -- q\nfind --lane b -- q")
IN_ONE_LANE = IN_LANES.replace(b"--lane b", b"--lane a")
AT_1, AT_2, AT_3 = [b"search %%d version %d lines 0\n" % version for version in (1, 2, 3)]

REFUSALS = b"put  1\nx\nremove a\nput a 1\nx\nput b 3\nx\0y\nput b 1\ny\nremove b\nload c p\nwhat\nsearch \0\npublish\nsearch (x|y)$\nput a 3\nx\n"
REFUSED = [
    b"line 1 refused: name empty\n",
    b"line 3 refused: no such file\n",
    b"line 6 refused: byte 0 in body\n",
    b"line 8 refused: full\n",
    b"line 10 refused: no such file\n",
    b"line 11 refused: cannot load\n",
    b"line 12 refused: bad line\n",
    b"search 1 refused: bad byte at 0\n",
    b"search 2 version 1 lines 1\na:1:x\n",
    b"line 16 refused: truncated\n",
]

# Searches that ignore case, in the pattern alone and not in names.
CASES = b"put a 2\nXy\nput A 1\nx\npublish\nisearch xY\nisearch ^[^x]\nisearchin a X\nsearchin A X\n"
CASES_ANSWERED = [
    b"search 1 version 2 lines 1\na:1:Xy\n",
    b"search 2 version 2 lines 0\n",
    b"search 3 version 2 lines 1\na:1:Xy\n",
    b"search 4 version 2 lines 0\n",
]

# Cancels: of a search that may be open, of one behind a sync, of one that is asked later, and of one that is never asked.
CANCELS = b"put a 1\nx\npublish\nsearch x\ncancel 1\nsearch x\ncancel 3\ncancel 0\nsync\ncancel 2\nsearch x\n"
AT_X, CANCELLED, TOO_SLOW = b"search %d version 1 lines 1\na:1:x\n", b"search %d refused: cancelled\n", b"search %d refused: too slow\n"
NO_SUCH_SEARCH = b"line %d refused: no such search\n"
NOT_ASKED = NO_SUCH_SEARCH % 7 + NO_SUCH_SEARCH % 8

# A cancel before a publish: a search that is answered at the later version would have been open at the cancel.
CANCEL_FIRST = b"search x\ncancel 1\nput a 1\nx\npublish\n"

# Statuses before and after each change, with a body of 3 bytes in 2 characters, one with a line feed at its end, and an empty one.
STATUSES = b"status\nput a 3\na\xc3\xa4\nput b 2\nx\n\nput ( 1\n\0\nstatus\npublish\nstatus\nput a 0\n\nremove b\nstatus\npublish\nstatus\n"
STATUS = b"line %d status version %d documents %d bytes %d accepted %d of 5 open %d\n"
SHOWN = [(1, 0, 0, 0, 0, 0), (9, 0, 0, 0, 2, 0), (11, 2, 2, 5, 2, 0), (15, 2, 2, 5, 4, 0), (17, 4, 1, 0, 4, 0)]
BYTE_0 = b"line 7 refused: byte 0 in body\n"


def status_text(shown):
    """The text of a run or a session of STATUSES whose statuses show these numbers."""
    first, *others = [STATUS % numbers for numbers in shown]
    return first + BYTE_0 + b"".join(others)


def off_by_one():
    """The numbers of STATUSES, with one of one status, other than its line, one too great or one too small."""
    for at, numbers in enumerate(SHOWN):
        for place in range(1, len(numbers)):
            for more in (1, -1) if numbers[place] else (1,):
                changed = numbers[:place] + (numbers[place] + more,) + numbers[place + 1 :]
                yield SHOWN[:at] + [changed] + SHOWN[at + 1 :]


# Statuses beside searches that may be open: two, none behind a sync, none behind a cancel, and none that a fault refuses.
OPENS = b"search x\nsearch x\nstatus\nsync\nstatus\nsearch x\ncancel 3\nstatus\nsearch \0\nstatus\n"
AT_0, BAD_BYTE = b"search %d version 0 lines 0\n", b"search 4 refused: bad byte at 0\n"
OPEN = b"line %d status version 0 documents 0 bytes 0 accepted 0 of 1000000 open %d\n"
TWICE = b"search x\nsearch x\nstatus\nstatus\nput a 1\nx\npublish\ncancel 1\n"


def opens(*shown):
    """The text of a run of OPENS whose statuses show so many open searches."""
    first, second, third, fourth = [OPEN % pair for pair in zip((3, 5, 8, 10), shown)]
    return AT_0 % 1 + AT_0 % 2 + first + second + AT_0 % 3 + third + BAD_BYTE + fourth


# More searches than can be open, and then a status.
CROWD = b"search x\n" * 1_100 + b"status\n"


def crowd(count, shown):
    """A text of CROWD in which the status comes after so many answers, and shows so many open searches."""
    answers = [AT_0 % number for number in range(1, 1_101)]
    return b"".join(answers[:count]) + OPEN % (1_101, shown) + b"".join(answers[count:])


# Two documents, and searches of them by `find`: the line, the text that may be written for it, and texts that may not.
FIND_BODIES = b"put a 31\none\ntwo\none one\n\nfive\nsix\nstone\nput b 8\nONE\none_\npublish\n"
A1, A3, A7, B2 = b"a:1:one", b"a:3:one one", b"a:7:stone", b"b:2:one_"
A2, A4, A6, B1 = b"a-2-two", b"a-4-", b"a-6-six", b"b-1-ONE"


def found(head, *rows):
    return b"search 1 version 2 %s\n%s" % (head, b"".join(row + b"\n" for row in rows))


ALL = found(b"lines 4", A1, A3, A7, B2)
AROUND = [A1, A2, A3, A4, b"--", A6, A7, b"--", B1, B2]
FINDS = [
    (b"find -- one", ALL, found(b"lines 4 rows 4", A1, A3, A7, B2), found(b"names 4", A1, A3, A7, B2), found(b"lines 3", A1, A3, A7)),
    # one too few at the limit, one too many, another line, more where nothing is left, nothing more where something is
    (
        b"find -m 2 -- one",
        found(b"lines 2 and more", A1, A3),
        found(b"lines 1 and more", A1),
        found(b"lines 3 and more", A1, A3, A7),
        found(b"lines 2 and more", A1, A7),
        found(b"lines 2", A1, A3),
        found(b"lines 4 and more", A1, A3),
        ALL,
    ),
    (b"find -m 4 -- one", ALL, found(b"lines 4 and more", A1, A3, A7, B2), found(b"lines 3 and more", A1, A3, A7)),
    (b"find -m 5 -- one", ALL, found(b"lines 4 and more", A1, A3, A7, B2)),
    (b"find -m 1 -- three", found(b"lines 0"), found(b"lines 0 and more")),
    # a name twice, once for each line, or without a line; the counts of what is shown or of all lines
    (b"find -l -- one", found(b"names 2", b"a", b"b"), found(b"names 4", b"a", b"a", b"a", b"b"), found(b"lines 2", b"a", b"b"), found(b"names 1", b"a")),
    (b"find -l -- two", found(b"names 1", b"a"), found(b"names 2", b"a", b"b")),
    (b"find -l -m 1 -- one", found(b"names 1 and more", b"a"), found(b"names 1", b"a"), found(b"names 2", b"a", b"b")),
    (b"find -l -m 2 -- one", found(b"names 2", b"a", b"b"), found(b"names 2 and more", b"a", b"b")),
    (b"find -c -- one", found(b"names 2", b"a:3", b"b:1"), found(b"names 2", b"a:4", b"b:1"), found(b"names 2", b"a", b"b"), found(b"lines 4", b"a:3", b"b:1")),
    (b"find -c -- two", found(b"names 1", b"a:1"), found(b"names 2", b"a:1", b"b:0")),
    (b"find -c -m 1 -- one", found(b"names 1 and more", b"a:3"), found(b"names 1 and more", b"a:1")),
    (b"find -q -- one", found(b"lines 4"), ALL, found(b"lines 0"), found(b"names 2")),
    (b"find -q -m 1 -- one", found(b"lines 1 and more"), found(b"lines 1"), found(b"lines 4"), found(b"lines 1 and more", A1)),
    (b"find -q -m 4 -- one", found(b"lines 4"), found(b"lines 4 and more")),
    # a hit that is a context line, or is there twice; stretches that touch or do not, in one document or two; lines that are not counted
    (
        b"find -C 1 -- one",
        found(b"lines 4 rows 10", *AROUND),
        found(b"lines 4", *AROUND),
        found(b"lines 10 rows 10", *AROUND),
        found(b"lines 4 rows 8", A1, A2, A3, A4, A6, A7, B1, B2),
        found(b"lines 4 rows 9", *AROUND[:7], *AROUND[8:]),
        found(b"lines 4 rows 11", *AROUND, b"--"),
        found(b"lines 4 rows 11", b"--", *AROUND),
        found(b"lines 4 rows 12", A1, A2, b"--", A2, *AROUND[2:]),
        found(b"lines 4 rows 11", A1, A2, A2, *AROUND[2:]),
        found(b"lines 4 rows 11", A1, A2, b"a-3-one one", A3, *AROUND[3:]),
        found(b"lines 4 rows 10", A1, A2, b"a-3-one one", *AROUND[3:]),
        found(b"lines 4 rows 10", A1, b"a:2:two", *AROUND[2:]),
        found(b"lines 4 rows 8", *AROUND[:8]),
        found(b"lines 4 rows 10", *AROUND[:9], b"b-2-one_"),
    ),
    (b"find -C 0 -- one", found(b"lines 4 rows 7", A1, b"--", A3, b"--", A7, b"--", B2), found(b"lines 4 rows 4", A1, A3, A7, B2), ALL),
    (b"find -C 0 -- [wx]", found(b"lines 2 rows 3", b"a:2:two", b"--", b"a:6:six"), found(b"lines 2 rows 2", b"a:2:two", b"a:6:six")),
    (b"find -C 0 -- t", found(b"lines 2 rows 3", b"a:2:two", b"--", A7)),
    (b"find -C 0 -n a -- ^(one|two)$", found(b"lines 2 rows 2", A1, b"a:2:two"), found(b"lines 2 rows 3", A1, b"--", b"a:2:two")),
    (b"find -C 0 -m 1 -- one", found(b"lines 1 and more rows 1", A1), found(b"lines 1 rows 1 and more", A1)),
    (
        b"find -C 2 -m 1 -- one",
        found(b"lines 1 and more rows 3", A1, A2, b"a-3-one one"),
        found(b"lines 1 and more rows 3", A1, A2, A3),
        found(b"lines 2 and more rows 3", A1, A2, A3),
        found(b"lines 1 and more rows 2", A1, A2),
    ),
    (b"find -C 9 -- three", found(b"lines 0 rows 0"), found(b"lines 0"), found(b"lines 0 rows 1", b"--")),
    # a column from 0, of a later match, or of the byte before it
    (
        b"find --column -m 3 -- one",
        found(b"lines 3 and more", b"a:1:1:one", b"a:3:1:one one", b"a:7:3:stone"),
        found(b"lines 3 and more", b"a:1:0:one", b"a:3:0:one one", b"a:7:2:stone"),
        found(b"lines 3 and more", b"a:1:1:one", b"a:3:5:one one", b"a:7:3:stone"),
        found(b"lines 3 and more", b"a:1:1:one", b"a:3:1:one one", b"a:7:4:stone"),
        found(b"lines 3 and more", A1, A3, A7),
    ),
    (b"find --column -w -- (x|e)one|one$", found(b"lines 2", b"a:1:1:one", b"a:3:5:one one"), found(b"lines 2", b"a:1:1:one", b"a:3:4:one one")),
    (b"find --column -- $", found(b"lines 9", *[b"a:1:4:one", b"a:2:4:two", b"a:3:8:one one", b"a:4:1:", b"a:5:5:five", b"a:6:4:six", b"a:7:6:stone"], b"b:1:4:ONE", b"b:2:5:one_")),
    # a span that is not the longest, from 0, behind its last byte, with others left out, without one, or with an empty one
    (
        b"find --spans -m 2 -- o|on|one|ne",
        found(b"lines 2 and more", b"a:1:1-3:one", b"a:2:3-3:two"),
        found(b"lines 2 and more", b"a:1:1-1:one", b"a:2:3-3:two"),
        found(b"lines 2 and more", b"a:1:1-2:one", b"a:2:3-3:two"),
        found(b"lines 2 and more", b"a:1:1-1,2-3:one", b"a:2:3-3:two"),
        found(b"lines 2 and more", b"a:1:0-2:one", b"a:2:2-2:two"),
        found(b"lines 2 and more", b"a:1:1-4:one", b"a:2:3-4:two"),
        found(b"lines 2 and more", b"a:1:1:one", b"a:2:3:two"),
    ),
    (b"find --spans -- one one|ne|o", found(b"lines 5", b"a:1:1-1,2-3:one", b"a:2:3-3:two", b"a:3:1-7:one one", b"a:7:3-3,4-5:stone", b"b:2:1-1,2-3:one_")),
    (b"find --spans -n ^b -- E*", found(b"lines 2", b"b:1:3-3:ONE", b"b:2::one_"), found(b"lines 2", b"b:1:3-3:ONE", B2), found(b"lines 2", b"b:1:1-0,3-3:ONE", b"b:2:1-0:one_")),
    (b"find --spans -w -- [a-z ]+|one", found(b"lines 6", b"a:1:1-3:one", b"a:2:1-3:two", b"a:3:1-7:one one", b"a:5:1-4:five", b"a:6:1-3:six", b"a:7:1-5:stone")),
    (b"find --spans -w -- on|one|e o", found(b"lines 2", b"a:1:1-3:one", b"a:3:1-3,5-7:one one"), found(b"lines 2", b"a:1:1-3:one", b"a:3:1-3:one one")),
    (b"find -x --spans -- o.*|one", found(b"lines 3", b"a:1:1-3:one", b"a:3:1-7:one one", b"b:2:1-4:one_"), found(b"lines 3", b"a:1:1-3:one", b"a:3:1-3:one one", b"b:2:1-3:one_")),
    # words, whole lines, lines without a match, literal texts and case
    (b"find -w -- one", found(b"lines 2", A1, A3), ALL),
    (b"find -w -v -- one|.*e_?|[^o]*", found(b"lines 1", b"a:2:two"), found(b"lines 0")),
    (b"find -x -- one", found(b"lines 1", A1), ALL),
    (b"find -x -w -- s.*e|one.", found(b"lines 2", A7, B2), found(b"lines 1", A7)),
    (b"find -v -- e|o", found(b"lines 3", b"a:4:", b"a:6:six", b"b:1:ONE"), found(b"lines 6", A1, b"a:2:two", A3, b"a:5:five", A7, B2)),
    (b"find -v -- ", found(b"lines 0"), found(b"lines 1", b"a:4:")),
    (b"find -F -- o.e", found(b"lines 0"), ALL),
    (b"find -F -- ne o", found(b"lines 1", A3)),
    (b"find -i -- ON|w", found(b"lines 6", A1, b"a:2:two", A3, A7, b"b:1:ONE", B2), ALL),
    (b"find -i -F -x -- oNe", found(b"lines 2", A1, b"b:1:ONE"), found(b"lines 1", A1)),
    # names that must and must not match, with case and without it
    (b"find -N b -- one", found(b"lines 3", A1, A3, A7), found(b"lines 1", B2), ALL),
    (b"find -n a -n b -- one", found(b"lines 0"), ALL),
    (b"find -n a|b -N A -- one", ALL, found(b"lines 1", B2)),
    (b"find -I -n B -N A -- ONE", found(b"lines 1", b"b:1:ONE"), found(b"lines 0"), found(b"lines 2", b"b:1:ONE", B2)),
    (b"find -n -- -- one", found(b"lines 0")),
    (b"find -n  -i -- one_", found(b"lines 1", B2)),
    # what names begin with
    (b"find --under b -- one", found(b"lines 1", B2), ALL),
    (b"find --not-under b -- one", found(b"lines 3", A1, A3, A7), found(b"lines 1", B2), ALL),
    (b"find --under c --under b --under a -- one", ALL, found(b"lines 0"), found(b"lines 1", B2)),
    (b"find --under a --under b --not-under c --not-under a -- one", found(b"lines 1", B2), ALL),
    (b"find --under A -I -- one", found(b"lines 0"), found(b"lines 3", A1, A3, A7)),
    (b"find --under ^b -- one", found(b"lines 0"), found(b"lines 1", B2)),
    (b"find --under bb -- one", found(b"lines 0"), found(b"lines 1", B2)),
    (b"find --under b -n ^a -- one", found(b"lines 0"), found(b"lines 1", B2), found(b"lines 3", A1, A3, A7)),
    (b"find --under -- -- one", found(b"lines 0")),
    # a zero byte after a name
    (b"find -Z -n b -- E", found(b"lines 1", b"b\x001:ONE"), found(b"lines 1", b"b:1:ONE"), found(b"lines 1", b"b\x001\0ONE")),
    (b"find -l -Z -- one_", found(b"names 1", b"b\0"), found(b"names 1", b"b")),
    (b"find -c -Z -- one_", found(b"names 1", b"b\x001"), found(b"names 1", b"b\0:1"), found(b"names 1", b"b:1")),
    (b"find -C 1 -Z -- one_", found(b"lines 1 rows 2", b"b\x001-ONE", b"b\x002:one_"), found(b"lines 1 rows 2", B1, b"b\x002:one_")),
    (b"find -Z --column -- _", found(b"lines 1", b"b\x002:4:one_"), found(b"lines 1", b"b\x002\x004:one_")),
    (b"find -Z --spans -- _", found(b"lines 1", b"b\x002:4-4:one_")),
    # a lane, which changes no answer and is taken as it is
    (b"find --lane a -- one", ALL, found(b"lines 3", A1, A3, A7), found(b"lines 0")),
    (b"find --lane -- -l -- one_", found(b"names 1", b"b"), found(b"lines 1", B2)),
    (b"find -n b --lane -n -- one", found(b"lines 1", B2), ALL),
    (b"find --lane " + b"x" * 64 + b" -i -- ONE_", found(b"lines 1", B2), found(b"lines 0")),
]

# Lines of `find` that are refused, each with its reason: the first fault from the left, and then the patterns.
FIND_FAULTS = [
    (b"find", b"no -- before the pattern"),
    (b"find ", b"no -- before the pattern"),
    (b"find -i", b"no -- before the pattern"),
    (b"find -i ", b"no -- before the pattern"),
    (b"find -n", b"no -- before the pattern"),
    (b"find -N ", b"no -- before the pattern"),
    (b"find -n --", b"no -- before the pattern"),
    (b"find one", b"bad option one"),
    (b"find  -- one", b"bad option "),
    (b"find -i  -- one", b"bad option "),
    (b"find -z -l -c", b"bad option -z"),
    (b"find -il -- one", b"bad option -il"),
    (b"find ---- one", b"bad option ----"),
    (b"find -m 2 -m 0", b"option -m twice"),
    (b"find -l -l -- (", b"option -l twice"),
    (b"find -Z -i -Z", b"option -Z twice"),
    (b"find -m 0 -m 0 -- one", b"option -m needs a number from 1 to 4294967295"),
    (b"find -m", b"option -m needs a number from 1 to 4294967295"),
    (b"find -m -- one", b"option -m needs a number from 1 to 4294967295"),
    (b"find -m  1 -- one", b"option -m needs a number from 1 to 4294967295"),
    (b"find -m 4294967296 -- one", b"option -m needs a number from 1 to 4294967295"),
    (b"find -m 4294967296000000000000000001 -- one", b"option -m needs a number from 1 to 4294967295"),
    (b"find -m +1 -- one", b"option -m needs a number from 1 to 4294967295"),
    (b"find -m 1x -- one", b"option -m needs a number from 1 to 4294967295"),
    (b"find -C 1001 -- one", b"option -C needs a number from 0 to 1000"),
    (b"find -C -1 -- one", b"option -C needs a number from 0 to 1000"),
    (b"find -l -c -- one", b"-l and -c exclude each other"),
    (b"find -c -l -z", b"-c and -l exclude each other"),
    (b"find -q -C -- one", b"-q and -C exclude each other"),
    (b"find --spans -m 1 -l -- one", b"--spans and -l exclude each other"),
    (b"find --column --spans -- one", b"--column and --spans exclude each other"),
    (b"find -v --column -- one", b"-v and --column exclude each other"),
    (b"find --spans -v -- one", b"--spans and -v exclude each other"),
    (b"find -C 3 -v --spans -- one", b"-C and --spans exclude each other"),
    (b"find -v -C 3 --spans -- one", b"-v and --spans exclude each other"),
    (b"find " + b"-n a " * 17 + b"-- one", b"option -n over 16 times"),
    (b"find " + b"-N a " * 17 + b"-z", b"option -N over 16 times"),
    (b"find --under", b"option --under needs a word of 1 byte or more"),
    (b"find -i --not-under  -- one", b"option --not-under needs a word of 1 byte or more"),
    (b"find --under --", b"no -- before the pattern"),
    (b"find --under a", b"no -- before the pattern"),
    (b"find --underneath a -- one", b"bad option --underneath"),
    (b"find --lane", b"option --lane needs a word of 1 to 64 bytes"),
    (b"find --lane  -- one", b"option --lane needs a word of 1 to 64 bytes"),
    (b"find --lane " + b"x" * 65 + b" -z", b"option --lane needs a word of 1 to 64 bytes"),
    (b"find --lane a --lane", b"option --lane twice"),
    (b"find --lane a --lane  -- one", b"option --lane twice"),
    (b"find --lane --", b"no -- before the pattern"),
    (b"find --lane=a -- one", b"bad option --lane=a"),
    (b"find " + b"--under a " * 4097 + b"-- one", b"option --under over 4096 times"),
    (b"find " + b"--not-under a --under b " * 4096 + b"--not-under -z", b"option --not-under over 4096 times"),
    (b"find -n ( -- (", b"name pattern 1: group not closed at 0"),
    (b"find -N a -n a( -- (", b"name pattern 2: group not closed at 1"),
    (b"find " + b"-n a " * 16 + b"-N [ -- (", b"name pattern 17: bracket not closed at 0"),
    (b"find -n a -- ab(", b"group not closed at 2"),
    (b"find -F -n * -- *", b"name pattern 1: nothing to repeat at 0"),
    (b"find -F -- a\0", b"bad byte at 1"),
    (b"find -F -- " + b"(" * 1025, b"pattern too long at 1024"),
    (b"find -x -- (a{64}){64}", b"too large (over 4096 leaves) at 0"),
    (b"find -w -- a{255}{16}abcdefghijklm", b"too large (over 4096 leaves) at 0"),
    (b"find -x -- a" + b"*" * 63, b"too deep (over 64 levels) at 0"),
    (b"find -w -- a" + b"*" * 63, b"too deep (over 64 levels) at 0"),
]
# Lines of `find` that come near to a fault, and find nothing.
FIND_NO_FAULTS = [
    b"find --",
    b"find -- ",
    b"find " + b"-n a " * 16 + b"-N b " * 16 + b"-- q",
    b"find " + b"--not-under a --under b " * 4096 + b"-- q",
    b"find -m 0000000000000000000000000000000000000000000000000000004294967295 -- q",
    b"find -q -m 1 -- q",
    b"find -F -- ((((",
    b"find -F -- " + b"(" * 1024,
    b"find -x -- a{255}{16}abcdefghijklmn",
    b"find -w -- a{255}{16}abcdefghijkl",
    b"find -x -- a" + b"*" * 61,
]


def texts_of_finds():
    """The scripts of these tables, each with a text and its status, that may be written and that may not."""
    right, wrong = [], []
    for line, text, *others in FINDS:
        script, status = FIND_BODIES + line + b"\n", 1 if text.startswith(b"search 1 version 2 lines 0") else 0
        right.append((script, {}, text, status))
        wrong += [(script, {}, other, status) for other in others]
        wrong.append((script, {}, text, 1 - status))
        wrong.append((script, {}, b"search 1 refused: bad option \n", 2))
    for line, reason in FIND_FAULTS:
        text = b"search 1 refused: %s\n"
        right.append((line + b"\n", {}, text % reason, 2))
        wrong += [(line + b"\n", {}, text % other, 2) for other in (reason + b" ", reason[1:], b"out of memory")]
        wrong += [(line + b"\n", {}, other, 2) for other in (AT_0 % 1, b"line 1 refused: bad line\n", b"")]
    for line in FIND_NO_FAULTS:
        right.append((line + b"\n", {}, AT_0 % 1, 1))
    for line in b"findx", b"Find -- x", b"find\t-- x", b" find -- x":
        right.append((line + b"\n", {}, b"line 1 refused: bad line\n", 2))
        wrong.append((line + b"\n", {}, AT_0 % 1, 1))
    return right, wrong


# Names, bodies and lines at a limit and one byte over it.
LONG = b"put abc 9\n1234\n5678\nput abcd 1\nx\nput d 10\n12\n45\n78\n9\nput e 5\n12345\nremove abcd\npublish\nsearch .\n"
LENGTHS = transcripts.Lengths(3, 9, 4)
LONG_REFUSED = [b"line 4 refused: name too long\n", b"line 6 refused: body too long\n", b"line 11 refused: line too long\n", b"line 13 refused: name too long\n"]
LONG_FOUND = b"search 1 version 1 lines 2\nabc:1:1234\nabc:2:5678\n"

# Copies under two names, one of which is removed later; a copy takes the place of a document, and none is copied again.
COPIES = b"put a/x 1\nx\nput b/x 1\ny\nput b/z 1\nx\ncopyunder a/ b/\npublish\nsearch x\nsync\ncopyunder b/ b/b/\nremoveunder b/x\nremoveunder c\npublish\nsearch x\n"
COPIED, NOT_UNDER = b"search 1 version 4 lines 3\na/x:1:x\nb/x:1:x\nb/z:1:x\n", b"line 13 refused: no such file\n"
COPIED_LATER = b"search 2 version 6 lines 4\na/x:1:x\nb/b/x:1:x\nb/b/z:1:x\nb/z:1:x\n"
NOT_COPIES = [
    # a document under one of its two names, or as it was before the copy; a copy that is copied again, or is not there
    b"search 1 version 4 lines 2\na/x:1:x\nb/z:1:x\n" + NOT_UNDER + COPIED_LATER,
    b"search 1 version 4 lines 2\nb/x:1:x\nb/z:1:x\n" + NOT_UNDER + COPIED_LATER,
    b"search 1 version 3 lines 2\na/x:1:x\nb/z:1:x\n" + NOT_UNDER + COPIED_LATER,
    COPIED + NOT_UNDER + b"search 2 version 6 lines 5\na/x:1:x\nb/b/b/z:1:x\nb/b/x:1:x\nb/b/z:1:x\nb/z:1:x\n",
    COPIED + NOT_UNDER + b"search 2 version 6 lines 3\na/x:1:x\nb/b/z:1:x\nb/z:1:x\n",
    # a removed document, a removal of none, or more versions than commands
    COPIED + NOT_UNDER + b"search 2 version 6 lines 5\na/x:1:x\nb/b/x:1:x\nb/b/z:1:x\nb/x:1:x\nb/z:1:x\n",
    COPIED + COPIED_LATER,
    COPIED + NOT_UNDER + COPIED_LATER.replace(b"version 6", b"version 7"),
]

# A search that shows its candidates and its times, in any number of microseconds; and what may not be in the place of these words.
TIMED_TEXT = b"search 1 version 1 lines 1 candidates 1 of 1%s\na:1:one\n"
SHOWN_TIMES = [b" waited 0 worked 12 by engine", b" waited 4294967296 worked 0 by simulation", b" waited 7 worked 7 by matcher"]
NOT_TIMES = [b"", b" waited 0 worked 12", b" waited 0 worked 12 by hand", b" waited 00 worked 12 by engine", b" waited 0 worked  by engine", b" worked 12 waited 0 by engine"]
TIMED = b"put a 3\none\npublish\nsearch one\n"

# Scripts with their options, a text, and its status.
LEGAL = [
    (LONG, {"lengths": LENGTHS}, b"".join(LONG_REFUSED) + LONG_FOUND, 2),
    (REPLACEMENT, {}, OLD + OLD_AGAIN + NO_OLD + NEW, 0),
    (REPLACEMENT, {"readers": 0}, OLD + OLD_AGAIN + NO_OLD + NEW, 0),
    (REPLACEMENT, {"scarce": True}, OLD + b"search 2 refused: out of memory\n" + NO_OLD + NEW, 2),
    (REPLACEMENT, {"scarce": True}, OLD + b"line 6 refused: out of memory\n" + OLD_AGAIN + b"search 3 version 1 lines 1\nf:1:old\nsearch 4 version 1 lines 0\n", 2),
    (REPLACEMENT, {"scarce": True}, OLD + OLD_AGAIN + b"line 10 refused: out of memory\nsearch 3 version 1 lines 1\nf:1:old\nsearch 4 version 1 lines 0\n", 2),
    (BESIDE, {}, BOTH % 1 + BOTH % 2 + BOTH % 3, 0),
    (BESIDE, {}, BOTH % 1 + ONE % 2 + ONE % 3, 0),
    (BESIDE, {}, BOTH % 1 + ONE % 2 + BOTH % 3, 0),
    (BESIDE, {}, ONE % 1 + BOTH % 2 + BOTH % 3, 0),
    (BESIDE, {"readers": 1}, BOTH % 1 + BOTH % 2 + ONE % 3, 0),
    (THRICE, {}, AT_3 % 1 + AT_1 % 2 + AT_2 % 3, 1),
    (THRICE, {"readers": 3}, AT_3 % 1 + AT_2 % 2 + AT_1 % 3, 1),
    (IN_LANES, {"readers": 1}, AT_3 % 1 + AT_2 % 2 + AT_1 % 3, 1),
    (IN_ONE_LANE, {"readers": 1}, AT_2 % 1 + AT_3 % 2 + AT_1 % 3, 1),
    (BESIDE, {"readers": 1, "scarce": True}, ONE % 1 + BOTH % 2 + BOTH % 3, 0),
    (REFUSALS, {"max_commands": 1}, b"".join(REFUSED), 2),
    (CASES, {}, b"".join(CASES_ANSWERED), 0),
    (CANCELS, {}, AT_X % 1 + AT_X % 2 + NOT_ASKED + AT_X % 3, 2),
    (CANCELS, {}, CANCELLED % 1 + AT_X % 2 + NOT_ASKED + AT_X % 3, 2),
    (CANCELS, {"readers": 0}, AT_X % 1 + AT_X % 2 + NOT_ASKED + AT_X % 3, 2),
    (CANCELS, {"timed": True}, CANCELLED % 1 + TOO_SLOW % 2 + NOT_ASKED + TOO_SLOW % 3, 2),
    (CANCELS, {"readers": 0, "timed": True}, TOO_SLOW % 1 + AT_X % 2 + NOT_ASKED + AT_X % 3, 2),
    (CANCELS, {"scarce": True}, CANCELLED % 1 + b"search 2 refused: out of memory\n" + NOT_ASKED + AT_X % 3, 2),
    (b"search x\ncancel 0001\n", {}, CANCELLED % 1, 2),
    (b"search x\nsync\ncancel 1\ncancel 1\n", {}, AT_0 % 1, 1),
    (b"search x\ncancel 4294967297\n", {}, AT_0 % 1 + NO_SUCH_SEARCH % 2, 2),
    (CANCEL_FIRST, {}, AT_0 % 1, 1),
    (CANCEL_FIRST, {}, CANCELLED % 1, 2),
    (STATUSES, {"max_commands": 5}, status_text(SHOWN), 2),
    (STATUSES, {"max_commands": 5, "readers": 0}, status_text(SHOWN), 2),
    (OPENS, {}, opens(2, 0, 0, 0), 2),
    (OPENS, {}, opens(0, 0, 0, 0), 2),
    (OPENS, {"readers": 0}, opens(0, 0, 0, 0), 2),
    (TWICE, {}, AT_0 % 1 + AT_0 % 2 + OPEN % (3, 2) + OPEN % (4, 0), 1),
    (TWICE, {}, AT_0 % 1 + AT_X % 2 + OPEN % (3, 1) + OPEN % (4, 1), 0),
    (TWICE, {}, CANCELLED % 1 + AT_0 % 2 + OPEN % (3, 2) + OPEN % (4, 1), 2),
    (TWICE, {"timed": True}, TOO_SLOW % 1 + AT_X % 2 + OPEN % (3, 2) + OPEN % (4, 1), 2),
    (CROWD, {}, crowd(1_100, 1_023), 1),
    # the first search has its entry before its cancel, and the second not before the second status
    (b"search x\nsearch x\nstatus\ncancel 1\nstatus\n", {}, AT_0 % 1 + AT_0 % 2 + OPEN % (3, 1) + OPEN % (5, 1), 1),
    # version 0 is there before it is published
    (b"search x\nstatus\npublish\n", {}, AT_0 % 1 + OPEN % (2, 0), 1),
]

WRONG = [
    # an answer is left out, given twice, in another's place, or of no search
    (REPLACEMENT, {}, OLD + NO_OLD + NEW, 0),
    (REPLACEMENT, {}, OLD + OLD_AGAIN + NO_OLD, 0),
    (REPLACEMENT, {}, OLD + OLD + OLD_AGAIN + NO_OLD + NEW, 0),
    (REPLACEMENT, {}, OLD_AGAIN + OLD + NO_OLD + NEW, 0),
    (REPLACEMENT, {}, OLD + OLD_AGAIN + NO_OLD + NEW + b"search 5 version 2 lines 0\n", 0),
    # a text that ends too soon, or goes on
    (REPLACEMENT, {}, (OLD + OLD_AGAIN + NO_OLD + NEW)[:-1], 0),
    (REPLACEMENT, {}, (OLD + OLD_AGAIN + NO_OLD + NEW)[:-8], 0),
    (REPLACEMENT, {}, OLD + OLD_AGAIN + NO_OLD + NEW + b"\n", 0),
    # a version that is not published, is older than what was published before, or is from after a sync
    (REPLACEMENT, {}, OLD + b"search 2 version 2 lines 0\n" + NO_OLD + NEW, 0),
    (REPLACEMENT, {}, b"search 1 version 2 lines 0\n" + OLD_AGAIN + NO_OLD + NEW, 0),
    (REPLACEMENT, {}, b"search 1 version 0 lines 0\n" + OLD_AGAIN + NO_OLD + NEW, 0),
    (REPLACEMENT, {}, OLD + OLD_AGAIN + b"search 3 version 1 lines 1\nf:1:old\n" + NEW, 0),
    (REPLACEMENT, {}, OLD + OLD_AGAIN + NO_OLD + b"search 4 version 3 lines 1\nf:1:new\n", 0),
    (BESIDE, {}, b"search 1 version 1 lines 1\na:1:x\n" + BOTH % 2 + BOTH % 3, 0),
    # a publish from after the search, with no readers
    (BESIDE, {"readers": 0}, BOTH % 1 + BOTH % 2 + ONE % 3, 0),
    # older than what the one reader, or each of two, was answered at
    (BESIDE, {"readers": 1}, ONE % 1 + BOTH % 2 + BOTH % 3, 0),
    (THRICE, {}, AT_3 % 1 + AT_2 % 2 + AT_1 % 3, 1),
    (IN_ONE_LANE, {"readers": 1}, AT_3 % 1 + AT_2 % 2 + AT_1 % 3, 1),
    # the lines of another version, too few, too many, in another order, under another name or number, or of another text
    (REPLACEMENT, {}, OLD + OLD_AGAIN + NO_OLD + b"search 4 version 2 lines 0\n", 0),
    (REPLACEMENT, {}, OLD + OLD_AGAIN + b"search 3 version 2 lines 1\nf:1:old\n" + NEW, 0),
    (BESIDE, {}, b"search 1 version 2 lines 2\nb:1:x\na:1:x\n" + BOTH % 2 + BOTH % 3, 0),
    (BESIDE, {}, b"search 1 version 2 lines 1\na:1:x\n" + BOTH % 2 + BOTH % 3, 0),
    (BESIDE, {}, b"search 1 version 2 lines 3\na:1:x\na:1:x\nb:1:x\n" + BOTH % 2 + BOTH % 3, 0),
    (BESIDE, {}, b"search 1 version 2 lines 2\na:1:x\nb:2:x\n" + BOTH % 2 + BOTH % 3, 0),
    (BESIDE, {}, b"search 1 version 2 lines 2\na:1:x\nc:1:x\n" + BOTH % 2 + BOTH % 3, 0),
    (BESIDE, {}, b"search 1 version 2 lines 2\na:1:x\nb:1:xx\n" + BOTH % 2 + BOTH % 3, 0),
    # case counted in a pattern that ignores it, or ignored in one that does not, in a set that leaves out letters, or in a name
    (CASES, {}, b"search 1 version 2 lines 0\n" + b"".join(CASES_ANSWERED[1:]), 0),
    (CASES, {}, CASES_ANSWERED[0] + b"search 2 version 2 lines 1\na:1:Xy\n" + b"".join(CASES_ANSWERED[2:]), 0),
    (CASES, {}, b"".join(CASES_ANSWERED[:2]) + b"search 3 version 2 lines 2\nA:1:x\na:1:Xy\n" + CASES_ANSWERED[3], 0),
    (CASES, {}, b"".join(CASES_ANSWERED[:3]) + b"search 4 version 2 lines 1\nA:1:x\n", 0),
    # "out of memory" although there is enough, or for an item that is never refused for memory
    (REPLACEMENT, {}, OLD + b"search 2 refused: out of memory\n" + NO_OLD + NEW, 2),
    (REPLACEMENT, {}, OLD + b"line 6 refused: out of memory\n" + OLD_AGAIN + b"search 3 version 1 lines 1\nf:1:old\nsearch 4 version 1 lines 0\n", 2),
    (REPLACEMENT, {"scarce": True}, OLD + b"line 5 refused: out of memory\n" + OLD_AGAIN + NO_OLD + NEW, 2),
    # what is refused for memory is done all the same, or what is done is reported as refused
    (REPLACEMENT, {"scarce": True}, OLD + b"line 6 refused: out of memory\n" + OLD_AGAIN + NO_OLD + NEW, 2),
    (REPLACEMENT, {"scarce": True}, OLD + OLD_AGAIN + b"line 10 refused: out of memory\n" + NO_OLD + NEW, 2),
    # a good line, or a good pattern, is refused
    (REPLACEMENT, {}, OLD + b"line 6 refused: line too long\n" + OLD_AGAIN + NO_OLD + NEW, 2),
    (REPLACEMENT, {}, OLD + OLD_AGAIN + NO_OLD + b"search 4 refused: bad escape at 0\n", 2),
    # the usual limits in place of those that are given, and limits that are off by one
    (LONG, {}, b"".join(LONG_REFUSED) + LONG_FOUND, 2),
    (LONG, {"lengths": LENGTHS._replace(name=4)}, b"".join(LONG_REFUSED) + LONG_FOUND, 2),
    (LONG, {"lengths": LENGTHS._replace(body=10)}, b"".join(LONG_REFUSED) + LONG_FOUND, 2),
    (LONG, {"lengths": LENGTHS._replace(body=8)}, b"".join(LONG_REFUSED) + LONG_FOUND, 2),
    (LONG, {"lengths": LENGTHS._replace(line=5)}, b"".join(LONG_REFUSED) + LONG_FOUND, 2),
    (LONG, {"lengths": LENGTHS._replace(line=3)}, b"".join(LONG_REFUSED) + LONG_FOUND, 2),
    # the counts of documents
    (REPLACEMENT, {"stats": True}, OLD + OLD_AGAIN + NO_OLD + NEW, 0),
    # another status
    (REPLACEMENT, {}, OLD + OLD_AGAIN + NO_OLD + NEW, 1),
    (REFUSALS, {"max_commands": 1}, b"".join(REFUSED), 0),
    # a refusal is left out, in another place or with another reason, or all refusals come before the answers
    (REFUSALS, {"max_commands": 1}, b"".join(REFUSED[:8] + REFUSED[9:8:-1] + REFUSED[8:9]), 2),
    (REFUSALS, {"max_commands": 2}, b"".join(REFUSED), 2),
    (REFUSALS, {"max_commands": 1, "files": {b"p": b"x"}}, b"".join(REFUSED), 2),
    # cancelled without readers, behind a sync, or without a cancel; too slow without a limit of time
    (CANCELS, {"readers": 0}, CANCELLED % 1 + AT_X % 2 + NOT_ASKED + AT_X % 3, 2),
    (CANCELS, {}, AT_X % 1 + CANCELLED % 2 + NOT_ASKED + AT_X % 3, 2),
    (CANCELS, {}, AT_X % 1 + AT_X % 2 + NOT_ASKED + CANCELLED % 3, 2),
    (CANCELS, {}, TOO_SLOW % 1 + AT_X % 2 + NOT_ASKED + AT_X % 3, 2),
    (CANCELS, {"timed": True}, AT_X % 1 + AT_X % 2 + NOT_ASKED + CANCELLED % 3, 2),
    # answered as well, not at all, or at a version that was published after the cancel
    (CANCELS, {}, CANCELLED % 1 + AT_X % 1 + AT_X % 2 + NOT_ASKED + AT_X % 3, 2),
    (CANCELS, {}, AT_X % 1 + CANCELLED % 1 + AT_X % 2 + NOT_ASKED + AT_X % 3, 2),
    (CANCELS, {}, AT_X % 2 + NOT_ASKED + AT_X % 3, 2),
    (CANCEL_FIRST, {}, AT_X % 1, 0),
    # a cancel with an entry of its own, with another reason, or without one although its search was not asked
    (CANCELS, {}, AT_X % 1 + NO_SUCH_SEARCH % 5 + AT_X % 2 + NOT_ASKED + AT_X % 3, 2),
    (CANCELS, {}, AT_X % 1 + AT_X % 2 + NOT_ASKED + NO_SUCH_SEARCH % 10 + AT_X % 3, 2),
    (CANCELS, {}, AT_X % 1 + AT_X % 2 + NO_SUCH_SEARCH % 7 + AT_X % 3, 2),
    (CANCELS, {}, AT_X % 1 + AT_X % 2 + NO_SUCH_SEARCH % 8 + AT_X % 3, 2),
    (CANCELS, {}, AT_X % 1 + AT_X % 2 + NO_SUCH_SEARCH % 7 + b"line 8 refused: bad line\n" + AT_X % 3, 2),
    (CANCELS, {}, AT_X % 1 + AT_X % 2 + NO_SUCH_SEARCH % 7 + b"line 8 refused: out of memory\n" + AT_X % 3, 2),
    (CANCELS, {"scarce": True}, AT_X % 1 + AT_X % 2 + NO_SUCH_SEARCH % 7 + b"line 8 refused: out of memory\n" + AT_X % 3, 2),
    (b"search x\ncancel 4294967297\n", {}, AT_0 % 1, 1),
    (b"search x\ncancel 4294967297\n", {}, CANCELLED % 1, 2),
    (CANCELS, {}, AT_X % 1 + AT_X % 2 + b"line 07 refused: no such search\n" + NO_SUCH_SEARCH % 8 + AT_X % 3, 2),
    # another status
    (CANCELS, {}, CANCELLED % 1 + AT_X % 2 + NOT_ASKED + AT_X % 3, 0),
    (b"search x\ncancel 1\n", {}, CANCELLED % 1, 1),
    (b"search x\ncancel 1\n", {"timed": True}, TOO_SLOW % 1, 1),
    (b"cancel 1\n", {}, NO_SUCH_SEARCH % 1, 1),
    (b"status\n", {}, OPEN % (1, 0), 0),
    (b"status\n", {}, OPEN % (1, 0), 2),
    # a status without an entry, with two, with a refusal, for another line or in another place
    (b"status\n", {}, b"", 1),
    (b"status\n", {}, OPEN % (1, 0) * 2, 1),
    (b"status\n", {}, b"line 1 refused: bad line\n", 2),
    (b"status\n", {}, OPEN % (2, 0), 1),
    (b"status\npublish\n", {}, OPEN % (2, 0), 1),
    (b"status\npublish\n", {}, OPEN % (1, 0) + OPEN % (2, 0), 1),
    (b"status\n", {}, OPEN % (1, 0) + b"\n", 1),
    (b"status\n", {}, (OPEN % (1, 0)).replace(b"bytes 0", b"bytes 00"), 1),
    (b"status\nwhat\n", {}, b"line 2 refused: bad line\n" + OPEN % (1, 0), 2),
    # more open searches than there can be: than were asked, behind a sync, behind a cancel, or with a fault; or any without readers
    (OPENS, {}, opens(3, 0, 0, 0), 2),
    (OPENS, {}, opens(2, 1, 0, 0), 2),
    (OPENS, {}, opens(2, 0, 1, 0), 2),
    (OPENS, {}, opens(2, 0, 0, 1), 2),
    (OPENS, {"readers": 0}, opens(1, 0, 0, 0), 2),
    # a search that is open again, has its entry before its cancel or before the publish of its version, or is open behind 1,023 others
    (TWICE, {}, AT_0 % 1 + AT_0 % 2 + OPEN % (3, 1) + OPEN % (4, 2), 1),
    (TWICE, {}, CANCELLED % 1 + AT_0 % 2 + OPEN % (3, 0) + OPEN % (4, 0), 2),
    (TWICE, {}, CANCELLED % 1 + AT_X % 2 + OPEN % (3, 2) + OPEN % (4, 1), 2),
    (TWICE, {}, AT_0 % 1 + AT_X % 2 + OPEN % (3, 0) + OPEN % (4, 0), 0),
    (CROWD, {}, crowd(1_100, 1_024), 1),
] + [(REFUSALS, {"max_commands": 1}, b"".join(REFUSED[:left_out] + REFUSED[left_out + 1 :]), 2) for left_out in range(len(REFUSED))]
WRONG += [(STATUSES, {"max_commands": 5}, status_text(shown), 2) for shown in off_by_one()]

# What is legal, or wrong, of a run and of a session alike.
LEGAL_ALIKE, WRONG_ALIKE = texts_of_finds()
LEGAL_ALIKE.append((COPIES, {}, COPIED + NOT_UNDER + COPIED_LATER, 2))
WRONG_ALIKE += [(COPIES, {}, text, 2) for text in NOT_COPIES]
LEGAL_ALIKE += [(TIMED, {"stats": True, "times": True}, TIMED_TEXT % times, 0) for times in SHOWN_TIMES]
WRONG_ALIKE += [(TIMED, {"stats": True, "times": True}, TIMED_TEXT % times, 0) for times in NOT_TIMES]
WRONG_ALIKE.append((TIMED, {"stats": True}, TIMED_TEXT % SHOWN_TIMES[0], 0))
LEGAL += LEGAL_ALIKE
WRONG += WRONG_ALIKE


# The same for sessions, whose answers come when they are there.
SEARCH_BESIDE = b"put a 1\nx\npublish\nsearch x\nwhat\nput a 1\ny\npublish\nsearch x\nsync\nsearch y\n"
X1, X2, Y3 = b"search 1 version 1 lines 1\na:1:x\n", b"search 2 version 2 lines 0\n", b"search 3 version 2 lines 1\na:1:y\n"
X1_LATER, WHAT = b"search 1 version 2 lines 0\n", b"line 5 refused: bad line\n"
NOT_WHOLE = {"scarce": True, "whole": False}

# A cancel and a status between other items, and a cancel at the end.
CANCEL_BESIDE = b"put a 1\nx\npublish\nsearch x\nwhat\ncancel 1\nstatus\nsearch x\ncancel 2\n"
SHOWN_OPEN = b"line 7 status version 1 documents 1 bytes 1 accepted 1 of 1000000 open %d\n"
NONE_OPEN, ONE_OPEN = SHOWN_OPEN % 0, SHOWN_OPEN % 1
# A search that is cancelled twice, and is asked between a cancel that is too early and one behind a sync.
CANCEL_TWICE = b"cancel 1\nsearch x\ncancel 1\ncancel 1\nwhat\nsync\ncancel 1\nsearch x\n"
TOO_EARLY, LATE_WHAT = NO_SUCH_SEARCH % 1, b"line 5 refused: bad line\n"
# Two searches and a status, of a session.
TWO_OPEN = b"search x\nsearch x\nstatus\n"

# What the searches of a script must be answered by, since their patterns are not plain. The first search can have one version alone.
NOT_PLAIN = b"put a 1\nx\npublish\nsearch [[:alpha:]]\nsearch [b-a]\nsync\nput b 1\ny\npublish\nsearch [[:alpha:]]\nsearch [[:digit:]]\n"
ALPHA, RANGE = b"search 1 version 1 lines 1\na:1:x\n", b"search 2 refused: bad range at 1\n"
LATER_ALPHA, DIGIT = b"search 3 version 2 lines 2\na:1:x\nb:1:y\n", b"search 4 version 2 lines 0\n"
KNOWN = {"known": ALPHA + RANGE + LATER_ALPHA + DIGIT}

LEGAL_SESSIONS = [
    (SEARCH_BESIDE, {}, X1 + WHAT + X2 + Y3, 2),
    (SEARCH_BESIDE, {}, WHAT + X1 + X2 + Y3, 2),
    (SEARCH_BESIDE, {}, WHAT + X2 + X1 + Y3, 2),
    (SEARCH_BESIDE, {}, WHAT + X2 + X1_LATER + Y3, 2),
    (SEARCH_BESIDE, {"readers": 1}, WHAT + X1_LATER + X2 + Y3, 2),
    (SEARCH_BESIDE, {"readers": 0}, X1 + WHAT + X2 + Y3, 2),
    (SEARCH_BESIDE, {"scarce": True}, WHAT + X2 + b"search 1 refused: out of memory\n" + Y3, 2),
    (SEARCH_BESIDE, {"scarce": True}, X1 + WHAT + b"line 8 refused: out of memory\nsearch 2 version 1 lines 1\na:1:x\nsearch 3 version 1 lines 0\n", 2),
    (SEARCH_BESIDE, {"scarce": True}, b"search 1 refused: out of memory\n" + WHAT + b"search 2 refused: out of memory\n" + Y3, 2),
    (REPLACEMENT, {}, OLD + OLD_AGAIN + NEW + NO_OLD, 0),
    (THRICE, {}, AT_3 % 1 + AT_1 % 2 + AT_2 % 3, 1),
    (THRICE, {}, AT_2 % 3 + AT_1 % 2 + AT_3 % 1, 1),
    # searches that were taken first, and stopped for others
    (SEARCH_BESIDE, {"readers": 1}, WHAT + X2 + X1 + Y3, 2),
    (THRICE, {}, AT_3 % 1 + AT_2 % 2 + AT_1 % 3, 1),
    (THRICE, {"readers": 3}, AT_3 % 1 + AT_2 % 2 + AT_1 % 3, 1),
    (THRICE, {"scarce": True}, AT_3 % 1 + AT_2 % 2 + AT_1 % 3, 1),
    (NOT_PLAIN, KNOWN, ALPHA + RANGE + LATER_ALPHA + DIGIT, 2),
    (NOT_PLAIN, KNOWN, RANGE + ALPHA + DIGIT + LATER_ALPHA, 2),
    (BESIDE, {}, BOTH % 3 + BOTH % 1 + ONE % 2, 0),
    (BESIDE, {}, ONE % 3 + BOTH % 1 + BOTH % 2, 0),
    (CASES, {}, b"".join(reversed(CASES_ANSWERED)), 0),
    (REFUSALS, {"max_commands": 1}, b"".join(REFUSED), 2),
    (REFUSALS, {"max_commands": 1}, b"".join(REFUSED[:8] + REFUSED[9:8:-1] + REFUSED[8:9]), 2),
    (CANCEL_BESIDE, {}, WHAT + CANCELLED % 1 + NONE_OPEN + CANCELLED % 2, 2),
    (CANCEL_BESIDE, {}, WHAT + CANCELLED % 1 + NONE_OPEN + AT_X % 2, 2),
    (CANCEL_BESIDE, {}, WHAT + AT_X % 1 + NONE_OPEN + CANCELLED % 2, 2),
    (CANCEL_BESIDE, {}, AT_X % 1 + WHAT + NONE_OPEN + AT_X % 2, 2),
    (CANCEL_BESIDE, {"readers": 0}, AT_X % 1 + WHAT + NONE_OPEN + AT_X % 2, 2),
    (CANCEL_BESIDE, {"readers": 0, "timed": True}, TOO_SLOW % 1 + WHAT + NONE_OPEN + TOO_SLOW % 2, 2),
    (CANCEL_BESIDE, {"timed": True}, WHAT + TOO_SLOW % 1 + NONE_OPEN + CANCELLED % 2, 2),
    (CANCEL_BESIDE, {"scarce": True}, WHAT + CANCELLED % 1 + NONE_OPEN + b"search 2 refused: out of memory\n", 2),
    (CANCEL_TWICE, {}, TOO_EARLY + CANCELLED % 1 + LATE_WHAT + AT_0 % 2, 2),
    (CANCEL_TWICE, {}, TOO_EARLY + AT_0 % 1 + LATE_WHAT + AT_0 % 2, 2),
    (CANCEL_TWICE, {"readers": 0}, TOO_EARLY + AT_0 % 1 + LATE_WHAT + AT_0 % 2, 2),
    (CANCEL_FIRST, {}, AT_0 % 1, 1),
    (CANCEL_FIRST, {}, CANCELLED % 1, 2),
    (STATUSES, {"max_commands": 5}, status_text(SHOWN), 2),
    (TWO_OPEN, {}, OPEN % (3, 2) + AT_0 % 2 + AT_0 % 1, 1),
    (TWO_OPEN, {}, AT_0 % 2 + OPEN % (3, 1) + AT_0 % 1, 1),
    (TWO_OPEN, {}, AT_0 % 1 + AT_0 % 2 + OPEN % (3, 0), 1),
    (TWO_OPEN, {"readers": 0}, AT_0 % 1 + AT_0 % 2 + OPEN % (3, 0), 1),
    (TWO_OPEN, {"timed": True}, TOO_SLOW % 1 + OPEN % (3, 1) + AT_0 % 2, 2),
    (CROWD, {}, crowd(77, 1_023), 1),
    # sessions that ended early
    (SEARCH_BESIDE, NOT_WHOLE, b"", 2),
    (SEARCH_BESIDE, NOT_WHOLE, WHAT, 2),
    (SEARCH_BESIDE, NOT_WHOLE, WHAT + X2, 2),
    (SEARCH_BESIDE, dict(NOT_WHOLE, readers=0), X1 + WHAT, 2),
]

WRONG_SESSIONS = [
    # an answer before its search is asked, beyond a sync, or of a search that is answered already
    (SEARCH_BESIDE, {}, Y3 + WHAT + X1 + X2, 2),
    (SEARCH_BESIDE, {}, X1 + X2 + WHAT + Y3, 2),
    (SEARCH_BESIDE, {}, WHAT + X1 + Y3 + X2, 2),
    (SEARCH_BESIDE, {}, X1 + WHAT + X1 + X2 + Y3, 2),
    (SEARCH_BESIDE, {}, X1 + X1 + WHAT + X2 + Y3, 2),
    (SEARCH_BESIDE, {}, X1 + WHAT + X2 + Y3 + X2, 2),
    (SEARCH_BESIDE, {"scarce": True}, X1 + WHAT + X2 + b"search 2 refused: out of memory\n" + Y3, 2),
    (REPLACEMENT, {}, OLD_AGAIN + OLD + NO_OLD + NEW, 0),
    # none at all
    (SEARCH_BESIDE, {}, X1 + WHAT + X2, 2),
    (SEARCH_BESIDE, {}, WHAT + X1 + Y3, 2),
    # a version that is not published yet, or older than what was published when the search was asked
    (SEARCH_BESIDE, {}, X1_LATER + WHAT + X2 + Y3, 2),
    (SEARCH_BESIDE, {}, WHAT + X1 + b"search 2 version 1 lines 1\na:1:x\n" + Y3, 2),
    (SEARCH_BESIDE, {}, WHAT + b"search 1 version 3 lines 0\n" + X2 + Y3, 2),
    # not the known answer, or the known refusal, or in a place that a sync does not leave to it
    (NOT_PLAIN, KNOWN, ALPHA + RANGE + b"search 3 version 2 lines 1\na:1:x\n" + DIGIT, 2),
    (NOT_PLAIN, KNOWN, ALPHA + b"search 2 refused: bad range at 2\n" + LATER_ALPHA + DIGIT, 2),
    (NOT_PLAIN, KNOWN, RANGE + LATER_ALPHA + ALPHA + DIGIT, 2),
    (NOT_PLAIN, dict(KNOWN, readers=0), RANGE + ALPHA + LATER_ALPHA + DIGIT, 2),
    # sessions that ended early, but not so: an answer that is cut, comes too early or is from another version, a refusal left out
    (SEARCH_BESIDE, NOT_WHOLE, WHAT + X1[:-1], 2),
    (SEARCH_BESIDE, NOT_WHOLE, WHAT + Y3, 2),
    (SEARCH_BESIDE, NOT_WHOLE, X2, 2),
    (SEARCH_BESIDE, NOT_WHOLE, WHAT + b"search 2 version 1 lines 1\na:1:x\n", 2),
    (SEARCH_BESIDE, dict(NOT_WHOLE, readers=0), WHAT, 2),
    (SEARCH_BESIDE, NOT_WHOLE, WHAT, 0),
    # an item that is taken while a search is open, without readers
    (SEARCH_BESIDE, {"readers": 0}, WHAT + X1 + X2 + Y3, 2),
    (BESIDE, {"readers": 0}, BOTH % 1 + BOTH % 3 + BOTH % 2, 0),
    # other entries out of their order, or left out
    (REFUSALS, {"max_commands": 1}, b"".join(REFUSED[1::-1] + REFUSED[2:]), 2),
    (REFUSALS, {"max_commands": 1}, b"".join(REFUSED[:7] + REFUSED[8:]), 2),
    # cancelled before or after its cancel is taken, twice, without a cancel that is left, behind a sync, or without readers
    (CANCEL_BESIDE, {}, CANCELLED % 1 + WHAT + NONE_OPEN + AT_X % 2, 2),
    (CANCEL_BESIDE, {}, WHAT + NONE_OPEN + CANCELLED % 1 + AT_X % 2, 2),
    (CANCEL_BESIDE, {}, WHAT + ONE_OPEN + CANCELLED % 1 + AT_X % 2, 2),
    (CANCEL_BESIDE, {}, WHAT + CANCELLED % 2 + AT_X % 1 + NONE_OPEN, 2),
    (CANCEL_TWICE, {}, TOO_EARLY + CANCELLED % 1 + CANCELLED % 1 + LATE_WHAT + AT_0 % 2, 2),
    (CANCEL_TWICE, {}, CANCELLED % 1 + TOO_EARLY + LATE_WHAT + AT_0 % 2, 2),
    (CANCEL_TWICE, {}, TOO_EARLY + LATE_WHAT + CANCELLED % 1 + AT_0 % 2, 2),
    (CANCEL_TWICE, {}, TOO_EARLY + AT_0 % 1 + LATE_WHAT + CANCELLED % 2, 2),
    (CANCEL_TWICE, {"readers": 0}, TOO_EARLY + CANCELLED % 1 + LATE_WHAT + AT_0 % 2, 2),
    (b"search x\nsync\ncancel 1\n", {}, CANCELLED % 1, 2),
    # open at its cancel and not refused by it: answered after it, at a later version, or too slow
    (CANCEL_BESIDE, {}, WHAT + NONE_OPEN + AT_X % 1 + AT_X % 2, 2),
    (CANCEL_BESIDE, {"timed": True}, WHAT + NONE_OPEN + TOO_SLOW % 1 + AT_X % 2, 2),
    (CANCEL_TWICE, {}, TOO_EARLY + LATE_WHAT + AT_0 % 1 + AT_0 % 2, 2),
    (CANCEL_FIRST, {}, AT_X % 1, 0),
    # cancelled and answered as well, or neither
    (CANCEL_BESIDE, {}, WHAT + CANCELLED % 1 + AT_X % 1 + NONE_OPEN + AT_X % 2, 2),
    (CANCEL_BESIDE, {}, WHAT + CANCELLED % 1 + NONE_OPEN + AT_X % 2 + AT_X % 1, 2),
    (CANCEL_BESIDE, {}, AT_X % 1 + WHAT + CANCELLED % 1 + NONE_OPEN + AT_X % 2, 2),
    (CANCEL_BESIDE, {}, WHAT + CANCELLED % 1 + NONE_OPEN, 2),
    # too slow without a limit of time, or after its answer
    (CANCEL_BESIDE, {}, WHAT + TOO_SLOW % 1 + NONE_OPEN + AT_X % 2, 2),
    (CANCEL_BESIDE, {"timed": True}, AT_X % 1 + WHAT + TOO_SLOW % 1 + NONE_OPEN + AT_X % 2, 2),
    # a cancel that is refused although its search was asked, or that is not refused
    (CANCEL_BESIDE, {}, WHAT + AT_X % 1 + NO_SUCH_SEARCH % 6 + NONE_OPEN + AT_X % 2, 2),
    (CANCEL_TWICE, {}, AT_0 % 1 + LATE_WHAT + AT_0 % 2, 2),
    # a status that counts a search which has its entry, or not one which has none; that is left out, or comes twice
    (CANCEL_BESIDE, {}, WHAT + CANCELLED % 1 + ONE_OPEN + AT_X % 2, 2),
    (CANCEL_BESIDE, {}, WHAT + AT_X % 1 + ONE_OPEN + AT_X % 2, 2),
    (CANCEL_BESIDE, {}, WHAT + CANCELLED % 1 + AT_X % 2 + NONE_OPEN, 2),
    (CANCEL_BESIDE, {}, WHAT + CANCELLED % 1 + AT_X % 2, 2),
    (CANCEL_BESIDE, {}, WHAT + CANCELLED % 1 + NONE_OPEN + NONE_OPEN + AT_X % 2, 2),
    (TWO_OPEN, {}, OPEN % (3, 1) + AT_0 % 1 + AT_0 % 2, 1),
    (TWO_OPEN, {}, AT_0 % 1 + OPEN % (3, 2) + AT_0 % 2, 1),
    (TWO_OPEN, {}, AT_0 % 1 + AT_0 % 2 + OPEN % (3, 1), 1),
    (TWO_OPEN, {"readers": 0}, OPEN % (3, 2) + AT_0 % 1 + AT_0 % 2, 1),
    # an item that is taken while 1,024 searches are open
    (CROWD, {}, crowd(0, 1_100), 1),
    (CROWD, {}, crowd(76, 1_024), 1),
    # refused for memory although there is enough, or for a fault that it has not
    (SEARCH_BESIDE, {}, WHAT + X2 + b"search 1 refused: out of memory\n" + Y3, 2),
    (SEARCH_BESIDE, {"scarce": True}, WHAT + X2 + b"search 1 refused: bad range at 0\n" + Y3, 2),
    # another status
    (REPLACEMENT, {}, OLD + OLD_AGAIN + NEW + NO_OLD, 2),
    (b"search x\ncancel 1\n", {}, CANCELLED % 1, 1),
    (TWO_OPEN, {"timed": True}, TOO_SLOW % 1 + OPEN % (3, 1) + AT_0 % 2, 1),
    (TWO_OPEN, {}, OPEN % (3, 2) + AT_0 % 2 + AT_0 % 1, 2),
]
WRONG_SESSIONS += [(STATUSES, {"max_commands": 5}, status_text(shown), 2) for shown in off_by_one()]
LEGAL_SESSIONS += LEGAL_ALIKE
WRONG_SESSIONS += WRONG_ALIKE


def judged_sessions():
    """The texts of the tables of sessions that the judge accepts or refuses wrongly, and how many texts there are."""
    wrong = ["refuses %r: %s" % (text, fault) for script, options, text, status in LEGAL_SESSIONS if (fault := transcripts.fault_of(script, text, status, session=True, **options))]
    wrong += ["takes %r of %r" % (text, script) for script, options, text, status in WRONG_SESSIONS if not transcripts.fault_of(script, text, status, session=True, **options)]
    return wrong, len(LEGAL_SESSIONS) + len(WRONG_SESSIONS)


def judged_by_hand():
    """The texts of the tables and of tests/cases that the judge accepts or refuses wrongly, and how many texts there are."""
    wrong = ["refuses %r: %s" % (text, fault) for script, options, text, status in LEGAL if (fault := transcripts.fault_of(script, text, status, **options))]
    wrong += ["takes %r of %r" % (text, script) for script, options, text, status in WRONG if not transcripts.fault_of(script, text, status, **options)]
    count = len(LEGAL) + len(WRONG)
    for path in sorted((TOP / "tests/cases").glob("*/*.script")):
        words = path.with_suffix(".args").read_text().split() if path.with_suffix(".args").exists() else []
        if path.with_suffix(".run").exists() or path.with_suffix(".setup").exists() or not set(words) <= {"--stats"}:
            continue
        text = path.with_suffix(".stdout").read_bytes() if path.with_suffix(".stdout").exists() else b""
        status = int(path.with_suffix(".status").read_text()) if path.with_suffix(".status").exists() else 0
        fault = transcripts.fault_of(path.read_bytes(), text, status, stats="--stats" in words)
        count += 1
        wrong += ["refuses the text of %s: %s" % (path.name, fault)] if fault else []
    return wrong, count


def fault_of_pattern(pattern, ignores_case):
    """The reason for which the judge refuses a pattern, or None."""
    try:
        trees.tree_of(pattern, ignores_case)
    except trees.Refused as refused:
        return str(refused).encode()
    return None


def lines_found(body, pattern, ignores_case):
    """The rows of the lines in which the judge finds a pattern, in a document f."""
    lines = searches.Test(pattern, ignores_case).lines_with_match(body)
    return b"".join(b"f:%d:%s\n" % (line + 1, searches.lines_of(body).texts[line]) for line in lines)


def judged_patterns():
    """What the judge makes of patterns otherwise than tests/patterns.rows and tests/lines.rows have it, and how many rows there are."""
    every, faults = sorted(trees.LINE_BYTES), []
    body = b"\n".join(bytes([byte]) for byte in every)
    for pattern, fault in patterns.LIMITS:
        faults.append(None if fault_of_pattern(pattern, False) == fault else pattern)
    for kind, pattern, *fields in rows_of(patterns.ROWS):
        if kind == b"refused":
            faults += [None if fault_of_pattern(pattern, ignored) == fields[0] else pattern for ignored in (False, True)]
        elif kind != b"asks":
            members = [byte for byte in every if (byte in fields[0]) == kind.endswith(b"set")]
            found = b"".join(b"f:%d:%c\n" % (every.index(byte) + 1, byte) for byte in members)
            faults.append(None if lines_found(body, b"^(%s)$" % pattern, kind.startswith(b"i")) == found else pattern)
    for body, pattern, found, *ignored in rows_of(TOP / "tests/lines.rows"):
        faults.append(None if lines_found(body, pattern, ignored == [b"i"]) == found else pattern)
    return ["%r" % pattern for pattern in faults if pattern is not None], len(faults)


def faults_of_beginning(readers, length):
    """What is wrong with what the program does with a beginning of the script, as a run and as a session with so many readers. None if it
    does as it should."""
    script = REPLACEMENT[:length]
    for start, how in ([], {}), (["--live"], {"session": True}):
        done = subprocess.run([PROGRAM, *start, "--readers", str(readers)], input=script, capture_output=True, check=False, timeout=SECONDS)
        fault = repr(done.stderr) if done.stderr else transcripts.fault_of(script, done.stdout, done.returncode, readers=readers, **how)
        yield fault and "%r with %s and %d readers: %s" % (script, start, readers, fault)


def judged_beginnings(pool):
    """The texts of each beginning of the script, with each number of readers, that are not legal, and how many texts there are."""
    jobs = [pool.submit(lambda *one: list(faults_of_beginning(*one)), readers, length) for readers in READERS for length in range(len(REPLACEMENT) + 1)]
    faults = [fault for job in jobs for fault in job.result()]
    return [fault for fault in faults if fault], len(faults)


def main():
    need_program()
    counted = Counted()
    with concurrent.futures.ThreadPoolExecutor(os.cpu_count()) as pool:
        parts = [
            ("the judge of patterns", judged_patterns),
            ("the judge", judged_by_hand),
            ("the judge of sessions", judged_sessions),
            ("beginnings", lambda: judged_beginnings(pool)),
        ]
        for name, part in parts:
            wrong, count = part()
            for what in wrong:
                counted.fails("%s: %s" % (name, what))
            counted.passes(count - len(wrong))
    counted.end()


if __name__ == "__main__":
    main()
