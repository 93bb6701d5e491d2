"""What the measuring scripts have in common: the words that they are called with, and the tables that they print."""
import statistics
import sys


def words(doc, least=1, most=1):
    """The words after a script's name. Prints how it is called if there are too few or too many (None: any number), or for --help."""
    given = sys.argv[1:]
    if given in (["--help"], ["-h"]):
        print(doc.strip())
        sys.exit(0)
    if len(given) < least or (most is not None and len(given) > most) or any(word.startswith("--") for word in given):
        sys.exit(doc.strip())
    return given


def head(columns, title=None):
    """The head of a table, after its title if it has one."""
    if title:
        print("\n%s\n" % title)
    print("| %s |\n|%s" % (" | ".join(columns), "---|" * len(columns)), flush=True)


def row(*cells):
    print("| %s |" % " | ".join(map(str, cells)), flush=True)


def code(text):
    """A pattern as a cell of a table."""
    return "`%s`" % text.replace("|", "\\|")


def times(seconds):
    """The least, the median, the 99th percentile and the most of some times, in milliseconds."""
    taken = sorted(1000 * second for second in seconds)
    return taken[0], statistics.median(taken), taken[len(taken) * 99 // 100], taken[-1]


def shown(numbers):
    return " / ".join("%.2f" % number for number in numbers)


def least_and_median(seconds):
    """The least and the median of some times, in milliseconds."""
    return shown(times(seconds)[:2])
