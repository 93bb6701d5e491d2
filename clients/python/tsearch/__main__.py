"""`python3 -m tsearch` is another name for the command tgrep."""

import sys

from .tgrep.client import main

if __name__ == "__main__":
    sys.exit(main())
