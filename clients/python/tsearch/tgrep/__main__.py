"""The command, as `python3 -m tsearch.tgrep`."""

import sys

from .client import main

if __name__ == "__main__":
    sys.exit(main())
