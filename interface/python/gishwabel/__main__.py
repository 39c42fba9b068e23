"""Runs the command: python3 -m gishwabel."""

import sys

from gishwabel.command import main

if __name__ == "__main__":
    sys.exit(main())
