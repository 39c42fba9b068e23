"""Runs the command from a clone of the repository, for ./gishwabel."""

import os
import sys

if sys.version_info < (3, 9):
    sys.exit("gishwabel: Python 3.9 or later is needed, and this is " + sys.version.split()[0])

sys.path.insert(0, os.path.dirname(os.path.abspath(__file__)))

try:
    from gishwabel.command import main

    status = main()
except KeyboardInterrupt:
    status = 1
sys.exit(status)
