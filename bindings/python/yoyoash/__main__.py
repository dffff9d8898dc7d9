"""Runs the shell: `python -m yoyoash`."""

import sys

from .shell import main

if __name__ == "__main__":
    sys.exit(main())
