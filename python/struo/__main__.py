"""Runs the command: `python3 -m struo`."""
import sys

from .command import main

sys.exit(main())
