"""The exit statuses of the command."""
from __future__ import annotations

from enum import IntEnum


class Exit(IntEnum):
    """A status for every way that a command can end; 0 to 3 are the statuses of a check."""

    YES = 0
    NO = 1
    INCONCLUSIVE = 2
    GAVE_UP = 3
    REFUSED = 4
    USAGE = 64
    UNREADABLE = 66
    NO_LIBRARY = 69
    FAULT = 70
    UNWRITTEN = 74
