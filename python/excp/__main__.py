"""`python3 -m excp WORD ..`: the command `excp`."""

from __future__ import annotations

import sys


def started() -> int:
    """Carries out the words that this process has, and returns the exit status."""
    try:
        from excp.command.front import front
    except KeyboardInterrupt:
        # while modules are loaded
        return 130
    return front(sys.argv[1:])


if __name__ == "__main__":
    sys.exit(started())
