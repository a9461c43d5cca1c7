"""Files that are open here and handed to a program, by the numbers of their descriptors."""

from __future__ import annotations

import fcntl
import os

# Standard input, output and error have the numbers below. One that is closed here stays so.
_FIRST = 3


def handed(descriptor: int) -> int:
    """A descriptor of the same open file that is none of a standard file. Its user closes it."""
    return fcntl.fcntl(descriptor, fcntl.F_DUPFD_CLOEXEC, _FIRST)


def name_in_texts(name: str) -> str:
    """The name of a file for a program, which takes UTF-8 alone."""
    return os.fsencode(name).decode("utf-8", "backslashreplace")
