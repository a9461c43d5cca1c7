"""Why a file is not written: the sentences for it."""

from __future__ import annotations

import contextlib
import errno
from typing import Iterator

NO_DIRECTORY = "there is no such directory"
NO_PERMISSION = "this user has no permission to write in its directory"

WHY_UNWRITTEN = {
    errno.ENOSPC: "the disk is full",
    errno.EDQUOT: "the disk is full for this user",
    errno.EFBIG: "the file gets larger than this user's files may be",
    errno.ENOENT: NO_DIRECTORY,
    errno.ENOTDIR: NO_DIRECTORY,
    errno.EACCES: NO_PERMISSION,
    errno.EPERM: NO_PERMISSION,
    errno.EROFS: "its file system is read-only",
    errno.ENAMETOOLONG: "its name is too long",
}


class Refused(Exception):
    """A file is not written. The text is the sentence for it."""


class Unwritten(Exception):
    """A file of this name is not written, for this reason."""

    def __init__(self, name: str, sentence: str) -> None:
        super().__init__(sentence)
        self.name, self.sentence = name, sentence


@contextlib.contextmanager
def refusals_of(name: str) -> Iterator[None]:
    """What is refused inside, or fails by the operating system, becomes Unwritten of this file."""
    try:
        yield
    except Refused as refused:
        raise Unwritten(name, str(refused)) from refused
    except OSError as error:
        why = WHY_UNWRITTEN.get(error.errno or 0, "the file cannot be written")
        raise Unwritten(name, why) from error
    except ValueError as error:
        # a NUL in the name
        raise Unwritten(name, NO_DIRECTORY) from error
