"""A file that is replaced whole: what is written goes to a new file beside it, which takes its
place at the end.

The new file is locked while its run lives. One that is not locked was left by a run that was
killed. It is removed, and the caller is given its name.
"""

from __future__ import annotations

import contextlib
import fcntl
import os
import stat
from typing import Iterable, Optional, Tuple

from ..images.progress import writer
from .refusals import Refused
from .signals import end_if_asked

# What is added to the name of a file for the new one beside it.
BESIDE = ".excp-new"

NEW_FILE = os.O_WRONLY | os.O_CREAT | os.O_EXCL | os.O_CLOEXEC | os.O_NOFOLLOW
# To look at a file that may be a link or a pipe, without a wait for its writer.
OLD_FILE = os.O_RDONLY | os.O_NONBLOCK | os.O_CLOEXEC | os.O_NOFOLLOW

Identity = Tuple[int, int]


def identity_of(found: os.stat_result) -> Identity:
    """Device and inode, by which a file is the same under all names."""
    return found.st_dev, found.st_ino


def target_of(name: str) -> str:
    """The file that a name leads to, through all links. Raises Refused or OSError if it can be no
    file."""
    try:
        mode = os.stat(name).st_mode
    except FileNotFoundError:
        if os.path.islink(name):
            raise Refused("it is a link to a file that is not there") from None
        directory, last = os.path.split(name)
        os.stat(directory or ".")
        return os.path.join(os.path.realpath(directory or "."), last)
    if stat.S_ISDIR(mode):
        raise Refused("it is a directory")
    if not stat.S_ISREG(mode):
        raise Refused("it is a device or a pipe")
    return os.path.realpath(name)


class Replacement:
    """A new file beside the one that it is to replace, or to be. Its caller holds back signals
    while it is there.

    Each method raises Refused or OSError.
    """

    def __init__(self, name: str) -> None:
        self.target = target_of(name)
        self._beside = self.target + BESIDE
        # the name of the new file that a killed run left, if there was one
        self.removed: Optional[str] = None
        # the mode of the old file, if there is one
        self._mode: Optional[int] = None
        shown = name + BESIDE if not os.path.islink(name) else self._beside
        if os.path.lexists(self._beside):
            _remove_left(self._beside, shown)
            self.removed = shown
        try:
            descriptor = os.open(self._beside, NEW_FILE, 0o666)
        except FileExistsError:
            raise Refused(_is_written(shown)) from None
        self._file = writer(descriptor, name)
        try:
            self._begin(descriptor, shown)
        except BaseException:
            self.abandon()
            raise

    def _begin(self, descriptor: int, shown: str) -> None:
        """Locks the new file, and gives it the mode of the old one, if there is an old one. This
        user may write it until its end."""
        if not _is_locked_here(descriptor) or not _is_at(self._beside, descriptor):
            raise Refused(_is_written(shown))
        with contextlib.suppress(FileNotFoundError):
            self._mode = stat.S_IMODE(os.stat(self.target).st_mode)
            os.fchmod(descriptor, self._mode | stat.S_IWUSR)

    @property
    def descriptor(self) -> int:
        """The open new file, for a program that fills it."""
        return self._file.fileno()

    def fill(self, parts: Iterable[bytes]) -> None:
        """Writes the new file, and waits until it is on the disk. Raises EndAsked too."""
        for part in parts:
            self._file.write(part)
            end_if_asked()
        self._file.flush()
        os.fsync(self._file.fileno())
        end_if_asked()

    def finish(self) -> None:
        """Puts the new file in the place of the old one."""
        if not _is_at(self._beside, self._file.fileno()):
            raise Refused("another run has replaced the new file beside it")
        if self._mode is not None:
            os.fchmod(self._file.fileno(), self._mode)
        os.rename(self._beside, self.target)
        self._close()

    def abandon(self) -> None:
        """Removes the new file, if it is there. The old one stays as it was."""
        if not self._file.closed:
            _remove(self._beside, self._file.fileno())
        self._close()

    def _close(self) -> None:
        # what is not yet written is no longer wanted
        with contextlib.suppress(OSError, ValueError):
            self._file.close()


def _is_at(beside: str, descriptor: int) -> bool:
    """Whether an open file still has this name."""
    try:
        return identity_of(os.fstat(descriptor)) == identity_of(os.lstat(beside))
    except OSError:
        return False


def _remove(beside: str, descriptor: int) -> None:
    """Removes an open file, if it still has this name."""
    if _is_at(beside, descriptor):
        with contextlib.suppress(OSError):
            os.unlink(beside)


def _is_written(shown: str) -> str:
    return f"another run is writing it: {shown} is its new file"


def _is_locked_here(descriptor: int) -> bool:
    """Whether this process has the lock on an open file. A file system without locks gives it to
    each."""
    try:
        fcntl.flock(descriptor, fcntl.LOCK_EX | fcntl.LOCK_NB)
    except BlockingIOError:
        return False
    except OSError:
        return True
    return True


def _remove_left(beside: str, shown: str) -> None:
    """Removes a new file whose run is gone. Raises Refused if it may be of a run that lives, or be
    something else."""
    in_the_way = f"{shown} is in its way: remove it"
    try:
        descriptor = os.open(beside, OLD_FILE)
    except FileNotFoundError:
        # its run has just ended
        return
    except OSError as error:
        raise Refused(in_the_way) from error
    try:
        found = os.fstat(descriptor)
        if not stat.S_ISREG(found.st_mode) or found.st_nlink > 1:
            raise Refused(in_the_way)
        if not _is_locked_here(descriptor):
            raise Refused(_is_written(shown))
        # the lock is held until the file is gone, so no other run removes the one that is made next
        _remove(beside, descriptor)
    finally:
        os.close(descriptor)
