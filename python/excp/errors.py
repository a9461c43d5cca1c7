"""The statuses of c/excp.h, and the exceptions for those that are no success."""

from __future__ import annotations

import enum


class Status(enum.IntEnum):
    """What a call of the library returns."""

    OK = 0
    NO_MEMORY = 1
    NULL_POINTER = 2
    NO_SITE = 3
    SITE_IN_USE = 4
    BAD_NUMBER = 5
    NO_UNIT = 6
    NO_TASK = 7
    NO_DCB = 8
    TOO_MANY_UNITS = 9
    TOO_MANY_DCBS = 10
    BAD_GEOMETRY = 11
    BAD_MEDIUM = 12
    BAD_IMAGE = 13
    NO_IMAGE = 14
    BAD_EXTENT = 15
    AREA_MISALIGNED = 16
    AREA_TOO_LONG = 17
    AREA_PAST_TOP = 18
    BAD_IOB = 19
    BAD_ECB = 20
    BAD_PROGRAM = 21
    WRONG_DCB = 22
    FULL = 23
    NO_NUMBER = 24
    NO_POST = 25
    NO_ROOM = 26
    NOTHING_THERE = 27
    NOT_IDLE = 28
    IN_ERROR = 29


# Those of a mount, an open or an issue whose reason the site says in words.
STATUSES_WITH_REASON = {
    Status.BAD_GEOMETRY, Status.BAD_MEDIUM, Status.BAD_IMAGE,
    *(Status(it) for it in range(Status.BAD_EXTENT, Status.WRONG_DCB + 1)),
}


class ExcpError(Exception):
    """A call that did not return `Status.OK`, and changed nothing. `status` says why; after `serve`
    and `settle` with `NO_MEMORY`, what was done stays done."""

    def __init__(self, status: int, message: str) -> None:
        super().__init__(message)
        self.status = status


class NoMemory(ExcpError, MemoryError):
    """Memory ran out. The same call may be made again."""


class BadNumber(ExcpError, ValueError):
    """A number is outside its range."""


class NoSite(ExcpError):
    """The site was freed."""


class BadRequest(ExcpError, ValueError):
    """The storage holds no request for this DCB. The message says which address or number of it is
    wrong: of its place, its IOB, its ECB, its channel program or its DCB pointer."""


class BadExtent(ExcpError, ValueError):
    """An extent is not one of the device. The message says which."""


class BadMedium(ExcpError, ValueError):
    """What was given is no medium. The message says which size, record, block or fault. Or a call
    is not for the device of the unit, which the message names."""


class BadImage(BadMedium):
    """An image breaks a rule of its format, or has more than the tape. The message is that rule,
    with the byte in the image."""


class NoImage(ExcpError):
    """No image can hold this disk: it came from none, and no model has its heads and bytes a
    track."""


class NoDcb(ExcpError, LookupError):
    """No such DCB was opened; or none is open, for a reset."""


class Full(ExcpError):
    """As many requests are in flight to the unit as may be: let it take some, and issue again."""


class NoNumber(ExcpError):
    """The task used its last number at the unit: checkpoint the unit."""


class NoPost(ExcpError, LookupError):
    """No post was delivered to the task that it has not collected."""


class NothingThere(ExcpError, LookupError):
    """There is no such track or channel. The message says which."""


class NotIdle(ExcpError):
    """The unit is not idle, so no checkpoint."""


class InError(ExcpError):
    """An open DCB is in error, so no checkpoint: reset it first."""


class LibraryNotFound(ImportError):
    """libexcp.so is not there, or cannot be loaded."""


_CLASSES = {
    Status.NO_MEMORY: NoMemory,
    Status.NO_SITE: NoSite,
    Status.BAD_NUMBER: BadNumber,
    Status.NO_DCB: NoDcb,
    Status.BAD_GEOMETRY: BadMedium,
    Status.BAD_MEDIUM: BadMedium,
    Status.BAD_IMAGE: BadImage,
    Status.NO_IMAGE: NoImage,
    Status.BAD_EXTENT: BadExtent,
    Status.AREA_MISALIGNED: BadRequest,
    Status.AREA_TOO_LONG: BadRequest,
    Status.AREA_PAST_TOP: BadRequest,
    Status.BAD_IOB: BadRequest,
    Status.BAD_ECB: BadRequest,
    Status.BAD_PROGRAM: BadRequest,
    Status.WRONG_DCB: BadRequest,
    Status.FULL: Full,
    Status.NO_NUMBER: NoNumber,
    Status.NO_POST: NoPost,
    Status.NOTHING_THERE: NothingThere,
    Status.NOT_IDLE: NotIdle,
    Status.IN_ERROR: InError,
}


def error_of(status: int, message: str) -> ExcpError:
    """The exception for a status."""
    try:
        status = Status(status)
    except ValueError:
        return ExcpError(status, message)
    return _CLASSES.get(status, ExcpError)(status, message)
