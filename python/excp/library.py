"""Finds libexcp.so and declares its calls (c/excp.h)."""

from __future__ import annotations

import ctypes
import functools
import operator
import os
from ctypes import (
    POINTER, Structure, byref, c_char_p, c_int, c_size_t, c_uint8, c_uint16, c_uint32, c_uint64,
    c_void_p,
)
from typing import Any, Dict, Iterator, List, Tuple

from .errors import BadNumber, LibraryNotFound, Status, error_of
from .programs.home import LIBRARY
from .programs.library_choice import PLACE


class Handle(Structure):
    """EXCP_SITE_INIT, until a site is made."""

    _fields_ = [("mark", c_uint64), ("at", c_void_p)]


class Room(Structure):
    _fields_ = [("in_flight", c_uint32), ("held", c_uint32)]


class Answer(Structure):
    _fields_ = [
        ("number", c_uint64), ("commands", c_uint32), ("task", c_uint16), ("kind", c_uint8),
        ("code", c_uint8),
    ]


class Served(Structure):
    _fields_ = [("posts", c_uint64), ("commands", c_uint32), ("ended", c_uint32)]


class Post(Structure):
    _fields_ = [
        ("number", c_uint64),
        *((it, c_uint32) for it in ("address", "base", "length")),
        *((it, c_uint16) for it in ("residual", "sense", "unit", "task", "dcb")),
        *((it, c_uint8) for it in ("code", "unit_status", "channel_status")),
    ]


class UnitState(Structure):
    _fields_ = [
        ("active_number", c_uint64),
        *((it, c_uint32) for it in ("in_flight", "in_flight_room", "waiting", "out", "printed")),
        ("active_task", c_uint16),
        *((it, c_uint8) for it in ("active", "kind", "has_room")),
    ]


class ActiveRequest(Structure):
    _fields_ = [
        ("number", c_uint64),
        *((it, c_uint32) for it in ("next", "attempt")),
        *((it, c_uint16) for it in ("task", "dcb")),
    ]


class Place(Structure):
    _fields_ = [
        *((it, c_uint32) for it in ("items", "passed")),
        *((it, c_uint16) for it in ("cylinder", "head", "page", "line")),
    ]


class DcbState(Structure):
    _fields_ = [(it, c_uint8) for it in ("state", "in_error", "file_mask")]


class Entry(Structure):
    _fields_ = [
        ("number", c_uint64),
        *((it, c_uint32) for it in ("commands", "address")),
        *((it, c_uint16) for it in ("task", "dcb", "residual", "sense")),
        *((it, c_uint8) for it in ("kind", "way", "code", "unit_status", "channel_status")),
    ]


class Record(Structure):
    _fields_ = [
        ("cylinder", c_uint16), ("head", c_uint16), ("number", c_uint8), ("key_length", c_uint8),
        ("data_length", c_uint16),
    ]


class Item(Structure):
    _fields_ = [("length", c_uint16), ("is_mark", c_uint8)]


class Line(Structure):
    _fields_ = [(it, c_uint16) for it in ("page", "line", "length")]


class ChannelRan(Structure):
    _fields_ = [(it, c_uint32) for it in ("commands", "pending")]


class ChannelStatus(Structure):
    _fields_ = [
        ("address", c_uint32),
        *((it, c_uint16) for it in ("residual", "sense")),
        *((it, c_uint8) for it in ("code", "unit_status", "channel_status")),
    ]


# The numbers that calls take, and the largest of each.
NUMBERS = {
    "u8": (c_uint8, 2**8 - 1),
    "u16": (c_uint16, 2**16 - 1),
    "u32": (c_uint32, 2**32 - 1),
    "u64": (c_uint64, 2**64 - 1),
    "size": (c_size_t, 2 ** (8 * ctypes.sizeof(c_size_t)) - 1),
}

# The words after the site: numbers, `bytes` and `buffer` with their lengths, and `ref`, a pointer
# to a structure or a number.
CALLS = {
    "site_new": "u16 u32",
    "site_free": "",
    "put_record": "u16 u16 u8 bytes bytes",
    "put_block": "bytes",
    "put_tape_mark": "",
    "put_fault": "u64 u8 u8 u16",
    "clear_medium": "",
    "mount_disk": "u64 u64 u64 ref ref",
    "mount_tape": "u64 ref ref",
    "mount_printer": "u64 u64 ref ref",
    "mount_ckd": "bytes ref ref",
    "mount_aws": "bytes u64 ref ref",
    "open": "u16 u8 bytes ref",
    "issue": "u16 u16 u16 u32 u32 bytes ref",
    "take": "u16 ref",
    "start": "u16 ref",
    "run": "u16 u32 ref",
    "interrupt": "u16 ref",
    "deliver": "u16 ref",
    "serve": "u16 u32 ref",
    "settle": "u16",
    "peek_post": "u16 ref",
    "next_post": "u16 ref buffer",
    "purge": "u16 u16 u8 ref",
    "purge_task": "u16 u16 u8 ref",
    "close": "u16 u16 ref",
    "reset": "u16 u16",
    "look": "u16 ref",
    "look_active": "u16 ref",
    "look_place": "u16 ref",
    "look_dcb": "u16 u16 ref",
    "waiting": "u16 u32 ref ref",
    "look_entry": "u16 u32 ref",
    "read_record": "u16 u16 u16 u32 ref buffer",
    "read_item": "u16 u32 ref buffer",
    "printed_line": "u16 u32 ref buffer",
    "make_record": "u16 u64 ref",
    "make_image": "u16 ref",
    "drop_made": "",
    "made_length": "ref",
    "copy_out": "size buffer",
    "channel_new": "u16 ref",
    "channel_free": "u32",
    "channel_make_image": "u32 ref",
    "channel_start": "u32 u32 u16 u16 u8 ref",
    "channel_run": "u32 u32 u32 buffer ref",
    "channel_test": "u32 ref",
    "channel_halt": "u32 ref",
    "checkpoint": "u16",
}


def places() -> Iterator[str]:
    """Where the library may be: EXCP_LIBRARY, beside the package, or out/library of the
    repository."""
    if os.environ.get(PLACE):
        yield os.environ[PLACE]
        return
    package = os.path.dirname(os.path.realpath(__file__))
    yield os.path.join(package, LIBRARY)
    yield os.path.join(os.path.dirname(os.path.dirname(package)), "out", "library", LIBRARY)


@functools.lru_cache(maxsize=None)
def library() -> Any:
    """The library, with its calls declared."""
    tried = list(places())
    place = next((it for it in tried if os.path.exists(it)), None)
    if place is None:
        none = " and no ".join(tried)
        raise LibraryNotFound(f"there is no {none}: build the library, or let EXCP_LIBRARY name it")
    try:
        found = ctypes.CDLL(place)
        declare(found)
    except (OSError, AttributeError) as error:
        raise LibraryNotFound(f"{place}: {error}") from error
    return found


def declare(found: Any) -> None:
    """Declares the types of all calls."""
    found.excp_message.argtypes, found.excp_message.restype = [c_int], c_char_p
    found.excp_version.argtypes, found.excp_version.restype = [], c_char_p
    found.excp_is_proved.argtypes, found.excp_is_proved.restype = [], c_int
    kinds: Dict[str, List[Any]] = {it: [NUMBERS[it][0]] for it in NUMBERS}
    kinds.update({"bytes": [c_char_p, c_size_t], "buffer": [c_char_p, c_size_t], "ref": [c_void_p]})
    for name, words in CALLS.items():
        call = getattr(found, f"excp_{name}")
        call.argtypes = [POINTER(Handle), *(it for word in words.split() for it in kinds[word])]
        call.restype = c_int


def message(status: int) -> str:
    """A status in words."""
    return str(library().excp_message(status), "ascii")


def version() -> str:
    """The version of the library."""
    return str(library().excp_version(), "ascii")


def is_proved() -> bool:
    """Whether the library is proved: one of `tools/library.py --unproved` is not."""
    return bool(library().excp_is_proved())


# The largest number that a word of a call takes; another word takes none.
_NO_NUMBER = -1


@functools.lru_cache(maxsize=None)
def planned(name: str) -> Tuple[Any, List[Tuple[str, int]]]:
    """A call of the library, and the words of its values, each with its largest number."""
    words = [(it, NUMBERS[it][1] if it in NUMBERS else _NO_NUMBER) for it in CALLS[name].split()]
    return getattr(library(), f"excp_{name}"), words


def call(name: str, site: Any, *values: Any) -> None:
    """Makes a call on a site, by a reference to its handle. Raises the exception of its status."""
    status = status_of(name, site, *values)
    if status:
        raise error_of(status, message(status))


def status_of(name: str, site: Any, *values: Any) -> int:
    """Makes a call on a site. Returns its status."""
    function, words = planned(name)
    given: List[Any] = []
    for (word, most), value in zip(words, values):
        if most != _NO_NUMBER:
            is_right = type(value) is int and 0 <= value <= most
            given.append(value if is_right else number(value, most))
        elif word == "ref":
            given.append(byref(value))
        elif word == "bytes":
            image = value if isinstance(value, bytes) else bytes(memoryview(value))
            given += [image, len(image)]
        else:
            given += [value, len(value)]
    status: int = function(site, *given)
    return status


def number(value: Any, most: int) -> int:
    """A number that the call can be given: ctypes would cut a larger one."""
    found: int = value if type(value) is int else operator.index(value)
    if not 0 <= found <= most:
        raise BadNumber(Status.BAD_NUMBER, f"{found} is not a number from 0 to {most}")
    return found
