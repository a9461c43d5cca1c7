"""What a file holds: an image that can be loaded, or text by its first bytes."""

from __future__ import annotations

import codecs
import re
from enum import Enum
from typing import BinaryIO, Sequence

from ..images.aws import read_items
from ..images.ckd import PlainDisk
from ..images.faults import ImageFault
from ..images.kinds import is_characters
from ..images.packing import Packing
from ..images.reading import disk_image, is_disk

# The bytes that are looked at for text.
FIRST_BYTES = 4096

# What a report of `test` begins with, after the declaration of XML.
_REPORT = re.compile(b'<testsuites name="excp test"')

# The beginning of a line of posts.
_POST = re.compile(rb"(post|end) ")


class Held(Enum):
    """What a file holds, as an error has it."""

    TAPE = "a tape image"
    PACKED_TAPE = "a compressed tape image"
    DISK = "a disk image"
    OTHER_DISK = "a damaged or compressed disk image"
    JUNIT = "a JUnit report of this command"
    POSTS = "the posts of a job"
    TEXT = "text"
    OTHER = "other data or a damaged image"
    UNREAD = "what cannot be read"


def held_by(name: str) -> Held:
    """What the file of this name holds."""
    try:
        with open(name, "rb") as file:
            return _held_in(file)
    except OSError:
        return Held.UNREAD


def _held_in(file: BinaryIO) -> Held:
    try:
        return _disk_in(file) if is_disk(file) else _tape_in(file)
    except ImageFault:
        file.seek(0)
        if is_disk(file):
            return Held.OTHER_DISK
        return _text_in(file.read(FIRST_BYTES))


def _disk_in(file: BinaryIO) -> Held:
    """That a file holds a disk. Raises ImageFault if it breaks a rule."""
    image = disk_image(file)
    for _ in image.tracks():
        pass
    return Held.DISK if isinstance(image, PlainDisk) else Held.OTHER_DISK


def _tape_in(file: BinaryIO) -> Held:
    """That a file holds a tape. Raises ImageFault if it breaks a rule."""
    packings = {packing for _, packing in read_items(file)}
    return Held.TAPE if packings <= {Packing.NONE} else Held.PACKED_TAPE


def _text_in(first: bytes) -> Held:
    """What a file without an image holds, by its first bytes."""
    if not _is_text(first):
        return Held.OTHER
    if first.startswith(b"<?xml") and _REPORT.search(first):
        return Held.JUNIT
    lines = _whole_lines(first)
    return Held.POSTS if lines and all(map(_POST.match, lines)) else Held.TEXT


def _whole_lines(first: bytes) -> Sequence[bytes]:
    """The lines of first bytes, but for one that they may cut."""
    lines = first.splitlines()
    return lines[:-1] if len(first) == FIRST_BYTES else lines


def _is_text(first: bytes) -> bool:
    """Whether first bytes are text in UTF-8, which may be cut inside a character."""
    try:
        codecs.getincrementaldecoder("utf-8")().decode(first)
    except UnicodeDecodeError:
        return False
    return is_characters(first)
