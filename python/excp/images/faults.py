"""The first rule that an image breaks."""

from __future__ import annotations

from enum import Enum
from typing import Union


class TapeRule(Enum):
    """A rule for images of tapes, as docs/FORMATS.md has it. Its value begins the message on an
    image that breaks it."""

    NO_FAKE_TAPE = "the image is a FakeTape file"
    WHOLE_HEADER = "the header of a chunk is cut short"
    WHOLE_DATA = "the data of a chunk is cut short"
    FLAGS = "byte 4 of a header"
    SPARE = "byte 5 of a header"
    PREVIOUS = "bytes 2 and 3 of a header"
    EMPTY_MARK = "a tape mark has data"
    MARK_BETWEEN_BLOCKS = "a tape mark is inside a block"
    BLOCK_AFTER_BLOCK = "a block begins inside a block"
    BLOCK_OPEN = "a chunk continues a block, and none is open"
    ONE_METHOD = "the chunks of a block are compressed in different ways"
    PACKED_DATA = "the compressed data of a block is damaged"
    SOME_DATA = "a block is empty"
    SHORT_BLOCK = "a block is too long"
    ROOM = "the tape is too short for its items"
    BLOCK_ENDS = "the image ends inside a block"
    READABLE = "the image cannot be read"


class DiskRule(Enum):
    """A rule for images of disks, as `TapeRule`."""

    WHOLE_HEADER = "the header of the image is cut short"
    EYE_CATCHER = "the file is no image of a disk"
    ONE_FILE = "the image is a part of a split volume"
    HEADS = "a disk has 1 to 65,535 heads"
    TRACK_BYTES = "a track has 30 to 65,549 bytes in an image"
    WHOLE_CYLINDERS = "the image is cut short"
    TRACKS = "the image has more than 65,535 tracks"
    HOME_ADDRESS = "the home address names another track"
    RECORD_0 = "a track has no record"
    END_MARK = "the records of a track have no end"
    RECORDS_FIT = "a record goes past the end of its track"
    PACKED_HEADER = "the header of the compressed image is damaged"
    PACKED_TABLE = "a table of the compressed image is damaged"
    PACKED_TRACK = "a compressed track is damaged"
    NO_SHADOW = "the image is a shadow file"
    READABLE = "the image cannot be read"


Rule = Union[TapeRule, DiskRule]


class ImageFault(Exception):
    """An image breaks a rule. `offset` is the byte of the file, counted from 0; `more` goes on with
    the sentence that the rule begins: what was found, then what must be."""

    def __init__(self, rule: Rule, offset: int, more: str = "") -> None:
        super().__init__(f"byte {offset}: {rule.value}{more}")
        self.rule, self.offset, self.more = rule, offset, more
