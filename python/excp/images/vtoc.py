"""The data sets of a disk, by its VTOC.

Data set control blocks of formats 1 and 4 are those of z/OS DFSMSdfp Advanced Services, "VTOC". A
place in a block counts from its data, which comes after its key of 44 bytes.
"""

from __future__ import annotations

from typing import Iterator, Tuple

from ..script.reading import count_of
from .ebcdic import without_blanks
from .media import Record
from .reading import DiskImage

# The identifiers of blocks.
DATA_SET, OF_VTOC = 0xF1, 0xF4

KEY_BYTES = 44
EXTENTS, ORGANIZATION, RECORD_FORMAT = 15, 38, 40
BLOCK_LENGTH, RECORD_LENGTH, FIRST_EXTENT = 42, 44, 61

# In an extent: the place of its first CCHH and of its last one.
LOWER_LIMIT, UPPER_LIMIT = 2, 6

# The bits of each organization, and those of a record format, with their letters.
ORGANIZATIONS = ((0x4000, "PS"), (0x0200, "PO"), (0x2000, "DA"), (0x8000, "IS"), (0x0008, "VS"))
LENGTHS = {0x80: "F", 0x40: "V", 0xC0: "U", 0x00: "?"}
LENGTH_BITS = 0xC0
FORMAT_LETTERS = ((0x10, "B"), (0x08, "S"), (0x04, "A"), (0x02, "M"))


def vtoc_lines(image: DiskImage, cchhr: bytes) -> Iterator[str]:
    """A line for each data set that a VTOC names, which begins with the record of this CCHHR."""
    heads = image.sizes.heads
    start = _track(cchhr, 0, heads)
    if _halfword(cchhr, 2) < heads:
        for record in _records(image, start, start):
            if record.id == cchhr and record.data[:1] == bytes([OF_VTOC]):
                for block in _records(image, *_first_extent(record.data, heads)):
                    if len(block.key) == KEY_BYTES and block.data[:1] == bytes([DATA_SET]):
                        yield _data_set(block, heads)
                return
    yield "the label names a VTOC that is not there"


def _halfword(data: bytes, place: int) -> int:
    """Two bytes as a number; 0 if there are fewer."""
    field = data[place : place + 2]
    return int.from_bytes(field, "big") if len(field) == 2 else 0


def _byte(data: bytes, place: int) -> int:
    return data[place] if place < len(data) else 0


def _track(data: bytes, place: int, heads: int) -> int:
    """The number of the track whose CCHH is at a place."""
    return _halfword(data, place) * heads + _halfword(data, place + 2)


def _first_extent(data: bytes, heads: int) -> Tuple[int, int]:
    """The first and the last track of the first extent in a block."""
    first, last = (_track(data, FIRST_EXTENT + at, heads) for at in (LOWER_LIMIT, UPPER_LIMIT))
    return first, last


def _records(image: DiskImage, first: int, last: int) -> Iterator[Record]:
    """The records of those of these tracks that the disk has."""
    if first > last:
        return
    for number, track in enumerate(image.tracks(first), first):
        yield from track
        if number == last:
            return


def _data_set(block: Record, heads: int) -> str:
    """What a block says of a data set."""
    data = block.data
    first, last = _first_extent(data, heads)
    cylinder, head = (_halfword(data, FIRST_EXTENT + LOWER_LIMIT + at) for at in (0, 2))
    extent = f"the first of {count_of(max(last - first, 0) + 1, 'track')} from {cylinder} {head}"
    return (
        f"data set {without_blanks(block.key)}: {_organization(data)} {_record_format(data)}, "
        f"block length {_halfword(data, BLOCK_LENGTH)}, "
        f"record length {_halfword(data, RECORD_LENGTH)}, "
        f"{count_of(_byte(data, EXTENTS), 'extent')}, {extent}"
    )


def _organization(data: bytes) -> str:
    bits = _halfword(data, ORGANIZATION)
    return next((name for bit, name in ORGANIZATIONS if bits & bit), "??")


def _record_format(data: bytes) -> str:
    bits = _byte(data, RECORD_FORMAT)
    letters = "".join(letter for bit, letter in FORMAT_LETTERS if bits & bit)
    return LENGTHS[bits & LENGTH_BITS] + letters
