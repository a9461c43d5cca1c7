"""Images of tapes, read and written: AWSTAPE, and HET, whose blocks may be compressed
(docs/FORMATS.md).

A HET image has the chunks of AWSTAPE. The data of a compressed block is compressed as a whole, and
then put into chunks.
"""

from __future__ import annotations

import struct
from dataclasses import dataclass, field
from typing import BinaryIO, Iterable, Iterator, List, NamedTuple, Optional, Tuple

from ..script.limits import MOST_DATA_BYTES, MOST_IMAGE_TAPE_BYTES
from .faults import ImageFault, TapeRule
from .media import TapeItem, item_bytes
from .packing import Packing, TooLong, Unpackable, packed, unpacked

HEADER = struct.Struct("<HHBB")

# Byte 4 of a header: these flags, and how the data of a block is compressed.
MARK, WHOLE, FIRST, MIDDLE, LAST = 0x40, 0xA0, 0x80, 0x00, 0x20
PACKING_BITS = 0x03
ENDS_BLOCK = 0x20
KNOWN_FLAGS = "40, A0, 80, 00 or 20; of compressed data A1, 81, 01, 21, A2, 82, 02 or 22"

# The level of zlib in an image that Hercules makes (hetlib.h, HETDFLT_LEVEL).
HET_LEVEL = 4

# The bytes of the header of a FakeTape file, in hexadecimal digits.
FAKE_HEADER = 12


class ReadItem(NamedTuple):
    """An item of a tape, and how its data is compressed in the image."""

    data: TapeItem
    packing: Packing


READ_MARK = ReadItem(None, Packing.NONE)


@dataclass
class _OpenBlock:
    """The chunks so far of a block that has no end yet: the offset of the first header, its
    packing, and their data."""

    offset: int
    packing: int
    parts: List[bytes] = field(default_factory=list)
    length: int = 0


def read_items(file: BinaryIO) -> Iterator[ReadItem]:
    """The items of an image, from its first byte to its last.

    Raises ImageFault at the first chunk that breaks a rule.
    """
    offset = 0
    try:
        if _is_fake(file.read(FAKE_HEADER)):
            raise ImageFault(TapeRule.NO_FAKE_TAPE, 0, "; copy the tape to an AWS file")
        file.seek(0)
        used = 0
        for offset, item in _items_of_chunks(file):
            used += item_bytes(item.data)
            if used > MOST_IMAGE_TAPE_BYTES:
                raise ImageFault(
                    TapeRule.ROOM,
                    offset,
                    f", must have at most {MOST_IMAGE_TAPE_BYTES:,} bytes of blocks and marks",
                )
            yield item
    except OSError as error:
        raise ImageFault(TapeRule.READABLE, offset) from error


def _is_fake(first: bytes) -> bool:
    return len(first) == FAKE_HEADER and all(byte in b"0123456789ABCDEF" for byte in first)


def _items_of_chunks(file: BinaryIO) -> Iterator[Tuple[int, ReadItem]]:
    """The items of an image, each with the offset of the header of its last chunk."""
    offset, previous = 0, 0
    block: Optional[_OpenBlock] = None
    while header := file.read(HEADER.size):
        length, flags = _judged(header, offset, previous, block)
        data = file.read(length)
        if len(data) < length:
            raise ImageFault(TapeRule.WHOLE_DATA, offset, f": {len(data)} of {length} bytes")
        if flags == WHOLE and length:
            yield offset, ReadItem(data, Packing.NONE)
        elif flags == MARK:
            yield offset, READ_MARK
        else:
            block = block or _OpenBlock(offset, flags & PACKING_BITS)
            _append(block, data, offset)
            if flags & ENDS_BLOCK:
                yield offset, _whole(block, offset)
                block = None
        offset += HEADER.size + length
        previous = length
    if block:
        raise ImageFault(TapeRule.BLOCK_ENDS, offset)


def _judged(
    header: bytes, offset: int, previous: int, block: Optional[_OpenBlock]
) -> Tuple[int, int]:
    """The length of the data of a chunk and its flags, if its header keeps all rules after a chunk
    of `previous` bytes."""
    if len(header) < HEADER.size:
        raise ImageFault(TapeRule.WHOLE_HEADER, offset, f": {len(header)} of {HEADER.size} bytes")
    length, before, flags, spare = HEADER.unpack(header)
    if spare:
        raise ImageFault(TapeRule.SPARE, offset, f" is {spare:02X}, must be 00")
    if before != previous:
        raise ImageFault(
            TapeRule.PREVIOUS,
            offset,
            f" are {before}, must be {previous}: the bytes of the chunk before it",
        )
    if flags == WHOLE and not block:
        return length, flags
    _judge_flags(flags, length, offset)
    _judge_place(flags, offset, block)
    return length, flags


def _judge_flags(flags: int, length: int, offset: int) -> None:
    """Raises ImageFault unless flags are known, and allow `length` bytes of data."""
    packing = flags & PACKING_BITS
    if (
        flags - packing not in (MARK, WHOLE, FIRST, MIDDLE, LAST)
        or packing == PACKING_BITS
        or (packing and flags & MARK)
    ):
        raise ImageFault(TapeRule.FLAGS, offset, f" is {flags:02X}, must be {KNOWN_FLAGS}")
    if flags == MARK and length:
        raise ImageFault(TapeRule.EMPTY_MARK, offset, f": {length} bytes, must have none")


def _judge_place(flags: int, offset: int, block: Optional[_OpenBlock]) -> None:
    """Raises ImageFault unless a chunk with these flags may come after the chunks so far."""
    is_first = bool(flags & FIRST)
    if block and flags == MARK:
        raise ImageFault(TapeRule.MARK_BETWEEN_BLOCKS, offset)
    if block and is_first:
        raise ImageFault(TapeRule.BLOCK_AFTER_BLOCK, offset)
    if not block and not is_first and flags != MARK:
        raise ImageFault(TapeRule.BLOCK_OPEN, offset)
    if block and flags & PACKING_BITS != block.packing:
        raise ImageFault(TapeRule.ONE_METHOD, offset)


def _append(block: _OpenBlock, data: bytes, offset: int) -> None:
    """Appends the data of a chunk to a block. What is compressed is shorter than the block
    itself."""
    block.parts.append(data)
    block.length += len(data)
    if block.length > MOST_DATA_BYTES:
        raise _too_long(offset)


def _too_long(offset: int) -> ImageFault:
    return ImageFault(
        TapeRule.SHORT_BLOCK,
        offset,
        f": more than {MOST_DATA_BYTES:,} bytes, must have 1 to {MOST_DATA_BYTES:,}",
    )


def _whole(block: _OpenBlock, offset: int) -> ReadItem:
    """A block that is complete. The header of its last chunk is at this offset."""
    packing = Packing(block.packing)
    try:
        data = unpacked(b"".join(block.parts), packing, MOST_DATA_BYTES)
    except TooLong as error:
        raise _too_long(block.offset) from error
    except Unpackable as error:
        raise ImageFault(TapeRule.PACKED_DATA, block.offset, f": {error}") from error
    if not data:
        raise ImageFault(TapeRule.SOME_DATA, offset, f", must have 1 to {MOST_DATA_BYTES:,} bytes")
    return ReadItem(data, packing)


# --- images that are written


def aws_image(items: Iterable[TapeItem]) -> Iterator[bytes]:
    """The chunks of a tape's AWSTAPE image: one for each item."""
    return _chunks((data or b"", MARK if data is None else WHOLE) for data in items)


def het_image(items: Iterable[TapeItem]) -> Iterator[bytes]:
    """The chunks of a tape's HET image. As in one that Hercules makes, a block is compressed if
    that makes it shorter."""
    return _chunks(_packed_chunk(data) for data in items)


def _packed_chunk(data: TapeItem) -> Tuple[bytes, int]:
    """The data of a chunk, and its flags."""
    if data is None:
        return b"", MARK
    shorter = packed(data, HET_LEVEL)
    return (shorter, WHOLE | Packing.ZLIB) if len(shorter) < len(data) else (data, WHOLE)


def _chunks(chunks: Iterable[Tuple[bytes, int]]) -> Iterator[bytes]:
    previous = 0
    for data, flags in chunks:
        yield HEADER.pack(len(data), previous, flags, 0) + data
        previous = len(data)
