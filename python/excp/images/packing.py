"""Data that is compressed by zlib or bzip2, and a bound for what it is unpacked to."""

from __future__ import annotations

from enum import IntEnum
from typing import Tuple


class Packing(IntEnum):
    """How data is compressed: the numbers are those of HET and CCKD images."""

    NONE = 0
    ZLIB = 1
    BZIP2 = 2


class Unpackable(Exception):
    """Data that is not unpacked; the text goes on with a sentence."""


class TooLong(Unpackable):
    """Data that is unpacked to more than the most bytes."""


def unpacked(data: bytes, packing: Packing, most: int) -> bytes:
    """Unpacks data to at most this many bytes. Never takes memory for more.

    Raises TooLong, or Unpackable for data that is damaged, cut short or has bytes after its end.
    """
    if packing is Packing.NONE:
        if len(data) > most:
            raise TooLong(f"more than {most:,} bytes")
        return data
    found, is_whole = _zlib(data, most + 1) if packing is Packing.ZLIB else _bzip2(data, most + 1)
    if len(found) > most:
        raise TooLong(f"more than {most:,} bytes when it is unpacked")
    if not is_whole:
        raise Unpackable("it is cut short, or bytes follow its end")
    return found


def packed(data: bytes, level: int) -> bytes:
    """Compresses data by zlib."""
    # imported when it is needed, as in `_zlib`: a Python may be built without it
    import zlib

    return zlib.compress(data, level)


def _zlib(data: bytes, most: int) -> Tuple[bytes, bool]:
    """At most `most` bytes of the data unpacked by zlib, and whether data and result end
    together."""
    try:
        import zlib
    except ImportError as error:
        raise Unpackable("this Python has no module zlib") from error
    unpacker = zlib.decompressobj()
    try:
        found = unpacker.decompress(data, most)
    except zlib.error as error:
        raise Unpackable("it is no data of zlib") from error
    return found, unpacker.eof and not unpacker.unused_data


def _bzip2(data: bytes, most: int) -> Tuple[bytes, bool]:
    """As `_zlib`, by bzip2."""
    try:
        import bz2
    except ImportError as error:
        raise Unpackable("this Python has no module bz2") from error
    unpacker = bz2.BZ2Decompressor()
    try:
        found = unpacker.decompress(data, most)
    except (OSError, ValueError) as error:
        raise Unpackable("it is no data of bzip2") from error
    return found, unpacker.eof and not unpacker.unused_data
