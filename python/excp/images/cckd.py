"""Images of disks in the format CKD_C370, read: each track is compressed by itself (cckd.h of
Hercules 3; docs/FORMATS.md).

After the header of 512 bytes, which is that of a plain image, comes one of the compressed image,
and then a table of the places of other tables. Each of these has an entry for 256 tracks: the place
of the track in the file and its length, or that it is a null track, which is in the file by the
number of its form alone.
"""

from __future__ import annotations

import struct
from dataclasses import dataclass
from typing import BinaryIO, Iterator, List, Tuple

from ..script.limits import MOST_TRACKS
from .ckd import COUNT, END_MARK, HEADER, HOME, judge_home_address, records_of, sizes_of
from .faults import DiskRule, ImageFault
from .media import Geometry, Track, mounted_r0, track_id
from .packing import Packing, Unpackable, unpacked

EYE_CATCHER = b"CKD_C370"

# The header of a compressed image: its place, those of its fields, and the bit of its options for
# numbers with the high byte first.
PACKED_HEADER = 512
OPTIONS, TABLES, TRACKS_OF_TABLE, CYLINDERS, NULL_FORM = (
    PACKED_HEADER + at for at in (3, 4, 8, 40, 44)
)
HIGH_BYTE_FIRST = 0x02

FIRST_TABLE = 2 * PACKED_HEADER
TRACKS_A_TABLE = 256

# In place of an offset: the track is in the file of which this is a shadow.
ELSEWHERE = 0xFFFF_FFFF

# The forms of null tracks: an end of file after R0, nothing after R0, and twelve records of 4,096
# zeros.
WITH_END_OF_FILE, EMPTY, OF_LINUX = range(3)
LINUX_RECORDS, LINUX_BYTES = 12, 4096


@dataclass(frozen=True)
class _Entry:
    """What a table says of a track: its place in the file, its length there, and the place of the
    entry itself."""

    place: int
    length: int
    offset: int


class PackedDisk:
    """An image in the format CKD_C370, which is read track by track. Each pass over its tracks
    judges them."""

    form = "CKD_C370, compressed"

    def __init__(self, file: BinaryIO, header: bytes) -> None:
        self._file = file
        self.sizes = sizes_of(header)
        both = header + self._read_header()
        order = ">" if both[OPTIONS] & HIGH_BYTE_FIRST else "<"
        self._number, self._entry = struct.Struct(f"{order}I"), struct.Struct(f"{order}IHH")
        self.size = self._size_of(both)
        self._null_form = both[NULL_FORM]
        if self._null_form > OF_LINUX:
            more_text = f": byte {NULL_FORM} is {self._null_form:02X}, must be 00, 01 or 02"
            raise ImageFault(DiskRule.PACKED_HEADER, NULL_FORM, more_text)
        self._tables = self._places_of_tables(both)

    def _read_header(self) -> bytes:
        """The header of the compressed image, after that of a plain one."""
        try:
            self._file.seek(HEADER)
            found = self._file.read(PACKED_HEADER)
        except OSError as error:
            raise ImageFault(DiskRule.READABLE, HEADER) from error
        if len(found) < PACKED_HEADER:
            read = HEADER + len(found)
            raise ImageFault(DiskRule.WHOLE_HEADER, read, f": {read} of {FIRST_TABLE} bytes")
        return found

    def _read(self, offset: int, length: int, rule: DiskRule) -> bytes:
        """`length` bytes of the file. Raises ImageFault if it has fewer."""
        try:
            self._file.seek(offset)
            found = self._file.read(length)
        except OSError as error:
            raise ImageFault(DiskRule.READABLE, offset) from error
        if len(found) < length:
            raise ImageFault(rule, offset, f": the file ends after {len(found)} of {length} bytes")
        return found

    def _size_of(self, header: bytes) -> Geometry:
        cylinders = int.from_bytes(header[CYLINDERS : CYLINDERS + 4], "little")
        most = MOST_TRACKS // self.sizes.heads
        if not 1 <= cylinders <= most:
            more = f": {cylinders} cylinders, must be 1 to {most:,} of {self.sizes.heads} heads"
            raise ImageFault(DiskRule.PACKED_HEADER, CYLINDERS, more)
        return Geometry(cylinders, self.sizes.heads, self.sizes.track_bytes)

    def _places_of_tables(self, header: bytes) -> Tuple[int, ...]:
        """The places of the tables with the entries of tracks."""
        wanted = -(-self.size.tracks // TRACKS_A_TABLE)
        for place, least in ((TABLES, wanted), (TRACKS_OF_TABLE, TRACKS_A_TABLE)):
            (number,) = self._number.unpack_from(header, place)
            if number < least or (place == TRACKS_OF_TABLE and number != least):
                more = f": the number of its entries is {number}, must be {least}"
                raise ImageFault(DiskRule.PACKED_TABLE, place, more)
        table = self._read(FIRST_TABLE, wanted * self._number.size, DiskRule.PACKED_TABLE)
        return tuple(place for (place,) in self._number.iter_unpack(table))

    def tracks(self, first: int = 0) -> Iterator[Track]:
        """The tracks from this one on, in their order. Raises ImageFault for the first rule that
        one breaks."""
        entries: List[_Entry] = []
        for number in range(first, self.size.tracks):
            table, at = divmod(number, TRACKS_A_TABLE)
            if not entries or at == 0:
                entries = self._entries(table)
            yield self._track(number, entries[at])

    def _entries(self, table: int) -> List[_Entry]:
        """The entries of a table. A table that is not in the file has null tracks alone."""
        place = self._tables[table]
        offset = FIRST_TABLE + table * self._number.size
        if place == ELSEWHERE:
            raise _shadow(offset)
        if place == 0:
            return [_Entry(0, self._null_form, offset)] * TRACKS_A_TABLE
        size = self._entry.size
        found = self._read(place, TRACKS_A_TABLE * size, DiskRule.PACKED_TABLE)
        entries = enumerate(self._entry.iter_unpack(found))
        return [
            _Entry(track, length, place + number * size) for number, (track, length, _) in entries
        ]

    def _track(self, number: int, entry: _Entry) -> Track:
        """The records of a track."""
        if entry.place == ELSEWHERE:
            raise _shadow(entry.offset)
        image = (
            self._unpacked_track(number, entry) if entry.place else self._null_track(number, entry)
        )
        place = entry.place or entry.offset
        try:
            return records_of(image.ljust(self.sizes.image_bytes, b"\0"), self.sizes.track_bytes, 0)
        except ImageFault as fault:
            where = f"byte {fault.offset} of the track when it is unpacked"
            more = f": {fault.rule.value}{fault.more} ({where})"
            raise ImageFault(DiskRule.PACKED_TRACK, place, more) from fault

    def _unpacked_track(self, number: int, entry: _Entry) -> bytes:
        most = self.sizes.image_bytes
        if not HOME <= entry.length <= most:
            raise ImageFault(
                DiskRule.PACKED_TABLE,
                entry.offset,
                f": a track has {entry.length} bytes, must have {HOME} to {most:,}",
            )
        image = self._read(entry.place, entry.length, DiskRule.PACKED_TRACK)
        judge_home_address(image, number, self.sizes.heads, entry.place)
        try:
            return b"\0" + image[1:HOME] + unpacked(image[HOME:], Packing(image[0]), most - HOME)
        except ValueError as error:
            more = f": byte 0 is {image[0]:02X}, must be 00, 01 (zlib) or 02 (bzip2)"
            raise ImageFault(DiskRule.PACKED_TRACK, entry.place, more) from error
        except Unpackable as error:
            raise ImageFault(DiskRule.PACKED_TRACK, entry.place, f": {error}") from error

    def _null_track(self, number: int, entry: _Entry) -> bytes:
        """The image of a track that is not in the file. Its form is in the place of its length."""
        form = entry.length
        if form > OF_LINUX or (form == WITH_END_OF_FILE and self._null_form == OF_LINUX):
            form = self._null_form
        cchh = track_id(number, self.sizes.heads)
        zero = mounted_r0(cchh)
        image = b"\0" + cchh + COUNT.pack(zero.id, 0, len(zero.data)) + zero.data
        if form == WITH_END_OF_FILE:
            image += COUNT.pack(cchh + b"\1", 0, 0)
        elif form == OF_LINUX:
            for record in range(1, LINUX_RECORDS + 1):
                image += COUNT.pack(cchh + bytes([record]), 0, LINUX_BYTES) + bytes(LINUX_BYTES)
        return image + END_MARK


def _shadow(offset: int) -> ImageFault:
    return ImageFault(
        DiskRule.NO_SHADOW, offset, ": a track is in the file below it; make a plain image of both"
    )
