"""Images of disks in the format CKD_P370, read and written, and the tracks that all formats share
(docs/FORMATS.md)."""

from __future__ import annotations

import struct
from dataclasses import dataclass
from typing import BinaryIO, Iterable, Iterator, NamedTuple, Optional

from ..script.limits import LEAST_TRACK_BYTES, MOST_TRACK_BYTES, MOST_TRACKS
from ..script.reading import count_of
from .faults import DiskRule, ImageFault
from .media import Disk, Geometry, Record, Track, track_id

EYE_CATCHER = b"CKD_P370"
HEADER = 512
SIZES = struct.Struct("<II")

# The place of the heads, of the bytes of a track, of the type of the device, and of the number of a
# split volume's file.
HEADS, TRACK_BYTES, DEVICE_TYPE, FILE_NUMBER = 8, 12, 16, 17

HOME = 5
COUNT = struct.Struct(">5sBH")
END_MARK = b"\xff" * 8

# The bytes of a track in an image that no record has: home address and end mark, rounded.
BESIDE_RECORDS = 14
MOST_HEADS = 65_535
LEAST_TRACK = LEAST_TRACK_BYTES + BESIDE_RECORDS
MOST_TRACK = MOST_TRACK_BYTES + BESIDE_RECORDS


class Model(NamedTuple):
    """A model of disks: heads, bytes a track, and the low byte of its type."""

    heads: int
    track_bytes: int
    device_type: int


MODELS = {
    "2305-1": Model(8, 14_322, 0x05),
    "2305-2": Model(8, 14_834, 0x05),
    "2311": Model(10, 4_082, 0x11),
    "2314": Model(20, 7_666, 0x14),
    "3330": Model(19, 13_298, 0x30),
    "3340": Model(12, 8_690, 0x40),
    "3350": Model(30, 19_442, 0x50),
    "3375": Model(12, 35_826, 0x75),
    "3380": Model(15, 47_602, 0x80),
    "3390": Model(15, 56_818, 0x90),
    "9345": Model(15, 46_578, 0x45),
}


@dataclass(frozen=True)
class Sizes:
    """What the header of an image says: the heads, and the bytes of a track in the image."""

    heads: int
    image_bytes: int

    @property
    def track_bytes(self) -> int:
        """The bytes of a track on the disk."""
        return self.image_bytes - BESIDE_RECORDS


def sizes_of(header: bytes) -> Sizes:
    """What a header of 512 bytes says. Raises ImageFault for the first rule that it breaks."""
    heads, track = SIZES.unpack_from(header, HEADS)
    if not 1 <= heads <= MOST_HEADS:
        raise ImageFault(DiskRule.HEADS, HEADS, f", and this one {heads}")
    if not LEAST_TRACK <= track <= MOST_TRACK:
        raise ImageFault(DiskRule.TRACK_BYTES, TRACK_BYTES, f", and this one {track}")
    if header[FILE_NUMBER]:
        more = f", file {header[FILE_NUMBER]}; copy the whole volume to one file"
        raise ImageFault(DiskRule.ONE_FILE, FILE_NUMBER, more)
    return Sizes(heads, track)


def read_header(file: BinaryIO) -> bytes:
    """The first 512 bytes of an image, which any format has. Raises ImageFault if it is shorter."""
    try:
        file.seek(0)
        header = file.read(HEADER)
    except OSError as error:
        raise ImageFault(DiskRule.READABLE, 0) from error
    if len(header) < HEADER:
        raise ImageFault(DiskRule.WHOLE_HEADER, len(header), f": {len(header)} of {HEADER} bytes")
    return header


class PlainDisk:
    """An image in the format CKD_P370, which is read track by track.

    Each pass over its tracks judges them. One from the first track on judges the end of the file.
    """

    form = "CKD_P370"

    def __init__(self, file: BinaryIO, header: bytes) -> None:
        self._file = file
        self.sizes = sizes_of(header)

    def tracks(self, first: int = 0) -> Iterator[Track]:
        """The tracks from this one on, in their order. Raises ImageFault for a rule that is
        broken."""
        size, number = self.sizes.image_bytes, first
        offset = HEADER + first * size
        try:
            self._file.seek(offset)
            while len(image := self._file.read(size)) == size:
                if number >= MOST_TRACKS:
                    raise ImageFault(DiskRule.TRACKS, offset)
                judge_home_address(image, number, self.sizes.heads, offset)
                yield records_of(image, self.sizes.track_bytes, offset)
                number, offset = number + 1, offset + size
        except OSError as error:
            raise ImageFault(DiskRule.READABLE, offset) from error
        if first == 0:
            self._judge_end(number, offset, len(image))

    def _judge_end(self, tracks: int, offset: int, rest: int) -> None:
        """Raises ImageFault unless an image of `tracks` tracks ends after whole cylinders. `rest`
        is the number of bytes after them."""
        if rest or tracks == 0 or tracks % self.sizes.heads:
            cylinders, more = divmod(tracks, self.sizes.heads)
            found = f": {cylinders} cylinders and {more} tracks of {self.sizes.heads}"
            found += ", must be at least one whole cylinder"
            raise ImageFault(DiskRule.WHOLE_CYLINDERS, offset + rest, found)


def judge_home_address(image: bytes, number: int, heads: int, offset: int) -> None:
    """Raises ImageFault unless the home address of a track names it. The track begins at this
    offset of the file."""
    found = image[1:HOME]
    if found != track_id(number, heads):
        cylinder, head = divmod(number, heads)
        of, at = int.from_bytes(found[:2], "big"), int.from_bytes(found[2:], "big")
        more = f": cylinder {of}, head {at}, must be cylinder {cylinder}, head {head}"
        raise ImageFault(DiskRule.HOME_ADDRESS, offset, more)


def records_of(image: bytes, room: int, offset: int) -> Track:
    """The records of a track of an image with so much room for them, which begins at this offset of
    the file.

    Raises ImageFault for the first record that breaks a rule.
    """
    records, at, end = [], HOME, HOME + room
    while not image.startswith(END_MARK, at):
        left = end - at
        if left < COUNT.size:
            raise ImageFault(DiskRule.END_MARK, offset + at, ", must end in eight bytes FF")
        record_id, key_length, data_length = COUNT.unpack_from(image, at)
        key = at + COUNT.size
        data = key + key_length
        if data + data_length > end:
            more = f": {data + data_length - at} bytes, {left} are left"
            raise ImageFault(DiskRule.RECORDS_FIT, offset + at, more)
        at = data + data_length
        records.append(Record(record_id, image[key:data], image[data:at]))
    if not records:
        raise ImageFault(DiskRule.RECORD_0, offset + HOME, ", must have at least one: R0")
    return records


# --- images that are written


def model_of(heads: int, track_bytes: int) -> Optional[str]:
    """The name of the model with these numbers, if there is one."""
    return next(
        (name for name, it in MODELS.items() if (it.heads, it.track_bytes) == (heads, track_bytes)),
        None,
    )


def on_no_model(heads: int, track_bytes: int) -> str:
    """The sentence for a disk that is of no model."""
    models = " ".join(f"{name} ({it.heads}, {it.track_bytes})" for name, it in MODELS.items())
    numbers = f"{count_of(heads, 'head')} and {track_bytes} bytes a track"
    return f"no model of a disk has {numbers}; the models are {models}"


def new_header(size: Geometry, model: str) -> bytes:
    """The header of a new image of a disk of this model."""
    sizes = SIZES.pack(size.heads, size.track_bytes + BESIDE_RECORDS)
    return (EYE_CATCHER + sizes + bytes([MODELS[model].device_type])).ljust(HEADER, b"\0")


def ckd_image(disk: Disk, model: str) -> Iterator[bytes]:
    """The header and the tracks of the image of a disk of this model."""
    yield new_header(disk.size, model)
    yield from images_of_tracks(disk.tracks, disk.size.heads, disk.size.track_bytes)


def images_of_tracks(tracks: Iterable[Track], heads: int, track_bytes: int) -> Iterator[bytes]:
    """The tracks of a disk as a plain image has them."""
    for number, records in enumerate(tracks):
        home = b"\0" + track_id(number, heads)
        body = b"".join(
            COUNT.pack(it.id, len(it.key), len(it.data)) + it.key + it.data for it in records
        )
        yield (home + body + END_MARK).ljust(track_bytes + BESIDE_RECORDS, b"\0")
