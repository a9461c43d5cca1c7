"""The files of images, opened and read."""

from __future__ import annotations

import contextlib
import os
import stat
from typing import BinaryIO, Iterator, List, Optional, Protocol, Union

from ..files.opening import why_unopened
from ..script.limits import LEAST_TAPE_BYTES
from . import cckd, ckd
from .aws import read_items
from .cckd import PackedDisk
from .ckd import PlainDisk, Sizes, read_header
from .faults import DiskRule, ImageFault, TapeRule
from .kinds import HEAD, why_no_image
from .media import Disk, Geometry, Medium, Tape, TapeItem, TapeSize, Track, item_bytes
from .progress import reader


class Unreadable(Exception):
    """The file of an image is not read. The text is the sentence for it."""

    def __init__(self, name: str, sentence: str) -> None:
        super().__init__(sentence)
        self.name, self.sentence = name, sentence


class DiskImage(Protocol):
    """An image of a disk of any format."""

    sizes: Sizes

    @property
    def form(self) -> str:
        """The name of its format."""

    def tracks(self, first: int = 0) -> Iterator[Track]:
        """The tracks from this one on. Raises ImageFault for the first rule that one breaks."""


def size_of_file(name: str) -> int:
    """The bytes of the file of an image. Asked for before it is opened, since to open a pipe waits
    for its writer.

    Raises Unreadable if it is no file that an image may be in.
    """
    try:
        found = os.stat(name)
    except OSError as error:
        raise Unreadable(name, why_unopened(error)) from error
    except ValueError as error:
        # a NUL in the name
        raise Unreadable(name, "there is no such file") from error
    if stat.S_ISDIR(found.st_mode):
        raise Unreadable(name, "it is a directory")
    if not stat.S_ISREG(found.st_mode):
        raise Unreadable(name, "it is a device or a pipe")
    return found.st_size


@contextlib.contextmanager
def opened_image(name: str) -> Iterator[BinaryIO]:
    """The file of an image. A fault of the image inside becomes Unreadable, with what the file may
    be otherwise."""
    size = size_of_file(name)
    try:
        file = reader(name)
    except OSError as error:
        raise Unreadable(name, why_unopened(error)) from error
    with file:
        try:
            yield file
        except ImageFault as fault:
            raise Unreadable(name, why_no_image(fault, _head_of(file), size)) from fault
        except OSError as error:
            raise Unreadable(name, TapeRule.READABLE.value) from error


def _head_of(file: BinaryIO) -> bytes:
    try:
        file.seek(0)
        return file.read(HEAD)
    except OSError:
        return b""


def is_disk(file: BinaryIO) -> bool:
    """Whether a file begins as the image of a disk of any format. Else it is taken for one of a
    tape."""
    file.seek(0)
    first = file.read(4)
    file.seek(0)
    return first == b"CKD_"


def disk_image(file: BinaryIO) -> Union[PlainDisk, PackedDisk]:
    """The image of a disk in a file. Raises ImageFault for the first rule that its header
    breaks."""
    header = read_header(file)
    if header.startswith(ckd.EYE_CATCHER):
        return PlainDisk(file, header)
    if header.startswith(cckd.EYE_CATCHER):
        return PackedDisk(file, header)
    begins = header[:8].decode("ascii", "replace")
    if not begins.isprintable():
        begins = f"X'{header[:8].hex().upper()}'"
    more = f": it begins with '{begins}', must begin with 'CKD_P370' or 'CKD_C370'"
    raise ImageFault(DiskRule.EYE_CATCHER, 0, more)


def size_of_disk(image: DiskImage, tracks: int) -> Geometry:
    """The size of a disk with this number of tracks, which are whole cylinders."""
    return Geometry(tracks // image.sizes.heads, image.sizes.heads, image.sizes.track_bytes)


def read_image(name: str, most: Optional[int] = None) -> Medium:
    """The medium of an image, or of one with more than `most` bytes the part that has fewer, with
    the size of the whole one.

    Raises Unreadable if the file cannot be read, or breaks a rule.
    """
    with opened_image(name) as file:
        return _read_disk(disk_image(file), most) if is_disk(file) else _read_tape(file, most)


def _read_disk(image: DiskImage, most: Optional[int]) -> Disk:
    tracks: List[Track] = []
    count = 0
    for count, track in enumerate(image.tracks(), 1):
        if most is None or count * image.sizes.track_bytes <= most:
            tracks.append(track)
    return Disk(size_of_disk(image, count), tracks)


def _read_tape(file: BinaryIO, most: Optional[int]) -> Tape:
    items: List[TapeItem] = []
    used = 0
    for data, _ in read_items(file):
        used += item_bytes(data)
        if most is None or used <= most:
            items.append(data)
    return Tape(TapeSize(max(used, LEAST_TAPE_BYTES)), items)
