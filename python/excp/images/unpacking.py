"""Compressed images as plain ones, which programs load."""

from __future__ import annotations

import contextlib
import tempfile
from typing import BinaryIO, Iterator, cast

from ..files.opening import why_unopened
from . import ckd
from .aws import HEADER, PACKING_BITS, aws_image, read_items
from .cckd import EYE_CATCHER
from .reading import DiskImage, Unreadable, disk_image, is_disk, opened_image, size_of_file

# The bytes that are read at a time to look at headers alone.
_HEADERS_AT_A_TIME = 4096


def is_packed(file: BinaryIO) -> bool:
    """Whether the image in a file is compressed, all or in part. One that breaks a rule need not
    be judged."""
    if is_disk(file):
        return file.read(len(EYE_CATCHER)) == EYE_CATCHER
    file.seek(0)
    before = 0
    while len(header := file.read(HEADER.size)) == HEADER.size:
        length, previous, flags, _ = HEADER.unpack(header)
        if flags & PACKING_BITS or previous != before:
            return bool(previous == before)
        file.seek(length, 1)
        before = length
    return False


def plain_image(file: BinaryIO) -> Iterator[bytes]:
    """The bytes of a plain image of the same medium. Raises ImageFault for the first rule that the
    image in the file breaks."""
    if not is_disk(file):
        return aws_image(data for data, _ in read_items(file))
    image = disk_image(file)
    header = ckd.read_header(file)
    return _plain_disk(ckd.EYE_CATCHER + header[len(EYE_CATCHER) :], image)


def _plain_disk(header: bytes, image: DiskImage) -> Iterator[bytes]:
    yield header
    yield from ckd.images_of_tracks(image.tracks(), image.sizes.heads, image.sizes.track_bytes)


def plain_file(name: str) -> BinaryIO:
    """The file of an image, open, if it is plain; else one without a name, with a plain image of
    the same medium. Raises Unreadable."""
    size_of_file(name)
    with contextlib.ExitStack() as opened:
        try:
            file = opened.enter_context(open(name, "rb", _HEADERS_AT_A_TIME))
            if not is_packed(file):
                opened.pop_all()
                return file
        except OSError as error:
            raise Unreadable(name, why_unopened(error)) from error
    with opened_image(name) as packed:
        return _unpacked(name, plain_image(packed))


def _unpacked(name: str, parts: Iterator[bytes]) -> BinaryIO:
    with contextlib.ExitStack() as opened:
        try:
            # it has no name, so it is gone when the last of its users ends
            plain = cast(BinaryIO, opened.enter_context(tempfile.TemporaryFile()))
            plain.writelines(parts)
            plain.flush()
        except OSError as error:
            # what reads an image has other errors
            raise Unreadable(name, f"it cannot be unpacked: {error.strerror}") from error
        opened.pop_all()
    return plain
