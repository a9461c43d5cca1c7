"""What images hold, in words: size, label, number of records or blocks, and data sets.

Labels are IBM standard labels in EBCDIC (z/OS DFSMS Using Magnetic Tapes).
"""

from __future__ import annotations

from dataclasses import dataclass, field
from itertools import islice
from typing import BinaryIO, Iterator, List

from ..script.limits import LEAST_TAPE_BYTES
from ..script.reading import count_of
from .aws import read_items
from .ebcdic import without_blanks
from .media import Track, item_bytes
from .packing import Packing
from .reading import DiskImage, disk_image, is_disk, opened_image, size_of_disk
from .vtoc import vtoc_lines

LABEL_BYTES = 80
VOL1, HDR1, HDR2 = (name.encode("cp037") for name in ("VOL1", "HDR1", "HDR2"))


def described(name: str) -> List[str]:
    """The lines that describe the image in a file; the first one goes on after its name.

    Raises Unreadable if the file cannot be read, or breaks a rule.
    """
    with opened_image(name) as file:
        return list(_disk_lines(disk_image(file)) if is_disk(file) else _tape_lines(file))


def _field(data: bytes, place: int, length: int) -> str:
    """A field of a label as text."""
    return without_blanks(data[place : place + length])


# --- tapes


@dataclass
class _TapeSummary:
    """What was found of a tape so far."""

    blocks: int = 0
    marks: int = 0
    longest: int = 0
    used: int = 0
    packed: int = 0
    labels: List[str] = field(default_factory=list)

    @property
    def form(self) -> str:
        """The name of the format of the image."""
        if self.packed:
            return "HET"
        return "AWSTAPE" if self.used else "AWSTAPE: the file is empty"


def _tape_lines(file: BinaryIO) -> Iterator[str]:
    found = _summary(file)
    yield f"tape image, {found.form}"
    blocks = f"{count_of(found.blocks, 'block')}, the longest of {count_of(found.longest, 'byte')}"
    yield f"{blocks}; {count_of(found.marks, 'tape mark')}"
    if found.packed:
        yield f"{count_of(found.packed, 'block')} compressed"
    yield f"line of a script: tape U ISC {max(found.used, LEAST_TAPE_BYTES)}"
    yield from found.labels


def _summary(file: BinaryIO) -> _TapeSummary:
    found = _TapeSummary()
    for data, packing in read_items(file):
        found.used += item_bytes(data)
        if data is None:
            found.marks += 1
            continue
        found.blocks += 1
        found.longest = max(found.longest, len(data))
        if packing is not Packing.NONE:
            found.packed += 1
        if len(data) == LABEL_BYTES:
            found.labels += _label_lines(data)
    return found


def _label_lines(block: bytes) -> List[str]:
    """What a block says, if it is a label of a volume or a data set."""
    if block.startswith(VOL1):
        return [f"volume {_field(block, 4, 6)}"]
    if block.startswith(HDR1):
        return [f"data set {_field(block, 4, 17)}"]
    if block.startswith(HDR2):
        lengths = f"block length {_field(block, 5, 5)}, record length {_field(block, 10, 5)}"
        return [f"  record format {_field(block, 4, 1)}, {lengths}"]
    return []


# --- disks


def _disk_lines(image: DiskImage) -> Iterator[str]:
    records = longest = tracks = 0
    first: Track = []
    for track in image.tracks():
        first = first or track
        tracks += 1
        records += len(track) - 1
        for record in track[1:]:
            longest = max(longest, len(record.data))
    size = size_of_disk(image, tracks)
    yield f"disk image, {image.form}"
    shape = f"{count_of(size.cylinders, 'cylinder')} of {count_of(size.heads, 'head')}"
    yield f"{shape}, {size.track_bytes} bytes a track"
    found = f"{count_of(records, 'record')} beside R0"
    yield f"{found}, the longest data area of {count_of(longest, 'byte')}"
    yield f"line of a script: disk U ISC {size.cylinders} {size.heads} {size.track_bytes}"
    labels = (it.data for it in first if len(it.data) == LABEL_BYTES and it.data.startswith(VOL1))
    # a volume has one label: to follow each of many would cost a pass over the disk for each
    for label in islice(labels, 1):
        yield f"volume {_field(label, 4, 6)}"
        yield from vtoc_lines(image, label[11:16])
