"""Images whose media stay in their files: their sizes, and single tracks if they are asked for."""

from __future__ import annotations

from dataclasses import dataclass
from typing import Optional, Union

from .aws import read_items
from .media import Geometry, Track, item_bytes
from .reading import Unreadable, disk_image, is_disk, opened_image, size_of_disk


@dataclass(frozen=True)
class TapeFile:
    """The image of a tape: the bytes that its items take, and those of its shortest block, if it
    has one."""

    used: int
    shortest: Optional[int]


@dataclass(frozen=True)
class DiskFile:
    """The image of a disk: its file, and its size."""

    name: str
    size: Geometry

    def track(self, number: int) -> Track:
        """The records of a track; none if the file has changed, so that it cannot be read."""
        try:
            with opened_image(self.name) as file:
                return next(disk_image(file).tracks(number), [])
        except Unreadable:
            return []


MeasuredImage = Union[TapeFile, DiskFile]


def measured(name: str) -> MeasuredImage:
    """Tests a whole image, and keeps only its size. Raises Unreadable if the file cannot be read,
    or breaks a rule."""
    with opened_image(name) as file:
        if is_disk(file):
            image = disk_image(file)
            return DiskFile(name, size_of_disk(image, sum(1 for _ in image.tracks())))
        used = 0
        shortest: Optional[int] = None
        for data, _ in read_items(file):
            used += item_bytes(data)
            if data is not None:
                shortest = len(data) if shortest is None else min(shortest, len(data))
        return TapeFile(used, shortest)
