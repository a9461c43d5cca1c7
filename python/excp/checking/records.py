"""The records of a medium as it is mounted: how long each is, by its track and its ID."""

from __future__ import annotations

import struct
from typing import Iterable, NamedTuple, Optional, Protocol, Sequence

from ..images.measured import DiskFile, MeasuredImage
from ..script.grammar import Block
from ..script.set_up import Unit


class RecordLengths(NamedTuple):
    """The bytes of the key and of the data of a record."""

    key: int
    data: int


# R0 of a track that no image has.
_R0 = RecordLengths(0, 8)


class Records(Protocol):
    """The records of a medium."""

    def only_one(self, cylinder: int, head: int, identifier: bytes) -> Optional[RecordLengths]:
        """The record of a track with this ID, CCHHR, if it is the only one."""

    def shortest(self, cylinder: int, head: int, has_r0: bool) -> Optional[int]:
        """The bytes of data of the shortest record of a track, with R0 or without, or of the
        shortest block of a tape; None if it has none."""


class RecordsOfLines:
    """The records of a unit that lines of its script say, and R0 of each track."""

    def __init__(self, unit: Unit) -> None:
        self._unit = unit

    def only_one(self, cylinder: int, head: int, identifier: bytes) -> Optional[RecordLengths]:
        track = struct.pack(">HH", cylinder, head)
        if identifier == track + b"\0":
            return _R0
        found = self._unit.records_by_identifier.get(identifier, [])
        if len(found) != 1 or not identifier.startswith(track):
            return None
        return RecordLengths(len(found[0].key), len(found[0].data))

    def shortest(self, cylinder: int, head: int, has_r0: bool) -> Optional[int]:
        blocks = [len(it.data) for it in self._unit.content if isinstance(it, Block)]
        records = self._unit.records
        of_track = [len(it.data) for it in records if (it.cylinder, it.head) == (cylinder, head)]
        return _least([*blocks, *of_track], has_r0)


class _Record(NamedTuple):
    """A record of a track from an image: CCHHR, and its lengths."""

    identifier: bytes
    lengths: RecordLengths


class RecordsOfImage:
    """The records of a medium from an image. An ID may be that of another track."""

    def __init__(self, image: MeasuredImage) -> None:
        self._image = image
        # The tracks that were read so far, by their numbers.
        self._tracks: dict[int, Sequence[_Record]] = {}

    def only_one(self, cylinder: int, head: int, identifier: bytes) -> Optional[RecordLengths]:
        track = self._track(cylinder, head)
        found = [record.lengths for record in track if record.identifier == identifier]
        return found[0] if len(found) == 1 else None

    def shortest(self, cylinder: int, head: int, has_r0: bool) -> Optional[int]:
        if not isinstance(self._image, DiskFile):
            return self._image.shortest
        return _least((it.lengths.data for it in self._track(cylinder, head)[1:]), has_r0)

    def _track(self, cylinder: int, head: int) -> Sequence[_Record]:
        """The records of a track, with R0; of a tape none."""
        image = self._image
        if not isinstance(image, DiskFile):
            return ()
        number = cylinder * image.size.heads + head
        if number not in self._tracks:
            self._tracks[number] = [
                _Record(it.id, RecordLengths(len(it.key), len(it.data)))
                for it in image.track(number)
            ]
        return self._tracks[number]


def _least(lengths: Iterable[int], has_r0: bool) -> Optional[int]:
    """The shortest length, with that of R0 among them or without."""
    least = min(lengths, default=None)
    if least is None:
        return None
    return min(least, _R0.data) if has_r0 else least


def records_of(unit: Unit, image: Optional[MeasuredImage]) -> Records:
    """The records of a unit, whose medium is from this image if there is one."""
    if image is None:
        return RecordsOfLines(unit)
    return RecordsOfImage(image)
