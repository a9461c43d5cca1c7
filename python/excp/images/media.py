"""Media as data: a tape with its blocks and tape marks, and a disk with the records of its
tracks."""

from __future__ import annotations

from dataclasses import dataclass
from typing import List, NamedTuple, Optional, Union

from ..script.limits import ITEM_BYTES

# An item of a tape: the data of a block, or nothing for a tape mark.
TapeItem = Optional[bytes]


class Record(NamedTuple):
    """A record of a disk: CCHHR of its count area, key and data."""

    id: bytes
    key: bytes
    data: bytes


# The records of a track, the first of which is R0.
Track = List[Record]


@dataclass(frozen=True)
class Geometry:
    """The size of a disk: cylinders, heads (tracks a cylinder), and bytes a track."""

    cylinders: int
    heads: int
    track_bytes: int

    @property
    def tracks(self) -> int:
        """The number of tracks."""
        return self.cylinders * self.heads

    @property
    def bytes(self) -> int:
        """The bytes of all tracks together."""
        return self.tracks * self.track_bytes


@dataclass(frozen=True)
class TapeSize:
    """The size of a tape in bytes: those of its blocks, and four for each block and tape mark."""

    bytes: int


@dataclass
class Disk:
    """A disk: its size, and its tracks in their order."""

    size: Geometry
    tracks: List[Track]


@dataclass
class Tape:
    """A tape: its size, and its items from the load point on."""

    size: TapeSize
    items: List[TapeItem]


Medium = Union[Disk, Tape]


def item_bytes(item: TapeItem) -> int:
    """How many bytes of a tape an item takes."""
    return ITEM_BYTES + len(item or b"")


def track_id(number: int, heads: int) -> bytes:
    """CCHH of the track with this number."""
    cylinder, head = divmod(number, heads)
    return cylinder.to_bytes(2, "big") + head.to_bytes(2, "big")


def mounted_r0(cchh: bytes) -> Record:
    """The record 0 that mounting a new disk puts on a track."""
    return Record(cchh + b"\0", b"", bytes(8))
