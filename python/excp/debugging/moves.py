"""Which bytes of storage a command moved: its data areas, in the order in which bytes went through
them (Principles of Operation, chapter 15, "Designation of Storage Area")."""

from __future__ import annotations

from typing import Iterator, NamedTuple, Tuple

from ..device_commands import Flag
from ..reporting.record import Members
from ..reporting.step import BACKWARD
from ..script.ccw import PlacedCcw
from .working_copy import WorkingCopy

# The bytes of a block, whose address an indirect data address word has, and of such a word.
_BLOCK, _WORD = 2048, 4


class Piece(NamedTuple):
    """Bytes that went through one data area: their lowest address, their number, and whether the
    area stayed as it was. Those of a read backward went downward."""

    address: int
    length: int
    is_skipped: bool


def pieces_of(step: Members, storage: WorkingCopy) -> Iterator[Piece]:
    """The data areas of the bytes that a step moved, with storage as it was before."""
    left = step.get("moved", 0)
    for ccw in step["ccws"]:
        placed = PlacedCcw.of(int(ccw["at"], 16), bytes.fromhex(ccw["image"]))
        is_skipped = step.get("way") != "from" and placed.has(Flag.SKIP)
        for address, most in _areas(placed, storage):
            count = min(most, left)
            if count:
                left -= count
                lowest = address - count + 1 if step["way"] == BACKWARD else address
                yield Piece(lowest, count, is_skipped)


def _areas(ccw: PlacedCcw, storage: WorkingCopy) -> Iterator[Tuple[int, int]]:
    """The first address and the count of each data area of a CCW."""
    if not ccw.has(Flag.IDA):
        yield ccw.address, ccw.count
        return
    left, word = ccw.count, ccw.address
    while left:
        address = int.from_bytes(storage.bytes_at(word, _WORD), "big")
        count = min(left, _BLOCK - address % _BLOCK)
        yield address, count
        left, word = left - count, word + _WORD
