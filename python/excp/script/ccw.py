"""A CCW as it lies in an area (Principles of Operation, chapter 15, "Channel-Command Word")."""

from __future__ import annotations

import struct
from dataclasses import dataclass

from ..device_commands import Flag, Op

CCW_BYTES = 8

# The bits that no flag has.
RESERVED = 0xFF & ~sum(flag.value for flag in Flag)


@dataclass(frozen=True)
class PlacedCcw:
    """A CCW of format 0 at an address of its area. `zero` is byte 5."""

    at: int
    command: int
    address: int
    flags: int
    zero: int
    count: int

    @classmethod
    def of(cls, at: int, image: bytes) -> PlacedCcw:
        """The CCW at an address that has these 8 bytes."""
        word, flags, zero, count = struct.unpack(">IBBH", image)
        return cls(at, word >> 24, word & 0xFFFFFF, flags, zero, count)

    @property
    def is_transfer(self) -> bool:
        """Whether it is a transfer in channel, whose high four bits do not count."""
        return self.command % 16 == Op.TIC

    def has(self, flag: Flag) -> bool:
        return bool(self.flags & flag)
