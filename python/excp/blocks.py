"""Control blocks as they lie in storage. All numbers are big-endian.

docs/SPECIFICATION.md has the layouts (rules 3.2 to 3.9, 4.1 and 4.2), and docs/MANUAL.md explains
them.
"""

from __future__ import annotations

import enum
import struct
from dataclasses import dataclass, field
from typing import Mapping, Optional, SupportsIndex, Tuple, Union

from .device_commands import FLAGS, Flag as Flag, Op as Op
from .device_status import STATUS_BITS, with_names

# An address, or a label of an area.
Address = Union[int, str]


class Code(enum.IntEnum):
    """Completion codes."""

    ENDED = 0x7F
    PERMANENT_ERROR = 0x41
    EXTENT_VIOLATED = 0x42
    PURGED = 0x48

    def __repr__(self) -> str:
        return f"<Code.{self.name}: 0x{self:02X}>"


_CODES = frozenset(Code)


def code_of(byte: int) -> int:
    """The `Code` of a byte, or the byte if it is no code, as where nothing was posted."""
    return Code(byte) if byte in _CODES else byte


def code_text(code: int) -> str:
    """A completion code with its name, such as `7F (ended)`."""
    name = f" ({Code(code).name.lower().replace('_', ' ')})" if code in _CODES else ""
    return f"{code:02X}{name}"


@dataclass(frozen=True)
class Ccw:
    """A channel command word of format 0, 8 bytes. `address` is an address or a label of the
    area."""

    command: int
    address: Address = 0
    flags: int = 0
    count: int = 1

    def to_bytes(self, labels: Optional[Mapping[str, int]] = None) -> bytes:
        """The 8 bytes. `labels` has the address of a label."""
        word = _word(self.command, self.address, labels)
        return _packed(self, ">IBxH", word, self.flags, self.count)

    @staticmethod
    def from_bytes(image: bytes) -> Ccw:
        word, flags, count = struct.unpack(">IBxH", image)
        return Ccw(word >> 24, word & 0xFFFFFF, flags, count)

    def __repr__(self) -> str:
        command = f"Op.{self.command}" if isinstance(self.command, Op) else f"0x{self.command:02X}"
        return f"Ccw({command}, {_shown(self.address)}, {_flags(self.flags)}, {self.count})"


@dataclass(frozen=True)
class Csw:
    """What is left of a channel program: the last CCW used plus 8, unit and subchannel status,
    residual count."""

    address: int = 0
    unit: int = 0
    sub: int = 0
    residual: int = 0

    def to_bytes(self) -> bytes:
        return _packed(self, ">IBBH", self.address, self.unit, self.sub, self.residual)[1:]

    @staticmethod
    def from_bytes(image: bytes) -> Csw:
        return Csw(*struct.unpack(">IBBH", b"\0" + image))

    @property
    def status(self) -> int:
        """Unit status and subchannel status as two bytes."""
        return self.unit << 8 | self.sub

    def __str__(self) -> str:
        return f"{self.address:06X} {self.status:04X} {self.residual:04X}"

    def __repr__(self) -> str:
        status = with_names(self.status, STATUS_BITS)
        return f"<Csw {self.address:06X}, status {status}, residual {self.residual:04X}>"


@dataclass(frozen=True)
class Seek:
    """A disk address MBBCCHHR. `extent` is M, the number of the extent, from 0."""

    extent: int = 0
    bin: int = 0
    cylinder: int = 0
    head: int = 0
    record: int = 0

    def to_bytes(self) -> bytes:
        place = self.extent, self.bin, self.cylinder, self.head, self.record
        return _packed(self, ">BHHHB", *place)

    @staticmethod
    def from_bytes(image: bytes) -> Seek:
        return Seek(*struct.unpack(">BHHHB", image))


@dataclass(frozen=True)
class Iob:
    """An input/output block of 40 bytes. `ecb` and `start` are addresses or labels of the area."""

    DATA_CHAINING = 0x80
    COMMAND_CHAINING = 0x40
    IO_ERROR = 0x04
    UNRELATED = 0x02

    ecb: Address = 0
    start: Address = 0
    dcb: SupportsIndex = 1
    seek: Seek = field(default_factory=Seek)
    flags: int = COMMAND_CHAINING | UNRELATED
    sense: int = 0
    completion: int = 0
    csw: Csw = field(default_factory=Csw)

    def to_bytes(self, labels: Optional[Mapping[str, int]] = None) -> bytes:
        """The 40 bytes. `labels` has the addresses of labels."""
        dcb, ecb = self.dcb.__index__(), _word(self.completion, self.ecb, labels)
        head = _packed(self, ">BxHI", self.flags, self.sense, ecb)
        pointers = _packed(self, ">II8x", _word(0, self.start, labels), dcb)
        return head + b"\0" + self.csw.to_bytes() + pointers + self.seek.to_bytes()

    @staticmethod
    def from_bytes(image: bytes) -> Iob:
        flags, sense, word, start, dcb = struct.unpack(">BxHI8xII16x", image)
        csw, seek = Csw.from_bytes(image[9:16]), Seek.from_bytes(image[32:40])
        ecb, start, dcb = (it & 0xFFFFFF for it in (word, start, dcb))
        return Iob(ecb, start, dcb, seek, flags, sense, word >> 24, csw)

    def __repr__(self) -> str:
        pointers = f"ecb={_shown(self.ecb)}, start={_shown(self.start)}, dcb={self.dcb!r}"
        ended = f"sense=0x{self.sense:04X}, completion=0x{self.completion:02X}, csw={self.csw!r}"
        return f"Iob({pointers}, seek={self.seek!r}, flags=0x{self.flags:02X}, {ended})"


@dataclass(frozen=True)
class Extent:
    """An extent of a DEB, 16 bytes: from track `start_cylinder`, `start_head` to track
    `end_cylinder`, `end_head`, which are `tracks` tracks. `between` counts them."""

    start_cylinder: int
    start_head: int
    end_cylinder: int
    end_head: int
    tracks: int
    file_mask: int = 0x18
    unit_block: int = 0
    bin: int = 0

    @staticmethod
    def between(start: Tuple[int, int], end: Tuple[int, int], heads: int) -> Extent:
        """The tracks from one to another, each a cylinder and a head, of a disk with `heads` heads
        a cylinder."""
        tracks = (end[0] - start[0]) * heads + end[1] - start[1] + 1
        return Extent(start[0], start[1], end[0], end[1], tracks)

    def to_bytes(self) -> bytes:
        ends = self.start_cylinder, self.start_head, self.end_cylinder, self.end_head
        word = _word(self.file_mask, self.unit_block)
        return _packed(self, ">IHHHHHH", word, self.bin, *ends, self.tracks)

    @staticmethod
    def from_bytes(image: bytes) -> Extent:
        word, bin_, start_cylinder, start_head, *end, tracks = struct.unpack(">IHHHHHH", image)
        block = word & 0xFFFFFF
        return Extent(start_cylinder, start_head, end[0], end[1], tracks, word >> 24, block, bin_)

    def __repr__(self) -> str:
        ends = f"{self.start_cylinder}, {self.start_head}, {self.end_cylinder}, {self.end_head}"
        rest = f"unit_block={_shown(self.unit_block)}, bin={self.bin}"
        return f"Extent({ends}, {self.tracks}, file_mask=0x{self.file_mask:02X}, {rest})"


def _packed(block: object, form: str, *numbers: int) -> bytes:
    """The numbers of a block in the form of its fields."""
    try:
        return struct.pack(form, *numbers)
    except struct.error:
        raise ValueError(f"{block!r}: a number does not fit its field") from None


def _shown(address: Address) -> str:
    return repr(address) if isinstance(address, str) else f"0x{address:06X}"


def _flags(flags: int) -> str:
    """The flags by their names, if they have some."""
    names = [name for name, bit in FLAGS.items() if flags & bit]
    others = flags & ~sum(FLAGS.values())
    return "|".join([f"Flag.{it}" for it in names] + ([f"0x{others:02X}"] if others else [])) or "0"


def address_of(at: Address, labels: Optional[Mapping[str, int]]) -> int:
    """An address, or that of a label of an area."""
    if not isinstance(at, str):
        return at
    if labels is None:
        raise ValueError(f"the label {at!r} has no address outside an area")
    if at not in labels:
        raise ValueError(f"the area has no label {at!r}")
    return labels[at]


def _word(high: int, at: Address, labels: Optional[Mapping[str, int]] = None) -> int:
    """A byte before an address of three bytes."""
    address = address_of(at, labels)
    if not 0 <= address <= 0xFFFFFF:
        raise ValueError(f"{address:#x} is no address of 24 bits")
    return high << 24 | address
