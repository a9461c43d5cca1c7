"""The commands of devices: the one table of their codes, mnemonics, devices, data and names.

docs/SPECIFICATION.md has the commands of each kind of device, docs/MANUAL.md the mnemonics. The
mnemonics are those of IBM's books on channel programs if these have one, and else the profile's.
"""

from __future__ import annotations

import enum
from typing import Mapping, NamedTuple, Optional, Sequence

# The kinds of devices, which are also the first words of the lines that declare units.
DISK, TAPE, PRINTER = "disk", "tape", "printer"
DEVICES = DISK, TAPE, PRINTER

# The device of a command that every kind of device has.
ANY = "any"


class Op(int, enum.Enum):
    """Commands by their mnemonics, which they have as text. As a number each is its code. Commands
    of several kinds of devices may have one code, and are equal then."""

    def __new__(cls, code: int) -> Op:
        # two members of one value would be one, so the count of members is beside the code
        op = int.__new__(cls, code)
        op._value_ = code, len(cls.__members__)
        return op

    @classmethod
    def _missing_(cls, value: object) -> Optional[Op]:
        """The first command with a code."""
        return next((it for it in cls if int(it) == value), None)

    NOP, SNS, TIC = 0x03, 0x04, 0x08
    SIDE, SKE = 0x31, 0x29
    RD, RKD, RCKD, RC = 0x06, 0x0E, 0x1E, 0x12
    WD, WKD, WCKD = 0x05, 0x0D, 0x1D
    SEEK, SFM = 0x07, 0x1F
    WRT, RDF, RDB, WTM = 0x01, 0x02, 0x0C, 0x1F
    REW, BSB, BSF, FSB, FSF = 0x07, 0x27, 0x2F, 0x37, 0x3F
    PR0, PR1, PR2, PR3, PRC1 = 0x01, 0x09, 0x11, 0x19, 0x89
    SP1, SP2, SP3, SKC1 = 0x0B, 0x13, 0x1B, 0x8B

    @property
    def value(self) -> int:
        """The code."""
        return int(self)

    def __repr__(self) -> str:
        return f"<Op.{self.name}: 0x{self:02X}>"

    def __str__(self) -> str:
        return self.name

    def __format__(self, format_spec: str) -> str:
        """The name, or the code in a form that is given."""
        return format(int(self), format_spec) if format_spec else self.name


class Flag(enum.IntFlag):
    """Flags of a CCW, in the order in which a listing has them (Principles of Operation, chapter
    15, "Channel-Command Word")."""

    CD = 0x80  # chain data
    CC = 0x40  # chain command
    SLI = 0x20  # suppress length indication
    SKIP = 0x10
    PCI = 0x08
    IDA = 0x04  # indirect data address


# The flags by their names.
FLAGS: Mapping[str, Flag] = dict(Flag.__members__)


class Flow(enum.Enum):
    """The way of a command's data: none, from the program, or to it, upwards or downwards."""

    NONE = "none"
    OUT = "out"
    INPUT = "input"
    BACKWARD = "backward"


class DeviceCommand(NamedTuple):
    """A command: its mnemonic, the device that has it, the way of its data, its name in words."""

    mnemonic: str
    device: str
    flow: Flow
    words: str
    # Whether a program may leave out the address and the count of its CCW.
    needs_no_data: bool = False

    @property
    def code(self) -> int:
        return int(Op[self.mnemonic])


# A mistake in a mnemonic suggests the first of equally near ones, in this order.
DEVICE_COMMANDS: Sequence[DeviceCommand] = (
    DeviceCommand("NOP", ANY, Flow.NONE, "no-operation", True),
    DeviceCommand("SNS", ANY, Flow.INPUT, "sense"),
    DeviceCommand("PR0", PRINTER, Flow.OUT, "print"),
    DeviceCommand("PR1", PRINTER, Flow.OUT, "print, space 1"),
    DeviceCommand("PR2", PRINTER, Flow.OUT, "print, space 2"),
    DeviceCommand("PR3", PRINTER, Flow.OUT, "print, space 3"),
    DeviceCommand("PRC1", PRINTER, Flow.OUT, "print, skip to the next page"),
    DeviceCommand("SP1", PRINTER, Flow.NONE, "space 1", True),
    DeviceCommand("SP2", PRINTER, Flow.NONE, "space 2", True),
    DeviceCommand("SP3", PRINTER, Flow.NONE, "space 3", True),
    DeviceCommand("SKC1", PRINTER, Flow.NONE, "skip to the next page", True),
    DeviceCommand("WD", DISK, Flow.OUT, "write data"),
    DeviceCommand("RD", DISK, Flow.INPUT, "read data"),
    DeviceCommand("SEEK", DISK, Flow.OUT, "seek"),
    DeviceCommand("WKD", DISK, Flow.OUT, "write key and data"),
    DeviceCommand("RKD", DISK, Flow.INPUT, "read key and data"),
    DeviceCommand("RC", DISK, Flow.INPUT, "read count"),
    DeviceCommand("WCKD", DISK, Flow.OUT, "write count, key and data"),
    DeviceCommand("RCKD", DISK, Flow.INPUT, "read count, key and data"),
    # its byte is the file mask, but the supervisor has set it: the device looks at no data
    DeviceCommand("SFM", DISK, Flow.NONE, "set file mask"),
    DeviceCommand("SKE", DISK, Flow.OUT, "search key equal"),
    DeviceCommand("SIDE", DISK, Flow.OUT, "search ID equal"),
    DeviceCommand("WRT", TAPE, Flow.OUT, "write"),
    DeviceCommand("RDF", TAPE, Flow.INPUT, "read"),
    DeviceCommand("REW", TAPE, Flow.NONE, "rewind", True),
    DeviceCommand("RDB", TAPE, Flow.BACKWARD, "read backward"),
    DeviceCommand("WTM", TAPE, Flow.NONE, "write tape mark", True),
    DeviceCommand("BSB", TAPE, Flow.NONE, "backspace block", True),
    DeviceCommand("BSF", TAPE, Flow.NONE, "backspace file", True),
    DeviceCommand("FSB", TAPE, Flow.NONE, "forward space block", True),
    DeviceCommand("FSF", TAPE, Flow.NONE, "forward space file", True),
)

_BY_DEVICE_AND_CODE: Mapping[tuple[str, int], DeviceCommand] = {
    (device, command.code): command
    for command in DEVICE_COMMANDS
    for device in DEVICES
    if command.device in (device, ANY)
}


def command_of(device: str, code: int) -> Optional[DeviceCommand]:
    """The command of a kind of device that has this code, if it has one."""
    return _BY_DEVICE_AND_CODE.get((device, code))
