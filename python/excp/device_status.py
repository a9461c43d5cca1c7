"""The bits of a device's status and of its sense bytes: the one table of their names.

The order is that of the bits, from the highest (Principles of Operation, chapter 16, "Unit Status"
and "Subchannel Status"; docs/SPECIFICATION.md has the sense bits that devices show, and a fault can
have others).
"""

from __future__ import annotations

from typing import List, Mapping

# Unit status is the high byte, subchannel status the low one.
STATUS_BITS: Mapping[int, str] = {
    0x8000: "attention",
    0x4000: "status modifier",
    0x2000: "control unit end",
    0x1000: "busy",
    0x0800: "channel end",
    0x0400: "device end",
    0x0200: "unit check",
    0x0100: "unit exception",
    0x0080: "program-controlled interruption",
    0x0040: "incorrect length",
    0x0020: "program check",
    0x0010: "protection check",
    0x0008: "channel data check",
    0x0004: "channel control check",
    0x0002: "interface control check",
    0x0001: "chaining check",
}

# Channel end and device end, with which a command ends normally.
NORMAL_END = 0x0C00

SENSE_BITS: Mapping[int, str] = {
    0x8000: "command reject",
    0x4000: "intervention required",
    0x2000: "bus-out check",
    0x1000: "equipment check",
    0x0800: "data check",
    0x0400: "overrun",
    0x0040: "invalid track format",
    0x0020: "end of cylinder",
    0x0008: "no record found",
    0x0004: "file protected",
}


def names_of(bits: int, names: Mapping[int, str]) -> List[str]:
    """The names of the bits that are on."""
    return [name for bit, name in names.items() if bits & bit] if bits else []


def with_names(bits: int, names: Mapping[int, str]) -> str:
    """Two bytes in hexadecimal, with the names of the bits that are on, such as `0C00 (channel end,
    device end)`."""
    found = ", ".join(names_of(bits, names))
    return f"{bits:04X} ({found})" if found else f"{bits:04X}"
