"""The faults that a device can be made to meet, by name: one table of their statuses."""

from __future__ import annotations

from typing import Mapping

from ..device_status import SENSE_BITS, STATUS_BITS

# The subchannel status of a fault of the channel.
_OF_CHANNEL = (0x0008, 0x0004, 0x0002)

# Unit status, subchannel status and sense bytes, as a line `fault` has them (Principles of
# Operation, chapter 16; sense bytes by docs/SPECIFICATION.md).
DEVICE_FAULTS: Mapping[str, str] = {
    **{name: f"0E 00 {bit:04X}" for bit, name in SENSE_BITS.items()},
    **{STATUS_BITS[bit]: f"00 {bit:02X} 0000" for bit in _OF_CHANNEL},
}
