"""The IOB of a request, and why a request cannot be made of an area."""

from __future__ import annotations

import struct
from typing import NamedTuple, Optional

from ..blocks import Seek
from ..script.ccw import CCW_BYTES
from ..script.grammar import Area, Excp
from ..script.reading import count_of

_IOB_BYTES = 40
_ECB_BYTES = 4
_FULLWORD = 4
_DOUBLEWORD = 8

_UNRELATED = 0x02
_ADDRESS_BITS = 0xFFFFFF

# Where an IOB has the address of its ECB, that of its channel program, its DCB, the extent and
# the cylinder of its seek address.
_ECB_AT, _START_AT, _DCB_AT, EXTENT_AT, CYLINDER_AT = 5, 17, 22, 32, 35


class IobFields(NamedTuple):
    """The fields of an IOB that a request is made of."""

    is_unrelated: bool
    ecb: int
    start: int
    dcb: int
    seek: Seek


class Rejection(NamedTuple):
    """Why a request is rejected, at its line; and, if it is for bytes of its IOB, the address of
    these and the sentence at the word that has set them."""

    sentence: str
    at: Optional[int] = None
    sentence_at: str = ""


def iob_of(at: int, area: Area) -> Optional[IobFields]:
    """The IOB at an address, if it lies in the area."""
    image = area.get(at, _IOB_BYTES)
    if image is None:
        return None
    flags, *words = struct.unpack(">B3xI8xII8x8x", image)
    ecb, start, dcb = (word & _ADDRESS_BITS for word in words)
    seek = Seek.from_bytes(image[EXTENT_AT:])
    return IobFields(bool(flags & _UNRELATED), ecb, start, dcb, seek)


def rejection_of(excp: Excp, area: Area, line: int) -> Optional[Rejection]:
    """The first reason why the request of an EXCP is rejected. If nothing else is wrong, the bytes
    that are shown do not lie in the area. `line` is the line that opens the area."""
    where = f"area {excp.area} (line {line})"
    extent = _extent(area)
    if excp.iob % _FULLWORD:
        return Rejection(f"the IOB at {excp.iob:06X} is not on a fullword boundary")
    iob = iob_of(excp.iob, area)
    if iob is None:
        return Rejection(f"the IOB at {excp.iob:06X} does not lie in {where} {extent}")
    field = f"{where}, IOB {excp.iob:06X}, bytes"
    rejection = _wrong_ecb(excp, iob, area, field) or _wrong_program(excp, iob, area, field)
    if rejection is not None:
        return rejection
    if iob.dcb != excp.dcb:
        return Rejection(
            f"{field} 21 to 23: DCB {iob.dcb}, but the line has DCB {excp.dcb}",
            excp.iob + _DCB_AT,
            f"this IOB has DCB {iob.dcb}, but its request has DCB {excp.dcb}",
        )
    if area.get(excp.show, excp.length) is None:
        shown = f"{count_of(excp.length, 'byte')} at {excp.show:06X}, which are shown"
        return Rejection(f"{shown}, do not lie in {where} {extent}")
    return None


def _extent(area: Area) -> str:
    return f"of {count_of(len(area.data), 'byte')} at {area.base:06X}"


def _wrong_ecb(excp: Excp, iob: IobFields, area: Area, field: str) -> Optional[Rejection]:
    at, ecb = excp.iob + _ECB_AT, f"{iob.ecb:06X}"
    if iob.ecb % _FULLWORD:
        boundary = f"{ecb} is not on a fullword boundary"
        return Rejection(f"{field} 5 to 7: {boundary}", at, f"the ECB at {boundary}")
    if area.get(iob.ecb, _ECB_BYTES) is None:
        outside = f"no ECB at {ecb} lies in the area {_extent(area)}"
        return Rejection(f"{field} 5 to 7: {outside}", at, outside)
    if excp.iob - _ECB_BYTES < iob.ecb < excp.iob + _IOB_BYTES:
        over = f"an ECB at {ecb} overlaps"
        return Rejection(f"{field} 5 to 7: {over} the IOB", at, f"{over} this IOB")
    return None


def _wrong_program(excp: Excp, iob: IobFields, area: Area, field: str) -> Optional[Rejection]:
    at, start = excp.iob + _START_AT, f"{iob.start:06X}"
    if iob.start % _DOUBLEWORD:
        boundary = f"{start} is not on a doubleword boundary"
        return Rejection(f"{field} 17 to 19: {boundary}", at, f"the CCW at {boundary}")
    if area.get(iob.start, CCW_BYTES) is None:
        outside = f"no CCW at {start} lies in the area {_extent(area)}"
        return Rejection(f"{field} 17 to 19: {outside}", at, outside)
    return None
