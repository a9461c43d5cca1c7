"""The CCWs of a command and their data areas, as a channel fetches them (Principles of Operation,
chapters 15 and 16)."""

from __future__ import annotations

from typing import NamedTuple, Optional

from ..device_commands import Flag, Flow
from ..script.ccw import CCW_BYTES, RESERVED, PlacedCcw
from ..script.grammar import Area

_MOST_CHAINED = 16
_PAGE = 2048

# The bit that no indirect address has, and those below it.
_NO_ADDRESS = 0x80000000


class Part(NamedTuple):
    """Bytes of storage that a command reads or writes, from an address on, or down if it reads
    backward."""

    address: int
    length: int


class Broken(Exception):
    """The CCW at an address breaks a rule, which may be one on the words of a list of indirect
    addresses."""

    def __init__(self, at: int, rule: str, is_of_word: bool = False) -> None:
        super().__init__(rule)
        self.at = at
        self.rule = rule
        self.is_of_word = is_of_word


def fetched(
    area: Area, at: int, may_transfer: bool, places: Optional[set[int]] = None
) -> list[PlacedCcw]:
    """The CCWs of the command at an address. A transfer in channel may come before each, if it may
    come before the first. Adds to `places` where all of them are. Raises Broken."""
    chain: list[PlacedCcw] = []
    while True:
        if places is not None:
            places.add(at)
        ccw = _ccw_at(area, at)
        if ccw.is_transfer:
            if not may_transfer:
                rule = "a transfer in channel is the first CCW or follows another one"
                raise Broken(at, rule)
            if ccw.address % CCW_BYTES:
                raise Broken(at, "the address of a transfer in channel is no multiple of 8")
            at, may_transfer = ccw.address, False
            continue
        _check_ccw(ccw, len(chain))
        chain.append(ccw)
        if not ccw.has(Flag.CD):
            return chain
        at, may_transfer = at + CCW_BYTES, True


def _ccw_at(area: Area, at: int) -> PlacedCcw:
    if at % CCW_BYTES:
        raise Broken(at, "the CCW does not lie on a doubleword")
    image = area.get(at, CCW_BYTES)
    if image is None:
        raise Broken(at, "the CCW does not lie in the area")
    return PlacedCcw.of(at, image)


def _check_ccw(ccw: PlacedCcw, place: int) -> None:
    """The rules on a CCW that is no transfer, at this place of its chain."""
    if place == 0 and ccw.command % 16 == 0:
        raise Broken(ccw.at, "the low four bits of the command are zero")
    if ccw.flags & RESERVED:
        raise Broken(ccw.at, "flag 02 or 01 is on")
    if ccw.count == 0:
        raise Broken(ccw.at, "the count is zero")
    if place == _MOST_CHAINED:
        raise Broken(ccw.at, f"the data chain has more than {_MOST_CHAINED} CCWs")


def parts_of(area: Area, flow: Flow, ccw: PlacedCcw) -> list[Part]:
    """The parts of storage that a CCW names for data of this way. Raises Broken."""
    if flow is Flow.NONE:
        return []
    is_backward = flow is Flow.BACKWARD
    if ccw.has(Flag.IDA):
        if is_backward:
            raise Broken(ccw.at, "a read backward has a list of indirect addresses")
        return _indirect_parts(area, ccw)
    lowest = ccw.address + 1 - ccw.count if is_backward else ccw.address
    if area.get(lowest, ccw.count) is None:
        raise Broken(ccw.at, "the data do not lie in the area")
    return [Part(ccw.address, ccw.count)]


def _indirect_parts(area: Area, ccw: PlacedCcw) -> list[Part]:
    if ccw.address % 4:
        raise Broken(ccw.at, "the list of indirect addresses does not lie on a fullword")
    parts: list[Part] = []
    at, left = ccw.address, ccw.count
    while left:
        image = area.get(at, 4)
        wrong = None
        word = int.from_bytes(image or b"", "big")
        length = min(left, _PAGE - word % _PAGE)
        if image is None:
            wrong = f"the indirect address at {at:06X} does not lie in the area"
        elif word >= _NO_ADDRESS:
            wrong = f"bit 0 of the indirect address at {at:06X} is on"
        elif parts and word % _PAGE:
            order = "is not the first and no multiple of 2048"
            wrong = f"the indirect address at {at:06X} {order}"
        elif area.get(word, length) is None:
            wrong = f"the data of the indirect address at {at:06X} do not lie in the area"
        if wrong is not None:
            raise Broken(ccw.at, wrong, is_of_word=True)
        parts.append(Part(word, length))
        at, left = at + 4, left - length
    return parts
