"""Lengths of commands of one CCW that are sure to be incorrect, as far as the records are known."""

from __future__ import annotations

from typing import TYPE_CHECKING, Callable, Optional, Sequence

from ..device_commands import DISK, PRINTER, TAPE, Flag, Flow, Op
from ..script.ccw import PlacedCcw
from ..script.reading import count_of
from .channel import Part
from .records import RecordLengths

if TYPE_CHECKING:
    from .walk import Program

_LINE_BYTES = 132
_ID_BYTES = 5

_TAPE_READS = (Op.RDF, Op.RDB)
_SEARCHES = (Op.SIDE, Op.SKE)


class Lengths:
    """What the commands of a program so far say of the length of the next one."""

    def __init__(self, program: Program) -> None:
        self._program = program
        # The record for whose ID the last command searched, and whether it was a search.
        self._sought: Optional[RecordLengths] = None
        self._is_after_search = False

    def wrong_length(
        self,
        flow: Flow,
        chain: Sequence[PlacedCcw],
        parts: Sequence[Part],
        cover: Callable[[int], bool],
    ) -> Optional[str]:
        """Why the length of a command of one CCW is sure to be incorrect. `cover` says whether
        bytes at an address may be read over."""
        sought, is_after_search = self._sought, self._is_after_search
        ccw = chain[0]
        is_disk = self._program.unit.device == DISK
        self._is_after_search = is_disk and ccw.command in _SEARCHES
        self._sought = None if len(chain) > 1 else self._record_sought(ccw, parts, cover)
        if len(chain) > 1 or ccw.has(Flag.SLI):
            return None
        incorrect = f"the CCW at {ccw.at:06X} ends with incorrect length: its count is {ccw.count}"
        takes = self._taken(flow, ccw, sought)
        if takes and takes != ccw.count:
            return f"{incorrect}, and the device takes {count_of(takes, 'byte')}; SLI hides that"
        least = self._least(ccw, sought, is_after_search)
        if least is not None and ccw.count < least:
            each = f"each record that it can read has {count_of(least, 'byte')} or more"
            return f"{incorrect}, and {each}; SLI hides that"
        return None

    def _taken(self, flow: Flow, ccw: PlacedCcw, sought: Optional[RecordLengths]) -> Optional[int]:
        """How many bytes the device takes, if that is known."""
        device = self._program.unit.device
        if device == PRINTER and flow is Flow.OUT:
            return min(ccw.count, _LINE_BYTES)
        if device == DISK and ccw.command == Op.SIDE:
            return _ID_BYTES
        if device == DISK and sought is not None and ccw.command == Op.WD:
            return sought.data
        if device == DISK and sought is not None and ccw.command == Op.WKD:
            return sought.key + sought.data
        return None

    def _least(
        self, ccw: PlacedCcw, sought: Optional[RecordLengths], is_after_search: bool
    ) -> Optional[int]:
        """The bytes that each record has at least which a command can read, if they are known."""
        program = self._program
        is_read = program.unit.device == DISK and ccw.command == Op.RD
        is_read = is_read or (program.unit.device == TAPE and ccw.command in _TAPE_READS)
        if not is_read or not program.is_kept:
            return None
        if sought is not None:
            return sought.data
        return program.records.shortest(program.seek.cylinder, program.seek.head, is_after_search)

    def _record_sought(
        self, ccw: PlacedCcw, parts: Sequence[Part], cover: Callable[[int], bool]
    ) -> Optional[RecordLengths]:
        """The record for whose ID a command searches, if it is the only one with this ID. An
        earlier command may not have read over the ID."""
        program = self._program
        if not program.is_disk or not program.is_kept or ccw.command != Op.SIDE:
            return None
        address, length = parts[0]
        identifier = program.area.get(address, _ID_BYTES)
        if identifier is None or length < _ID_BYTES or cover(address):
            return None
        return program.records.only_one(program.seek.cylinder, program.seek.head, identifier)
