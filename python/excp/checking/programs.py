"""Why a request that can be made is sure to fail: by its disk address, or by a CCW of its program
as it is in the area."""

from __future__ import annotations

from typing import Optional

from ..blocks import Seek
from ..device_commands import DISK, Op
from ..script.ccw import CCW_BYTES
from ..script.grammar import Area, Disk, Excp, Open
from ..script.media import tracks_of, wrong_extents
from ..script.set_up import Unit
from .records import Records
from .requests import CYLINDER_AT, EXTENT_AT, iob_of
from .walk import Failure, Program, SureFailure, Walk


def keeps_lengths(device: str, area: Area) -> bool:
    """Whether no program in an area can write records of other lengths on a device of this kind."""
    writes = Op.WCKD if device == DISK else Op.WRT
    return writes not in area.data[::CCW_BYTES]


def sure_failure(
    unit: Unit, records: Records, opening: Open, excp: Excp, area: Area, is_kept: bool
) -> Optional[Failure]:
    """Why a request is sure to fail, if it is. `records` are those of its unit, and `is_kept` says
    that no request changes the length of one."""
    iob = iob_of(excp.iob, area)
    if iob is None or wrong_extents(unit, opening) is not None:
        return None
    if isinstance(unit.says, Disk) and not _passes_check(unit.says, opening, iob.seek):
        return _violated(excp, opening, iob.seek)
    program = Program(unit, records, area, iob.seek, opening.method == "out", is_kept)
    try:
        Walk(program).follow(iob.start)
    except SureFailure as sure:
        return sure.failure
    return None


def _passes_check(disk: Disk, opening: Open, seek: Seek) -> bool:
    """Whether a seek address passes the extent check of a first start."""
    if seek.bin or seek.head >= disk.heads or seek.extent >= len(opening.extents):
        return False
    first, last = tracks_of(disk, opening.extents[seek.extent])
    return first <= seek.cylinder * disk.heads + seek.head <= last


def _violated(excp: Excp, opening: Open, seek: Seek) -> Failure:
    at = excp.iob + (CYLINDER_AT if seek.extent < len(opening.extents) else EXTENT_AT)
    place = f"M {seek.extent}, BB {seek.bin}, CC {seek.cylinder}, HH {seek.head} of the IOB"
    outside = f"{place} is outside the extents of the DCB: the request is posted 42"
    return Failure(at, outside)
