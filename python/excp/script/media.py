"""Why a unit cannot be mounted, and why its DCBs cannot be opened: each at the line that has it."""

from __future__ import annotations

from collections import defaultdict
from typing import AbstractSet, Iterator, NamedTuple, Optional, Sequence

from ..blocks import Extent
from .grammar import Block, Content, DeviceFault, Disk, Open, Record, Tape
from .limits import (
    COUNT_BYTES, ITEM_BYTES, LEAST_TAPE_BYTES, LEAST_TRACK_BYTES, MOST_DATA_BYTES, MOST_DCBS,
    MOST_EXTENTS, MOST_KEY_BYTES, MOST_LINES, MOST_MEDIUM_BYTES, MOST_PAGES, MOST_TRACK_BYTES,
    MOST_TRACKS, R0_BYTES,
)
from .reading import count_of
from .set_up import Unit

_UNIT_CHECK = 0x0E
_CHANNEL_CHECKS = (0x02, 0x04, 0x08)

_STATUS = (
    "no device shows this status: expected 0E 00 with any sense bytes, or 00 with 02, 04 or 08 and "
    "sense bytes 0000"
)


class Reason(NamedTuple):
    """What is wrong at a line."""

    line: int
    sentence: str


def medium_faults(unit: Unit) -> list[Reason]:
    """Why a unit cannot be mounted. It can be if there is no reason."""
    reasons = fault_reasons(unit.faults)
    wrong_size = _wrong_size(unit)
    if wrong_size is not None:
        reasons.append(Reason(unit.says.line, wrong_size))
    elif isinstance(unit.says, Disk):
        reasons += _record_reasons(unit.says, unit.records)
    elif isinstance(unit.says, Tape):
        reasons += _item_reasons(unit.says, unit.content)
    return reasons


def has_sizes(unit: Unit) -> bool:
    """Whether the sizes on the line of a unit are such that its DCBs can be looked at."""
    return _wrong_size(unit) is None


# The faults that a device is to meet.


def fault_reasons(faults: Sequence[DeviceFault]) -> list[Reason]:
    """Why faults are none that a device meets, or are out of order."""
    reasons = []
    for fault in faults:
        if fault.ordinal == 0:
            reasons.append(Reason(fault.line, "the first command has number 1"))
        elif not _is_shown(fault):
            reasons.append(Reason(fault.line, _STATUS))
    for first, second in zip(faults, faults[1:]):
        if second.ordinal <= first.ordinal and _is_right(first) and _is_right(second):
            order = f"the fault of command {second.ordinal} comes after the fault of command"
            rising = f"{order} {first.ordinal}: their numbers must rise"
            reasons.append(Reason(second.line, rising))
    return reasons


def _is_right(fault: DeviceFault) -> bool:
    """Whether a fault alone is right."""
    return fault.ordinal > 0 and _is_shown(fault)


def _is_shown(fault: DeviceFault) -> bool:
    """Whether a device may show this status."""
    if fault.unit_status == _UNIT_CHECK:
        return fault.subchannel_status == 0
    is_channel_check = fault.unit_status == 0 and fault.subchannel_status in _CHANNEL_CHECKS
    return is_channel_check and fault.sense == 0


# The sizes on the line of a unit.


def _wrong_size(unit: Unit) -> Optional[str]:
    """Why no unit has such sizes."""
    says = unit.says
    if isinstance(says, Disk):
        return _wrong_geometry(says)
    if isinstance(says, Tape):
        size = count_of(says.size, "byte")
        return _outside(says.size, size, "a tape", LEAST_TAPE_BYTES, MOST_MEDIUM_BYTES)
    lines = _outside(says.lines, f"{says.lines} lines", "a printer", 1, MOST_LINES)
    return lines or _outside(says.pages, f"{says.pages} pages", "a printer", 1, MOST_PAGES)


def _outside(number: int, counted: str, owner: str, least: int, most: int) -> Optional[str]:
    return None if least <= number <= most else f"{counted}: {owner} has {least} to {most}"


def _wrong_geometry(disk: Disk) -> Optional[str]:
    cylinders, heads, track_bytes = disk.cylinders, disk.heads, disk.track_bytes
    if cylinders == 0:
        return "a disk has at least 1 cylinder"
    if heads == 0:
        return "a cylinder has at least 1 head"
    if cylinders * heads > MOST_TRACKS:
        return f"{_sizes(disk)}: a disk has at most {MOST_TRACKS} tracks"
    in_bytes = count_of(track_bytes, "byte")
    outside = _outside(track_bytes, in_bytes, "a track", LEAST_TRACK_BYTES, MOST_TRACK_BYTES)
    if outside is None and cylinders * heads * track_bytes > MOST_MEDIUM_BYTES:
        tracks = f"{count_of(cylinders, 'cylinder')} of {count_of(heads, 'track')} of {in_bytes}"
        return f"{tracks}: a disk has at most {MOST_MEDIUM_BYTES} bytes"
    return outside


def _sizes(disk: Disk) -> str:
    return f"{count_of(disk.cylinders, 'cylinder')} of {count_of(disk.heads, 'head')}"


# What is on a disk or a tape.


def _record_reasons(disk: Disk, records: Sequence[Record]) -> list[Reason]:
    reasons = [
        Reason(record.line, wrong)
        for record in records
        if (wrong := _wrong_record(disk, record)) is not None
    ]
    return reasons or _track_reasons(disk, records)


def _wrong_record(disk: Disk, record: Record) -> Optional[str]:
    if record.cylinder >= disk.cylinders:
        return f"no such cylinder: the disk has {disk.cylinders}, and the first is 0"
    if record.head >= disk.heads:
        return f"no such head: a cylinder has {disk.heads}, and the first is 0"
    if record.number == 0:
        return "the first record has number 1"
    if len(record.key) > MOST_KEY_BYTES:
        return f"a key has at most {MOST_KEY_BYTES} bytes"
    if len(record.data) > MOST_DATA_BYTES:
        return f"a record has at most {MOST_DATA_BYTES} bytes of data"
    return None


def _track_reasons(disk: Disk, records: Sequence[Record]) -> list[Reason]:
    """The record that is first too much for its track, and what all its track's records need."""
    needed: defaultdict[tuple[int, int], int] = defaultdict(lambda: R0_BYTES)
    first = None
    for record in records:
        track = record.cylinder, record.head
        needed[track] += COUNT_BYTES + len(record.key) + len(record.data)
        if first is None and needed[track] > disk.track_bytes:
            first = record
    if first is None:
        return []
    cylinder, head = first.cylinder, first.head
    holds = f"track {cylinder} {head} holds {count_of(disk.track_bytes, 'byte')}"
    return [Reason(first.line, f"{holds}, but its records need {needed[cylinder, head]}")]


def _item_reasons(tape: Tape, items: Sequence[Content]) -> list[Reason]:
    """The blocks of a wrong length; else the item that is first too much for the tape, and what
    all items need."""
    reasons = []
    needed, first = 0, None
    for item in items:
        count = len(item.data) if isinstance(item, Block) else 0
        if isinstance(item, Block) and not 1 <= count <= MOST_DATA_BYTES:
            wrong = f"{count_of(count, 'byte')}: a block has 1 to {MOST_DATA_BYTES}"
            reasons.append(Reason(item.line, wrong))
        needed += ITEM_BYTES + count
        if first is None and needed > tape.size:
            first = item
    if reasons or first is None:
        return reasons
    holds = f"the tape holds {count_of(tape.size, 'byte')}"
    return [Reason(first.line, f"{holds}, but its items need {needed}")]


# Extents.


def extent_faults(unit: Unit, assumed: AbstractSet[int]) -> Iterator[Reason]:
    """Why DCBs cannot be opened. Those of assumed lines are passed over."""
    opened = 0
    for opening in unit.openings:
        if opening.line in assumed:
            continue
        wrong = wrong_extents(unit, opening)
        if opened == MOST_DCBS:
            wrong = f"a unit has at most {MOST_DCBS} DCBs"
        if wrong is None:
            opened += 1
        else:
            yield Reason(opening.line, wrong)


def wrong_extents(unit: Unit, opening: Open) -> Optional[str]:
    """Why a DCB cannot be opened with these extents."""
    extents = opening.extents
    if not isinstance(unit.says, Disk):
        return "only a DCB of a disk has extents" if extents else None
    if not 1 <= len(extents) <= MOST_EXTENTS:
        return f"{len(extents)} extents: a DCB of a disk has 1 to {MOST_EXTENTS}"
    for number, extent in enumerate(extents, 1):
        wrong = _wrong_extent(unit.says, number, extent)
        if wrong is not None:
            return wrong
    return None


def _wrong_extent(disk: Disk, number: int, extent: Extent) -> Optional[str]:
    cylinder = max(extent.start_cylinder, extent.end_cylinder)
    head = max(extent.start_head, extent.end_head)
    if cylinder >= disk.cylinders or head >= disk.heads:
        return f"extent {number} begins or ends outside the disk, which has {_sizes(disk)}"
    first, last = tracks_of(disk, extent)
    if last < first:
        return f"extent {number} ends before its start"
    if extent.tracks != last - first + 1:
        tracks = count_of(last - first + 1, "track")
        return f"extent {number} has {tracks}, but its count is {extent.tracks}"
    return None


def tracks_of(disk: Disk, extent: Extent) -> tuple[int, int]:
    """The numbers of the first and the last track of an extent."""
    first = extent.start_cylinder * disk.heads + extent.start_head
    return first, extent.end_cylinder * disk.heads + extent.end_head
