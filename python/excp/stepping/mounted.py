"""The site of a script or a scenario: its units are mounted, with their DCBs open."""

from __future__ import annotations

from typing import Mapping, NamedTuple, Sequence, Union

from ..script.grammar import Block, Content, DeviceFault, Open, Printer, Record, Tape
from ..script.set_up import SetUp
from ..script.set_up import Unit as UnitSetUp
from ..site import Site
from ..unit import Dcb, Unit
from ..values import TAPE_MARK, Fault, Method, TapeMark
from ..values import Record as OnDisk

_METHODS = {"in": Method.INPUT, "out": Method.OUTPUT}


class Rooms(NamedTuple):
    """How many posts may be on their way to a task; and of each unit how many requests may be in
    flight to it, and how many it holds."""

    post: int
    in_flight: Sequence[int]
    held: Sequence[int]


def mounted_site(set_up: SetUp, rooms: Rooms, images: Mapping[int, bytes]) -> Site:
    """The site of what is declared, in which nothing is wrong. The media of some units are these
    images."""
    site = Site(set_up.tasks, rooms.post)
    for number, unit in enumerate(set_up.units):
        room = rooms.in_flight[number], rooms.held[number]
        mounted = _mounted(site, unit, images.get(number), *room)
        for opening in unit.openings:
            open_dcb(mounted, opening)
    return site


def open_dcb(unit: Unit, opening: Open) -> Dcb:
    """Opens the next DCB of a unit. Raises ExcpError."""
    images = [it.to_bytes() for it in opening.extents]
    return unit.open_images(_METHODS[opening.method], images)


def _mounted(
    site: Site, unit: UnitSetUp, image: Union[bytes, None], in_flight: int, held: int
) -> Unit:
    says, faults = unit.says, [_fault(it) for it in unit.faults]
    if isinstance(says, Printer):
        return site.printer(
            lines=says.lines, pages=says.pages, faults=faults, in_flight=in_flight, held=held
        )
    if isinstance(says, Tape):
        return _tape(site, unit, says, image, faults, in_flight, held)
    if image is not None:
        return site.disk_from(image, faults=faults, in_flight=in_flight, held=held)
    return site.disk(
        cylinders=says.cylinders,
        heads=says.heads,
        track_bytes=says.track_bytes,
        records=map(_record, unit.records),
        faults=faults,
        in_flight=in_flight,
        held=held,
    )


def _tape(
    site: Site,
    unit: UnitSetUp,
    says: Tape,
    image: Union[bytes, None],
    faults: Sequence[Fault],
    in_flight: int,
    held: int,
) -> Unit:
    if image is not None:
        return site.tape_from(
            image, length=says.size, faults=faults, in_flight=in_flight, held=held
        )
    items = map(_item, unit.content)
    return site.tape(
        items=items, length=says.size, faults=faults, in_flight=in_flight, held=held
    )


def _fault(says: DeviceFault) -> Fault:
    return Fault(says.ordinal, says.unit_status, says.subchannel_status, says.sense)


def _record(says: Record) -> OnDisk:
    return OnDisk(says.cylinder, says.head, says.number, says.data, says.key)


def _item(says: Content) -> Union[bytes, TapeMark]:
    return says.data if isinstance(says, Block) else TAPE_MARK
