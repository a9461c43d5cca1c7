"""What the set-up lines of a script declare: tasks, units with media, DCBs and areas."""

from __future__ import annotations

from dataclasses import dataclass, field
from functools import cached_property
from typing import Mapping

from ..device_commands import DISK, PRINTER, TAPE
from ..findings import FaultName
from .grammar import (
    Area, Block, Command, CommandOfDcb, Content, DeviceFault, Disk, Line, LineOfUnit, Mark, Open,
    Printer, PurgeTask, Record, Tape, Tasks, UnitLine,
)
from .limits import HIGHEST_ADDRESS, MOST_AREA_BYTES
from .reading import Refused, Text, count_of

_DEVICES: Mapping[type[Line], str] = {Disk: DISK, Tape: TAPE, Printer: PRINTER}

# Each kind of thing that has numbers, and what declares it.
_DECLARED_BY = {"unit": "a unit", "task": "the tasks", "area": "an area"}


@dataclass
class Unit:
    """A unit, what is on its medium, the faults that it is to meet, and its DCBs in the order of
    their numbers, from 1."""

    says: UnitLine
    content: list[Content] = field(default_factory=list)
    faults: list[DeviceFault] = field(default_factory=list)
    openings: list[Open] = field(default_factory=list)

    @property
    def device(self) -> str:
        """The kind of its device: `disk`, `tape` or `printer`."""
        return _DEVICES[type(self.says)]

    @property
    def records(self) -> list[Record]:
        """What is on its medium, if it is a disk."""
        return [it for it in self.content if isinstance(it, Record)]

    @cached_property
    def records_by_identifier(self) -> dict[bytes, list[Record]]:
        """The records of a disk by CCHHR, once all are added."""
        found: dict[bytes, list[Record]] = {}
        for record in self.records:
            found.setdefault(record.identifier, []).append(record)
        return found


class SetUp:
    """The tasks, units and areas that are declared so far. Each method raises Refused."""

    def __init__(self) -> None:
        self.tasks = 0
        self.units: list[Unit] = []
        self.areas: list[Area] = []

    def add(self, line: Line, text: Text) -> None:
        """Adds what a set-up line declares."""
        if isinstance(line, Tasks):
            if self.tasks:
                raise Refused(FaultName.ORDER, "the number of tasks is declared already")
            self.tasks = line.count
        elif isinstance(line, (Disk, Tape, Printer)):
            _check_next("unit", line.unit, len(self.units))
            self.units.append(Unit(line))
        elif isinstance(line, Area):
            _check_next("area", line.number, len(self.areas))
            _check_area(line)
            self.areas.append(line)
        elif isinstance(line, LineOfUnit):
            self.name_unit(line.unit)
            _add_to_unit(self.units[line.unit], line, text)

    def name_unit(self, number: int) -> None:
        """A unit has this number."""
        _check_declared("unit", number, len(self.units))

    def name_task(self, number: int) -> None:
        """A task has this number."""
        _check_declared("task", number, self.tasks)

    def area(self, number: int) -> Area:
        """The area with this number."""
        _check_declared("area", number, len(self.areas))
        return self.areas[number]

    def name_dcb(self, unit: int, dcb: int) -> None:
        """A DCB of a unit has this number."""
        self.name_unit(unit)
        count = len(self.units[unit].openings)
        if dcb > count:
            which = "DCB 1" if count == 1 else f"DCB 1 to {count}"
            lines = f"{count_of(count, 'open line')} ({which})" if count else "no open line"
            raise Refused(FaultName.NAME, f"DCB {dcb} is not open: unit {unit} has {lines}")

    def name_all(self, command: Command) -> None:
        """The task, the other task and the DCB of a command are declared."""
        self.name_task(command.task)
        if isinstance(command, PurgeTask):
            self.name_task(command.other)
        elif isinstance(command, CommandOfDcb):
            self.name_dcb(command.unit, command.dcb)


def _add_to_unit(unit: Unit, line: LineOfUnit, text: Text) -> None:
    if isinstance(line, DeviceFault):
        unit.faults.append(line)
    elif isinstance(line, Open):
        unit.openings.append(line)
    elif isinstance(line, (Record, Block, Mark)):
        wanted = DISK if isinstance(line, Record) else TAPE
        if unit.device != wanted:
            kinds = f"unit {line.unit} is a {unit.device}, and '{text.first}' is for a {wanted}"
            raise Refused(FaultName.KIND, kinds)
        unit.content.append(line)


def _check_next(kind: str, number: int, expected: int) -> None:
    if number != expected:
        order = f"{kind} {number} is out of order: the next {kind} is {expected}"
        raise Refused(FaultName.ORDER, order)


def _check_declared(kind: str, number: int, count: int) -> None:
    if number < count:
        return
    if count == 0:
        which = f"no line before this one declares {_DECLARED_BY[kind]}"
    elif count == 1:
        which = f"the only {kind} is 0"
    else:
        which = f"the {kind}s are 0 to {count - 1}"
    raise Refused(FaultName.NAME, f"{kind} {number} is not declared: {which}")


def _check_area(area: Area) -> None:
    count = count_of(len(area.data), "byte")
    if area.base % 8:
        boundary = f"the address {area.base:06X} is not on a doubleword boundary"
        raise Refused(FaultName.AREA, boundary)
    if len(area.data) > MOST_AREA_BYTES:
        raise Refused(FaultName.AREA, f"{count}: an area has at most {MOST_AREA_BYTES}")
    if area.base + len(area.data) > HIGHEST_ADDRESS + 1:
        raise Refused(FaultName.AREA, f"{count} from {area.base:06X} end past FFFFFF")
