"""The record of what happened on a site, as lines of JSON (docs/REPORT.md)."""

from __future__ import annotations

import re
from typing import Iterator, Optional, Sequence

from ..reporting.record import Part
from ..script.grammar import DeviceFault, Printer, Tape
from ..script.set_up import Unit as UnitSetUp
from .answers import Stage

# The most commands that a record can have.
_ALL = 2**64 - 1

_HEAD = '{"what":"unit",'
_ENTRY = re.compile(r'\{"entry":(\d+)')
_STEP = '{"what":"step",'
_MEDIUM = '{"what":"medium",'

# What a command has whose CCWs break a rule, and what comes last of one that the device did.
_RULE = '],"rule":{"at":'
_FAULT = re.compile(r',"fault":null.*\}$')


def record_lines(stage: Stage, part: Part, most: Optional[int] = None) -> Iterator[str]:
    """The lines of a part of the record of what happened on a stage, with at most `most` commands
    of each unit."""
    site, past = stage.site, stage.past
    head = f'"format":"excp-record 1","tasks":{site.tasks},"order":"run"'
    yield f'{{"what":"run",{head}}}\n'
    yield from past.posts()
    if part is Part.POSTS:
        return
    yield from past.deeds()
    steps = (most or _ALL) if part is Part.STEPS else 0
    for unit, says in zip(site.units, stage.set_up.units):
        lines = unit.record(steps).splitlines()
        yield from _unit_lines(lines, says, past.places(unit.number))


def _unit_lines(
    lines: Sequence[str], says: UnitSetUp, places: Sequence[int]
) -> Iterator[str]:
    """The lines of a unit as the library makes them, with what it does not know: the subclass, the
    places of entries in the one order, which commands met a fault, and the size of the medium."""
    faults = _Faults(says.faults)
    for line in lines:
        if entry := _ENTRY.match(line):
            line = f'{{"at":{places[int(entry[1]) - 1]},{line[1:]}'
        elif line.startswith(_STEP):
            line = faults.told(line)
        elif line.startswith(_HEAD):
            line = line.replace('"isc":0', f'"isc":{says.says.subclass}')
        elif line.startswith(_MEDIUM):
            line = _sized(line, says)
        yield f"{line}\n"


class _Faults:
    """The faults that a device meets, in the order of its commands."""

    def __init__(self, faults: Sequence[DeviceFault]) -> None:
        self._faults, self._met, self._commands = faults, 0, 0

    def told(self, line: str) -> str:
        """The line of the next command, with the number of the fault that it met, if it met one.
        It was at no place of the medium then."""
        if self._met == len(self._faults) or _RULE in line:
            return line
        self._commands += 1
        if self._faults[self._met].ordinal != self._commands:
            return line
        self._met += 1
        return _FAULT.sub(f',"fault":{self._met}}}', line)


def _sized(line: str, unit: UnitSetUp) -> str:
    """The line of a medium, with its size."""
    says = unit.says
    if isinstance(says, Tape):
        return line.replace('"bytes":null', f'"bytes":{says.size}')
    if isinstance(says, Printer):
        size = f'"lines":{says.lines},"pages":{says.pages}'
        return line.replace('"lines":null,"pages":null', size)
    return line
