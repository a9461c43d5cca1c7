"""What files of media need of the units that a script declares."""

from __future__ import annotations

from dataclasses import replace
from typing import List, Mapping, NamedTuple, Optional, Sequence

from ..device_commands import DISK, PRINTER, TAPE
from ..files import targets
from ..files.refusals import Unwritten
from ..findings import printable_name
from ..images.ckd import model_of, on_no_model
from ..script.grammar import COMMAND_WORDS, EVENT_WORDS, Disk
from ..script.reading import Refused, Text, lines_of, read_script_line
from ..script.set_up import Unit
from .streams import Ended

# The first words of lines after which a scenario declares nothing.
_EVENTS = {*COMMAND_WORDS, *EVENT_WORDS} - {"room"}

_CONTENTS = {DISK: targets.DISK, TAPE: targets.TAPE, PRINTER: targets.TEXT}


class UnitKind(NamedTuple):
    """A unit: the kind of its device, and its line if that has the size of a disk."""

    kind: str
    disk: Optional[Disk]

    @property
    def content(self) -> targets.Content:
        """What is saved of it."""
        return _CONTENTS[self.kind]


def kinds_of(units: Sequence[Unit]) -> Sequence[UnitKind]:
    """The kinds of units that are declared."""
    return [UnitKind(it.device, it.says if isinstance(it.says, Disk) else None) for it in units]


def units_of(script: bytes) -> Sequence[UnitKind]:
    """The units of a plain script or scenario, by their numbers. Whether a line is at fault, the
    program says."""
    units: List[UnitKind] = []
    for number, line in enumerate(lines_of(script), 1):
        text = Text(line)
        if text.first in _EVENTS:
            break
        if text.first in _CONTENTS:
            units.append(UnitKind(text.first, _disk_of(number, text)))
    return units


def _disk_of(number: int, text: Text) -> Optional[Disk]:
    """The line of a disk, unless it leaves its size to an image."""
    try:
        line = read_script_line(number, text)
    except Refused:
        return None
    return line if isinstance(line, Disk) else None


def with_content(output: targets.Output, units: Optional[Sequence[UnitKind]]) -> targets.Output:
    """An output with what is saved, if one of the units that are declared so far is its own."""
    units = units or ()
    if output.content is not None or output.unit is None or output.unit >= len(units):
        return output
    return replace(output, content=units[output.unit].content)


def check_fit(
    units: Sequence[UnitKind], loads: Mapping[int, str], saves: Mapping[int, str]
) -> None:
    """Raises Ended if a unit of a file is not declared, and Unwritten if a disk that is to be saved
    has no model, which one from an image needs not."""
    for unit, name in (*loads.items(), *saves.items()):
        if unit >= len(units):
            raise Ended(f"{unit}={printable_name(name)}: no line declares unit {unit}")
    for unit, name in saves.items():
        disk = units[unit].disk
        if disk is not None and unit not in loads:
            if model_of(disk.heads, disk.track_bytes) is None:
                raise Unwritten(name, on_no_model(disk.heads, disk.track_bytes))
