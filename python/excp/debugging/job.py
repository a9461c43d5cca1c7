"""What the script of a run says of its requests: their areas, and the media of units before it."""

from __future__ import annotations

from array import array
from typing import Dict, Mapping, NamedTuple, Optional, Tuple

from ..device_commands import DISK, TAPE
from ..images.lines import disk_of, tape_items
from ..images.media import Disk
from ..images.media import Medium as ImageMedium
from ..script.grammar import Area, Command, Excp
from ..script.reading import Refused, Text, lines_of, read_script_line
from ..script.set_up import SetUp, Unit
from ..symbols import Assembled
from ..symbols.source_map import AreaSource, source_map
from .media import DiskState, Medium, PaperState, TapeState
from .recording import RequestName, RequestRun


class Issued(NamedTuple):
    """What a script issues a request with: the area, and the address of its IOB."""

    area: Area
    iob: int


class Job:
    """A script that a run has accepted, with the sizes of images in place of hyphens. Units of
    `images` have their media."""

    def __init__(self, script: Assembled, images: Mapping[int, ImageMedium]) -> None:
        self.script, self.source = script, source_map(script)
        self._images, self._set_up = images, SetUp()
        # of each task and unit the numbers of the areas of its requests, and their IOBs
        self._issued: Dict[Tuple[int, int], array[int]] = {}
        for number, line in enumerate(lines_of(script.script), 1):
            try:
                self._add(number, Text(line))
            except Refused:
                # an image says what the line leaves out
                continue

    def _add(self, number: int, text: Text) -> None:
        says = read_script_line(number, text)
        if isinstance(says, Excp):
            numbers = self._issued.setdefault((says.task, says.unit), array("I"))
            numbers.extend((says.area, says.iob))
        elif says is not None and not isinstance(says, Command):
            self._set_up.add(says, text)

    def counts(self) -> Mapping[Tuple[int, int], int]:
        """How many requests each task issues to each unit."""
        return {name: len(numbers) // 2 for name, numbers in self._issued.items()}

    def issued(self, request: RequestRun) -> Issued:
        """What a request is issued with."""
        numbers, at = self._issued[request.task, request.unit], 2 * (request.number - 1)
        return Issued(self._set_up.area(numbers[at]), numbers[at + 1])

    def area_source(self, name: RequestName) -> Optional[AreaSource]:
        """The names of the area of a request, if the job is in symbols."""
        return None if self.source is None else self.source.area_of(*name)

    def medium(self, number: int) -> Medium:
        """The medium of a unit before the run."""
        unit = self._set_up.units[number]
        if unit.device == DISK:
            return DiskState(self._disk(number, unit))
        if unit.device == TAPE:
            image = self._images.get(number)
            items = tape_items(unit) if image is None or isinstance(image, Disk) else image.items
            return TapeState(list(items))
        return PaperState()

    def _disk(self, number: int, unit: Unit) -> Disk:
        image = self._images.get(number)
        if not isinstance(image, Disk):
            return disk_of(unit)
        return Disk(image.size, [list(track) for track in image.tracks])

