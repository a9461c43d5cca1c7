"""What lines with faults were to declare, so that no other line has a fault for that."""

from __future__ import annotations

from typing import Iterator

from ..script.forms import INDEX, NUMBER
from ..script.grammar import (
    SCRIPT_LINES, Area, Block, Disk, Line, Mark, Open, Printer, Record, Tape, Tasks,
)
from ..script.limits import MOST_TASKS
from ..script.reading import Refused, Text
from ..script.set_up import SetUp

# The most areas that are assumed.
_MOST_AREAS = 4096


class Assumed:
    """The lines with faults, whose units, DCBs and areas are only assumed in a set-up."""

    def __init__(self, set_up: SetUp) -> None:
        self.lines: set[int] = set()
        self._set_up = set_up

    def __contains__(self, line: int) -> bool:
        return line in self.lines

    def add(self, number: int, text: Text, first: str) -> None:
        """Declares what a set-up line with a fault was to declare, if its number can be read.
        `first` is its first word, or the one that this may mean."""
        self.lines.add(number)
        for line in self._lines_of(number, text, SCRIPT_LINES[first]):
            try:
                self._set_up.add(line, text)
            except Refused:
                # it is declared already, or out of order
                pass

    def _lines_of(self, number: int, text: Text, kind: type[Line]) -> Iterator[Line]:
        """The most tasks, the units or the areas up to the one of the line, or the next DCB of its
        unit."""
        index = INDEX.read(text.word(1))
        area = NUMBER.read(text.word(1))
        if kind is Tasks:
            yield Tasks(number, MOST_TASKS)
        elif kind in (Disk, Tape, Printer) and index is not None:
            for unit in range(len(self._set_up.units), index + 1):
                yield Printer(number, unit, 0, 1, 1)
        elif kind is Open and index is not None:
            yield Open(number, index, "out", ())
        elif kind is Area and area is not None and area < _MOST_AREAS:
            for place in range(len(self._set_up.areas), area + 1):
                yield Area(number, place, 0, b"")

    def has_medium_of(self, line: Line) -> bool:
        """Whether a line says what is on the medium of a unit that is only assumed, whose kind is
        not known."""
        if not isinstance(line, (Record, Block, Mark)) or line.unit >= len(self._set_up.units):
            return False
        return self._set_up.units[line.unit].says.line in self.lines
