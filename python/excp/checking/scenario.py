"""All that is wrong in a scenario. Its events are not carried out, and no expectation is
compared."""

from __future__ import annotations

from typing import Mapping, Optional

from ..findings import FaultName, Finding
from ..script.grammar import (
    SUGGESTED_SCENARIO_WORDS, BookSize, Command, CommandOfDcb, Excp, Expect, Finish, Line,
    LineOfUnit, Open, PurgeTask, PurgeTaskAt, RowSize, StepOfUnit,
)
from ..script.reading import (
    Refused, Text, is_symbolic, lines_of, meant, read_scenario_line, shown,
)
from ..script.set_up import SetUp
from .line_faults import refused_line
from .loaded import NO_IMAGES, Images, first_misfit, with_sizes
from .requests import rejection_of
from .units import opening_faults, unit_faults

_EVENTS = (Command, StepOfUnit, Finish)

_AREA_IN_SYMBOLS = (
    "an area without an address is in symbols: 'endarea' ends it, and 'step' takes it from a file "
    "only, as step FILE"
)
_IN_SYMBOLS = "a form of jobs in symbols: 'step' takes it from a file only, as step FILE"

# The words of a line, by their places, that may be in symbols, and the words that show it. So does
# an apostrophe.
_SYMBOL_PLACES: Mapping[str, tuple[int, ...]] = {
    "open": (3,),
    "rec": (5,),
    "block": (2,),
    "fault": (2, 3),
}
_SYMBOLS = ("all", "tracks", "cylinder", "key", "data", "at")


def check_scenario(text: bytes, images: Images = NO_IMAGES) -> list[Finding]:
    """All that is found in a scenario, some of whose media are images, by lines; what is wrong
    with units comes where their set-up ends."""
    lines = lines_of(with_sizes(text, images))
    if not lines[-1]:
        lines.pop()
    check = ScenarioCheck(images)
    for number, line in enumerate(lines, 1):
        check.read(number, Text(line))
    check.end_set_up()
    return check.findings


class ScenarioCheck:
    """What a scenario declares, and what was found in it, as its lines are read one by one. After a
    fault of the set-up, events are only read: whether the names in them are declared is not known.

    `sizes` has the sizes of all intake rows, of all post rows and of the books of units."""

    def __init__(self, images: Images) -> None:
        self.findings: list[Finding] = []
        self.set_up = SetUp()
        self.is_set_up = False
        self.sizes: dict[tuple[str, Optional[int]], int] = {}
        self._images = images
        self._first_event: Optional[int] = None
        self.are_names_known = False
        self._finish: Optional[int] = None

    def read(self, number: int, text: Text) -> Optional[Line]:
        """Adds what a line says, or what is wrong with it. Returns what it says."""
        line = None
        try:
            line = read_scenario_line(number, text)
            if line is None:
                return None
            if isinstance(line, _EVENTS) and not self.is_set_up:
                self._first_event = number
                self.end_set_up()
            if not self.is_set_up:
                self._declare(line, text)
            elif self.are_names_known and not isinstance(line, Expect):
                self._check_event(line, text)
        except Refused as refused:
            self.findings.append(_refused_line(number, text, refused, self._images))
        return line

    def end_set_up(self) -> None:
        """Finds what is wrong with the whole set-up, unless a line of it has a fault."""
        if self.is_set_up:
            return
        self.is_set_up = True
        if self.findings:
            return
        lacks = "the tasks: add a line 'tasks N'" if not self.set_up.tasks else ""
        if not lacks and not self.set_up.units:
            lacks = "a unit: add a line 'disk', 'tape' or 'printer'"
        if lacks:
            lack = f"no line before the first event declares {lacks}"
            self.findings.append(Finding(None, lack, FaultName.ORDER))
            return
        self.are_names_known = True
        self.findings += self._faults_of_units()

    def _faults_of_units(self) -> list[Finding]:
        """Why units are not mounted: the first image that does not fit its unit, or all else."""
        units = self.set_up.units
        images = [(unit, self._images.get(number)) for number, unit in enumerate(units)]
        for unit, image in images:
            misfit = None if image is None else first_misfit(unit, image)
            if misfit is not None:
                return [Finding(misfit.line, misfit.sentence, FaultName.MEDIUM)]
        found: list[Finding] = []
        for unit, image in images:
            found += unit_faults(unit) if image is None else opening_faults(unit)
        return found

    def _declare(self, line: Line, text: Text) -> None:
        if isinstance(line, Expect):
            rule = "'expect' has the answer of the event before it"
            raise Refused(FaultName.ORDER, f"no event comes before this line: {rule}")
        if isinstance(line, BookSize):
            self.set_up.name_unit(line.unit)
        if not isinstance(line, (RowSize, BookSize)):
            self.set_up.add(line, text)
            return
        sized = line.row, line.unit if isinstance(line, BookSize) else None
        if sized in self.sizes:
            twice = "an earlier line sets the size of this row or this book"
            raise Refused(FaultName.ORDER, twice)
        self.sizes[sized] = line.size

    def _check_event(self, line: Line, text: Text) -> None:
        if self._finish is not None:
            late = f"comes after 'finish' (line {self._finish}), which ends the scenario"
            raise Refused(FaultName.ORDER, f"'{text.first}' {late}")
        if isinstance(line, Finish):
            self._finish = line.line
        elif isinstance(line, (*_EVENTS, Open)):
            self._check_names(line)
        else:
            late = f"must come before the first event (line {self._first_event})"
            raise Refused(FaultName.ORDER, f"'{text.first}' {late}")

    def _check_names(self, line: Line) -> None:
        """What an event names is declared, and its request can be made. A DCB may be opened
        later."""
        area = self.set_up.area(line.area) if isinstance(line, Excp) else None
        if isinstance(line, Command):
            self.set_up.name_task(line.task)
        if isinstance(line, PurgeTask):
            self.set_up.name_task(line.other)
        if isinstance(line, (CommandOfDcb, LineOfUnit, PurgeTaskAt)):
            self.set_up.name_unit(line.unit)
        if isinstance(line, Excp) and area is not None:
            rejection = rejection_of(line, area, area.line)
            if rejection is not None:
                raise Refused(FaultName.REQUEST, rejection.sentence)


def _refused_line(number: int, text: Text, refused: Refused, images: Images) -> Finding:
    """The fault of a line of a scenario. It says if only a job in symbols has such a line."""
    sentence = _sentence_on_symbols(text)
    if sentence is not None:
        return Finding(number, sentence, refused.name)
    return refused_line(number, text, refused, SUGGESTED_SCENARIO_WORDS, images)


def _sentence_on_symbols(text: Text) -> Optional[str]:
    if text.first == "area":
        return None if text.word(2) else _AREA_IN_SYMBOLS
    words = [text.word(place) for place in _SYMBOL_PLACES.get(text.first, ())]
    if any("'" in word or word in _SYMBOLS for word in words):
        return _IN_SYMBOLS
    if text.unprintable or not is_symbolic(text.first):
        return None
    if meant(text, SUGGESTED_SCENARIO_WORDS) is not None:
        return None
    around = "expected 'area A' before it, 'endarea' after it, and a file, as step FILE"
    return f"'{shown(text.first)}' begins a line of a symbolic area: {around}"
