"""All that is wrong in a script: every fault with its reason, and notes on what runs but is a
likely mistake.

A line with a fault counts as declaring what it was to declare, so that no other line has a fault
for that.
"""

from __future__ import annotations

from typing import Iterable, Optional

from ..findings import FaultName, Finding
from ..script.forms import NUMBER
from ..script.grammar import (
    EVENT_WORDS, SCRIPT_LINES, SUGGESTED_SCRIPT_WORDS, Area, Command, Excp, Line,
)
from ..script.reading import (
    BYTE_ORDER_MARK, Refused, Text, lines_of, meant, read_script_line,
)
from ..script.set_up import SetUp
from ..symbols import Assembled
from .assumed import Assumed
from .line_faults import refused_line
from .loaded import NO_IMAGES, Images, with_sizes
from .ordinals import unmet_faults
from .races import OUTCOMES, Races
from .requests import rejection_of
from .units import UnitCheck, at_word

NO_TASKS = "no line declares the tasks: add a line 'tasks N'"
NO_UNIT = "no line declares a unit: add a line 'disk', 'tape' or 'printer'"

# The faults that only a run finds that has read all lines.
_LATE = (FaultName.MEDIUM, FaultName.EXTENT, FaultName.REQUEST)


def check_script(script: Assembled, images: Images = NO_IMAGES) -> list[Finding]:
    """All that is found in a plain script, some of whose media are images, in the order of lines.
    Of one that was assembled it is at the words of the job."""
    check = _Check(script, images)
    for number, line in enumerate(lines_of(with_sizes(script.script, images)), 1):
        check.read(number, Text(line))
    check.finish()
    return _in_order(check.findings)


def has_rejected_line(findings: Iterable[Finding]) -> bool:
    """Whether a line is at fault, or a line is missing, so that a script cannot be read."""
    return any(finding.is_fault and finding.name not in _LATE for finding in findings)


def _in_order(findings: Iterable[Finding]) -> list[Finding]:
    """By lines, those of the script as a whole last."""
    return sorted(findings, key=lambda it: float("inf") if it.line is None else it.line)


class _Check:
    """What the lines read so far declare, and what was found in them."""

    def __init__(self, script: Assembled, images: Images) -> None:
        self.findings: list[Finding] = []
        self._script, self._images = script, images
        self._set_up = SetUp()
        self._assumed = Assumed(self._set_up)
        self._races = Races()
        self._first_command: Optional[int] = None
        # The requests that can be made, and the numbers of the areas that are used.
        self._requests: list[Excp] = []
        self._used: set[int] = set()
        # The kinds of faults that are reported of the first such line alone.
        self._told: set[str] = set()

    # Lines.

    def read(self, number: int, text: Text) -> None:
        """Adds what a line says, or what is wrong with it."""
        try:
            line = read_script_line(number, text)
            if isinstance(line, Command):
                self._add_command(line)
            elif line is not None:
                self._add(line, text)
        except Refused as refused:
            self._add_fault(number, text, refused)

    def _add(self, line: Line, text: Text) -> None:
        if self._first_command is not None:
            first = f"the first command (line {self._first_command})"
            raise Refused(FaultName.ORDER, f"'{text.first}' must come before {first}")
        if not self._assumed.has_medium_of(line):
            self._set_up.add(line, text)

    def _add_command(self, command: Command) -> None:
        """Adds a command, an EXCP after its request is tried, unless its area is only assumed."""
        area = None
        if isinstance(command, Excp):
            self._use_area(command.area)
            area = self._set_up.area(command.area)
        self._set_up.name_all(command)
        self._begin_commands(command.line)
        if isinstance(command, Excp) and area is not None and area.line not in self._assumed:
            if not self._is_request(command, area):
                return
            self._requests.append(command)
        early = self._races.add(command, area)
        if early is not None:
            self.findings.append(Finding(command.line, early))

    def _is_request(self, excp: Excp, area: Area) -> bool:
        """Whether the request of an EXCP can be made. If a word of a job in symbols is at fault,
        that is found there. Raises Refused if its line is."""
        opening = self._script.opening_line(excp.area, area.line)
        rejection = rejection_of(excp, area, opening)
        if rejection is None:
            return True
        name, at = FaultName.REQUEST, rejection.at
        if at is None or self._script.place(excp.area, at) is None:
            raise Refused(name, rejection.sentence)
        found = at_word(self._script, excp, at, rejection.sentence_at, name)
        self.findings.append(found)
        return False

    def _begin_commands(self, line: int) -> None:
        """No set-up line comes after this line, which is a command."""
        if self._first_command is None:
            self._first_command = line

    def _use_area(self, number: int) -> None:
        if number < len(self._set_up.areas):
            self._used.add(number)

    # Lines with faults.

    def _add_fault(self, number: int, text: Text, refused: Refused) -> None:
        finding = refused_line(number, text, refused, SUGGESTED_SCRIPT_WORDS, self._images)
        sign = text.unprintable[0] if text.unprintable else ""
        if not sign and text.first in EVENT_WORDS:
            sign = "event"
            events = f"'{text.first}' begins an event of a scenario"
            instead = f"{events}: use 'check --scenario' and 'step'"
            finding = Finding(number, instead, refused.name)
        if sign not in self._told:
            self.findings.append(finding)
        if sign in ("event", "\r", "\t"):
            self._told.add(sign)
        word = meant(text, SUGGESTED_SCRIPT_WORDS)
        if text.unprintable:
            text = _cleaned(text)
        self._assume(number, text, word or text.first)

    def _assume(self, number: int, text: Text, first: str) -> None:
        """Assumes what a line with a fault was meant to declare. `first` is its first word, or
        the known word nearest to it."""
        kind = SCRIPT_LINES.get(first)
        if kind is None:
            return
        if not issubclass(kind, Command):
            self._assumed.add(number, text, first)
            return
        self._begin_commands(number)
        area = NUMBER.read(text.word(5)) if kind is Excp else None
        if area is not None:
            self._use_area(area)

    # The whole script.

    def finish(self) -> None:
        """Finds what only the whole script shows."""
        if not self._set_up.tasks:
            self.findings.append(Finding(None, NO_TASKS, FaultName.ORDER))
        if not self._set_up.units:
            self.findings.append(Finding(None, NO_UNIT, FaultName.ORDER))
        self._check_units()
        self._note_unused()
        warnings = self._races.warnings(self._set_up.units)
        races = [Finding(line, text) for line, text in warnings]
        self.findings += races
        if any(finding.is_fault for finding in self.findings):
            return
        if races or self._races.has_early:
            self.findings.append(Finding(None, OUTCOMES))
        unmet = unmet_faults(self._set_up.units, self._set_up.areas, self._requests)
        self.findings += [Finding(line, text) for line, text in unmet]

    def _check_units(self) -> None:
        areas, assumed = self._set_up.areas, self._assumed.lines
        check = UnitCheck(self._script, areas, self._requests, assumed, self._images)
        self.findings += check.findings(self._set_up.units)
        for unit in sorted(self._images):
            if unit >= len(self._set_up.units):
                undeclared = f"unit {unit} has an image, and no line declares it"
                self.findings.append(Finding(None, undeclared, FaultName.ORDER))

    def _note_unused(self) -> None:
        for area in self._set_up.areas:
            if area.number not in self._used and area.line not in self._assumed:
                line = self._script.opening_line(area.number, area.line)
                self.findings.append(Finding(line, f"no excp uses area {area.number}"))


def _cleaned(text: Text) -> Text:
    """A line without a byte order mark, and with a blank for each tab and carriage return."""
    line = text.line.removeprefix(BYTE_ORDER_MARK)
    return Text(line.replace("\t", " ").replace("\r", " "))
