"""Carries out a scenario on a site of the library, and prints its answers or its record."""

from __future__ import annotations

import os
from dataclasses import dataclass
from typing import BinaryIO, Iterator, Optional, Sequence

from ..checking.loaded import Images, with_sizes
from ..checking.scenario import ScenarioCheck
from ..findings import PLAIN, RED, printable_name
from ..programs.telling import tell
from ..script.limits import MOST_SCRIPT_BYTES
from ..script.reading import Text
from ..script.set_up import SetUp
from ..stepping.record_lines import record_lines
from ..stepping.scenario import FINISH, Missed, Scenario, Wanted, on_missed
from ..stepping.words import never_taken, request_in_words
from .forms import Form
from .printing import print_record
from .script_file import worth_printing
from .site_files import SiteFiles, site_files
from .streams import (
    ERRORS, REJECTED, Ended, print_findings, takes_colour, write_at_once,
)
from .tools import Order, title_of
from .units import UnitKind, check_fit, kinds_of, units_of
from .whole_script import OF_UNITS, ending_faults


@dataclass
class Lines:
    """The lines of a scenario, as they come; all its text, if it is known before; and whether a
    person types them."""

    each: Iterator[bytes]
    whole: bytes = b""
    is_typed: bool = False


def whole_lines(text: bytes) -> Lines:
    """The lines of a scenario that is read whole."""
    return Lines(iter(text.removesuffix(b"\n").split(b"\n")), text)


def lines_as_they_come(descriptor: int) -> Lines:
    """The lines of an open file, each of which is read when it is asked for."""
    lines = _read_lines(open(descriptor, "rb", closefd=False))
    return Lines(lines, is_typed=os.isatty(descriptor))


def _read_lines(file: BinaryIO) -> Iterator[bytes]:
    left = MOST_SCRIPT_BYTES
    while True:
        try:
            line = file.readline(left + 1)
        except OSError:
            raise Ended("script unreadable") from None
        left -= len(line)
        if left < 0:
            raise Ended("script too long")
        if not line:
            return
        yield line.removesuffix(b"\n")


def carry_out(order: Order, lines: Lines, wanted: Wanted, form: Optional[Form]) -> int:
    """Carries out a scenario. Returns the exit status. Raises Ended."""
    step = _Step(order, lines, form)
    with site_files(order, step.units) as files:
        status = step.status(files, wanted)
        stage = step.scenario.stage if step.scenario is not None else None
        if status is None and stage is not None:
            files.save(stage.site)
    return REJECTED if status == REJECTED or step.is_unmet else 0


class _Step:
    """A scenario under way: how far its lines are, and what was found in them."""

    def __init__(self, order: Order, lines: Lines, form: Optional[Form]) -> None:
        self._order, self._lines, self._form = order, lines, form
        self._is_coloured = takes_colour(ERRORS)
        self._check: Optional[ScenarioCheck] = None
        self._is_handed_over = False
        self.scenario: Optional[Scenario] = None
        self.is_unmet = False

    def units(self) -> Optional[Sequence[UnitKind]]:
        """The units that are declared: all of them, or those of the lines so far."""
        if self._lines.whole:
            return units_of(self._lines.whole)
        if self._check is None:
            return None
        return kinds_of(self._check.set_up.units)

    def status(self, files: SiteFiles, wanted: Wanted) -> Optional[int]:
        """Carries out all lines. Returns the exit status of a fault, if one has ended it."""
        images = files.measured()
        check = self._check = ScenarioCheck(images)
        scenario = self.scenario = Scenario(check, wanted, self._begin, files.contents)
        for number, line in enumerate(self._lines.each, 1):
            self._read(scenario, number, _text_of(line, images))
            if check.findings and not self._goes_on(check, number):
                return self._reject(check)
        scenario.end()
        if check.findings:
            return self._reject(check)
        self._hand_over(scenario)
        return None

    def _begin(self, set_up: SetUp) -> None:
        check_fit(kinds_of(set_up.units), self._order.loads, self._order.saves)

    def _read(self, scenario: Scenario, number: int, text: Text) -> None:
        printed = scenario.read(number, text)
        if scenario.missed is not None:
            self._tell(number, scenario.missed)
        if printed and self._form is None:
            write_at_once(printed.encode("latin-1"))
        if printed and text.first == FINISH:
            self._hand_over(scenario)

    def _tell(self, number: int, missed: Missed) -> None:
        """Says that an expectation is not met."""
        self.is_unmet = True
        place = f"{printable_name(title_of(self._order.script))}:{number}:"
        if self._is_coloured:
            place = f"{RED}{place}{PLAIN}"
        tell(f"{on_missed(place, missed)}\n")

    def _goes_on(self, check: ScenarioCheck, number: int) -> bool:
        """Whether a person at a terminal can type a line anew, which has this number. Prints what
        is wrong with it then."""
        is_of_line = all(it.line == number and it.name not in OF_UNITS for it in check.findings)
        if not self._lines.is_typed or not is_of_line:
            return False
        print_findings(check.findings, self._order.script, ERRORS)
        check.findings.clear()
        return True

    def _reject(self, check: ScenarioCheck) -> int:
        """Prints what is wrong."""
        findings = ending_faults(check.findings)
        if self._lines.whole:
            findings = worth_printing(findings, self._lines.whole)
        print_findings(findings, self._order.script, ERRORS)
        return REJECTED

    def _hand_over(self, scenario: Scenario) -> None:
        """Prints the record at the end, if one is asked for. Of a file, and at a terminal, it names
        the requests that no unit took; a program that writes the lines knows them."""
        if self._is_handed_over or scenario.stage is None:
            return
        self._is_handed_over = True
        if self._lines.is_typed or self._lines.whole:
            for name in never_taken(scenario.stage.site, scenario.stage.past):
                tell(f"# {request_in_words(name)} was issued and never taken\n")
        if self._form is not None:
            form = self._form
            print_record(form, record_lines(scenario.stage, form.part, form.most))


def _text_of(line: bytes, images: Images) -> Text:
    """A line, with the sizes of an image in place of hyphens."""
    return Text(with_sizes(line, images).decode("latin-1"))
