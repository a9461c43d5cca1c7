"""Jobs in symbols, assembled line by line to plain scripts with the same number of lines: faults of
the plain script are at the lines of the job. `check` finds all that is wrong in plain lines."""

from __future__ import annotations

import re
from typing import Optional

from ..findings import FaultName, Finding
from ..script.grammar import EVENT_WORDS, SCRIPT_WORDS, SUGGESTED_JOB_WORDS
from ..script.limits import HIGHEST_ADDRESS, MOST_SCRIPT_BYTES
from ..script.reading import meant_of, on_unprintable
from .assembled import AreaLayout, Assembled
from .disk_extents import DeclaredUnit
from .labels import Labels, UnknownLabel
from .line_forms import Units, excp_line, form_of
from .mistakes import Located, Mistake
from .numbers import value_of
from .open_area import OpenArea
from .operands import end
from .statements import put_statement
from .words import BLANKS, Operands, Word, before_comment, blank_separated, first_word

# The lowest address of an area whose line has none.
_LOWEST = 0x1000

_UNKNOWN = (
    "outside of an area no line begins with this word: expected tasks, disk, tape, printer, rec, "
    "block, mark, fault, open, area, excp, purge, purgetask, close, reset, wait or, in a scenario, "
    "an event"
)
_TOO_LONG = (
    f"the assembled script has more than {MOST_SCRIPT_BYTES} bytes with this line, and a run reads "
    "no more"
)
_NO_END = "the area that begins here has no end: expected a line 'endarea'"
_ENDS_NOTHING = "this ends no area: no line 'area' comes before it"
_NO_BASE = "not an address of an area: expected six hexadecimal digits, a multiple of 8"
_NOT_NEXT = (
    "not the number of the next area: areas are 0, 1, 2 and so on, in the order of their lines"
)


def assemble(job: bytes) -> Assembled:
    """Assembles a job in symbols. Lines without symbols stay as they are."""
    assembly = _Assembly()
    assembly.read(job.decode("latin-1"))
    if assembly.mistakes:
        return Assembled(b"", assembly.findings())
    script = "".join(assembly.script).encode("latin-1")
    return Assembled(script, areas=assembly.layouts, job=job)


class _Assembly:
    """The part of a script that was assembled."""

    def __init__(self) -> None:
        self.script: list[str] = []
        self.mistakes: list[Located] = []
        self.layouts: list[AreaLayout] = []
        # The labels of each area that has ended. Those of a plain area are none.
        self._labels: list[Labels] = []
        self._units: Units = {}
        self._line = 0
        self._size = 0
        self._open: Optional[OpenArea] = None
        # The first multiple of 8 after all areas.
        self._free = _LOWEST
        # Whether the script has become too long. Nothing is added to it then.
        self._is_long = False
        # Whether a line of a script has ended the last area in place of its `endarea`.
        self._lacks_end = False
        # Whether the last lines begin with no word of a script, and a finding says so of the first.
        self._is_lost = False
        # Whether there is a finding of a tab.
        self._has_tab = False

    # Lines.

    def read(self, text: str) -> None:
        """Assembles all lines of a text. A carriage return may end a line."""
        lines = re.split("\r?\n", text)
        for self._line, line in enumerate(lines, 1):
            is_last = self._line == len(lines)
            if line or not is_last:
                self._read_line(line, "" if is_last else "\n")
        if self._open is not None:
            self._find(FaultName.ORDER, _NO_END, self._open.number.line)
            self.mistakes += self._open.end()

    def _read_line(self, text: str, feed: str) -> None:
        if text:
            try:
                self._put_line(text, Word(self._readable(text), self._line, 1))
            except Mistake as mistake:
                self.mistakes.append(Located(self._line, mistake))
        self._put(feed)
        if self._size > MOST_SCRIPT_BYTES and not self._is_long:
            self._is_long = True
            self._find(FaultName.WORDS, _TOO_LONG, self._line)

    def _find(self, name: FaultName, text: str, line: int) -> None:
        """Adds a mistake of a line as a whole."""
        self.mistakes.append(Located(line, Mistake(name, text)))

    def findings(self) -> list[Finding]:
        """What is found, by lines. Of a label that only other areas have, it names the first."""
        areas: dict[str, int] = {}
        for number, labels in enumerate(self._labels):
            for label in labels:
                areas.setdefault(label, number)
        found = []
        for line, mistake in sorted(self.mistakes, key=lambda it: it.line):
            if isinstance(mistake, UnknownLabel) and mistake.label.text in areas:
                area = areas[mistake.label.text]
                mistake = mistake.if_elsewhere(area, self.layouts[area].line)
            found.append(mistake.at(line))
        return found

    def _put(self, text: str) -> None:
        """Adds to the plain script."""
        if not self._is_long:
            self.script.append(text)
            self._size += len(text)

    def _readable(self, text: str) -> str:
        """What a line says, without its comment and the blanks at its end.

        A tab is a mistake. Only the first is reported. Its line is still read, so that its labels
        are defined.
        """
        said = before_comment(text)
        found = re.search("[^ -~]", said)
        if found is not None:
            mistake = Mistake(FaultName.WORDS, on_unprintable(said, found))
            if re.search("[^ -~\t]", said):
                raise mistake
            if not self._has_tab:
                self._has_tab = True
                self.mistakes.append(Located(self._line, mistake))
        return said.rstrip(BLANKS)

    def _put_line(self, text: str, said: Word) -> None:
        word, rest = first_word(said)
        if word.text in SCRIPT_WORDS:
            self._is_lost = False
            self._leave_area()
        if not word.text:
            self._put_comment(text)
        elif word.text == "area":
            self._put_area(text, said)
        elif word.text == "endarea":
            self._end_area(rest)
        elif self._open is not None:
            put_statement(self._open, said)
            self._put_comment(text)
        else:
            self._put_other(said)

    def _put_comment(self, text: str) -> None:
        """Adds a line that says nothing in a script."""
        said = text.lstrip(BLANKS)
        if said.startswith(";"):
            self._put(f"#{said[1:]}")
        else:
            self._put(text if not said or said.startswith("#") else f"# {text}")

    # Lines outside of areas.

    def _put_other(self, said: Word) -> None:
        """Adds a line that is outside of areas and opens none. The symbols of a script that is too
        long are not looked at."""
        word, rest = first_word(said)
        unit, form = DeclaredUnit.of_line(said), form_of(said)
        if unit is not None:
            self._units.setdefault(unit.number, unit)
        if self._is_long or not (form or word.text == "excp"):
            self._check_known(said)
            self._put(said.text)
        elif form is not None:
            self._put(word.text)
            for part in form.plain(Operands(rest), self._units):
                self._put(part)
        else:
            for part in excp_line(said, self._labels):
                self._put(part)

    def _check_known(self, said: Word) -> None:
        """Checks that a line begins with a word of a script or a scenario.

        Of lines that do not, the first has a mistake, and each whose word may mean a known one.
        """
        word, _ = first_word(said)
        if word.text in SCRIPT_WORDS or word.text in EVENT_WORDS:
            return
        # a tab has its own mistake
        meant = None if "\t" in said.text else meant_of(word.text, SUGGESTED_JOB_WORDS)
        if meant is not None or not self._is_lost:
            self._is_lost = True
            text = "no line begins with this word" if meant else _UNKNOWN
            raise Mistake(FaultName.WORDS, text, word, meant)

    # Areas.

    def _put_area(self, text: str, said: Word) -> None:
        """`area A ADDR HEX ..`, a plain area, or `area A ADDR` or `area A`, which opens a symbolic
        one."""
        nothing = said.part(len(said.text))
        area, number, address, *rest = blank_separated(said) + [nothing, nothing]
        is_next = value_of(number.text, 10) == len(self._labels)
        base = _base(address.text) if address.text else self._free
        digits = sum(len(it.text) for it in rest)
        if digits == 0:
            self._lacks_end = False
            self._open = OpenArea(number, base or 0)
            if base is None:
                raise Mistake(FaultName.AREA, _NO_BASE, address)
            self._put_comment(text)
        else:
            layout = AreaLayout(area.line, base or 0)
            self._add_area(Labels(), layout, layout.base, digits // 2)
            self._put(said.text)
        if not is_next:
            raise Mistake(FaultName.ORDER, _NOT_NEXT, number)

    def _add_area(self, labels: Labels, layout: AreaLayout, base: int, size: int) -> None:
        """Adds an area. No area without an address begins before the end of this one."""
        self._labels.append(labels)
        self.layouts.append(layout)
        self._free = max(self._free, (base + size + 7) // 8 * 8)

    def _leave_area(self) -> None:
        """Ends the open area, if there is one, at a line of a script, where its `endarea` is
        missing."""
        if self._open is not None:
            begins = f"the area that begins in line {self._open.number.line} has no end"
            missing = f"{begins}: put 'endarea' before this line"
            self._find(FaultName.ORDER, missing, self._line)
            self._lacks_end = True
            self._close(self._open)

    def _end_area(self, rest: Word) -> None:
        if self._open is not None:
            self._close(self._open)
        elif self._lacks_end:
            self._lacks_end = False
        else:
            raise Mistake(FaultName.ORDER, _ENDS_NOTHING)
        end(Operands(rest))

    def _close(self, area: OpenArea) -> None:
        """Adds the plain line of the open area, with a word for each eight bytes."""
        self._open = None
        self.mistakes += area.end()
        self._add_area(area.labels, area.layout(), area.base, len(area.image))
        digits = area.image.hex(" ", -8).upper() or "-"
        self._put(f"area {area.number.text} {area.base & HIGHEST_ADDRESS:06X} {digits}")


def _base(text: str) -> Optional[int]:
    """The address of an area: six hexadecimal digits, a multiple of 8."""
    base = value_of(text, 16) if len(text) == 6 else None
    return base if base is not None and base % 8 == 0 else None
