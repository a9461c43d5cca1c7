"""The commands of channel programs in words: a line for each CCW, and then, two blanks further
right, its data, its place on the medium and its end. Each line is a comment of a script."""

from __future__ import annotations

from functools import lru_cache
from typing import TYPE_CHECKING, Iterable, Iterator, List, NamedTuple, Optional

from ..device_status import NORMAL_END, SENSE_BITS, STATUS_BITS, names_of
from .folds import Fold, folded
from .look import Look
from .record import Members, has_failed, members
from .step import BACKWARD, Step, ccw_names, step_of
from .texts import counted

if TYPE_CHECKING:
    # as in look.py
    from ..symbols.source_map import AreaSource

_INDENT = "#         "

LEFT_OUT = f"{_INDENT}--most-steps leaves out the commands from here\n"

# The hexadecimal digits of a group, and the width of what comes before the source of a CCW.
_GROUP, _BEFORE_SOURCE = 8, 54

# What the step of a command that skips has in place of its bytes.
_SKIPPED = "skipped"


class _StepText(NamedTuple):
    """The lines of a step before that of its place, and those after it, and whether it failed."""

    before: str
    after: str
    has_failed: bool


class StepLines:
    """Makes the lines of commands."""

    def __init__(self, look: Look) -> None:
        self._look = look
        # a loop has the same steps again and again, at other places
        self._around_place = lru_cache(maxsize=1024)(self._made)

    def lines(
        self, device: str, steps: Iterable[str], area: Optional[AreaSource]
    ) -> Iterator[str]:
        """The lines of the steps of one entry of a kind of device, whose program is in an area of a
        job in symbols, or of a plain script."""
        if self._look.folds_loops:
            for fold in folded([step_of(line) for line in steps]):
                yield from (self._step(device, step, area) for step in fold.first)
                if fold.times > 1:
                    yield _further_rounds(fold)
        else:
            yield from (self._step(device, step_of(line), area) for line in steps)

    def _step(self, device: str, step: Step, area: Optional[AreaSource]) -> str:
        """The lines of a step."""
        text = self._around_place(device, step.text, area)
        place = f"{_INDENT}  {self._place(members(step.place))}\n" if step.place else ""
        lines = f"{text.before}{place}{text.after}"
        return self._look.failed(lines) if text.has_failed else lines

    def _place(self, place: Members) -> str:
        """Where a command was on its medium. Of a search it also says what it found."""
        if "passed" in place:
            count = counted(place["passed"], "record")
            return f"no record found on {_track(place)} after {count}"
        if "equal" not in place:
            return _where(place)
        key = f", key {place['key']}{self._look.beside(place['key'])}" if "key" in place else ""
        return f"{_where(place)}{key}: {'equal' if place['equal'] else 'not equal'}"

    def _made(self, device: str, text: str, area: Optional[AreaSource]) -> _StepText:
        step = members(f"{text}}}")
        before = [*self._ccws(device, step, area), *self._moved(step, area)]
        return _StepText(_joined(before), _joined([f"  {_ending(step, area)}"]), has_failed(step))

    def _ccws(
        self, device: str, step: Members, area: Optional[AreaSource]
    ) -> Iterator[str]:
        for place, ccw in enumerate(step["ccws"]):
            names = ccw_names(device, ccw["image"], place > 0)
            words = " ".join([f"{ccw['at']}  {ccw['image']}  {names.words}", *names.flags])
            source = self._source(ccw["at"], area)
            yield f"{words:{_BEFORE_SOURCE}}{source}" if source else words

    def _source(self, address: str, area: Optional[AreaSource]) -> str:
        """The number and the text of the line that has a CCW."""
        line = area.line(int(address, 16)) if area is not None else None
        if line is None or self._look.source is None:
            return ""
        return f" {line:5} {self._look.source.statement(line)}"

    def _moved(self, step: Members, area: Optional[AreaSource]) -> Iterator[str]:
        if "moved" in step:
            count, way, data = step["moved"], step["way"], self._bytes(step["bytes"])
            if step["more"]:
                # those that a read backward has put before them are left out
                data = f"... {data}" if way == BACKWARD else f"{data} ..."
            place = f"{way} {step['address']}{_label(step['address'], area)}"
            yield f"  {counted(count, 'byte')} {place}: {data}"

    def _bytes(self, digits: str) -> str:
        """Bytes in hexadecimal, in groups, and their text; a hyphen for none."""
        if not digits or digits == _SKIPPED:
            return digits or "-"
        groups = (digits[at : at + _GROUP] for at in range(0, len(digits), _GROUP))
        return f"{' '.join(groups)}{self._look.beside(digits)}"


def _joined(lines: List[str]) -> str:
    return "".join(f"{_INDENT}{line}\n" for line in lines)


def _label(address: str, area: Optional[AreaSource]) -> str:
    """The name of an address in a job in symbols, after a blank."""
    name = area.operand(int(address, 16)) if area is not None else None
    return f" {name}" if name is not None else ""


def _further_rounds(fold: Fold) -> str:
    """The line of the further rounds of a loop, with its place at the end of the last one."""
    count = len(fold.first)
    what = "command" if count == 1 else f"{count} commands"
    places = (step.place for step in reversed(fold.last) if step.place)
    last = next(places, None)
    end = f", up to {_where(members(last))}" if last is not None else ""
    return f"{_INDENT}... the same {what} {counted(fold.times - 1, 'more time')}{end}\n"


def _track(place: Members) -> str:
    return f"cylinder {place['cylinder']} head {place['head']}"


def _where(place: Members) -> str:
    """A place on a medium."""
    if "item" in place:
        return f"item {place['item']}"
    if "page" in place:
        return f"page {place['page']} line {place['line']}"
    record = f"ID {place['id']}" if "id" in place else f"record {place['record']}"
    return f"{_track(place)} {record}"


def _ending(step: Members, area: Optional[AreaSource]) -> str:
    if "rule" in step:
        return _program_check(step, area)
    status, sense = step["status"], step["sense"]
    parts = [f"status {status} residual {step['residual']}"]
    parts += names_of(int(status, 16) & ~NORMAL_END, STATUS_BITS)
    if sense is None:
        parts.append(f"on to {step['next']}{_label(step['next'], area)}")
    elif sense != "0000":
        parts += [f"sense {sense}", *names_of(int(sense, 16), SENSE_BITS)]
    if step["fault"] is not None:
        parts.append(f"fault {step['fault']} of the unit")
    return ", ".join(parts)


def _program_check(step: Members, area: Optional[AreaSource]) -> str:
    """The rule that a CCW breaks, and the CCW, unless a line before has it."""
    rule = step["rule"]
    has_line = any(ccw["at"] == rule["at"] for ccw in step["ccws"])
    image = "" if has_line or rule["image"] is None else f"  {rule['image']}"
    line = area.line(int(rule["at"], 16)) if area is not None else None
    source = f", line {line}" if line is not None and not has_line else ""
    return f"program check at {rule['at']}{image}{source}: {rule['text']}"
