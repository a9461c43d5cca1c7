"""Races: what a run does depends on which of two commands comes first. They are notes and no
faults, because a race may be what the script is for."""

from __future__ import annotations

from collections import defaultdict
from dataclasses import dataclass
from typing import Iterator, Mapping, NamedTuple, Optional, Sequence

from ..device_commands import TAPE
from ..script.grammar import (
    Area, Close, Command, CommandOfDcb, Excp, Purge, PurgeTask, Reset, Wait,
)
from ..script.media import Reason
from ..script.set_up import Unit
from .requests import iob_of

OUTCOMES = (
    "the order of tasks may decide posts: 'outcomes' looks for those that each request can have"
)

_TAPE = "task {} uses this tape too (line {}): the order of their requests is not fixed"
_RELATED = (
    "task {} issues related requests by this DCB too (line {}): an error of one may end the other "
    "with 48"
)

# What a text calls a command that meets requests.
_CONTROLS: Mapping[type[Command], str] = {
    Purge: "purge",
    PurgeTask: "purge",
    Close: "close",
    Reset: "reset",
}


class _DcbName(NamedTuple):
    """A DCB, by the numbers of its unit and its own."""

    unit: int
    dcb: int


class _User(NamedTuple):
    """A task, and the line of its first request."""

    task: int
    line: int


@dataclass
class _Users:
    """The two tasks that are first to issue requests."""

    first: Optional[_User] = None
    second: Optional[_User] = None

    def add(self, user: _User) -> None:
        if self.first is None:
            self.first = user
        elif self.second is None and user.task != self.first.task:
            self.second = user

    def other_than(self, task: int) -> Optional[_User]:
        """The first of the two that is not this task."""
        return self.second if self.first is not None and self.first.task == task else self.first

    def warnings(self, text: str) -> Iterator[Reason]:
        """The warning at the second user on the first one, if there are two."""
        if self.first is not None and self.second is not None:
            yield Reason(self.second.line, text.format(*self.first))


class Races:
    """The commands of a script, as far as two may race."""

    def __init__(self) -> None:
        self.has_early = False
        self._controls: list[Command] = []
        self._of_tasks: dict[int, _User] = {}
        self._of_units: defaultdict[int, _Users] = defaultdict(_Users)
        self._of_dcbs: defaultdict[_DcbName, _Users] = defaultdict(_Users)
        self._related: defaultdict[_DcbName, _Users] = defaultdict(_Users)
        # The DCB of the last request that each task has issued since it last waited.
        self._unwaited: dict[int, _DcbName] = {}

    def add(self, command: Command, area: Optional[Area] = None) -> Optional[str]:
        """Adds a command, an EXCP with its area. Returns the warning if it may come before a
        request of its own task."""
        if isinstance(command, Excp):
            self._unwaited[command.task] = _DcbName(command.unit, command.dcb)
            self._add_request(command, area)
        elif isinstance(command, Wait):
            self._unwaited.pop(command.task, None)
        else:
            self._controls.append(command)
            return self._early(command)
        return None

    def _add_request(self, excp: Excp, area: Optional[Area]) -> None:
        user, dcb = _User(excp.task, excp.line), _DcbName(excp.unit, excp.dcb)
        self._of_tasks.setdefault(excp.task, user)
        self._of_units[excp.unit].add(user)
        self._of_dcbs[dcb].add(user)
        iob = None if area is None else iob_of(excp.iob, area)
        if iob is not None and not iob.is_unrelated:
            self._related[dcb].add(user)

    def _early(self, command: Command) -> Optional[str]:
        """The warning on a command that meets the last request of its task, which has not waited
        since."""
        issued = self._unwaited.get(command.task)
        is_own = isinstance(command, PurgeTask) and command.other == command.task
        is_by_dcb = isinstance(command, CommandOfDcb) and (command.unit, command.dcb) == issued
        if issued is None or not (is_own or is_by_dcb):
            return None
        self.has_early = True
        order = f"this {_CONTROLS[type(command)]} may come before that request or after it"
        if isinstance(command, Reset):
            order = "the error may come after this reset"
        return f"task {command.task} has not waited since its last excp: {order}"

    def warnings(self, units: Sequence[Unit]) -> Iterator[Reason]:
        """Each control that meets requests of another task, and each tape and DCB on which two
        tasks depend."""
        for control in self._controls:
            user = self._met_by(control)
            if user is not None:
                what = "an error" if isinstance(control, Reset) else "a request"
                order = f"this {_CONTROLS[type(control)]} may come before or after {what}"
                meets = f"{order} of task {user.task} (line {user.line})"
                yield Reason(control.line, meets)
        for number, unit in enumerate(units):
            if unit.device == TAPE:
                yield from self._of_units[number].warnings(_TAPE)
            for dcb in sorted(it for it in self._related if it.unit == number):
                yield from self._related[dcb].warnings(_RELATED)

    def _met_by(self, control: Command) -> Optional[_User]:
        """The first request of another task that a control covers."""
        if isinstance(control, PurgeTask):
            is_other = control.other != control.task
            return self._of_tasks.get(control.other) if is_other else None
        if isinstance(control, CommandOfDcb):
            dcb = _DcbName(control.unit, control.dcb)
            return self._of_dcbs[dcb].other_than(control.task)
        return None
