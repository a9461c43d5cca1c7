"""What `--trace` and `--state` print of units after an event, each line a comment of a script."""

from __future__ import annotations

from typing import Callable, Iterator, Mapping

from ..errors import NoDcb
from ..unit import Unit
from ..values import Active, Entry, EntryKind, Method, Mode

_ACTIVE = {
    Active.RUNNING: "running",
    Active.PENDING: "status pending",
    Active.AWAITS_RESTART: "awaits its restart",
}
_METHODS = {Method.INPUT: "in", Method.OUTPUT: "out"}


def state_line(unit: Unit) -> str:
    """What waits at a unit, in order of arrival, what is active, how many posts are out, and each
    DCB."""
    it = unit.state
    waiting = ", ".join(map(str, it.waiting)) or "none"
    active = f"{it.active} {_ACTIVE[it.phase]}" if it.active else "none"
    parts = f"waiting {waiting}", f"active {active}", f"out {it.out}", *_dcbs(unit)
    return f"# state {unit.number}: {'; '.join(parts)}\n"


def _dcbs(unit: Unit) -> Iterator[str]:
    number = 1
    while True:
        try:
            it = unit.dcb(number).state
        except NoDcb:
            return
        yield f"DCB {number} {it.phase.name.lower()}{' in error' if it.in_error else ''}"
        number += 1


class Trace:
    """The entries of a unit. Prints only those from now on."""

    def __init__(self, unit: Unit) -> None:
        self._unit, self._count = unit, unit.count_entries()

    def new_lines(self) -> Iterator[str]:
        """A line for each entry since the last call, the oldest first."""
        for entry in self._unit.entries(self._count):
            self._count += 1
            yield f"# trace {self._unit.number}: {_WORDS[entry.kind](entry)}\n"


def _mode(entry: Entry) -> str:
    return Mode(entry.way).name.lower()


def _post(entry: Entry) -> str:
    csw = entry.csw
    ended = f"{csw.address:06X} {csw.unit:02X}{csw.sub:02X} {csw.residual:04X} {entry.sense:04X}"
    return f"post {entry.name} {entry.code:02X} {ended} -"


_WORDS: Mapping[EntryKind, Callable[[Entry], str]] = {
    EntryKind.OPENED: lambda it: f"Opened {it.dcb} {_METHODS[Method(it.way)]}",
    EntryKind.ARRIVED: lambda it: f"Arrive {it.name}",
    EntryKind.STARTED: lambda it: f"Start {it.name}",
    EntryKind.RAN: lambda it: f"Ran {it.name} {it.commands}",
    EntryKind.HALTED: lambda it: f"Halted {it.name}",
    EntryKind.PURGED_DCB: lambda it: f"Purge dcb {it.dcb} {_mode(it)}",
    EntryKind.PURGED_TASK: lambda it: f"Purge task {it.task} {_mode(it)}",
    EntryKind.CLOSED: lambda it: f"Close {it.dcb}",
    EntryKind.RESET: lambda it: f"Reset {it.dcb}",
    EntryKind.POSTED: _post,
}
