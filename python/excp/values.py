"""What a site takes and gives: modes, records, names of requests, answers and states."""

from __future__ import annotations

import enum
from dataclasses import dataclass
from typing import NamedTuple, Optional, Tuple

from .blocks import Csw, code_text
from .device_status import SENSE_BITS, STATUS_BITS, with_names


class Method(enum.IntEnum):
    """What a DCB is opened for."""

    INPUT = 0
    OUTPUT = 1


class Mode(enum.IntEnum):
    """What a purge does to an active request."""

    QUIESCE = 0
    HALT = 1


class Device(enum.IntEnum):
    DISK = 0
    TAPE = 1
    PRINTER = 2


class Active(enum.IntEnum):
    """What the active request of a unit does."""

    NONE = 0
    RUNNING = 1
    PENDING = 2
    AWAITS_RESTART = 3


class DcbPhase(enum.IntEnum):
    OPEN = 1
    CLOSING = 2
    CLOSED = 3


class ServedEnd(enum.IntEnum):
    """Why `serve` returned: nothing is left, a task has to collect a post first, or the commands
    were done."""

    ALL = 0
    ROW_FULL = 1
    COMMANDS = 2


class EntryKind(enum.IntEnum):
    """What happened at a unit (excp_entry_kind)."""

    OPENED = 0
    ARRIVED = 1
    STARTED = 2
    RAN = 3
    HALTED = 4
    PURGED_DCB = 5
    PURGED_TASK = 6
    CLOSED = 7
    RESET = 8
    POSTED = 9

    @property
    def names_request(self) -> bool:
        return self in _NAMING_ENTRIES


_NAMING_ENTRIES = {
    EntryKind.ARRIVED, EntryKind.STARTED, EntryKind.RAN, EntryKind.HALTED, EntryKind.POSTED,
}


class Kind(enum.IntEnum):
    """What an event did (excp_answer_kind)."""

    QUIET = 0
    HELD = 1
    TOOK = 2
    BUSY = 3
    IDLE = 4
    STARTED = 5
    VIOLATED = 6
    RAN = 7
    RAN_PENDING = 8
    AGAIN = 9
    ENDED = 10
    DELIVERED = 11
    ROW_FULL = 12
    ACTIVE = 13
    CLOSED = 14
    CLOSING = 15

    @property
    def word(self) -> str:
        """The word of a scenario's answer (docs/MANUAL.md)."""
        return _WORDS[self]

    @property
    def names_request(self) -> bool:
        return self in _NAMING


_NAMING = {
    Kind.TOOK, Kind.STARTED, Kind.VIOLATED, Kind.AGAIN, Kind.ENDED, Kind.DELIVERED, Kind.ROW_FULL,
    Kind.ACTIVE, Kind.CLOSING,
}


_WORDS = {
    **{it: it.name.capitalize() for it in Kind}, Kind.RAN_PENDING: "Ran", Kind.ROW_FULL: "Full",
}


class Name(NamedTuple):
    """The name of a request: the numbers of its task and unit, and its own among those of this task
    at this unit, from 1."""

    task: int
    unit: int
    number: int

    def __str__(self) -> str:
        return f"{self.task} {self.unit} {self.number}"


@dataclass(frozen=True)
class Answer:
    """What an event did. As text it is the answer of a scenario, such as `Ended 0 0 1 7F`."""

    kind: Kind
    name: Optional[Name] = None
    commands: int = 0
    code: int = 0

    def __str__(self) -> str:
        words = [self.kind.word]
        if self.name:
            words.append(str(self.name))
        if self.kind in (Kind.RAN, Kind.RAN_PENDING):
            words.append(str(self.commands))
        if self.kind == Kind.RAN_PENDING:
            words.append("pending")
        if self.kind == Kind.ENDED:
            words.append(f"{self.code:02X}")
        return " ".join(words)

    def __repr__(self) -> str:
        return f"<Answer {self}>"


@dataclass(frozen=True)
class Served:
    """What `serve` did."""

    posts: int
    commands: int
    ended: ServedEnd


@dataclass(frozen=True)
class Entry:
    """An entry of the trace of a unit. What its kind has not is 0, or None: the request; the
    commands that were done; the task that is purged; the DCB; the Method of an opening, or the Mode
    of a purge; how the request was posted."""

    kind: EntryKind
    name: Optional[Name] = None
    commands: int = 0
    task: int = 0
    dcb: int = 0
    way: int = 0
    code: int = 0
    csw: Csw = Csw()
    sense: int = 0

    def __repr__(self) -> str:
        """The kind, and what is not 0 or None."""
        values = {
            "name": self.name, "commands": self.commands, "task": self.task, "dcb": self.dcb,
            "way": self.way,
        }
        parts = [self.kind.name, *(f"{name} {it}" for name, it in values.items() if it)]
        if self.kind == EntryKind.POSTED:
            sense = with_names(self.sense, SENSE_BITS)
            parts += [code_text(self.code), repr(self.csw), f"sense {sense}"]
        return f"<Entry {', '.join(parts)}>"


@dataclass(frozen=True)
class UnitState:
    """What is at a unit: the active request and what it does; the requests that wait, in order of
    their starts; how many are in flight to it, and how many more may be; how many posted ones were
    not delivered; whether it can take another one; and how many lines it printed."""

    device: Device
    active: Optional[Name]
    phase: Active
    waiting: Tuple[Name, ...]
    in_flight: int
    in_flight_room: int
    out: int
    has_room: bool
    printed: int


@dataclass(frozen=True)
class ActiveRequest:
    """The active request of a unit. `next_ccw` is where its program goes on, if it runs."""

    name: Name
    dcb: int
    attempt: int
    next_ccw: Optional[int]

    def __repr__(self) -> str:
        at = "" if self.next_ccw is None else f", CCW at {self.next_ccw:06X}"
        return f"<ActiveRequest {self.name} of DCB {self.dcb}, attempt {self.attempt}{at}>"


@dataclass(frozen=True)
class Place:
    """Where a device is on its medium; what it does not have is 0. A tape has items, of which some
    have passed its head, and a disk a track. The next line of a printer goes to `page`, `line`."""

    items: int = 0
    passed: int = 0
    cylinder: int = 0
    head: int = 0
    page: int = 0
    line: int = 0


@dataclass(frozen=True)
class DcbState:
    phase: DcbPhase
    in_error: bool
    file_mask: int

    def __repr__(self) -> str:
        error = ", in error" if self.in_error else ""
        return f"<DcbState {self.phase.name}{error}, file mask {self.file_mask:02X}>"


@dataclass(frozen=True)
class Record:
    """A record of a disk: its CCHHR, its data and its key."""

    cylinder: int
    head: int
    number: int
    data: bytes
    key: bytes = b""


@dataclass(frozen=True)
class Line:
    """A printed line. `page` and `line` count from 1; `data` is EBCDIC."""

    page: int
    line: int
    data: bytes

    @property
    def text(self) -> str:
        """The line as characters of code page 037."""
        return self.data.decode("cp037")


@dataclass(frozen=True)
class Fault:
    """The device's command with this number, from 1, ends with this status."""

    command: int
    unit_status: int = 0x0E
    channel_status: int = 0x00
    sense: int = 0x0000

    def __repr__(self) -> str:
        status = with_names(self.unit_status << 8 | self.channel_status, STATUS_BITS)
        sense = with_names(self.sense, SENSE_BITS)
        return f"<Fault at command {self.command}: status {status}, sense {sense}>"


class TapeMark:
    """The type of `TAPE_MARK`."""

    def __repr__(self) -> str:
        return "TAPE_MARK"


TAPE_MARK = TapeMark()
