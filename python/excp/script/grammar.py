"""The grammar of plain scripts and scenarios: the one table of the kinds of lines.

Each kind of line is a dataclass, whose fields say of which forms the words after the first one
are. `SCRIPT_LINES` and `EVENT_LINES` say what first word it has. Lines are read by them, and every
message on words, forms and numbers, and every suggestion of a first word, comes from them.
"""

from __future__ import annotations

import struct
from dataclasses import dataclass
from typing import ClassVar, Mapping, Optional, Union

from .forms import (
    Address, Byte, Count, Extents, Halfword, Hex, Index, Method, Mode, Number, Octet,
    Row, Sense, Size, Storage, Subclass, Words,
)


@dataclass(frozen=True)
class Line:
    """What a line says, which has this number from 1. A field for each word follows, in order.
    `form` has these words as docs/MANUAL.md writes them."""

    form: ClassVar[str] = ""
    line: int


@dataclass(frozen=True)
class Tasks(Line):
    form = "N"
    count: Count


@dataclass(frozen=True)
class LineOfUnit(Line):
    form = "U"
    unit: Index


@dataclass(frozen=True)
class Disk(LineOfUnit):
    form = "U ISC CYLS HEADS BYTES"
    subclass: Subclass
    cylinders: Number
    heads: Number
    track_bytes: Number


@dataclass(frozen=True)
class Tape(LineOfUnit):
    form = "U ISC BYTES"
    subclass: Subclass
    size: Number


@dataclass(frozen=True)
class Printer(LineOfUnit):
    form = "U ISC LINES PAGES"
    subclass: Subclass
    lines: Number
    pages: Number


@dataclass(frozen=True)
class Record(LineOfUnit):
    form = "U CC HH R KEY HEX"
    cylinder: Halfword
    head: Halfword
    number: Octet
    key: Hex
    data: Hex

    @property
    def identifier(self) -> bytes:
        """CCHHR."""
        return struct.pack(">HHB", self.cylinder, self.head, self.number)


@dataclass(frozen=True)
class Block(LineOfUnit):
    form = "U HEX"
    data: Hex


@dataclass(frozen=True)
class Mark(LineOfUnit):
    pass


@dataclass(frozen=True)
class DeviceFault(LineOfUnit):
    form = "U ORDINAL UU SS XXXX"
    ordinal: Number
    unit_status: Byte
    subchannel_status: Byte
    sense: Sense


@dataclass(frozen=True)
class Open(LineOfUnit):
    form = "U in EXTENT .., or out"
    method: Method
    extents: Extents


@dataclass(frozen=True)
class Area(Line):
    form = "A ADDR HEX .."
    number: Number
    base: Address
    data: Storage

    def get(self, at: int, count: int) -> Optional[bytes]:
        """The `count` bytes from an address, if the area has them. Every area has no bytes."""
        start = at - self.base
        if count == 0:
            return b""
        return self.data[start : start + count] if 0 <= start <= len(self.data) - count else None


@dataclass(frozen=True)
class Command(Line):
    """A command of a task."""

    form = "T"
    task: Index


@dataclass(frozen=True)
class Wait(Command):
    pass


@dataclass(frozen=True)
class CommandOfDcb(Command):
    form = "T U DCB"
    unit: Index
    dcb: Size


@dataclass(frozen=True)
class Excp(CommandOfDcb):
    form = "T U DCB IOB A SHOW LEN"
    iob: Address
    area: Number
    show: Address
    length: Number


@dataclass(frozen=True)
class Purge(CommandOfDcb):
    form = "T U DCB halt, or quiesce"
    mode: Mode


@dataclass(frozen=True)
class Close(CommandOfDcb):
    pass


@dataclass(frozen=True)
class Reset(CommandOfDcb):
    pass


@dataclass(frozen=True)
class PurgeTask(Command):
    form = "T X halt, or quiesce"
    other: Index
    mode: Mode


@dataclass(frozen=True)
class Room(Line):
    """A size: of all intake rows, of all post rows, or of a book. `SIZES_BY_ROW` has its words."""

    row: Row
    rest: Words


@dataclass(frozen=True)
class RowSize(Line):
    form = "ROW N"
    row: Row
    size: Size


@dataclass(frozen=True)
class BookSize(Line):
    form = "book U N"
    row: Row
    unit: Index
    size: Size


@dataclass(frozen=True)
class StepOfUnit(LineOfUnit):
    """`take`, `start`, `interrupt`, `deliver`, `settle` or `serve`."""


@dataclass(frozen=True)
class Run(StepOfUnit):
    form = "U N"
    most: Size


@dataclass(frozen=True)
class Collect(Command):
    pass


@dataclass(frozen=True)
class PurgeTaskAt(PurgeTask):
    """With it a scenario has events between the units of a `purgetask`, as a run can."""

    form = "T X halt U, or quiesce"
    unit: Index


@dataclass(frozen=True)
class Finish(Line):
    pass


@dataclass(frozen=True)
class Expect(Line):
    form = "ANSWER"
    words: Words


# What is on a medium.
Content = Union[Record, Block, Mark]

# The lines that declare a unit.
UnitLine = Union[Disk, Tape, Printer]


SCRIPT_LINES: Mapping[str, type[Line]] = {
    "tasks": Tasks,
    "disk": Disk,
    "tape": Tape,
    "printer": Printer,
    "rec": Record,
    "block": Block,
    "mark": Mark,
    "fault": DeviceFault,
    "open": Open,
    "area": Area,
    "excp": Excp,
    "purge": Purge,
    "purgetask": PurgeTask,
    "close": Close,
    "reset": Reset,
    "wait": Wait,
}

# The lines that only a scenario has.
EVENT_LINES: Mapping[str, type[Line]] = {
    "room": Room,
    "take": StepOfUnit,
    "start": StepOfUnit,
    "run": Run,
    "interrupt": StepOfUnit,
    "deliver": StepOfUnit,
    "collect": Collect,
    "purgetaskat": PurgeTaskAt,
    "settle": StepOfUnit,
    "serve": StepOfUnit,
    "finish": Finish,
    "expect": Expect,
}

SIZES_BY_ROW: Mapping[str, type[Line]] = {"intake": RowSize, "post": RowSize, "book": BookSize}

# The first words of commands, of the lines of scripts, and of the lines that only scenarios have.
COMMAND_WORDS = tuple(word for word, kind in SCRIPT_LINES.items() if issubclass(kind, Command))
SCRIPT_WORDS = tuple(SCRIPT_LINES)
EVENT_WORDS = tuple(EVENT_LINES)

# The first words that a mistake in one may mean. Of equally near ones it is the first. A scenario
# has no `wait`.
SUGGESTED_SCRIPT_WORDS = ("wait", *(word for word in SCRIPT_WORDS if word != "wait"))
SUGGESTED_SCENARIO_WORDS = (*SUGGESTED_SCRIPT_WORDS[1:], *EVENT_WORDS)
# A job in symbols may be either.
SUGGESTED_JOB_WORDS = (*SUGGESTED_SCRIPT_WORDS, *EVENT_WORDS)
