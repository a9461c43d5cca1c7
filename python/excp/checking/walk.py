"""A walk through the commands of a program as its CCWs are now: which is sure to fail."""

from __future__ import annotations

from dataclasses import dataclass
from typing import NamedTuple, Optional, Sequence

from ..blocks import Seek
from ..device_commands import DISK, Flag, Flow, Op, command_of
from ..script.ccw import CCW_BYTES, PlacedCcw
from ..script.grammar import Area
from ..script.set_up import Unit
from .channel import Broken, Part, fetched, parts_of
from .lengths import Lengths
from .records import Records

# The most commands of a program that are looked at.
_MOST_COMMANDS = 64

_SEARCHES = (Op.SIDE, Op.SKE)

# The writes of a disk, each with the commands that arm it directly before it.
_ARMED_BY = {
    Op.WD: (Op.SIDE, Op.SKE),
    Op.WKD: (Op.SIDE,),
    Op.WCKD: (Op.SIDE, Op.SKE, Op.WCKD),
}


class Failure(NamedTuple):
    """Why a request is sure to fail, and the address of the bytes for which it does."""

    at: int
    sentence: str


class SureFailure(Exception):
    """A program is sure to fail."""

    def __init__(self, at: int, sentence: str) -> None:
        super().__init__(sentence)
        self.failure = Failure(at, sentence)


@dataclass(frozen=True)
class Program:
    """What a program has: its unit with the records on it, its area, and its seek address."""

    unit: Unit
    records: Records
    area: Area
    seek: Seek
    # Whether its DCB is opened for output.
    may_write: bool
    # Whether each record is as long as it was mounted.
    is_kept: bool

    @property
    def is_disk(self) -> bool:
        return self.unit.device == DISK


@dataclass
class Reads:
    """Addresses, from one up to another, that hold all that a program has read so far."""

    start: int = 0
    end: int = 0

    def is_empty(self) -> bool:
        return self.start == self.end

    def cover(self, at: int) -> bool:
        """Whether a CCW at an address may be read over."""
        return self.start < at + CCW_BYTES and at < self.end

    def add(self, flow: Flow, parts: Sequence[Part]) -> None:
        """Adds what a command reads."""
        if flow not in (Flow.INPUT, Flow.BACKWARD):
            return
        for address, length in parts:
            start = address + 1 - length if flow is Flow.BACKWARD else address
            if self.is_empty():
                self.start, self.end = start, start + length
            else:
                self.start = min(self.start, start)
                self.end = max(self.end, start + length)


class Walk:
    """A walk through the commands of a program. No command is done."""

    def __init__(self, program: Program) -> None:
        self._program = program
        self._reads = Reads()
        self._lengths = Lengths(program)
        # The command that may arm the next one, and the commands since one that can end the
        # program.
        self._last: Optional[int] = None
        self._passed: set[int] = set()

    def follow(self, start: int) -> None:
        """Checks the commands that the program is sure to reach if none fails before. Each search
        counts as finding its record; the CCW that is skipped then is checked too. Raises
        SureFailure."""
        at, is_first = start, True
        for _ in range(_MOST_COMMANDS):
            chain = self._step(at, is_first)
            if not chain:
                return
            at, is_first = chain[-1].at + CCW_BYTES, False
            code = chain[0].command
            if self._program.is_disk and code in _SEARCHES:
                self._last = None
                self._step(at, is_first)
                at += CCW_BYTES
            self._last = code

    def _step(self, at: int, is_first: bool) -> Sequence[PlacedCcw]:
        """The CCWs of the command at an address, if the program goes on after them. Nothing is
        said of a CCW that earlier commands may have read over."""
        area = self._program.area
        try:
            chain = fetched(area, at, may_transfer=not is_first)
            command = command_of(self._program.unit.device, chain[0].command)
            flow = Flow.NONE if command is None else command.flow
            parts = [part for ccw in chain for part in parts_of(area, flow, ccw)]
        except Broken as broken:
            if self._reads.cover(broken.at) or (broken.is_of_word and not self._reads.is_empty()):
                return []
            check = f"the CCW at {broken.at:06X} is a program check: {broken.rule}"
            raise SureFailure(broken.at, check) from broken
        if any(self._reads.cover(ccw.at) for ccw in chain):
            return []
        self._check(flow, chain, parts)
        if not chain[-1].has(Flag.CC):
            return []
        self._reads.add(flow, parts)
        return chain

    def _check(self, flow: Flow, chain: Sequence[PlacedCcw], parts: Sequence[Part]) -> None:
        """Fails if a command is sure to fail, or leads nowhere."""
        first = chain[0]
        wrong = self._rejection(first)
        if wrong is None:
            wrong = self._lengths.wrong_length(flow, chain, parts, self._reads.cover)
        if wrong is None:
            wrong = self._wrong_end(chain)
        if wrong is not None:
            raise SureFailure(first.at, wrong)

    def _rejection(self, first: PlacedCcw) -> Optional[str]:
        """Why a device does not do a command: it has none of this code; or the file mask of the
        supervisor, which has sought, forbids it; or no search arms it."""
        code, device = first.command, self._program.unit.device
        rejected = f"{first.at:06X} ends with command reject"
        if command_of(device, code) is None:
            return f"the CCW at {rejected}: a {device} has no command X'{code:02X}'"
        if not self._program.is_disk:
            return None
        if code == Op.SEEK:
            protected = f"{first.at:06X} ends with file protected"
            return f"the seek at {protected}: the supervisor has sought already"
        if code == Op.SFM:
            return f"the set file mask at {rejected}: the supervisor has set it already"
        return self._write_rejection(code, rejected)

    def _write_rejection(self, code: int, rejected: str) -> Optional[str]:
        armed_by = next((by for write, by in _ARMED_BY.items() if write == code), None)
        if armed_by is None:
            return None
        if not self._program.may_write:
            return f"the write at {rejected}: its DCB is opened for input"
        if self._last in armed_by:
            return None
        needed = "search ID" if code == Op.WKD else "search"
        return f"the write at {rejected}: it needs a {needed} that finds its record before it"

    def _wrong_end(self, chain: Sequence[PlacedCcw]) -> Optional[str]:
        """Why a program ends too early, or never."""
        first, last = chain[0], chain[-1]
        if self._program.is_disk and first.command in _SEARCHES:
            self._passed.clear()
            if last.has(Flag.CC):
                return None
            ends = f"the search at {first.at:06X} ends the program, equal or not"
            return f"{ends}: it has no CC"
        if not self._is_endless(first.command):
            self._passed.clear()
        elif first.at in self._passed:
            loop = f"only an error or a purge ends the loop that comes back to {first.at:06X}"
            return f"{loop}: it has no search, which leaves it with its record"
        else:
            self._passed.add(first.at)
        return None

    def _is_endless(self, code: int) -> bool:
        """Whether a command can be done again and again: it is none of a medium that ends."""
        if self._program.unit.faults:
            return False
        is_read = self._program.is_disk and code in (Op.RD, Op.RKD, Op.RC, Op.RCKD)
        return is_read or code in (Op.NOP, Op.SNS)
