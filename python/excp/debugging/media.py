"""Media of units, which change by the steps of a run (docs/SPECIFICATION.md, chapters 9 to 11)."""

from __future__ import annotations

import enum
from typing import Callable, List, Mapping, NamedTuple, Optional, Protocol, Tuple

from ..blocks import Seek
from ..device_commands import Op
from ..images.media import Disk, Record, TapeItem
from ..reporting.record import Members

# What puts back what a step has changed on a medium.
Undo = Callable[[], None]

# The lines of a page.
_PAGE = 66

# Where a step has unit check among its status.
_UNIT_CHECK = 0x0200

_SENSE = bytes(2)
_COUNT_BYTES = 8


def code_of(step: Members) -> int:
    """The command of a step, which has fetched a CCW."""
    return int(step["ccws"][0]["image"][:2], 16)


def _is_done(step: Members) -> bool:
    """Whether the device has done the command of a step."""
    if "rule" in step or step["fault"] is not None:
        return False
    return not int(step["status"], 16) & _UNIT_CHECK


class Medium(Protocol):
    """The medium of a unit, and the place where its device is on it."""

    def place(self) -> object:
        """The place, which `go_to` takes."""

    def go_to(self, place: object) -> None:
        """Takes a place that it had."""

    def begin(self, seek: Seek) -> None:
        """An attempt begins, with this IOBSEEK."""

    def given(self, step: Members) -> bytes:
        """What the device gives by a step that moves bytes to storage, in the order in which they
        move."""

    def act(self, step: Members, data: bytes) -> Optional[Undo]:
        """Does what a step does with these bytes of storage, and goes to its place."""


class Part(enum.Enum):
    """What of a record the head has passed last."""

    INDEX = "the index point"
    COUNT = "the count area"
    KEY = "the key"
    END = "the end"


class Head(NamedTuple):
    """The place of a disk: the number of the track, the place of the record on it, and what of
    that was passed."""

    track: int
    nth: int
    part: Part


_PASSED = {Op.SIDE: Part.COUNT, Op.RC: Part.COUNT, Op.SKE: Part.KEY}


def count_area(record: Record) -> bytes:
    """The count area of a record: CCHHR, KL and DL."""
    return record.id + bytes([len(record.key)]) + len(record.data).to_bytes(2, "big")


class DiskState:
    """A disk: the records of its tracks, and its head."""

    def __init__(self, disk: Disk) -> None:
        self.heads, self.tracks = disk.size.heads, disk.tracks
        self.head = Head(0, 0, Part.INDEX)

    def place(self) -> Head:
        return self.head

    def go_to(self, place: object) -> None:
        assert isinstance(place, Head)
        self.head = place

    def begin(self, seek: Seek) -> None:
        self.head = Head(seek.cylinder * self.heads + seek.head, 0, Part.INDEX)

    def given(self, step: Members) -> bytes:
        code = code_of(step)
        if code == Op.SNS:
            return _SENSE
        _, record = self._record(step)
        count, key, data = count_area(record), record.key, record.data
        areas = {Op.RD: data, Op.RKD: key + data, Op.RCKD: count + key + data, Op.RC: count}
        return areas[Op(code)]

    def act(self, step: Members, data: bytes) -> Optional[Undo]:
        place = step.get("place")
        if place is None or "passed" in place or not _is_done(step):
            return None
        code = code_of(step)
        track = place["cylinder"] * self.heads + place["head"]
        part = _PASSED.get(Op(code), Part.END) if code in list(Op) else Part.END
        self.head = Head(track, place["nth"], part)
        if code == Op.WCKD:
            return self._format(track, place["nth"], data)
        if code in (Op.WD, Op.WKD):
            return self._rewrite(track, place["nth"], code == Op.WKD, data)
        return None

    def _record(self, step: Members) -> Tuple[int, Record]:
        place = step["place"]
        track = place["cylinder"] * self.heads + place["head"]
        return track, self.tracks[track][place["nth"]]

    def _rewrite(self, track: int, nth: int, has_key: bool, given: bytes) -> Undo:
        before = self.tracks[track][nth]
        key_bytes = len(before.key) if has_key else 0
        area = given.ljust(key_bytes + len(before.data), b"\0")
        key = area[:key_bytes] if has_key else before.key
        self.tracks[track][nth] = Record(before.id, key, area[key_bytes:])

        def undo() -> None:
            self.tracks[track][nth] = before

        return undo

    def _format(self, track: int, nth: int, given: bytes) -> Undo:
        """A new record at a place of its track, whose rest is erased."""
        key_bytes = given[5]
        count = key_bytes + int.from_bytes(given[6:_COUNT_BYTES], "big")
        area = given[_COUNT_BYTES:].ljust(count, b"\0")
        erased = self.tracks[track][nth:]
        self.tracks[track][nth:] = [Record(given[:5], area[:key_bytes], area[key_bytes:count])]

        def undo() -> None:
            self.tracks[track][nth:] = erased

        return undo


class TapeState:
    """A tape: its items, and how many of them are before its place."""

    def __init__(self, items: List[TapeItem]) -> None:
        self.items, self.before = items, 0

    def place(self) -> int:
        return self.before

    def go_to(self, place: object) -> None:
        assert isinstance(place, int)
        self.before = place

    def begin(self, seek: Seek) -> None:
        """A tape stays where it is."""

    def given(self, step: Members) -> bytes:
        code = code_of(step)
        if code == Op.SNS:
            return _SENSE
        block = self.items[step["place"]["item"] - 1] or b""
        return block[::-1] if code == Op.RDB else block

    def act(self, step: Members, data: bytes) -> Optional[Undo]:
        if "rule" in step or step["fault"] is not None:
            return None
        code, place = code_of(step), step.get("place")
        if place is None:
            self._go_to_end(code, _is_done(step))
            return None
        item = place["item"]
        self.before = item - 1 if code in (Op.RDB, Op.BSB, Op.BSF) else item
        if code not in (Op.WRT, Op.WTM):
            return None
        erased = self.items[item - 1 :]
        self.items[item - 1 :] = [data if code == Op.WRT else None]

        def undo() -> None:
            self.items[item - 1 :] = erased

        return undo

    def _go_to_end(self, code: int, is_done: bool) -> None:
        """A rewind; or a move by files that met no mark, and has gone to the end of the tape."""
        if (code == Op.REW and is_done) or (code == Op.BSF and not is_done):
            self.before = 0
        elif code == Op.FSF and not is_done:
            self.before = len(self.items)


# How many lines a command of a printer goes down; one that skips goes to the next page.
_SPACES: Mapping[int, int] = {Op.PR0: 0, Op.PR1: 1, Op.PR2: 2, Op.PR3: 3}
_MOVES = (Op.SP1, Op.SP2, Op.SP3, Op.SKC1)


class PrintedLine(NamedTuple):
    """A line on paper, with its page and its place on it, from 1."""

    page: int
    line: int
    data: bytes


class PaperState:
    """The paper of a printer: its printed lines, and the page and the line where it is."""

    def __init__(self) -> None:
        self.lines: List[PrintedLine] = []
        self.at = 1, 1

    def place(self) -> Tuple[int, int]:
        return self.at

    def go_to(self, place: object) -> None:
        assert isinstance(place, tuple)
        page, line = place
        self.at = page, line

    def begin(self, seek: Seek) -> None:
        """Paper stays where it is."""

    def given(self, step: Members) -> bytes:
        return _SENSE

    def act(self, step: Members, data: bytes) -> Optional[Undo]:
        place = step.get("place")
        if place is None or not _is_done(step):
            return None
        code, page, line = code_of(step), place["page"], place["line"]
        self.at = page, line
        if code in _MOVES:
            return None
        self.lines.append(PrintedLine(page, line, data))
        if code == Op.PRC1:
            self.at = page + 1, 1
        else:
            over, before = divmod(line - 1 + _SPACES[code], _PAGE)
            self.at = page + over, before + 1

        def undo() -> None:
            self.lines.pop()

        return undo

