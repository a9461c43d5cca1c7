"""A unit of a site and its DCBs, and what their events answer (docs/CLIENT.md, "From Python")."""

from __future__ import annotations

import ctypes
import itertools
from typing import TYPE_CHECKING, Any, Dict, Iterator, List, Optional, Sequence, Tuple, Union

from . import library
from .blocks import Csw, Extent, code_of
from .errors import BadMedium, NothingThere, Status
from .reporting.record import renumbered
from .reporting.text import unit_history
from .values import (
    TAPE_MARK, Active, ActiveRequest, Answer, DcbPhase, DcbState, Device, Entry, EntryKind, Line,
    Method, Mode, Name, Place, Record, Served, ServedEnd, TapeMark, UnitState,
)

if TYPE_CHECKING:
    from .site import Site

# The most commands that `run` and `serve` do, unless said otherwise.
MOST_COMMANDS = 2**32 - 1

# The devices of the calls that read a medium.
_READERS = {"read_record": "disk", "read_item": "tape", "printed_line": "printer"}


class Unit:
    """A unit of a site: its device, its DCBs and its events."""

    def __init__(self, site: Site, number: int) -> None:
        self.site, self.number = site, number
        self._calls, self._has_checkpoint = site.calls, False

    def __repr__(self) -> str:
        return f"<unit {self.number}>"

    def open(self, method: Method = Method.OUTPUT, extents: Sequence[Extent] = ()) -> Dcb:
        """Opens the next DCB of the unit. A disk has 1 to 16 extents, a tape and a printer none."""
        return self.open_images(method, [it.to_bytes() for it in extents])

    def open_images(self, method: Method, images: Sequence[bytes]) -> Dcb:
        """As `open`, with the 16 bytes of each extent."""
        dcb = ctypes.c_uint16()
        self._calls.call_with_reason("open", self.number, method, b"".join(images), dcb)
        return Dcb(self, dcb.value)

    def dcb(self, number: int) -> Dcb:
        """The DCB with this number, whether it was opened or not."""
        return Dcb(self, number)

    # --- events

    def take(self) -> Answer:
        """The first request in flight arrives at the unit: TOOK, HELD, QUIET."""
        return self._calls.event("take", self.number)

    def start(self) -> Answer:
        """The unit starts what comes next: STARTED, VIOLATED, BUSY, IDLE."""
        return self._calls.event("start", self.number)

    def run(self, most: int = MOST_COMMANDS) -> Answer:
        """The active channel program runs for at most `most` commands: RAN, RAN_PENDING, QUIET."""
        return self._calls.event("run", self.number, most)

    def interrupt(self) -> Answer:
        """The unit takes the pending status: ENDED, AGAIN, QUIET."""
        return self._calls.event("interrupt", self.number)

    def deliver(self) -> Answer:
        """The first posted request goes back to its task: DELIVERED, ROW_FULL, QUIET."""
        return self._calls.event("deliver", self.number)

    def serve(self, most: int = MOST_COMMANDS) -> Served:
        """Makes all of these events until nothing is left to do, or `most` commands were done."""
        served = library.Served()
        self._calls.call("serve", self.number, most, served)
        return Served(served.posts, served.commands, ServedEnd(served.ended))

    def settle(self) -> None:
        """Starts, runs and interrupts until nothing waits or is active."""
        self._calls.call("settle", self.number)

    def purge_task(self, task: int, mode: Mode = Mode.QUIESCE) -> Answer:
        """Purges the requests of a task at this unit: ACTIVE, QUIET."""
        return self._calls.event("purge_task", self.number, task, mode)

    def checkpoint(self) -> None:
        """Forgets what happened at this idle unit, so that its memory does not grow with each
        request. Raises NotIdle, or InError if an open DCB is in error."""
        self._calls.call("checkpoint", self.number)
        self._has_checkpoint = True

    # --- what there is

    def look(self) -> library.UnitState:
        """The unit as the library shows it (excp_unit_state)."""
        found = library.UnitState()
        self._calls.call("look", self.number, found)
        return found

    @property
    def state(self) -> UnitState:
        with self._calls.lock:
            found = self.look()
            waiting = tuple(self._waiting(place) for place in range(found.waiting))
        active = Name(found.active_task, self.number, found.active_number)
        return UnitState(
            device=Device(found.kind),
            active=active if found.active else None,
            phase=Active(found.active),
            waiting=waiting,
            in_flight=found.in_flight,
            in_flight_room=found.in_flight_room,
            out=found.out,
            has_room=bool(found.has_room),
            printed=found.printed,
        )

    @property
    def active(self) -> Optional[ActiveRequest]:
        """The active request, if there is one."""
        found, calls = library.ActiveRequest(), self._calls
        with calls.lock:
            if not calls.finds("look_active", Status.NOTHING_THERE, self.number, found):
                return None
            runs = self.look().active == Active.RUNNING
        name = Name(found.task, self.number, found.number)
        return ActiveRequest(name, found.dcb, found.attempt, found.next if runs else None)

    @property
    def place(self) -> Place:
        """Where the device is on its medium."""
        found = library.Place()
        self._calls.call("look_place", self.number, found)
        return Place(
            found.items, found.passed, found.cylinder, found.head, found.page, found.line
        )

    def _waiting(self, place: int) -> Name:
        task, number = ctypes.c_uint16(), ctypes.c_uint64()
        self._calls.call("waiting", self.number, place, task, number)
        return Name(task.value, self.number, number.value)

    @property
    def is_drained(self) -> bool:
        """Whether no request is in flight to the unit, waits, is active, or is posted and not
        delivered. It does not look whether the posts were collected."""
        found = self.look()
        return not (found.in_flight or found.waiting or found.active or found.out)

    def entries(self, first: int = 0) -> Iterator[Entry]:
        """The entries of the trace from one on, counted from 0: what happened at the unit since it
        was mounted. Of what happened before a checkpoint, openings and closes stay."""
        found, finds = library.Entry(), self._calls.finds
        for place in itertools.count(first):
            if not finds("look_entry", Status.NOTHING_THERE, self.number, place, found):
                return
            yield self._entry(found)

    def _entry(self, found: library.Entry) -> Entry:
        kind = EntryKind(found.kind)
        return Entry(
            kind=kind,
            name=Name(found.task, self.number, found.number) if kind.names_request else None,
            commands=found.commands,
            task=0 if kind.names_request else found.task,
            dcb=found.dcb,
            way=found.way,
            code=code_of(found.code),
            csw=Csw(found.address, found.unit_status, found.channel_status, found.residual),
            sense=found.sense,
        )

    def count_entries(self) -> int:
        """How many entries the trace has."""
        return sum(1 for _ in self.entries())

    def records(self, cylinder: int, head: int) -> List[Record]:
        """The records of a track of a disk, in their order. The first is R0. Raises `NothingThere`
        if the disk has no such track, and `BadMedium` for another device."""
        found = self._each("read_record", (cylinder, head), library.Record, 255 + 65535)
        records = [
            Record(
                it.cylinder,
                it.head,
                it.number,
                bytes(data[it.key_length : it.key_length + it.data_length]),
                bytes(data[: it.key_length]),
            )
            for it, data in found
        ]
        # a track has R0 at least
        if not records:
            text = f"{self!r} has no track at cylinder {cylinder}, head {head}"
            raise NothingThere(Status.NOTHING_THERE, text)
        return records

    def items(self) -> List[Union[bytes, TapeMark]]:
        """The blocks and tape marks of a tape, from its load point on. Raises `BadMedium` for
        another device."""
        found = self._each("read_item", (), library.Item, 65535)
        return [TAPE_MARK if it.is_mark else bytes(data[: it.length]) for it, data in found]

    def printed(self) -> List[Line]:
        """The lines that a printer printed, the oldest first. Raises `BadMedium` for another
        device."""
        found = self._each("printed_line", (), library.Line, 132)
        return [Line(it.page, it.line, bytes(data[: it.length])) for it, data in found]

    def _each(
        self, name: str, where: Tuple[int, ...], kind: Any, most: int
    ) -> Iterator[Tuple[Any, memoryview]]:
        """What is at each place, with its bytes, until there is no such place. Both stay as they
        are until the next one is asked for. The buffer has room for the longest."""
        found, data = kind(), ctypes.create_string_buffer(most)
        with self._calls.lock:
            for place in itertools.count():
                given = self.number, *where, place, found, data
                try:
                    if not self._calls.finds(name, Status.NOTHING_THERE, *given):
                        return
                except BadMedium:
                    text = f"{self!r} is no {_READERS[name]}"
                    raise BadMedium(Status.BAD_MEDIUM, text) from None
                yield found, memoryview(data)

    def record(self, most_steps: int = 0) -> str:
        """What happened at the unit since it was mounted, or since its last checkpoint, and its
        medium: a line of JSON for each entry, and for each of its first commands, if that many are
        wanted (docs/REPORT.md). Requests have the numbers that `Site.issue` returned."""
        lines = self._calls.make("make_record", self.number, most_steps).decode("ascii")
        return renumbered(lines, self._earlier()) if self._has_checkpoint else lines

    def _earlier(self) -> Dict[int, int]:
        """By task, how many requests came before the last checkpoint. A task without a request
        since then is left out."""
        earlier: Dict[int, int] = {}
        for entry in self.entries():
            if entry.kind == EntryKind.ARRIVED and entry.name:
                earlier.setdefault(entry.name.task, entry.name.number - 1)
        return earlier

    def history(self, most_steps: int = 0) -> str:
        """The record of the unit as text: a line for each entry, and some for each command."""
        return "".join(unit_history(self.record(most_steps)))

    def image(self) -> bytes:
        """The medium as an image: a disk as CKD_P370, a tape as AWSTAPE, the paper of a printer as
        text in UTF-8 (docs/FORMATS.md). What was not written is as in the image that the unit came
        from. Raises `NoImage`."""
        with self._calls.lock:
            return b"".join(self.image_pieces())

    def image_pieces(self) -> Iterator[bytes]:
        """The image in pieces. Nothing else may be made until all are taken."""
        return self._calls.made_pieces("make_image", self.number)


class Dcb:
    """A DCB of a unit. As a number it is its own, which an IOB has as its DCB pointer."""

    def __init__(self, unit: Unit, number: int) -> None:
        self.unit, self.number = unit, number
        self._calls = unit.site.calls

    def __index__(self) -> int:
        return self.number

    def __repr__(self) -> str:
        return f"<DCB {self.number} of unit {self.unit.number}>"

    def purge(self, mode: Mode = Mode.QUIESCE) -> Answer:
        """Purges the requests of the DCB: ACTIVE, QUIET."""
        return self._calls.event("purge", self.unit.number, self.number, mode)

    def close(self) -> Answer:
        """Closes the DCB: CLOSED, CLOSING."""
        return self._calls.event("close", self.unit.number, self.number)

    def reset(self) -> None:
        """Clears the error flag of the open DCB."""
        self._calls.call("reset", self.unit.number, self.number)

    @property
    def state(self) -> DcbState:
        found = library.DcbState()
        self._calls.call("look_dcb", self.unit.number, self.number, found)
        return DcbState(DcbPhase(found.state), bool(found.in_error), found.file_mask)
