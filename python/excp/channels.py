"""The channel alone: START, TEST and HALT SUBCHANNEL, without the supervisor."""

from __future__ import annotations

import ctypes
from dataclasses import dataclass
from typing import Any, Dict

from . import library
from .area import Area, piece_of
from .blocks import Address, Csw, address_of
from .errors import NothingThere, Status
from .unit import MOST_COMMANDS, Unit


@dataclass(frozen=True)
class ChannelStatus:
    """What TEST SUBCHANNEL stores. If its condition code is not 0, the rest is 0."""

    code: int
    csw: Csw = Csw()
    sense: int = 0


@dataclass(frozen=True)
class ChannelRun:
    """What a run did: how many commands, and whether a status is pending."""

    commands: int
    is_pending: bool


class Channel:
    """A channel with a copy of the device of a unit, as it is when the channel is made. Use it as a
    context manager, or call `close`; it is freed with the site. Condition codes are those of
    Principles of Operation, chapter 14."""

    def __init__(self, unit: Unit) -> None:
        number = ctypes.c_uint32()
        self._calls = unit.site.calls
        self._calls.call("channel_new", unit.number, number)
        self.number = number.value
        # the storage of the program that was started, where it lies, and its labels
        self._storage, self._base = ctypes.create_string_buffer(0), 0
        self._labels: Dict[str, int] = {}

    def __repr__(self) -> str:
        return f"<Channel {self.number}>"

    def __enter__(self) -> Channel:
        return self

    def __exit__(self, *_: Any) -> None:
        self.close()

    def close(self) -> None:
        """Frees the channel and its device. Later calls raise `NothingThere`."""
        self._calls.finds("channel_free", Status.NOTHING_THERE, self.number)

    def start(
        self,
        area: Area,
        start: Address = "CP",
        *,
        cylinder: int = 0,
        head: int = 0,
        file_mask: int = 0,
    ) -> int:
        """START SUBCHANNEL on a copy of the storage of an area, with the channel program at this
        address or label. A disk seeks to the track, or raises `BadNumber`; the mask X'18' allows
        all writes, and X'58' none. Returns the condition code: 0 started, 1 status pending, 2 a
        program runs."""
        # first, since an area with a label that is not laid out has no bytes
        code, at, image = ctypes.c_uint32(), address_of(start, area.labels), bytes(area)
        with self._calls.lock:
            values = at, cylinder, head, file_mask
            self._call("start", *values, code)
            if code.value == 0:
                self._storage = ctypes.create_string_buffer(image, len(image))
                self._base, self._labels = area.base, area.labels
        return code.value

    def run(self, most: int = MOST_COMMANDS) -> ChannelRun:
        """The program runs for at most `most` commands."""
        ran = library.ChannelRan()
        self._call("run", most, self._base, self._storage, ran)
        return ChannelRun(ran.commands, bool(ran.pending))

    def test(self) -> ChannelStatus:
        """TEST SUBCHANNEL: takes the status that is pending."""
        found = library.ChannelStatus()
        self._call("test", found)
        csw = Csw(found.address, found.unit_status, found.channel_status, found.residual)
        return ChannelStatus(found.code, csw, found.sense)

    def halt(self) -> int:
        """HALT SUBCHANNEL. Returns the condition code: 0 halted, 1 status pending."""
        code = ctypes.c_uint32()
        self._call("halt", code)
        return code.value

    def image(self) -> bytes:
        """The medium as an image, as `Unit.image` makes it. `Site.disk_from` and `Site.tape_from`
        read it again."""
        with self._calls.lock:
            self._call("make_image", ctypes.c_size_t())
            return self._calls.take_made()

    @property
    def storage(self) -> bytes:
        """The storage of the program that was started last."""
        return self._storage.raw

    def at(self, address: Address, length: int) -> bytes:
        """Bytes of the storage, at an address or a label."""
        return piece_of(self.storage, self._base, address_of(address, self._labels), length)

    def _call(self, name: str, *values: Any) -> None:
        """Makes a call of the channel. Raises `NothingThere` if it is closed."""
        if not self._calls.finds(f"channel_{name}", Status.NOTHING_THERE, self.number, *values):
            raise NothingThere(Status.NOTHING_THERE, f"{self!r} is closed")
