"""The calls of a site of the library, which a lock lets in one at a time."""

from __future__ import annotations

import ctypes
import threading
import weakref
from typing import Any, Iterator

from . import library
from .blocks import code_of
from .errors import STATUSES_WITH_REASON, Status, error_of
from .library import Handle, call, message, status_of
from .values import Answer, Kind, Name

# The bytes that are copied at a time.
_AT_A_TIME = 1 << 20


class Calls:
    """The calls of one site, which is made here, and freed once nothing uses it."""

    def __init__(self, tasks: int, post_room: int) -> None:
        handle, self.lock = Handle(), threading.RLock()
        self._site = ctypes.byref(handle)
        call("site_new", self._site, tasks, post_room)
        self._freed = weakref.finalize(self, _free, handle)

    def free(self) -> None:
        """Frees the site. Later calls raise `NoSite`."""
        with self.lock:
            self._freed()

    def call(self, name: str, *values: Any) -> None:
        """Makes a call. Raises the exception of its status."""
        with self.lock:
            call(name, self._site, *values)

    def call_with_reason(self, name: str, *values: Any) -> None:
        """Makes a call of which the site says in words why it is refused. Raises the exception of
        its status, with that reason."""
        with self.lock:
            status = status_of(name, self._site, *values)
            if status:
                raise error_of(status, self._reason(status) or message(status))

    def _reason(self, status: int) -> str:
        """Why a call was refused, if its status has a reason."""
        return self.take_made().decode("utf-8") if status in STATUSES_WITH_REASON else ""

    def finds(self, name: str, none: Status, *values: Any) -> bool:
        """Makes a call that looks for something. Returns whether it exists: if not, the call has
        the status `none`. Raises as `call`."""
        with self.lock:
            status = status_of(name, self._site, *values)
            if status == none:
                return False
            if status:
                raise error_of(status, message(status))
        return True

    def event(self, name: str, unit: int, *values: Any) -> Answer:
        """What an event of a unit did."""
        answer = self.plain_event(name, unit, *values)
        kind = Kind(answer.kind)
        named = Name(answer.task, unit, answer.number) if kind.names_request else None
        return Answer(kind, named, answer.commands, code_of(answer.code))

    def plain_event(self, name: str, unit: int, *values: Any) -> library.Answer:
        """What an event of a unit did, as the library answers it (excp_answer)."""
        answer = library.Answer()
        self.call(name, unit, *values, answer)
        return answer

    def take_made(self) -> bytes:
        """The bytes that the site made last, which it holds no longer."""
        length = ctypes.c_size_t()
        self.call("made_length", length)
        made = ctypes.create_string_buffer(length.value)
        self.call("copy_out", 0, made)
        self.call("drop_made")
        return made.raw

    def made_pieces(self, name: str, unit: int) -> Iterator[bytes]:
        """The bytes that a call makes of a unit, in pieces. The site holds none of them then."""
        made = ctypes.c_size_t()
        self.call(name, unit, made)
        for start in range(0, made.value, _AT_A_TIME):
            piece = ctypes.create_string_buffer(min(_AT_A_TIME, made.value - start))
            self.call("copy_out", start, piece)
            yield piece.raw
        self.call("drop_made")

    def make(self, name: str, unit: int, *values: Any) -> bytes:
        """The bytes that a call makes of a unit."""
        with self.lock:
            self.call(name, unit, *values, ctypes.c_size_t())
            return self.take_made()


def _free(handle: Handle) -> None:
    if handle.at:
        call("site_free", ctypes.byref(handle))
