"""A place in a run, which goes forward and back by steps: storage and medium as they are there.

What a step changes is computed from the step, and kept, so that going back undoes it. Of requests
before the one at hand only what they changed on the medium is kept.
"""

from __future__ import annotations

from typing import List, NamedTuple, Optional, Sequence

from ..checking.requests import IobFields, iob_of
from ..reporting.record import Members, members
from ..reporting.step import BACKWARD
from .job import Job
from .media import Medium, Undo
from .moves import pieces_of
from .recording import Recording
from .working_copy import WorkingCopy

# The bytes of an ECB, and where an IOB has its address.
_ECB_BYTES, _ECB_AT = 4, 5


class Changed(NamedTuple):
    """Bytes of storage that a step has set: their first address, and what was there before."""

    address: int
    before: bytes


class _Done(NamedTuple):
    """What undoes a step: the bytes that it set, the place of the medium before, and what it did to
    the medium."""

    storage: Sequence[Changed]
    place: object
    medium: Optional[Undo]


class _Passed(NamedTuple):
    """What undoes all of a request on its medium."""

    place: object
    undos: Sequence[Undo]


class Differs(ValueError):
    """A step has moved other bytes than its medium has: the record or this program is wrong."""


class Walk:
    """A place in a run that has requests: at one of them, after a number of its steps. The last
    step is the post. Each method raises NotKept."""

    def __init__(self, recording: Recording, job: Job) -> None:
        self.recording, self.job = recording, job
        self._passed: List[_Passed] = []
        self._enter(0, job.medium(recording.request(0).unit))

    def _enter(self, at: int, medium: Medium) -> None:
        """Goes to before the first step of a request, whose medium is as it was then."""
        self.at, self.medium = at, medium
        if at == 0 or self.recording.request(at).unit != self.recording.request(at - 1).unit:
            self._passed = []
        self._begin_request()

    def _begin_request(self) -> None:
        self.request = self.recording.request(self.at)
        self._lines = self.recording.steps(self.request)
        area = self.job.issued(self.request).area
        self.storage = WorkingCopy(area.base, area.data)
        self._done: List[_Done] = []
        self._place_before = self.medium.place()
        if self.request.commands:
            self.medium.begin(self.iob.seek)

    # The request at hand.

    @property
    def device(self) -> str:
        """The kind of the device of its unit."""
        return next(it.device for it in self.recording.units if it.number == self.request.unit)

    @property
    def step(self) -> int:
        """How many of its steps are done."""
        return len(self._done)

    @property
    def count(self) -> int:
        """How many steps it has: its commands, and its post unless commands are left out."""
        return len(self._lines) + self.request.is_whole

    @property
    def is_posted(self) -> bool:
        return self.step > len(self._lines)

    @property
    def iob(self) -> IobFields:
        """Its IOB as it is issued."""
        issued = self.job.issued(self.request)
        found = iob_of(issued.iob, issued.area)
        # a job runs only if each IOB lies in its area
        assert found is not None
        return found

    @property
    def attempt(self) -> int:
        """The attempt of the next step, from 1."""
        return sum(it <= self.step for it in self.request.attempts) or 1

    def line(self, step: int) -> str:
        """The line of one of its steps, from 1, but of its post."""
        return self._lines[step - 1]

    def last(self) -> Optional[Members]:
        """The last command that was done, if one was."""
        return members(self._lines[self.step - 1]) if 0 < self.step <= len(self._lines) else None

    def coming(self) -> Optional[Members]:
        """The next command, if one comes."""
        return members(self._lines[self.step]) if self.step < len(self._lines) else None

    def next_addresses(self) -> Sequence[int]:
        """The addresses of the CCWs with which the program goes on: that where it goes on, which
        may be a transfer, and those of its next command."""
        found: List[str] = []
        last, coming = self.last(), self.coming()
        if self.step in self.request.attempts or last is None:
            first = [self.iob.start] if coming is not None else []
        else:
            first = []
            found += [last["next"]] if last.get("next") else []
        if coming is not None:
            found += [ccw["at"] for ccw in coming["ccws"]]
            found += [coming["rule"]["at"]] if "rule" in coming else []
        return list(dict.fromkeys([*first, *(int(it, 16) for it in found)]))

    def changed(self) -> Sequence[Changed]:
        """What the last step has set in storage."""
        return self._done[-1].storage if self._done else ()

    # Steps.

    def forward(self) -> bool:
        """Does the next step of the request. Returns whether there was one."""
        if self.step >= self.count:
            return False
        if self.step == len(self._lines):
            self._done.append(_Done(self._post(), self.medium.place(), None))
            return True
        step, place = members(self._lines[self.step]), self.medium.place()
        if self.step and self.step in self.request.attempts:
            self.medium.begin(self.iob.seek)
        data, storage = self._moved(step)
        undo = self.medium.act(step, data) if step["ccws"] else None
        self._done.append(_Done(storage, place, undo))
        return True

    def back(self) -> bool:
        """Undoes the last step of the request. Returns whether there was one."""
        if not self._done:
            return False
        done = self._done.pop()
        for it in reversed(done.storage):
            self.storage.put(it.address, it.before)
        if done.medium is not None:
            done.medium()
        self.medium.go_to(done.place)
        return True

    def next_request(self) -> bool:
        """Goes to before the first step of the next request; if steps of this one are left out, of
        the next unit. Returns whether there is one."""
        if not self.request.is_whole:
            return self._enter_next_unit()
        if self.at + 1 == len(self.recording):
            return False
        while self.forward():
            pass
        undos = [it.medium for it in self._done if it.medium is not None]
        self._passed.append(_Passed(self._place_before, undos))
        unit = self.recording.request(self.at + 1).unit
        is_same = unit == self.request.unit
        self._enter(self.at + 1, self.medium if is_same else self.job.medium(unit))
        return True

    def _enter_next_unit(self) -> bool:
        for unit in self.recording.units:
            if unit.number > self.request.unit and len(unit):
                self._enter(self._first_of(unit.number), self.job.medium(unit.number))
                return True
        return False

    def previous_request(self) -> bool:
        """Goes to before the first step of the request before. Returns whether there is one."""
        if self.at == 0:
            return False
        while self.back():
            pass
        self.medium.go_to(self._place_before)
        if self._passed:
            passed = self._passed.pop()
            for undo in reversed(passed.undos):
                undo()
            self.medium.go_to(passed.place)
            self.at -= 1
            self._begin_request()
        else:
            self._enter_last_of_unit()
        return True

    def _enter_last_of_unit(self) -> None:
        """Goes to before the last request of the unit before."""
        at, unit = self.at - 1, self.recording.request(self.at - 1).unit
        self._enter(self._first_of(unit), self.job.medium(unit))
        while self.at < at:
            self.next_request()

    def _first_of(self, unit: int) -> int:
        """The place of the first request of a unit."""
        units = self.recording.units
        return sum(len(it) for it in units if it.number < unit)

    def go_to(self, at: int, step: int) -> None:
        """Goes to request `at`, after `step` of its steps; to the last one before it, if steps of
        that are left out."""
        unit = self.recording.request(at).unit
        if unit != self.request.unit:
            self._enter(self._first_of(unit), self.job.medium(unit))
        while self.at < at and self.request.is_whole and self.next_request():
            pass
        while self.at > at and self.previous_request():
            pass
        while self.step > step and self.back():
            pass
        while self.step < step and self.forward():
            pass

    # What a step does.

    def _moved(self, step: Members) -> tuple[bytes, Sequence[Changed]]:
        """The bytes that a step takes from storage, and those that it sets there. Raises
        Differs."""
        if not step.get("moved"):
            return b"", ()
        pieces = list(pieces_of(step, self.storage))
        if step["way"] == "from":
            data = b"".join(self.storage.bytes_at(it.address, it.length) for it in pieces)
            _check(step, data)
            return data, ()
        given = self.medium.given(step)[: step["moved"]]
        changed, at = [], 0
        for it in pieces:
            part = given[at : at + it.length]
            at += it.length
            if step["way"] == BACKWARD:
                part = part[::-1]
            if not it.is_skipped:
                changed.append(Changed(it.address, self.storage.put(it.address, part)))
        return given, changed

    def _post(self) -> Sequence[Changed]:
        """What the post writes: the IOB, and code and zeros into the ECB."""
        post = self.recording.post(self.request)
        if post is None:
            return ()
        at, iob = int(post["iob_at"], 16), bytes.fromhex(post["iob"])
        ecb = int.from_bytes(iob[_ECB_AT : _ECB_AT + 3], "big")
        changed = [Changed(at, self.storage.put(at, iob))]
        if self.storage.has(ecb, _ECB_BYTES):
            word = bytes([int(post["code"], 16)]) + bytes(_ECB_BYTES - 1)
            changed.append(Changed(ecb, self.storage.put(ecb, word)))
        return changed


def _check(step: Members, data: bytes) -> None:
    """Raises Differs if a step shows that it moved other bytes."""
    shown = bytes.fromhex(step["bytes"])
    if not data.startswith(shown):
        raise Differs("a step of the record moved other bytes than its storage has")
