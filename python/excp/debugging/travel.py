"""How a session goes through a run: forward to what is asked for, or back; and the bytes of storage
that it watches meanwhile."""

from __future__ import annotations

from typing import Callable, List

from ..reporting.record import has_failed, is_error
from ..reporting.texts import counted
from .places import Range, Unknown, address_in, range_in
from .views import LEFT_OUT, Views, name_of
from .walk import Walk
from .words import no_operand, number_of_steps

# The steps whose lines an answer has, of more the last.
_MOST_STEPS = 10


class Travel:
    """A place in a run, and the bytes that are watched."""

    def __init__(self, walk: Walk, views: Views) -> None:
        self.walk, self.views = walk, views
        self._watches: List[Range] = []
        self._before: List[bytes] = []

    def step(self, rest: str) -> List[str]:
        lines: List[List[str]] = []
        for _ in range(number_of_steps(rest)):
            if not self._goes_on():
                lines.append([self._at_end()])
                break
            lines.append(self._last_step())
            if hits := self._hits():
                lines.append(hits)
                break
        left_out = len(lines) - _MOST_STEPS
        first = [f"... {left_out} more"] if left_out > 0 else []
        shown = [line for it in lines[-_MOST_STEPS:] for line in it]
        return [*first, *shown, self.views.position(self.walk)]

    def _goes_on(self) -> bool:
        """Does the next step, which may be of the next request. What is watched is looked at."""
        walk = self.walk
        self._before = [self._watched(it) for it in self._watches]
        if walk.forward():
            return True
        if not walk.next_request():
            return False
        self._before = [self._watched(it) for it in self._watches]
        return walk.forward() or self._goes_on()

    def _watched(self, it: Range) -> bytes:
        storage = self.walk.storage
        return storage.bytes_at(it.address, it.length) if storage.has(*it[:2]) else b""

    def _hits(self) -> List[str]:
        """What the last step has changed of the bytes that are watched."""
        lines = []
        for number, (it, before) in enumerate(zip(self._watches, self._before), 1):
            now = self._watched(it)
            if now != before:
                was, new = map(self.views.bytes_in_words, (before, now))
                lines += [f"      watch {number}, {it.name}: it was {was}", f"      it is {new}"]
        return lines

    def _last_step(self) -> List[str]:
        walk = self.walk
        return [*self.views.step(walk, walk.step), *self.views.why(walk)]

    def _at_end(self) -> str:
        return "this is the end of the job" if self.walk.request.is_whole else LEFT_OUT

    def back(self, rest: str) -> List[str]:
        for _ in range(number_of_steps(rest)):
            if self.walk.back():
                continue
            if not self.walk.previous_request():
                return ["this is the start of the job", self.views.position(self.walk)]
            while self.walk.forward():
                pass
            self.walk.back()
        return [self.views.position(self.walk)]

    def _goes_to(self, is_there: Callable[[Walk], bool], otherwise: str) -> List[str]:
        """Goes on until a step after which this holds, or which changes what is watched. If none
        comes, raises Unknown, and the place stays."""
        walk, place = self.walk, (self.walk.at, self.walk.step)
        while self._goes_on():
            hits = self._hits()
            if hits or is_there(walk):
                return [*self._last_step(), *hits, self.views.position(walk)]
        is_cut = not walk.request.is_whole
        walk.go_to(*place)
        raise Unknown(f"{otherwise}: {LEFT_OUT}" if is_cut else otherwise)

    def run(self, rest: str) -> List[str]:
        if not rest:
            return self._goes_to(_is_last, _at_last(self.walk))
        address_in(rest, self.walk)
        return self._goes_to(lambda walk: _is_at(rest, walk), f"no later CCW is at {rest}")

    def error(self, rest: str) -> List[str]:
        no_operand(rest)
        return self._goes_to(_is_error, "no error comes after this")

    def post(self, rest: str) -> List[str]:
        no_operand(rest)
        return self._goes_to(lambda walk: walk.is_posted, _at_last(self.walk))

    def watch(self, rest: str) -> List[str]:
        if rest:
            self._watches.append(range_in(rest, self.walk))
        lines = [
            f"watch {number}: {it.name}, {counted(it.length, 'byte')} from {it.address:06X}"
            for number, it in enumerate(self._watches, 1)
        ]
        return lines[-1:] if rest else lines or ["nothing is watched"]

    def unwatch(self, rest: str) -> List[str]:
        if not rest.isdecimal() or not 1 <= int(rest) <= len(self._watches):
            raise Unknown(f"expected the number of a watch, 1 to {len(self._watches)}")
        del self._watches[int(rest) - 1]
        return self.watch("")


def _at_last(walk: Walk) -> str:
    return f"{name_of(walk)} is the last, and is posted"


def _is_last(walk: Walk) -> bool:
    return walk.is_posted and walk.at == len(walk.recording) - 1


def _is_at(place: str, walk: Walk) -> bool:
    """Whether the program goes on at a place, or its next command has a CCW there. An area of
    another request may have no such label."""
    try:
        return address_in(place, walk) in walk.next_addresses()
    except Unknown:
        return False


def _is_error(walk: Walk) -> bool:
    """Whether the last step is an error, a command or a post."""
    if walk.is_posted:
        return is_error(walk.recording.ending(walk.request))
    last = walk.last()
    return last is not None and has_failed(last)
