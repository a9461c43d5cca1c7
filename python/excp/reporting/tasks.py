"""What each task of a run did, one thing after another, and how far it has come in an order of all
events."""

from __future__ import annotations

from array import array
from collections import defaultdict
from typing import DefaultDict, Dict, List, NamedTuple, Optional, Tuple

from .record import Members


class Deed(NamedTuple):
    """The first `things` things that a task did, which come before something."""

    task: int
    things: int


NOTHING = Deed(0, 0)


# What a task collects, at which it waits: no request has the number of a control.
_CONTROL = 0


class _Stops:
    """Where a task may have to wait: how much it did before, and the unit and the number of the
    request that it collects there."""

    def __init__(self) -> None:
        self.counts, self.units, self.requests = array("I"), array("H"), array("I")

    def add(self, count: int, unit: int, request: int) -> None:
        """Adds a place, after all others."""
        self.counts.append(count)
        self.units.append(unit)
        self.requests.append(request)


class _Requests:
    """The requests of a task to a unit, by their numbers: what the task did before each, and
    whether it is posted."""

    def __init__(self) -> None:
        self._counts, self._are_unposted = array("I"), bytearray()

    def issue(self, number: int, count: int) -> None:
        """A request is issued after `count` things."""
        missing = max(number - len(self._counts), 0)
        self._counts.extend([0] * missing)
        self._are_unposted.extend(bytes(missing))
        self._counts[number - 1], self._are_unposted[number - 1] = count, True

    def post(self, number: int) -> None:
        """A request is posted."""
        if number <= len(self._counts):
            self._are_unposted[number - 1] = False

    def count(self, number: int) -> int:
        """How much its task did before a request."""
        return self._counts[number - 1] if number <= len(self._counts) else 0

    def is_unposted(self, number: int) -> bool:
        """Whether a request is issued and not posted."""
        return number <= len(self._counts) and bool(self._are_unposted[number - 1])


class Tasks:
    """What tasks did, in compact form, as a run has many events. A task has come as far as the
    first request that it collects and that is not posted, or its first control without a place in
    the order."""

    def __init__(self, count: int) -> None:
        self._stops = [_Stops() for _ in range(count)]
        self._passed, self._all, self._done = [0] * count, [0] * count, [0] * count
        self._requests: DefaultDict[Tuple[int, int], _Requests] = defaultdict(_Requests)
        self._controls: Dict[Tuple[int, int], Deed] = {}
        self._moved: List[int] = []

    def add(self, event: Members) -> None:
        """Adds an event of a task, after all that it did before."""
        what, task = event["what"], event["task"]
        count = self._all[task]
        self._all[task] += 1
        if what == "issued":
            self._requests_to(task, event["unit"]).issue(event["request"], count)
        elif what == "collected":
            self._stops[task].add(count, event["unit"], event["request"])
        elif what == "controlled":
            self._stops[task].add(count, event["unit"], _CONTROL)
            self._controls.setdefault((event["unit"], event["entry"]), Deed(task, count))

    def _requests_to(self, task: int, unit: int) -> _Requests:
        return self._requests[task, unit]

    def before_issue(self, task: int, unit: int, request: int) -> Deed:
        """What a task did before it issued a request."""
        return Deed(task, self._requests_to(task, unit).count(request))

    def before_control(self, unit: int, entry: int) -> Optional[Deed]:
        """What its task did before it made an entry of a unit, if a task made it."""
        return self._controls.get((unit, entry))

    def has_done(self, deed: Deed) -> bool:
        """Whether a task has come so far."""
        return deed.things <= self._done[deed.task]

    def begin(self) -> None:
        """Each task goes on until it waits."""
        for task in range(len(self._all)):
            self._go_on(task)

    def post(self, task: int, unit: int, request: int) -> None:
        """A request has its post. Its task goes on if it waited for that."""
        self._requests_to(task, unit).post(request)
        self._go_on(task)

    def make(self, before: Deed) -> None:
        """A task has made the control before which it did this, and goes on."""
        self._go_on(before.task, before.things + 1)

    def moved(self) -> List[int]:
        """The tasks that went on since they were asked for."""
        moved, self._moved = self._moved, []
        return moved

    def _go_on(self, task: int, least: int = 0) -> None:
        """A task goes on, past its first `least` things, until it waits."""
        counts, at = self._stops[task].counts, self._passed[task]
        least = max(least, self._done[task])
        while at < len(counts) and (counts[at] < least or not self._waits_at(task, at)):
            at += 1
        done = counts[at] if at < len(counts) else self._all[task]
        if done != self._done[task]:
            self._moved.append(task)
        self._passed[task], self._done[task] = at, done

    def _waits_at(self, task: int, at: int) -> bool:
        """Whether a task waits at one of its stops."""
        stops = self._stops[task]
        request = stops.requests[at]
        if request == _CONTROL:
            return True
        return self._requests_to(task, stops.units[at]).is_unposted(request)
