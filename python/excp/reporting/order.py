"""An order of the events of all units for a run that has none: it gives each event a column. It
keeps the order of each unit, and what each task did one after another: no event comes before what
its task waited for. The units go on evenly."""

from __future__ import annotations

import heapq
from array import array
from typing import Dict, List, Optional, Sequence, Tuple

from .record import CONTROLS, Members
from .tasks import NOTHING, Deed, Tasks

# The kinds of events: most have no part in the order but their place at their unit.
_OTHER, _ARRIVAL, _CONTROL, _POST = range(4)
_KINDS = {"arrived": _ARRIVAL, "posted": _POST, **dict.fromkeys(CONTROLS, _CONTROL)}


class UnitEvents:
    """What the order of a unit's events depends on, in compact form; and their columns."""

    def __init__(self, unit: int) -> None:
        self._unit = unit
        self.columns = array("I")
        self._kinds = bytearray()
        # of an arrival and a post: the task and the number of the request; of a control: its entry
        self._tasks, self._numbers = array("H"), array("I")

    def add(self, event: Members) -> None:
        """Adds an event. One of the set-up, an opening before the first other event, gets the
        column 0."""
        if event["what"] == "opened" and self.are_over:
            self.columns.append(0)
        kind = _KINDS.get(event["what"], _OTHER)
        self._kinds.append(kind)
        self._tasks.append(event.get("task", 0))
        self._numbers.append(event["entry"] if kind == _CONTROL else event.get("request", 0))

    @property
    def are_over(self) -> bool:
        """Whether all events have their columns."""
        return len(self.columns) == len(self._kinds)

    @property
    def share(self) -> float:
        """The share of the events that have columns once the next one has."""
        return (len(self.columns) + 1) / len(self._kinds)

    def after(self, tasks: Tasks) -> Deed:
        """What a task has to have done before the next event."""
        at = len(self.columns)
        kind, number = self._kinds[at], self._numbers[at]
        if kind == _ARRIVAL:
            return tasks.before_issue(self._tasks[at], self._unit, number)
        if kind == _CONTROL:
            return tasks.before_control(self._unit, number) or NOTHING
        return NOTHING

    def give(self, column: int, tasks: Tasks) -> None:
        """Gives the next event its column. Its task goes on if it waited for that."""
        at = len(self.columns)
        kind, number = self._kinds[at], self._numbers[at]
        if kind == _POST:
            tasks.post(self._tasks[at], self._unit, number)
        elif kind == _CONTROL and (before := tasks.before_control(self._unit, number)):
            tasks.make(before)
        self.columns.append(column)


def give_columns(units: Sequence[UnitEvents], tasks: Tasks) -> None:
    """Gives each event its column: its place among the events of all units, from 1."""
    tasks.begin()
    queue = _Queue(units, tasks)
    column = 0
    while (unit := queue.take()) is not None:
        column += 1
        units[unit].give(column, tasks)
        queue.put(unit)


class _Queue:
    """The units, by their places, that have events without columns. Those whose next event may come
    are ready, the least far first. Each other one waits until a task has done that much."""

    def __init__(self, units: Sequence[UnitEvents], tasks: Tasks) -> None:
        self._units, self._tasks = units, tasks
        self._ready: List[Tuple[float, int]] = []
        self._waiting: Dict[int, List[Tuple[int, int]]] = {}
        for unit in range(len(units)):
            self.put(unit)

    def put(self, unit: int) -> None:
        """Puts a unit into the queue, unless its events are over."""
        events = self._units[unit]
        if events.are_over:
            return
        after = events.after(self._tasks)
        if self._tasks.has_done(after):
            heapq.heappush(self._ready, (events.share, unit))
        else:
            heapq.heappush(self._waiting.setdefault(after.task, []), (after.things, unit))

    def take(self) -> Optional[int]:
        """Takes the unit that is least far among those that are ready; if none is, among all."""
        for task in self._tasks.moved():
            self._wake(task)
        if self._ready:
            return heapq.heappop(self._ready)[1]
        return self._take_waiting()

    def _take_waiting(self) -> Optional[int]:
        waiting = [unit for units in self._waiting.values() for _, unit in units]
        taken = min(waiting, key=lambda unit: (self._units[unit].share, unit), default=None)
        for task, units in self._waiting.items():
            self._waiting[task] = sorted(it for it in units if it[1] != taken)
        return taken

    def _wake(self, task: int) -> None:
        """Makes those units ready that waited for what a task has done by now."""
        waiting = self._waiting.get(task, [])
        while waiting and self._tasks.has_done(Deed(task, waiting[0][0])):
            unit = heapq.heappop(waiting)[1]
            heapq.heappush(self._ready, (self._units[unit].share, unit))
