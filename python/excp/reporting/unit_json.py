"""A unit of a run as JSON: its events with their commands, and its medium."""

from __future__ import annotations

from dataclasses import dataclass, field
from functools import lru_cache
from typing import FrozenSet, Iterator, List, Set, Tuple

from .json_texts import joined
from .medium_json import Track, medium_json, touched_parts
from .order import UnitEvents
from .record import CONTROLS, EVENTS, Members, Record, members
from .step import Step, step_of
from .step_lists import StepLists
from .tasks import Tasks

# Where an event gets its column: a sign that no text of JSON has.
COLUMN = "\0"

# What the line of a unit has before the members of its JSON.
_WHAT = '{"what":"unit",'


@dataclass
class RunSoFar:
    """What is known of a run when the record has its units next. `most` is how many commands of
    each unit are wanted. The lists of steps, the events of units and what is known of their tracks
    are added here."""

    tasks: Tasks
    has_order: bool
    most: int
    lists: StepLists
    units: List[UnitEvents] = field(default_factory=list)
    # of each unit the tracks whose first record in the JSON is a further record 0
    further_r0: List[List[Track]] = field(default_factory=list)


def unit_json(record: Record, run: RunSoFar) -> Iterator[str]:
    """The unit that a record has next, in pieces. Raises NotKept."""
    return _Unit(record, run).pieces()


class _Unit:
    def __init__(self, record: Record, run: RunSoFar) -> None:
        self._record, self._run = record, run
        self._line = record.take()
        unit = members(self._line)
        self._number, self._device = unit["unit"], unit["kind"]
        self._events = UnitEvents(self._number)
        self._touched: Set[str] = set()
        self._left, self._is_cut = run.most, False

    def pieces(self) -> Iterator[str]:
        """The unit as JSON."""
        yield f'\n{{{self._line[len(_WHAT) : -1]},"events":['
        yield from joined(self._event_pieces())
        yield '\n],"medium":'
        further_r0: List[Track] = []
        if self._record.what == "medium":
            yield from medium_json(self._record, self._device, self._touched, further_r0)
        yield "}"
        self._run.further_r0.append(further_r0)
        self._run.units.append(self._events)

    def _event_pieces(self) -> Iterator[str]:
        has_order = self._run.has_order
        place = "" if has_order else COLUMN
        while self._record.what in EVENTS:
            line = self._record.take()
            event = members(line)
            if not has_order:
                self._events.add(event)
            yield f"\n{{{place}{line[1:-1]}{self._more(event)}}}"

    def _more(self, event: Members) -> str:
        """What the line of an event has not: its steps, or the task that made it."""
        if event["what"] == "ran":
            return self._steps()
        if event["what"] in CONTROLS:
            before = self._run.tasks.before_control(self._number, event["entry"])
            return f',"by":{"null" if before is None else before.task}'
        return ""

    def _steps(self) -> str:
        """The number of the list of the steps that come next. Steps that are left out touch the
        medium too."""
        steps, parts = _steps_of(tuple(self._record.all_of("step")))
        self._touched |= parts
        wanted = steps[: self._left]
        self._left -= len(wanted)
        self._is_cut = self._is_cut or len(wanted) < len(steps)
        number = self._run.lists.number_of(self._device, wanted)
        left_out = ',"left_out":true' if self._is_cut else ""
        return f',"steps":{number}{left_out}'


# equal programs have equal lines
@lru_cache(maxsize=16)
def _steps_of(lines: Tuple[str, ...]) -> Tuple[Tuple[Step, ...], FrozenSet[str]]:
    """The steps of some lines, and the parts of the medium that they touched."""
    steps = tuple(map(step_of, lines))
    return steps, touched_parts(step.place for step in steps)
