"""A run as a debugger has it: the requests of each unit in the order of their posts, each with the
place of its steps. The steps themselves are in a file, so a long run takes little memory."""

from __future__ import annotations

from array import array
from dataclasses import dataclass, field
from typing import Dict, Iterator, List, NamedTuple, Optional, Sequence, Tuple

from ..reporting.kept import KeptText
from ..reporting.record import EVENTS, TASK_EVENTS, Members, Record, members

# The lines of what is on a medium.
_MEDIUM = ("medium", "record", "item", "line")

RequestName = Tuple[int, int, int]


class RequestRun(NamedTuple):
    """What is known of a request: task, unit and number, where its steps are and how many, where
    its post is, before which of its steps its attempts begin, and whether it has all its steps."""

    task: int
    unit: int
    number: int
    steps: int
    commands: int
    post: int
    attempts: Sequence[int]
    is_whole: bool

    @property
    def name(self) -> RequestName:
        return self.task, self.unit, self.number


@dataclass
class _Begun:
    """A request that is not yet posted."""

    steps: int = 0
    commands: int = 0
    attempts: List[int] = field(default_factory=list)
    is_whole: bool = True


# The attempts of most requests.
_ONE_ATTEMPT = (0,)


class UnitRun:
    """A unit: the kind of its device, and its requests in the order of their posts, in compact
    form."""

    def __init__(self, number: int, device: str) -> None:
        self.number, self.device = number, device
        self._tasks, self._numbers, self._commands = array("H"), array("I"), array("I")
        self._steps, self._posts = array("Q"), array("Q")
        self._attempts: Dict[int, Sequence[int]] = {}
        self._first_cut: Optional[int] = None

    def __len__(self) -> int:
        return len(self._tasks)

    def add(self, task: int, number: int, begun: _Begun, post: int) -> None:
        """Adds a request, whose post is at this place."""
        if len(begun.attempts) > 1:
            self._attempts[len(self)] = begun.attempts
        if not begun.is_whole and self._first_cut is None:
            self._first_cut = len(self)
        self._tasks.append(task)
        self._numbers.append(number)
        self._commands.append(begun.commands)
        self._steps.append(begun.steps)
        self._posts.append(post)

    def request(self, at: int) -> RequestRun:
        """Request `at`, in the order of posts."""
        return RequestRun(
            task=self._tasks[at],
            unit=self.number,
            number=self._numbers[at],
            steps=self._steps[at],
            commands=self._commands[at],
            post=self._posts[at],
            attempts=self._attempts.get(at, _ONE_ATTEMPT),
            is_whole=self._first_cut is None or at < self._first_cut,
        )


class Recording:
    """The units of a run, the lines of their steps, and the posts that tasks got. Its methods raise
    NotKept."""

    def __init__(self) -> None:
        # the steps of a request are in a row, whatever happens between them
        self._steps, self._events = KeptText(), KeptText()
        self.units: List[UnitRun] = []
        # of each task and unit the places of its posts, by the numbers of the requests
        self._posts: Dict[Tuple[int, int], array[int]] = {}

    def __len__(self) -> int:
        return sum(map(len, self.units))

    def request(self, at: int) -> RequestRun:
        """A request by its place among all, unit after unit."""
        for unit in self.units:
            if at < len(unit):
                return unit.request(at)
            at -= len(unit)
        raise IndexError(at)

    def requests(self) -> Iterator[RequestRun]:
        """All requests, unit after unit."""
        return (unit.request(at) for unit in self.units for at in range(len(unit)))

    def steps(self, request: RequestRun) -> List[str]:
        """The lines of the steps of a request."""
        return self._steps.lines_at(request.steps, request.commands)

    def ending(self, request: RequestRun) -> Members:
        """How a request was posted."""
        return self._members(request.post)

    def post(self, request: RequestRun) -> Optional[Members]:
        """The post as its task got it, if it did."""
        places = self._posts.get((request.task, request.unit), ())
        return self._members(places[request.number - 1]) if request.number <= len(places) else None

    def add_post(self, line: str) -> None:
        """Adds the post that a task got, in the order of numbers."""
        post = members(line)
        places = self._posts.setdefault((post["task"], post["unit"]), array("Q"))
        places.append(self.add_event(line))

    def add_event(self, line: str) -> int:
        """Adds an event. Returns its place."""
        return self._events.add(f"{line}\n")

    def add_step(self, line: str) -> int:
        """Adds a step, after all others of its unit. Returns its place."""
        return self._steps.add(f"{line}\n")

    def _members(self, place: int) -> Members:
        return members(self._events.lines_at(place, 1)[0])


def read_recording(record: Record) -> Recording:
    """The run of a record with all its steps, or the first of each unit. Raises NotKept, and
    ValueError for another record."""
    recording = Recording()
    if record.what == "run":
        record.take()
    for line in record.all_of("post"):
        recording.add_post(line)
    for _ in record.all_of(*TASK_EVENTS):
        pass
    while record.what == "unit":
        unit = members(record.take())
        _read_unit(record, recording, UnitRun(unit["unit"], unit["kind"]))
        for _ in record.all_of(*_MEDIUM):
            pass
    return recording


def _read_unit(record: Record, recording: Recording, unit: UnitRun) -> None:
    """Adds the requests of a unit, whose events a record has next."""
    recording.units.append(unit)
    requests: Dict[Tuple[int, int], _Begun] = {}
    is_cut = False
    while record.what in EVENTS or record.what == "left_out":
        what, line = record.what, record.take()
        is_cut = is_cut or what == "left_out"
        if what not in ("started", "ran", "posted"):
            continue
        event = members(line)
        name = event["task"], event["request"]
        request = requests.setdefault(name, _Begun())
        if what == "started":
            request.attempts.append(request.commands)
        elif what == "ran":
            is_cut = _add_steps(record, recording, request) or is_cut
            request.is_whole = not is_cut
        else:
            unit.add(*name, requests.pop(name), recording.add_event(line))


def _add_steps(record: Record, recording: Recording, request: _Begun) -> bool:
    """Adds the steps that come next to their request. Returns whether further ones are left out."""
    for line in record.all_of("step"):
        place = recording.add_step(line)
        if not request.commands:
            request.steps = place
        request.commands += 1
    if record.what != "left_out":
        return False
    record.take()
    return True
