"""A scenario, carried out line by line."""

from __future__ import annotations

from typing import Callable, Iterator, List, Mapping, NamedTuple, Optional, Sequence

from ..checking.scenario import ScenarioCheck
from ..findings import FaultName
from ..script.grammar import Expect, Finish, Line, PurgeTask
from ..script.limits import MOST_SCRIPT_BYTES
from ..script.reading import Text
from ..script.set_up import SetUp
from ..site import Site
from .answers import Stage
from .mounted import Rooms, mounted_site
from .past import Past
from .views import Trace, state_line
from .words import in_words

# The fewest bytes of the line of an EXCP, with its line feed. A row without a size has room for as
# many requests as a scenario can have.
_LEAST_EXCP = 29
_ROOM = MOST_SCRIPT_BYTES // _LEAST_EXCP

FINISH = "finish"

# Events that are of all units.
_OF_ALL = (PurgeTask, Finish)

# Faults of the whole set-up, which no later line can mend.
_OF_UNITS = (FaultName.MEDIUM, FaultName.EXTENT)


class Wanted(NamedTuple):
    """What a scenario prints: the entries or the states of units after each event, the record at
    its end, and words beside the numbers of answers."""

    trace: bool = False
    state: bool = False
    record: bool = False
    words: bool = False


class Missed(NamedTuple):
    """An expectation that is not met."""

    expected: str
    answered: str


def on_missed(place: str, missed: Missed) -> str:
    """The text on an expectation that is not met, at this place."""
    return f"{place} expected: {missed.expected}; answered: {missed.answered}"


class Scenario:
    """A scenario that is read by a check, which has its faults. A line with a fault is not carried
    out, and none may come after it.

    `begin` is called once the set-up is known and none of its lines has a fault, before it is asked
    whether units can be mounted. `images` gives the images of units. `missed` is the last
    expectation, if it was not met.
    """

    def __init__(
        self,
        check: ScenarioCheck,
        wanted: Wanted,
        begin: Callable[[SetUp], None],
        images: Callable[[], Mapping[int, bytes]],
    ) -> None:
        self.stage: Optional[Stage] = None
        self.missed: Optional[Missed] = None
        self._check, self._wanted = check, wanted
        self._begin, self._images = begin, images
        self._answers: List[str] = []
        self._traces: Sequence[Trace] = ()

    def read(self, number: int, text: Text) -> str:
        """Carries out a line. Returns what is printed of its event: its answer, and the views."""
        self.missed = None
        was_set_up = self._check.is_set_up
        says = self._check.read(number, text)
        self._begin_after(was_set_up)
        if says is None or self._check.findings or self.stage is None:
            return ""
        if isinstance(says, Expect):
            self._compare(text)
            return ""
        return self._event(self.stage, says, text)

    def end(self) -> None:
        """No further line comes."""
        was_set_up = self._check.is_set_up
        self._check.end_set_up()
        self._begin_after(was_set_up)

    def _begin_after(self, was_set_up: bool) -> None:
        """Mounts the units if the set-up has ended, and nothing is wrong with it."""
        if was_set_up or not self._check.are_names_known:
            return
        set_up = self._check.set_up
        self._begin(set_up)
        if any(it.name in _OF_UNITS for it in self._check.findings):
            return
        site = mounted_site(set_up, self._rooms(len(set_up.units)), self._images())
        past = Past(set_up.tasks, site.units, self._wanted.record)
        self.stage = Stage(site, set_up, past)
        if self._wanted.trace:
            self._traces = [Trace(it) for it in site.units]

    def _rooms(self, units: int) -> Rooms:
        sizes = self._check.sizes
        return Rooms(
            post=sizes.get(("post", None), _ROOM),
            in_flight=[sizes.get(("intake", None), _ROOM)] * units,
            held=[sizes.get(("book", it), _ROOM) for it in range(units)],
        )

    def _event(self, stage: Stage, says: Line, text: Text) -> str:
        self._answers = stage.answer(text.first, says)
        event = " ".join(text.words)
        lines = [f"{event}: {it}{self._words(it)}\n" for it in self._answers]
        self._answers.reverse()
        lines += self._views(stage.site, says)
        return "".join(lines)

    def _words(self, answer: str) -> str:
        """What is printed beside an answer, if words are wanted."""
        words = in_words(answer) if self._wanted.words else ""
        return f"  # {words}" if words else ""

    def _views(self, site: Site, says: Line) -> Iterator[str]:
        """The views of each unit after an event, if any are wanted."""
        wanted = self._wanted
        if not (wanted.trace or wanted.state):
            return
        # an event of one unit, or of none, adds nothing to the traces of others
        of_one = None if isinstance(says, _OF_ALL) else getattr(says, "unit", -1)
        for unit in site.units:
            if wanted.trace and of_one in (None, unit.number):
                yield from self._traces[unit.number].new_lines()
            if wanted.state:
                yield state_line(unit)

    def _compare(self, text: Text) -> None:
        """Compares an expectation with the next line of the last answer."""
        expected = text.line.strip(" ")[len(text.first) :].strip(" ")
        answered = self._answers.pop() if self._answers else None
        if answered != expected:
            self.missed = Missed(expected, "nothing" if answered is None else answered)
