"""What events of tasks and units do on a site, and their answers (docs/MANUAL.md)."""

from __future__ import annotations

from typing import Any, Callable, Iterator, List, Mapping

from ..area import Area
from ..errors import ExcpError, Full, NoDcb, NoNumber, Status
from ..posts import Post
from ..script.set_up import SetUp
from ..site import Site
from ..unit import Dcb, Unit
from ..values import Answer, Kind, Mode
from .mounted import open_dcb
from .past import Past

# The most commands of a turn in which a program runs to its end: it fetches at most 4,096 CCWs.
_TO_THE_END = 65_535

# What an event answers that changes nothing.
UNCHANGED = {Kind.QUIET, Kind.HELD, Kind.BUSY, Kind.IDLE, Kind.ROW_FULL}

_MODES = {"quiesce": Mode.QUIESCE, "halt": Mode.HALT}

_NOT_OPENED = {Status.BAD_EXTENT: "BadExtent", Status.TOO_MANY_DCBS: "TooManyDcbs"}


class Stage:
    """A site on which the lines of events are carried out, whose names are declared, and whose
    requests can be made. What happens is noted in the past."""

    def __init__(self, site: Site, set_up: SetUp, past: Past) -> None:
        self.site, self.set_up, self.past = site, set_up, past
        self._areas = [Area(it.base, it.data) for it in set_up.areas]

    def answer(self, verb: str, says: Any) -> List[str]:
        """Carries out the line of an event with this first word. Returns the lines of its answer:
        one, but of `finish` one more for each post that no task had collected."""
        return _EVENTS[verb](self, says)

    def _unit(self, says: Any) -> Unit:
        number: int = says.unit
        return self.site.units[number]

    def _dcb(self, says: Any) -> Dcb:
        return self._unit(says).dcb(says.dcb)

    # Events of tasks.

    def _excp(self, says: Any) -> List[str]:
        area = self._areas[says.area]
        try:
            name = self.site.issue(says.task, self._dcb(says), area, says.iob)
        except Full:
            return ["Full"]
        except NoNumber:
            return ["NoNumber"]
        self.past.issue(name, says)
        return [f"Accepted {name}"]

    def _collect(self, says: Any) -> List[str]:
        post = self.site.next_post(says.task)
        if post is None:
            return ["Quiet"]
        return [self.past.collect(post)]

    def _of_dcb(self, says: Any, call: Callable[[Dcb], object]) -> List[str]:
        """An event of a task at a DCB, which may be none that was opened."""
        try:
            answer = str(call(self._dcb(says)))
        except NoDcb:
            return ["NoSuchDcb"]
        self.past.control(says.task, self._unit(says))
        return [answer]

    def _purge(self, says: Any) -> List[str]:
        return self._of_dcb(says, lambda dcb: dcb.purge(_MODES[says.mode]))

    def _close(self, says: Any) -> List[str]:
        return self._of_dcb(says, Dcb.close)

    def _reset(self, says: Any) -> List[str]:
        return self._of_dcb(says, _reset)

    def _purge_task(self, says: Any) -> List[str]:
        answers = (self._purge_task_at(unit, says) for unit in self.site.units)
        return [", ".join(answers)]

    def _purge_task_at(self, unit: Unit, says: Any) -> str:
        answer = unit.purge_task(says.other, _MODES[says.mode])
        self.past.control(says.task, unit)
        return str(answer)

    # Events of units.

    def _made(self, says: Any, call: Callable[[Unit], object]) -> List[str]:
        unit = self._unit(says)
        answer = str(call(unit))
        self.past.note(unit)
        return [answer]

    def _open(self, says: Any) -> List[str]:
        unit = self._unit(says)
        try:
            dcb = open_dcb(unit, says)
        except ExcpError as error:
            if error.status not in _NOT_OPENED:
                raise
            return [_NOT_OPENED[Status(error.status)]]
        self.past.note(unit)
        return [f"Opened {dcb.number}"]

    def _serve(self, says: Any) -> List[str]:
        """Makes all events of a unit, until none changes it. The answer has the deliveries; last
        comes that a row is full, or that nothing was delivered."""
        return self._made(says, lambda unit: ", ".join(_served(unit)))

    # The end.

    def _finish(self, _: Any) -> List[str]:
        """Ends all requests. The posts are in order of tasks, units and posting."""
        posts: List[Post] = []
        while True:
            for unit in self.site.units:
                _repeat(unit.take)
                unit.settle()
                _repeat(unit.deliver)
            for task in range(self.site.tasks):
                posts += self.site.posts(task)
            if all(it.is_drained for it in self.site.units):
                break
        posts.sort(key=lambda it: (it.name.task, it.name.unit))
        lines = [self.past.leave(it) for it in posts]
        for unit in self.site.units:
            self.past.note(unit)
        return [f"Finished {len(posts)}", *lines]


def _served(unit: Unit) -> Iterator[str]:
    is_told = False
    while True:
        before = [unit.take(), unit.start(), unit.run(_TO_THE_END), unit.interrupt()]
        is_made = any(it.kind not in UNCHANGED for it in before)
        delivery = unit.deliver()
        if delivery.kind == Kind.DELIVERED:
            is_told = True
            yield str(delivery)
        elif not is_made:
            if delivery.kind == Kind.ROW_FULL or not is_told:
                yield str(delivery)
            return


def _repeat(event: Callable[[], Answer]) -> None:
    """Makes an event as often as it changes something."""
    while event().kind not in UNCHANGED:
        pass


def _reset(dcb: Dcb) -> str:
    dcb.reset()
    return "Reset"


def _settled(unit: Unit) -> str:
    unit.settle()
    return "Settled"


# How the line of each event is carried out, by its first word.
_EVENTS: Mapping[str, Callable[[Stage, Any], List[str]]] = {
    "excp": Stage._excp,
    "collect": Stage._collect,
    "purge": Stage._purge,
    "purgetask": Stage._purge_task,
    "purgetaskat": lambda it, says: [it._purge_task_at(it._unit(says), says)],
    "close": Stage._close,
    "reset": Stage._reset,
    "take": lambda it, says: it._made(says, Unit.take),
    "start": lambda it, says: it._made(says, Unit.start),
    "run": lambda it, says: it._made(says, lambda unit: unit.run(says.most)),
    "interrupt": lambda it, says: it._made(says, Unit.interrupt),
    "deliver": lambda it, says: it._made(says, Unit.deliver),
    "settle": lambda it, says: it._made(says, _settled),
    "open": Stage._open,
    "serve": Stage._serve,
    "finish": Stage._finish,
}
