"""Judges what another program logged: whether its events are lawful, and its posts right."""

from __future__ import annotations

from dataclasses import dataclass, field
from typing import Callable, Dict, Iterable, List, Optional, Sequence, Union

from .area import Area
from .blocks import Address, Extent
from .errors import ExcpError
from .posts import Post
from .site import Site
from .unit import Dcb, Unit
from .values import Answer, Kind, Method, Mode, Name

# What an event of a unit answers that changes nothing. No lawful log has one without its answer.
_NOTHING = {Kind.QUIET, Kind.HELD, Kind.BUSY, Kind.IDLE, Kind.ROW_FULL}


@dataclass(frozen=True)
class LoggedEvent:
    """An event that another program logged: its word, its unit, and what else it has. The words
    are `open`, `issue`, `take`, `start`, `run`, `interrupt`, `deliver`, `purge`, `purge_task`,
    `close` and `reset`. `commands` is how many a run did, not how many it was allowed.

    `answer` is the text of its answer, as `Ended 0 0 1 7F`. It is the number of the DCB for `open`,
    the name of the request for `issue`, and `Reset` for `reset`. Without one, any answer that
    changes something is right."""

    word: str
    unit: int
    answer: str = ""
    task: int = 0
    dcb: int = 0
    commands: int = 0
    mode: Mode = Mode.QUIESCE
    method: Method = Method.OUTPUT
    extents: Sequence[Extent] = ()
    area: Area = field(default_factory=Area)
    iob: Address = "IOB"

    def __str__(self) -> str:
        commands = f", {self.commands} commands" if self.commands else ""
        return f"{self.word} at unit {self.unit}{commands}"


@dataclass(frozen=True)
class Verdict:
    """Why a log is not right: the place of its first event at fault, from 0, or the number of its
    events if a post is missing at the end; and a sentence."""

    place: int
    reason: str


def judge(
    site: Site, events: Iterable[LoggedEvent], posts: Optional[Iterable[Post]] = None
) -> Optional[Verdict]:
    """Plays a log on a fresh site with its units mounted. Returns the first event that is not
    lawful, or whose post differs from the one logged; or None. Posts are judged if they are given,
    in any order; a second one of a request is a fault. Each is collected when it is delivered, so
    no post row fills. Raises ValueError for another word, or an unknown label."""
    logged = None if posts is None else _by_name(posts)
    place = 0
    for place, event in enumerate(events, 1):
        reason = _played(site, event, logged)
        if reason:
            return Verdict(place - 1, f"{event}: {reason}")
    left = [name for name, more in logged.items() if more] if logged else []
    if left:
        return Verdict(place, f"the log has a post of {min(left)}, and it was not delivered")
    return None


def _by_name(posts: Iterable[Post]) -> Dict[Name, List[Post]]:
    """The posts of each request. A second one is a fault, so none may hide another."""
    found: Dict[Name, List[Post]] = {}
    for it in posts:
        found.setdefault(it.name, []).append(it)
    return found


def _played(site: Site, event: LoggedEvent, logged: Optional[Dict[Name, List[Post]]]) -> str:
    """What is wrong with an event, which is played. The post of a delivery is taken out."""
    if event.word not in EVENTS:
        raise ValueError(f"there is no event {event.word!r}, but {', '.join(EVENTS)}")
    try:
        answer = EVENTS[event.word](site, event)
    except ExcpError as error:
        return f"the supervisor rejects it: {error}"
    if event.answer and str(answer) != event.answer:
        return f"the log has {event.answer}, and the supervisor {answer}"
    if not isinstance(answer, Answer):
        return ""
    if not event.answer and event.word in _OF_UNITS and answer.kind in _NOTHING:
        return f"the supervisor does nothing: {answer}"
    if answer.commands != event.commands:
        return f"the supervisor does {answer.commands} commands"
    if answer.kind != Kind.DELIVERED or not answer.name:
        return ""
    post = site.post(answer.name.task)
    if logged is None:
        return ""
    waiting = logged.get(post.name)
    return _difference(post, waiting.pop(0)) if waiting else f"the log has no post of {post.name}"


def _difference(post: Post, logged: Post) -> str:
    """How a post differs from the one that was logged."""
    one, other = str(logged), str(post)
    if one != other:
        return f"the log has {one}, and the supervisor {other}"
    if (logged.dcb, logged.base, len(logged.storage)) != (post.dcb, post.base, len(post.storage)):
        return f"the log has the DCB or the storage of another request than {post.name}"
    pairs = enumerate(zip(logged.storage, post.storage), post.base)
    for at, (mine, yours) in pairs:
        if mine != yours:
            return f"the log has {mine:02X} at {at:06X}, and the supervisor {yours:02X}"
    return ""


Played = Callable[[Site, LoggedEvent], Union[Answer, Name, int, str]]


def _unit(site: Site, it: LoggedEvent) -> Unit:
    return Unit(site, it.unit)


def _dcb(site: Site, it: LoggedEvent) -> Dcb:
    return _unit(site, it).dcb(it.dcb)


def _reset(site: Site, it: LoggedEvent) -> str:
    _dcb(site, it).reset()
    return "Reset"


# What each event does on a site: those that a unit makes by itself, and all.
_OF_UNITS: Dict[str, Played] = {
    "take": lambda site, it: _unit(site, it).take(),
    "start": lambda site, it: _unit(site, it).start(),
    "run": lambda site, it: _unit(site, it).run(it.commands),
    "interrupt": lambda site, it: _unit(site, it).interrupt(),
    "deliver": lambda site, it: _unit(site, it).deliver(),
}
EVENTS: Dict[str, Played] = {
    **_OF_UNITS,
    "open": lambda site, it: _unit(site, it).open(it.method, it.extents).number,
    "issue": lambda site, it: site.issue(it.task, _dcb(site, it), it.area, it.iob),
    "purge": lambda site, it: _dcb(site, it).purge(it.mode),
    "purge_task": lambda site, it: _unit(site, it).purge_task(it.task, it.mode),
    "close": lambda site, it: _dcb(site, it).close(),
    "reset": _reset,
}
