"""What events did, noted as they come: what each task did, the posts, and the one order of the
entries of all units. Posts and deeds are lines of a record (docs/REPORT.md)."""

from __future__ import annotations

from array import array
from itertools import chain
from typing import Any, Dict, Iterable, Iterator, List, Sequence

from ..posts import Post
from ..reporting.texts import shown
from ..script.grammar import Excp
from ..unit import Unit
from ..values import Name

_IOB_BYTES = 40


class Past:
    """What happened since the units of a site were mounted. `keeps_all` says that its lines will be
    wanted; without it only what posts show is known."""

    def __init__(self, tasks: int, units: Sequence[Unit], keeps_all: bool) -> None:
        self.keeps_all = keeps_all
        self._requests: Dict[Name, Excp] = {}
        self._posts: Dict[Name, str] = {}
        self._deeds: List[List[str]] = [[] for _ in range(tasks)]
        # of each entry of each unit its place in the one order; those from before the first event
        # have the place 0
        self._places = [array("L", [0] * it.count_entries()) for it in units] if keeps_all else []
        self._last = 0

    def issue(self, name: Name, excp: Excp) -> None:
        """A task has issued the request of an EXCP."""
        self._requests[name] = excp
        self.do(name.task, "issued", unit=name.unit, request=name.number)

    def collect(self, post: Post) -> str:
        """A task has collected a post. Returns the line of the post, as a run prints it."""
        name = post.name
        self.do(name.task, "collected", unit=name.unit, request=name.number)
        return self.leave(post)

    def leave(self, post: Post) -> str:
        """A post is at the end that no task had collected. Returns as `collect`."""
        excp = self._requests.pop(post.name)
        bytes_shown = post.at(excp.show, excp.length) if excp.length else b""
        if self.keeps_all:
            self._posts[post.name] = _post_line(post, bytes_shown, excp.iob)
        return f"{post} {shown(bytes_shown.hex().upper())}"

    def control(self, task: int, unit: Unit) -> None:
        """A command of a task has changed a unit: the first new entry is its own."""
        if self.keeps_all:
            entry = len(self._places[unit.number]) + 1
            self.note(unit)
            if len(self._places[unit.number]) >= entry:
                self.do(task, "controlled", unit=unit.number, entry=entry)

    def note(self, unit: Unit) -> None:
        """An event has made new entries of a unit, or none."""
        if self.keeps_all:
            places = self._places[unit.number]
            for _ in unit.entries(len(places)):
                self._last += 1
                places.append(self._last)

    def do(self, task: int, what: str, **numbers: int) -> None:
        """A task has done something."""
        if self.keeps_all:
            members = "".join(f',"{name}":{number}' for name, number in numbers.items())
            self._deeds[task].append(f'{{"what":"{what}","task":{task}{members}}}\n')

    def requests(self) -> Iterable[Name]:
        """The requests that were issued, and whose posts are not collected, in that order."""
        return self._requests

    def places(self, unit: int) -> Sequence[int]:
        """The place of each entry of a unit in the one order."""
        return self._places[unit]

    def posts(self) -> Iterator[str]:
        """The lines of the posts, in order of tasks, units and numbers."""
        return (self._posts[it] for it in sorted(self._posts))

    def deeds(self) -> Iterator[str]:
        """The lines of what each task did."""
        return chain.from_iterable(self._deeds)


def _post_line(post: Post, bytes_shown: bytes, iob: int) -> str:
    name, csw = post.name, post.csw
    members: Dict[str, Any] = {
        "code": f"{post.code:02X}",
        "address": f"{csw.address:06X}",
        "status": f"{csw.unit:02X}{csw.sub:02X}",
        "residual": f"{csw.residual:04X}",
        "sense": f"{post.sense:04X}",
        "shown": bytes_shown.hex().upper(),
        "iob_at": f"{iob:06X}",
        "iob": post.at(iob, _IOB_BYTES).hex().upper(),
    }
    texts = "".join(f',"{key}":"{text}"' for key, text in members.items())
    numbers = f'"task":{name.task},"unit":{name.unit},"request":{name.number}'
    return f'{{"what":"post",{numbers}{texts}}}\n'
