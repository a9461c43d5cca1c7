"""A session of the debugger: each line that is typed is a command, and has an answer in lines."""

from __future__ import annotations

import re
from dataclasses import dataclass, field
from typing import Callable, List, Mapping, Optional, Sequence

from ..reporting.record import is_error
from ..reporting.texts import counted
from .edition import ChangedLine, Edition
from .media import DiskState
from .places import Range, Unknown, address_in, labels_of, range_in
from .travel import Travel
from .views import LEFT_OUT, Views
from .walk import Walk
from .words import BY_NAME, help_lines, meant, no_operand, no_word

# The requests that a list has, and the bytes of a place without a length.
_MOST_REQUESTS, _BYTES = 40, 64

_NAME = re.compile(r"([0-9]+)\.([0-9]+)")


@dataclass
class Answer:
    """What is answered to a line: its lines, whether the line was right, and whether the session is
    over."""

    lines: List[str] = field(default_factory=list)
    is_right: bool = True
    is_over: bool = False


class Session:
    """A session on a job, from before the first command of its first request."""

    def __init__(self, edition: Edition, walk: Walk, views: Views) -> None:
        self.edition, self.views = edition, views
        self.travel = Travel(walk, views)
        self._asked_to_save = False
        it = self.travel
        self._does: Mapping[str, Callable[[str], List[str]]] = {
            "step": it.step, "back": it.back, "run": it.run, "error": it.error, "post": it.post,
            "request": self._request, "requests": self._requests,
            "watch": it.watch, "unwatch": it.unwatch, "show": self._show,
            "list": self._list, "set": self._set,
            "save": self._save, "again": self._again, "help": self._help,
        }

    @property
    def walk(self) -> Walk:
        """The place of the session."""
        return self.travel.walk

    def answer(self, line: str) -> Answer:
        """Carries out a line. Raises NotKept, and Differs."""
        typed, _, rest = line.strip().partition(" ")
        if not typed or typed.startswith("#"):
            return Answer()
        name = BY_NAME.get(typed)
        if name == "quit":
            return self._quit()
        self._asked_to_save = False
        try:
            if name is None:
                raise Unknown(no_word(typed))
            return Answer(self._does[name](rest.strip()))
        except Unknown as error:
            return Answer([str(error)], is_right=False)

    def _quit(self) -> Answer:
        """The end, unless a change is not saved: then a second `quit` is the end."""
        if self.edition.is_saved or self._asked_to_save:
            return Answer(is_over=True)
        self._asked_to_save = True
        return Answer(["the job is changed and not saved: save, or quit again"])

    # Requests.

    def _request(self, rest: str) -> List[str]:
        walk, place = self.walk, (self.walk.at, self.walk.step)
        at = walk.at if not rest else self._place_of(rest.split())
        walk.go_to(at, 0)
        if walk.at != at:
            walk.go_to(*place)
            raise Unknown(f"some request before it is not whole: {LEFT_OUT}")
        return [self.views.position(walk)]

    def _place_of(self, words: Sequence[str]) -> int:
        """The place of a request that is named. Raises Unknown."""
        name = _NAME.fullmatch(words[0])
        if name is not None:
            unit = int(words[1]) if len(words) == 2 and words[1].isdecimal() else None
            wanted = int(name[1]), int(name[2])
            for at, it in enumerate(self.walk.recording.requests()):
                if (it.task, it.number) == wanted and unit in (None, it.unit):
                    return at
            raise Unknown(f"{' '.join(words)}: no unit has such a request; requests lists them")
        count = len(self.walk.recording)
        if len(words) == 1 and words[0].isdecimal() and 1 <= int(words[0]) <= count:
            return int(words[0]) - 1
        raise Unknown(f"expected TASK.NUMBER UNIT, or 1 to {count} in the order of posts")

    def _requests(self, rest: str) -> List[str]:
        no_operand(rest)
        walk, recording = self.walk, self.walk.recording
        first = max(0, min(walk.at - _MOST_REQUESTS // 2, len(recording) - _MOST_REQUESTS))
        shown = range(first, min(first + _MOST_REQUESTS, len(recording)))
        lines = []
        for at in shown:
            it = recording.request(at)
            sign, code = ">" if at == walk.at else " ", recording.ending(it)["code"]
            lines.append(f"{sign}{at + 1:4}  {it.task}.{it.number} {it.unit} posted {code}")
        more = len(recording) - len(shown)
        return lines + ([f" and {more} more"] if more else [])

    # What is shown and watched.

    def _list(self, rest: str) -> List[str]:
        no_operand(rest)
        return self.views.program(self.walk)

    def _help(self, rest: str) -> List[str]:
        no_operand(rest)
        return help_lines()

    def _show(self, rest: str) -> List[str]:
        what, _, operands = rest.partition(" ")
        if what == "storage":
            return self._storage(operands.strip())
        if what == "medium":
            return self.views.medium(self.walk, self._track(operands.split()))
        if what == "status":
            walk = self.walk
            last = self.views.step(walk, walk.step) if walk.step else []
            return [*last, self.views.position(walk)]
        near = meant(what, ("storage", "medium", "status")) if what else None
        instead = f"; did you mean '{near}'?" if near else ""
        raise Unknown(f"show what? storage, medium or status{instead}")

    def _storage(self, place: str) -> List[str]:
        storage = self.walk.storage
        if not place:
            it = Range(storage.base, storage.end - storage.base, "")
        elif "," in place:
            it = range_in(place, self.walk)
        else:
            left = storage.end - address_in(place, self.walk)
            it = range_in(place, self.walk, max(1, min(_BYTES, left)))
        return list(self.views.storage(self.walk, it.address, it.length))

    def _track(self, words: Sequence[str]) -> Optional[int]:
        """The number of the track that is named, if one is. Raises Unknown."""
        if not words:
            return None
        disk = self.walk.medium
        if not isinstance(disk, DiskState):
            raise Unknown("only a disk has tracks")
        if len(words) != 2 or not all(it.isdecimal() for it in words):
            raise Unknown("expected show medium CYLINDER HEAD")
        cylinder, head = map(int, words)
        track = cylinder * disk.heads + head
        if head >= disk.heads or track >= len(disk.tracks):
            raise Unknown(f"the disk has no track {cylinder} {head}")
        return track

    # Changes of the job.

    def _set(self, rest: str) -> List[str]:
        name, _, text = rest.partition(" ")
        if not text.strip():
            raise Unknown("expected set LABEL OPERANDS, or set LINE TEXT")
        before = self.edition.text
        try:
            changed = self._changed(name, text.strip())
            walk = self.edition.walk()
        except Unknown:
            self.edition.take_back(before)
            raise
        lines = [f"line {changed.number} was {changed.before}"]
        lines.append(f"{' ' * len(f'line {changed.number}')} is  {changed.after}")
        return lines + self._begin(walk)

    def _changed(self, name: str, text: str) -> ChangedLine:
        if name.isdecimal():
            return self.edition.set_line(int(name), text)
        source = self.walk.job.area_source(self.walk.request.name)
        labels = labels_of(self.walk)
        address = labels.get(name)
        if source is None or address is None:
            address_in(name, self.walk)
            raise Unknown(f"{name} is no label: expected set LABEL OPERANDS, or set LINE TEXT")
        lines = [line for line, at in source.statements().items() if at == address]
        if not lines:
            raise Unknown(f"{name} names no statement: set LINE TEXT changes a line")
        # a statement without bytes has the address of the next one
        line = next((it for it in lines if self.edition.has_label(it, name)), lines[0])
        return self.edition.set_operands(line, text, labels)

    def _begin(self, walk: Walk) -> List[str]:
        """Begins anew with another run, at the request at hand."""
        name = self.walk.request.name
        self.travel.walk = walk
        requests = enumerate(walk.recording.requests())
        at = next((at for at, it in requests if it.name == name), 0)
        walk.go_to(at, 0)
        return [f"the job ran again: {_ends(walk)}", self.views.position(walk)]

    def _save(self, rest: str) -> List[str]:
        return [f"wrote {self.edition.save(rest or None)}"]

    def _again(self, rest: str) -> List[str]:
        no_operand(rest)
        if not self.edition.is_saved:
            raise Unknown("the job is changed and not saved: save it before it is read again")
        return self._begin(self.edition.read_again())


def start_lines(session: Session) -> List[str]:
    """The lines at the start of a session."""
    walk = session.walk
    return [f"{_ends(walk)}; help lists the words", session.views.position(walk)]


def _ends(walk: Walk) -> str:
    """How many posts a run has, and how many of them are errors."""
    recording = walk.recording
    bad = sum(is_error(recording.ending(it)) for it in recording.requests())
    posts = counted(len(recording), "post")
    return f"{posts}, {bad} with an error" if bad else f"{posts}, none with an error"
