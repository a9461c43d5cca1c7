"""The states of a run as JSON for a page: of each request its storage before it, and of each step
what it has set there and how the medium looks after it."""

from __future__ import annotations

import json
from collections import Counter
from typing import Dict, List, Mapping, Sequence, Tuple

from ..reporting.look import Look
from ..reporting.record import Record, members
from ..symbols import Assembled
from .job import Job
from .recording import read_recording
from .views import Views, labels_at
from .walk import Differs, Walk

# The most steps of a request whose states a page has, and about the most characters of the JSON.
_MOST_STEPS, _MOST_JSON = 200, 1 << 19


def states_json(lines: Sequence[str], script: Assembled) -> str:
    """The states of a run of a script whose media are those of its lines, by its record; null if
    the page has none. Raises NotKept."""
    recording, job = read_recording(Record(lines)), Job(script, {})
    # an `excp` of a scenario may be answered without a number
    if not len(recording) or _issued(lines) != job.counts():
        return "null"
    try:
        return _States(Walk(recording, job)).text()
    except (Differs, LookupError):
        return "null"


def _issued(lines: Sequence[str]) -> Mapping[Tuple[int, int], int]:
    """How many requests each task issued to each unit, by the lines of a record."""
    issued = (members(line) for line in lines if line.startswith('{"what":"issued"'))
    return Counter((it["task"], it["unit"]) for it in issued)


class _States:
    def __init__(self, walk: Walk) -> None:
        self._walk, self._views = walk, Views(Look())
        # each different area and look of a medium once, by its JSON
        self._areas: Dict[str, int] = {}
        self._media: Dict[str, int] = {}
        self._requests: List[str] = []
        self._length = 0

    def text(self) -> str:
        """The JSON of as many requests as a page has."""
        while self._length <= _MOST_JSON:
            if self._walk.request.commands <= _MOST_STEPS:
                self._add_request()
            if not self._walk.next_request():
                break
        lists = {"areas": self._areas, "media": self._media}
        named = (f'"{name}":[{",".join(texts)}]' for name, texts in lists.items())
        return f'{{{",".join(named)},"requests":{{{",".join(self._requests)}}}}}'

    def _add_request(self) -> None:
        request, area = self._walk.request, self._number(self._areas, self._area())
        steps = [self._state()]
        while self._walk.forward():
            steps.append(self._state())
        name = f"{request.task}-{request.unit}-{request.number}"
        text = f'\n"{name}":{{"area":{area},"steps":[{",".join(steps)}]}}'
        self._length += len(text)
        self._requests.append(text)

    def _area(self) -> str:
        storage = self._walk.storage
        data = storage.first_at(storage.base, storage.end - storage.base).hex().upper()
        labels = {f"{at:06X}": " ".join(it) for at, it in labels_at(self._walk).items()}
        return json.dumps({"base": f"{storage.base:06X}", "bytes": data, "labels": labels})

    def _state(self) -> str:
        """What the last step was, where the program is, what the step has set, and the medium."""
        walk, views = self._walk, self._views
        step = views.step(walk, walk.step)[0] if walk.step else ""
        storage = walk.storage
        changed = [
            [f"{it.address:06X}", storage.bytes_at(it.address, len(it.before)).hex().upper()]
            for it in walk.changed()
        ]
        medium = self._number(self._media, json.dumps(views.medium(walk)))
        return json.dumps([step, views.position(walk), changed, medium], separators=(",", ":"))

    def _number(self, texts: Dict[str, int], text: str) -> int:
        if text not in texts:
            self._length += len(text)
        return texts.setdefault(text, len(texts))
