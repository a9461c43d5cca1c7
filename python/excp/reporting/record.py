"""The lines of a record, which says what happened in a run: each is one object of JSON, with its
members in a fixed order (docs/REPORT.md)."""

from __future__ import annotations

import json
import re
from enum import Enum
from typing import Any, Dict, Iterable, Iterator, Mapping, Match, Optional

from ..device_status import NORMAL_END

Members = Dict[str, Any]

# The status with which a command ends well: that of a normal end, or of an equal search.
_WELL = NORMAL_END | 0x4000

# The completion code of a request whose program ended well.
_WELL_POSTED = "7F"


class Part(Enum):
    """How much of a record is wanted: the posts alone, all but the commands, or all."""

    POSTS = "posts"
    EVENTS = "events"
    STEPS = "steps"


# What the events of a unit are, and which of them a task makes.
CONTROLS = frozenset(("purge", "closed", "reset"))
EVENTS = CONTROLS | {"opened", "arrived", "started", "ran", "halted", "posted"}

# What the events of a task are.
TASK_EVENTS = frozenset(("issued", "waited", "collected", "controlled"))

# How a line names a request.
_NAMED = re.compile(r'"task":(\d+),"request":(\d+)')

_WHAT = re.compile(r'\{(?:"at":\d+,)?(?:"entry":\d+,)?"what":"([a-z_]+)"')

_DECODER = json.JSONDecoder()


def members(text: str) -> Members:
    """The members of the object of JSON with which a text begins."""
    found: Members = _DECODER.raw_decode(text)[0]
    return found


def renumbered(lines: str, earlier: Mapping[int, int]) -> str:
    """A record whose requests count on from how many the task had earlier."""

    def named(found: Match[str]) -> str:
        task, number = map(int, found.groups())
        return f'"task":{task},"request":{number + earlier.get(task, 0)}'

    return _NAMED.sub(named, lines)


def has_failed(step: Members) -> bool:
    """Whether the command of a step is an error."""
    return "rule" in step or bool(int(step["status"], 16) & ~_WELL)


def is_error(post: Members) -> bool:
    """Whether a post is one of a request whose program did not end well."""
    return bool(post["code"] != _WELL_POSTED)


class Record:
    """The lines of a record, which are taken one after another. Raises ValueError if one is none.

    `what` says what the next line is about; it is None after the last one. A line without a line
    feed, which a program left unfinished, is none.
    """

    def __init__(self, lines: Iterable[str]) -> None:
        self._lines = iter(lines)
        self._next = ""
        self.what: Optional[str] = None
        self.take()

    def take(self) -> str:
        """Takes the next line, without its line feed."""
        taken = self._next
        self._next = next(self._lines, "")
        if not self._next.endswith("\n"):
            self.what = None
            # the source of the lines may raise the reason for their end
            next(self._lines, None)
        elif found := _WHAT.match(self._next):
            self.what = found[1]
        else:
            raise ValueError("a line that is not of a record")
        return taken[:-1]

    def all_of(self, *whats: str) -> Iterator[str]:
        """Takes the lines up to the first that is about something else."""
        while self.what in whats:
            yield self.take()
