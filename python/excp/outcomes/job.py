"""A job whose requests are numbered, as the search numbers them."""

from __future__ import annotations

from dataclasses import dataclass
from functools import cached_property
from typing import Dict, List, Mapping, Optional, Sequence, Tuple

from ..script.grammar import CommandOfDcb, Excp, Purge, PurgeTaskAt
from ..stepping.schedule import Job, Step

# The commands that may halt a program, and the mode in which they do.
_PURGES, _HALT = (Purge, PurgeTaskAt), "halt"


@dataclass(frozen=True)
class Request:
    """A request: its place among all, by tasks and then as its task issues them; and its number
    among those of its task to its unit."""

    place: int
    task: int
    unit: int
    number: int
    dcb: int
    line: int

    @property
    def name(self) -> str:
        """As its post has it."""
        return f"{self.task} {self.unit} {self.number}"

    def is_covered_by(self, step: Step) -> bool:
        """Whether a command is a purge, a close or a reset of it."""
        says = step.says
        if isinstance(says, PurgeTaskAt):
            return (says.unit, says.other) == (self.unit, self.task)
        if isinstance(says, CommandOfDcb) and not isinstance(says, Excp):
            return (says.unit, says.dcb) == (self.unit, self.dcb)
        return False


class NumberedJob:
    """A plain script without a fault, and its requests."""

    def __init__(self, script: bytes) -> None:
        self.script = script
        self.steps = Job(script)
        self.requests: List[Request] = []
        counts: Dict[Tuple[int, int], int] = {}
        for task, commands in enumerate(self.steps.commands):
            for step in commands:
                says = step.says
                if isinstance(says, Excp):
                    number = counts[task, says.unit] = counts.get((task, says.unit), 0) + 1
                    place = len(self.requests)
                    request = Request(place, task, says.unit, number, says.dcb, says.line)
                    self.requests.append(request)

    @property
    def tasks(self) -> Sequence[Sequence[Step]]:
        """The commands of each task."""
        return self.steps.commands

    @cached_property
    def by_name(self) -> Mapping[str, Request]:
        return {it.name: it for it in self.requests}

    @cached_property
    def in_order(self) -> Sequence[Request]:
        """The requests in the order in which a run prints their posts."""
        return sorted(self.requests, key=lambda it: (it.task, it.unit, it.number))

    @cached_property
    def has_halt(self) -> bool:
        """Whether a purge may halt a program. Only then the length of turns counts."""
        steps = (step for steps in self.tasks for step in steps)
        return any(isinstance(it.says, _PURGES) and it.says.mode == _HALT for it in steps)

    def task_of_line(self, line: int) -> Optional[int]:
        """The task that does the command of a line."""
        for task, commands in enumerate(self.tasks):
            if any(step.says.line == line for step in commands):
                return task
        return None
