"""Changed scripts, and how many outcomes their requests have."""

from __future__ import annotations

import re
from dataclasses import dataclass
from typing import Dict, List, Optional, Sequence, Tuple

from ..script.reading import lines_of
from .job import NumberedJob
from .search import Found, Search

# The most states of the searches of changed scripts, for all requests together; and how many bytes
# of a script, and of what a search keeps, as copies of media, count as much as a state.
_MOST_STATES = 100_000
_TEXT_BYTES, _KEPT_BYTES = 8, 8192

# What is done to a line, in the order in which it is done: a wait of a task comes before it, a task
# does its command, it is left out.
WAIT, BY, WITHOUT = "wait", "by", "without"

# A command up to its task, and its task.
_TASK = re.compile(r"( *[^ ]+ +)[^ ]+")


@dataclass(frozen=True)
class Edit:
    """A change of the line with this number; the task, if it has one."""

    line: int
    change: str
    task: int = 0


@dataclass(frozen=True)
class Measure:
    """What the request of a line has: how many outcomes, and whether it ends without error in
    one."""

    line: int
    outcomes: int
    may_end_well: bool


Measures = Sequence[Measure]


def measures(job: NumberedJob, found: Found, origins: Optional[Sequence[int]] = None) -> Measures:
    """What the requests of a job have, in the order of their lines, which are those that it had
    before it was changed."""
    each = []
    for request, outcomes in zip(job.requests, found.outcomes):
        line = request.line if origins is None else origins[request.line - 1]
        may_end_well = any(it.code == "7F" for it in outcomes)
        each.append(Measure(line, len(outcomes), may_end_well))
    return sorted(each, key=lambda it: it.line)


def outcomes_at(of_all: Measures, line: int) -> int:
    """How many outcomes the request of a line has."""
    return next((it.outcomes for it in of_all if it.line == line), 0)


def total(of_all: Measures) -> int:
    return sum(it.outcomes for it in of_all)


def is_no_worse(new: Measures, old: Measures, line: int) -> bool:
    """Whether a change is no harm: the request of a line has no more outcomes, all have no more
    together, and each that could end without error still can."""
    keeps_ends = all(
        now.line == before.line and (now.may_end_well or not before.may_end_well)
        for now, before in zip(new, old)
    )
    is_fewer = outcomes_at(new, line) <= outcomes_at(old, line) and total(new) <= total(old)
    return keeps_ends and is_fewer


class Trials:
    """Searches of changed scripts, for as long as they have states left."""

    def __init__(self, search: Search, job: NumberedJob, states: int = _MOST_STATES) -> None:
        self._search, self._lines, self._left = search, lines_of(job.script), states
        # whether no search has run out of memory
        self.has_memory = True

    def may_go_on(self) -> bool:
        """Whether another search may be made."""
        return self._left > 0

    def of_job(self, job: NumberedJob) -> Trials:
        """Searches of another job in place of these, with the states that are left."""
        return Trials(self._search, job, self._left)

    def of_edits(self, edits: Sequence[Edit]) -> Optional[Measures]:
        """What the requests have with these edits, if the search comes to its end."""
        if not self.may_go_on():
            return None
        lines, origins = edited(self._lines, edits)
        text = text_of(lines)
        found = self._search.of_changed(text, self._left)
        if found is None:
            self.has_memory, self._left = False, 0
            return None
        cost = found.states + len(text) // _TEXT_BYTES + found.bytes // _KEPT_BYTES
        self._left = max(0, self._left - cost)
        return measures(NumberedJob(text), found, origins) if found.is_complete else None


def edited(lines: Sequence[str], edits: Sequence[Edit]) -> Tuple[Sequence[str], Sequence[int]]:
    """Lines with edits, and of each the number that it had before, or 0."""
    new: List[str] = []
    origins: List[int] = []
    by_line: Dict[int, List[Edit]] = {}
    for edit in edits:
        by_line.setdefault(edit.line, []).append(edit)
    for number, line in enumerate(lines, 1):
        of_line = by_line.get(number, [])
        end = "\r" if line.endswith("\r") else ""
        waits = [f"wait {it.task}{end}" for it in of_line if it.change == WAIT]
        for edit in of_line:
            if edit.change == BY:
                line = _TASK.sub(rf"\g<1>{edit.task}", line, count=1)
        is_left_out = any(it.change == WITHOUT for it in of_line)
        new += [*waits, "" if is_left_out else line]
        origins += [*(0 for _ in waits), number]
    return new, origins


def text_of(lines: Sequence[str]) -> bytes:
    """The text with these lines, as `lines_of` has them."""
    return "\n".join(lines).encode("latin-1")
