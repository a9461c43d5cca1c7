"""A job that is changed as hints propose, until each request has one outcome or no hint is left."""

from __future__ import annotations

from dataclasses import dataclass, replace
from typing import Callable, Iterator, List, Optional, Sequence

from ..script.grammar import Excp, Wait
from ..script.reading import lines_of
from .changes import (
    BY, WAIT, Edit, Measures, Trials, edited, measures, outcomes_at, text_of, total,
)
from .hints import Changes, changes_for, told_changes
from .job import NumberedJob
from .search import Found, Search

# The most states of the searches of changed scripts, for all changes together.
_MOST_STATES = 1_000_000

_ALL_DONE = "# each request has one outcome, so no changed job is written\n"
_NOT_ALL = "# not all was found, so no changed job is written\n"
_NO_CHANGE = "# no hint has changes, so no changed job is written\n"
_NO_TIME = "# --most-seconds left no time for changes, so no changed job is written\n"
_NO_STATES = "# the searches for changes ended early, so no changed job is written\n"
_CHANGED = "# the changed job that was written has these changes:\n"
_ONE_EACH = "# with them each request has one outcome\n"


@dataclass(frozen=True)
class _Draft:
    """A job with changes: its plain script, and its lines as they were written, each with the
    number that it had before all changes, or 0; and what its requests have."""

    job: NumberedJob
    lines: Sequence[str]
    origins: Sequence[int]
    measures: Measures

    def changed(self, changes: Changes) -> _Draft:
        """The draft with more changes."""
        script, before = edited(lines_of(self.job.script), changes.edits)
        lines, _ = edited(self.lines, changes.edits)
        now = {line: number for number, line in enumerate(before, 1) if line}
        return _Draft(
            NumberedJob(text_of(script)),
            lines,
            [self.origins[line - 1] if line else 0 for line in before],
            [replace(it, line=now[it.line]) for it in changes.measures],
        )

    def without_idle_waits(self) -> _Draft:
        """The draft without the waits of changes that wait for nothing: other changes moved or
        repeated what they waited for."""
        idle = set(self._idle_waits())
        kept = [line for line in range(1, len(self.lines) + 1) if line not in idle]
        now = {line: number for number, line in enumerate(kept, 1)}
        script = lines_of(self.job.script)
        return _Draft(
            NumberedJob(text_of([script[line - 1] for line in kept])),
            [self.lines[line - 1] for line in kept],
            [self.origins[line - 1] for line in kept],
            [replace(it, line=now[it.line]) for it in self.measures],
        )

    def _idle_waits(self) -> Iterator[int]:
        """The lines of waits of changes whose task has issued nothing since its last wait."""
        for steps in self.job.tasks:
            has_issued = False
            for says in (it.says for it in steps):
                if isinstance(says, Wait):
                    if not has_issued and self.origins[says.line - 1] == 0:
                        yield says.line
                    has_issued = False
                elif isinstance(says, Excp):
                    has_issued = True

    def edits(self, first: NumberedJob) -> Sequence[Edit]:
        """All changes, by the lines of the job before them."""
        edits: List[Edit] = []
        commands = {it.says.line: it.says for steps in self.job.tasks for it in steps}
        waits: List[int] = []
        for number, origin in enumerate(self.origins, 1):
            says = commands.get(number)
            if origin == 0 and says is not None:
                waits.append(says.task)
                continue
            edits += [Edit(origin, WAIT, task) for task in waits]
            waits = []
            if says is not None and says.task != first.task_of_line(origin):
                edits.append(Edit(origin, BY, says.task))
        return edits

    def left(self) -> Sequence[int]:
        """The lines, by their numbers before all changes, whose requests have several outcomes."""
        return [self.origins[it.line - 1] for it in self.measures if it.outcomes > 1]


@dataclass(frozen=True)
class Fixed:
    """The text of a changed job, if there is one, and what is told of it."""

    text: Optional[bytes]
    told: str


def fixed(
    search: Search, job: NumberedJob, text: bytes, found: Found, has_time: Callable[[], bool]
) -> Fixed:
    """A job that was written so, changed as long as hints have changes and there is time."""
    if not found.is_complete:
        return Fixed(None, _NOT_ALL)
    lines = lines_of(text)
    first = draft = _Draft(job, lines, range(1, len(lines) + 1), measures(job, found))
    if not draft.left():
        return Fixed(None, _ALL_DONE)
    trials = Trials(search, job, _MOST_STATES)
    while is_in_time := has_time():
        changes = _changes_of(trials, draft)
        if changes is None:
            break
        draft = draft.changed(changes)
        trials = trials.of_job(draft.job)
    if draft is first and is_in_time:
        return Fixed(None, _NO_CHANGE if trials.may_go_on() else _NO_STATES)
    if draft is first:
        return Fixed(None, _NO_TIME)
    draft = draft.without_idle_waits()
    told = [_CHANGED, *told_changes(job, draft.edits(job)), _told_left(draft.left())]
    return Fixed(text_of(draft.lines), "".join(told))


def _changes_of(trials: Trials, draft: _Draft) -> Optional[Changes]:
    """The changes of the first hint that has some."""
    for request in draft.job.in_order:
        if outcomes_at(draft.measures, request.line) > 1:
            changes = changes_for(trials, draft.job, draft.measures, request)
            if changes is not None and total(changes.measures) < total(draft.measures):
                return changes
    return None


def _told_left(left: Sequence[int]) -> str:
    """Which lines have requests with several outcomes."""
    if not left:
        return _ONE_EACH
    lines = f"line{'' if len(left) == 1 else 's'} {', '.join(map(str, left))}"
    requests = "1 request has" if len(left) == 1 else f"{len(left)} requests have"
    return f"# with them {requests} more than one outcome: {lines}\n"
