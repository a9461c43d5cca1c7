"""What makes one outcome of a request that has several: lines that another task does, and waits
before lines. Changes are told only if a search of the changed script finds one outcome."""

from __future__ import annotations

from dataclasses import dataclass
from typing import Iterator, List, Optional, Sequence, Tuple

from ..script.grammar import Wait
from .changes import (
    BY, WAIT, WITHOUT, Edit, Measures, Trials, is_no_worse, outcomes_at, total,
)
from .job import NumberedJob, Request

# The most lines that are tried for one request, and that are named.
_MOST_LINES = 12

_CHANGES = "# its request has one outcome with these changes:\n"
_NO_CHANGE = (
    "# no wait or other task was found that leaves one outcome and keeps each end with 7F\n"
)


@dataclass(frozen=True)
class _Line:
    """A command: its line and its task."""

    line: int
    task: int


def hint(trials: Trials, job: NumberedJob, base: Measures, request: Request) -> str:
    """The lines that race with a request, and the changes that make one outcome of it, if such are
    found. `base` says what the requests have without a change. It is empty if memory ran out, and
    if no more trials may be made."""
    if not trials.may_go_on():
        return ""
    issue = _Line(request.line, request.task)
    found = _racing_first(trials, issue, _others_at_its_unit(job, request))
    if found is None:
        return ""
    others, racing = found
    text = _told_races(issue.line, others, racing)
    changes = _changes_for(trials, base, issue, others)
    if not trials.has_memory:
        return ""
    if changes is not None:
        return "".join([text, _CHANGES, *told_changes(job, changes.edits)])
    return text + (_NO_CHANGE if trials.may_go_on() else "")


def changes_for(
    trials: Trials, job: NumberedJob, base: Measures, request: Request
) -> Optional[Changes]:
    """The changes that make one outcome of a request, as a hint has them."""
    issue = _Line(request.line, request.task)
    found = _racing_first(trials, issue, _others_at_its_unit(job, request))
    return None if found is None else _changes_for(trials, base, issue, found[0])


def _others_at_its_unit(job: NumberedJob, request: Request) -> List[_Line]:
    """The other commands at the unit of a request, in the order of their lines."""
    others = []
    for task, commands in enumerate(job.tasks):
        for step in commands:
            says = step.says
            is_there = not isinstance(says, Wait) and says.unit == request.unit
            if is_there and says.line != request.line:
                others.append(_Line(says.line, task))
    return sorted(others, key=lambda it: it.line)


def _racing_first(
    trials: Trials, issue: _Line, others: List[_Line]
) -> Optional[Tuple[List[_Line], int]]:
    """Other commands, those first that race with a request even if they are alone with it, and how
    many these are. `None`, if no more trials may be made."""
    racing = []
    for other in others:
        if not trials.may_go_on():
            return None
        edits = [Edit(it.line, WITHOUT) for it in others if it != other]
        alone = trials.of_edits(edits)
        if alone is not None and outcomes_at(alone, issue.line) > 1:
            racing.append(other)
    return [*racing, *(it for it in others if it not in racing)], len(racing)


def _changes_for(
    trials: Trials, base: Measures, issue: _Line, others: Sequence[_Line]
) -> Optional[Changes]:
    """The changes that make one outcome of a request, and fewer of all: for one other line after
    the other the first change that is no harm."""
    changes = Changes(issue, base)
    for other in others[:_MOST_LINES]:
        changes.put_in_order(trials, other)
        if changes.is_enough(base):
            return changes
    return None


class Changes:
    """Changes, and what the requests have with them."""

    def __init__(self, issue: _Line, base: Measures) -> None:
        # the request, with the task that issues it now
        self._issue, self.measures = issue, base
        self.edits: Sequence[Edit] = []

    def is_enough(self, base: Measures) -> bool:
        """Whether the request has one outcome, and all have fewer together than at first."""
        is_one = outcomes_at(self.measures, self._issue.line) == 1
        return is_one and total(self.measures) < total(base)

    def put_in_order(self, trials: Trials, other: _Line) -> None:
        """Tries to put another line before or after the request, in one task: that of the request,
        or that of the line."""
        line, task = self._issue.line, self._issue.task
        if other.task == task:
            self._take(trials, other, None, task)
        elif not self._take(trials, other, Edit(other.line, BY, task), task):
            self._take(trials, other, Edit(line, BY, other.task), other.task)

    def _take(self, trials: Trials, other: _Line, change: Optional[Edit], task: int) -> bool:
        """Takes a change, with a wait of this task before the later line, if that is no harm.
        Returns whether it is none."""
        edits = self._with(other, change, task)
        new = trials.of_edits(edits)
        if new is None or not is_no_worse(new, self.measures, self._issue.line):
            return False
        self.edits, self.measures = edits, new
        self._issue = _Line(self._issue.line, task)
        return True

    def _with(self, other: _Line, change: Optional[Edit], task: int) -> Sequence[Edit]:
        edits = list(self.edits)
        wait = Edit(max(self._issue.line, other.line), WAIT, task)
        if change is not None:
            # the task of a line is changed only once
            edits = [it for it in edits if (it.line, it.change) != (change.line, BY)]
        edits += [it for it in (wait, change) if it is not None and it not in edits]
        return sorted(edits, key=lambda it: it.line)


def _told_races(line: int, others: Sequence[_Line], racing: int) -> str:
    """Which lines race with one: the first ones of these, each alone; or all of them together."""
    count, end = (racing, "") if racing else (len(others), " together")
    named = [str(it.line) for it in others[: min(count, _MOST_LINES)]]
    if count == 1:
        lines = f"line {named[0]}"
    elif count <= _MOST_LINES:
        lines = f"lines {', '.join(named[:-1])} and {named[-1]}"
    else:
        lines = f"lines {', '.join(named)} and {count - _MOST_LINES} more"
    return f"# line {line} races with {lines}{end}\n"


def told_changes(job: NumberedJob, edits: Sequence[Edit]) -> Iterator[str]:
    """The changes of a job as comments."""
    for edit in edits:
        if edit.change == WAIT:
            yield f"#   before line {edit.line}: wait {edit.task}\n"
        elif edit.change == BY:
            old = job.task_of_line(edit.line)
            yield f"#   line {edit.line}: task {edit.task} in place of {old}\n"
