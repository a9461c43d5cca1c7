"""A report as text: the posts, and of each unit its history and its medium. It is made as the
record comes, and keeps no more than the commands of one entry. It is text of a script, so that its
media can be the set-up of a next job."""

from __future__ import annotations

from typing import Iterator

from .event_lines import event_line
from .look import Look
from .medium_lines import medium_lines
from .post_lines import post_lines
from .record import EVENTS, TASK_EVENTS, Members, Record, members
from .step_lines import LEFT_OUT, StepLines
from .texts import counted

_HISTORY = EVENTS | {"left_out"}


def text_report(record: Record, look: Look) -> Iterator[str]:
    """The lines of a report, with the steps that the record has."""
    yield from post_lines(record, look)
    for _ in record.all_of(*TASK_EVENTS):
        pass
    steps = StepLines(look)
    while record.what == "unit":
        unit = members(record.take())
        yield from _history_lines(record, unit, look, steps)
        if record.what == "medium":
            yield from medium_lines(record, unit, look)


def unit_history(lines: str) -> Iterator[str]:
    """The history of the unit whose record this is, as the library makes it."""
    record = Record(lines.splitlines(keepends=True))
    look = Look()
    return _history_lines(record, members(record.take()), look, StepLines(look))


def _history_lines(
    record: Record, unit: Members, look: Look, steps: StepLines
) -> Iterator[str]:
    """The events of a unit, whose line this is, and after each its commands."""
    number, device = unit["unit"], unit["kind"]
    yield f"# unit {number}: {device}, {counted(unit['entries'], 'entry', 'entries')}\n"
    while record.what in _HISTORY:
        what, line = record.what, record.take()
        if what == "left_out":
            yield LEFT_OUT
            continue
        event = members(line)
        yield event_line(number, event, look)
        if what == "ran" and record.what == "step":
            area = look.area(event["task"], number, event["request"])
            yield from steps.lines(device, record.all_of("step"), area)
