"""Witnesses as scenarios, and their steps as comments."""

from __future__ import annotations

from typing import Iterator, Optional, Sequence, Tuple

from ..stepping.schedule import Step
from .bench import COLLECT, TASK, Witness
from .job import NumberedJob, Request


def steps_as_comments(job: NumberedJob, steps: Sequence[str], request: Optional[Request]) -> str:
    """Each step as a comment. If one purge, close or reset among them is of the request, it has a
    mark."""
    lines = list(_lines(job, steps))
    of_it = [
        place
        for place, (_, command) in enumerate(lines)
        if command and request and request.is_covered_by(command)
    ]
    marked = of_it[0] if len(of_it) == 1 else None
    return "".join(
        f"#   {line}{' <-' if place == marked else ''}\n" for place, (line, _) in enumerate(lines)
    )


def scenario_of(job: NumberedJob, witness: Witness) -> bytes:
    """The scenario that runs to the post of a witness, its last one, and expects it."""
    lines = [f"{line}\n" for line, _ in _lines(job, witness.steps)]
    return _text(job, [*lines, f"expect {witness.posts[-1]}\n"])


def scenario_of_all(job: NumberedJob, witness: Witness) -> bytes:
    """The scenario of a whole run, which expects each post where it is collected."""
    posts, lines = iter(witness.posts), []
    for step, (line, _) in zip(witness.steps, _lines(job, witness.steps)):
        lines.append(f"{line}\n")
        if step.startswith(COLLECT):
            lines.append(f"expect {next(posts)}\n")
    return _text(job, lines)


def _text(job: NumberedJob, lines: Sequence[str]) -> bytes:
    return "".join([job.steps.set_up_text, *lines]).encode("latin-1")


def _lines(job: NumberedJob, steps: Sequence[str]) -> Iterator[Tuple[str, Optional[Step]]]:
    """The line of each step in a scenario, with the command of a task that it is, if it is one."""
    commands = [iter(it) for it in job.tasks]
    for step in steps:
        verb, number, *_ = step.split()
        command = next(commands[int(number)]) if verb == TASK else None
        yield (step if command is None else command.text), command
