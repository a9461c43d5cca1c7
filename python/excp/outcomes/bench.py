"""Steps that are carried out from the beginning of a job, each time on a site of its own.

A post is printed only if steps gave it: what the search proposes, the library carries out, so each
outcome is lawful. Fifty steps cost a millisecond.
"""

from __future__ import annotations

import functools
from dataclasses import dataclass
from typing import Any, Callable, Iterable, List, Mapping, Optional, Sequence, Tuple

from ..script.grammar import Excp
from ..stepping.answers import UNCHANGED, Stage
from ..stepping.mounted import mounted_site
from ..stepping.past import Past
from ..stepping.schedule import WAIT
from .job import NumberedJob, Request
from .media import Medium, medium_of
from .search import Outcome

# What a command of a task answers that cannot be made.
_NOT_MADE = "Full", "NoNumber", "NoSuchDcb"

# The step of a task that does its next command, and that of one that collects.
TASK, COLLECT = "task", "collect"


@dataclass(frozen=True)
class Witness:
    """Steps that were made, and the lines of the posts that they collected; the last is that of the
    request, if they lead to one."""

    steps: Sequence[str]
    posts: Sequence[str]


class Bench:
    """A job before its first step."""

    def __init__(self, job: NumberedJob, images: Mapping[int, bytes]) -> None:
        self.job, self.images = job, images
        self._rooms = job.steps.rooms()

    def stage(self) -> Stage:
        """A new site of the job."""
        set_up = self.job.steps.set_up
        site = mounted_site(set_up, self._rooms, self.images)
        return Stage(site, set_up, Past(set_up.tasks, site.units, keeps_all=False))

    def witness(
        self, steps: Sequence[str], request: Request, outcome: Outcome
    ) -> Optional[Witness]:
        """What steps lead to, up to the post of a request, if it is this outcome. Before a wait
        that cannot go on yet, posts are delivered and collected, and so is that post at the end."""
        with _Rerun(self, request.name) as run:
            run.all(steps)
            is_it = run.has_target and run.posts[-1].split(" ", 4)[4] == outcome.text
            return run.witness() if is_it else None

    def whole(self, steps: Sequence[str]) -> Optional[Witness]:
        """What steps lead to, up to the posts of all requests, if all comes to its end."""
        with _Rerun(self, None) as run:
            is_over = run.all(steps) and run.is_over()
            return run.witness() if is_over else None

    def medium(self, steps: Sequence[str], unit: int) -> Optional[Tuple[Witness, Medium]]:
        """As `whole`, with the medium that a unit has then."""
        with _Rerun(self, None) as run:
            is_over = run.all(steps) and run.is_over()
            return (run.witness(), medium_of(run.record(unit))) if is_over else None


class _Reached(Exception):
    """The post of the target was collected."""


class _Rerun:
    """A run in the making: the steps that were made, and the lines of the posts, in order."""

    def __init__(self, bench: Bench, target: Optional[str]) -> None:
        self._job, self._target = bench.job, target
        self._stage = bench.stage()
        self.steps: List[str] = []
        self.posts: List[str] = []
        self.has_target = False
        tasks = len(bench.job.tasks)
        self._done, self._awaited = [0] * tasks, [0] * tasks

    def __enter__(self) -> _Rerun:
        return self

    def __exit__(self, *_: Any) -> None:
        self._stage.site.close()

    def witness(self) -> Witness:
        return Witness(self.steps, self.posts)

    def all(self, steps: Iterable[str]) -> bool:
        """Makes steps, and then delivers and collects: up to the post of the target, or all posts.
        Returns whether each step could be made."""
        try:
            if not all(map(self._make, steps)):
                return False
            self._collect_all() if self._target is None else self._collect_target(self._target)
        except _Reached:
            self.has_target = True
        return True

    def is_over(self) -> bool:
        """Whether each task has done all and collected all, and nothing is left at a unit."""
        tasks, units = self._job.tasks, self._stage.site.units
        is_done = all(len(it) == done for it, done in zip(tasks, self._done))
        return is_done and not any(self._awaited) and all(it.is_drained for it in units)

    def record(self, unit: int) -> str:
        """What happened at a unit, and its medium."""
        return self._stage.site.units[unit].record()

    def _make(self, step: str) -> bool:
        """Makes a step. A wait is made once its task has collected its posts."""
        if self._once(step):
            return True
        if self._is_wait(step):
            self._collect_all()
            return self._once(step)
        return False

    def _once(self, step: str) -> bool:
        """Makes a step if it can be made now."""
        verb, *numbers = _parsed(step)
        make: Callable[..., bool] = _MAKERS.get(verb, _Rerun._of_unit)
        is_made = make(self, verb, *numbers)
        if is_made:
            self.steps.append(step)
            if verb == COLLECT and self._is_target(self.posts[-1]):
                raise _Reached
        return is_made

    def _is_target(self, post: str) -> bool:
        return self._target is not None and post.startswith(f"post {self._target} ")

    def _is_wait(self, step: str) -> bool:
        verb, number = step.split()[:2]
        if verb != TASK:
            return False
        commands, done = self._job.tasks[int(number)], self._done[int(number)]
        return done < len(commands) and commands[done].verb == WAIT

    def _of_unit(self, verb: str, number: int, *most: int) -> bool:
        answer = self._stage.site.calls.plain_event(verb, number, *most)
        return answer.kind not in UNCHANGED

    def _of_task(self, _: str, task: int) -> bool:
        """Does the next command of a task. Of a DCB that is closed a reset is passed over."""
        commands, done = self._job.tasks[task], self._done[task]
        if done == len(commands):
            return False
        step = commands[done]
        if step.verb == WAIT:
            is_made = not self._awaited[task]
        else:
            answer = self._stage.answer(step.verb, step.says)[0]
            is_made = answer not in _NOT_MADE or step.verb == "reset"
        self._done[task] += is_made
        self._awaited[task] += is_made and isinstance(step.says, Excp)
        return is_made

    def _collect(self, _: str, task: int) -> bool:
        post = self._stage.site.next_post(task)
        if post is None:
            return False
        self._awaited[task] -= 1
        self.posts.append(self._stage.past.leave(post))
        return True

    def _collect_all(self) -> None:
        for unit in range(len(self._stage.site.units)):
            self._repeat(f"deliver {unit}")
        for task in range(len(self._job.tasks)):
            self._repeat(f"{COLLECT} {task}")

    def _collect_target(self, name: str) -> None:
        task, unit, _ = name.split()
        self._repeat(f"deliver {unit}")
        self._repeat(f"{COLLECT} {task}")

    def _repeat(self, step: str) -> None:
        while self._once(step):
            pass


_MAKERS: Mapping[str, Callable[..., bool]] = {TASK: _Rerun._of_task, COLLECT: _Rerun._collect}


@functools.lru_cache(maxsize=None)
def _parsed(step: str) -> Sequence[Any]:
    """The first word of a step, and its numbers."""
    verb, *numbers = step.split()
    return verb, *map(int, numbers)
