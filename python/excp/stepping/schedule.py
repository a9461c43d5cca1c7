"""A script, carried out step by step as a seed chooses, with the steps as the lines of a scenario
that has the same posts."""

from __future__ import annotations

from collections import Counter
from typing import Any, Iterator, List, Mapping, NamedTuple, Optional, Sequence

from ..library import UnitState
from ..script.grammar import (
    Collect, Command, Excp, PurgeTask, PurgeTaskAt, Run, StepOfUnit, Wait,
)
from ..script.reading import Text, lines_of, read_script_line
from ..script.set_up import SetUp
from ..unit import Unit
from ..values import Active
from .answers import Stage
from .chooser import Chooser
from .mounted import Rooms, mounted_site
from .past import Past

# The most commands that a program does in one step, unless said otherwise (profile).
TURN = 64

# The most requests that a unit holds.
_MOST_HELD = 65_536

_OF_ACTIVE = {Active.RUNNING: "run", Active.PENDING: "interrupt", Active.AWAITS_RESTART: "start"}

WAIT = "wait"


class Step(NamedTuple):
    """A step: its line in a scenario, with its first word and what it says; and the task whose
    command it is, if it is one."""

    verb: str
    says: Any
    text: str
    task: Optional[int] = None


class Job:
    """A plain script without a fault: what it declares, also as text, and the steps of the commands
    of each task. A purge of a task is one at each unit."""

    def __init__(self, script: bytes) -> None:
        self.set_up, self.set_up_text = SetUp(), ""
        commands: List[Step] = []
        for number, line in enumerate(lines_of(script), 1):
            text = Text(line)
            says = read_script_line(number, text)
            if isinstance(says, Command):
                commands += self._steps(text, says)
            elif says is not None:
                self.set_up.add(says, text)
            if not commands:
                self.set_up_text += f"{line}\n"
        if not commands:
            # after the last line feed comes an empty line
            self.set_up_text = self.set_up_text.removesuffix("\n" if script.endswith(b"\n") else "")
        self.commands: List[List[Step]] = [[] for _ in range(self.set_up.tasks)]
        for step in commands:
            self.commands[step.says.task].append(step)

    def _steps(self, text: Text, says: Command) -> Iterator[Step]:
        task = says.task
        if isinstance(says, Wait):
            yield Step(WAIT, says, f"# {text.line}", task)
        elif isinstance(says, PurgeTask):
            for unit in range(len(self.set_up.units)):
                at = PurgeTaskAt(says.line, task, says.other, says.mode, unit)
                line = f"purgetaskat {task} {says.other} {says.mode} {unit}"
                yield Step("purgetaskat", at, line, task)
        else:
            yield Step(text.first, says, text.line, task)

    def rooms(self) -> Rooms:
        """Rooms for all requests of the job."""
        of_tasks = [
            [it.says for it in steps if isinstance(it.says, Excp)] for steps in self.commands
        ]
        to_units = Counter(it.unit for excps in of_tasks for it in excps)
        units = len(self.set_up.units)
        held = min(max([1, *to_units.values()]), _MOST_HELD)
        return Rooms(
            post=max([1, *map(len, of_tasks)]),
            in_flight=[max(1, to_units[it]) for it in range(units)],
            held=[held] * units,
        )


class Schedule:
    """A run of a job by the schedule of a seed."""

    def __init__(
        self,
        job: Job,
        seed: int,
        images: Mapping[int, bytes],
        keeps_lines: bool,
        turn: int = TURN,
    ) -> None:
        site = mounted_site(job.set_up, job.rooms(), images)
        past = Past(job.set_up.tasks, site.units, keeps_all=True)
        self.stage = Stage(site, job.set_up, past)
        self._job, self._chooser, self._keeps_lines = job, Chooser(seed), keeps_lines
        tasks = range(job.set_up.tasks)
        self._lines = [job.set_up_text]
        self._done, self._awaited, self._delivered = ([0 for _ in tasks] for _ in range(3))
        self._events = [_events_of(it.number, turn) for it in site.units]
        # the steps that each task and each unit can do now
        self._of_tasks = [self._steps_of_task(it) for it in tasks]
        self._of_units = [self._steps_of_unit(it) for it in site.units]
        for task in tasks:
            self._note_wait(task)

    def run(self) -> None:
        """Makes steps until none is left."""
        while steps := [it for those in (*self._of_tasks, *self._of_units) for it in those]:
            self._make(self._chooser.choose(steps, lambda it: it.task is not None))

    def scenario(self) -> str:
        """The steps that were made as a scenario."""
        return "".join(self._lines)

    def _make(self, step: Step) -> None:
        if self._keeps_lines:
            self._lines.append(f"{step.text}\n")
        says = step.says
        task = self._counted(step, "" if step.verb == WAIT else self._answer(step))
        if step.task is not None:
            self._note_wait(step.task)
        # after a step, its task and its unit may do something else
        if task is not None:
            self._of_tasks[task] = self._steps_of_task(task)
        if hasattr(says, "unit"):
            self._of_units[says.unit] = self._steps_of_unit(self.stage.site.units[says.unit])

    def _answer(self, step: Step) -> str:
        return self.stage.answer(step.verb, step.says)[0]

    def _counted(self, step: Step, answer: str) -> Optional[int]:
        """The task that goes on after a step, which has answered this."""
        if step.task is not None:
            self._done[step.task] += 1
            self._awaited[step.task] += isinstance(step.says, Excp)
            return step.task
        if step.verb == "collect":
            task: int = step.says.task
            self._awaited[task] -= 1
            self._delivered[task] -= 1
            return task
        if step.verb == "deliver":
            task = int(answer.split()[1])
            self._delivered[task] += 1
            return task
        return None

    def _note_wait(self, task: int) -> None:
        """Notes that a task waits, if that is what it does next."""
        commands, done = self._job.commands[task], self._done[task]
        if done < len(commands) and commands[done].verb == WAIT:
            self.stage.past.do(task, "waited")

    def _steps_of_task(self, task: int) -> Sequence[Step]:
        steps, commands, done = [], self._job.commands[task], self._done[task]
        if done < len(commands) and (commands[done].verb != WAIT or not self._awaited[task]):
            steps.append(commands[done])
        if self._delivered[task]:
            steps.append(Step("collect", Collect(0, task), f"collect {task}"))
        return steps

    def _steps_of_unit(self, unit: Unit) -> Sequence[Step]:
        found = unit.look()
        verbs = ["take"] if found.in_flight else []
        verbs += _verbs_of_active(found)
        if found.out:
            verbs.append("deliver")
        events = self._events[unit.number]
        return [events[it] for it in verbs]


def _verbs_of_active(found: UnitState) -> Sequence[str]:
    """What goes on with the active request of a unit, or starts the next one."""
    if found.active:
        return [_OF_ACTIVE[Active(found.active)]]
    return ["start"] if found.waiting else []


def _events_of(unit: int, turn: int) -> Mapping[str, Step]:
    """The events of a unit by their first words."""
    verbs = "take", "start", "interrupt", "deliver"
    events = {it: Step(it, StepOfUnit(0, unit), f"{it} {unit}") for it in verbs}
    events["run"] = Step("run", Run(0, unit, turn), f"run {unit} {turn}")
    return events
