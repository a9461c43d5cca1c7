"""A run as JSON (docs/REPORT.md). Its record is read to the end, and what is printed is kept in
files: only then each event has its column, and posts and lists of steps their place."""

from __future__ import annotations

import re
from itertools import chain
from typing import Iterator

from .json_texts import joined, quoted
from .kept import KeptText
from .order import give_columns
from .post_lines import count_line, post_line
from .record import TASK_EVENTS, Record, members
from .step_lists import StepLists
from .tasks import Tasks
from .unit_json import COLUMN, RunSoFar, unit_json

FORMAT = "excp-run 2"

# What the lines of posts and of the events of tasks have, and their JSON has not.
_POST = '{"what":"post",'
_TASK = re.compile(r',"task":\d+')

# Between the lists of two tasks.
_NEXT_LIST = "],\n["


def json_report(record: Record, title: str, most: int) -> Iterator[str]:
    """The JSON of a run in pieces, with at most `most` commands of each unit. Raises NotKept."""
    if record.what is None:
        return iter(())
    run = RunJson(record, title, most)
    return chain(run.front(), [","], run.back(), ["\n"])


class RunJson:
    """A run as JSON in two parts: the front has the members up to `units`, the back the others; and
    its posts as text. Each is in pieces. Each method raises NotKept."""

    def __init__(self, record: Record, title: str, most: int) -> None:
        self._front, self._posts, self._count = KeptText(), KeptText(), 0
        run = members(record.take())
        tasks, order = run["tasks"], run["order"]
        self._run = RunSoFar(Tasks(tasks), order == "run", most, StepLists())
        for piece in joined(f"\n{{{it[len(_POST) :]}" for it in record.all_of("post")):
            self._posts.add(piece)
            self._count += 1
        head = f'"format":"{FORMAT}","title":{quoted(title)},"tasks":{tasks},"order":"{order}"'
        self._front.add(f'{{{head},\n"task_events":[')
        for piece in _task_lists(record, self._run.tasks, tasks):
            self._front.add(piece)
        self._front.add('],\n"units":[')
        self._add_units(record)
        self._front.add("]")
        if not self._run.has_order:
            give_columns(self._run.units, self._run.tasks)

    def _add_units(self, record: Record) -> None:
        comma = ""
        while record.what == "unit":
            self._front.add(comma)
            for piece in unit_json(record, self._run):
                self._front.add(piece)
            comma = ","

    def front(self) -> Iterator[str]:
        """The members up to `units`, without the last brace."""
        columns = chain.from_iterable(it.columns for it in self._run.units)
        for block in self._front.blocks():
            first, *others = block.split(COLUMN)
            yield first
            for other in others:
                yield f'"column":{next(columns)},{other}'

    def further_r0(self) -> str:
        """A member for a page alone: of each unit the tracks whose first record in the JSON is a
        further record 0."""
        lists = ([list(track) for track in tracks] for tracks in self._run.further_r0)
        return f',\n"further_r0":{list(lists)}'

    def back(self) -> Iterator[str]:
        """The lists of steps and the posts, and the last brace."""
        yield '\n"steps":['
        yield from self._run.lists.texts()
        yield '],\n"posts":['
        yield from self._posts.blocks()
        yield "]}"

    def posts(self) -> Iterator[str]:
        """The posts as lines of text."""
        for line in self._posts.lines():
            if line != "\n":
                yield post_line(members(line))
        yield count_line(self._count)


def _task_lists(record: Record, tasks: Tasks, count: int) -> Iterator[str]:
    """The list of what each of `count` tasks did. Adds it to `tasks`."""
    reached, comma = 0, ""
    yield "\n["
    for line in record.all_of(*TASK_EVENTS):
        event = members(line)
        tasks.add(event)
        if event["task"] > reached:
            yield _NEXT_LIST * (event["task"] - reached)
            reached, comma = event["task"], ""
        yield f"{comma}{_TASK.sub('', line, count=1)}"
        comma = ","
    yield f"{_NEXT_LIST * (count - 1 - reached)}]"
