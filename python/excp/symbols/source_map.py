"""Where a job in symbols has what a report names by addresses: the labels and the lines of each
area, and the area of each request."""

from __future__ import annotations

from bisect import bisect_right
from collections import defaultdict
from functools import cached_property
from typing import Mapping, NamedTuple, Optional, Sequence

from ..script.grammar import Excp
from ..script.reading import Refused, Text, lines_of, read_script_line
from .assembled import AreaLayout, Assembled
from .words import BLANKS, before_comment

_Names = Sequence[tuple[int, int, str]]


class RequestSource(NamedTuple):
    """Where a job issues a request: the line, and the number of the area."""

    line: int
    area: int


class AreaSource:
    """An area of a job: its number, the line that opens it, and its first address."""

    def __init__(self, number: int, layout: AreaLayout) -> None:
        self.number, self.opening_line, self.base = number, layout.line, layout.base
        self._layout = layout

    def label(self, address: int) -> Optional[str]:
        """The first label that an address has."""
        name = self.operand(address)
        return name if name is not None and "+" not in name else None

    def operand(self, address: int) -> Optional[str]:
        """An address as an operand: a label, or `LABEL+N` within the statement of a label. It is
        that of the last label before it, and of equal ones the first that is defined."""
        before = bisect_right(self._addresses, address)
        for start, length, name in reversed(self._names[:before]):
            if start == address:
                return name
            if address < start + length:
                return f"{name}+{address - start}"
        return None

    @cached_property
    def _addresses(self) -> Sequence[int]:
        return [address for address, _, _ in self._names]

    @cached_property
    def _names(self) -> _Names:
        """The address, the length and the name of each label, by addresses. Of labels with one
        address the first is the last one."""
        labels = [(it.address, it.length or 0, name) for name, it in self._layout.labels.items()]
        return sorted(reversed(labels), key=lambda it: it[0])

    def labels(self) -> Mapping[str, int]:
        """The labels with their addresses, in the order in which they are defined."""
        return {name: it.address for name, it in self._layout.labels.items()}

    def length(self, label: str) -> Optional[int]:
        """The number of bytes of the statement with a label; none if it is alone on its line."""
        found = self._layout.labels.get(label)
        return None if found is None else found.length

    def statements(self) -> Mapping[int, int]:
        """The address of the statement of each line, in the order of the lines; none of a plain
        area."""
        return self._layout.statements

    def line(self, address: int) -> Optional[int]:
        """The line of the statement that has set the byte at an address, if one has."""
        offset, setters = address - self.base, self._layout.setters
        setter = setters[offset] if 0 <= offset < len(setters) else None
        return setter.line if setter is not None else None


class SourceMap:
    """A job in symbols: its lines as they are written, its areas by their numbers, and where each
    task issues its requests to each unit, in their order.

    Request N of a task to a unit is the Nth `excp` line of both. In a scenario this holds if no
    `excp` was answered `Full` or `NoNumber`.
    """

    def __init__(self, job: bytes, assembled: Assembled) -> None:
        self.lines = job.decode("utf-8", "replace").split("\n")
        self.areas = [AreaSource(*it) for it in enumerate(assembled.areas)]
        self.requests = _requests(assembled.script)

    def request(self, task: int, unit: int, number: int) -> Optional[RequestSource]:
        """Where the job issues a request."""
        requests = self.requests.get((task, unit), ())
        return requests[number - 1] if 0 < number <= len(requests) else None

    def area_of(self, task: int, unit: int, number: int) -> Optional[AreaSource]:
        """The area that a request has a copy of."""
        request = self.request(task, unit, number)
        if request is None or request.area >= len(self.areas):
            return None
        return self.areas[request.area]

    def statement(self, line: int) -> str:
        """What a line says, without its comment and the blanks at its end."""
        return before_comment(self.lines[line - 1]).rstrip(f"{BLANKS}\r")


def source_map(assembled: Assembled) -> Optional[SourceMap]:
    """The map of a job in symbols without mistakes; a plain script has none."""
    return None if assembled.job is None else SourceMap(assembled.job, assembled)


def _requests(script: bytes) -> Mapping[tuple[int, int], Sequence[RequestSource]]:
    """The requests of a plain script, by task and unit. Lines with faults are none."""
    requests: defaultdict[tuple[int, int], list[RequestSource]] = defaultdict(list)
    for number, line in enumerate(lines_of(script), 1):
        text = Text(line)
        if text.first == "excp":
            try:
                said = read_script_line(number, text)
            except Refused:
                continue
            if isinstance(said, Excp):
                requests[said.task, said.unit].append(RequestSource(number, said.area))
    return requests
