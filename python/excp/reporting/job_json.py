"""What a script says of its run, as JSON for a page: what was on its media, and its channel
programs. `requests` has of each task the programs of its requests, by their numbers, in order.
"""

from __future__ import annotations

from array import array
from io import BytesIO
from typing import AbstractSet, Dict, Iterator, List, Optional, Union

from ..script.grammar import Area, Block, Disk, Excp, Line, Mark, Printer, Record, Tape
from ..script.reading import Refused, Text, read_script_line
from ..script.set_up import Unit
from ..symbols import Assembled
from ..symbols.source_map import source_map
from .json_texts import joined
from .program_json import Program, program_json

# The first words of the lines that say anything of it.
_WANTED = frozenset("disk tape printer rec block mark area excp".split())


def job_json(script: Optional[Assembled], loaded: AbstractSet[int]) -> Iterator[str]:
    """The JSON of a script, in pieces, some of whose units have their media of images; null if the
    script is not known."""
    return iter(["null"]) if script is None else _Job(script).pieces(loaded)


class _Job:
    def __init__(self, script: Assembled) -> None:
        self._script = script
        self._devices: List[str] = []
        self._areas: List[Area] = []
        self._programs: Dict[Program, int] = {}
        # the numbers of the programs of each task's requests
        self._requests: Dict[int, array[int]] = {}

    def pieces(self, loaded: AbstractSet[int]) -> Iterator[str]:
        """The JSON. The lines are read for the first list, and the others are made of them."""
        source = source_map(self._script)
        yield f'{{"loaded":{sorted(loaded)},\n"content":['
        yield from joined(self._content())
        yield '],\n"programs":['
        yield from joined(program_json(it, self._areas[it.area], source) for it in self._programs)
        yield '],\n"requests":['
        tasks = range(max(self._requests, default=-1) + 1)
        yield from joined(f"\n{self._requests.get(it, array('I')).tolist()}" for it in tasks)
        yield "]}"

    def _content(self) -> Iterator[str]:
        """What is on the media, in the order of the lines. Other lines are noted."""
        for says in _lines(self._script.script):
            if isinstance(says, (Record, Block, Mark)):
                yield _part_of_medium(says)
            elif isinstance(says, (Disk, Tape, Printer)):
                self._devices.append(Unit(says).device)
            elif isinstance(says, Area):
                self._areas.append(says)
            elif isinstance(says, Excp):
                self._note(says)

    def _note(self, excp: Excp) -> None:
        if excp.unit < len(self._devices) and excp.area < len(self._areas):
            program = Program(excp.area, excp.iob, self._devices[excp.unit])
            number = self._programs.setdefault(program, len(self._programs))
            self._requests.setdefault(excp.task, array("I")).append(number)


def _lines(script: bytes) -> Iterator[Line]:
    """What the lines say that are of use. A line with a fault says nothing."""
    for number, line in enumerate(BytesIO(script), 1):
        text = Text(line.decode("latin-1").rstrip("\n"))
        if text.first in _WANTED:
            try:
                says = read_script_line(number, text)
            except Refused:
                continue
            if says is not None:
                yield says


def _part_of_medium(says: Union[Record, Block, Mark]) -> str:
    """A record, a block or a tape mark: a list that begins with the unit."""
    if isinstance(says, Record):
        place = f"{says.cylinder},{says.head},{says.number}"
        return f'\n[{says.unit},{place},"{says.key.hex().upper()}","{says.data.hex().upper()}"]'
    block = f'"{says.data.hex().upper()}"' if isinstance(says, Block) else "null"
    return f"\n[{says.unit},{block}]"
