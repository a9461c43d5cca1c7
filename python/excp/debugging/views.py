"""What a place in a run looks like: lines on its step, its program, storage and medium."""

from __future__ import annotations

from typing import Iterator, List, Optional, Sequence, Set

from ..device_commands import Op
from ..reporting.event_lines import event_line
from ..reporting.look import Look
from ..reporting.record import Members, members
from ..reporting.step import ccw_names
from ..reporting.step_lines import StepLines
from ..reporting.texts import counted
from ..script.ccw import CCW_BYTES, PlacedCcw
from ..symbols.storage import Storage
from .media import DiskState, PaperState, Part, TapeState, code_of
from .walk import Walk

# What the lines of a report have before a step, and before an event.
_STEP_INDENT, _EVENT_INDENT = len("#         "), len("#     1 ")

# The bytes of a row, in groups, and the most records or items that are shown around a place.
_ROW, _GROUP = 16, 4
_AROUND = 6

# The bytes of a key, a record or an item that a row shows.
_SHOWN = 24

# The records of a track that a search is compared with.
_COMPARED = 24

_SEARCHES = {Op.SIDE: "ID", Op.SKE: "key"}


class Views:
    """Makes lines on a place in a run."""

    def __init__(self, look: Look) -> None:
        self.look = look
        self._steps = StepLines(look)

    # The step that was done, and where the program is.

    def step(self, walk: Walk, number: int) -> List[str]:
        """The lines of a step of the request at hand, from 1."""
        if number > walk.request.commands:
            return [self.posted(walk)]
        area = walk.job.area_source(walk.request.name)
        text = "".join(self._steps.lines(walk.device, [walk.line(number)], area))
        lines = [line[_STEP_INDENT:] for line in text.splitlines()]
        return [f"{f'{number}.':5} {lines[0]}", *(f"      {it}" for it in lines[1:])]

    def posted(self, walk: Walk) -> str:
        """How the request at hand ended."""
        ending = walk.recording.ending(walk.request)
        return event_line(walk.request.unit, ending, self.look)[_EVENT_INDENT:-1]

    def position(self, walk: Walk) -> str:
        """The request at hand, how much of it is done, and its next CCW."""
        done = f"{name_of(walk)}: {walk.step} of {counted(walk.request.commands, 'command')} done"
        if walk.is_posted:
            return f"{name_of(walk)}: posted"
        coming = walk.coming()
        if coming is None:
            return f"{done}, {'the post is next' if walk.request.is_whole else LEFT_OUT}"
        again = f", attempt {walk.attempt}" if walk.attempt > 1 else ""
        return f"{done}{again}, next {self._ccw(walk, walk.next_addresses()[0])}"

    def _ccw(self, walk: Walk, address: int) -> str:
        """A CCW by its address, with its statement or its command."""
        source = self._statement(walk, address)
        if source is not None:
            return f"{address:06X} {' '.join(source.split())}"
        if not walk.storage.has(address, CCW_BYTES):
            return f"{address:06X}"
        return f"{address:06X} {_words(walk, address, False)}"

    def _statement(self, walk: Walk, address: int) -> Optional[str]:
        area, source = walk.job.area_source(walk.request.name), walk.job.source
        line = None if area is None else area.line(address)
        if line is None or source is None:
            return None
        return f"line {line}: {source.statement(line).strip()}"

    def why(self, walk: Walk) -> List[str]:
        """What a search that found nothing looked for, and what its track had; nothing of any
        other step."""
        last = walk.last()
        place = None if last is None else last.get("place", {})
        if last is None or not place or "passed" not in place:
            return []
        found = place.get("keys", place.get("ids", []))
        more = place.get("keys_more", place.get("ids_more", 0)) + len(found[_COMPARED:])
        lines = [*self._looked_for(walk), f"  the track has {'keys' if 'keys' in place else 'IDs'}"]
        lines += [f"    {self._digits(it)}" for it in found[:_COMPARED] if it]
        return lines + ([f"    and {more} more"] if more else [])

    def _looked_for(self, walk: Walk) -> Iterator[str]:
        """The argument of the last search before the step at hand, in storage."""
        for number in range(walk.step, 0, -1):
            step = members(walk.line(number))
            what = _SEARCHES.get(Op(code_of(step))) if _is_search(step) else None
            if what is not None and "moved" in step:
                data = walk.storage.bytes_at(int(step["address"], 16), step["moved"])
                name = _operand(walk, int(step["address"], 16))
                yield f"  it searched for {what} {name}: {self._digits(data.hex().upper())}"
                return

    def _digits(self, digits: str) -> str:
        groups = [digits[at : at + 8] for at in range(0, len(digits), 8)]
        return f"{' '.join(groups) or '-'}{self.look.beside(digits)}"

    def bytes_in_words(self, data: bytes) -> str:
        """Bytes in groups with their text, the first of many."""
        shown = data[:_SHOWN]
        return f"{self._digits(shown.hex().upper())}{' ..' if len(data) > _SHOWN else ''}"

    # The program.

    def program(self, walk: Walk, has_addresses: bool = True) -> List[str]:
        """The statements of the area of a job in symbols, or the CCWs of a plain one. The next CCW
        has a sign."""
        area, source = walk.job.area_source(walk.request.name), walk.job.source
        at = set(walk.next_addresses()[:1])
        if area is None or source is None or not area.statements():
            return list(_plain_program(walk, at))
        return [
            f"{'>' if address in at else ' '}{line:5} "
            f"{f'{address:06X} ' if has_addresses else ''}{source.statement(line)}"
            for line, address in area.statements().items()
        ]

    # Storage.

    def storage(
        self, walk: Walk, address: int, length: int, row: int = _ROW
    ) -> Iterator[str]:
        """Rows of `row` bytes, with a sign if the request has changed any of them, and the labels
        that begin there. Rows of zeros without a label are left out."""
        labels = labels_at(walk)
        is_left_out = False
        for at in range(address, address + length, row):
            count = min(row, address + length - at)
            data, first = walk.storage.bytes_at(at, count), walk.storage.first_at(at, count)
            names = [name for it in range(at, at + count) for name in labels.get(it, ())]
            if not any(data) and data == first and not names and length > row:
                if not is_left_out:
                    yield " ..."
                is_left_out = True
                continue
            is_left_out = False
            sign, text = "*" if data != first else " ", f"{self.look.text(data):{row}}"
            yield f"{sign}{at:06X}  {_row(data, row)} |{text}| {' '.join(names)}".rstrip()

    # The medium.

    def medium(self, walk: Walk, track: Optional[int] = None) -> List[str]:
        """The medium of the unit around its place; of a disk the track of the request, or that
        with a number."""
        medium = walk.medium
        if isinstance(medium, DiskState):
            return list(self._disk(medium, track))
        if isinstance(medium, TapeState):
            return list(self._tape(medium))
        assert isinstance(medium, PaperState)
        return list(self._paper(medium))

    def _disk(self, disk: DiskState, number: Optional[int]) -> Iterator[str]:
        here = disk.head.track if number is None else number
        cylinder, head = divmod(here, disk.heads)
        records = disk.tracks[here] if here < len(disk.tracks) else []
        yield f"cylinder {cylinder} head {head}, {counted(len(records), 'record')}"
        is_here = here == disk.head.track
        at = disk.head.nth if is_here and disk.head.part is not Part.INDEX else -1
        if is_here:
            yield " > at the index point" if at < 0 else f"   after {disk.head.part.value} of >"
        for nth in _around(len(records), max(at, 0)):
            it = records[nth]
            key = f", key {self.bytes_in_words(it.key)}" if it.key else ""
            sign = ">" if nth == at else " "
            yield f" {sign} {it.id.hex().upper()}{key}, data {self.bytes_in_words(it.data)}"

    def _tape(self, tape: TapeState) -> Iterator[str]:
        yield f"the tape is after {tape.before} of {counted(len(tape.items), 'item')}"
        for at in _around(len(tape.items), tape.before):
            if at == tape.before:
                yield " >"
            item = tape.items[at]
            what = "tape mark" if item is None else self.bytes_in_words(item)
            size = "" if item is None else f"{counted(len(item), 'byte')} "
            yield f"   {at + 1:4} {size}{what}"
        if tape.before == len(tape.items):
            yield " >"

    def _paper(self, paper: PaperState) -> Iterator[str]:
        page, line = paper.at
        count = counted(len(paper.lines), "printed line")
        yield f"the paper is at page {page} line {line}, {count}"
        for it in paper.lines[-2 * _AROUND :]:
            yield f"   page {it.page} line {it.line:2} |{self.look.text(it.data)}"


LEFT_OUT = "further commands were not kept; --most-steps N keeps more"


def name_of(walk: Walk) -> str:
    """The request at hand as it is typed."""
    request = walk.request
    return f"request {request.task}.{request.number} {request.unit}"


def labels_at(walk: Walk) -> dict[int, List[str]]:
    """The labels of the area of the request at hand, by their addresses."""
    found: dict[int, List[str]] = {}
    source = walk.job.area_source(walk.request.name)
    for name, address in (source.labels() if source is not None else {}).items():
        found.setdefault(address, []).append(name)
    return found


def _operand(walk: Walk, address: int) -> str:
    source = walk.job.area_source(walk.request.name)
    name = None if source is None else source.operand(address)
    return f"{address:06X}" if name is None else f"{address:06X} {name}"


def _is_search(step: Members) -> bool:
    return bool(step["ccws"]) and code_of(step) in tuple(_SEARCHES)


def _words(walk: Walk, address: int, goes_on: bool) -> str:
    """The command of a CCW in storage, with its flags."""
    image = walk.storage.bytes_at(address, CCW_BYTES)
    if PlacedCcw.of(address, image).is_transfer:
        return f"transfer in channel to {image[1:4].hex().upper()}"
    names = ccw_names(walk.device, image.hex().upper(), goes_on)
    return " ".join([names.words, *names.flags])


def _plain_program(walk: Walk, at: Set[int]) -> Iterator[str]:
    issued = walk.job.issued(walk.request)
    storage = Storage(issued.area.base, issued.area.data)
    for address, goes_on in sorted(storage.add_request(issued.iob, walk.device).items()):
        image = walk.storage.bytes_at(address, CCW_BYTES).hex().upper()
        sign = ">" if address in at else " "
        yield f"{sign}{address:06X} {image} {_words(walk, address, goes_on)}"


def _row(data: bytes, row: int) -> str:
    """The digits of a row in groups, padded to the width of `row` bytes."""
    groups = [data[at : at + _GROUP].hex().upper() for at in range(0, len(data), _GROUP)]
    return f"{' '.join(groups):{row * 2 + row // _GROUP - 1}}"


def _around(count: int, at: int) -> Sequence[int]:
    """The places around place `at`, of `count`."""
    first = max(0, min(at - _AROUND, count - 2 * _AROUND - 1))
    return range(first, min(count, first + 2 * _AROUND + 1))

