"""What lies on the medium of a unit at the end of a job, and what differs between several media."""

from __future__ import annotations

from dataclasses import dataclass
from typing import Callable, Mapping, Sequence, Tuple

from ..device_commands import DISK, PRINTER, TAPE
from ..images.ebcdic import seen
from ..reporting.medium_lines import item_line, record_line
from ..reporting.record import Members, members
from ..reporting.texts import shown

# The place of something on a medium: cylinder, head and number of a record, or the number of an
# item or a line.
Place = Tuple[int, ...]

Parts = Mapping[Place, str]


@dataclass(frozen=True)
class Medium:
    """The medium of a kind of device: a line for what is at each place. Where a tape or paper
    stands is no part of it."""

    kind: str
    parts: Parts


def medium_of(record: str) -> Medium:
    """The medium of a unit, by its record."""
    unit, *lines = map(members, filter(None, record.splitlines()))
    at = next(place for place, it in enumerate(lines) if it["what"] == "medium")
    return Medium(unit["kind"], _PARTS[unit["kind"]](unit["unit"], lines[at + 1 :]))


def _of_disk(unit: int, records: Sequence[Members]) -> Parts:
    return {(it["cylinder"], it["head"], it["nth"]): record_line(unit, it) for it in records}


def _of_tape(unit: int, items: Sequence[Members]) -> Parts:
    return {
        (number,): f"# item {number}\n{item_line(unit, it['block'])}"
        for number, it in enumerate(items, 1)
    }


def _of_printer(_: int, lines: Sequence[Members]) -> Parts:
    return {(number,): _line_of_paper(it) for number, it in enumerate(lines, 1)}


def _line_of_paper(line: Members) -> str:
    data = line["bytes"]
    place = f"page {line['page']} line {line['line']}"
    return f"# {place}: {shown(data)} |{seen(bytes.fromhex(data))}|\n"


_PARTS: Mapping[str, Callable[[int, Sequence[Members]], Parts]] = {
    DISK: _of_disk,
    TAPE: _of_tape,
    PRINTER: _of_printer,
}

# What is said of a place at which a medium has nothing.
_NOTHING: Mapping[str, str] = {
    DISK: "# no record {2} on track {0} {1}\n",
    TAPE: "# no item {0}\n",
    PRINTER: "# no printed line {0}\n",
}


def differences(media: Sequence[Medium]) -> Sequence[str]:
    """For each of several media of a unit the lines of what not all have."""
    places = sorted({place for it in media for place in it.parts})
    differ = [place for place in places if len({it.parts.get(place) for it in media}) > 1]
    return ["".join(_told(it, place) for place in differ) for it in media]


def _told(medium: Medium, place: Place) -> str:
    part = medium.parts.get(place)
    return _NOTHING[medium.kind].format(*place) if part is None else part
