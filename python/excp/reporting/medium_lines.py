"""What lies on a medium, in the lines of a script that declare it. Comments have what no line
declares, and the text of keys, data and blocks. Faults are left out: some are used up, and the
others count from mounting."""

from __future__ import annotations

from typing import Callable, Iterator, Mapping, Optional

from ..device_commands import DISK, PRINTER, TAPE
from .look import Look
from .record import Members, Record, members
from .texts import shown

# The characters of a row of text.
_ROW = 80


def medium_lines(record: Record, unit: Members, look: Look) -> Iterator[str]:
    """The lines of the medium of a unit, which a record has next."""
    return _LINES[unit["kind"]](record, unit, look)


def _text_rows(name: str, digits: str, look: Look) -> Iterator[str]:
    """Bytes as text, with the place of each row but the first. Rows of dots alone are left out."""
    text = look.text(bytes.fromhex(digits))
    for at in range(0, len(text), _ROW):
        row = text[at : at + _ROW]
        if row.strip("."):
            yield f"# {f'{name}+{at}' if at else name:10} |{row}|\n"


def _disk_lines(record: Record, unit: Members, look: Look) -> Iterator[str]:
    number, size = unit["unit"], members(record.take())
    tracks = f"{size['cylinders']} {size['heads']} {size['bytes']}"
    yield f"disk {number} {unit['isc']} {tracks}\n"
    for line in record.all_of("record"):
        it = members(line)
        yield record_line(number, it)
        yield from _text_rows("key", it["key"], look)
        yield from _text_rows("data", it["data"], look)


def record_line(unit: int, record: Members) -> str:
    """The line of a record of a disk."""
    track = f"{record['cylinder']} {record['head']}"
    key, data = shown(record["key"]), shown(record["data"])
    name = _declared_number(record)
    if name is None:
        area = f"CCHHR {record['id']}, key {key}, data {data}"
        return f"# no line declares, on track {track}: {area}\n"
    return f"rec {unit} {track} {name} {key} {data}\n"


def _declared_number(record: Members) -> Optional[int]:
    """R of a record that a line can declare: it is of its track, not its first one, and no R0."""
    track = f"{record['cylinder']:04X}{record['head']:04X}"
    number = int(record["id"][8:], 16)
    is_declared = record["nth"] and number and record["id"].startswith(track)
    return number if is_declared else None


def _tape_lines(record: Record, unit: Members, look: Look) -> Iterator[str]:
    number, size = unit["unit"], members(record.take())
    yield f"tape {number} {unit['isc']} {size['bytes']}\n"
    place, count = size["place"], 0
    stands = f"# the tape stands here, behind {place} of {size['count']} items\n"
    for line in record.all_of("item"):
        if count == place:
            yield stands
        block = members(line)["block"]
        yield item_line(number, block)
        yield from _text_rows("data", block or "", look)
        count += 1
    if count == place:
        yield stands


def item_line(unit: int, block: Optional[str]) -> str:
    """The line of an item of a tape, a block or a mark."""
    return f"mark {unit}\n" if block is None else f"block {unit} {shown(block)}\n"


def _printer_lines(record: Record, unit: Members, look: Look) -> Iterator[str]:
    size = members(record.take())
    yield f"printer {unit['unit']} {unit['isc']} {size['lines']} {size['pages']}\n"
    for line in record.all_of("line"):
        it = members(line)
        text = look.text(bytes.fromhex(it["bytes"]))
        yield f"# page {it['page']:5} line {it['line']:2} |{text}\n"
    yield f"# the paper stands at page {size['page']}, line {size['line']}\n"


_LINES: Mapping[str, Callable[[Record, Members, Look], Iterator[str]]] = {
    DISK: _disk_lines,
    TAPE: _tape_lines,
    PRINTER: _printer_lines,
}
