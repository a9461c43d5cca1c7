"""What lies on a medium as JSON: all of it, or, of more than 1 MiB, what the run touched."""

from __future__ import annotations

import re
from itertools import chain
from typing import AbstractSet, Callable, FrozenSet, Iterable, Iterator, List, Mapping, Tuple

from ..device_commands import DISK, PRINTER, TAPE
from ..images.ebcdic import seen
from .json_texts import joined, quoted, truth
from .kept import KeptText
from .record import Record, members

# The most bytes of keys and data, or of blocks, of a medium that is whole.
_WHOLE_BYTES = 1 << 20

# The members that name a part of a medium: a track, or an item. In the line of a record they come
# after the first of these texts.
_PART = re.compile(r'"cylinder":\d+,"head":\d+|"item":\d+')
_RECORD, _ITEM = '{"what":"record",', '{"what":"item","block":'

# The data of the R0 that mounting puts on a track.
_MOUNTED = "00" * 8


def touched_parts(places: Iterable[str]) -> FrozenSet[str]:
    """The parts of a medium that these places of steps touch. A line of paper is none."""
    found = (_PART.match(place, 1) for place in places)
    return frozenset(part[0] for part in found if part is not None)


# The cylinder and the head of a track.
Track = Tuple[int, int]


def medium_json(
    record: Record, device: str, touched: AbstractSet[str], further_r0: List[Track]
) -> Iterator[str]:
    """The medium of a kind of device, which a record has next, in pieces; of a large one the
    touched parts. Raises NotKept. Adds the tracks whose first record in the JSON is a further
    record 0: R0 itself is as mounting makes it, so the JSON leaves it out."""
    if device == DISK:
        return _disk(record, touched, further_r0)
    return _JSON[device](record, touched)


def _disk(
    record: Record, touched: AbstractSet[str], further_r0: List[Track]
) -> Iterator[str]:
    size = members(record.take())
    held, is_whole = _held(record, "record", _record_bytes)
    sizes = f'"cylinders":{size["cylinders"]},"heads":{size["heads"]},"bytes":{size["bytes"]}'
    yield f'{{"whole":{truth(is_whole)},{sizes},"records":['
    lines = chain(held, record.all_of("record"))
    wanted = (it for it in lines if is_whole or _track_of(it) in touched)
    yield from joined(map(_record, _noted(wanted, further_r0)))
    yield "]}"


def _noted(lines: Iterable[str], further_r0: List[Track]) -> Iterator[str]:
    """The lines of records. Adds the tracks whose first line is of a further record 0."""
    track = ""
    for line in lines:
        if _track_of(line) != track:
            track = _track_of(line)
            it = members(line)
            if it["nth"] and it["id"].endswith("00"):
                further_r0.append((it["cylinder"], it["head"]))
        yield line


def _record(line: str) -> str:
    it = members(line)
    cylinder, head, name = it["cylinder"], it["head"], it["id"]
    is_of_track = name.startswith(f"{cylinder:04X}{head:04X}")
    other = "" if is_of_track else f',"id":"{name}"'
    place = f'"cylinder":{cylinder},"head":{head},"record":{int(name[8:], 16)}{other}'
    return f'\n{{{place},"key":"{it["key"]}","data":"{it["data"]}"}}'


def _track_of(line: str) -> str:
    """The track of a record, as `touched_parts` has it."""
    part = _PART.match(line, len(_RECORD))
    return part[0] if part is not None else ""


def _record_bytes(line: str) -> int:
    """The bytes of key and data of a record. An R0 as mounting makes it counts none, wherever it
    is on its track."""
    it = members(line)
    r0 = f"{it['cylinder']:04X}{it['head']:04X}00"
    if (it["id"], it["key"], it["data"]) == (r0, "", _MOUNTED):
        return 0
    return (len(it["key"]) + len(it["data"])) // 2


def _tape(record: Record, touched: AbstractSet[str]) -> Iterator[str]:
    size = members(record.take())
    held, is_whole = _held(record, "item", _item_bytes)
    yield f'{{"whole":{truth(is_whole)},"bytes":{size["bytes"]}'
    lines = enumerate(chain(held, record.all_of("item")), 1)
    if is_whole:
        items = (line for _, line in lines)
    else:
        numbers = _items(touched, size["count"])
        yield f',"count":{size["count"]},"numbers":[{",".join(map(str, sorted(numbers)))}]'
        items = (line for number, line in lines if number in numbers)
    yield ',"items":['
    yield from joined(line[len(_ITEM) : -1] for line in items)
    yield f'],"place":{size["place"]}}}'


def _items(touched: AbstractSet[str], count: int) -> AbstractSet[int]:
    """The numbers of the touched items of a tape with `count` items. At its load point a tape is
    at its first item."""
    numbers = {max(int(part.rpartition(":")[2]), 1) for part in touched}
    return {it for it in numbers if it <= count}


def _item_bytes(line: str) -> int:
    block = members(line)["block"]
    return len(block or "") // 2


def _printer(record: Record, _touched: AbstractSet[str]) -> Iterator[str]:
    size = members(record.take())
    yield f'{{"whole":true,"lines":{size["lines"]},"pages":{size["pages"]},"printed":['
    yield from joined(map(_printed, record.all_of("line")))
    yield f'],"page":{size["page"]},"line":{size["line"]}}}'


def _printed(line: str) -> str:
    it = members(line)
    place = f'"page":{it["page"]},"line":{it["line"]}'
    text = quoted(seen(bytes.fromhex(it["bytes"])))
    return f'\n{{{place},"text":{text},"bytes":"{it["bytes"]}"}}'


def _held(
    record: Record, what: str, size_of: Callable[[str], int]
) -> Tuple[Iterator[str], bool]:
    """The first lines of what is on a medium, up to those that pass the most bytes of a whole one;
    and whether they are all."""
    held, size = KeptText(), 0
    while record.what == what and size <= _WHOLE_BYTES:
        line = record.take()
        held.add(f"{line}\n")
        size += size_of(line)
    return (line[:-1] for line in held.lines()), size <= _WHOLE_BYTES


_JSON: Mapping[str, Callable[[Record, AbstractSet[str]], Iterator[str]]] = {
    TAPE: _tape,
    PRINTER: _printer,
}
