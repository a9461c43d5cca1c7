"""The channel program of a request, as its script has it, as JSON for a page."""

from __future__ import annotations

from typing import Iterator, NamedTuple, Optional

from ..device_commands import Op
from ..script.ccw import CCW_BYTES, PlacedCcw
from ..script.grammar import Area
from ..symbols.source_map import SourceMap
from ..symbols.storage import Storage
from .json_texts import quoted
from .step import ccw_names


class Program(NamedTuple):
    """A channel program: the number of its area, the address of its IOB, and the kind of its
    device."""

    area: int
    iob: int
    device: str


def program_json(program: Program, area: Area, source: Optional[SourceMap]) -> str:
    """The list of the CCWs to which a program may come, by their addresses; those of a job in
    symbols have the label, the operand and the line of their statements."""
    storage = Storage(area.base, area.data)
    ccws = []
    for at, goes_on in sorted(storage.add_request(program.iob, program.device).items()):
        ccw = PlacedCcw.of(at, storage.bytes_at(at, CCW_BYTES) or b"")
        members = [*_names(storage, ccw, program.device, goes_on)]
        if source is not None:
            members += _source_names(source, program.area, ccw)
        ccws.append(f"\n{{{','.join(members)}}}")
    return f"\n[{','.join(ccws)}]"


def _names(storage: Storage, ccw: PlacedCcw, device: str, goes_on: bool) -> Iterator[str]:
    """The address, the bytes and the command of a CCW, as steps have them."""
    image = (storage.bytes_at(ccw.at, CCW_BYTES) or b"").hex().upper()
    names = ccw_names(device, image, goes_on)
    name, mnemonic = names.words, names.mnemonic
    if ccw.is_transfer:
        name, mnemonic = "transfer in channel", Op.TIC.name
    yield f'"at":"{ccw.at:06X}","image":"{image}","name":{quoted(name)}'
    yield f'"mnemonic":{"null" if mnemonic is None else quoted(mnemonic)}'


def _source_names(source: SourceMap, number: int, ccw: PlacedCcw) -> Iterator[str]:
    """What a job in symbols calls a CCW and its data, and its statement."""
    area = source.areas[number]
    label, operand, line = area.label(ccw.at), area.operand(ccw.address), area.line(ccw.at)
    if label is not None:
        yield f'"label":{quoted(label)}'
    if operand is not None:
        yield f'"operand":{quoted(operand)}'
    if line is not None:
        yield f'"line":{line},"text":{quoted(source.statement(line).strip())}'
