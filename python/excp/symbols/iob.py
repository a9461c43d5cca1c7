"""The statement IOB: `IOB ecb=ADDRESS start=ADDRESS dcb=NUMBER seek=CYLINDER,HEAD,RECORD ..`."""

from __future__ import annotations

from typing import Mapping, NamedTuple

from ..findings import FaultName
from ..script.forms import listed
from .mistakes import Mistake
from .open_area import OpenArea
from .operands import DCB, EXTENT, RECORD, TRACK, Field
from .words import Operands, Word


class _Operand(NamedTuple):
    """Where the value of an operand is in the IOB, and its fields. An address has none."""

    offset: int
    fields: tuple[Field, ...] = ()


_OPERANDS: Mapping[str, _Operand] = {
    "ecb": _Operand(5),
    "start": _Operand(17),
    "dcb": _Operand(22, (DCB,)),
    "seek": _Operand(35, (TRACK, TRACK, RECORD)),
    "extent": _Operand(32, (EXTENT,)),
}
_NEEDED = {"ecb", "start", "dcb"}

# The operands that set the flags of an IOB. Both have the flag of command chaining.
_RELATIONS: Mapping[str, int] = {"related": 0x40, "unrelated": 0x42}

_LACKS = (
    "an IOB has ecb=ADDRESS, start=ADDRESS and dcb=NUMBER, and for a disk also "
    "seek=CYLINDER,HEAD,RECORD"
)
_NO_VALUE = "expected a value after this, as ecb=LABEL, with no blank around ="
_EXPECTED = listed([*(f"{name}=" for name in _OPERANDS), *_RELATIONS])
_NO_OPERAND = f"not an operand of an IOB: expected {_EXPECTED}"


def put_iob(area: OpenArea, operands: Operands) -> None:
    """Puts an IOB."""
    flags = _RELATIONS["unrelated"]
    given: set[str] = set()
    while operands.peek().text:
        operand = operands.take()
        name = _name_of(operand)
        kind = "related" if name in _RELATIONS else name
        if kind in given:
            raise Mistake(FaultName.ORDER, "this operand comes twice", operand)
        given.add(kind)
        if name in _RELATIONS:
            flags = _RELATIONS[name]
        else:
            _put_value(area, _OPERANDS[name], operand.part(len(name) + 1), operands)
    if not _NEEDED <= given:
        raise Mistake(FaultName.WORDS, _LACKS)
    area.put(bytes([flags, *bytes(39)]))


def _name_of(operand: Word) -> str:
    """The name of an operand of an IOB."""
    name, _, text = operand.text.partition("=")
    if name in _OPERANDS and not text:
        raise Mistake(FaultName.NUMBER, _NO_VALUE, operand)
    if name not in _OPERANDS and (name not in _RELATIONS or text):
        raise Mistake(FaultName.NUMBER, _NO_OPERAND, operand)
    return name


def _put_value(area: OpenArea, operand: _Operand, word: Word, operands: Operands) -> None:
    """Puts a value into the IOB that follows. Further numbers of a seek address are the next
    operands."""
    offset, fields = operand
    if not fields:
        area.refer(offset, 3, word)
    for place, field in enumerate(fields):
        if place > 0:
            word = operands.take()
            if not word.text or word.text in _RELATIONS or "=" in word.text:
                three = "seek=CYLINDER,HEAD,RECORD has three numbers"
                raise Mistake(FaultName.WORDS, three)
        field.number(word)
        area.refer(offset, field.width, word)
        offset += field.width
