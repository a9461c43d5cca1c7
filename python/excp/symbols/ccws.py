"""The statements of CCWs: a mnemonic, `CCW` or `TIC`. Operands are address, count, flags, because
flags are most often left out."""

from __future__ import annotations

from ..device_commands import FLAGS, DeviceCommand, Op
from ..findings import FaultName
from ..script.forms import listed
from .labels import is_length
from .mistakes import Mistake
from .numbers import number
from .open_area import OpenArea
from .operands import end
from .words import Operands

_LACKS = (
    "expected ADDRESS,COUNT and then flags or nothing; a command that moves no data may have flags "
    "alone"
)
_NO_CODE = "not a command code: expected a number from 0 to 255, as X'31'"
_NO_COUNT = "not a count: expected a number from 0 to 65535, or L'LABEL"
_NO_FLAG = f"not a flag: expected {listed(FLAGS)}"


def put_transfer(area: OpenArea, operands: Operands) -> None:
    """`TIC ADDRESS`"""
    target = operands.take()
    if not target.text:
        raise Mistake(FaultName.WORDS, "a transfer has one address")
    area.refer(1, 3, target)
    end(operands)
    area.put(bytes([Op.TIC, *bytes(7)]))


def put_any_command(area: OpenArea, operands: Operands) -> None:
    """`CCW X'CODE',ADDRESS,COUNT,FLAGS`"""
    word = operands.take()
    _refer_to_data(area, operands)
    _put_ccw(area, number(word, 255, _NO_CODE), operands)


def put_command(command: DeviceCommand, area: OpenArea, operands: Operands) -> None:
    """`MNEMONIC ADDRESS,COUNT,FLAGS`. A command that needs no data may have flags alone: then its
    count is 1."""
    first = operands.peek().text
    if command.needs_no_data and (not first or first.partition("+")[0] in FLAGS):
        area.put(bytes([command.code, 0, 0, 0, _flags(operands), 0, 0, 1]))
    else:
        _refer_to_data(area, operands)
        _put_ccw(area, command.code, operands)


def _refer_to_data(area: OpenArea, operands: Operands) -> None:
    data = operands.take()
    if data.text:
        area.refer(1, 3, data)


def _put_ccw(area: OpenArea, code: int, operands: Operands) -> None:
    """Puts a CCW with the count and the flags of these operands. Its address is set at the end of
    the area."""
    word, count = operands.take(), 0
    if not word.text:
        raise Mistake(FaultName.WORDS, _LACKS)
    if is_length(word):
        area.refer(6, 2, word)
    else:
        count = number(word, 65_535, _NO_COUNT)
    area.put(bytes([code, 0, 0, 0, _flags(operands), 0, *count.to_bytes(2, "big")]))


def _flags(operands: Operands) -> int:
    """The bits of the flags that the other operands name, separated also by `+`."""
    bits = 0
    for operand in operands.take_all():
        column = 0
        for name in operand.text.split("+"):
            if not name:
                lone = "a + has no flag before it or after it"
                raise Mistake(FaultName.WORDS, lone, operand)
            if name not in FLAGS:
                flag = operand.part(column, column + len(name))
                raise Mistake(FaultName.NUMBER, _NO_FLAG, flag)
            bits |= FLAGS[name]
            column += len(name) + 1
    return bits
