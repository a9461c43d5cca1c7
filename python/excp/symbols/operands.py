"""What several statements have among their operands: fields with numbers, and the end."""

from __future__ import annotations

from typing import NamedTuple

from ..findings import FaultName
from .mistakes import Mistake
from .numbers import number
from .words import Operands, Word


class Field(NamedTuple):
    """A field with a number: its bytes, and the text on what is none."""

    width: int
    wanted: str
    least: int = 0

    def number(self, word: Word) -> int:
        return number(word, 256**self.width - 1, self.wanted, self.least)


TRACK = Field(2, "not a cylinder or a head: expected a number from 0 to 65535")
RECORD = Field(1, "not a record: expected a number from 0 to 255")
KEY_LENGTH = Field(1, "not a length of a key: expected 0 to 255, or L'LABEL")
DATA_LENGTH = Field(2, "not a length of data: expected 0 to 65535, or L'LABEL")
DCB = Field(2, "not a DCB: expected a number from 1 to 65535", least=1)
EXTENT = Field(1, "not an extent: expected a number from 0 to 255")


def end(operands: Operands) -> None:
    """Checks that no operand is left."""
    operand = operands.take()
    if operand.text:
        raise Mistake(FaultName.WORDS, "one operand too many", operand)
