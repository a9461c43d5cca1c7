"""Numbers, as statements and lines have them."""

from __future__ import annotations

import re
from typing import Optional

from ..findings import FaultName
from ..script.limits import HIGHEST_ADDRESS
from .mistakes import Mistake
from .words import Word

# Larger numbers than this are this one: all numbers of a job are smaller.
_HIGHEST = 2**32 - 1

_DIGITS = {10: re.compile("[0-9]+"), 16: re.compile("[0-9A-Fa-f]+")}


def value_of(digits: str, base: int) -> Optional[int]:
    """The value of digits; None if there are none, or if a character is no digit."""
    if not _DIGITS[base].fullmatch(digits):
        return None
    digits = digits.lstrip("0") or "0"
    return min(int(digits, base), _HIGHEST) if len(digits) <= 10 else _HIGHEST


def number_of(text: str) -> Optional[int]:
    """The value of decimal digits, or of hexadecimal ones as X'1F'."""
    if text.startswith("X'") and text.endswith("'"):
        return value_of(text[2:-1], 16)
    return value_of(text, 10)


def number(word: Word, most: int, wanted: str, least: int = 0) -> int:
    """The number that a word is, if it is in its range. `wanted` is the text on any other word."""
    value = number_of(word.text)
    if value is None or not least <= value <= most:
        raise Mistake(FaultName.NUMBER, wanted, word)
    return value


def up_to_top(word: Word, wanted: str) -> int:
    """The number that a word is, up to the highest address."""
    value = number(word, _HIGHEST, wanted)
    if value > HIGHEST_ADDRESS:
        raise Mistake(FaultName.NUMBER, "too large: expected at most X'FFFFFF'", word)
    return value
