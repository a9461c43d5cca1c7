"""The forms of words: what a word is expected to be, and how its value is read."""

from __future__ import annotations

import re
from dataclasses import dataclass
from typing import Annotated, Any, Callable, Generic, Iterable, Optional, TypeVar

from ..blocks import Extent
from .limits import MOST_TASKS, MOST_UNITS

Value = TypeVar("Value")

_DECIMAL = re.compile(r"[0-9]{1,10}")
_HEXADECIMAL = re.compile(r"[0-9A-Fa-f]+")


@dataclass(frozen=True)
class Form(Generic[Value]):
    """What a word is expected to be, and its value, None if it is something else."""

    expected: str
    read: Callable[[str], Optional[Value]]


@dataclass(frozen=True)
class Each:
    """Each word from here on, if one follows, is of this form. The values are joined."""

    form: Form[Any]
    join: Callable[[Iterable[Any]], Any]


def listed(words: Iterable[str]) -> str:
    """`a, b or c`."""
    *others, last = words
    return f"{', '.join(others)} or {last}"


def _decimal(word: str) -> Optional[int]:
    return int(word) if _DECIMAL.fullmatch(word) else None


def _number_in(least: int, most: int) -> Form[int]:
    def read(word: str) -> Optional[int]:
        value = _decimal(word)
        return value if value is not None and least <= value <= most else None

    return Form(f"a number from {least} to {most}", read)


def _digits(count: int) -> Form[int]:
    def read(word: str) -> Optional[int]:
        return int(word, 16) if len(word) == count and _HEXADECIMAL.fullmatch(word) else None

    return Form(f"{count} hexadecimal digits", read)


def _one_of(*words: str) -> Form[str]:
    return Form(listed(words), lambda word: word if word in words else None)


def _bytes(word: str) -> Optional[bytes]:
    try:
        return b"" if word == "-" else bytes.fromhex(word)
    except ValueError:
        return None


def _extent(word: str) -> Optional[Extent]:
    if len(word) != 32 or not _HEXADECIMAL.fullmatch(word):
        return None
    return Extent.from_bytes(bytes.fromhex(word))


# The word in place of a size that is left to the image of a unit.
LEFT_TO_IMAGE = "-"

NUMBER = Form("a decimal number of 1 to 10 digits", _decimal)
INDEX = _number_in(0, max(MOST_TASKS, MOST_UNITS) - 1)
HEX = Form("an even number of hexadecimal digits, or - for no byte", _bytes)

# The types of fields, each with the form of its word, or of all words from it on.
Number = Annotated[int, NUMBER]
Count = Annotated[int, _number_in(1, MOST_TASKS)]
Index = Annotated[int, INDEX]
Subclass = Annotated[int, _number_in(0, 7)]
Octet = Annotated[int, _number_in(0, 255)]
Halfword = Annotated[int, _number_in(0, 65535)]
Size = Annotated[int, _number_in(1, 65535)]
Address = Annotated[int, _digits(6)]
Byte = Annotated[int, _digits(2)]
Sense = Annotated[int, _digits(4)]
Hex = Annotated[bytes, HEX]
Method = Annotated[str, _one_of("in", "out")]
Mode = Annotated[str, _one_of("quiesce", "halt")]
Row = Annotated[str, _one_of("intake", "post", "book")]
Words = Annotated[tuple[str, ...], Each(Form("any word", str), tuple)]
Extents = Annotated[tuple[Extent, ...], Each(Form("32 hexadecimal digits", _extent), tuple)]
Storage = Annotated[bytes, Each(HEX, b"".join)]
