"""Constants: hexadecimal digits, or text in EBCDIC or ASCII, with repeats and `fill`."""

from __future__ import annotations

import re
from typing import Iterable, NamedTuple, Optional

from ..findings import FaultName
from ..script.limits import MOST_AREA_BYTES, MOST_DATA_BYTES
from .mistakes import Mistake
from .numbers import number, value_of
from .words import Word

# EBCDIC, code page 037, in constants and in listings.
EBCDIC = "cp037"

# The most repeats of a constant.
_MOST_TIMES = MOST_DATA_BYTES

# A constant whose text goes on to the end of its line. Apostrophes that come twice are of the text.
_UNCLOSED = re.compile(r"[0-9]*(X|CA|C)'(([^']|'')*[^'])?")

# One in whose text another constant begins, up to the apostrophe of that.
_GOES_ON = re.compile(r"[0-9]*(X|CA|C)'[^']*[ \t,][0-9]*(X|CA|C)'")

_CONSTANT = re.compile(r"([0-9]*)(X|CA|C)'(.*)'")

_NO_FILL = (
    f"not a number of bytes: expected at most {MOST_DATA_BYTES}, and in an area at most "
    f"{MOST_AREA_BYTES}, as fill 80"
)
_NO_CONSTANT = (
    "not a constant: expected X'DIGITS', C'TEXT' or CA'TEXT', with a number of repeats before it "
    "or none, and each apostrophe of a text twice"
)
_NOT_CLOSED = "no apostrophe ends this constant: expected one after its digits or its text"
_NO_BYTES = "not bytes: expected an even number of hexadecimal digits, at least 2"
_TOO_LONG = (
    f"too long: a value has at most {MOST_DATA_BYTES} bytes, and in an area {MOST_AREA_BYTES}"
)
_NOTHING_TO_FILL = "nothing comes before this that could be filled: expected a constant"


class _Constant(NamedTuple):
    """How often bytes come, the bytes, and the byte that fills up after them."""

    times: int
    image: bytes
    pad: bytes


def value(words: Iterable[Word], most: int = MOST_DATA_BYTES) -> bytes:
    """The bytes of constants and `fill N`, at most `most`."""
    image = bytearray()
    pad: Optional[bytes] = None
    words = iter(words)
    for word in words:
        if word.text == "fill":
            _fill(image, pad, next(words, None), most)
            continue
        constant = _constant(word)
        if len(image) + len(constant.image) * constant.times > most:
            raise Mistake(FaultName.NUMBER, _TOO_LONG, word)
        image += constant.image * constant.times
        pad = constant.pad
    if pad is None:
        raise Mistake(FaultName.WORDS, _NO_CONSTANT)
    return bytes(image)


def _fill(image: bytearray, pad: Optional[bytes], word: Optional[Word], most: int) -> None:
    """Fills up to the number of bytes that a word says."""
    if word is None:
        raise Mistake(FaultName.WORDS, _NO_FILL)
    if pad is None:
        raise Mistake(FaultName.NUMBER, _NOTHING_TO_FILL, word)
    wanted, count = number(word, most, _NO_FILL), len(image)
    if count > wanted:
        before = f"{count} byte{'' if count == 1 else 's'} come before this"
        raise Mistake(FaultName.NUMBER, f"{before}: expected fill {count} or more", word)
    image += pad * (wanted - count)


def _constant(word: Word) -> _Constant:
    found = _CONSTANT.fullmatch(word.text)
    has_lone = found is None or "'" in found[3].replace("''", "")
    if _UNCLOSED.fullmatch(word.text) or (has_lone and _GOES_ON.match(word.text)):
        raise Mistake(FaultName.NUMBER, _NOT_CLOSED, word)
    times = value_of(found[1] or "1", 10) if found else None
    if found is None or times is None or not 1 <= times <= _MOST_TIMES:
        raise Mistake(FaultName.NUMBER, _NO_CONSTANT, word)
    kind, text = found[2], found[3]
    if kind == "X":
        if not re.fullmatch("([0-9A-Fa-f]{2})+", text):
            raise Mistake(FaultName.NUMBER, _NO_BYTES, word)
        return _Constant(times, bytes.fromhex(text), b"\0")
    if not text or has_lone:
        raise Mistake(FaultName.NUMBER, _NO_CONSTANT, word)
    code = EBCDIC if kind == "C" else "ascii"
    return _Constant(times, text.replace("''", "'").encode(code), " ".encode(code))
