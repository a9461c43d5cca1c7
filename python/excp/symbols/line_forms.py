"""The lines outside of areas that have a symbolic form.

Each form gives the parts of its plain line, up to its first mistake.
"""

from __future__ import annotations

from typing import Callable, Iterator, Mapping, NamedTuple, Optional, Sequence

from ..findings import FaultName
from ..script.device_faults import DEVICE_FAULTS
from ..script.forms import listed
from ..script.grammar import Excp
from ..script.limits import MOST_EXTENTS
from ..script.suggestions import nearest
from .constants import value
from .disk_extents import EXTENT_WORDS, NO_EXTENT, DeclaredUnit
from .labels import Labels, is_length
from .mistakes import Mistake
from .numbers import value_of
from .operands import end
from .words import BLANKS, Operands, Word, before_comment, blank_separated, first_word

# The units of a job by their numbers.
Units = dict[int, DeclaredUnit]

# The first byte of an extent, its file mask, and the five bytes after it.
_READ_ONLY, _READ_AND_WRITE, _NO_BLOCK = "58", "18", "0000000000"

_NO_DISK = "no line 'disk' before this one says how many cylinders and heads this unit has"
_NO_VALUES = (
    "expected rec U CC HH R, then key VALUE, data VALUE or both, as key C'SMITH' data C'TEXT' "
    "fill 80"
)
_NO_AT = "expected fault U at N NAME, as fault 0 at 3 data check"
_NO_FAULT = "not the name of a fault"
_EXPECTED_FAULT = f"{_NO_FAULT}: expected {listed(DEVICE_FAULTS)}"
# The first words of these names.
_FAULT_WORDS = {name.partition(" ")[0] for name in DEVICE_FAULTS}
_NO_EXCP = f"an excp line has 8 words: excp {Excp.form}"
_NO_AREA = "no area before this line has this number: the first area is 0"


def _open_line(words: Operands, units: Units) -> Iterator[str]:
    """`open U in EXTENT ..`"""
    unit, method = words.take(), words.take()
    yield f" {unit.text} {method.text}"
    mask = _READ_ONLY if method.text == "in" else _READ_AND_WRITE
    for _ in range(MOST_EXTENTS):
        word = words.take()
        if not word.text:
            return
        if word.text in EXTENT_WORDS:
            number = value_of(unit.text, 10)
            disk = None if number is None else units.get(number)
            if disk is None:
                raise Mistake(FaultName.NAME, _NO_DISK, unit)
            yield f" {mask}{_NO_BLOCK}{disk.extent(word, words)}"
        elif len(word.text) == 32:
            yield f" {word.text}"
        else:
            raise Mistake(FaultName.NUMBER, NO_EXTENT, word)
    end(words)


def _rec_line(words: Operands, _units: Units) -> Iterator[str]:
    """`rec U CC HH R key VALUE data VALUE`"""
    numbers = [words.take().text for _ in range(4)]
    if any(it in ("key", "data") or "'" in it for it in numbers):
        # one is missing
        raise Mistake(FaultName.WORDS, _NO_VALUES)
    yield from (f" {it}" for it in numbers)
    key = words.take_all()
    data: Optional[list[Word]] = None
    texts = [it.text for it in key]
    if "data" in texts:
        at = texts.index("data")
        key, data = key[:at], key[at + 1 :]
    misplaced = [it for it in data or [] if it.text == "key"]
    if key and key[0].text != "key":
        misplaced = key
    if misplaced:
        raise Mistake(FaultName.NUMBER, _NO_VALUES, misplaced[0])
    yield " "
    yield _digits(key[1:]) if key else "-"
    yield " "
    yield _digits(data) if data is not None else "-"


def _block_line(words: Operands, _units: Units) -> Iterator[str]:
    """`block U VALUE`"""
    yield from _copied(words, 1)
    yield " "
    yield _digits(words.take_all())


def _fault_line(words: Operands, _units: Units) -> Iterator[str]:
    """`fault U at N NAME`"""
    yield from _copied(words, 1)
    word = words.take()
    if word.text != "at":
        raise Mistake(FaultName.WORDS, _NO_AT, word)
    if words.peek().text in _FAULT_WORDS:
        # the number of the command is missing
        raise Mistake(FaultName.WORDS, _NO_AT)
    yield from _copied(words, 1)
    left = words.left
    status = DEVICE_FAULTS.get(" ".join(it.text for it in words.take_all()))
    if status is None:
        name = left.part(len(left.text) - len(left.text.lstrip(BLANKS)))
        meant = nearest(name.text, DEVICE_FAULTS)
        text = _EXPECTED_FAULT if meant is None else _NO_FAULT
        raise Mistake(FaultName.NUMBER, text, name, meant)
    yield f" {status}"


def _copied(words: Operands, count: int) -> Iterator[str]:
    """The next words as they are."""
    for _ in range(count):
        yield f" {words.take().text}"


def _digits(words: Sequence[Word]) -> str:
    return value(words).hex().upper()


class LineForm(NamedTuple):
    """A symbolic form. A line has it if a word after its first `before` words has an apostrophe or
    is a sign, in capitals or not."""

    before: int
    signs: tuple[str, ...]
    plain: Callable[[Operands, Units], Iterator[str]]


_LINE_FORMS: Mapping[str, LineForm] = {
    "open": LineForm(3, ("all", "track", "tracks", "cylinder", "cylinders"), _open_line),
    "rec": LineForm(5, ("key", "data"), _rec_line),
    "block": LineForm(2, (), _block_line),
    "fault": LineForm(2, ("at", "check", "reject", "required", "overrun"), _fault_line),
}


def form_of(line: Word) -> Optional[LineForm]:
    """The form of a line, if it is in symbols."""
    form = _LINE_FORMS.get(first_word(line)[0].text)
    if form is None:
        return None
    words = [it.text for it in blank_separated(line)][form.before :]
    return form if any("'" in it or it.lower() in form.signs for it in words) else None


def has_symbols(script: bytes) -> bool:
    """Whether a script has the end of a symbolic area, or a line with a symbolic form. No plain
    script has either, so every other script means what it means to `run`."""
    for text in script.decode("latin-1").split("\n"):
        if text.lstrip(BLANKS).startswith(("endarea", *_LINE_FORMS)):
            line = Word(before_comment(text).removesuffix("\r"), 0, 1)
            if first_word(line)[0].text == "endarea" or form_of(line):
                return True
    return False


def excp_line(line: Word, areas: Sequence[Labels]) -> Iterator[str]:
    """`excp T U DCB IOB A SHOW LEN`, whose IOB, SHOW and LEN may be addresses and a length with
    labels of area A."""
    words = blank_separated(line)
    if len(words) != 8:
        raise Mistake(FaultName.WORDS, _NO_EXCP)
    number = value_of(words[5].text, 10)
    labels = areas[number] if number is not None and number < len(areas) else None
    for place, word in enumerate(words):
        yield " " if place else ""
        is_address = place in (4, 6) and not _is_plain_address(word.text, labels)
        if not is_address and not (place == 7 and is_length(word)):
            yield word.text
        elif labels is None:
            raise Mistake(FaultName.NAME, _NO_AREA, words[5])
        else:
            found = labels.address(word, None)
            yield f"{found:06X}" if is_address else f"{found}"


def _is_plain_address(text: str, labels: Optional[Labels]) -> bool:
    """Whether a word begins with a digit, or is six hexadecimal digits that are no label."""
    is_address = len(text) == 6 and value_of(text, 16) is not None
    return text[0] in "0123456789" or (is_address and not (labels is not None and text in labels))
