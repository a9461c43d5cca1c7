"""The statements of symbolic areas: one table of operations, with a row for each name."""

from __future__ import annotations

from functools import partial
from typing import Callable, Mapping, NamedTuple

from ..device_commands import DEVICE_COMMANDS
from ..findings import FaultName
from ..script.forms import listed
from ..script.limits import MOST_AREA_BYTES
from ..script.suggestions import nearest
from .ccws import put_any_command, put_command, put_transfer
from .constants import value
from .iob import put_iob
from .labels import Label, is_length
from .mistakes import Mistake
from .numbers import number
from .open_area import OpenArea
from .operands import DATA_LENGTH, KEY_LENGTH, RECORD, TRACK, Field, end
from .words import Operands, Word, first_word

# What puts the bytes of a statement.
_Put = Callable[[OpenArea, Operands], None]

# The boundaries that `DS` asks for without a byte.
_BOUNDARIES: Mapping[str, int] = {"0D": 8, "0F": 4, "0H": 2}

# The mnemonics that somebody means who types what a command does.
_VERBS: Mapping[str, str] = {
    "READ": "RD",
    "WRITE": "WD",
    "SEARCH": "SIDE",
    "PRINT": "PR1",
    "REWIND": "REW",
    "SENSE": "SNS",
    "NOOP": "NOP",
}

_NO_SIZE = (
    f"not a number of bytes: expected 0 to {MOST_AREA_BYTES}, or {listed(_BOUNDARIES)} for a "
    "boundary"
)
_UNKNOWN = "no statement has this name"
_NO_COLON = "a statement follows this word: put a colon after a label"
_LONE_COMMA = "a comma has no operand before it or after it"


def _put_ecb(area: OpenArea, operands: Operands) -> None:
    end(operands)
    area.put(bytes(4))


def _put_constant(area: OpenArea, operands: Operands) -> None:
    area.put(value(operands.take_all(), MOST_AREA_BYTES))


def _leave_storage(area: OpenArea, operands: Operands) -> None:
    word, count = operands.take(), 0
    if word.text not in _BOUNDARIES:
        count = number(word, MOST_AREA_BYTES, _NO_SIZE)
    end(operands)
    area.leave(count)


def _put_address_words(area: OpenArea, operands: Operands) -> None:
    if not operands.peek().text:
        raise Mistake(FaultName.WORDS, "an IDAW has one address or more")
    for expression in operands.take_all():
        area.refer(1, 3, expression)
        area.put(bytes(4))


def _put_fields(*fields: Field) -> _Put:
    """A statement with numbers in fields, one after the other."""

    def put(area: OpenArea, operands: Operands) -> None:
        for field in fields:
            word, figure = operands.take(), 0
            if is_length(word):
                area.refer(0, field.width, word)
            else:
                figure = field.number(word)
            area.put(figure.to_bytes(field.width, "big"))
        end(operands)

    return put


def _set_origin(area: OpenArea, operands: Operands) -> None:
    expression = operands.take()
    end(operands)
    area.go_to(expression)


class _Operation(NamedTuple):
    """The boundary that a statement begins on, and what it puts into its area."""

    boundary: int
    put: _Put


# The operations that are no mnemonics.
_OTHERS: Mapping[str, _Operation] = {
    "IOB": _Operation(4, put_iob),
    "ECB": _Operation(4, _put_ecb),
    "DC": _Operation(1, _put_constant),
    "DS": _Operation(1, _leave_storage),
    "IDAW": _Operation(4, _put_address_words),
    "CCHHR": _Operation(1, _put_fields(TRACK, TRACK, RECORD)),
    "COUNT": _Operation(1, _put_fields(TRACK, TRACK, RECORD, KEY_LENGTH, DATA_LENGTH)),
    "ORG": _Operation(1, _set_origin),
    "TIC": _Operation(8, put_transfer),
    "CCW": _Operation(8, put_any_command),
}

_OPERATIONS: Mapping[str, _Operation] = {
    **{it.mnemonic: _Operation(8, partial(put_command, it)) for it in DEVICE_COMMANDS},
    **_OTHERS,
}

_EXPECTED = f"expected {listed(['a mnemonic', *_OTHERS, 'endarea'])}"


def is_operation(word: str) -> bool:
    """Whether a statement has this name."""
    return word in _OPERATIONS


def put_statement(area: OpenArea, line: Word) -> None:
    """Assembles `LABEL: OPERATION OPERANDS`. The label is defined even if the statement has a
    mistake."""
    label, statement = None, line
    if ":" in first_word(line)[0].text:
        colon = line.text.index(":")
        label, statement = first_word(line.part(0, colon))[0], line.part(colon + 1)
    word, rest = first_word(statement)
    follows = first_word(rest)[0].text
    area.statement = word
    boundary = _boundary(word.text, follows)
    if area.here % boundary:
        area.leave(-area.here % boundary)
    defined = Label(area.here, 0 if word.text else None)
    area.statements[line.line] = area.here
    if label is not None:
        area.labels.define(label, defined)
    if word.text:
        _put(area, word, follows, Operands(rest))
        defined.length = max(0, area.here - defined.address)


def _boundary(name: str, follows: str) -> int:
    """The boundary that a statement begins on, by its name and its first operand."""
    if name == "DS":
        return _BOUNDARIES.get(follows, 1)
    return _OPERATIONS[name].boundary if name in _OPERATIONS else 1


def _put(area: OpenArea, word: Word, follows: str, operands: Operands) -> None:
    """Puts the bytes of the statement with this name. `follows` is the word after it."""
    if word.text not in _OPERATIONS:
        raise _unknown(word, follows)
    if word.text in ("IOB", "ECB") and follows in _OPERATIONS:
        raise Mistake(FaultName.WORDS, _NO_COLON, word)
    _OPERATIONS[word.text].put(area, operands)
    if operands.lacks_one:
        raise Mistake(FaultName.WORDS, _LONE_COMMA)


def _unknown(word: Word, follows: str) -> Mistake:
    """The mistake of a word that is no statement, by the word that follows it."""
    if follows in _OPERATIONS:
        return Mistake(FaultName.WORDS, f"{_UNKNOWN}: put a colon after a label", word)
    name = word.text.upper()
    meant = nearest(name, _OPERATIONS) or _VERBS.get(name) or nearest(name.lower(), ["endarea"])
    text = _UNKNOWN if meant is not None else f"{_UNKNOWN}: {_EXPECTED}"
    return Mistake(FaultName.WORDS, text, word, meant)
