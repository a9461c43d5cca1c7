"""The forms of the words of each kind of line, taken from the fields of the grammar."""

from __future__ import annotations

from dataclasses import fields
from typing import Any, Mapping, NamedTuple, Optional, get_type_hints

from .forms import Each, Form
from .grammar import EVENT_LINES, SCRIPT_LINES, SIZES_BY_ROW, Line


class WordForms(NamedTuple):
    """The forms of the words of a line after the first one, and that of all further words, if a
    line may have more."""

    forms: tuple[Form[Any], ...]
    each: Optional[Each]


def _word_forms(kind: type[Line]) -> WordForms:
    hints = get_type_hints(kind, include_extras=True)
    said = [hints[field.name].__metadata__[0] for field in fields(kind)[1:]]
    each = said.pop() if said and isinstance(said[-1], Each) else None
    return WordForms(tuple(said), each)


# The forms of the words of each kind of line.
WORD_FORMS: Mapping[type[Line], WordForms] = {
    kind: _word_forms(kind)
    for kinds in (SCRIPT_LINES, EVENT_LINES, SIZES_BY_ROW)
    for kind in kinds.values()
}
