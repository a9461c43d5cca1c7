"""The findings of lines that are rejected: what is wrong, and what somebody may have meant."""

from __future__ import annotations

from typing import Optional

from ..device_commands import DISK, TAPE
from ..findings import Finding
from ..script.forms import INDEX, LEFT_TO_IMAGE
from ..script.grammar import SCRIPT_LINES
from ..script.reading import Refused, Text, meant
from .loaded import Images, on_missing_size

_COMMENT = "a comment is a line of its own, which begins with #"
_SIGNS = ";", "#"


def refused_line(
    number: int, text: Text, refused: Refused, known: tuple[str, ...], images: Images
) -> Finding:
    """The fault of a line. It names the known first word that may be meant by an unknown one."""
    word = meant(text, known)
    if word is not None:
        unknown = f"no line begins with '{text.first}'; did you mean '{word}'?"
        return Finding(number, unknown, refused.name)
    return Finding(number, _explanation(text, images) or refused.sentence, refused.name)


def _explanation(text: Text, images: Images) -> Optional[str]:
    """A better explanation than a wrong word: a comment after the words, or a hyphen for a size
    that no image gives."""
    if text.first not in SCRIPT_LINES or text.unprintable:
        return None
    for sign in _SIGNS:
        if sign in text.line:
            return f"no words come after '{sign}' in a plain script: {_COMMENT}"
    unit = INDEX.read(text.word(1))
    if text.first in (DISK, TAPE) and text.word(3) == LEFT_TO_IMAGE and unit is not None:
        return on_missing_size(unit, images)
    return None
