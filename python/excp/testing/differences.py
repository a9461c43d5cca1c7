"""What differs between the lines that a job prints and those that are expected."""

from __future__ import annotations

import difflib
from typing import List, Sequence, Tuple

# The most lines of a text that are compared, and the most lines of a diff that are shown.
_MOST_COMPARED = 500
_MOST_SHOWN = 100

_CONTEXT = 2
_CUT = "(no more lines are compared)"


# A text with its name.
Named = Tuple[str, Sequence[str]]


def difference(expected: Named, got: Named) -> List[str]:
    """A unified diff of expected lines and printed ones. Of many lines it has the first that
    differ."""
    (old_name, old), (new_name, new) = expected, got
    if max(len(old), len(new)) > _MOST_COMPARED:
        begin = max(0, _common(old, new) - _CONTEXT)
        old_name, new_name = (f"{it}, from line {begin + 1}" for it in (old_name, new_name))
        old, new = (it[begin : begin + _MOST_COMPARED] for it in (old, new))
    lines = list(difflib.unified_diff(old, new, old_name, new_name, lineterm="", n=_CONTEXT))
    return lines if len(lines) <= _MOST_SHOWN else [*lines[:_MOST_SHOWN], _CUT]


def _common(first: Sequence[str], second: Sequence[str]) -> int:
    """How many lines are the same at the beginning."""
    both = enumerate(zip(first, second))
    return next((place for place, (a, b) in both if a != b), min(len(first), len(second)))
