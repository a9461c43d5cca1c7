"""Words that several parts of a report have."""

from __future__ import annotations


def counted(number: int, one: str, several: str = "") -> str:
    """How many things of a kind there are. The word for several is that for one with an s, unless
    it is given."""
    return f"{number} {one if number == 1 else several or one + 's'}"


def shown(digits: str) -> str:
    """Bytes in hexadecimal; a hyphen for none."""
    return digits or "-"
