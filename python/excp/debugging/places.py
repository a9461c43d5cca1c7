"""Places of storage as they are typed: a label or an address, with a distance, and a length."""

from __future__ import annotations

import re
from typing import Mapping, NamedTuple, Optional

from ..script.suggestions import nearest
from .walk import Walk

# A place with its distance, and the length after a comma.
_PLACE = re.compile(r"([A-Za-z_$#@][\w$#@]*|[0-9A-Fa-f]{6})([+-][0-9]{1,6})?")
_RANGE = re.compile(r"([^,]+?)(?:,([0-9]{1,5}|L'([\w$#@]+)))?")
_ADDRESS = re.compile(r"[0-9A-Fa-f]{6}")

# What an area is called as a whole, whatever its number.
_AREA = "area"

FORM = "a label or six hexadecimal digits, with +N or -N or without"


class Unknown(Exception):
    """What is typed leads to nothing: the sentence on it."""


class Range(NamedTuple):
    """Bytes of storage: the first address, their number, and how they were typed."""

    address: int
    length: int
    name: str


def labels_of(walk: Walk) -> Mapping[str, int]:
    """The labels of the area of the request at hand, with their addresses."""
    source = walk.job.area_source(walk.request.name)
    return {} if source is None else source.labels()


def address_in(word: str, walk: Walk) -> int:
    """The address of a place. Raises Unknown."""
    found = _PLACE.fullmatch(word)
    if found is None:
        raise Unknown(f"'{word}' is no place: expected {FORM}")
    name, distance = found[1], int(found[2] or 0)
    address = labels_of(walk).get(name)
    if address is None and name == _AREA:
        address = walk.storage.base
    if address is None and _ADDRESS.fullmatch(name):
        address = int(name, 16)
    if address is None:
        raise Unknown(_no_label(name, walk))
    return address + distance


def _no_label(name: str, walk: Walk) -> str:
    near = nearest(name, labels_of(walk))
    instead = f"; did you mean '{near}'?" if near else ""
    return f"{name}: the area of this request has no such label{instead}"


def range_in(word: str, walk: Walk, length: Optional[int] = None) -> Range:
    """The bytes of `PLACE,LENGTH` that are in the area. Without a length they are those of the
    statement that has the label, or `length` bytes. Raises Unknown."""
    found = _RANGE.fullmatch(word)
    if found is None:
        raise Unknown(f"'{word}' is no place: expected {FORM}, and then ,LENGTH")
    address = address_in(found[1], walk)
    name = found[3] or found[1]
    count = int(found[2]) if found[2] and found[3] is None else _length(name, walk) or length
    if count is None or count < 1:
        raise Unknown(f"{word}: how many bytes? write {found[1]},LENGTH")
    if not walk.storage.has(address, count):
        area = f"{walk.storage.base:06X} to {walk.storage.end - 1:06X}"
        raise Unknown(f"{word}: the area has the addresses {area}")
    return Range(address, count, word)


def _length(label: str, walk: Walk) -> Optional[int]:
    """The bytes of the statement that has a label, if it has any."""
    source = walk.job.area_source(walk.request.name)
    return None if source is None else source.length(label)
