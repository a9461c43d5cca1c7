"""The answers of events in words, for a terminal."""

from __future__ import annotations

import re
from typing import Sequence

from ..blocks import Code
from ..site import Site
from ..values import Name
from .past import Past

# What an answer says of a request: its name, and its completion code if it ended.
_NAMED = re.compile(r"(?:[A-Za-z]+ )(\d+) (\d+) (\d+)(?: ([0-9A-F]{2})\b)?")


def request_in_words(name: Name) -> str:
    """The name of a request in words."""
    return f"request {name.number} of task {name.task} to unit {name.unit}"


def in_words(answer: str) -> str:
    """What the numbers of an answer mean; nothing if it names no request."""
    return ", ".join(_named(it) for it in _NAMED.finditer(answer))


def _named(found: re.Match[str]) -> str:
    task, unit, number = map(int, found.group(1, 2, 3))
    request = request_in_words(Name(task, unit, number))
    return request if found[4] is None else f"{request}: {_ended(int(found[4], 16))}"


def _ended(code: int) -> str:
    """A completion code in words."""
    try:
        return Code(code).name.lower().replace("_", " ")
    except ValueError:
        return f"completion code {code:02X}"


def never_taken(site: Site, past: Past) -> Sequence[Name]:
    """The requests that were issued, and that their units have not taken: those that were issued
    last to each unit."""
    left, found = [it.look().in_flight for it in site.units], []
    for name in reversed([*past.requests()]):
        if left[name.unit]:
            left[name.unit] -= 1
            found.append(name)
    return found[::-1]
