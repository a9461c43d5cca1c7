"""The last line: whether a job is deterministic, and how far the search came."""

from __future__ import annotations

from dataclasses import dataclass
from enum import IntEnum
from typing import Iterator, Optional

from ..script.reading import count_of
from .looks import Look
from .search import MEMORY, STATES, WATCH, WHOLE, Found

_ENDS = {
    WHOLE: "",
    STATES: ", ended by --most-states",
    MEMORY: ", ended by memory",
    WATCH: ", ended by --most-seconds",
}

# What is said of a search at long turns that was made in place of one between all commands.
_COARSE = "; --turn 1 looks between all commands"


class Verdict(IntEnum):
    """What the outcomes of a job come to, as exit statuses: each request has one outcome; one has
    more; or not all were found, so one may have more."""

    DETERMINISTIC = 0
    SEVERAL = 5
    NOT_ALL = 6


@dataclass(frozen=True)
class Told:
    """What was told of what a search found: whether it is wrong about some of it, whether there was
    no time for some, and how many units have several media, if media are sought."""

    has_lost: bool
    is_cut: bool
    units: Optional[int]


@dataclass(frozen=True)
class Counts:
    """What the last line says of a search: how many whole outputs there are, if they are sought;
    and that it leaves no order out, if it does not."""

    has_wholes: bool
    is_reduced: bool


def verdict_of(found: Found, told: Told) -> Verdict:
    """What is found comes to."""
    # a search that misses a request is wrong
    is_all = found.is_complete and not told.has_lost and not told.is_cut and all(found.outcomes)
    if not is_all:
        return Verdict.NOT_ALL
    return Verdict.SEVERAL if _several(found) or told.units else Verdict.DETERMINISTIC


def told_verdict(found: Found, verdict: Verdict, told: Told, look: Look, counts: Counts) -> str:
    """The last line."""
    ended = WATCH if told.is_cut and found.is_complete else found.ended
    limits = ", ".join(_limits(found, look, counts))
    more = _COARSE if look.is_coarse and verdict != Verdict.NOT_ALL else ""
    return f"{_said(found, verdict, told)} ({limits}{_ENDS[ended]}){more}\n"


def _limits(found: Found, look: Look, counts: Counts) -> Iterator[str]:
    yield f"turns of {count_of(look.turn, 'command')}"
    if not counts.is_reduced:
        yield "no reductions"
    yield count_of(found.states, "state")
    if counts.has_wholes:
        yield count_of(len(found.wholes), "whole output")


def _said(found: Found, verdict: Verdict, told: Told) -> str:
    if verdict == Verdict.DETERMINISTIC:
        return "deterministic"
    several = " and ".join(_severals(found, told))
    if verdict == Verdict.SEVERAL:
        return several
    if several:
        return f"not all: at least {several}"
    units = "" if told.units is None else ", and no unit more than one medium,"
    return f"not all: no request has more than one outcome{units} so far"


def _severals(found: Found, told: Told) -> Iterator[str]:
    """How many requests have more than one outcome, and how many units more than one medium."""
    requests, units = _several(found), told.units
    if requests:
        which = "request has" if requests == 1 else "requests have"
        yield f"{requests} {which} more than one outcome"
    if units:
        yield told_units(units)


def told_units(units: int) -> str:
    """That so many units have several media."""
    return f"{units} {'unit has' if units == 1 else 'units have'} more than one medium"


def _several(found: Found) -> int:
    """How many requests have more than one outcome."""
    return sum(len(it) > 1 for it in found.outcomes)
