"""Which searches of a job are made, one after the other, until one of them is told."""

from __future__ import annotations

from dataclasses import dataclass, replace
from typing import Optional

from ..stepping.schedule import TURN

# The first search looks between all commands, up to so many states and seconds.
_FIRST_STATES, _FIRST_SECONDS = 20_000, 5

# The most states of a search, unless said otherwise.
_MOST_STATES = 1_000_000


@dataclass(frozen=True)
class Limits:
    """The most commands of a turn, if they are asked for, and where a search ends."""

    turn: Optional[int]
    states: Optional[int]
    seconds: Optional[int]


@dataclass(frozen=True)
class Look:
    """A search: the most commands of a turn, and where it ends. A first one is told only if it
    finds all; one in its place may be coarse, so that halts between other commands are left out."""

    turn: int
    states: Optional[int]
    seconds: Optional[int]
    is_first: bool = False
    is_coarse: bool = False


def first_look(limits: Limits) -> Look:
    """The search that is made first."""
    if limits.turn is not None:
        return Look(limits.turn, limits.states, limits.seconds)
    states = min(_FIRST_STATES, limits.states or _MOST_STATES)
    # with a limit of seconds, half of them are left for another search
    seconds = min(_FIRST_SECONDS, max(1, (limits.seconds or 2 * _FIRST_SECONDS) // 2))
    return Look(1, states, seconds, is_first=True)


def look_in_place(limits: Limits, has_halt: bool, seconds: int) -> Look:
    """The search that is made if the first one did not find all in these seconds. Without a halt
    the length of a turn does not count."""
    left = None if limits.seconds is None else max(1, limits.seconds - seconds)
    look = Look(1, limits.states, left)
    return replace(look, turn=TURN, is_coarse=True) if has_halt else look
