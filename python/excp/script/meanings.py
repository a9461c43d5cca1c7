"""What each line of a script or a scenario means, in words. docs/MANUAL.md has them, by
`tools/reference.py`."""

from __future__ import annotations

from typing import Mapping, NamedTuple

from .limits import (
    HIGHEST_ADDRESS, LEAST_TAPE_BYTES, LEAST_TRACK_BYTES, MOST_AREA_BYTES, MOST_DATA_BYTES,
    MOST_LINES, MOST_MEDIUM_BYTES, MOST_PAGES, MOST_TASKS, MOST_TRACK_BYTES, MOST_TRACKS,
)

_TRACKS = f"{MOST_TRACKS:,} tracks, each of {LEAST_TRACK_BYTES} to {MOST_TRACK_BYTES:,} bytes"
_PAPER = f"1 to {MOST_LINES:,} printed lines, on 1 to {MOST_PAGES:,} pages"
_JOINED = f"up to {MOST_AREA_BYTES:,} bytes, the words joined, below X'{HIGHEST_ADDRESS + 1:X}'"

# By the first words of lines, with the words of their forms.
MEANINGS: Mapping[str, str] = {
    "tasks": f"1 to {MOST_TASKS} tasks, numbered from 0",
    "disk": f"unit U: at most {_TRACKS}, and {MOST_MEDIUM_BYTES:,} bytes in all",
    "tape": f"unit U: a tape of {LEAST_TAPE_BYTES} to {MOST_MEDIUM_BYTES:,} bytes",
    "printer": f"unit U: {_PAPER}",
    "rec": "the next record of a track of disk U: number R from 1, key, data",
    "block": f"the next item of tape U: a block of 1 to {MOST_DATA_BYTES:,} bytes",
    "mark": "the next item of tape U: a tape mark",
    "fault": "command ORDINAL of unit U fails once, with unit status UU, subchannel status SS and "
    "sense XXXX",
    "open": "the next DCB of unit U, from 1; a tape or a printer has no extent",
    "area": f"area A at ADDR, a multiple of 8: {_JOINED}",
    "excp": "issues a request on a copy of area A, with the IOB at that address; prints LEN bytes "
    "from SHOW",
    "purge": "purges the requests of a DCB of unit U",
    "purgetask": "purges the requests of task X on every unit, in order of units",
    "close": "closes a DCB; if it is closed, nothing changes",
    "reset": "clears the error flag of a DCB; if it is not open, nothing changes",
    "wait": "waits until it has the posts of all its requests so far",
}


class Event(NamedTuple):
    """What an event of a scenario does, and what it answers."""

    says: str
    answers: str


_NO_DCB = "`NoSuchDcb`"

# By the first words of lines, those that a script has too among them.
EVENTS: Mapping[str, Event] = {
    "excp": Event(
        "issues a request",
        "`Accepted T U N`; `Full` if the row to the unit is full; `NoNumber` after the last "
        "number",
    ),
    "take": Event(
        "the first request on its way to unit U arrives",
        "`Took T U N`; `Held` if the unit is full",
    ),
    "start": Event(
        "starts what comes next",
        "`Started T U N`; `Violated T U N` if posted 42; `Busy` while a program runs or its status "
        "is pending; `Idle` if nothing waits",
    ),
    "run": Event(
        "the active program does up to N commands, 1 to 65,535",
        "`Ran C`; `Ran C pending` if its status is pending now",
    ),
    "interrupt": Event(
        "takes the pending status",
        "`Ended T U N CODE`; `Again T U N` if it is to be tried again",
    ),
    "deliver": Event(
        "the first posted request goes on its way to its task",
        "`Delivered T U N`; `Full T U N` if the row to the task is full",
    ),
    "collect": Event("task T collects its next post", "the `post` line of a run"),
    "purge": Event(
        "purges a DCB",
        f"`Active T U N` if a covered request is active after it; {_NO_DCB}",
    ),
    "purgetask": Event("purges task X", "the answers of all units, in order, with commas"),
    "purgetaskat": Event("purges task X on unit U alone", "as `purge`"),
    "close": Event(
        "closes a DCB", f"`Closed`; `Closing T U N` until this request has ended; {_NO_DCB}"
    ),
    "reset": Event("clears the error flag of a DCB", f"`Reset`; {_NO_DCB} if none is open"),
    "open": Event(
        "opens a DCB, also between events", "`Opened N`; `BadExtent`; `TooManyDcbs`"
    ),
    "settle": Event("ends all that waits or is active at unit U", "`Settled`"),
    "serve": Event(
        "takes, starts, runs, interrupts and delivers, until nothing changes",
        "the answers of `deliver`, with commas",
    ),
    "finish": Event(
        "ends all, and the scenario",
        "`Finished N`, and on N lines the posts that no task collected",
    ),
    "expect": Event(
        "no event: the answer of the one before it; further `expect` lines have its further lines",
        "a text on standard error, and in the end status 1, if the answer differs",
    ),
}

# What `room` limits, by its second word.
SIZES: Mapping[str, str] = {
    "intake": "the requests on their way to each unit",
    "post": "the posts on their way to each task",
    "book": "the requests at unit U",
}
