"""The events of a unit in words, each on a line with the number of its entry."""

from __future__ import annotations

from typing import Callable, Mapping

from ..device_status import NORMAL_END, SENSE_BITS, STATUS_BITS, names_of
from .look import Look
from .record import Members
from .texts import counted

# The reasons for the end of a request that was started. All others keep it from being started.
_AFTER_START = {None: "", "halted": ", halted", "not tried again": ", not tried again: purged"}


def event_line(unit: int, event: Members, look: Look) -> str:
    """The line of an event of a unit, a comment of a script."""
    what = event["what"]
    source = _source(unit, event, look) if what == "arrived" else ""
    line = f"# {event['entry']:5} {_IN_WORDS[what](event)}{source}\n"
    return look.posted(line, event) if what == "posted" else line


def _source(unit: int, event: Members, look: Look) -> str:
    """Where a job in symbols issues the request that arrived, and where its program starts."""
    if look.source is None:
        return ""
    name = event["task"], unit, event["request"]
    request, area = look.source.request(*name), look.area(*name)
    if request is None or area is None:
        return ""
    start = area.operand(int(event["start"], 16)) or event["start"]
    return f", line {request.line}: area {area.number}, start {start}"


def _request(event: Members) -> str:
    return f"task {event['task']} request {event['request']}"


def _opened(event: Members) -> str:
    count = len(event["extents"])
    extents = f", {counted(count, 'extent')}" if count else ""
    return f"DCB {event['dcb']} opened for {event['way']}{extents}"


def _arrived(event: Members) -> str:
    related = ", related" if event["related"] else ""
    return f"{_request(event)} arrived for DCB {event['dcb']}{related}"


def _started(event: Members) -> str:
    again = f" again, attempt {event['attempt']}" if event["attempt"] > 1 else ""
    return f"{_request(event)} started{again}"


def _ran(event: Members) -> str:
    turns = f" in {event['turns']} turns" if event["turns"] != 1 else ""
    return f"{_request(event)} ran {counted(event['commands'], 'command')}{turns}"


def _purged(event: Members) -> str:
    scope = f"task {event['task_purged']}" if "task_purged" in event else None
    scope = scope or f"DCB {event['dcb_purged']}"
    active = "nothing active"
    if event["active"] is not None:
        active = "task {} request {} active".format(*event["active"])
    return f"purge of {scope} with {event['mode']}, {active}"


def _posted(event: Members) -> str:
    csw = f"{event['address']} {event['status']} {event['residual']}"
    end = f"posted {event['code']}, CSW {csw}, sense {event['sense']}"
    why = _AFTER_START.get(event["why"], f", not started: {event['why']}")
    bits = int(event["status"], 16) & ~NORMAL_END, int(event["sense"], 16)
    names = names_of(bits[0], STATUS_BITS) + names_of(bits[1], SENSE_BITS)
    words = f": {', '.join(names)}" if names else ""
    return f"{_request(event)} {end}{words}{why}"


_IN_WORDS: Mapping[str, Callable[[Members], str]] = {
    "opened": _opened,
    "arrived": _arrived,
    "started": _started,
    "ran": _ran,
    "halted": lambda event: f"{_request(event)} halted",
    "purge": _purged,
    "closed": lambda event: f"DCB {event['dcb']} closed",
    "reset": lambda event: f"DCB {event['dcb']} reset",
    "posted": _posted,
}
