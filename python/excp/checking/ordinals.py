"""Faults that no unit meets: its requests have fewer commands than come before them."""

from __future__ import annotations

from bisect import bisect
from collections import Counter
from typing import Iterator, Mapping, NamedTuple, Optional, Sequence

from ..device_commands import DISK, Flag, Flow, Op, command_of
from ..script.ccw import CCW_BYTES, PlacedCcw
from ..script.grammar import Area, Excp
from ..script.media import Reason
from ..script.reading import count_of
from ..script.set_up import Unit
from .channel import Broken, Part, fetched, parts_of
from .requests import iob_of

# The most CCWs that an attempt fetches.
_MOST_FETCHED = 4096

# The most commands of a program that are looked at.
_MOST_COMMANDS = 256

_SEARCHES = (Op.SIDE, Op.SKE)
_READS = (Flow.INPUT, Flow.BACKWARD)


class _Node(NamedTuple):
    """A command of a program: the address where it is fetched, and whether it is the first one."""

    at: int
    is_first: bool


# The commands that may follow each command of a program; None if a CCW breaks a rule there.
_Graph = Mapping[_Node, Optional[Sequence[_Node]]]


def unmet_faults(
    units: Sequence[Unit], areas: Sequence[Area], requests: Sequence[Excp]
) -> Iterator[Reason]:
    """Each fault of a command that is sure not to come, of a script without faults."""
    for number, unit in enumerate(units):
        if unit.faults:
            yield from _unmet(number, unit, areas, [it for it in requests if it.unit == number])


def _unmet(
    number: int, unit: Unit, areas: Sequence[Area], requests: Sequence[Excp]
) -> Iterator[Reason]:
    counts = Counter((it.area, it.iob) for it in requests)
    most = {it: _most_of(unit, areas[it[0]], it[1]) for it in counts}
    total = sum(most[it] * count for it, count in counts.items())
    for before, fault in enumerate(unit.faults):
        # only a fault before it makes the supervisor try a program again
        bound = total + before * max(most.values(), default=0)
        if fault.ordinal > bound:
            never = f"command {fault.ordinal} of unit {number} never comes"
            why = f"its requests have at most {count_of(bound, 'command')}"
            if not requests:
                why = "no excp names this unit"
            yield Reason(fault.line, f"{never}: {why}")


def _most_of(unit: Unit, area: Area, at: int) -> int:
    """The most commands of an attempt of the program of an IOB. One that may come back to a
    command, or change its CCWs, has as many as a channel fetches."""
    iob = iob_of(at, area)
    longest = None if iob is None else longest_path(unit.device, area, iob.start)
    return _MOST_FETCHED if longest is None else longest


def longest_path(device: str, area: Area, start: int) -> Optional[int]:
    """The most commands of a program, None if it may come back to one, or read over a CCW."""
    places: set[int] = set()
    reads: list[Part] = []
    graph = _graph_of(device, area, start, places, reads)
    if graph is None or _covers_one(reads, sorted(places)):
        return None
    return _longest(graph, _Node(start, True))


def _graph_of(
    device: str, area: Area, start: int, places: set[int], reads: list[Part]
) -> Optional[_Graph]:
    """The commands of a program. Adds where its CCWs are, and what they read. None if they are too
    many, or if what they read depends on addresses in storage."""
    graph: dict[_Node, Optional[Sequence[_Node]]] = {}
    left = [_Node(start, True)]
    while left:
        node = left.pop()
        if node in graph:
            continue
        graph[node] = None
        if len(graph) > _MOST_COMMANDS:
            return None
        try:
            chain = fetched(area, node.at, may_transfer=not node.is_first, places=places)
        except Broken:
            continue
        command = command_of(device, chain[0].command)
        if command is not None and command.flow in _READS:
            if any(ccw.has(Flag.IDA) for ccw in chain):
                return None
            reads += _parts(area, command.flow, chain)
        graph[node] = following = _following(device, chain)
        left += following
    return graph


def _parts(area: Area, flow: Flow, chain: Sequence[PlacedCcw]) -> Sequence[Part]:
    """What a command reads, each part from its lowest address on; nothing if a CCW breaks a
    rule."""
    try:
        parts = [part for ccw in chain for part in parts_of(area, flow, ccw)]
    except Broken:
        return []
    if flow is Flow.BACKWARD:
        return [Part(it.address + 1 - it.length, it.length) for it in parts]
    return parts


def _following(device: str, chain: Sequence[PlacedCcw]) -> Sequence[_Node]:
    """Where the next command may be: a search that finds its record skips a CCW."""
    last = chain[-1]
    if not last.has(Flag.CC):
        return ()
    is_search = device == DISK and chain[0].command in _SEARCHES
    return [_Node(last.at + CCW_BYTES * skip, False) for skip in range(1, 3 if is_search else 2)]


def _covers_one(reads: Sequence[Part], places: Sequence[int]) -> bool:
    """Whether a CCW at one of these addresses, in rising order, may be read over."""
    for part in reads:
        after = bisect(places, part.address - CCW_BYTES)
        if after < len(places) and places[after] < part.address + part.length:
            return True
    return False


def _longest(graph: _Graph, first: _Node) -> Optional[int]:
    """The most commands on a way through a graph; None if a way comes back to a command."""
    entries = Counter(it for following in graph.values() for it in following or ())
    depths: dict[_Node, int] = {first: 0}
    ready = [first] if not entries[first] else []
    longest = done = 0
    while ready:
        node = ready.pop()
        done += 1
        following = graph[node]
        depth = depths[node] + (following is not None)
        longest = max(longest, depth)
        for it in following or ():
            depths[it] = max(depths.get(it, 0), depth)
            entries[it] -= 1
            if not entries[it]:
                ready.append(it)
    return longest if done == len(graph) else None
