"""Where on its medium each command of a report was, worked out without the program: by docs/SPECIFICATION.md (disk, tape,
printer), from the set-up lines of the script, its faults, the disk addresses of its requests, and the commands as the report
shows them: CCWs, bytes, status.

The judge keeps a medium of its own for each unit. A place is what the JSON of a run has as `place`; `line_of` is its line in
the text of `report --steps`. A byte that neither the report nor the area of the script shows is unknown, None.
"""

import re

from commands import Command
from harness import require

# What a search compares, what a read leaves the heads after, and the codes of writes.
SEARCHES, READS, WRITES = {0x31: "id", 0x29: "key"}, {0x12: "count", 0x06: "end", 0x0E: "end", 0x1E: "end"}, (0x05, 0x0D, 0x1D)

# How many lines a command spaces, None if it skips to the next page.
PRINTS = {0x01: 0, 0x09: 1, 0x11: 2, 0x19: 3, 0x89: None}
MOVES = {0x0B: 1, 0x13: 2, 0x1B: 3, 0x8B: None}
LINES_OF_PAGE = 66

UNIT_CHECK, UNIT_EXCEPTION, STATUS_MODIFIER, NO_RECORD_FOUND = 0x0200, 0x0100, 0x4000, 0x0008

# How many IDs or keys of a track a place has at most.
MOST_IDS = 64


def hexadecimal(some):
    """Digits of bytes, with `??` for an unknown one."""
    return "".join("??" if it is None else f"{it:02X}" for it in some)


def is_begun_by(field_of_record, given):
    """Whether a field begins with the bytes given, as far as both go; None if that is unknown."""
    pairs = list(zip(field_of_record, given))
    if not pairs or any(one != other for one, other in pairs if None not in (one, other)):
        return False
    return None if any(None in pair for pair in pairs) else True


class Disk:
    """A disk: of each track the records, each with its CCHHR and its key."""

    def __init__(self, cylinders, heads):
        self.tracks = {(c, h): [] for c in range(cylinders) for h in range(heads)}
        for track in self.tracks:
            self.add(*track, 0, "-")

    def add(self, cylinder, head, number, key):
        whole = [*cylinder.to_bytes(2, "big"), *head.to_bytes(2, "big"), number]
        self.tracks[cylinder, head].append((whole, list(bytes.fromhex(key.strip("-")))))

    def start(self, seek):
        self.track = int.from_bytes(seek[3:5], "big"), int.from_bytes(seek[5:7], "big")
        self.records, self.orientation, self.passes, self.compared = self.tracks[self.track], ("index", -1), 0, 0

    def reach(self, here, skips_first):
        """The place of the record that comes next, and how many index points are on the way. It is the last one again if the heads
        are only after one of these parts of it."""
        (where, at), count = self.orientation, len(self.records)
        if where in here:
            return at, 0
        place, passed = (at + 1, 0) if at + 1 < count else (0, 1)
        place += skips_first and place == 0
        return (place, passed) if place < count else (None, 2)

    def act(self, command, given):
        code = command.ccws[0][0]
        if code in SEARCHES and not command.fault:
            return self.search(command, given, SEARCHES[code])
        self.passes = self.compared = 0
        if command.fault or command.status & UNIT_CHECK or code not in (*READS, *WRITES):
            return None
        at = self.orientation[1]
        if code in READS:
            at, _ = self.reach({0x06: ("count", "key"), 0x0E: ("count",)}.get(code, ()), True)
            require(at is not None, "it reads no record, and its end is normal")
        elif code == 0x1D:
            at += 1
            self.records[at:] = [(given[:5], (given[8:] + [0] * given[5])[: given[5]])]
        elif code == 0x0D:
            whole, key = self.records[at]
            self.records[at] = whole, (given + [0] * len(key))[: len(key)]
        self.orientation = READS.get(code, "end"), at
        return self.place(at)

    def search(self, command, given, what):
        place, passed = self.reach(("count",) if what == "key" else (), what == "key")
        self.passes += passed
        is_none, says = self.passes >= 2, bool(command.status & UNIT_CHECK and command.sense & NO_RECORD_FOUND)
        require(is_none == says, f"by its index points it finds {'no' if is_none else 'a'} record")
        if is_none:
            compared, self.passes, self.compared = self.compared, 0, 0
            return self.passed(compared, what)
        self.orientation, self.compared = ("count" if what == "id" else "key", place), self.compared + 1
        due, says = is_begun_by(self.records[place][what == "key"], given), bool(command.status & STATUS_MODIFIER)
        require(due in (None, says), f"by its bytes it is {'' if due else 'not '}equal")
        return {**self.place(place), "equal": says}

    def place(self, nth):
        (cylinder, head), (whole, key) = self.track, self.records[nth]
        is_own = whole[:4] == [*cylinder.to_bytes(2, "big"), *head.to_bytes(2, "big")]
        found = {"cylinder": cylinder, "head": head, "record": whole[4], "nth": nth,
                 **({} if is_own else {"id": hexadecimal(whole)})}
        return {**found, "key": hexadecimal(key)} if key else found

    def passed(self, compared, what):
        some = [hexadecimal(it[what == "key"]) for it in self.records]
        found = {"cylinder": self.track[0], "head": self.track[1], "passed": compared, f"{what}s": some[:MOST_IDS]}
        return {**found, f"{what}s_more": len(some) - MOST_IDS} if len(some) > MOST_IDS else found


class Tape:
    """A tape: of each item whether it is a mark, and how many of them are before the head."""

    def __init__(self):
        self.items, self.at = [], 0

    def start(self, seek):
        """A tape has no disk address."""

    def act(self, command, given):
        code, is_check, at = command.ccws[0][0], bool(command.status & UNIT_CHECK), self.at
        if command.fault or (code in (0x01, 0x1F) and is_check):
            return None
        if code in (0x01, 0x1F):
            self.items[at:] = [code == 0x1F]
        is_file = code in (0x3F, 0x2F)
        if code in (0x01, 0x1F, 0x02, 0x37, 0x3F):
            item = next((it for it in range(at, len(self.items)) if self.items[it] or not is_file), None)
            self.at = item + 1 if item is not None else len(self.items) if is_file else at
        elif code in (0x0C, 0x27, 0x2F):
            item = next((it for it in reversed(range(at)) if self.items[it] or not is_file), None)
            self.at = item or 0
        else:
            self.at = 0 if code == 0x07 else at
            return None
        require(is_check == (item is None), f"after {at} of {len(self.items)} items it ends with {command.status:04X}")
        if item is None or is_file or code in (0x01, 0x1F):
            return None if item is None else {"item": item + 1}
        require(bool(command.status & UNIT_EXCEPTION) == self.items[item],
                f"item {item + 1} is {'a' if self.items[item] else 'no'} mark")
        return {"item": item + 1}


class Printer:
    """A printer: the place of its paper."""

    def __init__(self):
        self.page, self.line = 1, 1

    def start(self, seek):
        """A printer has no disk address."""

    def act(self, command, given):
        code, before = command.ccws[0][0], {"page": self.page, "line": self.line}
        if command.fault or command.status & UNIT_CHECK or code not in (*PRINTS, *MOVES):
            return None
        lines = {**PRINTS, **MOVES}[code]
        self.line = LINES_OF_PAGE + 1 if lines is None else self.line + lines
        if self.line > LINES_OF_PAGE:
            self.page, self.line = self.page + 1, self.line - LINES_OF_PAGE
        return before if code in PRINTS else {"page": self.page, "line": self.line}


def units_of(script):
    """The units of a script as they are mounted, and of each the numbers of the commands that meet a fault."""
    units, faults = [], []
    for word, *words in filter(None, map(str.split, script.splitlines())):
        if word in ("disk", "tape", "printer"):
            units.append(Disk(int(words[2]), int(words[3])) if word == "disk" else Tape() if word == "tape" else Printer())
            faults.append(set())
        elif word == "rec":
            units[int(words[0])].add(*map(int, words[1:4]), words[4])
        elif word in ("block", "mark"):
            units[int(words[0])].items.append(word == "mark")
        elif word == "fault":
            faults[int(words[0])].add(int(words[1]))
    return units, faults


def line_of(place):
    """The line of a place in the text of a report."""
    if "item" in place or "page" in place:
        return f"item {place['item']}" if "item" in place else f"page {place['page']} line {place['line']}"
    track = f"cylinder {place['cylinder']} head {place['head']}"
    if "passed" in place:
        return f"no record found on {track} after {place['passed']} record{'' if place['passed'] == 1 else 's'}"
    record = f"{track} ID {place['id']}" if "id" in place else f"{track} record {place['record']}"
    key = f", key {place['key']}" if "key" in place else ""
    return f"{record}{key}: {'equal' if place['equal'] else 'not equal'}" if "equal" in place else record


def is_same(due, actual):
    """Whether a place is the due one. An unknown byte may be any."""
    texts = [str(sorted(it.items())) if isinstance(it, dict) else str(it) for it in (due, actual)]
    return re.fullmatch(re.escape(texts[0]).replace(r"\?", "."), texts[1]) is not None


def check(script, requests, events, write=lambda place: place):
    """Fails if a command of a report was elsewhere than by the rules. `requests` has of each request, by task, unit and number,
    the address of its IOB, and its area. `events` has of each unit its commands, and task and number of a request where an attempt
    of it starts. `write` makes of a place what the commands have."""
    units, faults = units_of(script)
    for number, events_of_unit in events.items():
        acted, request = 0, None
        for event in events_of_unit:
            if not isinstance(event, Command):
                at, (base, image) = requests[event[0], number, event[1]]
                # a further attempt goes on with the storage as it is
                request, storage = event, storage if request == event else list(image)
                units[number].start(image[at - base + 32 : at - base + 40])
                continue
            due, acted = None, acted + (not event.is_rule)
            where = f"unit {number}, command {acted}"
            if not event.is_rule:
                require(event.fault == (acted in faults[number]), f"{where}: its fault is {event.fault}")
                due = units[number].act(event, event.given(base, storage))
                event.store(base, storage)
            due = due and write(due)
            require(not event.is_placed or is_same(due, event.place), f"{where} is at '{event.place}', and by the rules at '{due}'")
