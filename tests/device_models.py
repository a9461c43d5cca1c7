"""What a disk without keys and a tape do with some commands: docs/SPECIFICATION.md, written again in Python.

A device changes in place. It knows bytes and no storage: a command gets the bytes that its program gives, and answers with those
that the program is to get.
"""

from dataclasses import dataclass, field

NORMAL, MODIFIER, CHECK, EXCEPTION = 0x0C, 0x4C, 0x0E, 0x0D
REJECTED, EQUIPMENT_CHECK, NO_RECORD_FOUND, FILE_PROTECTED = 0x8000, 0x1000, 0x0008, 0x0004
NO_OPERATION = 0x03


@dataclass
class Acted:
    """The answer to a command: status, sense, how many bytes it wants to move, and those that it gives."""

    unit: int = NORMAL
    sub: int = 0
    sense: int = 0
    want: int = 0
    gives: bytes = b""


def check(sense: int) -> Acted:
    return Acted(unit=CHECK, sense=sense)


@dataclass
class Record:
    cchhr: bytes
    data: bytes


class Disk:
    """Seek, search ID equal, read data, read count, write data."""

    kind = "disk"
    outputs, inputs = (0x07, 0x31, 0x05), (0x06, 0x12)

    def __init__(self, cylinders: int, heads: int, _: int) -> None:
        self.heads = heads
        self.tracks = {(c, h): [Record(bytes([0, c, 0, h, 0]), bytes(8))] for c in range(cylinders) for h in range(heads)}

    def prefix(self, seek: bytes, mask: int) -> None:
        self.records = self.tracks[int.from_bytes(seek[3:5], "big"), int.from_bytes(seek[5:7], "big")]
        self.inhibits_writes = mask & 0xC0 == 0x40
        # the record that went by last, and whether its data is still to come; index points; the record that a search found
        self.at, self.is_before_data, self.passes, self.found = -1, False, 0, False

    def act(self, code: int, given: bytes) -> Acted:
        found, self.found = self.found, False
        passes, self.passes = self.passes, 0
        if code == 0x31:
            return self.search(given, passes)
        if code in self.inputs:
            return self.read(is_count=code == 0x12)
        if code == 0x05 and found and not self.inhibits_writes:
            return self.write(given)
        # the file masks of DCBs inhibit seeks
        return check(FILE_PROTECTED if code == 0x07 else REJECTED)

    def search(self, given: bytes, passes: int) -> Acted:
        at = (self.at + 1) % len(self.records)
        # a search from the index point on passes none to come to R0
        self.passes = passes + (at == 0 and self.at >= 0)
        if self.passes == 2:
            self.passes = 0
            return check(NO_RECORD_FOUND)
        self.at, self.is_before_data = at, True
        count = min(len(given), 5)
        self.found = given[:count] == self.records[at].cchhr[:count]
        return Acted(unit=MODIFIER if self.found else NORMAL, want=5)

    def read(self, is_count: bool) -> Acted:
        if is_count or not self.is_before_data:
            if len(self.records) == 1:
                return check(NO_RECORD_FOUND)
            self.at = self.at % (len(self.records) - 1) + 1 if self.at > 0 else 1
        it = self.records[self.at]
        self.is_before_data = is_count
        some = it.cchhr + bytes([0]) + len(it.data).to_bytes(2, "big") if is_count else it.data
        return Acted(unit=NORMAL if it.data or is_count else EXCEPTION, want=len(some), gives=some)

    def write(self, given: bytes) -> Acted:
        it = self.records[self.at]
        it.data, self.is_before_data = given.ljust(len(it.data), b"\0")[: len(it.data)], False
        return Acted(unit=NORMAL if it.data else EXCEPTION, want=len(it.data))


class Tape:
    """Write, read, rewind, write tape mark, backspace block. Its items are blocks, and marks, which are None."""

    kind, heads = "tape", 0
    outputs, inputs = (0x01,), (0x02,)

    def __init__(self, size: int) -> None:
        self.size, self.items, self.at = size, list[bytes | None](), 0

    def prefix(self, seek: bytes, mask: int) -> None:
        """A tape has no disk address."""

    def act(self, code: int, given: bytes) -> Acted:
        if code in (0x01, 0x1F):
            return self.write(given if code == 0x01 else None)
        if code == 0x07:
            self.at = 0
            return Acted()
        if code not in (0x02, 0x27):
            return check(REJECTED)
        to = self.at + (1 if code == 0x02 else -1)
        if not 0 <= to <= len(self.items):
            return check(EQUIPMENT_CHECK if code == 0x02 else REJECTED)
        item, self.at = self.items[min(to, self.at)], to
        if item is None:
            return Acted(unit=EXCEPTION)
        return Acted(want=len(item), gives=item) if code == 0x02 else Acted()

    def write(self, item: bytes | None) -> Acted:
        items = [*self.items[: self.at], item]
        if sum(4 + len(it or b"") for it in items) > self.size:
            return check(EQUIPMENT_CHECK)
        self.items, self.at = items, len(items)
        return Acted(want=len(item or b""))


@dataclass
class Device:
    """A medium on its drive, the commands that meet a fault, by their numbers, and how many commands it did."""

    medium: Disk | Tape
    faults: dict[int, Acted] = field(default_factory=dict)
    done: int = 0

    def act(self, code: int, given: bytes) -> Acted:
        self.done += 1
        fault = self.faults.get(self.done)
        if fault or code == NO_OPERATION:
            # a disk forgets what its searches found
            self.medium.act(NO_OPERATION, b"")
            return fault or Acted()
        return self.medium.act(code, given)
