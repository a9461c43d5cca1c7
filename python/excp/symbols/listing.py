"""Listings: a plain script with each area in symbols, and with the address and the bytes of each
statement beside it. `assemble` makes the same bytes of a listing again."""

from __future__ import annotations

import struct
from collections import defaultdict
from typing import Iterator, Mapping, NamedTuple, Optional

from ..device_commands import DEVICES, FLAGS, Op, command_of
from ..script.ccw import RESERVED, PlacedCcw
from ..script.limits import HIGHEST_ADDRESS
from .constants import EBCDIC
from .storage import DATA, ECB, IDAW, IOB, Part, Storage, number_in

# The columns at which an operation and the comment begin, the width of the name of an operation,
# and the most characters of a constant.
_OPERATION, _COMMENT, _NAME, _MOST_CHARACTERS = 12, 67, 6, 40

# The bytes of a line, and the fewest zeros between other bytes that get a line of their own.
_BESIDE = 8

# The bytes that constants of text have: the printable ASCII characters.
_TEXT = frozenset(bytes(range(0x20, 0x7F)).decode("ascii").encode(EBCDIC))

# The flags of an IOB: of command chaining, and of an unrelated request.
_CHAINING, _UNRELATED = 0x40, 0x02


class _Statement(NamedTuple):
    """A statement of a listing."""

    name: str
    operands: str = ""


class _Row(NamedTuple):
    """A statement, its address, the bytes beside it, and a note after the first eight of them."""

    statement: _Statement
    at: int
    beside: bytes
    note: str = ""

    def lines(self, label: str) -> Iterator[str]:
        """The statement with the comment beside it. Further lines have further bytes."""
        name, operands = self.statement
        code, note = f"{label:{_OPERATION}}{name:{_NAME}}{operands}", self.note
        for line in beside(code, self.at, self.beside):
            yield f"{line} {note}" if note else line
            note = ""


def beside(code: str, address: int, image: bytes) -> Iterator[str]:
    """A statement with its address and its bytes in a comment. Further lines have further bytes."""
    for start in range(0, max(1, len(image)), _BESIDE):
        digits = image[start : start + _BESIDE].hex().upper()
        yield f"{code:{_COMMENT}} ; {address + start:06X} {digits}".rstrip()
        code = ""


class _Requests:
    """The requests of a script: the addresses of their IOBs and the kinds of their devices, by the
    numbers of their areas."""

    def __init__(self, lines: list[list[str]]) -> None:
        devices = [first for first, *_ in lines if first in DEVICES]
        self.by_area: defaultdict[int, list[tuple[int, str]]] = defaultdict(list)
        for words in lines:
            if words[0] == "excp":
                try:
                    request = int(words[4], 16), devices[int(words[2])]
                    self.by_area[int(words[5])].append(request)
                except (IndexError, ValueError):
                    # a line with a fault
                    continue


def listing(script: bytes) -> bytes:
    """The listing of a plain script that a run accepts. Of any other script, a line that has a
    fault stays as it is."""
    areas = listed_areas(script)
    lines = enumerate(script.decode("latin-1").split("\n"), 1)
    return "\n".join(areas.get(number, line) for number, line in lines).encode("latin-1")


def listed_areas(script: bytes) -> Mapping[int, str]:
    """The areas of a plain script in symbols, by the numbers of their lines."""
    lines = script.decode("latin-1").split("\n")
    words = [[it for it in line.split(" ") if it] or [""] for line in lines]
    requests = _Requests(words)
    areas: dict[int, str] = {}
    for number, line in enumerate(words, 1):
        storage = _storage(line) if line[0] == "area" else None
        if storage is not None:
            for iob, device in requests.by_area[len(areas)]:
                storage.add_request(iob, device)
            opening = f"area {len(areas)} {storage.base:06X}"
            areas[number] = "\n".join((opening, *_statements(storage), "endarea"))
    return areas


def _storage(words: list[str]) -> Optional[Storage]:
    """The area that a line declares; None if it has a fault."""
    try:
        image = bytes.fromhex("".join(it for it in words[3:] if it != "-"))
        return Storage(int(words[2], 16), image)
    except (IndexError, ValueError):
        return None


def _statements(storage: Storage) -> Iterator[str]:
    """The lines of the statements of an area."""
    at = storage.base
    while at < storage.end:
        part, label = storage.part(at), storage.label(at)
        # a part begins where the last one ends
        assert part is not None
        end = storage.end_of_data(at) if part is DATA else at + part.size
        image = storage.bytes_at(at, end - at) or b""
        for row in _data(at, image) if part is DATA else [_row(storage, part, at, image)]:
            yield from row.lines(label)
            label = ""
        at = end


def _row(storage: Storage, part: Part, at: int, image: bytes) -> _Row:
    """A part of a request. One that its statement cannot give is a constant."""
    statement = _statement(storage, part, at, image) if at % part.boundary == 0 else None
    if statement is None:
        return _Row(_constant(image), at, image, part.name)
    return _Row(statement, at, image)


def _statement(storage: Storage, part: Part, at: int, image: bytes) -> Optional[_Statement]:
    """The statement of a part of a request, if one gives its bytes."""
    word = number_in(image)
    if part is IOB:
        return _iob(storage, image)
    if part is ECB:
        return _Statement("ECB") if word == 0 else None
    if part is IDAW:
        return _Statement("IDAW", storage.operand(word)) if word <= HIGHEST_ADDRESS else None
    return _ccw(storage, part.device, at, image)


def _constant(image: bytes) -> _Statement:
    return _Statement("DC", f"X'{image.hex().upper()}'")


def _iob(storage: Storage, image: bytes) -> Optional[_Statement]:
    """The statement of an IOB, if one gives its bytes."""
    flags = bytes([_CHAINING | image[0] & _UNRELATED])
    ecb, start, dcb, extent, seek = image[5:8], image[17:20], image[22:24], image[32:33], image[35:]
    given = b"".join(
        (flags, bytes(4), ecb, bytes(9), start, bytes(2), dcb, bytes(8), extent, bytes(2), seek)
    )
    if image != given or not any(dcb):
        return None
    addresses = storage.operand(number_in(ecb)), storage.operand(number_in(start))
    operands = f"ecb={addresses[0]} start={addresses[1]} dcb={number_in(dcb)}"
    if any(seek):
        cylinder, head, record = struct.unpack(">HHB", seek)
        operands += f" seek={cylinder},{head},{record}"
    if any(extent):
        operands += f" extent={extent[0]}"
    return _Statement("IOB", operands if image[0] & _UNRELATED else f"{operands} related")


def _ccw(storage: Storage, device: str, at: int, image: bytes) -> Optional[_Statement]:
    """The statement of a CCW. No word names the two reserved flags, and byte 5 is 0."""
    ccw = PlacedCcw.of(at, image)
    if ccw.flags & RESERVED or ccw.zero:
        return None
    if ccw.command == Op.TIC and not ccw.flags and not ccw.count:
        return _Statement("TIC", storage.operand(ccw.address))
    command = command_of(device, ccw.command)
    operands = [] if command else [f"X'{ccw.command:02X}'"]
    if command is None or not command.needs_no_data or ccw.address or ccw.count != 1:
        operands += [storage.operand(ccw.address), str(ccw.count)]
    operands += [name for name, flag in FLAGS.items() if ccw.has(flag)]
    return _Statement(command.mnemonic if command else "CCW", ",".join(operands))


def _data(at: int, image: bytes) -> Iterator[_Row]:
    """Data: text, zeros and other bytes."""
    start, is_text = 0, _TEXT.issuperset(image)
    while start < len(image):
        zeros = len(image) - start - len(image[start:].lstrip(b"\0"))
        if is_text:
            part = image[start : start + _MOST_CHARACTERS]
            text = part.decode(EBCDIC).replace("'", "''")
            yield _Row(_Statement("DC", f"C'{text}'"), at + start, part[:_BESIDE])
        elif zeros >= _BESIDE or start + zeros == len(image):
            part = bytes(zeros)
            yield _Row(_Statement("DS", str(zeros)), at + start, b"")
        else:
            # the constant ends on a multiple of eight
            part = image[start : start + _BESIDE - (at + start) % _BESIDE]
            yield _Row(_constant(part), at + start, part)
        start += len(part)
