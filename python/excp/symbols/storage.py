"""An area of a plain script, and what follows from the script's requests of its bytes.

Each request names an IOB, which names its ECB and its channel program.
"""

from __future__ import annotations

from typing import Dict, Mapping, NamedTuple, Optional

from ..device_commands import DISK, Flag, Op
from ..script.ccw import CCW_BYTES, PlacedCcw

# The bytes of a block, whose address an indirect data address word has.
_BLOCK = 2048

_SEARCHES = {(DISK, Op.SIDE), (DISK, Op.SKE)}


class Part(NamedTuple):
    """What begins at a byte: the name of its labels, its bytes, its boundary, and of a CCW the
    kind of its device."""

    name: str
    size: int
    boundary: int
    device: str = ""


DATA, IOB, ECB, IDAW = (
    Part("DATA", 1, 1),
    Part("IOB", 40, 4),
    Part("ECB", 4, 4),
    Part("IDAW", 4, 4),
)


def number_in(image: bytes) -> int:
    """The number in bytes, the highest byte first."""
    return int.from_bytes(image, "big")


class Storage:
    """An area, and what is known of its bytes."""

    def __init__(self, base: int, image: bytes) -> None:
        self.base, self.end, self._image = base, base + len(image), image
        # What begins at a byte; None at the further bytes of a part.
        self._parts: list[Optional[Part]] = [DATA] * len(image)
        # The addresses that something has, and those before which the data of a CCW end.
        self._named: set[int] = set()
        self._ends: set[int] = set()

    def bytes_at(self, address: int, size: int) -> Optional[bytes]:
        """Bytes from an address on, if they are all in the area."""
        start = address - self.base
        if not 0 <= start <= len(self._image) - size:
            return None
        return self._image[start : start + size]

    def part(self, address: int) -> Optional[Part]:
        """What begins at an address of the area."""
        return self._parts[address - self.base]

    # What requests say.

    def add_request(self, iob: int, device: str) -> Mapping[int, bool]:
        """Notes the parts of a request on a device of this kind: its IOB, its ECB, and its channel
        program. Returns the addresses of the CCWs that are new in it, each with whether it goes on
        with a command's data."""
        image = self.bytes_at(iob, IOB.size)
        if image is None or not self._claim(iob, IOB):
            return {}
        ecb, start = number_in(image[5:8]), number_in(image[17:20])
        self._named |= {ecb, start}
        self._claim(ecb, ECB)
        return self._add_program(start, device)

    def _claim(self, address: int, part: Part) -> bool:
        """Notes that a part begins at an address, if all its bytes are in the area and nothing is
        known of them."""
        start, end = address - self.base, address - self.base + part.size
        if start < 0 or end > len(self._parts):
            return False
        if any(it is not DATA for it in self._parts[start:end]):
            return False
        self._parts[start:end] = [part] + [None] * (part.size - 1)
        return True

    def _add_program(self, start: int, device: str) -> Mapping[int, bool]:
        """Notes each CCW to which a program may come. A search that finds its record skips one."""
        found: Dict[int, bool] = {}
        # the address of a CCW and, if it goes on with a command's data, whether that is a search
        steps: list[tuple[int, Optional[bool]]] = [(start, None)]
        while steps:
            at, searches = steps.pop()
            image = self.bytes_at(at, CCW_BYTES)
            if image is None or not self._claim(at, Part("CCW", CCW_BYTES, 8, device)):
                continue
            ccw = PlacedCcw.of(at, image)
            found[at] = searches is not None
            self._named.add(ccw.address)
            if ccw.is_transfer:
                steps.append((ccw.address, searches))
                continue
            self._add_data(ccw)
            if searches is None:
                searches = (device, ccw.command) in _SEARCHES
            if ccw.has(Flag.CD):
                steps.append((at + CCW_BYTES, searches))
            elif ccw.has(Flag.CC):
                steps.append((at + CCW_BYTES, None))
                if searches:
                    steps.append((at + 2 * CCW_BYTES, None))
        return found

    def _add_data(self, ccw: PlacedCcw) -> None:
        if ccw.has(Flag.IDA):
            self._add_address_words(ccw)
        else:
            self._ends.add(ccw.address + ccw.count)

    def _add_address_words(self, ccw: PlacedCcw) -> None:
        """Notes the indirect data address words of a CCW: one for each block that its data
        reach."""
        first = self.bytes_at(ccw.address, IDAW.size)
        further = max(0, ccw.count - (_BLOCK - number_in(first) % _BLOCK)) if first else 0
        count = -(-further // _BLOCK) + 1
        for address in range(ccw.address, ccw.address + IDAW.size * count, IDAW.size):
            image = self.bytes_at(address, IDAW.size)
            if image is not None and self._claim(address, IDAW):
                self._named.add(number_in(image))

    # What a listing asks.

    def label(self, address: int) -> str:
        """The label of the part that begins at an address, with its colon, if something has the
        address of one of its bytes."""
        part = self.part(address)
        if part is None or not any(
            it in self._named for it in range(address, address + part.size)
        ):
            return ""
        return f"{part.name}{address:06X}:"

    def end_of_data(self, address: int) -> int:
        """The address before which the data from this one end."""
        for at in range(address + 1, self.end):
            if at in self._named or at in self._ends or self.part(at) is not DATA:
                return at
        return self.end

    def operand(self, address: int) -> str:
        """An address as an operand: a label, one with a distance, or a number outside of the
        area."""
        if not self.base <= address < self.end:
            return f"X'{address:06X}'"
        start = address
        part = self.part(start)
        while part is None:
            start -= 1
            part = self.part(start)
        distance = f"+{address - start}" if address > start else ""
        return f"{part.name}{start:06X}{distance}"
