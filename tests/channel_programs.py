"""Channel programs, command by command: docs/SPECIFICATION.md, written again in Python, for CCWs that break no rule and have no
indirect addresses. Their data may be outside the area.
"""

from dataclasses import dataclass

from device_models import MODIFIER, NORMAL, Device

CHAIN_DATA, CHAIN_COMMAND, SUPPRESS_LENGTH, SKIP = 0x80, 0x40, 0x20, 0x10
CHECK_OR_EXCEPTION, UNIT_CHECK, INCORRECT_LENGTH, PROGRAM_CHECK = 0x03, 0x02, 0x40, 0x20


@dataclass
class Area:
    """The storage of a request."""

    base: int
    image: bytearray

    def has(self, at: int, length: int) -> bool:
        return self.base <= at and at + length <= self.base + len(self.image)

    def get(self, at: int, length: int) -> bytes:
        return bytes(self.image[at - self.base : at - self.base + length])

    def put(self, at: int, some: bytes) -> None:
        self.image[at - self.base : at - self.base + len(some)] = some


@dataclass
class Status:
    """A CSW, and the sense with it."""

    address: int = 0
    unit: int = 0
    sub: int = 0
    residual: int = 0
    sense: int = 0


@dataclass
class Program:
    """A channel program in flight: its next CCW, its device and storage, and its status once it has ended."""

    next: int
    device: Device
    area: Area
    ended: Status | None = None


@dataclass
class Link:
    """A CCW that was fetched, and its address."""

    at: int
    code: int
    address: int
    flags: int
    count: int


def chain(area: Area, at: int) -> list[Link]:
    """The CCWs of one command, TICs apart."""
    links: list[Link] = []
    while not links or links[-1].flags & CHAIN_DATA:
        image = area.get(at, 8)
        link = Link(at, image[0], int.from_bytes(image[1:4], "big"), image[4], int.from_bytes(image[6:8], "big"))
        if link.code & 0x0F == 0x08:
            at = link.address
        else:
            links.append(link)
            at += 8
    return links


def receive(area: Area, links: list[Link], some: bytes) -> None:
    for link in links:
        part, some = some[: link.count], some[link.count :]
        if not link.flags & SKIP:
            area.put(link.address, part)


def ending(links: list[Link], moved: int) -> tuple[Link, int]:
    """The CCW where a command ended after it moved some bytes, and the rest of its count."""
    for link in links[:-1]:
        if moved < link.count:
            return link, link.count - moved
        moved -= link.count
    return links[-1], links[-1].count - moved


def step(p: Program) -> None:
    """One command of a program that runs."""
    links, medium = chain(p.area, p.next), p.device.medium
    code = links[0].code
    has_data = code in (*medium.outputs, *medium.inputs)
    outside = next((it for it in links if has_data and not p.area.has(it.address, it.count)), None)
    if outside:
        p.ended = Status(address=outside.at + 8, sub=PROGRAM_CHECK)
        return
    acted = p.device.act(code, b"".join(p.area.get(it.address, it.count) for it in links) if code in medium.outputs else b"")
    receive(p.area, links, acted.gives)
    counted = sum(link.count for link in links)
    end, residual = ending(links, min(counted, acted.want))
    is_shown = acted.want != counted and bool(end.flags & CHAIN_DATA or not end.flags & SUPPRESS_LENGTH)
    is_incorrect = is_shown if has_data else bool(links[0].flags & CHAIN_DATA)
    sub = INCORRECT_LENGTH if is_incorrect and not acted.sub and not acted.unit & CHECK_OR_EXCEPTION else acted.sub
    if links[-1].flags & CHAIN_COMMAND and acted.unit in (NORMAL, MODIFIER) and not sub:
        p.next = links[-1].at + (16 if acted.unit == MODIFIER else 8)
    else:
        p.ended = Status(end.at + 8, acted.unit, sub, residual, acted.sense)
