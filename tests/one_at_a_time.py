"""A unit that serves its requests one at a time: the definitions of crates/serial_order/specs/OneAtATime.antt, with their names, in
their order."""

from copy import deepcopy
from dataclasses import dataclass

from channel_programs import CHECK_OR_EXCEPTION, UNIT_CHECK, Area, Program, Status, step
from device_models import MODIFIER, NORMAL, Device

ENDED, PERMANENT_ERROR, EXTENT_VIOLATED, PURGED, RETRY = 0x7F, 0x41, 0x42, 0x48, -1
ERRORS = PERMANENT_ERROR, EXTENT_VIOLATED
INPUT_MASK, OUTPUT_MASK = 0x58, 0x18
IO_ERROR = 0x04


@dataclass(frozen=True)
class Opening:
    """What a DCB was opened with. Of each extent: the numbers of its first and its last track."""

    is_input: bool
    extents: tuple[tuple[int, int], ...]


@dataclass(frozen=True)
class Request:
    dcb: int
    related: bool
    start: int
    seek: bytes
    iob: int
    ecb: int
    base: int
    area: bytes


@dataclass(frozen=True)
class PostedState:
    code: int
    status: Status
    area: Area


@dataclass
class Rest:
    """A unit between two requests: its device, and which DCBs have the error flag."""

    device: Device
    in_error: frozenset[int]


@dataclass
class Served:
    """The result of serving a request."""

    device: Device
    value: PostedState


def posted_value(r: Request, status: Status, code: int, area: Area) -> PostedState:
    """The post writes the IOB and the ECB last."""
    flags = area.get(r.iob, 1)[0] & ~IO_ERROR | (0 if code == ENDED else IO_ERROR)
    area.put(r.iob, bytes([flags]))
    area.put(r.iob + 2, status.sense.to_bytes(2, "big") + bytes([code]))
    area.put(r.iob + 9, status.address.to_bytes(3, "big") + bytes([status.unit, status.sub]) + status.residual.to_bytes(2, "big"))
    area.put(r.ecb, bytes([code, 0, 0, 0]))
    return PostedState(code, status, area)


def verdict(kind: str, status: Status, attempt: int) -> int:
    """The code of the post, or RETRY."""
    unit, sub, sense = status.unit, status.sub, status.sense
    if unit in (NORMAL, MODIFIER) and not sub:
        return ENDED
    is_passing_error = unit & CHECK_OR_EXCEPTION == UNIT_CHECK and not sub and bool(sense & 0x3C00) and not sense & 0xC0FF
    is_channel_error = not unit & CHECK_OR_EXCEPTION and sub in (0x08, 0x02, 0x0A)
    return RETRY if kind == "disk" and attempt <= 10 and (is_passing_error or is_channel_error) else PERMANENT_ERROR


class OneAtATime:
    """The unit, by its device as mounted and its openings. A mutant is a subclass."""

    def __init__(self, mounted: Device, openings: dict[int, Opening]) -> None:
        self.mounted, self.openings = mounted, openings

    def without_start(self, u: Rest, r: Request, code: int) -> Served:
        return Served(u.device, posted_value(r, Status(), code, Area(r.base, bytearray(r.area))))

    def with_program(self, r: Request, p: Program, code: int) -> Served:
        return Served(p.device, posted_value(r, p.ended or Status(), code, p.area))

    def flags_after(self, in_error: frozenset[int], r: Request, code: int) -> frozenset[int]:
        return in_error | {r.dcb} if code in ERRORS and r.related else in_error

    def is_turned_away(self, u: Rest, r: Request) -> bool:
        return r.dcb not in self.openings or (r.related and r.dcb in u.in_error)

    def attempt(self, r: Request, device: Device, area: bytes) -> Program:
        device.medium.prefix(r.seek, INPUT_MASK if self.openings[r.dcb].is_input else OUTPUT_MASK)
        return Program(r.start, device, Area(r.base, bytearray(area)))

    def to_end(self, p: Program) -> Program:
        while not p.ended:
            step(p)
        return p

    def verdict_on(self, number: int, p: Program) -> int:
        return verdict(self.mounted.medium.kind, p.ended or Status(), number)

    def passes_extents(self, r: Request) -> bool:
        if self.mounted.medium.kind != "disk":
            return True
        heads, extents = self.mounted.medium.heads, self.openings[r.dcb].extents
        module, bin_, cylinder, head = (int.from_bytes(r.seek[at:to], "big") for at, to in ((0, 1), (1, 3), (3, 5), (5, 7)))
        first, last = extents[module] if module < len(extents) else (1, 0)
        return bin_ == 0 and head < heads and first <= cylinder * heads + head <= last

    def attempts_from(self, left: int, number: int, r: Request, p: Program) -> Served:
        p = self.to_end(p)
        found = self.verdict_on(number, p)
        if found != RETRY:
            return self.with_program(r, p, found)
        if not left:
            return self.with_program(r, p, PERMANENT_ERROR)
        return self.attempts_from(left - 1, number + 1, r, self.attempt(r, p.device, bytes(p.area.image)))

    def serve(self, u: Rest, r: Request) -> Served:
        if self.is_turned_away(u, r):
            return self.without_start(u, r, PURGED)
        if self.passes_extents(r):
            return self.attempts_from(10, 1, r, self.attempt(r, u.device, r.area))
        return self.without_start(u, r, EXTENT_VIOLATED)

    def rest_after(self, u: Rest, r: Request, served: Served) -> Rest:
        return Rest(served.device, self.flags_after(u.in_error, r, served.value.code))

    def serve_all(self, requests: list[Request]) -> tuple[list[PostedState], Rest]:
        """As `serve_all` and `after_all` of a fresh rest: a device changes in place, so each request is served once."""
        u, values = Rest(deepcopy(self.mounted), frozenset()), []
        for r in requests:
            served = self.serve(u, r)
            u = self.rest_after(u, r, served)
            values.append(served.value)
        return values, u

    def one_at_a_time(self, requests: list[Request]) -> list[PostedState]:
        return self.serve_all(requests)[0]

    def device_after(self, requests: list[Request]) -> Device:
        return self.serve_all(requests)[1].device
