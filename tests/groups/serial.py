"""Scripts without controls, each unit used by one task: `run` prints what a unit posts that serves one request at a time, and
`report` the media that it leaves.

tests/one_at_a_time.py computes both, as crates/serial_order defines them. Of each request the whole area is compared. A mutant of
these definitions has to differ from the program on at least one of the scripts, so they reach what it changes.
"""

import functools
import random

from device_models import Acted, Device, Disk, Record, Tape
from harness import Case, Failed, expect, expect_text, require
from one_at_a_time import ENDED, ERRORS, EXTENT_VIOLATED, PERMANENT_ERROR, PURGED, OneAtATime, Opening, Request

SCRIPTS, SCRIPTS_LONG, CASES = 300, 6000, 10
MEDIA, MEDIA_LONG = 60, 600

# --- a script as the definitions take it


def extent_of(word, heads):
    start, start_head, end, end_head = (int(word[at : at + 4], 16) for at in (12, 16, 20, 24))
    return start * heads + start_head, end * heads + end_head


def request_of(dcb, iob, base, image):
    field = image[iob - base : iob - base + 40]
    ecb, start = (int.from_bytes(field[at : at + 3], "big") for at in (5, 17))
    return Request(dcb, not field[0] & 0x02, start, field[32:], iob, ecb, base, image)


def units_of(lines):
    """Of each unit of a script its device, its openings, its requests, and their tasks."""
    units, areas = [], []
    for word, *words in map(str.split, lines):
        if word in ("disk", "tape"):
            units.append((Device({"disk": Disk, "tape": Tape}[word](*map(int, words[2:]))), {}, [], []))
        elif word == "area":
            areas.append((int(words[1], 16), bytes.fromhex("".join(words[2:]))))
        elif word == "excp":
            _, _, requests, tasks = units[int(words[1])]
            requests.append(request_of(int(words[2]), int(words[3], 16), *areas[int(words[4])]))
            tasks.append(int(words[0]))
        elif word not in ("tasks", "wait"):
            device, openings, _, _ = units[int(words[0])]
            add_to(device, openings, word, words[1:])
    return units


def add_to(device, openings, word, words):
    """A line of the set-up of a unit."""
    medium = device.medium
    if word == "rec":
        cylinder, head, number = map(int, words[:3])
        medium.tracks[cylinder, head].append(Record(bytes([0, cylinder, 0, head, number]), bytes.fromhex(words[4])))
    elif word == "fault":
        device.faults[int(words[0])] = Acted(*(int(it, 16) for it in words[1:]))
    elif word == "open":
        openings[len(openings) + 1] = Opening(words[0] == "in", tuple(extent_of(it, medium.heads) for it in words[1:]))
    else:
        medium.items.append(bytes.fromhex(words[0]) if word == "block" else None)


def posts_of(lines, serves=OneAtATime):
    """What `run` prints of a script, by these definitions."""
    posts = []
    for unit, (device, openings, requests, tasks) in enumerate(units_of(lines)):
        for number, (task, it) in enumerate(zip(tasks, serves(device, openings).one_at_a_time(requests)), 1):
            csw = f"{it.status.address:06X} {it.status.unit:02X}{it.status.sub:02X} {it.status.residual:04X} {it.status.sense:04X}"
            posts.append(((task, unit, number), f"{it.code:02X} {csw} {it.area.image.hex().upper()}"))
    printed = [f"post {task} {unit} {number} {post}\n" for (task, unit, number), post in sorted(posts)]
    return "".join([*printed, f"end {len(printed)}\n"])


def media_of(devices):
    """The media as text, without R0, which a report leaves out."""
    media = [it.medium for it in devices]
    return "".join(f"{[records[1:] for records in it.tracks.values()] if it.kind == 'disk' else it.items}\n" for it in media)


# --- scripts at random

# An area: IOB and ECB, up to twelve CCWs, three arguments of searches, and data.
BASE, PROGRAM, ARGUMENTS, DATA, END = 0x1000, 0x1030, 0x1090, 0x10A8, 0x10D0
ROOM = (ARGUMENTS - PROGRAM) // 8

# The extents of the three DCBs of a disk, of which the last one is for input: both tracks, the first one, both.
BOTH, FIRST = "18000000000000000000000000010002", "18000000000000000000000000000001"

# Faults after which the request to a disk is tried again, and others; and how many commands one after another meet one.
PASSING = ("0E 00 1000", "0E 00 0800", "0E 00 2400", "00 08 0000", "00 02 0000")
LASTING = ("0E 00 8000", "0E 00 4000", "0E 00 1008", "00 04 0000")
BURSTS = (1, 1, 1, 1, 2, 2, 3, 9, 10, 10, 11, 12)

# The commands after a search, those without one, and those of a tape.
FOUND_CODES, DISK_CODES = (0x06, 0x06, 0x06, 0x05, 0x05, 0x05, 0x12), (0x03, 0x06, 0x06, 0x06, 0x12, 0x12, 0x05, 0x07)
TAPE_CODES = (0x01, 0x01, 0x02, 0x02, 0x02, 0x07, 0x07, 0x1F, 0x27, 0x03, 0x55)


def ccw(code, address, flags, count):
    return f"{code:02X}{address:06X}{flags:02X}00{count:04X}"


class Maker:
    """A script in the making."""

    def __init__(self, seed):
        self.chance = random.Random(f"serial {seed}")
        self.kinds = [self.chance.choice(("disk", "disk", "disk", "tape")) for _ in range(self.chance.randint(1, 3))]
        self.tasks = self.chance.randint(1, 3)

    def data(self, code):
        """A command, now and then with a chain of data. It may read over the arguments of searches, so that the next attempt finds
        another record, and use bytes outside the area."""
        chance, ccws = self.chance, []
        for flags in (*((0xA0,) if chance.random() < 0.1 else ()), chance.choice((0x60, 0x60, 0x60, 0x60, 0x60, 0x40, 0x70))):
            place = chance.randrange(ARGUMENTS if chance.random() < 0.4 else DATA, END - 4)
            ccws.append(ccw(code, place, flags, chance.choice((1, 2, 4, 4, 4, 5, 8))))
        return ccws

    def commands(self, kind, at):
        """Commands from an address on: of a disk mostly a search, with its transfer back, and what comes after it."""
        chance = self.chance
        if kind == "tape" or chance.random() < 0.2:
            return self.data(chance.choice(TAPE_CODES if kind == "tape" else DISK_CODES))
        search = ccw(0x31, ARGUMENTS + 8 * chance.choice((0, 0, 0, 1, 1, 2)), 0x60, 5)
        return [search, ccw(0x08, at, 0, 0), *self.data(chance.choice(FOUND_CODES))]

    def area(self, kind, dcb):
        chance, ccws = self.chance, []
        for _ in range(chance.randint(1, 3)):
            ccws += self.commands(kind, PROGRAM + 8 * len(ccws))
        program = "".join([*ccws, ccw(0x03, DATA, 0x20, 1)]).ljust(16 * ROOM, "0")
        module = "01" if chance.random() < 0.03 else "00"
        seek = f"{module}{chance.choice((0, 0, 0, 1)):012X}00"
        iob = f"{chance.choice(('40', '42'))}00000000001028{0:016X}{PROGRAM:08X}{dcb:08X}{0:016X}{seek}"
        arguments = "".join(f"00000000{number:02X}000000" for number in (1, 2, 9))
        return f"{BASE:06X} {iob}{0:016X}{program}{arguments}{chance.randbytes(END - DATA).hex()}"

    def unit(self, unit, kind):
        chance, lines, at = self.chance, [], 0
        if kind == "disk":
            lines.append(f"disk {unit} {unit} 1 2 80")
            lines += [f"rec {unit} 0 {head} {number} - {number:02X}{head:02X}A0A1" for head in (0, 1) for number in (1, 2)]
        else:
            lines += [f"tape {unit} {unit} 60", f"block {unit} A1A2A3A4", f"mark {unit}", f"block {unit} B1B2"]
        for _ in range(chance.randint(0, 4)):
            at += chance.randint(1, 9)
            kinds, burst = (PASSING, chance.choice(BURSTS)) if chance.random() < 0.8 else (LASTING, 1)
            fault = chance.choice(kinds)
            lines += [f"fault {unit} {number} {fault}" for number in range(at, at + burst)]
            at += burst
        extents = (BOTH, FIRST, BOTH) if kind == "disk" else ("", "", "")
        return [*lines, *(f"open {unit} {way} {it}" for way, it in zip(("out", "out", "in"), extents))]

    def script(self):
        chance = self.chance
        lines = [f"tasks {self.tasks}", *(line for unit, kind in enumerate(self.kinds) for line in self.unit(unit, kind))]
        users, commands = [chance.randrange(self.tasks) for _ in self.kinds], []
        for area in range(chance.randint(4, 12) * len(self.kinds)):
            unit, dcb = chance.randrange(len(self.kinds)), chance.choice((1, 1, 1, 2, 2, 3))
            lines.append(f"area {area} {self.area(self.kinds[unit], dcb)}")
            commands.append(f"excp {users[unit]} {unit} {dcb} {BASE:06X} {area} {BASE:06X} {END - BASE}")
            commands += [f"wait {users[unit]}"] if chance.random() < 0.1 else []
        return [*lines, *commands]


# --- mutants of the definitions, and what the scripts reach


class NineRetries(OneAtATime):
    def attempts_from(self, left, number, r, p):
        return super().attempts_from(min(left, 9), number, r, p)


class UnrelatedRequestTurnedAway(OneAtATime):
    def is_turned_away(self, u, r):
        return r.dcb not in self.openings or r.dcb in u.in_error


class RetryOnIssuedStorage(OneAtATime):
    def attempt(self, r, device, area):
        return super().attempt(r, device, r.area)


class FlagByUnrelatedError(OneAtATime):
    def flags_after(self, in_error, r, code):
        return in_error | {r.dcb} if code in ERRORS else in_error


MUTANTS = {
    "nine_retries": NineRetries,
    "unrelated_request_turned_away": UnrelatedRequestTurnedAway,
    "retry_on_issued_storage": RetryOnIssuedStorage,
    "flag_by_unrelated_error": FlagByUnrelatedError,
}


class Noting(OneAtATime):
    """Notes of each request how many Starts it had, and its code."""

    def __init__(self, met, mounted, openings):
        super().__init__(mounted, openings)
        self.met = met

    def verdict_on(self, number, p):
        self.starts = number
        return super().verdict_on(number, p)

    def with_program(self, r, p, code):
        self.met.add((self.starts, code))
        return super().with_program(r, p, code)

    def without_start(self, u, r, code):
        self.met.add((0, code))
        return super().without_start(u, r, code)


WANTED = {(0, EXTENT_VIOLATED), (0, PURGED), (1, ENDED), (10, ENDED), (11, ENDED), (11, PERMANENT_ERROR)}


# --- cases


def ran(setup, seed, lines, word="run"):
    words = [word, "--channels", str(seed % 4 + 1), "--handlers", str(seed % 3 + 1)]
    return setup.run(*words, script="\n".join([*lines, ""]))


def are_one_at_a_time(setup, first):
    """`run` prints what the definitions give."""
    for seed in range(first, SCRIPTS_LONG if setup.is_long else SCRIPTS, CASES):
        lines = Maker(seed).script()
        expect(ran(setup, seed, lines), (0, posts_of(lines)))


def leave_the_same_media(setup):
    """The media of a report are those that the definitions give."""
    for seed in range(MEDIA_LONG if setup.is_long else MEDIA):
        lines = Maker(seed).script()
        report = ran(setup, seed, lines, "report")
        printed = units_of(line for line in report.out.splitlines() if line.split()[0] in ("disk", "rec", "tape", "block", "mark"))
        due = [OneAtATime(device, openings).device_after(requests) for device, openings, requests, _ in units_of(lines)]
        expect_text("other media", report, media_of(due), media_of(device for device, _, _, _ in printed))


def is_told(setup, mutant):
    """A script tells the program from a mutant of the definitions."""
    for seed in range(SCRIPTS):
        lines = Maker(seed).script()
        if posts_of(lines, mutant) != ran(setup, seed, lines).out:
            return
    raise Failed(f"none of {SCRIPTS} scripts tells the program from {mutant.__name__}")


def reach_all():
    """Of all scripts together, requests have each number of Starts and each code that is wanted."""
    met = set()
    for seed in range(SCRIPTS):
        posts_of(Maker(seed).script(), functools.partial(Noting, met))
    require(WANTED <= met, f"no request has these Starts and codes: {sorted(WANTED - met)}")


def cases(setup):
    origin = "tests/one_at_a_time.py, by crates/serial_order/specs/OneAtATime.antt"
    for first in range(CASES):
        yield Case(f"one at a time: {first}", lambda first=first: are_one_at_a_time(setup, first), origin)
    yield Case("the same media", lambda: leave_the_same_media(setup), origin)
    for name, mutant in MUTANTS.items():
        yield Case(f"mutant {name}", lambda mutant=mutant: is_told(setup, mutant), origin)
    yield Case("what the scripts reach", reach_all, "tests/groups/serial.py")
