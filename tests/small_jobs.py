"""Small jobs at random whose tasks race: requests to disks, tapes and printers, purges, closes, resets and waits. Some have a
shape: commands of several tasks that make one another's posts differ, among others at random."""

import random

EXTENT = "18000000000000000000000000000001"

FAULTS = "0E 00 1000", "0E 00 0800", "00 08 0000", "0E 00 8000", "00 04 0000"

# What programs do, by the kind of a unit: up to six doublewords at 001030, where the data is at 001068 and a search argument at
# 001060. The last one of a disk writes R1, and then restores it.
PROGRAMS = {
    "disk": (
        ("3100106040000005", "0800103000000000", "0600106800000002"),
        ("3100106040000005", "0800103000000000", "0600106800000002"),
        ("3100106040000005", "0800103000000000", "0500106A00000002"),
        ("0300106020000001", "0" * 16, "0" * 16),
        ("0300106060000001", "0300106060000001", "0300106020000001"),
        ("3100106040000005", "0800103000000000", "0500106A40000002", "3100106040000005", "0800104800000000", "0500106C00000002"),
    ),
    "tape": (
        ("0200106820000002", "0" * 16, "0" * 16),
        ("0100106A20000002", "0" * 16, "0" * 16),
        ("0700106060000001", "0200106820000002", "0" * 16),
        ("0200106860000002", "0100106A20000002", "0" * 16),
    ),
    "printer": (
        ("0900106A20000002", "0" * 16, "0" * 16),
        ("0900106A60000002", "8B00106020000001", "0" * 16),
    ),
}


# The programs of a kind that read what was written, or the next block, and for a disk the one that restores what it wrote.
READS, RESTORES = 0, -1


def area_of(chance, kind, dcb, program=None):
    """The storage of a request: its IOB, its program, the argument of its search, and its data. One request in eight searches for a
    record that is not there, and one in twelve for a disk has a seek address that is none: but none whose program is given."""
    flags = "40" if chance.random() < 0.5 else "42"
    may_fail = kind == "disk" and program is None
    bad_seek = "01" if may_fail and chance.random() < 0.08 else "00"
    record = "09" if may_fail and chance.random() < 0.12 else "01"
    iob = f"{flags}00000000001028" + "0" * 16 + f"00001030{dcb:08X}" + "0" * 16 + f"{bad_seek}00000000000000"
    data = f"{chance.choice((0xA1, 0xA2)):02X}" * 2
    words = chance.choice(PROGRAMS[kind]) if program is None else PROGRAMS[kind][program]
    return iob + "0" * 16 + "".join(words).ljust(96, "0") + f"00000000{record}000000" + f"0000{data}C1C20000"


def unit_lines(chance, unit, kind, faulty):
    isc = unit % 8
    if kind == "disk":
        lines = [f"disk {unit} {isc} 1 1 100", f"rec {unit} 0 0 1 - C1C2"]
        lines += [f"rec {unit} 0 0 2 - D1D2"] if chance.random() < 0.4 else []
    elif kind == "tape":
        lines = [f"tape {unit} {isc} 60", *(f"block {unit} {at:02X}{at + 1:02X}" for at in range(chance.randint(0, 3)))]
    else:
        lines = [f"printer {unit} {isc} 3 1"]
    number = 0
    for _ in range(chance.randint(1, 3) if chance.random() < faulty else 0):
        number += chance.randint(1, 3)
        lines.append(f"fault {unit} {number} {chance.choice(FAULTS)}")
    return lines


class Maker:
    """A job in the making. If it is to have a shape, it has several tasks and DCBs, most of these for output, and few faults."""

    def __init__(self, chance, tasks, units):
        self.chance, self.is_shaped = chance, tasks > 1 and chance.random() < 0.5
        self.tasks = chance.randint(1 + self.is_shaped, tasks)
        self.kinds = [chance.choice(("disk", "disk", "disk", "tape", "printer")) for _ in range(chance.randint(1, units))]
        self.areas, self.known, self.dcbs = [], {}, []

    def set_up(self):
        lines = [f"tasks {self.tasks}"]
        for unit, kind in enumerate(self.kinds):
            lines += unit_lines(self.chance, unit, kind, 0.15 if self.is_shaped else 0.5)
            ways = ("in", "out", "out", "out", "out", "out") if self.is_shaped else ("in", "out", "out")
            for dcb in range(1, self.chance.randint(1 + self.is_shaped, 3) + 1):
                self.dcbs.append((unit, dcb))
                lines.append(f"open {unit} {self.chance.choice(ways)}" + (f" {EXTENT}" if kind == "disk" else ""))
        return lines

    def area(self, unit, dcb, program=None):
        if program is not None or (unit, dcb) not in self.known or self.chance.random() >= 0.4:
            self.areas.append(area_of(self.chance, self.kinds[unit], dcb, program))
            self.known[unit, dcb] = len(self.areas) - 1
        return self.known[unit, dcb]

    def excp(self, task, unit, dcb, program=None):
        return f"excp {task} {unit} {dcb} 001000 {self.area(unit, dcb, program)} 001068 2"

    def command(self, word):
        chance, task = self.chance, self.chance.randrange(self.tasks)
        unit, dcb = chance.choice(self.dcbs)
        if word == "excp":
            return self.excp(task, unit, dcb)
        if word == "wait":
            return f"wait {task}"
        word = chance.choice(("purge", "purge", "purge", "close", "reset", "purgetask"))
        mode = chance.choice(("halt", "quiesce"))
        if word == "purge":
            return f"purge {task} {unit} {dcb} {mode}"
        if word == "purgetask":
            return f"purgetask {task} {chance.randrange(self.tasks)} {mode}"
        return f"{word} {task} {unit} {dcb}"

    def dcbs_of(self, unit):
        """Three DCBs of a unit, different ones if it has three."""
        dcbs = [dcb for it, dcb in self.dcbs if it == unit]
        self.chance.shuffle(dcbs)
        return (dcbs * 3)[:3]

    def restored(self):
        """A program restores what it wrote, another task halts it, and a third request reads. There is nothing without a disk."""
        disks = [unit for unit, kind in enumerate(self.kinds) if kind == "disk"]
        if not disks:
            return []
        unit = self.chance.choice(disks)
        writer, purger = self.chance.sample(range(self.tasks), 2)
        first, second, _ = self.dcbs_of(unit)
        mode = self.chance.choice(("halt", "halt", "quiesce"))
        return [self.excp(writer, unit, first, RESTORES), f"purge {purger} {unit} {first} {mode}",
                self.excp(self.chance.randrange(self.tasks), unit, second, READS)]

    def doomed(self):
        """A task closes a DCB after a request to another one. A second task waits for each of two requests to the closed DCB,
        purges the other one, and reads. As it waits for the first, the second one arrives after the request that is purged, which
        one doomed request alone need not."""
        unit = self.chance.randrange(len(self.kinds))
        closer, waiter = self.chance.sample(range(self.tasks), 2)
        first, second, third = self.dcbs_of(unit)
        mode = self.chance.choice(("halt", "quiesce"))
        rounds = [it for _ in range(2) for it in (self.excp(waiter, unit, second), f"wait {waiter}")]
        return [self.excp(closer, unit, first), f"close {closer} {unit} {second}", *rounds,
                f"purge {waiter} {unit} {first} {mode}", self.excp(waiter, unit, third, READS)]

    def shape(self, most):
        """The commands of a shape, or none if the job is to have none, or may not have so many commands."""
        commands = self.chance.choice((self.restored, self.doomed))() if self.is_shaped else []
        count = count_of(commands)
        return commands if all(count[word] <= most[word] for word in most) else []


def count_of(commands):
    """How many requests, controls and waits these commands have."""
    verbs = [it.split()[0] for it in commands]
    excps, waits = verbs.count("excp"), verbs.count("wait")
    return {"excp": excps, "control": len(verbs) - excps - waits, "wait": waits}


def small_job(seed, tasks=2, units=1, requests=4, controls=2, waits=1):
    """The script of a job with at most these numbers of each."""
    chance = random.Random(f"small {seed}")
    job = Maker(chance, tasks, units)
    lines = job.set_up()
    most = {"excp": requests, "control": controls, "wait": waits}
    shape = job.shape(most)
    count = count_of(shape)
    words = [word for word in most for _ in range(chance.randint(word == "excp" and not shape, most[word] - count[word]))]
    chance.shuffle(words)
    commands = [job.command(word) for word in words]
    places = sorted(chance.randint(0, len(words)) for _ in shape)
    for added, place in enumerate(places):
        commands.insert(place + added, shape[added])
    lines += [f"area {number} 001000 {area}" for number, area in enumerate(job.areas)]
    return "\n".join([*lines, *commands, ""])
