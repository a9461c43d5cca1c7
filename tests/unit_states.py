"""The states of the units of a small job, by the library. tests/every_order.py goes through them.

A state is made by all its steps, from the first one on, on a fresh site that has this unit alone. From a new state the events of
the unit go on on the same site, until they lead to a known one.

Two states are one if all that the readers of the unit tell is equal. They do not tell the storage of the active request, nor how
far its program is. For these a state has the medium and the commands from which it was started, and the steps since. By histories,
two states are one if their whole traces are equal.
"""

import ctypes
import functools
from dataclasses import dataclass, replace

from excp import library
from excp.errors import Status, error_of
from excp.script.grammar import Block, Disk, Excp, Record, Run, StepOfUnit, Tape
from excp.script.limits import MOST_AREA_BYTES
from excp.stepping.schedule import Job as Parsed
from excp.stepping.schedule import Step
from excp.values import Active, Kind, Method, Mode

from harness import require

# What an event answers that does nothing.
NOTHING = {Kind.QUIET, Kind.HELD, Kind.BUSY, Kind.IDLE, Kind.ROW_FULL}

# The events of a unit beside `take` and `deliver`, and the one that can do something by what the active request does.
EVENTS = "start", "run", "interrupt"
GOES_ON = {Active.NONE: "start", Active.RUNNING: "run", Active.PENDING: "interrupt", Active.AWAITS_RESTART: "start"}

# The steps that leave the active request as it is. A reader tells what a close and a reset do to its DCB.
BESIDE = "excp", "close", "reset"

METHODS = {"in": Method.INPUT, "out": Method.OUTPUT}
MODES = {"quiesce": Mode.QUIESCE, "halt": Mode.HALT}

# The call of a step, and its values after the unit and before the answer, if it has such values or a name of its own.
CALLS = {
    "purge": ("purge", lambda it: (it.dcb, MODES[it.mode])),
    "purgetaskat": ("purge_task", lambda it: (it.other, MODES[it.mode])),
    "close": ("close", lambda it: (it.dcb,)),
    "reset": ("reset", lambda it: (it.dcb,)),
    "run": ("run", lambda it: (it.most,)),
}

# The most bytes of a record, and what an entry of a trace and a DCB tell.
MOST_RECORD = 1 << 20
NAMES_OF_ENTRY, NAMES_OF_DCB = ([it for it, _ in kind._fields_] for kind in (library.Entry, library.DcbState))


def event(verb, unit, turn=0):
    """An event of a unit. A run does at most `turn` commands."""
    if verb == "run":
        return Step(verb, Run(0, unit, turn), f"run {unit} {turn}")
    return Step(verb, StepOfUnit(0, unit), f"{verb} {unit}")


class Job:
    """A job: its set-up, the steps of its tasks, and its requests by their names (task, unit and number), in order."""

    def __init__(self, script, turn):
        parsed = Parsed(script.encode())
        self.turn, self.set_up, self.commands, self.rooms = turn, parsed.set_up, parsed.commands, parsed.rooms()
        self.units = range(len(self.set_up.units))
        self.requests, counts = {}, {}
        for step in (it for steps in self.commands for it in steps if isinstance(it.says, Excp)):
            to = step.says.task, step.says.unit
            counts[to] = counts.get(to, 0) + 1
            self.requests[(*to, counts[to])] = step.says
        self.requests = dict(sorted(self.requests.items()))


class JobSite:
    """A site of a job with some units, whose calls are prepared once. Each `with` begins on a fresh one, before the first step."""

    def __init__(self, job, units):
        self.job, self._handle = job, library.Handle()
        self._new, self._free = self.prepared("site_new", job.set_up.tasks, job.rooms.post), self.prepared("site_free")
        self.units = {unit: UnitCalls(self, unit, number) for number, unit in enumerate(units)}

    def prepared(self, name, *values):
        """A call of the library with these values, which returns its status."""
        function, words = library.planned(name)
        given = []
        for (word, _), value in zip(words, values):
            if word == "ref":
                given.append(ctypes.byref(value))
            else:
                given += [value, len(value)] if word in ("bytes", "buffer") else [value]
        return functools.partial(function, ctypes.byref(self._handle), *given)

    def __enter__(self):
        done(self._new())
        for unit in self.units.values():
            for call in unit.set_up:
                done(call())
        return self

    def __exit__(self, *_):
        done(self._free())


def done(status, but=Status.OK):
    """A status, which is that of a call that was done, or this one."""
    if status not in (Status.OK, but):
        raise error_of(status, library.message(status))
    return status


class UnitCalls:
    """The calls of a unit of a job, which has this number on its site, with the answer to the last one."""

    def __init__(self, site, unit, number):
        self.site, self.number, self.answer = site, number, library.Answer()
        job = site.job
        declared, room = job.set_up.units[unit], library.Room(job.rooms.in_flight[unit], job.rooms.held[unit])
        self.set_up = [site.prepared(*it) for it in (*mounting(declared, room), *opening(declared, number))]
        self._of_steps = {}

    def of_step(self, step):
        """The call of a step."""
        if step.text not in self._of_steps:
            self._of_steps[step.text] = self._prepared(step)
        return self._of_steps[step.text]

    def _prepared(self, step):
        says = step.says
        if step.verb == "excp":
            area = self.site.job.set_up.areas[says.area]
            storage = area.base, bytes(area.data)
            return self.site.prepared("issue", says.task, self.number, says.dcb, says.iob, *storage, ctypes.c_uint64())
        name, values = CALLS.get(step.verb, (step.verb, lambda _: ()))
        return self.site.prepared(name, self.number, *values(says), self.answer)

    def make(self, step):
        """Makes a step. Returns whether it was made: an event is none that did nothing. A control changes nothing if its DCB is not
        open."""
        status = done(self.of_step(step)(), Status.NO_DCB)
        return step.task is not None or (status == Status.OK and self.answer.kind not in NOTHING)


def mounting(unit, room):
    """The calls that mount a unit with this room."""
    for it in unit.content:
        if isinstance(it, Record):
            yield "put_record", it.cylinder, it.head, it.number, it.key, it.data
        else:
            yield ("put_block", it.data) if isinstance(it, Block) else ("put_tape_mark",)
    for it in unit.faults:
        yield "put_fault", it.ordinal, it.unit_status, it.subchannel_status, it.sense
    says, number = unit.says, ctypes.c_uint16()
    if isinstance(says, Disk):
        yield "mount_disk", says.cylinders, says.heads, says.track_bytes, room, number
    elif isinstance(says, Tape):
        yield "mount_tape", says.size, room, number
    else:
        yield "mount_printer", says.lines, says.pages, room, number


def opening(unit, number):
    """The calls that open the DCBs of a unit, which has this number on its site."""
    for it in unit.openings:
        yield "open", number, METHODS[it.method], b"".join(extent.to_bytes() for extent in it.extents), ctypes.c_uint16()


class UnitReaders:
    """The readers of the first unit of a site."""

    def __init__(self, site, unit):
        self._found, self._dcb, self._entry = library.UnitState(), library.DcbState(), library.Entry()
        self._task, self._number, self._made = ctypes.c_uint16(), ctypes.c_uint64(), ctypes.c_size_t()
        self._prepared, self._record = site.prepared, ctypes.create_string_buffer(MOST_RECORD)
        self._copy_out = functools.lru_cache(maxsize=None)(self._copied_out)
        self._look, self._make_record = site.prepared("look", 0, self._found), site.prepared("make_record", 0, 0, self._made)
        waiting, dcbs = range(site.job.rooms.held[unit]), range(len(site.job.set_up.units[unit].openings))
        self._waiting = [site.prepared("waiting", 0, it, self._task, self._number) for it in waiting]
        self._dcbs = [site.prepared("look_dcb", 0, it + 1, self._dcb) for it in dcbs]

    def active(self):
        """What the active request does, which is 0 if there is none."""
        done(self._look())
        return self._found.active

    def told(self):
        """All that the readers of a unit tell, but its medium and its trace."""
        done(self._look())
        found = self._found
        parts = [(found.active, found.active_task, found.active_number, found.has_room, found.printed)]
        for call in self._waiting[: found.waiting]:
            done(call())
            parts.append((self._task.value, self._number.value))
        for call in self._dcbs:
            done(call())
            parts.append(fields_of(self._dcb, NAMES_OF_DCB))
        return tuple(parts)

    def medium(self):
        """The medium, as the lines of a record."""
        done(self._make_record())
        done(self._copy_out(self._made.value)())
        return self._record[: self._made.value].partition(b'{"what":"medium"')[2]

    def _copied_out(self, length):
        """The call that copies a record of this length."""
        return self._prepared("copy_out", 0, (ctypes.c_char * length).from_buffer(self._record))

    def trace(self, first):
        """The entries of the trace from this one on."""
        entries = []
        while done(self._prepared("look_entry", 0, first + len(entries), self._entry)(), Status.NOTHING_THERE) == Status.OK:
            entries.append(fields_of(self._entry, NAMES_OF_ENTRY))
        return tuple(entries)


def fields_of(found, names):
    """The values of these fields of a structure."""
    return tuple(getattr(found, it) for it in names)


class PostReader:
    """Collects posts on a site, as the lines that a run prints."""

    def __init__(self, site):
        self._requests, self._post, self._storage = site.job.requests, library.Post(), ctypes.create_string_buffer(MOST_AREA_BYTES)
        self._next = [site.prepared("next_post", it, self._post, self._storage) for it in range(site.job.set_up.tasks)]

    def collect(self, task, unit=None):
        """Collects the next post of a task: the name of its request, and its line. A lone unit of a site has this number."""
        done(self._next[task]())
        post = self._post
        unit = post.unit if unit is None else unit
        name = task, unit, post.number
        says = self._requests[name]
        start = says.show - post.base
        shown = self._storage[start : start + says.length].hex().upper() or "-"
        csw = f"{post.address:06X} {post.unit_status:02X}{post.channel_status:02X} {post.residual:04X}"
        return name, f"post {task} {unit} {post.number} {post.code:02X} {csw} {post.sense:04X} {shown}"


@dataclass(frozen=True)
class Reached:
    """A state of a unit: the calls of the steps that lead to it from the first one, and what follows from these that no reader
    tells. `commands` counts those that the unit did, up to the last of its faults. `begun` is the medium from which the active
    request was started, the commands before, and the steps since that can change it."""

    calls: tuple = ()
    arrived: frozenset = frozenset()
    posts: int = 0
    commands: int = 0
    begun: tuple = ()
    medium: bytes = b""
    trace: tuple = ()


@dataclass(frozen=True)
class Led:
    """What a step of a unit leads to: the number of a state, and the posts that the step made."""

    state: int
    posts: tuple


class UnitStates:
    """The states of a unit that were reached, by numbers. Nothing is in flight to it, and its posts are collected."""

    def __init__(self, job, unit, by_history):
        self._unit, self._by_history = unit, by_history
        self._site = JobSite(job, [unit])
        self._calls, self._readers, self._posts = self._site.units[unit], UnitReaders(self._site, unit), PostReader(self._site)
        self._last_fault = max((it.ordinal for it in job.set_up.units[unit].faults), default=0)
        self._take, self._deliver, *events = (event(it, unit, job.turn) for it in ("take", "deliver", *EVENTS))
        # the events, last the one that can do something by what the active request does
        self._events = {active: sorted(events, key=lambda it: it.verb == verb) for active, verb in GOES_ON.items()}
        self._numbers, self._reached, self._led, self._of_events, self._collected = {}, [], [], [], 0
        with self._site:
            self._go_on(self._number_of(Reached()))

    def medium(self, number):
        """The medium in a state, as the lines of a record. By histories there is none."""
        return self._reached[number].medium

    def event(self, number):
        """The event that does something in a state, and what it leads to, if one does."""
        return self._of_events[number]

    def lead(self, number, step):
        """What a control leads to, or the arrival of the request of an EXCP."""
        led = self._led[number]
        if step.text not in led:
            with self._site:
                self._make_again(number)
                self._calls.make(step)
                if step.verb == "excp":
                    require(self._calls.make(self._take), "a request does not arrive")
                led[step.text] = self._reach(number, step)
                self._go_on(led[step.text].state)
        return led[step.text]

    def _make_again(self, number):
        """Makes the steps to a state."""
        self._collected = 0
        for call in self._reached[number].calls:
            done(call(), Status.NO_DCB)

    def _go_on(self, number):
        """Makes the events from a new state on, as long as they lead to new states."""
        while number == len(self._of_events):
            *others, last = self._events[self._readers.active()]
            require(not any(map(self._calls.make, others)), f"another event than {last.text} does something")
            led = self._reach(number, last) if self._calls.make(last) else None
            self._of_events.append(led and (last, led))
            number = led.state if led else number

    def _reach(self, number, step):
        """What a step leads to that was made in this state, on the site as it is."""
        before, answer = self._reached[number], self._calls.answer
        calls, arrived, commands = (self._calls.of_step(step),), before.arrived, before.commands
        if step.verb == "excp":
            calls += (self._calls.of_step(self._take),)
            arrived |= {(answer.task, answer.number)}
        elif step.verb == "run":
            commands = min(commands + answer.commands, self._last_fault)
        posts = self._new_posts(before.posts)
        begun = () if self._by_history else self._begun(before, step)
        after = Reached(before.calls + calls, arrived, before.posts + len(posts), commands, begun, trace=before.trace)
        return Led(self._number_of(after), posts)

    def _new_posts(self, first):
        """The posts of the unit from this one on, which are collected. Those before it are too, if they were not."""
        posts = []
        while self._calls.make(self._deliver):
            posts.append(self._posts.collect(self._calls.answer.task, self._unit))
        posts = posts[first - self._collected :]
        self._collected = first + len(posts)
        return tuple(posts)

    def _begun(self, before, step):
        """What the active request was started from, and the steps since."""
        if not self._readers.active():
            return ()
        if not before.begun:
            return before.medium, before.commands, step.text
        return before.begun if step.verb in BESIDE else (*before.begun, step.text)

    def _number_of(self, reached):
        """The number of a state, whose medium or last entries are read here. A new state is kept."""
        readers = self._readers
        if self._by_history:
            reached = replace(reached, trace=reached.trace + readers.trace(len(reached.trace)))
            key = reached.trace, readers.active() == Active.AWAITS_RESTART
        else:
            reached = replace(reached, medium=readers.medium())
            key = reached.medium, readers.told(), reached.arrived, reached.commands, reached.begun
        if key not in self._numbers:
            self._numbers[key] = len(self._numbers)
            self._reached.append(reached)
            self._led.append({})
        return self._numbers[key]
