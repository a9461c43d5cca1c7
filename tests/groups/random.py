"""Scripts at random, judged by their reports, and a job whose posts are known whatever the interleaving.

The scripts have two tasks and three disks. One disk fails now and then, each time to be tried again; one has permanent
errors. The tasks issue requests, related or not, that read a record, want too much, are outside their extents or have
long programs. They wait. Each purges a DCB and a task, closes a DCB and resets one at least once in each script.

The judge goes over the history of each unit. What may come next follows from the entries before it, the programs and the
fault scripts. All that the tasks did is in it, in the order of each task, and nothing else. The posts are those of the
history. The judge itself is tested: it rejects reports that are wrong in one place.

What a purge or a close meets depends on how tasks and workers race. On one processor a task does all its work before a
worker has its turn, so less is required of the runs.
"""

import difflib
import os
import random
import re
import tempfile
from dataclasses import dataclass, field

import reports
from groups.outcomes import every_outcome, is_among, posts_in
from harness import Case, Failed, expect, expect_text

TRACK = "18000000000000000000000000000001"

# The commands of unit 1 that meet a fault after which a request is tried again, and those of unit 2 that meet a
# permanent error, with the sense of each.
FAULTS = {0: (), 1: (1, 5, 6, 40), 2: (2, 7, 30, 60)}
SENSE = {1: "1000", 2: "4000"}

# A post without a start, and one where the disk address is outside the extents.
NEVER_STARTED = "48", "000000", "0000", "0000", "0000"
VIOLATED = "42", "000000", "0000", "0000", "0000"

# The entry of a close: DCB 2 alone is closed.
CLOSE = "DCB 2 closed"

# The most commands that a worker runs in one turn.
TURN = 64

PURGED = "purged"
CLOSED = "its DCB was closed"
NOT_OPEN = "its DCB is not open"
ERROR = "a related request ended in error"
OUTSIDE = "its disk address is outside the extents"


class Wrong(Exception):
    """What the judge finds wrong."""


def require(holds, what):
    if not holds:
        raise Wrong(what)


# --- what a task does, and how its script says so


@dataclass(frozen=True)
class Program:
    """A channel program: how many commands it does, and its CCWs and what they use, from 1030 on. The four bytes at 1060
    are shown before it read, and after that."""

    commands: int
    words: str
    outside: bool
    before: str
    after: str


# The search and the transfer back are done twice, for R0 and R1; R1 is C1C2C3C4. A count of 8 is too large for it.
READ = "3100105040000005 0800103000000000 06001060000000{} 0000000000000000 0000000001000000 0000000000000000 0000000000000000"
# 900 no-operations
LONG = 900
NO_OPERATIONS = "0300000040000001 " * (LONG - 1) + "0300000000000001"

PROGRAMS = {
    "reads": Program(3, READ.format("04"), False, "00000000", "C1C2C3C4"),
    "wants too much": Program(3, READ.format("08"), False, "00000000", "C1C2C3C4"),
    "outside": Program(3, READ.format("04"), True, "00000000", "C1C2C3C4"),
    "long": Program(LONG, NO_OPERATIONS, False, "03000000", "03000000"),
}
KINDS = list(PROGRAMS)


@dataclass(frozen=True)
class Request:
    """A request that a task issues: its task and number at its unit, and what it is."""

    name: str
    unit: int
    dcb: int
    related: bool
    kind: str

    @property
    def program(self):
        return PROGRAMS[self.kind]

    def own_end(self):
        """How it ends where nothing comes in between."""
        if self.kind == "long":
            return "7F", f"{0x1030 + 8 * LONG:06X}", "0C00", "0001", "0000"
        if self.kind == "wants too much":
            return "41", "001048", "0C40", "0004", "0000"
        return "7F", "001048", "0C00", "0000", "0000"

    def command(self, number):
        """The address after a command, and its count."""
        if self.kind == "long":
            return f"{0x1030 + 8 * number:06X}", 1
        if number < 3:
            return "001038", 5
        return "001048", 8 if self.kind == "wants too much" else 4

    def failed_at(self, number, code):
        """How it ends where this command meets a fault of its unit: nothing of its count is done."""
        address, count = self.command(number)
        return code, address, "0E00", f"{count:04X}", SENSE[self.unit]

    def halted_after(self, number):
        """How it ends if it was halted after `number` commands: a search leaves no residual count."""
        if number == 0:
            return "48", "001030", "0C00", "0000", "0000"
        address, count = self.command(number)
        return "48", address, "0C00", f"{1 if self.kind == 'long' else 0:04X}", "0000"

    def shown(self, end):
        """The four bytes that its post shows."""
        read = end[2] in ("0C00", "0C40") and end[0] in ("7F", "41")
        return self.program.after if read else self.program.before


@dataclass(frozen=True)
class Control:
    """What a task does to a unit: the words of its entry, with `purge of`, `closed` or `reset`."""

    unit: int
    entry: str


@dataclass
class Job:
    """A script, and what each task does in its order: requests, controls of units and waits (None)."""

    lines: list = field(default_factory=list)
    done: dict = field(default_factory=lambda: {0: [], 1: []})

    def requests(self, unit):
        return [it for task in (0, 1) for it in self.done[task] if isinstance(it, Request) and it.unit == unit]

    def issue(self, chance, task):
        unit, dcb, related = chance.randrange(3), chance.randint(1, 2), chance.random() < 0.4
        kind = chance.choices(KINDS, [34, 6, 3, 21])[0]
        number = sum(1 for it in self.requests(unit) if it.name.startswith(f"{task} ")) + 1
        self.done[task].append(Request(f"{task} request {number}", unit, dcb, related, kind))
        self.lines.append(f"excp {task} {unit} {dcb} 001000 {area_of(dcb, related, kind)} 001060 4")

    def wait(self, _, task):
        self.done[task].append(None)
        self.lines.append(f"wait {task}")

    def purge(self, chance, task):
        unit, dcb, mode = chance.randrange(3), chance.randint(1, 2), chance.choice(["halt", "quiesce"])
        self.done[task].append(Control(unit, f"purge of DCB {dcb} with {mode}"))
        self.lines.append(f"purge {task} {unit} {dcb} {mode}")

    def purge_task(self, chance, task):
        other, mode = chance.randrange(2), chance.choice(["halt", "quiesce"])
        self.done[task].extend(Control(unit, f"purge of task {other} with {mode}") for unit in range(3))
        self.lines.append(f"purgetask {task} {other} {mode}")

    def close(self, chance, task):
        unit = chance.randrange(3)
        self.done[task].append(Control(unit, CLOSE))
        self.lines.append(f"close {task} {unit} 2")

    def reset(self, chance, task):
        """Clears the flag of DCB 1, which stays open, so that each of these has an entry."""
        unit = chance.randrange(3)
        self.done[task].append(Control(unit, "DCB 1 reset"))
        self.lines.append(f"reset {task} {unit} 1")


def area_of(dcb, related, kind):
    return KINDS.index(kind) * 4 + 2 * related + dcb - 1


def media():
    """The disks, each with R1 on its one track."""
    return [line for unit in range(3) for line in (f"disk {unit} {unit} 1 1 40", f"rec {unit} 0 0 1 - C1C2C3C4")]


def set_up():
    """Two tasks, three disks on subclasses 0, 1 and 2, each with two DCBs, and an area for each DCB, related or not, and
    program."""
    lines = ["tasks 2", *media()]
    lines += [f"fault {unit} {at} 0E 00 {SENSE[unit]}" for unit in FAULTS for at in FAULTS[unit]]
    lines += [f"open {unit} out {TRACK}" for unit in range(3) for _ in range(2)]
    for kind, program in PROGRAMS.items():
        for related in (False, True):
            for dcb in (1, 2):
                flags, module = "40" if related else "42", "01" if program.outside else "00"
                iob = f"{flags}00000000001028 0000000000000000 00001030000000{dcb:02X} 0000000000000000"
                lines.append(
                    f"area {area_of(dcb, related, kind)} 001000 {iob} {module}00000000000001 0000000000000000 {program.words}"
                )
    return lines


SET_UP = set_up()

# How many things a task does beside a purge of each kind, a close and a reset; and in the scripts whose reports are altered.
STEPS = 32
FEW = 8


def job_at_random(chance, steps):
    """The tasks do so many things each, most of them EXCPs, and beside them a purge of a DCB, a purge of a task, a close and
    a reset, each at a moment of its own."""
    job = Job()
    for task in (0, 1):
        calls = chance.choices([job.issue, job.wait, job.purge, job.purge_task, job.reset], [44, 3, 6, 3, 4], k=steps)
        for call in job.purge, job.purge_task, job.close, job.reset:
            calls.insert(chance.randrange(steps), call)
        for call in calls:
            call(chance, task)
    lines = {task: [line for line in job.lines if line.split()[1] == str(task)] for task in (0, 1)}
    # the tasks' lines, mixed
    mixed = []
    while lines[0] or lines[1]:
        task = chance.randrange(2)
        mixed += [lines[task].pop(0)] if lines[task] else []
    job.lines = mixed
    return job


# --- what a report says


@dataclass
class Report:
    """The posts as they were printed, and the entries of each unit."""

    posts: list
    entries: dict


POST = re.compile(r"post (\d+) (\d+) (\d+) (..) (.{6}) (.{4}) (.{4}) (.{4}) (.*)")

# The lines of a disk, its record and the text of that.
LINES = 3


def printed_media():
    """The media, which no job changes, with the text of each record."""
    return [line for it in media() for line in ([it, "# data       |ABCD|"] if it.startswith("rec ") else [it])]


def read_report(text, job):
    """Parts the report of a job; after the histories are the disks, as they were."""
    lines = text.split("\n")
    count = sum(len(job.requests(unit)) for unit in range(3))
    require(lines[-1:] == [""], "a line without its end")
    require(lines[count : count + 1] == [f"end {count}"], "no end")
    posts = [POST.fullmatch(line) for line in lines[:count]]
    require(all(posts), "no post")
    entries, left, at, last = {}, [], 1, 0
    for line in lines[count + 1 : -1]:
        if told := re.fullmatch(r"# unit (\d+): disk, (\d+) entries", line):
            require(at == last + 1 and int(told[1]) == len(entries), "another unit, or an entry is lost")
            require(left == printed_media()[: LINES * len(entries)], "other media")
            entries[len(entries)], at, last = [], 1, int(told[2])
        elif entries and line.startswith(f"# {at:5} ") and not left[LINES * len(entries) - LINES :]:
            entries[len(entries) - 1].append(line[8:])
            at += int(more[1]) if (more := re.search(r" ran \d+ commands in (\d+) turns$", line)) else 1
        else:
            left.append(line)
    require(at == last + 1 and len(entries) == 3 and left == printed_media(), "an entry is lost, or other media")
    return Report([it.groups() for it in posts], entries)


# --- the judge


@dataclass
class Attempt:
    """The active request: how many of its commands it did since it was started last, and how many it does up to its end or
    to the first fault among them."""

    request: Request
    commands: int
    fails: bool
    count: int = 1
    ran: int = 0
    covered: bool = False
    halted: bool = False

    def runs(self):
        return not self.halted and self.ran < self.commands

    def meets_retry(self):
        return not self.halted and not self.runs() and self.fails and self.request.unit == 1

    def is_to_restart(self):
        return self.meets_retry() and not self.covered

    def end(self):
        """How it is posted, where it is."""
        if self.halted:
            return self.request.halted_after(self.ran)
        if self.meets_retry():
            return self.request.failed_at(self.ran, "48")
        if self.fails:
            return self.request.failed_at(self.ran, "41")
        return self.request.own_end()

    def reason(self):
        """Why it is posted 48, if it is."""
        return "halted" if self.halted else "not tried again: purged" if self.meets_retry() else None


def words_of(status, sense):
    """The words on status and sense of a post that is no normal end."""
    names = reports.names(int(status, 16), reports.STATUS) + reports.names(int(sense, 16), reports.SENSE)
    return f": {names.removeprefix(', ')}" if names else ""


class Course:
    """What the entries of a unit so far leave: the requests that wait, in order of arrival, why some are not to be started,
    what is active, which DCBs are open and which are flagged, and how many commands the device did."""

    def __init__(self, unit, requests):
        self.unit, self.requests = unit, {it.name: it for it in requests}
        self.opened, self.closed, self.flagged = 0, set(), set()
        self.arrived, self.waiting, self.why = set(), [], {}
        self.active, self.is_to_halt, self.done, self.ends = None, False, 0, {}
        self.met = set()

    def request(self, name):
        require(name in self.requests, "nobody's request")
        return self.requests[name]

    def judge_due(self, entry):
        """What is due comes next: the halt of a program, and then the posts of what is doomed, in order of arrival."""
        if self.is_to_halt or re.fullmatch(self.NAME + " halted", entry):
            require(self.is_to_halt and entry == f"task {self.active.request.name} halted", "a halt too many, or none")
            return
        due = next((name for name in self.waiting if name in self.why), None)
        require(due is None or entry.startswith(f"task {due} posted "), "not posted in order of arrival")

    def note(self, entry):
        """One entry more."""
        require(self.opened == 2 or " opened for " in entry, "before an opening")
        self.judge_due(entry)
        for form, call in self.FORMS:
            if told := re.fullmatch(form, entry):
                call(self, *told.groups())
                return
        raise Wrong("no entry")

    def opens(self, number):
        self.opened += 1
        require(number == str(self.opened) and self.opened <= 2, "another opening")

    def arrive(self, name, dcb, related):
        request = self.request(name)
        task, _, number = name.split()
        before = sum(1 for it in self.arrived if it.startswith(f"{task} "))
        require(int(number) == before + 1, "arrived twice, or out of order")
        require((dcb, bool(related)) == (str(request.dcb), request.related), "another request")
        self.arrived.add(name)
        self.waiting.append(name)
        if request.dcb in self.closed:
            self.why[name] = NOT_OPEN
            self.met.add("arrival for a closed DCB")
        elif request.related and request.dcb in self.flagged:
            self.why[name] = ERROR
            self.met.add("arrival after an error")

    def start(self, name):
        require(self.active is None and self.waiting[:1] == [name], "started out of order")
        require(not self.request(name).program.outside, "started outside its extents")
        self.waiting.remove(name)
        self.begin(self.request(name), 1)

    def start_again(self, name, count):
        active = self.active
        require(active and active.request.name == name and active.is_to_restart(), "started again")
        require(count == str(active.count + 1), "another attempt")
        self.begin(active.request, active.count + 1)
        self.met.add("further start")

    def begin(self, request, count):
        """An attempt ends at the first fault among its commands."""
        last = self.done + request.program.commands
        met = next((at for at in FAULTS[self.unit] if self.done < at <= last), None)
        self.active = Attempt(request, (met or last) - self.done, met is not None, count)

    def run(self, name, count, plural, turns):
        """Commands of the active program, in one turn or several, of which each but the last has as many as a turn may have."""
        active, count, many = self.active, int(count), int(turns or 1)
        require(active and active.request.name == name and active.runs(), "no program of it")
        require((count > 1) == bool(plural) and turns != "1", "another form")
        left = active.commands - active.ran
        require(TURN * (many - 1) < count == min(TURN * many, left), "commands that it has not")
        active.ran += count
        self.done += count

    def halt(self, _):
        self.is_to_halt, self.active.halted = False, True
        self.met.add("halt")

    def doom(self, why, is_met, what):
        """Those that wait and are met are not to be started."""
        for name in self.waiting:
            if name not in self.why and is_met(self.requests[name]):
                self.why[name] = why
                self.met.add(what)

    def purge(self, scope, number, mode, active):
        """A purge meets what waits, and with halt what is active."""
        def covers(it):
            return number == (str(it.dcb) if scope == "DCB" else it.name.split()[0])

        told = f"task {self.active.request.name} active" if self.active else "nothing active"
        require(active == told, "another active request")
        self.doom(PURGED, covers, f"purge of a {scope}")
        if self.active and mode == "halt" and covers(self.active.request):
            self.active.covered, self.is_to_halt = True, self.active.runs()

    def close(self, number):
        require(number == "2" and 2 not in self.closed, "closed twice")
        self.closed.add(2)
        self.doom(CLOSED, lambda it: it.dcb == 2, "close")

    def reset(self, number):
        require(number == "1", "another reset")
        self.flagged.discard(1)

    def post(self, name, code, address, status, residual, sense, words, why):
        """A post: of the active request, as its last attempt came to its end; or of one that was never started, because it
        is doomed, or because it comes next and is outside its extents."""
        end, request, active = (code, address, status, residual, sense), self.request(name), self.active
        require((words or "") == words_of(status, sense), "other words")
        if active and active.request == request:
            require(not active.runs() and not active.is_to_restart(), "posted before its end")
            require(end == active.end() and why == active.reason(), "another end")
            if active.meets_retry():
                self.met.add("purge of what awaits its restart")
            self.active = None
        else:
            require(name in self.waiting, "posted twice")
            if due := self.why.pop(name, None):
                require(end == NEVER_STARTED and why == f"not started: {due}", "another reason")
            else:
                require(active is None and self.waiting[0] == name and request.program.outside, "posted without a start")
                require(end == VIOLATED and why == f"not started: {OUTSIDE}", "another reason")
            self.waiting.remove(name)
        self.ends[name] = end
        if request.related and code in ("41", "42"):
            self.flagged.add(request.dcb)
            self.doom(ERROR, lambda it: it.related and it.dcb == request.dcb, "related error")

    NAME = r"task (\d+ request \d+)"
    FORMS = [
        (r"DCB (\d+) opened for output, 1 extent", opens),
        (NAME + r" arrived for DCB (\d+)(, related)?", arrive),
        (NAME + r" started", start),
        (NAME + r" started again, attempt (\d+)", start_again),
        (NAME + r" ran (\d+) command(s?)(?: in (\d+) turns)?", run),
        (NAME + r" halted", halt),
        (r"purge of (DCB|task) (\d+) with (halt|quiesce), (.*)", purge),
        (r"DCB (\d+) closed", close),
        (r"DCB (\d+) reset", reset),
        (NAME + r" posted (..), CSW (.{6}) (.{4}) (.{4}), sense (.{4})(: .*?)?"
         r"(?:, (halted|not tried again: purged|not started: .*))?", post),
    ]


def plan_of(done, unit):
    """What a task does to a unit: its controls, each with the requests that it waited for before, and of each request how
    many controls come before it, and which requests it waited for."""
    controls, requests, issued, waited = [], {}, set(), set()
    for it in done:
        if it is None:
            waited = set(issued)
        elif it.unit == unit and isinstance(it, Control):
            controls.append((it.entry, waited))
        elif it.unit == unit:
            requests[it.name] = len(controls), waited
            issued.add(it.name)
    return controls, requests


class Tasks:
    """How far the tasks are in what they do to a unit. Two tasks may do the same, so there may be several pairs of how many
    controls each has done."""

    def __init__(self, job, unit):
        self.plans = [plan_of(job.done[task], unit) for task in (0, 1)]
        self.posted, self.done, self.closed = set(), {(0, 0)}, False

    def further(self, words):
        """The pairs after a control, done by either task as its next one, if what the task waited for was posted."""
        for task, (controls, _) in enumerate(self.plans):
            for pair in self.done:
                entry, waited = controls[pair[task]] if pair[task] < len(controls) else (None, set())
                if entry == words and waited <= self.posted:
                    yield tuple(count + (place == task) for place, count in enumerate(pair))

    def note(self, entry):
        """One entry more: an arrival or a control comes after what its task did before it, and what that waited for."""
        words = entry.split(", ")[0]
        if told := re.match(r"task ((\d+) request \d+) posted ", entry):
            self.posted.add(told[1])
        elif told := re.match(r"task ((\d+) request \d+) arrived ", entry):
            count, waited = self.plans[int(told[2])][1][told[1]]
            require(waited <= self.posted, "arrived before a post that its task waited for")
            self.done = {pair for pair in self.done if pair[int(told[2])] >= count}
        elif words.startswith("purge of ") or re.fullmatch(r"DCB \d (closed|reset)", words):
            self.done = set(self.further(words))
            self.closed = self.closed or words == CLOSE
        if self.closed:
            # a second close does nothing, and has no entry; each task may have done one
            for _ in self.plans:
                self.done |= set(self.further(CLOSE))
        require(self.done, "out of the order of its task")

    def end(self):
        """All controls were done."""
        require(tuple(len(controls) for controls, _ in self.plans) in self.done, "a control is lost")


def judge(job, report):
    """Judges a report, and answers what its units met."""
    met, due = set(), []
    for unit, entries in report.entries.items():
        course, tasks = Course(unit, job.requests(unit)), Tasks(job, unit)
        for number, entry in enumerate(entries, 1):
            try:
                course.note(entry)
                tasks.note(entry)
            except Wrong as error:
                raise Wrong(f"unit {unit}, line {number} of its history, {entry}: {error}") from error
        tasks.end()
        require(set(course.ends) == set(course.requests), "left without a post")
        met |= course.met
        for it in job.requests(unit):
            task, _, number = it.name.split()
            end = course.ends[it.name]
            due.append((task, str(unit), number, *end, it.shown(end)))
    due.sort(key=lambda it: tuple(map(int, it[:3])))
    require(report.posts == due, "other posts")
    return met


def printed(setup, word, lines, channels, handlers):
    """The run of the program on a script, which ends with status 0 and an empty standard error."""
    words = [word, "--channels", str(channels), "--handlers", str(handlers)]
    ran = setup.run(*words, script="\n".join([*lines, ""]))
    if ran.status or ran.err:
        raise Failed("another outcome", ran, "status 0\n", ran.text())
    return ran


# What the runs by each number of workers are to meet, and what those need whose tasks and workers race.
ALWAYS = {"arrival for a closed DCB", "arrival after an error", "further start", "related error"}
RACING = {"halt", "purge of a DCB", "purge of a task", "close"}
WANTED = ALWAYS | RACING if len(os.sched_getaffinity(0)) > 1 else ALWAYS
RUNS = 25
RUNS_LONG = 200
MOST = 400

# How many small jobs are compared with their outcomes.
SMALL = 8


def runs_are_lawful(setup, seed, channels, handlers):
    """Judges 25 runs, or 200 in the long form, and more, up to 400, until they have met all that is wanted."""
    chance, met = random.Random(seed), set()
    for count in range(1, MOST + 1):
        job = job_at_random(chance, STEPS)
        ran = printed(setup, "report", [*SET_UP, *job.lines], channels, handlers)
        try:
            met |= judge(job, read_report(ran.out, job))
        except Wrong as error:
            raise Failed(str(error), ran, None, ran.text()) from error
        if count >= (RUNS_LONG if setup.is_long else RUNS) and WANTED <= met:
            return
    raise Failed(f"no run met {WANTED - met}")


def small_runs_are_outcomes(setup, seed):
    """The posts of small jobs, whose reports are judged, are among the outcomes that `outcomes` finds."""
    chance, compared = random.Random(seed), 0
    for _ in range(SMALL):
        job = job_at_random(chance, FEW)
        ran = printed(setup, "report", [*SET_UP, *job.lines], 2, 2)
        judge(job, read_report(ran.out, job))
        with tempfile.TemporaryDirectory() as folder:
            told, last = every_outcome(setup, "\n".join([*SET_UP, *job.lines, ""]), folder)
        if not last.startswith("not all"):
            is_among(posts_in(ran), told, "a report")
            compared += 1
    require_some(compared, f"{SMALL} jobs were too large")


def require_some(count, what):
    if not count:
        raise Failed(what)


def altered(text):
    """Texts that are wrong in one place: a line is lost or is there twice, two posts are exchanged, or a digit of what is
    posted or of a name is another one."""
    lines = text.split("\n")[:-1]
    for at, line in enumerate(lines):
        before, after = lines[:at], lines[at + 1 :]
        yield before + after
        yield [*before, line, *lines[at:]]
        if line.startswith("post ") and after[0].startswith("post "):
            yield [*before, after[0], line, *after[1:]]
        if line.startswith("post ") or " posted " in line:
            for place, digit in enumerate(line):
                if digit in "0123456789ABCDEF" and place > (0 if line.startswith("post ") else 6):
                    yield [*before, line[:place] + ("1" if digit == "0" else "0") + line[place + 1 :], *after]


def wrong_reports_are_rejected(setup, seed):
    """Fails if the judge accepts one of the wrong texts that are made of a lawful report."""
    chance = random.Random(seed)
    job = job_at_random(chance, FEW)
    ran = printed(setup, "report", [*SET_UP, *job.lines], 1, 1)
    judge(job, read_report(ran.out, job))
    for lines in altered(ran.out):
        # the entries are counted anew, so that their numbers do not give the change away
        wrong = "\n".join([*numbered(lines), ""])
        try:
            judge(job, read_report(wrong, job))
        except Wrong:
            continue
        changes = difflib.unified_diff(ran.out.split("\n"), wrong.split("\n"), lineterm="", n=0)
        raise Failed(f"the judge accepts {list(changes)[2:]}", ran)


def numbered(lines):
    """The lines, with the entries of each history counted anew."""
    kept, head, at = [], None, 1
    for line in lines:
        if line.startswith("# unit "):
            head, at = len(kept), 1
            kept.append(line)
        elif head is not None and (told := re.fullmatch(r"# {1,5}\d+ (.*)", line)):
            kept.append(f"# {at:5} {told[1]}")
            more = re.search(r" in (\d+) turns$", line)
            at += int(more[1]) if more else 1
            kept[head] = re.sub(r"\d+ entries", f"{at - 1} entries", kept[head])
        else:
            kept.append(line)
    return kept


# --- jobs whose posts are known whatever the interleaving

READ_OR_WRITE = "3100105040000005 0800103000000000 {}00106000000004 0000000000000000 0000000001000000 0000000000000000 {}00000000"


def two_disks_four_hundred_posts(setup, channels, handlers):
    """Two tasks issue a hundred requests to each of two disks, a write and a read in turn: `run` prints their posts, and
    `report` the disks after them."""
    units = [line for unit, isc in ((0, 3), (1, 6)) for line in (f"disk {unit} {isc} 1 1 40", f"rec {unit} 0 0 1 - 00000000")]
    iob = "4200000000001028 0000000000000000 0000103000000001 0000000000000000 0000000000000001 0000000000000000"
    programs = READ_OR_WRITE.format("05", "C1C2C3C4"), READ_OR_WRITE.format("06", "00000000")
    areas = [f"area {area} 001000 {iob} {program}" for area, program in enumerate(programs)]
    opened = [f"open {unit} out {TRACK}" for unit in (0, 1)]
    pairs = [(task, unit) for task in (0, 1) for unit in (0, 1)]
    issues = [f"excp {task} {unit} 1 001000 {number % 2} 001060 4" for number in range(100) for task, unit in pairs]
    posts = [f"post {task} {unit} {number} 7F 001048 0C00 0000 0000 C1C2C3C4" for task, unit in pairs for number in range(1, 101)]
    script = ["tasks 3", *units, *opened, *areas, *issues]
    due = [*posts, "end 400", ""]
    expect(printed(setup, "run", script, channels, handlers), (0, "\n".join(due)))
    ran = printed(setup, "report", script, channels, handlers)
    kept = [line for line in ran.out.split("\n") if not line.startswith("#")]
    media = [line.replace("- 00000000", "- C1C2C3C4") for line in units]
    expect_text("another report", ran, "\n".join([*due[:-1], *media, ""]), "\n".join(kept))


def cases(setup):
    def case(name, judge, *given):
        return Case(name, lambda: judge(setup, *given), "tests/groups/random.py, a judge by docs/SPECIFICATION.md")

    for seed, (channels, handlers) in enumerate([(1, 1), (1, 3), (2, 1), (2, 2), (3, 1), (3, 3), (4, 2), (16, 8)]):
        yield case(f"scripts at random: {channels} and {handlers} workers", runs_are_lawful, seed, channels, handlers)
    for seed in range(4):
        yield case(f"the judge rejects wrong reports: {seed}", wrong_reports_are_rejected, seed)
    for seed in range(4):
        yield case(f"small jobs post what they can: {seed}", small_runs_are_outcomes, seed)
    for channels, handlers in (1, 1), (2, 2), (16, 8):
        name = f"two_disks_four_hundred_posts: {channels} and {handlers} workers"
        yield case(name, two_disks_four_hundred_posts, channels, handlers)
