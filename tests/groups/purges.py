"""Purges beside programs that run and requests that wait, and the reasons that histories give.

Each post is one of a few, whatever the interleaving, and among a few runs is one in which the purge met all that it is to
meet. The reason that a history gives, if a request was not started, is that of the entries before it.
"""

import re

from harness import Case, require

IOB = "4200000000001028 0000000000000000 0000103000000001 0000000000000000 0000000000000001 0000000000000000"
OTHER = IOB.replace("0000103000000001", "0000103000000002")

# Two tasks, and three disks on subclasses 3, 6 and 3, the first with two DCBs. Areas 0 and 1, for DCBs 1 and 2, are a
# no-operation and a transfer back to it, up to the fetch limit; area 2 does a third more commands.
LOOPS = f"""tasks 2
disk 0 3 1 1 40
disk 1 6 1 1 40
disk 2 3 1 1 40
open 0 out 18000000000000000000000000000001
open 0 out 18000000000000000000000000000001
open 1 out 18000000000000000000000000000001
open 2 out 18000000000000000000000000000001
area 0 001000 {IOB} 0300000060000001 0800103000000000
area 1 001000 {OTHER} 0300000060000001 0800103000000000
area 2 001000 {IOB} 0300000060000001 0300000060000001 0800103000000000
"""

# How often each DCB of unit 0 is used.
PAIRS = 20

# How a request is printed that came to its end, that waited, and that was halted after a command or before its first one, each
# with its ECB, and a letter for it.
ENDS = {
    "41 001038 0020 0000 0000 41000000": "E",
    "48 000000 0000 0000 0000 48000000": "W",
    "48 001038 0C00 0001 0000 48000000": "H",
    "48 001030 0C00 0000 0000 48000000": "B",
}

# How the requests of a task to a unit end, in their order, if a purge with halt, one with quiesce, or none covers them: what
# ended before it, what it halted, what waited, and what had not arrived.
HALTING = re.compile("E*[HB]?W*E*")
QUIESCING = re.compile("E*W*E*")
UNTOUCHED = re.compile("E*")

# A disk with R1, of which task 1 reads twice, while task 0 purges its requests.
TWO_READS = f"""tasks 2
disk 0 0 1 1 40
rec 0 0 0 1 - C1C2C3C4
open 0 out 18000000000000000000000000000001
area 0 001000 {IOB} 3100105040000005 0800103000000000 0600106000000004 0000000000000000 \
0000000001000000 0000000000000000 0000000000000000
excp 1 0 1 001000 0 001060 4
excp 1 0 1 001000 0 001060 4
purgetask 0 1 halt
"""

# How each read may be printed: it was not purged; it waited; it was halted before its first command, or after another.
READS = [
    "7F 001048 0C00 0000 0000 C1C2C3C4",
    "48 000000 0000 0000 0000 00000000",
    "48 001030 0C00 0000 0000 00000000",
    "48 001038 0C00 0000 0000 00000000",
]


# Why a request was posted 48 that was not started, as a history has it.
PURGED = "purged"
CLOSED = "its DCB was closed"
NOT_OPEN = "its DCB is not open"
ERROR = "a related request ended in error"

# A post in a history: the request, its completion code, and the reason where it was not started. tests/groups/random.py judges
# words on status and sense, and on ends after a start.
POST = re.compile(r"task (\d+ request \d+) posted (..), CSW .{16}, sense .{4}(?:: .*?)?"
                  r"(?:, halted|, not tried again: purged|, not started: (.*))?")

# A history, of no run, with each of them.
DOOMS = f"""# unit 0: disk, 25 entries
#     1 DCB 1 opened for output, 1 extent
#     2 DCB 2 opened for output, 1 extent
#     3 task 0 request 1 arrived for DCB 1, related
#     4 task 0 request 1 started
#     5 task 0 request 2 arrived for DCB 1
#     6 task 0 request 3 arrived for DCB 1, related
#     7 task 1 request 1 arrived for DCB 2, related
#     8 task 0 request 1 ran 1 command
#     9 task 0 request 1 posted 41, CSW 001038 0E00 0001, sense 8000
#    10 task 0 request 3 posted 48, CSW 000000 0000 0000, sense 0000, not started: {ERROR}
#    11 task 0 request 4 arrived for DCB 1, related
#    12 task 0 request 4 posted 48, CSW 000000 0000 0000, sense 0000, not started: {ERROR}
#    13 DCB 1 reset
#    14 task 0 request 5 arrived for DCB 1, related
#    15 task 0 request 2 started
#    16 purge of task 0 with halt, task 0 request 2 active
#    17 task 0 request 2 halted
#    18 task 0 request 5 posted 48, CSW 000000 0000 0000, sense 0000, not started: {PURGED}
#    19 task 0 request 2 posted 48, CSW 001030 0C00 0000, sense 0000
#    20 DCB 2 closed
#    21 task 1 request 1 posted 48, CSW 000000 0000 0000, sense 0000, not started: {CLOSED}
#    22 task 1 request 2 arrived for DCB 2
#    23 task 1 request 2 posted 48, CSW 000000 0000 0000, sense 0000, not started: {NOT_OPEN}
#    24 task 1 request 3 arrived for DCB 3, related
#    25 task 1 request 3 posted 48, CSW 000000 0000 0000, sense 0000, not started: {NOT_OPEN}
"""


def printed(setup, script, channels, handlers, word="run"):
    """The run of the program on a script, and its lines; it ends with status 0 and an empty standard error."""
    ran = setup.run(word, "--channels", str(channels), "--handlers", str(handlers), script=script)
    require(ran.status == 0 and not ran.err and ran.out.endswith("\n"), "another outcome", ran)
    return ran, ran.out.removesuffix("\n").split("\n")


def loops(purge):
    """Task 1 issues requests to unit 0, for DCBs 2 and 1 in turn, and to unit 2, and waits for them. Task 0, on a thread of its
    own, issues one to unit 1, waits for it, issues one to unit 0 for DCB 1, and purges: by then the second request of task 1 may
    be under way."""
    pair = "excp 1 0 2 001000 1 001028 4\nexcp 1 0 1 001000 0 001028 4\nexcp 1 2 1 001000 0 001028 4\n"
    last = "excp 0 0 1 001000 0 001028 4\n"
    return f"{LOOPS}{pair * PAIRS}wait 1\nexcp 0 1 1 001000 2 001000 0\nwait 0\n{last}{purge}\n"


def ends_of(ran, lines):
    """The ends of the requests of each task to each unit of `loops`, as letters in the order of their numbers."""
    *posts, last = lines
    require(last == f"end {3 * PAIRS + 2}" and len(posts) == 3 * PAIRS + 2, "another number of posts", ran)
    require(posts.pop(1) == "post 0 1 1 41 001040 0020 0000 0000 -", "another post of unit 1", ran)
    names = ["0 0 1", *(f"1 0 {n}" for n in range(1, 2 * PAIRS + 1)), *(f"1 2 {n}" for n in range(1, PAIRS + 1))]
    letters = ""
    for name, line in zip(names, posts):
        end = ENDS.get(line.removeprefix(f"post {name} "))
        require(end, f"this post may not be: {line}", ran)
        letters += end
    return letters[0], letters[1 : 2 * PAIRS + 1], letters[2 * PAIRS + 1 :]


def meets(setup, purge, both, covered, wanted):
    """Each request of ten runs ends as it may, if the purge covers task 0's and task 1's of DCB 1 of unit 0, or all of task 1.
    Forty runs at most show all that is wanted: a request that was halted after a command, before one that waited; one that
    waited; one that waited at unit 2; and one of task 0 that had not arrived when others waited."""
    met = set()
    for count in range(40):
        if count >= 10 and wanted <= met:
            return
        ran, lines = printed(setup, loops(purge), 1, 1)
        own, first, other = ends_of(ran, lines)
        of_dcb_2, of_dcb_1 = first[::2], first[1::2]
        if both:
            fit = (own, UNTOUCHED), (first, covered), (other, covered)
        else:
            fit = (own, covered), (of_dcb_2, UNTOUCHED), (of_dcb_1, covered), (other, UNTOUCHED)
        for letters, ends in fit:
            require(ends.fullmatch(letters), f"the requests may not end so: {letters}", ran)
        facts = {
            "halted": "HW" in (first if both else of_dcb_1),
            "waited": "W" in first,
            "elsewhere": "W" in other,
            "not arrived": "W" in first and own == "E",
        }
        met |= {name for name, is_so in facts.items() if is_so}
    require(wanted <= met, f"no purge met {wanted - met}")


def are_two_reads(setup, channels, handlers):
    """Each of 25 runs prints two reads of task 1, each in one of its ways."""
    for _ in range(25):
        ran, lines = printed(setup, TWO_READS, channels, handlers)
        require(len(lines) == 3 and lines[2] == "end 2", "not two posts", ran)
        for number, line in enumerate(lines[:2], 1):
            start = f"post 1 0 {number} "
            require(line.startswith(start) and line.removeprefix(start) in READS, f"this post may not be: {line}", ran)


class Unit:
    """What the entries of a history so far leave: the DCBs that are open and those with the flag of an error, the
    requests that wait, the DCB of each that arrived and whether it is related, and why some will not be started."""

    def __init__(self):
        self.open, self.flagged, self.waiting, self.arrived, self.why = set(), set(), [], {}, {}

    def doom(self, why, is_met):
        """Those that wait and are met, by their task, their DCB and whether they are related, are doomed."""
        for name in self.waiting:
            if is_met(name.split()[0], *self.arrived[name]):
                self.why.setdefault(name, why)

    def arrive(self, name, dcb, related):
        self.arrived[name] = dcb, bool(related)
        self.waiting.append(name)
        if dcb not in self.open:
            self.why[name] = NOT_OPEN
        elif related and dcb in self.flagged:
            self.why[name] = ERROR

    def post(self, name, code, why):
        """Whether a request that was not started is posted as it is doomed, and one that was started without a reason."""
        due = self.why.pop(name, None)
        if name in self.waiting:
            self.waiting.remove(name)
            fits = why == due if code == "48" else due is None
        else:
            fits = why is None
        dcb, related = self.arrived[name]
        if related and code in ("41", "42"):
            self.flagged.add(dcb)
            self.doom(ERROR, lambda _, its_dcb, is_related: is_related and its_dcb == dcb)
        return fits

    def note(self, entry):
        """One entry more: whether it gives no reason but the one that is due."""
        if told := re.fullmatch(r"DCB (\d+) opened .*", entry):
            self.open.add(told[1])
        elif told := re.fullmatch(r"task (\d+ request \d+) arrived for DCB (\d+)(, related)?", entry):
            self.arrive(*told.groups())
        elif told := re.fullmatch(r"task (\d+ request \d+) started", entry):
            self.waiting.remove(told[1])
            return told[1] not in self.why
        elif told := re.match(r"purge of DCB (\d+) with ", entry):
            self.doom(PURGED, lambda _, dcb, __: dcb == told[1])
        elif told := re.match(r"purge of task (\d+) with ", entry):
            self.doom(PURGED, lambda task, _, __: task == told[1])
        elif told := re.fullmatch(r"DCB (\d+) closed", entry):
            self.open.discard(told[1])
            self.doom(CLOSED, lambda _, dcb, __: dcb == told[1])
        elif told := re.fullmatch(r"DCB (\d+) reset", entry):
            self.flagged.discard(told[1])
        elif told := POST.fullmatch(entry):
            return self.post(*told.groups())
        else:
            return re.fullmatch(r"task .* (started again, attempt \d+|ran .*|halted)", entry) is not None
        return True


def reasons(lines):
    """The reasons that the histories among these lines give of posts with code 48, each with whether its request waited
    before; None where one is not that of the entries before it."""
    given = set()
    unit, last = Unit(), ""
    for line in lines:
        if line.startswith("# unit "):
            unit = Unit()
        elif told := re.fullmatch(r"# {1,5}\d+ (.*)", line):
            if not unit.note(told[1]):
                return None
            post = POST.fullmatch(told[1])
            if post and post[2] == "48" and post[3]:
                given.add((post[3], not last.startswith(f"task {post[1]} arrived ")))
            last = told[1]
    return given


def gives_reasons(setup, script, wanted):
    """The histories of ten runs give the right reasons, and those of forty at most all that are wanted."""
    given = set()
    for count in range(40):
        if count >= 10 and wanted <= given:
            break
        ran, lines = printed(setup, script, 1, 1, "report")
        found = reasons(lines)
        require(found is not None, "a reason that is not that of the entries before it", ran)
        given |= found
    require(wanted <= given, f"no history gives the reasons {wanted - given}")


def wrong_reasons_are_rejected():
    """The history above is right, and is wrong with another reason, or none, at any of its posts."""
    lines = DOOMS.splitlines()
    found = reasons(lines)
    require(found == {(ERROR, True), (ERROR, False), (PURGED, True), (CLOSED, True), (NOT_OPEN, False)}, f"reasons {found}")
    for number, line in enumerate(lines):
        start, mark, why = line.partition(", not started: ")
        for other in (PURGED, CLOSED, NOT_OPEN, ERROR, None):
            wrong = start if other is None else f"{start}{mark}{other}"
            is_accepted = reasons([*lines[:number], wrong, *lines[number + 1 :]]) is not None
            require(not (mark and other != why and is_accepted), f"accepts {wrong}")


# A long program as that of area 0, but of a related request.
RELATED = f"area 3 001000 {IOB.replace('42', '40', 1)} 0300000060000001 0800103000000000\n"


def related():
    """Task 1 issues requests that are related and end in error, and one more after its wait."""
    request = "excp 1 0 1 001000 3 001000 0\n"
    return f"{LOOPS}{RELATED}{request * PAIRS}wait 1\n{request}"


def closed():
    """A close in place of the purge of `loops`, and then one more request for the DCB."""
    return f"{loops('close 0 0 1')}excp 0 0 1 001000 0 001000 0\n"


def all_at_once():
    """Task 1 issues related requests and others; task 0 purges, resets and closes after requests of its own."""
    issues = "excp 1 0 1 001000 3 001000 0\nexcp 1 0 2 001000 1 001000 0\nexcp 1 0 1 001000 0 001000 0\n"
    calls = "reset 0 0 1", "purge 0 0 2 halt", "reset 0 0 1", "purgetask 0 1 quiesce", "reset 0 0 1", "close 0 0 2"
    pause = "excp 0 1 1 001000 2 001000 0\nwait 0\n"
    return LOOPS + RELATED + issues * PAIRS + "".join(f"{pause}{call}\n" for call in calls)


def cases(setup):
    def case(name, judge, *given):
        return Case(name, lambda: judge(setup, *given), "tests/groups/purges.py, by docs/SPECIFICATION.md")

    both, halted = {"waited", "elsewhere", "not arrived"}, {"halted", "waited", "not arrived"}
    yield case("purges_of_long_programs: halt", meets, "purge 0 0 1 halt", False, HALTING, halted)
    yield case("purges_of_long_programs: quiesce", meets, "purge 0 0 1 quiesce", False, QUIESCING, halted - {"halted"})
    yield case("purges_of_long_programs: a task, halt", meets, "purgetask 0 1 halt", True, HALTING, both | halted)
    yield case("purges_of_long_programs: a task, quiesce", meets, "purgetask 0 1 quiesce", True, QUIESCING, both)
    for channels, handlers in (1, 1), (2, 3), (4, 2), (16, 8):
        yield case(f"a_task_purges_another: {channels} and {handlers} workers", are_two_reads, channels, handlers)
    yield case("reasons: a purge with halt", gives_reasons, loops("purge 0 0 1 halt"), {(PURGED, True)})
    yield case("reasons: a purge of a task with quiesce", gives_reasons, loops("purgetask 0 1 quiesce"), {(PURGED, True)})
    yield case("reasons: a close", gives_reasons, closed(), {(CLOSED, True), (NOT_OPEN, False)})
    yield case("reasons: a related error", gives_reasons, related(), {(ERROR, True), (ERROR, False)})
    yield case("reasons: all at once", gives_reasons, all_at_once(), set())
    yield Case("reasons: wrong ones are rejected", wrong_reasons_are_rejected, "tests/groups/purges.py")
