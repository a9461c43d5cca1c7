"""Every outcome of a job (`excp outcomes`, docs/MANUAL.md).

Jobs whose outcomes follow by hand from docs/SPECIFICATION.md have just these. Of small jobs at random, no run by a seed and no run
on threads posts anything else. The scenario of each outcome comes to its post when `step` carries it out. Every sample is searched
to its end.
"""

import glob
import html.parser
import os
import re
import subprocess
import sys
import tempfile
import time
from dataclasses import replace
from types import SimpleNamespace

from excp.outcomes.fixing import Fixed, fixed
from excp.outcomes.job import NumberedJob
from harness import SAMPLES, TOP, Case, expect, read, require, without_states
from small_jobs import small_job

ORIGIN = "docs/MANUAL.md and docs/SPECIFICATION.md"

# How many small jobs there are, also in the long form, how many are one case, and how many seeds run each.
JOBS = 150
JOBS_LONG = 600
BATCH = 25
SEEDS = 6

# How many jobs run on threads, and how often each.
RACES = 20
RUNS = 150

# An image of a tape.
IMAGE = "tests/cases/images/w.aws"

# A disk with R1, an IOB with its ECB whose request is unrelated or related, and a program that reads a record: search, transfer in
# channel, read.
DISK = """tasks 2
disk 0 0 1 1 40
rec 0 0 0 1 - C1C2C3C4
"""
OPEN = "open 0 out 18000000000000000000000000000001\n"
READ = "3100105040000005 0800103000000000 0600106000000004 0000000000000000 "


def area(number, flags, record):
    return (f"area {number} 001000 {flags}00000000001028 0000000000000000 0000103000000001 0000000000000000 0000000000000001 "
            f"0000000000000000 {READ}00000000{record}000000 0000000000000000 0000000000000000\n")


PLAIN = area(0, "42", "01")
EXCP = "excp {} 0 1 001000 {} 001000 0\n"
ENDED = "7F 001048 0C00 0000 0000 -"
WAITED = "48 000000 0000 0000 0000 -"

# Such a request and a halt, and what it is posted with if the halt meets its program before its first command, or after a search.
FEW = DISK + OPEN + PLAIN + EXCP.format(0, 0) + "purge 1 0 1 halt\n"
HALTED, HALTED_BETWEEN = (f"48 00{address} 0C00 0000 0000 -" for address in (1030, 1038))

# The same, with requests of its task to a printer and to its unit, which no outcome of it needs.
BESIDE = (DISK + "printer 1 0 10 5\n" + OPEN + "open 1 out\n" + PLAIN + EXCP.format(0, 0) + "excp 0 1 1 001000 0 001000 0\n"
          + EXCP.format(0, 0) + "purge 1 0 1 halt\n")

# A related request that finds no record, and one of another task to the same DCB that finds one.
RELATED = DISK + OPEN + area(0, "40", "09") + area(1, "40", "01") + EXCP.format(0, 0) + EXCP.format(1, 1)
FAILED = "41 001038 0E00 0005 0008 -"

# Two DCBs. A related request to the first one finds no record, and then its task closes the second one. Another task waits for each
# of two requests to the second one, resets the first one, and issues a related request to it. If both that it waits for were posted
# on arrival, the second of them arrived after the request that finds no record. It may have been posted before that one was
# started: then the reset comes before the error.
EARLY_RESET = (DISK + OPEN * 2
               + area(0, "40", "09") + area(1, "40", "01") + area(2, "42", "01").replace("0000103000000001", "0000103000000002")
               + EXCP.format(0, 0) + "close 0 0 2\n" + "excp 1 0 2 001000 2 001000 0\nwait 1\n" * 2 + "reset 1 0 1\n"
               + EXCP.format(1, 1))

# A job with its options, and the outcomes of each request, worked by hand.
BY_HAND = {
    # A request and a quiesce. If it has not arrived, is active or is posted at the purge, it ends; if it waits, it is purged.
    "a quiesce": (DISK + OPEN + PLAIN + EXCP.format(0, 0) + "purge 1 0 1 quiesce\n", (), {"0 0 1": {ENDED, WAITED}}),
    # A halt also meets its program before its first command, and between its searches and its read. With turns of 64 commands it does
    # not meet it there.
    "a halt": (FEW, (), {"0 0 1": {ENDED, WAITED, HALTED, HALTED_BETWEEN}}),
    "a halt, by commands": (FEW, ("--turn", "1"), {"0 0 1": {ENDED, WAITED, HALTED, HALTED_BETWEEN}}),
    "a halt, by turns": (FEW, ("--turn", "64"), {"0 0 1": {ENDED, WAITED, HALTED}}),
    # A related request that finds no record, and one of another task to the same DCB: that ends well only if it arrives first.
    "a related error": (RELATED, (), {"0 0 1": {FAILED}, "1 0 1": {ENDED, WAITED}}),
    # Two related requests that find no record: the second one is started only if it arrives after the reset.
    "a reset": (DISK + OPEN + area(0, "40", "09") + EXCP.format(0, 0) * 2 + "reset 0 0 1\n", (),
                {"0 0 1": {FAILED}, "0 0 2": {FAILED, WAITED}}),
    "a reset before an error": (EARLY_RESET, (),
                                {"0 0 1": {FAILED}, "1 0 1": {ENDED, WAITED}, "1 0 2": {ENDED, WAITED}, "1 0 3": {ENDED, WAITED}}),
    # An error that is tried again, and a close: a request that is active stays so.
    "a close": (DISK + "fault 0 1 0E 00 1000\n" + OPEN + PLAIN + EXCP.format(0, 0) + "close 1 0 1\n", (),
                {"0 0 1": {ENDED, WAITED}}),
}

# Jobs of tests/cases/outcomes, each with an outcome that a search loses if it saves too much: the options, the request and its
# post. A program that writes a record and restores it is halted between its writes, and another one reads the record. A request
# arrives at an idle unit before one that is posted on arrival, and is purged before it is started; so a later one reads the first
# block. Of two requests on their way to a printer, the later one by its number is taken first, and meets a fault.
SELDOM = {
    "halted-between-writes": (("--turn", "1"), "2 0 1", "7F 0010A0 0C00 0000 0000 AAAAAAAA"),
    "arrival-before-doomed": ((), "1 0 3", "7F 0010D0 0C00 0000 0000 B0"),
    "taken-in-another-order": (("--turn", "2"), "1 0 1", "41 001040 0E00 0001 4000 0000"),
}

# Two tapes, of each of which the first request reads the block 01 and the second the block 02. Task 0 issues to both; task 1 issues
# to the second one, waits, and issues to the first. So if task 0 is first at the second tape, it is first at the first one too: of
# the four outputs there are three. An order of a whole row that is chosen too early loses one.
TAPES = """tasks 2
tape 0 0 60
block 0 01
block 0 02
tape 1 1 60
block 1 01
block 1 02
open 0 in
open 1 in
area 0 001000 4200000000001028 0000000000000000 0000103000000001 0000000000000000 0000000000000000 0000000000000000 \
0200103820000001 00
excp 0 0 1 001000 0 001038 1
excp 0 1 1 001000 0 001038 1
excp 1 1 1 001000 0 001038 1
wait 1
excp 1 0 1 001000 0 001038 1
"""


def read_by(first, second):
    """The posts of the two tapes: which of the blocks 01 and 02 task 0 reads from each. Task 1 reads the other one."""
    post = "7F 001038 0C00 0000 0000 0{}".format
    return {"0 0 1": post(first), "0 1 1": post(second), "1 0 1": post(3 - first), "1 1 1": post(3 - second)}


# Three tapes. Task 2 purges each of them once. Task 0 issues to the second tape and then to the first; task 1 to the third and then
# to the first. The purge of the first tape meets both later requests only if both tasks issued to the other tapes before: then all
# four requests may wait when they are purged.
WRITE = ("area 0 001000 4200000000001028 0000000000000000 0000103000000001 0000000000000000 0000000000000000 0000000000000000 "
         "0100103820000002 A1A1\n")
THREE = ("tasks 3\ntape 0 0 60\ntape 1 1 60\ntape 2 2 60\n" + "".join(f"open {unit} out\n" for unit in range(3)) + WRITE
         + "".join(f"{it} 001000 0 001038 2\n" for it in ("excp 0 1 1", "excp 0 0 1", "excp 1 2 1", "excp 1 0 1"))
         + "".join(f"purge 2 {unit} 1 quiesce\n" for unit in range(3)) + "".join(f"excp 2 {unit} 1 001000 0 001038 2\n"
                                                                                 for unit in (1, 2)))
WRITTEN = "7F 001038 0C00 0000 0000 A1A1"
PURGED = "48 000000 0000 0000 0000 A1A1"
ALL_PURGED = {"0 0 1": PURGED, "0 1 1": PURGED, "1 0 1": PURGED, "1 2 1": PURGED, "2 1 1": WRITTEN, "2 2 1": WRITTEN}

# A program of no-operations. With turns of one command, a halt meets it before each of them. It may also wait, or have ended.
NO_OPERATIONS = 110
MANY = (DISK + OPEN
        + "area 0 001000 4200000000001028 0000000000000000 0000103000000001 0000000000000000 0000000000000001 0000000000000000"
        + " 0300000060000001" * (NO_OPERATIONS - 1) + " 0300000020000001\n" + EXCP.format(0, 0) + "purge 1 0 1 halt\n")
OUTCOMES_OF_MANY = NO_OPERATIONS + 2

# Requests whose program does two no-operations again and again, until it has fetched 4,096 CCWs, and a halt. A halt after an odd number
# of commands finds the first of the two done. Between all commands there are too many states for a search that nothing asks for.
LOOPS = 8
LOOP, LOOPING = (DISK + OPEN
                 + "area 0 001000 4200000000001028 0000000000000000 0000103000000001 0000000000000000 0000000000000001 "
                 + "0000000000000000 0300000060000001 0300000060000001 0800103000000000\n" + EXCP.format(0, 0) * count
                 + "purge 1 0 1 halt\n" for count in (1, LOOPS))
AFTER_ODD, AFTER_EVEN = (f"48 00{address} 0C00 0001 0000 -" for address in (1038, 1040))
LOOPED = "41 001040 0020 0000 0000 -"

# So many outcomes of a request have a scenario, and so many whole outputs are printed, without `--all`.
MOST = 100

# The whole outputs of jobs, worked by hand, in order.
OUTPUTS = {
    "a related error": (RELATED, [{"0 0 1": FAILED, "1 0 1": WAITED}, {"0 0 1": FAILED, "1 0 1": ENDED}]),
    "three of four outputs": (TAPES, [read_by(1, 1), read_by(1, 2), read_by(2, 2)]),
}


def numbers_and_post(line):
    """The numbers of a request, and what is after them in the line of its post."""
    words = line.split(" ", 4)
    return " ".join(words[1:4]), words[4]


def status_of(last):
    """The exit status that fits the last line."""
    if last.startswith("not all: "):
        return 6
    return 0 if last.startswith("deterministic (") else 5


def are_numbered(lines, ran):
    """If a request has several outcomes, each has its number, and those that are not printed are counted."""
    number = count = 0
    for line in lines:
        if it := re.fullmatch(r"# outcome (\d+) of (\d+)", line):
            if number == count:
                number, count = 0, int(it[2])
            number += 1
            require((number, count) == (int(it[1]), int(it[2])) and count > 1, f"another number: {line!r}", ran)
        elif it := re.fullmatch(r"# and (\d+) more outcomes? with code [0-9A-F]{2}", line):
            number += int(it[1])
    require(number == count, "outcomes are not counted", ran)


def told_by(setup, script, *words):
    """The posts that the program tells of each request, by its numbers, the whole outputs, and the last line."""
    ran = setup.run("outcomes", *words, script=script)
    told, outputs, lines = {}, [], ran.out.splitlines() or [""]
    require((ran.status, ran.err) == (status_of(lines[-1]), ""), "it fails", ran)
    are_numbered(lines, ran)
    for line in lines[:-1]:
        if line.startswith("output "):
            outputs.append({})
            require(line == f"output {len(outputs)}", f"a line {line!r}", ran)
        elif line.startswith("post "):
            name, post = numbers_and_post(line)
            if outputs:
                require(name not in outputs[-1], f"an output has {name} twice", ran)
                outputs[-1][name] = post
            else:
                told.setdefault(name, []).append(post)
        else:
            require(line.startswith("# ") or line.split()[0] in OF_MEDIA, f"a line {line!r}", ran)
    return told, outputs, lines[-1]


# The first words of the lines that tell media.
OF_MEDIA = "medium", "rec", "block", "mark"


def media_by(setup, script, *words):
    """What the program tells of the media of each unit that has several, each as its lines without steps; and the last line."""
    ran = setup.run("outcomes", "--media", *words, script=script)
    media, lines = {}, ran.out.splitlines()
    require((ran.status, ran.err) == (status_of(lines[-1]), ""), "it fails", ran)
    for place, line in enumerate(lines):
        if it := re.fullmatch(r"medium (\d+) (\d+)", line):
            of_unit = media.setdefault(int(it[1]), [])
            rest = lines[place + 1:]
            count = next(it for it, after in enumerate(rest) if after.startswith("#   "))
            of_unit.append(tuple(rest[:count]))
            require(int(it[2]) == len(of_unit), f"another number: {line!r}", ran)
    require(all(len(set(it)) == len(it) > 1 for it in media.values()), "a medium is told twice", ran)
    return {unit: set(it) for unit, it in media.items()}, lines[-1]


def outcomes_of(setup, script, *words):
    """The posts that the program tells of each request, by its numbers, and the last line."""
    told, _, last = told_by(setup, script, *words)
    return told, last


def is_by_hand(setup, script, words, wanted):
    told, last = outcomes_of(setup, script, *words)
    require({name: set(posts) for name, posts in told.items()} == wanted, f"the outcomes are {told}")
    require(all(sorted(set(posts)) == posts for posts in told.values()), "an outcome is told twice, or out of order")
    several = sum(len(posts) > 1 for posts in told.values())
    plural = "request has" if several == 1 else "requests have"
    require(last.startswith(f"{several} {plural} more than one outcome (turns of "), f"the last line is {last!r}")


def has_outcome(setup, name, words, request, post):
    told, _ = outcomes_of(setup, read(f"{TOP}/tests/cases/outcomes/{name}.script"), *words)
    require(post in told.get(request, []), f"the outcomes of {request} are {told.get(request)}")


# Two writers of one record, or of a block each to a tape; a request to a printer, and a quiesce.
def writer(number, data):
    """An area whose program writes this data to R1."""
    return (f"area {number} 001000 4200000000001028 0000000000000000 0000103000000001 0000000000000000 0000000000000001 "
            f"0000000000000000 3100105040000005 0800103000000000 0500105800000002 0000000000000000 0000000001000000 {data}\n")


def to_tape(number, data):
    """An area whose program writes this block."""
    return WRITE.replace("area 0", f"area {number}").replace("A1A1", data)


PRINT = WRITE.replace("01001038", "09001038").replace("A1A1", "C1C2")
WRITERS = "tasks 2\ndisk 0 0 1 1 40\nrec 0 0 0 1 - C1C2\n" + OPEN
TAPED = "tasks 2\ntape 0 0 60\nopen 0 out\n"
PRINTED = "tasks 1\nprinter 0 0 10 2\nopen 0 out\n" + PRINT + EXCP.format(0, 0) + "purge 0 0 1 quiesce\n"

# Jobs, and the media of their unit, worked by hand: what differs, by records, items or lines. If a unit has one medium, there is
# nothing.
MEDIA = {
    "two writers": (WRITERS + writer(0, "A000") + writer(1, "A001") + EXCP.format(0, 0) + EXCP.format(1, 1),
                    {("rec 0 0 0 1 - A000",), ("rec 0 0 0 1 - A001",)}),
    "two writers of the same": (WRITERS + writer(0, "A000") + EXCP.format(0, 0) + EXCP.format(1, 0), None),
    "two blocks": (TAPED + to_tape(0, "B0B0") + to_tape(1, "B1B1") + EXCP.format(0, 0) + EXCP.format(1, 1),
                   {("# item 1", "block 0 B0B0", "# item 2", "block 0 B1B1"), ("# item 1", "block 0 B1B1", "# item 2", "block 0 B0B0")}),
    "a block or none": (TAPED + to_tape(0, "B0B0") + EXCP.format(0, 0) + "purge 0 0 1 quiesce\n",
                        {("# item 1", "block 0 B0B0"), ("# no item 1",)}),
    "a line or none": (PRINTED, {("# page 1 line 1: C1C2 |AB|",), ("# no printed line 1",)}),
}


def has_media(setup, script, wanted):
    """The unit has these media, which the last line counts. So it does if whole outputs are sought too, each of which has one."""
    media, last = media_by(setup, script)
    require(media == ({} if wanted is None else {0: wanted}), f"the media are {media}")
    require(("1 unit has more than one medium" in last) == (wanted is not None), f"the last line is {last!r}")
    whole = setup.run("outcomes", "--media", "--whole", script=script)
    require(media_by(setup, script, "--whole")[0] == media, "with whole outputs there are other media", whole)
    numbers = re.findall(r"^# medium (\d+) of unit 0$", whole.out, re.M)
    require({int(it) for it in numbers} == set(range(1, 1 + len(wanted or ()))), "the outputs have other media", whole)


def has_outputs(setup, script, wanted):
    """The whole outputs are these, in order, each once, and the scenario of each runs to its posts."""
    with tempfile.TemporaryDirectory() as folder:
        _, outputs, last = told_by(setup, script, "--whole", "--scenarios", folder)
        require(outputs == wanted, f"the outputs are {outputs}")
        require(last.endswith(f", {len(wanted)} whole outputs)"), f"the last line is {last!r}")
        for number, output in enumerate(outputs, 1):
            ran = setup.run("step", script=read(f"{folder}/output-{number}.scenario"))
            require((ran.status, ran.err) == (0, ""), f"the scenario of output {number} fails", ran)
            posts = dict(numbers_and_post(line[line.index("post "):]) for line in ran.out.splitlines() if ": post " in line)
            require(posts == output, f"the scenario of output {number} posts {posts}", ran)


def has_output(setup, script, wanted):
    """The whole outputs have this one."""
    _, outputs, last = told_by(setup, script, "--whole", "--all")
    require(wanted in outputs, f"it is not among {len(outputs)} outputs; the last line is {last!r}")


def posts_in(ran):
    """The posts that a run printed, by the numbers of their requests."""
    return dict(numbers_and_post(line) for line in ran.out.splitlines() if line.startswith("post "))


def is_among(posts, told, what):
    for name, post in posts.items():
        require(post in told.get(name, []), f"{what} posts {name} with {post}, which is no outcome of {told.get(name)}")


def runs_are_among(setup, first):
    """The posts of small jobs are among their outcomes: by seeds, on threads, and by the scenarios of the outcomes."""
    for seed in range(first, first + BATCH):
        script = small_job(seed, tasks=3, units=2, requests=5, controls=3)
        with tempfile.TemporaryDirectory() as folder:
            # by commands, so that each turn of the workers, which is of 64, is one of these
            told, last = every_outcome(setup, script, folder)
            if last.startswith("not all"):
                continue
            for number in range(SEEDS):
                ran = setup.run("report", "--posts", "--seed", str(number), script=script)
                is_among(posts_in(ran), told, f"job {seed}: seed {number}")
            ran = setup.run("report", "--posts", "--channels", "2", script=script)
            is_among(posts_in(ran), told, f"job {seed}: a run on threads")


def threads_are_among(setup, seed):
    """What many runs on threads post is among the outcomes. Turns of one command divide those of the workers."""
    script = small_job(f"threads {seed}", tasks=3, units=2, requests=6, controls=3)
    with tempfile.TemporaryDirectory() as folder:
        told, last = every_outcome(setup, script, folder)
    require(not last.startswith("not all"), f"the last line is {last!r}")
    for number in range(RUNS):
        words = "--channels", str(1 + number % 3), "--handlers", str(1 + number % 2)
        is_among(posts_in(setup.run("run", *words, script=script)), told, f"run {number}")


def every_outcome(setup, script, folder):
    """The outcomes by the scenarios that the program writes into a folder, each of which `test` runs to its post."""
    _, last = outcomes_of(setup, script, "--turn", "1", "--most-states", "50000", "--all", "--scenarios", folder)
    told = {}
    files = sorted(glob.glob(f"{folder}/*.scenario"))
    ran = setup.run("test", "--quiet", folder)
    require((ran.status, ran.err) == (0, "") and ran.out.startswith(f"{len(files)} passed"), "a scenario does not come to its post", ran)
    for file in files:
        post = read(file).rstrip("\n").rpartition("expect post ")[2].split(" ", 3)
        name = "-".join(post[:3])
        require(os.path.basename(file).startswith(f"post-{name}-"), f"{file} posts {name}", ran)
        told.setdefault(" ".join(post[:3]), []).append(post[3])
    return told, last


def ends(setup, file):
    """A sample is searched to its end."""
    _, last = outcomes_of(setup, read(file))
    require(not last.startswith("not all"), f"the last line is {last!r}")


def is_stored(setup, file):
    """A sample prints the stored outcomes, in any number of states."""
    due = without_states(read(file.replace(".script", ".outcomes")))
    ran = setup.run("outcomes", script=read(file))
    ran.out = without_states(ran.out)
    expect(ran, (status_of(due.splitlines()[-1]), due))


def is_cut(setup):
    """A search that ends early says so."""
    script = DISK + OPEN + PLAIN + EXCP.format(0, 0) * 3 + "purge 1 0 1 halt\n" + EXCP.format(1, 0) * 2
    _, last = outcomes_of(setup, script, "--most-states", "2")
    require(re.match(r"not all: (at least [1-9]\d* requests? ha(s|ve) more than one outcome|"
                     r"no request has more than one outcome so far) "
                     r"\(turns of 64 commands, \d+ states, ended by --most-states\)$", last),
            f"the last line is {last!r}")


def looks_closely(setup):
    """Without `--turn`, a search looks between all commands if that is no long search, or if nothing halts a program."""
    expect(setup.run("outcomes", script=FEW), (5, setup.run("outcomes", "--turn", "1", script=FEW).out))
    _, last = outcomes_of(setup, LONG, "--most-states", "100")
    require(re.search(r" \(turns of 1 command, 10\d states, ended by --most-states\)$", last), f"the last line is {last!r}")
    told, last = outcomes_of(setup, LOOPING, "--seeds", "2")
    require(set(told["0 0 1"]) == {LOOPED, WAITED, HALTED, AFTER_EVEN}, f"the outcomes are {told['0 0 1']}")
    require(re.fullmatch(f"{LOOPS} requests have more than one outcome "
                         r"\(turns of 64 commands, \d+ states\); --turn 1 looks between all commands", last), f"the last line is {last!r}")
    told, last = outcomes_of(setup, LOOP, "--turn", "1")
    require(set(told["0 0 1"]) == {LOOPED, WAITED, HALTED, AFTER_ODD, AFTER_EVEN}, f"the outcomes are {told['0 0 1']}")
    require(re.search(r" \(turns of 1 command, \d+ states\)$", last), f"the last line is {last!r}")


def has_many(setup):
    """Without `--all`, the first of each code is printed, the first scenarios are written, and so are the first whole outputs."""
    for words, printed, written in ((), 2, MOST + 1), (("--all",), OUTCOMES_OF_MANY, OUTCOMES_OF_MANY):
        with tempfile.TemporaryDirectory() as folder:
            ran = setup.run("outcomes", "--turn", "1", "--scenarios", folder, *words, script=MANY)
            told, _ = outcomes_of(setup, MANY, "--turn", "1", *words)
            require(len(told["0 0 1"]) == printed, f"{len(told['0 0 1'])} outcomes are printed", ran)
            require(len(os.listdir(folder)) == written, f"{len(os.listdir(folder))} scenarios are written", ran)
            left = f"# and {OUTCOMES_OF_MANY - written} more outcomes without a scenario\n"
            require((left in ran.out) == (written < OUTCOMES_OF_MANY), "other outcomes have no scenario", ran)
        ran = setup.run("outcomes", "--turn", "1", "--whole", *words, script=MANY)
        outputs, left = ran.out.count("\noutput "), f"# and {OUTCOMES_OF_MANY - MOST} more whole outputs\n"
        require(outputs == (OUTCOMES_OF_MANY if words else MOST), f"{outputs} whole outputs are printed", ran)
        require((left in ran.out) == (not words), "other whole outputs are left out", ran)
        require(ran.out.endswith(f", {OUTCOMES_OF_MANY} whole outputs)\n"), "they are not counted", ran)


def has_short_witnesses(setup):
    """The steps to an outcome of a request are the same if its task issues others too, which no outcome of it needs."""
    few = setup.run("outcomes", script=FEW)
    ran = setup.run("outcomes", script=BESIDE)
    due = few.out.partition("# line ")[0]
    require(due.count("post 0 0 1 ") == 4 and ran.out.startswith(due), "the first request has other steps", ran)


def prints_chosen(setup):
    """`--outcome` prints the scenario that `--scenarios` writes, or that there is none."""
    with tempfile.TemporaryDirectory() as folder:
        outcomes_of(setup, FEW, "--scenarios", folder)
        for number in range(1, 5):
            expect(setup.run("outcomes", "--outcome", "0", "0", "1", str(number), script=FEW),
                   (0, read(f"{folder}/post-0-0-1-{number}.scenario")))
    for task, unit, request, number in (0, 0, 1, 0), (0, 0, 1, 5), (0, 0, 2, 1), (1, 0, 1, 1), (0, 1, 1, 1), (70000, 0, 1, 1):
        ran = setup.run("outcomes", "--outcome", *map(str, (task, unit, request, number)), script=FEW)
        expect(ran, (1, "", f"excp: no outcome {number} of request {request} of task {task} to unit {unit} was found\n"))


# A hint: the line of the request, those that race with it, and the changes with which it has one outcome.
RIVALS = re.compile(r"# line (\d+) races with lines? \d+(, \d+)*( and \d+( more)?)?( together)?")
CHANGES = "# its request has one outcome with these changes:"
WAIT = re.compile(r"#   before line (\d+): (wait \d+)")
MOVE = re.compile(r"#   line (\d+): task (\d+) in place of (\d+)")

# How many small jobs have their hints tried, and how many of these have one at least. How many jobs are changed by one hint after
# the other, and how many of these are deterministic then.
HINTED = 60
HINTS = 20
FOLLOWED = 30
SETTLED = 10


def name_at(lines, number):
    """The numbers of the request that a line of a script issues, or nothing."""
    words = lines[number - 1].split()
    if words[0] != "excp":
        return None
    return " ".join([*words[1:3], str(sum(line.split()[:3] == words[:3] for line in lines[:number]))])


def changed(script, changes):
    """A script with the changes of a hint, and where each of its lines is then."""
    lines, waits, places = script.splitlines(), {}, {}
    for change in changes:
        wait, move = WAIT.fullmatch(change), MOVE.fullmatch(change)
        require(wait or move, f"another change: {change!r}")
        if wait:
            waits.setdefault(int(wait[1]), []).append(wait[2])
        else:
            words = lines[int(move[1]) - 1].split(" ", 2)
            require(words[1] == move[3], f"{change!r} speaks of {words}")
            lines[int(move[1]) - 1] = " ".join([words[0], move[2], *words[2:]])
    new = []
    for number, line in enumerate(lines, 1):
        new += [*waits.get(number, []), line]
        places[number] = len(new)
    return "\n".join([*new, ""]), places


def hints_of(lines):
    """The hints of a search: the numbers of the request, its line, and the changes."""
    name = line = None
    for place, text in enumerate(lines):
        if text.startswith("post "):
            name, _ = numbers_and_post(text)
        elif text.startswith("# line "):
            rivals = RIVALS.fullmatch(text)
            require(rivals, f"another hint: {text!r}")
            line = int(rivals[1])
        elif text == CHANGES:
            rest = lines[place + 1:]
            count = next(it for it, after in enumerate(rest) if not after.startswith("#   "))
            yield name, line, rest[:count]


def outcomes_in(told):
    return sum(len(posts) for posts in told.values())


def hints_hold(setup):
    """What a hint says makes one outcome of the request above it. All requests have fewer outcomes together then, so that no hints
    go in a circle; and each that could end without error still can."""
    tried = 0
    for seed in range(HINTED):
        script = small_job(seed, tasks=3, units=2, requests=5, controls=3)
        before, _ = outcomes_of(setup, script)
        for name, line, changes in hints_of(setup.run("outcomes", script=script).out.splitlines()):
            require(name_at(script.splitlines(), line) == name, f"job {seed}: line {line} does not issue {name}")
            new, places = changed(script, changes)
            told, last = outcomes_of(setup, new)
            posts = told[name_at(new.splitlines(), places[line])]
            require(len(posts) == 1 and not last.startswith("not all"), f"job {seed}: {changes} leave {posts}")
            require(outcomes_in(told) < outcomes_in(before), f"job {seed}: {changes} leave {told}")
            ends_well = [any(post.startswith("7F ") for post in posts) for posts in (before[name], posts)]
            require(ends_well[1] or not ends_well[0], f"job {seed}: {changes} leave {posts}")
            tried += 1
    require(tried >= HINTS, f"{tried} hints")


def hints_lead_to_an_end(setup):
    """Of jobs that are changed by their first hint, again and again, most become deterministic."""
    settled = 0
    for seed in range(FOLLOWED):
        script = small_job(f"hints {seed}", tasks=3, units=1, requests=4, controls=2)
        told, _ = outcomes_of(setup, script)
        if outcomes_in(told) == len(told):
            continue
        for _ in range(outcomes_in(told)):
            ran = setup.run("outcomes", script=script)
            hint = next(hints_of(ran.out.splitlines()), None)
            if not hint:
                break
            script, _ = changed(script, hint[2])
        settled += ran.status == 0
    require(settled >= SETTLED, f"{settled} jobs are deterministic")


# How many small jobs are changed by `--fix`, and how many of these are deterministic then at least.
FIXED = 16
FIXED_WHOLE = 8

FIX_HEAD = "# the changed job that was written has these changes:"
FIX_WHOLE = "# with them each request has one outcome"
FIX_PARTLY = re.compile(r"# with them \d+ requests? ha(s|ve) more than one outcome: lines? (\d+(, \d+)*)")


def fix_of(setup, script, folder, *words):
    """The job that `--fix` writes of a script, or nothing; and the lines of its changes, with the last one on what is left."""
    file = f"{folder}/fixed"
    ran = setup.run("outcomes", "--fix", file, *words, script=script)
    require(ran.err == "" and ran.status in (0, 5), "it fails", ran)
    if not os.path.exists(file):
        require(re.search("^# .*, so no changed job is written$", ran.out, re.M), "it does not say why nothing is written", ran)
        return None, []
    lines = ran.out.splitlines()
    return read(file), lines[lines.index(FIX_HEAD) + 1:-1]


def are_fixed(setup):
    """The job that `--fix` writes has the changes that it tells, and fewer outcomes: one of each request, but for those that it names."""
    whole = tried = 0
    for seed in range(FIXED):
        script = small_job(f"fixed {seed}", tasks=3, units=1 + seed % 2, requests=4, controls=2)
        before, _ = outcomes_of(setup, script)
        with tempfile.TemporaryDirectory() as folder:
            new, changes = fix_of(setup, script, folder)
        if new is None:
            continue
        expected, places = changed(script, changes[:-1])
        require(new == expected, f"job {seed}: it is changed to\n{new}\nand not to\n{expected}")
        told, last = outcomes_of(setup, new)
        partly = FIX_PARTLY.fullmatch(changes[-1])
        require(partly or changes[-1] == FIX_WHOLE, f"job {seed}: {changes[-1]!r}")
        named = {name_at(new.splitlines(), places[int(it)]) for it in partly[2].split(", ")} if partly else set()
        several = {name for name, posts in told.items() if len(posts) > 1}
        require(several == named and outcomes_in(told) < outcomes_in(before), f"job {seed}: {several} have several outcomes; {last}")
        tried, whole = tried + 1, whole + (not named)
    require(whole >= FIXED_WHOLE, f"{whole} of {tried} jobs are deterministic")


# A job in symbols that a CRLF ends each line of, with blanks that may not be lost, and the same job with what `--fix` changes.
SYMBOLIC = read(f"{SAMPLES}/outcomes/a-halt.symbolic").replace("purge 1 0 1 halt", "purge  1 0 1 halt  ; of task 1").replace("\n", "\r\n")
SYMBOLIC_FIXED = SYMBOLIC.replace("purge  1 0", "wait 0\r\npurge  0 0")


def leaves_the_text(setup):
    """A job in symbols stays as it is written, but for the changes. A file is not replaced without `--force`, the script never."""
    with tempfile.TemporaryDirectory() as folder:
        job, file = f"{folder}/job", f"{folder}/fixed"
        write(job, SYMBOLIC)
        for words in ((), ("--force",)):
            ran = setup.run("outcomes", "--fix", file, *words, job)
            require((ran.status, ran.err, read(file)) == (5, "", SYMBOLIC_FIXED), "another job is written", ran)
        require(setup.run("outcomes", file).status == 0, "it has several outcomes")
        ran = setup.run("outcomes", "--fix", file, job)
        expect(ran, (1, "", f"excp: {file}: it holds text, which new text replaces only with --force\n"))
        ran = setup.run("outcomes", "--fix", job, "--force", job)
        expect(ran, (1, "", f"excp: {job}: this command reads or saves it: name another file\n"))
        require((read(job), read(file)) == (SYMBOLIC, SYMBOLIC_FIXED), "a file is no longer what it was")


# A request, and two halts: each change puts a wait of task 0 before its line, but after the first wait the second waits for nothing.
HALTED_TWICE = FEW + "purge 1 0 1 halt\n"
ONE_WAIT = DISK + OPEN + PLAIN + EXCP.format(0, 0) + "wait 0\n" + 2 * "purge 0 0 1 halt\n"


def has_no_idle_wait(setup):
    """The job that `--fix` writes has no wait of a change that waits for nothing."""
    with tempfile.TemporaryDirectory() as folder:
        new, changes = fix_of(setup, HALTED_TWICE, folder)
    require(new == ONE_WAIT, f"it is changed to\n{new}")
    require(changed(HALTED_TWICE, changes[:-1])[0] == ONE_WAIT, f"other changes are told: {changes}")


def media_are_no_posts(setup):
    """With `--media`, `--fix` and `--allow` say that a unit has several media, if posts are as they should be."""
    several = "1 unit has more than one medium"
    script, _ = MEDIA["two writers"]
    with tempfile.TemporaryDirectory() as folder:
        file = f"{folder}/fixed"
        ran = setup.run("outcomes", "--media", "--allow", "7F", "--fix", file, script=script)
        require((ran.status, ran.err) == (5, f"excp: --media: {several}\n"), "--allow does not say why", ran)
        require(f"\n# --fix looks at posts only, and {several}\n" in ran.out, "--fix does not say it", ran)
        require(not os.path.exists(file), "a job is written", ran)


def outcomes_unread(setup, *words):
    """The status of a search for the outcomes of two halted reads whose output nothing reads."""
    reader, writer = os.pipe()
    os.close(reader)
    try:
        ran = subprocess.run(setup.command("outcomes", *words), input=HALTED_TWICE.encode(), stdout=writer, stderr=subprocess.PIPE,
                             check=False)
    finally:
        os.close(writer)
    return ran.returncode, ran.stderr.decode()


def needs_no_reader(setup):
    """If nothing reads the output, the status is the same, and so are the files."""
    named = "excp: outcome 1 of request 1 of task 0 to unit 0 has code 48: line 6\n"
    ends = {"": (5, ""), "--media": (5, ""), "--often 60": (5, ""), "--allow 7F": (5, named), "--allow 7F,48": (0, "")}
    for words, ended in ends.items():
        require((got := outcomes_unread(setup, *words.split())) == ended, f"{words!r}: it ends with {got}")
    with tempfile.TemporaryDirectory() as folder:
        file, scenarios = f"{folder}/fixed", f"{folder}/scenarios"
        got = outcomes_unread(setup, "--fix", file, "--scenarios", scenarios)
        require(got == (5, "") and read(file) == ONE_WAIT and os.listdir(scenarios), f"it ends with {got}, or a file is missing")


def write(file, text):
    with open(file, "w", encoding="utf-8", newline="") as it:
        it.write(text)


def says_why_it_writes_nothing(setup):
    """`--fix` writes nothing if there is nothing to change, or if not all was found."""
    with tempfile.TemporaryDirectory() as folder:
        file = f"{folder}/fixed"
        for script, words, why in (
            (DISK + OPEN + PLAIN + EXCP.format(0, 0), (), "each request has one outcome"),
            (FEW, ("--most-states", "2"), "not all was found"),
        ):
            ran = setup.run("outcomes", "--fix", file, *words, script=script)
            require(f"# {why}, so no changed job is written\n" in ran.out and not os.path.exists(file), "it does not say why", ran)


# A program that hands words and questions on to excp_tools, but changed scripts. There it does something else.
NO_HINT = """#!{python}
import subprocess, sys
with subprocess.Popen([{tools!r}, *sys.argv[1:]], stdin=subprocess.PIPE) as child:
    for line in sys.stdin.buffer:
        if line.startswith(b"try "):
            {end}
            continue
        child.stdin.write(line)
        child.stdin.flush()
    child.stdin.close()
"""


def goes_on_without_hints(setup):
    """If memory runs out for a changed script, the hints are left out, and nothing else."""
    script = DISK + OPEN + PLAIN + EXCP.format(0, 0) * 2 + "purge 1 0 1 halt\n"
    usual = setup.run("outcomes", script=script)
    hints = re.compile(r"# line \d+ races with .*\n(# (its request|no wait) .*\n)?(#   (before )?line .*\n)*")
    require(len(hints.findall(usual.out)) == 2, "there are not two hints", usual)
    without = hints.sub("", usual.out)
    lacks = "print('{\"ended\":\"memory\",\"states\":0,\"bytes\":0}\\n{\"last\":true}', flush=True)"
    ends = (f"sys.stdin.buffer.read(int(line.split()[2])); {lacks}", 5, without), ("child.kill(); sys.exit(4)", 4, None)
    for end, status, output in ends:
        with tempfile.TemporaryDirectory() as folder:
            program = f"{folder}/excp_tools"
            with open(program, "w", encoding="utf-8") as it:
                it.write(NO_HINT.format(python=sys.executable, tools=os.path.abspath(setup.tools), end=end))
            os.chmod(program, 0o755)
            ran = replace(setup, program=f"{folder}/excp_job").run("outcomes", script=script)
            require(ran.status == status and output in (None, ran.out), f"another end after {end}", ran)


def is_compared(setup):
    """Runs by seeds come to outcomes that the search found. A mutant that cuts the set of outcomes is caught by its seeds."""
    script, _, _ = BY_HAND["a quiesce"]
    for seeds in "100", "0":
        ran = setup.run("outcomes", "--seeds", seeds, script=script)
        require(ran.status != 3, "the search is compared, and is wrong", ran)
        require((ran.status, ran.err) == (5, ""), "it is not compared, or fails", ran)


def codes_are_allowed(setup):
    """`--allow` judges the codes of all outcomes; of a search that is cut it says that not all were found."""
    named = "excp: outcome 1 of request 1 of task 0 to unit 0 has code 41: line 7\n"
    for codes, status, error in ("7F,48", 5, named), ("41,48,7F", 0, ""):
        ran = setup.run("outcomes", "--allow", codes, script=RELATED)
        require((ran.status, ran.err) == (status, error), "another status or message", ran)
        require(ran.out == setup.run("outcomes", script=RELATED).out, "another output", ran)
    ran = setup.run("outcomes", "--allow", "41,48,7F", "--most-states", "1", script=RELATED)
    require((ran.status, ran.err) == (6, ""), "a search that is cut is judged", ran)


def shares_are_counted(setup):
    """`--often` runs seeds, whose posts are outcomes, and counts them."""
    script, _, wanted = BY_HAND["a halt"]
    ran = setup.run("outcomes", "--often", "60", script=script)
    lines = ran.out.splitlines()
    require((ran.status, ran.err) == (5, "") and lines[-1] == "60 runs by seeds; the shares are no probabilities of threads",
            "another end", ran)
    count = 0
    for share, post in zip(lines[:-1:2], lines[1:-1:2]):
        told = re.fullmatch(r"# in (\d+) of 60 runs, first by seed (\d+)", share)
        name, end = numbers_and_post(post)
        require(told and name == "0 0 1" and end in wanted[name], f"{share!r}, {post!r}", ran)
        require(post in setup.run("report", "--posts", "--seed", told[2], script=script).out.splitlines(),
                f"seed {told[2]} posts another one", ran)
        count += int(told[1])
    require(count == 60, f"{count} posts", ran)


# Six tasks read ten blocks each from one tape, in any order.
LONG = ("tasks 6\ntape 0 0 1200\n" + "block 0 01\n" * 60
        + "open 0 in\narea 0 001000 4200000000001028 0000000000000000 0000103000000001 "
        + "0000000000000000 0000000000000000 0000000000000000 0200103820000001 00\n"
        + "".join(f"excp {n % 6} 0 1 001000 0 001038 1\n" for n in range(60)))


# Many such requests and a halt.
READS, MORE_READS = (DISK + OPEN + PLAIN + EXCP.format(0, 0) * count + "purge 1 0 1 halt\n" for count in (30, 500))

# If eight such requests meet a halt, some have ended, one may be active, some may wait, and the others come later. One that is active
# is halted before its first command or after a search. So the outputs are one in which all end, and for each of the three, the places
# of those that are halted or purged.
EIGHT = DISK + OPEN + PLAIN + EXCP.format(0, 0) * 8 + "purge 1 0 1 halt\n"
OUTPUTS_OF_EIGHT = 1 + 3 * (8 * 9 // 2)


def is_ended(setup):
    """A search ends after its seconds, and so does the printing of what it found."""
    for script, words in (LONG, ("--most-states", "4294967295")), (MORE_READS, ("--all",)):
        begun = time.monotonic()
        ran = setup.run("outcomes", "--most-seconds", "2", *words, script=script)
        last = (ran.out.splitlines() or [""])[-1]
        require(ran.status == 6 and last.endswith(", ended by --most-seconds)") and time.monotonic() - begun < 30,
                f"the last line is {last!r}")
        counted = re.search(r"^# and \d+ more requests?, for which --most-seconds left no time$", ran.out, re.M)
        require(script == LONG or counted, "what was left out is not counted", ran)


def has_no_time_for_changes():
    """If the seconds are over, `--fix` writes nothing, and does not say that there are no changes."""
    text = FEW.encode()
    found = SimpleNamespace(is_complete=True, outcomes=[[SimpleNamespace(code="48"), SimpleNamespace(code="7F")]])
    told = fixed(None, NumberedJob(text), text, found, lambda: False)
    require(told == Fixed(None, "# --most-seconds left no time for changes, so no changed job is written\n"), f"it says {told}")


def says_it_was_cut(setup):
    """An outcome of a search that ended early may have another number in a longer one."""
    ran = setup.run("outcomes", "--outcome", "0", "0", "1", "1", "--most-states", "1", script=FEW)
    require(ran.status in (1, 6) and "excp: the search ended early: " in ran.err, "it does not say that the search ended", ran)


def is_quick(setup):
    """A job of many requests with one halt is searched to its end: equal states go on only once."""
    told, last = outcomes_of(setup, READS)
    require(len(told) == 30 and last.startswith("30 requests have more than one outcome"), f"the last line is {last!r}")
    require(told["0 0 30"] == [WAITED, HALTED, HALTED_BETWEEN, ENDED], f"the last request has {told['0 0 30']}")
    _, _, last = told_by(setup, EIGHT, "--whole")
    require(last.endswith(f", {OUTPUTS_OF_EIGHT} whole outputs)"), f"the last line is {last!r}")


def tells_many(setup):
    """A job of 4,000 requests that wait for a purge is searched to its end, and told."""
    requests = 4_000
    script = DISK + OPEN + PLAIN + EXCP.format(0, 0) * requests + "purge 1 0 1 quiesce\n"
    told, last = outcomes_of(setup, script)
    require(last.startswith(f"{requests} requests have more than one outcome (") and len(told) == requests, f"the last line is {last!r}")
    require(all(posts == [WAITED, ENDED] for posts in told.values()), "a request has other outcomes")


class Beside(html.parser.HTMLParser):
    """The rows of the tables of a page of outcomes: the class of each, and the texts of its cells; and what is marked."""

    def __init__(self, text):
        super().__init__()
        self.rows, self.marked, self.elements = [], [], set()
        self._is_marked = self._is_in_cell = False
        self.feed(text)

    def handle_starttag(self, tag, attrs):
        self.elements.add(tag)
        self._is_marked = tag == "mark"
        if tag == "tr":
            self.rows.append((dict(attrs).get("class"), []))
        elif tag == "td":
            self._is_in_cell = True
            self.rows[-1][1].append("")

    def handle_data(self, data):
        if self._is_marked:
            self.marked.append(data)
        if self._is_in_cell:
            self.rows[-1][1][-1] += data

    def handle_endtag(self, tag):
        self._is_marked = False
        self._is_in_cell &= tag != "td"


def is_a_page(setup):
    """A page has each other outcome beside the one with 7F, and a mark where the steps part. It has no script."""
    file = f"{SAMPLES}/outcomes/a-halt.symbolic"
    ran = setup.run("outcomes", "--html", file)
    page = Beside(ran.out)
    told = [it for it in told_by(setup, read(file))[0]["0 0 1"]]
    posts = [cells for kind, cells in page.rows if kind == "post"]
    usual, others = f"post 0 0 1 {told[-1]}", [f"post 0 0 1 {it}" for it in told[:-1]]
    require(posts == [[usual, it] for it in others], f"the posts are {posts}", ran)
    parts = [cells for kind, cells in page.rows if kind == "differs parts"]
    halt = "purge 1 0 1 halt <-"
    require(parts == [["start 0", halt], ["run 0 5000", halt], ["run 0 5000", "run 0 1"]], f"they part at {parts}", ran)
    require("48" in page.marked and "post" not in page.marked and "script" not in page.elements, "other marks, or a script", ran)
    require(ran.status == 5 and "default-src 'none'" in ran.out, "another status or policy", ran)


def leaves_its_script(setup):
    """A scenario is not written to the script, by whatever name, and the script stays as it was."""
    script = DISK + OPEN + PLAIN + EXCP.format(0, 0)
    for name in "post-0-0-1-1.scenario", "output-1.scenario":
        with tempfile.TemporaryDirectory() as folder:
            file, link = f"{folder}/a.script", f"{folder}/{name}"
            for source, other in ((link, ""), (file, link)):
                with open(source, "w", encoding="utf-8") as it:
                    it.write(script)
                if other:
                    os.remove(link)
                    os.symlink("a.script", link)
                ran = setup.run("outcomes", "--whole", "--scenarios", folder, source)
                require((ran.status, ran.err) == (1, f"excp: {link}: this command reads or saves it: name another file\n"),
                        "another message", ran)
                require(read(source) == script, "the script is no longer what it was", ran)


def rejects_no_directory(setup):
    """Scenarios are written into a directory, not to a file."""
    with tempfile.NamedTemporaryFile() as it:
        ran = setup.run("outcomes", "--scenarios", it.name, script=DISK + OPEN + PLAIN + EXCP.format(0, 0))
        expect(ran, (1, "", f"excp: {it.name}: it is not a directory\n"))


def rejects_no_unit(setup):
    """An image is loaded for a unit that the script declares."""
    image = f"{TOP}/{IMAGE}"
    ran = setup.run("outcomes", "--load", f"1={image}", script=DISK + OPEN + PLAIN + EXCP.format(0, 0))
    expect(ran, (1, "", f"excp: 1={image}: no line declares unit 1\n"))


def cases(setup):
    yield Case("scenarios leave the script", lambda: leaves_its_script(setup), ORIGIN)
    yield Case("scenarios want a directory", lambda: rejects_no_directory(setup), ORIGIN)
    yield Case("an image wants a unit", lambda: rejects_no_unit(setup), ORIGIN)
    for name, (script, words, wanted) in BY_HAND.items():
        yield Case(f"by hand, {name}", lambda s=script, w=words, o=wanted: is_by_hand(setup, s, w, o), ORIGIN)
    for name, seldom in SELDOM.items():
        yield Case(f"tests/cases/outcomes/{name}.script", lambda n=name, s=seldom: has_outcome(setup, n, *s), ORIGIN)
    for name, (script, wanted) in OUTPUTS.items():
        yield Case(f"whole outputs, {name}", lambda s=script, w=wanted: has_outputs(setup, s, w), ORIGIN)
    for name, (script, wanted) in MEDIA.items():
        yield Case(f"media, {name}", lambda s=script, w=wanted: has_media(setup, s, w), ORIGIN)
    yield Case("whole outputs, two tasks before one purge", lambda: has_output(setup, THREE, ALL_PURGED), ORIGIN)
    yield Case("a search that is cut", lambda: is_cut(setup), ORIGIN)
    yield Case("between all commands", lambda: looks_closely(setup), ORIGIN)
    yield Case("many outcomes", lambda: has_many(setup), ORIGIN)
    yield Case("short witnesses", lambda: has_short_witnesses(setup), ORIGIN)
    yield Case("one outcome", lambda: prints_chosen(setup), ORIGIN)
    yield Case("hints hold", lambda: hints_hold(setup), ORIGIN)
    yield Case("hints lead to an end", lambda: hints_lead_to_an_end(setup), ORIGIN)
    yield Case("hints out of memory", lambda: goes_on_without_hints(setup), ORIGIN)
    yield Case("fixed jobs", lambda: are_fixed(setup), ORIGIN)
    yield Case("a fixed job in symbols", lambda: leaves_the_text(setup), ORIGIN)
    yield Case("a fixed job without idle waits", lambda: has_no_idle_wait(setup), ORIGIN)
    yield Case("media of a job with one outcome of each request", lambda: media_are_no_posts(setup), ORIGIN)
    yield Case("output that nothing reads", lambda: needs_no_reader(setup), ORIGIN)
    yield Case("no fixed job", lambda: says_why_it_writes_nothing(setup), ORIGIN)
    yield Case("runs by seeds", lambda: is_compared(setup), ORIGIN)
    yield Case("codes that are allowed", lambda: codes_are_allowed(setup), ORIGIN)
    yield Case("shares of runs", lambda: shares_are_counted(setup), ORIGIN)
    yield Case("no time for changes", has_no_time_for_changes, ORIGIN)
    yield Case("a search that takes long", lambda: is_ended(setup), ORIGIN)
    yield Case("many requests and a halt", lambda: is_quick(setup), ORIGIN)
    yield Case("very many requests and a quiesce", lambda: tells_many(setup), ORIGIN)
    yield Case("a page", lambda: is_a_page(setup), ORIGIN)
    yield Case("one outcome of a search that is cut", lambda: says_it_was_cut(setup), ORIGIN)
    for file in sorted(glob.glob(f"{SAMPLES}/outcomes/*.script")):
        yield Case(os.path.relpath(file, TOP), lambda f=file: is_stored(setup, f), ORIGIN)
    for file in sorted(glob.glob(f"{SAMPLES}/*.script")):
        yield Case(os.path.relpath(file, TOP), lambda f=file: ends(setup, f), ORIGIN)
    for first in range(0, JOBS_LONG if setup.is_long else JOBS, BATCH):
        yield Case(f"small jobs from {first}", lambda f=first: runs_are_among(setup, f), ORIGIN)
    for seed in range(RACES):
        yield Case(f"{RUNS} runs on threads, {seed}", lambda s=seed: threads_are_among(setup, s), ORIGIN)
