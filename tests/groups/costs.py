"""What runs cost: the most memory, how processor time grows with the requests, and what threads that wait take.

The bounds are wide, so that a busy machine passes. Nine times as many requests take nine times as long; they would take 81
times as long if each cost time in those before it.
"""

import os
import shutil
import subprocess
import sys
import tempfile
import time

from harness import SAMPLES, SECONDS, TOP, Case, Failed, Skipped, require

# The cases run one after another, so that none slows down another.
RUNS_ALONE = True

ROUNDS = 9

# How often a case is tried at most: other work of the machine makes runs longer, and none shorter.
TRIES = 3

# The most memory of 20,000 requests, in MiB, and of each entry of a trace besides: 64 bytes. A program up to the fetch limit
# has one turn for 64 of its commands, and four entries more. A loop of two CCWs has 2,048 commands, a straight program
# 4,092.
BESIDE = 20
ENTRY = 64 / 2**20
LOOP = (32 + 4) * ENTRY
STRAIGHT = (64 + 4) * ENTRY

# The kind and number of requests, and the most memory that a run may take, in MiB. The last trace has 2.4 million entries.
MEMORY = [
    ("small", 20_000, BESIDE),
    ("large", 20_000, BESIDE),
    ("units", 16_384, 24),
    ("loops", 2_000, 24),
    ("loops", 36_000, BESIDE + 36_000 * LOOP),
    ("straight", 35_000, BESIDE + 35_000 * STRAIGHT),
]

# The kind, a number of requests, how many times as many, and how many times as long they may take at most. The longer
# trace of loops has 1.3 million entries.
TIMES = [("small", 4_000, 9, 20), ("waits", 3_300, 9, 20), ("loops", 4_000, 9, 20)]

# The kind, a number of requests, the kind of such requests on one unit alone, and how many times as much processor time they
# may take at most, by one worker and one handler: small requests on 64 units of one subclass, and loops on one unit beside
# 63 idle ones. A worker that takes one notice of a subclass in a pass over its units takes 2.3 times as much for the first,
# and one that looks at each idle unit in each pass 1.6 times for the second.
UNITS = [("spread", 20_000, "small", 1.9), ("lone", 2_000, "loops", 1.5)]

# The same with 16 channel workers and one handler. On four processors most of the 16 look for work at any moment, so the run
# takes up to four processors for as long as the handler needs. One worker takes little more than one for `small`, since the
# task sleeps: four times as much, and 1.9 times for the units.
CHANNELS = [("spread", 20_000, "small", 8, "--channels", "16", "--handlers", "1")]

# The kind, a number of requests, and the most processor time for each second that passes: one worker is busy, and the two
# tasks that wait for it sleep. Each thread that did not would take one more, where there is a processor for it.
AWAKE = [("pair", 12_000, 1.7)]

# The kind, a number of requests, and how many times as long as one worker of each kind as many as there may be take at
# most, on one processor: those that find nothing to do give way to the others.
CROWDS = [("units", 16_384, 8)]
CROWD = ("--channels", "16", "--handlers", "8")


# How many times as long as tests/copy.c the load and the save of a 3390-1 may take, and how much memory: for each MiB of
# the image, and beside that. Most of the time is the disk's, so the bound on time is wider than the aim of 1.6.
COPIES, SIZES, SPARE = 2, 2.2, 16

# A small process that runs a program, and prints its status, processor seconds and most memory on standard error. The memory
# of a process counts that of the one that starts it, so that is not this one, with its 20 MiB.
STARTER = """
import os, sys
pid = os.fork()
if pid == 0:
    os.execv(sys.argv[1], sys.argv[1:])
_, status, used = os.wait4(pid, 0)
print(status, used.ru_utime + used.ru_stime, used.ru_maxrss, file=sys.stderr)
"""


def script_of(kind, count):
    """A file with a script, to be read from its start."""
    file = tempfile.TemporaryFile()
    subprocess.run([f"{SAMPLES}/timed", kind, str(count)], stdout=file, check=True)
    return file


def cost(setup, script, count, *words):
    """The cost of a run on a script: processor time and wall time, in seconds, and the most memory in MiB. It prints
    `count` posts."""
    script.seek(0)
    words = [sys.executable, "-S", "-E", "-c", STARTER, setup.program, "run", *words]
    with tempfile.TemporaryFile() as out:
        begun = time.monotonic()
        ran = subprocess.run(words, stdin=script, stdout=out, stderr=subprocess.PIPE, timeout=SECONDS, check=False)
        passed = time.monotonic() - begun
        status, seconds, memory = ran.stderr.split()[-3:]
        out.seek(0)
        if status != b"0" or out.read().split(b"\n")[-2:-1] != [b"end %d" % count]:
            raise Failed(f"a run of {count} requests ended with status {status}, or without `end {count}`")
    return float(seconds), passed, int(memory) / 1024


def fits(setup, kind, count, most):
    """A run takes at most this memory."""
    with script_of(kind, count) as script:
        _, _, memory = cost(setup, script, count)
    text = f"{kind} {count}: {memory:.1f} MiB, at most {most:.0f}"
    require(memory <= most, text)
    return text


def grows(setup, kind, count, times, most):
    """`times` as many requests take at most `most` times as long: the least of some runs, by turns."""
    more = times * count
    with script_of(kind, count) as few, script_of(kind, more) as many:
        seconds = [(cost(setup, few, count)[0], cost(setup, many, more)[0]) for _ in range(ROUNDS)]
    least, longer = (min(column) for column in zip(*seconds))
    text = f"{kind} {count} and {more}: {least:.3f} and {longer:.3f} s, {longer / least:.1f} times, at most {most}"
    require(longer <= most * least, text)
    return text


def keeps_up(setup, kind, count, alone_kind, most, *words):
    """Requests among 64 units, by these workers, take at most `most` times as long as on one unit alone by one of each kind:
    the least of some runs, by turns."""
    with script_of(alone_kind, count) as one, script_of(kind, count) as more:
        seconds = [(cost(setup, one, count)[0], cost(setup, more, count, *words)[0]) for _ in range(ROUNDS)]
    alone, among = (min(column) for column in zip(*seconds))
    text = f"{kind} {count}: {among:.3f} s, on one unit {alone:.3f} s, {among / alone:.1f} times, at most {most}"
    require(among <= most * alone, text)
    return text


def sleeps(setup, kind, count, most):
    """A run takes at most this processor time for each second that passes: the least of some runs."""
    with script_of(kind, count) as script:
        runs = [cost(setup, script, count) for _ in range(ROUNDS)]
    share = min(seconds / passed for seconds, passed, _ in runs)
    text = f"{kind} {count}: {share:.2f} processors, at most {most}"
    require(share <= most, text)
    return text


def gives_way(setup, kind, count, most):
    """On one processor the most workers take at most `most` times as long as one of each kind: the least of some runs, by
    turns."""
    all_of_them = os.sched_getaffinity(0)
    os.sched_setaffinity(0, {min(all_of_them)})
    try:
        with script_of(kind, count) as script:
            seconds = [(cost(setup, script, count)[1], cost(setup, script, count, *CROWD)[1]) for _ in range(ROUNDS)]
    finally:
        os.sched_setaffinity(0, all_of_them)
    alone, crowd = (min(column) for column in zip(*seconds))
    text = f"{kind} {count} on one processor: {alone:.3f} s, all workers {crowd:.3f} s, {crowd / alone:.1f} times, at most {most}"
    require(crowd <= most * alone, text)
    return text


def timed(words):
    """The seconds that pass, and the most memory in MiB, of a program that ends well."""
    begun = time.monotonic()
    started = [sys.executable, "-S", "-E", "-c", STARTER, *words]
    ran = subprocess.run(started, stdin=subprocess.DEVNULL, capture_output=True, timeout=10 * SECONDS, check=False)
    passed = time.monotonic() - begun
    status, _, memory = ran.stderr.split()[-3:]
    require(status == b"0", f"{words[0]} ended with status {status}: {ran.stderr[:300]}")
    return passed, int(memory) / 1024


def copies(setup):
    """A 3390-1 is loaded and saved in the time and memory of a plain copy, times a bound."""
    setup.skip_unproved()
    compiler = shutil.which("cc") or shutil.which("gcc")
    if not compiler or not shutil.which("dasdinit"):
        raise Skipped("no C compiler, or no dasdinit of Hercules' tools")
    with tempfile.TemporaryDirectory(prefix="images-") as folder:
        if shutil.disk_usage(folder).free < 4 << 30:
            raise Skipped("less than 4 GiB of disk")
        subprocess.run([compiler, "-O2", "-o", f"{folder}/copy", f"{TOP}/tests/copy.c"], check=True)
        subprocess.run(["dasdinit", f"{folder}/image", "3390-1", "VOL001"], check=True, capture_output=True)
        with open(f"{folder}/job", "w", encoding="ascii") as job:
            job.write("tasks 1\ndisk 0 0 -\nwait 0\n")
        size = os.path.getsize(f"{folder}/image") / 2**20
        words = ["report", "--posts", "--load", f"0={folder}/image", "--save", f"0={folder}/saved", f"{folder}/job"]
        plain, _ = timed([f"{folder}/copy", f"{folder}/image", f"{folder}/other"])
        longer, memory = timed(setup.command(*words))
    text = f"{plain:.2f} s by tests/copy.c, {longer:.2f} s, {longer / plain:.1f} times; {memory:.0f} MiB for {size:.0f} MiB"
    require(longer <= COPIES * plain and memory <= SIZES * size + SPARE, text)
    return f"load and save of a 3390-1: {text}"


def tried(judge, *words):
    """What a judge says, tried again while it fails."""
    for _ in range(TRIES - 1):
        try:
            return judge(*words)
        except Failed:
            pass
    return judge(*words)


def cases(setup):
    yield Case("load and save of a 3390-1", lambda: tried(copies, setup), "tests/copy.c, and the memory of two media")
    for name, judge, rows in (
        ("memory", fits, MEMORY),
        ("processor time", grows, TIMES),
        ("units", keeps_up, UNITS),
        ("units by 16 channels", keeps_up, CHANNELS),
        ("threads that wait", sleeps, AWAKE),
        ("workers on one processor", gives_way, CROWDS),
    ):
        for row in rows:
            origin = "tests/groups/costs.py, whose bounds are by reasoning"
            yield Case(f"{name}: {row[0]} {row[1]}", lambda j=judge, r=row: tried(j, setup, *r), origin)
