"""Small scripts of eight shapes, and runs of them whose threads are stopped and continued at random.

One thread of a run is stopped at a time, by ptrace, while the others go on. It needs no root rights: the run is a child. One run in
four has one processor. A run that does not end in time tells of its threads before it is killed.
"""

import contextlib
import ctypes
import os
import pathlib
import random
import shutil
import signal
import subprocess
import time
from dataclasses import dataclass

import counts
from harness import Failed, Ran, Skipped, decoded, require

# The seconds after which a run tells of itself, and those that it then has to end: a busy machine may be slow.
SECONDS = 60
MORE = 60

# The most seconds from one stop to the next, and those of a stop: short as a rule, seldom long.
PAUSE = 0.003
STOPS = 0.001, 0.001, 0.005, 0.03

# The seconds from one look at a thread that is to stop to the next, and those that it has for it at the end of a run's time.
LOOK = 0.0001
GRACE = 5

# Requests of linux/ptrace.h, its option and event of a new thread, and __WALL of linux/wait.h.
SEIZE, INTERRUPT, DETACH, EVENT_OF = 0x4206, 0x4207, 17, 0x4201
THREADS, NEW_THREAD = 1 << 3, signal.SIGTRAP | 3 << 8
ALL_THREADS = 0x40000000

LIBC = ctypes.CDLL(None, use_errno=True)
LIBC.ptrace.restype = ctypes.c_long
LIBC.ptrace.argtypes = [ctypes.c_long, ctypes.c_long, ctypes.c_void_p, ctypes.c_void_p]

EXTENT = "18000000000000000000000000000001"
IOB = "4200000000001028" + "0" * 16 + "0000103000000001" + "0" * 16 + "0" * 15 + "1" + "0" * 16
READ = "31001A0040000005" + "0800103000000000" + "06001A0800000004"
NO_OPERATION = "0300000040000001"


@dataclass(frozen=True)
class Shape:
    """What a script has: the words of its run, tasks, units, the requests of a task, how many no-operations come before a request
    ends, whether the units have one subclass, and how often a task purges and waits, as a chance for each request."""

    words: str
    tasks: int
    units: int
    requests: int
    no_operations: int = 0
    one_subclass: bool = False
    purges: float = 0.0
    waits: float = 0.0


SHAPES = {
    "full rows": Shape("--channels 1 --handlers 1", 4, 1, 40),
    "256 under way": Shape("--channels 2 --handlers 2", 1, 2, 300),
    "purges with halt": Shape("--channels 2 --handlers 1", 3, 2, 6, no_operations=200, purges=0.4),
    "many tasks": Shape("--channels 2 --handlers 1", 64, 2, 2),
    "one subclass": Shape("--channels 4 --handlers 1", 4, 8, 16, one_subclass=True),
    "16 channels": Shape("--channels 16 --handlers 8", 4, 16, 16),
    "waits": Shape("--channels 2 --handlers 1", 2, 2, 12, waits=0.7),
    "few requests": Shape("--channels 2 --handlers 1", 2, 1, 2, waits=0.3, purges=0.1),
}


def set_up(tasks, subclasses, programs):
    """The lines of a script before its commands: tasks, a disk for each of these subclasses, and an area for each program."""
    lines = [f"tasks {tasks}"]
    for unit, subclass in enumerate(subclasses):
        lines += [f"disk {unit} {subclass} 1 1 40", f"rec {unit} 0 0 1 - C1C2C3C4", f"open {unit} out {EXTENT}"]
    for number, words in enumerate(programs):
        lines.append(f"area {number} 001000 {IOB}{words.ljust(0x9D0 * 2, '0')}0000000001000000{'0' * 16}")
    return lines


def excp(task, unit, area):
    """The command by which a task issues a request with an area to a unit."""
    return f"excp {task} {unit} 1 001000 {area} 001A08 4"


def script_of(shape, seed):
    """A script of this shape, and the names of its requests: task, unit and number."""
    chance = random.Random(seed)
    program = NO_OPERATION * chance.randint(0, shape.no_operations) + "0300000000000001"
    lines = set_up(shape.tasks, [0 if shape.one_subclass else unit % 8 for unit in range(shape.units)], (READ, program))
    numbers, commands = {}, []
    for task in range(shape.tasks):
        for _ in range(shape.requests):
            unit = chance.randrange(shape.units)
            numbers[task, unit] = numbers.get((task, unit), 0) + 1
            area = chance.randrange(2) if shape.no_operations else 0
            commands.append(excp(task, unit, area))
            if chance.random() < shape.purges:
                commands.append(f"purge {task} {unit} 1 halt")
            if chance.random() < shape.waits:
                commands.append(f"wait {task}")
    names = sorted((task, unit, number + 1) for (task, unit), count in numbers.items() for number in range(count))
    return "\n".join([*lines, *commands, ""]), names


def stopped_for(pid, thread, seconds, until):
    """Stops a thread of a run for so long. Returns the status if the run has ended, and else nothing. A thread that does not stop
    until this moment is left."""
    if LIBC.ptrace(SEIZE, thread, None, None) != 0:
        return None
    LIBC.ptrace(INTERRUPT, thread, None, None)
    ended, status = 0, 0
    try:
        while not ended and time.monotonic() < until:
            ended, status = os.waitpid(thread, ALL_THREADS | os.WNOHANG)
            time.sleep(0 if ended else LOOK)
    except ChildProcessError:
        return None
    if ended and not os.WIFSTOPPED(status):
        return status if thread == pid else None
    time.sleep(seconds)
    if LIBC.ptrace(DETACH, thread, None, None) != 0:
        # the run has ended while this thread was stopped: until the thread is waited for, its process is not
        with contextlib.suppress(ChildProcessError):
            _, status = os.waitpid(thread, ALL_THREADS)
            return status if thread == pid else None
    return None


@contextlib.contextmanager
def first_thread_held(pid, begin):
    """Lets a run begin by this call, and stops the first thread that it makes, from its first instruction to the end of the
    block."""
    if LIBC.ptrace(SEIZE, pid, None, THREADS) != 0:
        raise Skipped("threads cannot be stopped: ptrace is not allowed")
    begin()
    _, status = os.waitpid(pid, ALL_THREADS)
    require(status >> 8 == NEW_THREAD, f"no thread is made: status {status}")
    thread = ctypes.c_ulong()
    LIBC.ptrace(EVENT_OF, pid, None, ctypes.addressof(thread))
    os.waitpid(thread.value, ALL_THREADS)
    LIBC.ptrace(DETACH, pid, None, None)
    try:
        yield
    finally:
        LIBC.ptrace(DETACH, thread.value, None, None)


def threads_of(pid):
    """The threads of a run that are there."""
    try:
        return [int(it) for it in os.listdir(f"/proc/{pid}/task")]
    except OSError:
        return []


def ended_by(pid, seconds, chance=None):
    """The status by which a run ends in so many seconds, or nothing. With `chance` its threads are stopped at random."""
    until = time.monotonic() + seconds
    while time.monotonic() < until:
        ended, status = os.waitpid(pid, os.WNOHANG)
        if ended:
            return status
        time.sleep(chance.uniform(0, PAUSE) if chance else PAUSE)
        threads = threads_of(pid) if chance else []
        if threads:
            status = stopped_for(pid, chance.choice(threads), chance.uniform(0, chance.choice(STOPS)), until + GRACE)
            if status is not None:
                return status
    return None


def told(pid):
    """Of each thread of a run its state, what it waits for and its processor time, by /proc; of each unit and task its counts."""
    texts = []
    for thread in threads_of(pid):
        texts.append(f"thread {thread}")
        for name in "wchan", "syscall", "stack", "stat", "status":
            try:
                with open(f"/proc/{pid}/task/{thread}/{name}", encoding="utf-8", errors="replace") as it:
                    texts.append(f"{name}: {it.read().rstrip()}")
            except OSError as error:
                texts.append(f"{name}: {error}")
    return "\n".join([*texts, counts.told(pid)])


def is_held(pid):
    """Whether a thread of a run is stopped by ptrace."""
    with contextlib.suppress(OSError):
        stats = [pathlib.Path(f"/proc/{pid}/task/{it}/stat").read_text(encoding="utf-8") for it in threads_of(pid)]
        return any(") t " in it for it in stats)
    return False


def debugged(pid, core):
    """The calls of the threads of a run, by gdb if it is there, which also writes the memory of the run to a file."""
    if not shutil.which("gdb"):
        return "gdb is missing: no calls, no memory\n"
    if is_held(pid):
        return "gdb would wait for a thread that a test holds up: no calls, no memory\n"
    words = ["gdb", "-p", str(pid), "-batch", "-nx", "-ex", "info threads", "-ex", "thread apply all bt 20", "-ex", f"gcore {core}"]
    with contextlib.suppress(subprocess.TimeoutExpired):
        return decoded(subprocess.run(words, capture_output=True, timeout=SECONDS, check=False).stdout)
    return "gdb does not end\n"


def kept(folder, name, script, pid):
    """Keeps the script of a run that does not end, and a report of it. Returns the file of the report."""
    os.makedirs(folder, exist_ok=True)
    base = f"{folder}/{name.replace(' ', '_')}"
    with open(f"{base}.script", "w", encoding="utf-8") as it:
        it.write(script)
    with open(f"{base}.report", "w", encoding="utf-8") as it:
        for text in (told, lambda _: "a second later\n", told, lambda it: debugged(it, f"{base}.core")):
            it.write(text(pid))
            it.flush()
            time.sleep(0.5)
    return f"{base}.report"


def ran(program, name, seed, folder):
    """A run of a script of a shape. Fails if it does not end, or does not post each request once. Returns whether it was late."""
    shape, chance = SHAPES[name], random.Random(f"soak {name} {seed}")
    script, names = script_of(shape, f"{name} {seed}")
    words = [program, "run", *shape.words.split()]
    with open(os.memfd_create("in"), "w+b") as given, open(os.memfd_create("out"), "w+b") as out:
        given.write(script.encode())
        given.seek(0)
        process = subprocess.Popen(words, stdin=given, stdout=out, stderr=out)
        if chance.random() < 0.25:
            with contextlib.suppress(OSError):
                os.sched_setaffinity(process.pid, {chance.choice(sorted(os.sched_getaffinity(0)))})
        status, report = ended_by(process.pid, SECONDS, chance), ""
        if status is None:
            report = kept(folder, f"{name} {seed}", script, process.pid)
            status = ended_by(process.pid, MORE)
        if status is None:
            os.kill(process.pid, signal.SIGKILL)
            os.waitpid(process.pid, 0)
        process.returncode = status = "none" if status is None else os.waitstatus_to_exitcode(status)
        text = decoded(os.pread(out.fileno(), os.fstat(out.fileno()).st_size, 0))
    done = Ran(words, status, text, "", script)
    require(status != "none", f"{name} {seed}: it does not end: {report}", done)
    require_posts(done, names)
    return bool(report)


def require_posts(done, names):
    """The run posts each of these requests once, and counts them."""
    *posts, count = done.out.splitlines() or [""]
    require(done.status == 0 and count == f"end {len(names)}", "it fails, or posts another count", done)
    try:
        posted = sorted(tuple(map(int, it.split()[1:4])) for it in posts)
    except ValueError:
        raise Failed("a line is no post", done) from None
    require(posted == names, "a request is not posted once", done)
