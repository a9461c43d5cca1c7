"""Runs of small scripts of eight shapes end, and post each request once, while their threads are stopped and continued at random.

tests/soak.py has the shapes, and says how threads are stopped, and what a run that does not end reports in out/soak. One run does
not end because its first worker is held up. So the counts that it has to report are known.
"""

import collections
import concurrent.futures
import subprocess
import tempfile
import threading
import time

import soak
from harness import TOP, Case, Failed, read, require

ORIGIN = "docs/ARCHITECTURE.md, what waits and what ends it; tests/soak.py"

# The runs of a shape, also in the long form, and how many go side by side for each processor.
RUNS = 250
RUNS_LONG = 12_500
SIDE_BY_SIDE = 8

# At most one run in so many may take longer than a minute.
LATE = 100

# The subclasses of four units, and how many requests each of two tasks issues to each unit. The first of two workers serves the
# units 0 and 2, and the subclasses 0 and 2. While it is held up, units 0 and 2 take nothing, and the status of unit 3 stays
# pending.
SUBCLASSES = 0, 1, 2, 2
ISSUED = collections.Counter({(0, 0): 2, (0, 1): 3, (0, 3): 4, (1, 0): 1, (1, 1): 1, (1, 2): 5, (1, 3): 2})
TOLD = """\
unit 0: sent to it 3, taken 0, waiting 0, active 0, posted and not delivered 0, delivered 0, notices 0, owed 0, lock free
unit 1: sent to it 4, taken 4, waiting 0, active 0, posted and not delivered 0, delivered 4, notices 4, owed 0, lock
unit 2: sent to it 5, taken 0, waiting 0, active 0, posted and not delivered 0, delivered 0, notices 0, owed 0, lock free
unit 3: sent to it 6, taken 6, waiting 5, active 1, posted and not delivered 0, delivered 0, notices 1, owed 0, lock
task 0: delivered 3, collected 3, by unit issued [2, 3, 0, 4] and collected [0, 3, 0, 0], asleep, wanted 1
task 1: delivered 1, collected 1, by unit issued [1, 1, 5, 2] and collected [0, 1, 0, 0], asleep, wanted 1
subclass 1: notices 4, taken 4
subclass 2: notices 1, taken 0
"""


def missing_of(text):
    """The lines that a report lacks. Whether a lock is free is left out for the units whose worker goes on."""
    return [wanted for wanted in TOLD.splitlines() if not any(it.startswith(wanted) for it in text.splitlines())]


def tells_counts(setup):
    """A run whose first worker is held up reports its counts. It ends once the worker goes on."""
    script = "\n".join([*soak.set_up(2, SUBCLASSES, [soak.READ]), *(soak.excp(*to, 0) for to in ISSUED.elements()), ""])
    words = [setup.program, "run", "--channels", "2", "--handlers", "2"]
    with tempfile.TemporaryDirectory() as folder, subprocess.Popen(words, stdin=subprocess.PIPE, stdout=subprocess.PIPE) as process:
        try:
            with soak.first_thread_held(process.pid, lambda: given_to(process, script)):
                report, until = "", time.monotonic() + soak.SECONDS
                while missing_of(report) and time.monotonic() < until:
                    report = read(soak.kept(folder, "held up", script, process.pid))
            posts = process.stdout.read() if soak.ended_by(process.pid, soak.MORE) == 0 else b""
        finally:
            process.kill()
    if missing_of(report):
        raise Failed("the report of a run that is held up has other counts", None, TOLD, report)
    require(posts.endswith(f"end {ISSUED.total()}\n".encode()), "the run does not go on")


def given_to(process, script):
    """Gives a process its whole input."""
    process.stdin.write(script.encode())
    process.stdin.close()


def all_end(setup, name, runs):
    """Runs of a shape: they end, and post each request once. After the first fault no run begins."""
    stop = threading.Event()

    def one(seed):
        if stop.is_set():
            return False
        try:
            return soak.ran(setup.program, name, seed, f"{TOP}/out/soak")
        except BaseException:
            stop.set()
            raise

    with concurrent.futures.ThreadPoolExecutor(SIDE_BY_SIDE) as pool:
        late = sum(pool.map(one, range(runs)))
    require(late * LATE <= runs, f"{late} of {runs} runs took longer than {soak.SECONDS} s: out/soak has a report of each")
    return f"{name}: {late} of {runs} runs took longer than {soak.SECONDS} s" if late else ""


def cases(setup):
    runs = RUNS_LONG if setup.is_long else RUNS
    yield Case("tells_counts", lambda: tells_counts(setup), ORIGIN)
    for name in soak.SHAPES:
        yield Case(name, lambda n=name: all_end(setup, n, runs), ORIGIN)
