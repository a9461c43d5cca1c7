"""Calls made to fail in turn: each allocation, each read and write, each sync and rename of a file, and each thread, in programs and
in tests. A program is killed at each call on a file, too.

`tests/refuse.c`, preloaded, makes calls of one kind fail by their numbers. A case runs a proved program, or a test as `rt
ci` or `rt test` leaves it in crates/*/out, with the first call failing, then with the second, and so on, until there is no
such call. Each run ends in one of the ways that the case allows; the last one, in which no call failed, ends well.
"""

import os
import re
import shutil
import signal
import struct
import subprocess
import tempfile
from dataclasses import dataclass, field, replace

from each_line import lack_memory, ran_at
from groups.images import small_tape, small_volume
from harness import CASES, SAMPLES, TOP, Case, Failed, Skipped, read, require, run, side_by_side

LIBRARY = f"{TOP}/out/refuse.so"
STORED = f"{TOP}/crates/excp_job/stdin"
POSTS = f"{TOP}/crates/excp_job/stdout"
NO_MEMORY = "excp: out of memory\n"
NO_MEMORY_OF_RUN = "excp_job: out of memory\n"

# What `report` says if it cannot make a worker's thread; `run` has one text for both.
NO_THREAD = "excp: no thread can be made for a worker, or out of memory\n"

# The images that a run loads, and the names under which it saves them.
IMAGES = {"tape": small_tape(), "disk": small_volume()}
SAVED = {"tape": "saved_tape", "disk": "saved_disk"}

# How many small requests have posts that are written in several parts.
REQUESTS = 2000

# With two failing calls, the default form tries one in so many of the second ones.
STEP = 3


# --- ways to end, each the name of the way that a run ended in, or nothing


def lacked(ran):
    """What a run ran out of, as it says itself."""
    if ran.status == 3 and ran.err in (NO_MEMORY, NO_MEMORY_OF_RUN):
        return "out of memory"
    return "no thread" if (ran.status, ran.err) == (3, NO_THREAD) and "report" in ran.words else None


def prints_all_or_nothing(ran, text):
    """It printed all, or it ran out of memory and printed nothing."""
    return "printed all" if (ran.status, ran.out) == (0, text) else prints_nothing(ran, text)


def prints_nothing(ran, text):
    """It ran out of memory and printed nothing."""
    return None if ran.out else lacked(ran)


def reports_threads(ran, text):
    """It said that it lacks a thread, and printed nothing."""
    return "no thread" if lacked(ran) == "no thread" and not ran.out else None


def prints_a_part(ran, text):
    """It printed all, or it ran out of memory and printed a part."""
    if lacked(ran) and ran.out and text.startswith(ran.out):
        return "out of memory after a part"
    return prints_all_or_nothing(ran, text)


def rejects_its_output(ran, text):
    """It reported that its output cannot be written, after a part of it."""
    is_reported = (ran.status, ran.err) == (1, "excp_job: output not written\n")
    return "output not written" if is_reported and text.startswith(ran.out) else None


def says_unreadable(ran, text):
    """It reported that its script cannot be read, and printed nothing."""
    return "unreadable" if (ran.status, ran.out, ran.err) == (1, "", "excp_job: script unreadable\n") else None


def reads_nothing(ran, text):
    """It could not read an image, or its script. It printed nothing of a run, and saved nothing: the package says the image's fault."""
    if ran.out or ran.files != {**IMAGES, **dict.fromkeys(SAVED.values(), b"")}:
        return None
    return {(8, ""): "no image", (1, "excp: script unreadable\n"): "unreadable"}.get((ran.status, ran.err))


def fills_or_lacks(ran, text):
    """It printed all and filled its files with the images; or it ran out of memory. The package keeps no file of such a run."""
    saved = {SAVED[name]: data for name, data in IMAGES.items()}
    if (ran.status, ran.out, ran.files) == (0, text, {**IMAGES, **saved}):
        return "saved all"
    return lacked(ran) if IMAGES.items() <= ran.files.items() else None


# What the package says if it cannot make what the program reads.
NO_INPUT = "excp: excp_tools cannot be run: Input/output error\n"


def saves_all_or_nothing(ran, text):
    """It printed all and saved the images; or it could not write a file, and all files are as before."""
    saved = {SAVED[name]: data for name, data in IMAGES.items()}
    if (ran.status, ran.out, ran.files) == (0, text, {**IMAGES, **saved}):
        return "saved all"
    is_reported = ran.err == NO_INPUT or re.fullmatch(r"excp: .*saved_(tape|disk): the file cannot be written\n", ran.err)
    return "not written" if ran.status == 1 and is_reported and ran.files == IMAGES else None


def saves_one_or_all(ran, text):
    """As `saves_all_or_nothing`, but a file whose rename fails stays as before, and the other one is saved."""
    rest = {name: data for name, data in ran.files.items() if name not in IMAGES}
    right = {SAVED[name]: data for name, data in IMAGES.items()}
    if ran.status == 1 and len(rest) == 1 and rest.items() <= right.items() and "the file cannot be written" in ran.err:
        return "one saved"
    return saves_all_or_nothing(ran, text)


# The ends of what is killed, or starts a program that is.
KILLED = -signal.SIGKILL, 128 + signal.SIGKILL


def is_killed_whole(ran, _text):
    """It was killed. Each file that it saves to has the whole image or is not there, no other file changed, and a new file
    that is left has its documented name."""
    right = {**IMAGES, **{SAVED[name]: data for name, data in IMAGES.items()}}
    left = {f"{name}.excp-new" for name in SAVED.values()}
    is_whole = IMAGES.items() <= ran.files.items() and all(right.get(name) == data for name, data in ran.files.items()
                                                           if name not in left)
    if ran.status not in KILLED or not is_whole:
        return None
    return "killed, with a new file left" if left & ran.files.keys() else "killed"


def is_program(ran, text):
    """A client printed all, or it reported an error of memory, after a part of its output."""
    if (ran.status, ran.out) == (0, text):
        return "printed all"
    is_reported = re.search(r"^Error: .*((no|out of) memory|memory allocation failed)$", ran.err, re.M)
    return "out of memory" if ran.status == 1 and is_reported and text.startswith(ran.out) else None


def is_test(ran, text):
    """A test passed, or it ended in a plain error of memory."""
    if ran.status == 0:
        return "passed"
    is_reported = re.search(r"^error: (AllocError|AllocFailed .*|NoMemory)$", ran.out + ran.err, re.M)
    return "out of memory" if ran.status == 101 and is_reported else None


def is_purge_test(ran, text):
    """As `is_test`; a test that passed says if the purge was answered `Active` by unit 0 and refused by unit 1."""
    way = is_test(ran, text)
    is_refused = way == "passed" and re.search(r"^unit 1 has no memory for the purge$", ran.out, re.M)
    return "passed, with unit 1 refusing the purge" if is_refused else way


def is_resumed_test(ran, text):
    """As `is_test`; if it passed it resumed its run, at most once for each call that failed."""
    way = is_test(ran, text)
    if way == "passed":
        times = re.search(r"^resumed (\d+)$", ran.out, re.M)
        return way if times and int(times[1]) <= ran.failing else None
    return way


# --- what is run


@dataclass
class Plan:
    """What is run with calls of a kind failing, how a run may end, and what the cases require of all runs together: how many
    such calls there are, if `calls` is not 0, and in how many ways the runs end at least. Each word `{NAME}` of one that is
    `opened` becomes the number of this file, which is open for the program."""

    words: list
    judge: object
    input: str = "/dev/null"
    text: str = ""
    kind: str = "growth"
    status: int = 0
    passes: bool = False
    pairs: bool = False
    step: int = 1
    calls: int = 0
    least: int = 1
    files: dict = field(default_factory=dict)
    opened: dict = field(default_factory=dict)
    ways: dict = field(default_factory=dict)

    def run(self, *numbers):
        """A run with the calls of these numbers failing, and how many such calls there were. It runs in a folder with the
        plan's files alone."""
        with tempfile.NamedTemporaryFile() as calls, open(self.input, "rb") as script, tempfile.TemporaryDirectory() as folder:
            for name, data in self.files.items():
                with open(f"{folder}/{name}", "wb") as it:
                    it.write(data)
            failing = " ".join(map(str, numbers))
            environment = {"LD_PRELOAD": LIBRARY, "REFUSE_KIND": self.kind, "REFUSE": failing, "CALLS": calls.name}
            file = "" if self.input == "/dev/null" else os.path.relpath(self.input, TOP)
            opened = {name: os.open(f"{folder}/{name}", flags, 0o644) for name, flags in self.opened.items()}
            words = [it.format(**opened) for it in self.words] if opened else self.words
            how = {"stdin": script, "env": {**os.environ, **environment}, "cwd": folder, "pass_fds": list(opened.values())}
            ran = run(words, file=file, **how)
            for number in opened.values():
                os.close(number)
            ran.failing = len(numbers)
            ran.files = {}
            for name in os.listdir(folder):
                with open(f"{folder}/{name}", "rb") as it:
                    ran.files[name] = it.read()
            data = calls.read(8)
        shown = [f"{key}={environment[key]}" for key in ("LD_PRELOAD", "REFUSE_KIND", "REFUSE")]
        ran.words = ["env", *shown, *ran.words]
        return ran, struct.unpack("q", data)[0] if len(data) == 8 else 0

    def sweep(self, before, first, jobs):
        """Runs with a further call failing, from the first number on by steps, until there is no such call. Gives the numbers
        of those that passed, and the run in which no further call failed."""
        passed, number, size = [], first, max(4, 2 * jobs)
        while True:
            numbers = [number + at * self.step for at in range(size)] if before else [number + at for at in range(size)]
            for at, (ran, calls) in zip(numbers, side_by_side(lambda it: self.run(*before, it), numbers, jobs)):
                if calls < at:
                    return passed, ran, at - 1
                way = self.judge(ran, self.text)
                if not way:
                    raise Failed(f"ended badly, {self.kind} {' and '.join(map(str, [*before, at]))} failing", ran, None, ran.text())
                self.ways[way] = self.ways.get(way, 0) + 1
                if way == "passed":
                    passed.append(at)
            number = numbers[-1] + (self.step if before else 1)

    def judged(self, name, jobs):
        """Tries the plan, and returns how its runs ended."""
        require(os.path.exists(self.words[0]), f"{os.path.relpath(self.words[0], TOP)} is missing; `./gate` builds it")
        passed, last, count = self.sweep([], 1, jobs)
        if self.pairs:
            for at, first in enumerate(passed):
                self.sweep([first], first + 1 + at % self.step, jobs)
        require(count > 0, f"no call to make fail ({self.kind})", last)
        is_well = last.status == self.status and (not self.text or last.out + last.err == self.text)
        require(is_well, f"ended badly with no {self.kind} failing", last)
        require(not self.passes or "passed" in self.ways, f"never passed with a {self.kind} failing")
        require(not self.calls or count == self.calls, f"{count} {self.kind}s, and not {self.calls}", last)
        require(len(self.ways) >= self.least, f"the runs ended in {len(self.ways)} ways, and not in {self.least}", last)
        return f"{name}: {count} {self.kind}s: " + ", ".join(f"{number} {way}" for way, number in self.ways.items())


def tests_of(crate, name):
    """The program of a crate's tests, and those of its tests with this name."""
    program = f"{TOP}/crates/{crate}/out/{crate}_tests"
    require(os.path.exists(program), f"{os.path.relpath(program, TOP)} is missing; `rt test` in crates/{crate} builds it")
    ran = run([program, "--list"])
    names = re.findall(r"^(.*): test$", ran.out, re.M)
    found = [it for it in names if it == name or it.endswith(f"::{name}")]
    require(found, f"{crate} has no test {name}", ran)
    return program, found


def tests(crate, name, plan, jobs):
    program, names = tests_of(crate, name)
    return "; ".join(replace(plan, words=[program, it], ways={}).judged(it, jobs) for it in names)


# A disk with a record, a DCB of a unit, and a request that reads the record. Its IOB names this extent.
READS = "tasks 1\ndisk 0 0 1 1 40\nrec 0 0 0 1 - C1C2C3C4\n"
OPEN = "open {} out 18000000000000000000000000000001\n"
REQUEST = (
    "area 0 001000 4200000000001028 0000000000000000 0000103000000001 0000000000000000 {}00000000000001 0000000000000000 "
    "3100105040000005 0800103000000000 0600106000000004 0000000000000000 0000000001000000 0000000000000000 0000000000000000\n"
    "excp 0 0 1 001000 0 001060 4\n"
)

# What a request meets: a line of its unit, its extent, and its post. The fault of its first command is tried again (chapter 6 of
# docs/SPECIFICATION.md). Extent 1 of a DCB with one extent is a violation.
MEETS = {
    "nothing": ("", "00", "7F 001048 0C00 0000 0000 C1C2C3C4"),
    "a fault": ("fault 0 1 0E 00 1000\n", "00", "7F 001048 0C00 0000 0000 C1C2C3C4"),
    "a violation": ("", "01", "42 000000 0000 0000 0000 00000000"),
}

# A trace makes room for this many entries at once. A run of one request makes fewer.
ENTRIES = 4

# The controls of a task, and how many entries they make.
CONTROLS = {"purge 0 0 1 halt": 1, "purgetask 0 0 halt": 2, "close 0 0 1": 1, "reset 0 0 1": 1}


def written(work, name, text):
    """A script in a file."""
    file = f"{work}/{name.replace(' ', '_')}.script"
    with open(file, "w", encoding="ascii") as it:
        it.write(text)
    return file


def full_traces(work, setup, meets, kind, jobs):
    """Each call of a unit, with its trace full, runs out of memory: once, or for good. The gate of its worker hears of it. So the run
    goes on, or its task, which sleeps, wakes and ends."""
    line, extent, post = MEETS[meets]
    judge = prints_nothing if kind == "lasting" else prints_all_or_nothing
    ways = []
    for count in range(1, ENTRIES + 1):
        file = written(work, f"{meets} {count}", READS + line + OPEN.format(0) * count + REQUEST.format(extent))
        plan = Plan([setup.program, "run"], judge, file, f"post 0 0 1 {post}\nend 1\n", kind)
        ways.append(plan.judged(f"{meets}, {count} DCBs", jobs))
    return "; ".join(ways)


def controls(work, setup, jobs):
    """A control for which a unit has no memory, its trace being full, ends its task."""
    units = "tasks 1\ndisk 0 3 1 1 40\ndisk 1 6 1 1 40\n" + OPEN.format(0) * ENTRIES + OPEN.format(1) * ENTRIES
    ways = []
    for control, entries in CONTROLS.items():
        file, words = written(work, control, f"{units}{control}\n"), [setup.tools, "report", "form=events"]
        # the groups histories and reports judge what is made of this record
        whole = run(words, read(file)).out
        found = re.findall(r'^{"what":"controlled",', whole, re.M)
        require(len(found) == entries, f"{control}: {len(found)} entries, and not {entries}")
        ways.append(Plan(words, prints_a_part, file, whole, least=2).judged(control, jobs))
    return "; ".join(ways)


def long_posts(setup, work):
    """A plan for a run whose posts are written in several parts."""
    script = f"{work}/long.script"
    with open(script, "wb") as it:
        subprocess.run([f"{SAMPLES}/timed", "small", str(REQUESTS)], stdout=it, check=True)
    posts = "".join(f"post 0 0 {n} 7F 001048 0C00 0000 0000 C1C1C1C1\n" for n in range(1, REQUESTS + 1)) + f"end {REQUESTS}\n"
    return Plan([setup.program, "run"], rejects_its_output, script, posts, "write", status=0)


def programs(setup):
    """The cases of programs: a name, and the plan or a call that gives it."""
    def plan(word, judge, script, text, *words, **more):
        program = setup.program if word == "run" else setup.tools
        return f"{word} {os.path.relpath(script, TOP)} {' '.join(words)}".rstrip(), Plan(
            [program, word, *words], judge, script, read(text), **more
        )

    for words in ((), ("--channels", "2"), ("--channels", "4", "--handlers", "3")):
        yield plan("run", prints_all_or_nothing, STORED, POSTS, *words)
        name, it = plan("run", prints_nothing, STORED, POSTS, *words, kind="lasting")
        yield f"{name}: each later growth fails too", it
    workers = "--channels", "4", "--handlers", "3"
    name, it = plan("run", prints_all_or_nothing, STORED, POSTS, *workers, kind="thread", calls=4, least=2)
    yield f"{name}: threads", it
    # the groups histories, reports and pages judge what the package makes of these records
    of_programs = f"{SAMPLES}/how-programs-end.script"
    for form, script in ("events", f"{SAMPLES}/read.script"), ("posts", of_programs), ("steps", of_programs):
        words = [setup.tools, "report", f"form={form}"]
        name, whole = f"report {form} {os.path.relpath(script, TOP)}", run(words, read(script)).out
        yield name, Plan(words, prints_a_part, script, whole)
        if form == "events":
            yield f"{name}: threads", Plan(words, reports_threads, script, whole, kind="thread", calls=1)
    script, text = f"{CASES}/refusals/images.script", f"{CASES}/refusals/images.posts"
    files = [*(f"load={unit}={{{name}}}={name}" for unit, name in enumerate(IMAGES)),
             *(f"save={unit}={{{SAVED[name]}}}={name}" for unit, name in enumerate(IMAGES))]
    opened = {**dict.fromkeys(IMAGES, os.O_RDONLY), **dict.fromkeys(SAVED.values(), os.O_WRONLY | os.O_CREAT)}
    name, it = plan("report", fills_or_lacks, script, text, "form=posts", *files, files=IMAGES, opened=opened, least=2)
    # the record of these posts
    yield name, replace(it, text=it.run(0)[0].out)
    yield f"{name}: reads", replace(it, judge=reads_nothing, text=it.run(0)[0].out, kind="read", calls=6)
    yield f"run {os.path.relpath(STORED, TOP)}: reads", Plan([setup.program, "run"], says_unreadable, STORED, read(POSTS), "read")
    loads = ["--load", "0=tape", "--load", "1=disk", "--save", "0=saved_tape", "--save", "1=saved_disk"]
    words = setup.command("report", "--posts", *loads)
    for kind, judge, least in ("file", saves_one_or_all, 2), ("kill", is_killed_whole, 1):
        yield f"report with images: each {kind}", Plan(words, judge, script, read(text), kind, files=IMAGES, least=least)
    client = f"{TOP}/crates/example_print_tape"
    yield "example_print_tape", Plan([f"{client}/out/example_print_tape"], is_program, text=read(f"{client}/stdout"))


# How many lines of the package a case of it tries in the gate.
LINES = 80


def package_words(setup):
    """The words of the package: the words, the script, and the status and the text of a run that does not lack memory."""
    programs_end, folder = f"{SAMPLES}/how-programs-end.script", f"{CASES}/refusals"
    # the group listing judges this text
    listed = setup.run("report", "--listing", file=programs_end).out
    yield ["report", "--listing"], programs_end, 0, listed
    yield ["check"], f"{SAMPLES}/read.script", 0, ""
    yield ["assemble"], f"{SAMPLES}/read.symbolic", 0, read(f"{SAMPLES}/read.assembled")
    for word, script in ("check", "check.script"), ("assemble", "assemble.symbolic"):
        yield [word], f"{folder}/{script}", 1, read(f"{folder}/{word}.findings")


def lacks_memory_at_lines(is_long, words, script, status, text):
    """A word of the package that runs out of memory at a line of its code says so, and prints nothing or all."""
    ways = {}
    with tempfile.TemporaryDirectory() as folder:
        _, count = ran_at(0, lack_memory, "", words, folder, script)
        # the first two lines come before there is anything to do
        for number in range(3, count + 2, 1 if is_long else max(1, count // LINES)):
            ran, _ = ran_at(number, lack_memory, "", words, folder, script)
            way = prints_nothing(ran, text)
            if ran.out + ran.err == text and ran.status == status:
                way = "printed all"
            elif not way and (ran.out + ran.err).replace(NO_MEMORY, "", 1) == text and ran.status == 3:
                way = "printed all, and then out of memory"
            require(way, f"another end at line {number} of {count}", ran)
            ways[way] = ways.get(way, 0) + 1
    require(ways.get("out of memory"), "no line runs out of memory")
    return f"{' '.join(words)} {os.path.relpath(script, TOP)}: {sum(ways.values())} of {count} lines: {ways}"


# The tests of test_system, and what is required of the runs of each. One passes, passes with unit 1 refusing, and ends with an error
# of memory; another resumes.
TESTS = {
    "over_again_without_memory": {"passes": True},
    "purge_of_a_task_without_memory": {"judge": is_purge_test, "passes": True, "least": 3},
    "finish_without_memory": {"judge": is_resumed_test, "passes": True, "pairs": True},
}


def compiled():
    """Why there is no library that makes calls fail, or nothing."""
    compiler = os.environ.get("CC") or shutil.which("cc") or shutil.which("gcc")
    if not compiler:
        return "no C compiler (cc or gcc) for tests/refuse.c"
    os.makedirs(os.path.dirname(LIBRARY), exist_ok=True)
    made = f"{LIBRARY}.{os.getpid()}"
    ran = run([compiler, "-O2", "-Wall", "-shared", "-fPIC", "-o", made, f"{TOP}/tests/refuse.c"])
    if ran.status:
        return f"tests/refuse.c cannot be compiled: {ran.err.strip()[:200]}"
    os.replace(made, LIBRARY)
    return ""


def cases(setup):
    lacks = compiled()
    jobs = max(1, setup.jobs // 2)

    def case(name, judge, origin):
        def judged():
            if lacks:
                raise Skipped(lacks)
            return judge()

        return Case(name, judged, origin)

    def in_folder(call, *given):
        with tempfile.TemporaryDirectory() as work:
            return call(work, *given)

    def writes():
        return in_folder(lambda work: long_posts(setup, work).judged("run samples/timed small: writes", jobs))

    for name, required in reversed(TESTS.items()):
        plan = Plan([], **{"judge": is_test, "step": 1 if setup.is_long else STEP, **required})
        origin = f"the test {name} of test_system, and tests/groups/refusals.py"
        yield case(f"test_system {name}", lambda n=name, p=plan: tests("test_system", n, p, jobs), origin)
    for name, plan in programs(setup):
        origin = "the text stored for this script, docs/MANUAL.md, and tests/groups/refusals.py"
        yield case(name, lambda n=name, p=plan: p.judged(n, jobs), origin)
    for meets in MEETS:
        for kind in "growth", "lasting":
            judge = lambda m=meets, k=kind: in_folder(full_traces, setup, m, k, jobs)
            yield case(f"full traces, {meets}: {kind}", judge, "docs/SPECIFICATION.md, chapters 4 and 6")
    yield case("controls of full traces", lambda: in_folder(controls, setup, jobs), "docs/MANUAL.md")
    for words, script, status, text in package_words(setup):
        name = f"{' '.join(words)} {os.path.relpath(script, TOP)}: memory at lines"
        yield Case(name, lambda it=(setup.is_long, words, script, status, text): lacks_memory_at_lines(*it), "docs/MANUAL.md")
    yield case("run samples/timed small: writes", writes, "tests/groups/refusals.py, by docs/MANUAL.md")
