"""What all groups of tests share: how they run a program, compare what it prints, count, and show a failure.

A group is a module of tests/groups. Its function `cases(setup)` gives its cases; each is judged by a call that returns
nothing or a note to print, or raises `Failed` or `Skipped`.
"""

import concurrent.futures
import difflib
import importlib
import multiprocessing
import os
import pathlib
import re
import shlex
import signal
import subprocess
import sys
import tempfile
import time
import traceback
from dataclasses import dataclass, field

TOP = os.path.dirname(os.path.dirname(os.path.realpath(__file__)))

# The package of the command, for groups that ask it without a process.
sys.path.insert(0, f"{TOP}/python")

CASES = f"{TOP}/tests/cases"
SAMPLES = f"{TOP}/samples"

# The library that carries out scenarios: that of tools/library.py.
LIBRARY = f"{TOP}/out/library/libexcp.so"

# The most seconds that one run of a program may take.
SECONDS = 60

# The most lines of a diff that a failure shows, and of a text that is not compared.
LINES = 60
FEW = 12


class Failed(Exception):
    """A case that failed: what is wrong, and, if a run showed it, its command, and the expected and the actual text."""

    def __init__(self, what, ran=None, expected=None, actual=None):
        super().__init__(what)
        self.ran, self.expected, self.actual = ran, expected, actual


class Skipped(Exception):
    """A case that cannot be judged, because a tool is missing."""


@dataclass
class Case:
    """A case: its name, the call that judges it, and where its expectation comes from. Cases of one chain are judged one
    after another, by one process."""

    name: str
    judge: object
    origin: str
    chain: str = ""


@dataclass
class Ran:
    """A run of a program: its words, its input or the file that it read, its exit status, and what it wrote."""

    words: list
    status: object
    out: str = ""
    err: str = ""
    input: object = None
    file: str = ""

    def text(self):
        """The status and both outputs as one text."""
        return outcome(self.status, self.out, self.err)

    def command(self):
        words = [os.fsdecode(it) for it in self.words]
        words = " ".join(shlex.quote(os.path.relpath(it, TOP) if it.startswith(TOP) else it) for it in words)
        return f"{words} < {self.file}" if self.file else words


@dataclass
class Setup:
    """What a run of the tests is given: the program excp_job, whether the long form is wanted, and how many runs go side by
    side."""

    program: str
    is_long: bool = False
    jobs: int = 1
    names: list = field(default_factory=list)

    @property
    def tools(self):
        """The program excp_tools, which carries out `report`, `step` and `outcomes`: beside excp_job, or as `rt ci` built it."""
        beside = f"{os.path.dirname(self.program)}/excp_tools"
        return beside if os.path.exists(beside) else f"{TOP}/crates/excp_tools/out/excp_tools"

    def command(self, *words):
        """These words, after what has the first: excp_job, or the package python/excp."""
        if words[:1] == ("run",):
            return [self.program, *words]
        return [sys.executable, f"{TOP}/tests/package.py", self.tools, *words]

    def skip_unproved(self):
        """Skips a case that an unproved program fails for its AddressSanitizer, which takes time and memory."""
        with open(self.program, "rb") as it:
            if b"AddressSanitizer" in it.read():
                raise Skipped("an unproved program has AddressSanitizer, and is too slow or too large for it")

    def run(self, *words, script=None, file="", **how):
        """Runs what has the first word on a script, or on the script in a file: in the folder `cwd`, with the descriptors `stdin`
        and `stdout`, for as many seconds as `timeout`."""
        if file:
            script = read(file)
        name = os.path.relpath(file, TOP) if file else ""
        if words[:1] == ("run",):
            return run(self.command(*words), script or "", name, **how)
        return run_package(self.command(*words), (self.program, self.tools), words, script or "", name, **how)


def run(words, script="", file="", **how):
    """Runs a program with this text as its input. The status is a text if the run did not end by itself."""
    if "stdin" not in how:
        how["input"] = encoded(script)
    how = {"stdout": subprocess.PIPE, "stderr": subprocess.PIPE, "timeout": SECONDS, **how}
    try:
        ran = subprocess.run(words, **how)
    except subprocess.TimeoutExpired as error:
        status = f"none: it ran for more than {how['timeout']} seconds"
        return Ran(words, status, decoded(error.stdout), decoded(error.stderr), script, file)
    except OSError as error:
        return Ran(words, f"none: {error}", "", "", script, file)
    return Ran(words, ran.returncode, decoded(ran.stdout), decoded(ran.stderr), script, file)


def package_main(job, tools):
    """What carries out words of the package with these programs, whose modules this process imports once, before it has
    children."""
    from excp.command.main import main
    from excp.command.words import WORDS

    for word in WORDS.values():
        word.load()
    for name in "page_form", "site_files", "stepped", "told_outcomes", "whole_script":
        importlib.import_module(f"excp.command.{name}")
    programs = {"excp_job": job, "excp_tools": tools, "libexcp.so": LIBRARY}
    return lambda words: main(words, lambda name: pathlib.Path(programs[name]))


def run_package(command, programs, words, script="", file="", cwd=None, stdin=None, stdout=None, timeout=SECONDS):
    """Runs a word of the package as `run` does, but in a child of this process: Python need not start for each of many."""
    main = package_main(*map(os.path.abspath, programs))
    with tempfile.TemporaryFile() as given, tempfile.TemporaryFile() as out, tempfile.TemporaryFile() as err:
        given.write(encoded(script))
        given.seek(0)
        streams = given.fileno() if stdin is None else stdin, out.fileno() if stdout is None else stdout, err.fileno()
        child = os.fork()
        if child == 0:
            for number, stream in enumerate(streams):
                os.dup2(stream, number)
            signal.alarm(timeout)
            status = 1
            try:
                os.chdir(cwd or os.curdir)
                status = main([os.fsdecode(it) for it in words])
            except BaseException:
                traceback.print_exc(file=open(2, "w", closefd=False))
            finally:
                os._exit(status)
        status = os.waitstatus_to_exitcode(os.waitpid(child, 0)[1])
        if status == -signal.SIGALRM:
            status = f"none: it ran for more than {timeout} seconds"
        texts = [os.pread(it.fileno(), os.fstat(it.fileno()).st_size, 0) for it in (out, err)]
    return Ran(command, status, decoded(texts[0]), decoded(texts[1]), script, file)


def encoded(text):
    return text if isinstance(text, bytes) else text.encode("utf-8", "surrogateescape")


def decoded(text):
    return (text or b"").decode("utf-8", "surrogateescape")


def read(file):
    """The text of a file, with its line ends as they are."""
    with open(file, encoding="utf-8", errors="surrogateescape", newline="") as it:
        return it.read()


def outcome(status, out="", err=""):
    """A status and two outputs as one text, which a failure compares line by line."""
    parts = [f"status {status}\n"]
    for name, text in (("standard output", out), ("standard error", err)):
        if text:
            parts.append(f"{name}:\n{text}" + ("" if text.endswith("\n") else "\n(no line feed at the end)\n"))
    return "".join(parts)


def expect(ran, *ways):
    """Fails if a run ended in none of these ways, each a status, an output and a standard error."""
    if (ran.status, ran.out, ran.err) not in [(*way, "", "")[:3] for way in ways]:
        others = "" if len(ways) == 1 else f" (and {len(ways) - 1} other ways are right)"
        raise Failed(f"another outcome{others}", ran, outcome(*ways[0]), ran.text())


def expect_text(what, ran, expected, actual):
    """Fails if two texts differ."""
    if expected != actual:
        raise Failed(what, ran, expected, actual)


def without_states(text):
    """A text without the numbers of states that a search went through, which no rule gives."""
    return re.sub(r"\b\d+ states\b", "N states", text)


def require(holds, what, ran=None):
    """Fails with this text if something does not hold."""
    if not holds:
        raise Failed(what, ran, None, ran.text() if ran else None)


def multiple(file):
    """The cases of a file: a line `=== NAME`, a script, a line `---`, and what is to be printed. Gives name, script, what is
    to be printed, and the place of the case."""
    text, place = read(file), os.path.relpath(file, TOP)
    first, *parts = f"\n{text}".split("\n=== ")
    if first or not parts:
        raise SystemExit(f"{place}: line 1: a case begins with a line `=== NAME`")
    line = 1
    for part in parts:
        head, mark, wanted = f"{part.removesuffix(chr(10))}\n".partition("\n---\n")
        name, _, script = head.partition("\n")
        if not mark:
            raise SystemExit(f"{place}: line {line}: the case has no line `---`")
        yield name, f"{script}\n" if script else "", wanted, f"{place}, line {line}"
        line += part.count("\n") + 1


def files(folder, suffix):
    """The files of a folder of tests/cases with this suffix, in order."""
    return [f"{CASES}/{folder}/{it}" for it in sorted(os.listdir(f"{CASES}/{folder}")) if it.endswith(suffix)]


def side_by_side(call, items, jobs):
    """The results of a call for each item, several at a time."""
    with concurrent.futures.ThreadPoolExecutor(jobs) as pool:
        return list(pool.map(call, items))


# --- running and counting

# The cases of the group that runs: forked processes find them here.
CURRENT = []


def judged_in_turn(numbers):
    """The results of cases by their numbers."""
    return [judged(CURRENT[it]) for it in numbers]


def judged(case):
    """The result of a case: `passed`, `failed` or `skipped`, and what to print."""
    try:
        return "passed", case.judge() or ""
    except Skipped as error:
        return "skipped", str(error)
    except Failed as error:
        return "failed", shown(case, error)
    except Exception as error:  # a fault of the tests themselves, which must not end the run
        return "failed", f"  {type(error).__name__}: {error}\n  expected by: {case.origin}"


def cut(lines, most):
    """Lines, each of at most 200 characters, of which those past the most are left out."""
    short = [it[:200] for it in lines[:most]]
    return [*short, f"({len(lines) - most} lines more)"] if len(lines) > most else short


def shown(case, error):
    """A failure: what is wrong, the command, where the expectation comes from, and expected and actual text as a diff."""
    lines = [str(error)]
    if error.ran:
        lines.append(f"command: {error.ran.command()}")
        if error.ran.input and not error.ran.file:
            lines.append(f"input: {kept(case.name, error.ran.input)}")
    lines.append(f"expected by: {case.origin}")
    if error.expected is not None:
        both = [it.splitlines() for it in (error.expected, error.actual)]
        lines += cut([*difflib.unified_diff(*both, "expected", "actual", lineterm="", n=2)], LINES)
    elif error.actual is not None:
        lines += ["actual:", *cut(error.actual.splitlines(), FEW)]
    return "\n".join(f"  {it}" for it in lines).encode("utf-8", "backslashreplace").decode()


def kept(name, script):
    """Keeps the input of a run that failed, for a run by hand."""
    os.makedirs(f"{TOP}/out/failed", exist_ok=True)
    file = f"{TOP}/out/failed/{re.sub(r'[^A-Za-z0-9]+', '_', name)[:80]}.script"
    with open(file, "wb") as it:
        it.write(encoded(script))
    return os.path.relpath(file, TOP)


def run_cases(group, cases, jobs):
    """Runs the cases of a group, prints what failed, and returns how many passed, failed and were skipped."""
    count, begun = {"passed": 0, "failed": 0, "skipped": 0}, time.monotonic()
    CURRENT[:] = cases
    chains = {}
    for number, case in enumerate(cases):
        chains.setdefault(case.chain or number, []).append(number)
    # the longest chain first, so that none is left at the end
    chains = sorted(chains.values(), key=len, reverse=True)
    if jobs > 1 and len(chains) > 1:
        pool = concurrent.futures.ProcessPoolExecutor(jobs, mp_context=multiprocessing.get_context("fork"))
        with pool:
            count_results(group, chains, pool.map(judged_in_turn, chains), count)
    else:
        count_results(group, chains, ((judged(CURRENT[it]) for it in chain) for chain in chains), count)
    print(f"{group}: {summary(count)}, {time.monotonic() - begun:.1f} s", flush=True)
    return count


def count_results(group, chains, results, count):
    """Counts the results of the chains, and prints each failure and each note."""
    reasons = {}
    both = ((CURRENT[it], result) for chain, found in zip(chains, results) for it, result in zip(chain, found))
    for case, (result, text) in both:
        count[result] += 1
        if result == "failed":
            print(f"FAILED: {group}: {case.name}\n{text}", flush=True)
        elif result == "skipped":
            reasons[text] = reasons.get(text, 0) + 1
        elif text:
            print(f"{group}: {text}", flush=True)
    for reason, number in reasons.items():
        print(f"{group}: {number} skipped: {reason}", flush=True)


def summary(count):
    """The counts as the last line has them."""
    skipped = f", {count['skipped']} skipped" if count["skipped"] else ""
    return f"{count['passed']} passed, {count['failed']} failed{skipped}"
