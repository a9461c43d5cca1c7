"""Mutants: edits that a contract or a test rejects, each tried on a copy of its crate over kept work.

A mutant is a file tests/mutants/CRATE/NAME.edit in the form that tests/edit_form.py has, whose first line says what rejects it:

    rejected by: check                 `rt check` of the crate does not prove it
    rejected by: test CRATE NAME       the test of that crate fails; nothing is proved, as by `rt try --test`
    rejected by: run GROUP CASE ..     the cases of tests/run with these words in their names fail on a program with the edit, and
                                       pass on one with none; both are built with nothing proved, as by `./excp --try`
                                       (of the groups costs and refusals without AddressSanitizer)

Kept work is what `rt check` or `rt lib` leaves in crates/CRATE/out. If a crate has none, as after `rt ci` in a new clone,
the crate is proved first. The crates below have to be built by `rt lib`.

One check tries several mutants, each in the body of another function. The proof of a function reads the body of no other, so
a complaint at a place inside the function rejects its mutant. tests/batches.py has the rules. A mutant that no such complaint
rejects is tried alone, and only that decides.

Beside them, a number is changed in each theorem by computation: tests/worked.py says how.

Each mutant that is rejected is a line of a table: crate, mutant, what rejects it, seconds, and for a check where. Any other
fails: as NOT REJECTED if it survives, as BAD EDIT if it cannot be read, applied or compiled, and as NOT TRIED if its check or its
build was killed or took too long, or its case fails with no edit too. tests/edits has the rules for the files, which
`tests/run documents` checks.
"""

import glob
import importlib.machinery
import importlib.util
import os
import re
import shutil
import signal
import subprocess
import sys
import tempfile
import time

import batches
import worked
from edit_form import read_edit
from harness import TOP, Case, Failed, Ran, decoded, read, require, run

MUTANTS = f"{TOP}/tests/mutants"

# The most seconds that a build with nothing proved may take.
SECONDS = 900

# The seconds that a build has to end once it is told to.
GRACE = 10

# The statuses of a process that was killed, of a shell whose child was, and of `tools/prove.py try` whose build was.
KILLED = (-9, 137)
BUILD_KILLED = (*KILLED, 6)

# The most characters of what a check says, in a line of the table.
SHOWN = 90

# What a line of the table says of a test or a case that takes too long: on a busy machine it may be slow alone.
ENDLESS = "it does not end"

# The unproved builds: their folders of out/, and the words for tools/prove.py. Cases of costs need the plain one, since under
# AddressSanitizer their bounds are too slow or too wide, and those of refusals, since it has an allocator of its own.
BUILDS = {"tried": ["try"], "plain": ["try", "plain"]}
PLAIN = {"costs": "plain", "refusals": "plain"}

# What a worker keeps of a crate from one mutant to the next: the copy of its kept work, and what was rejected side by side.
KEPT = {}
REJECTED = {}

# The cases that passed with no edit.
PASSED = set()


def loaded():
    """The kit's own `rt`, which tells a rejected edit from one that cannot be read."""
    file = os.path.realpath(shutil.which("rt"))
    loader = importlib.machinery.SourceFileLoader("rt", file)
    made = importlib.util.module_from_spec(importlib.util.spec_from_loader("rt", loader))
    before = sys.dont_write_bytecode
    loader.exec_module(made)
    sys.dont_write_bytecode = before
    # the kit reads no functions and patterns
    made.read_edit = read_edit
    return made


def crate_of(rt, name):
    """The crate with this name, whose libraries below are built."""
    crate = next((it for it in rt.rtlib.crates_below(f"{TOP}/crates/{name}") if it.name == name), None)
    require(crate, f"crates.txt names no crate {name}")
    lacking = [it.name for it in crate.below() if not it.is_built()]
    require(not lacking, f"not built from these sources: {' '.join(lacking)}; `rt lib` in their folders builds them")
    return crate


def kept_work(rt, crate):
    """A copy of the work that the crate's out/ keeps, over which the crate is proved with nothing changed. If out/ keeps
    none, that proof makes it."""
    if crate.name not in KEPT:
        source = f"{crate.folder}/out/incremental"
        room = tempfile.TemporaryDirectory(prefix="mutants-")
        if os.path.isdir(source):
            subprocess.run(["cp", "-a", "--reflink=auto", source, f"{room.name}/kept"], check=True)
        else:
            os.mkdir(f"{room.name}/kept")
        require_proved(rt, crate, f"{room.name}/kept")
        KEPT[crate.name] = room
    return f"{KEPT[crate.name].name}/kept"


def require_proved(rt, crate, kept):
    """The crate itself is proved over this work, so that nothing but an edit can be rejected over it."""
    ran = rt.checked(crate, {}, ["--jobs", "1"], kept)
    last = ran.stdout.rstrip("\n").rpartition("\n")[2]
    require(ran.returncode == 0, f"crates/{crate.name} with no edit is not proved over the copied work: {last[:300]}")


def rejected_by_check(name, edit, edits):
    """The check of the crate does not prove it: together with others of these edits, or alone."""
    rt = loaded()
    crate = crate_of(rt, name)
    kept = kept_work(rt, crate)
    if name not in REJECTED:
        REJECTED[name] = batches.rejected(rt, crate, edits, kept)
    if edit in REJECTED[name]:
        seconds, where = REJECTED[name][edit]
        return seconds, where[:SHOWN]
    begun = time.monotonic()
    kind, text = rt.must_fail(crate, edit, ["--jobs", "1"], kept)
    # some kits say how it is refused, others that it is
    if kind not in {True, *(getattr(rt, it, True) for it in ("REFUSED", "AT_LIMIT"))}:
        raise Failed(text.partition(": ")[2])
    return time.monotonic() - begun, text.partition("as it must be")[2].lstrip(": ")[:SHOWN]


def rejected_by_test(name, edit, tests, test):
    """The test of a crate of tests fails with the edit."""
    begun = time.monotonic()
    texts, why = read_edit(edit, f"{TOP}/crates/{name}")
    require(not why, f"BAD EDIT: {why}")
    with tempfile.TemporaryDirectory(prefix="mutants-") as room:
        run(["git", "init", "-q", room])
        for file in ("crates.txt", "HANDLES"):
            shutil.copy(f"{TOP}/{file}", room)
        shutil.copytree(f"{TOP}/crates", f"{room}/crates", ignore=shutil.ignore_patterns("out", "must-fail"))
        for path, text in texts.items():
            with open(f"{room}/crates/{name}/{path}", "w", encoding="utf-8") as it:
                it.write(text)
        ran = built_by(["rt", "try", "--test", "--", test], cwd=f"{room}/crates/{tests}")
    said = ran.out + ran.err
    require_ended(ran, f"the build of {tests}", KILLED)
    has_run = re.search(rf"^test (\S+::)?{re.escape(test)} \.\.\. ", said, re.M)
    is_told = re.search(r"\berror[\[:]", said)
    require(has_run or is_told, f"NOT TRIED: {tests} ended with no error and no test, as if it was killed: run this again", ran)
    require(has_run, f"BAD EDIT: {test} of {tests} did not run", ran)
    require(re.search(rf"^test (\S+::)?{re.escape(test)} \.\.\. FAILED", said, re.M), f"NOT REJECTED: {test} of {tests} passes",
            ran)
    return time.monotonic() - begun, ENDLESS if "no-answer: the program did not end" in said else ""


def rejected_by_run(name, edit, group, case):
    """The cases pass on the program that is built with no edit, and fail on the one with the edit."""
    begun = time.monotonic()
    texts, why = read_edit(edit, f"{TOP}/crates/{name}")
    require(not why, f"BAD EDIT: {why}")
    way = PLAIN.get(group, "tried")
    words = [f"{TOP}/tests/run", group, "--case", case, "--jobs", "1", "--program"]
    if (group, case) not in PASSED:
        built = built_by(["python3", f"{TOP}/tools/prove.py", *BUILDS[way]])
        require_ended(built, "the build of the programs with no edit")
        require(built.status == 0, "NOT TRIED: the programs with no edit are not built", built)
        before = run([*words, f"{TOP}/out/{way}/excp_job"], timeout=SECONDS, stdin=subprocess.DEVNULL)
        passes = before.status == 0 and re.search(r"^[1-9]\d* passed, 0 failed", before.out, re.M)
        require(passes, f"NOT TRIED: {group}: {case}: does not pass with no edit", before)
        PASSED.add((group, case))
    with tempfile.TemporaryDirectory(prefix="mutants-") as room:
        for file in ("crates.txt", "HANDLES"):
            shutil.copy(f"{TOP}/{file}", room)
        for folder in ("crates", "python", "tools"):
            shutil.copytree(f"{TOP}/{folder}", f"{room}/{folder}", ignore=shutil.ignore_patterns("out", "must-fail"))
        # a program that the edit does not concern is not built again
        shutil.copytree(f"{TOP}/out/{way}", f"{room}/out/{way}")
        for path, text in texts.items():
            with open(f"{room}/crates/{name}/{path}", "w", encoding="utf-8") as it:
                it.write(text)
        built = built_by(["python3", f"{room}/tools/prove.py", *BUILDS[way]])
        require_ended(built, "the build of the programs with it")
        require(built.status == 0, "BAD EDIT: the programs with it are not built", built)
        after = run([*words, f"{room}/out/{way}/excp_job"], timeout=SECONDS, stdin=subprocess.DEVNULL)
    require(after.status == 1 and f"FAILED: {group}: " in after.out, f"NOT REJECTED: {group}: {case}: passes or is skipped", after)
    return time.monotonic() - begun, ENDLESS if "it ran for more than" in after.out else ""


def built_by(words, **how):
    """A build. If it takes too long, it is told to end, and what is left of its processes is killed."""
    how = {"stdin": subprocess.DEVNULL, "stdout": subprocess.PIPE, "stderr": subprocess.PIPE, "start_new_session": True, **how}
    with subprocess.Popen(words, **how) as it:
        for seconds, ends in ((SECONDS, signal.SIGTERM), (GRACE, signal.SIGKILL), (None, None)):
            try:
                out, err = it.communicate(timeout=seconds)
                break
            except subprocess.TimeoutExpired:
                os.killpg(it.pid, ends)
        status = it.returncode if seconds == SECONDS else f"none: it ran for more than {SECONDS} seconds"
        return Ran(words, status, decoded(out), decoded(err))


def require_ended(built, what, killed=BUILD_KILLED):
    """A build was not killed, and did not take too long: else nothing is known of its mutant."""
    is_late = isinstance(built.status, str)
    how = "took too long" if is_late else "was killed, most likely for memory"
    require(not is_late and built.status not in killed, f"NOT TRIED: {what} {how}: run this again", built)


def tried(name, mutant, by, judge):
    """The line of the table for a mutant that the judge finds rejected: its seconds are those of the mutant alone, or its
    share of a check of several."""
    seconds, where = judge()
    return f"{name:15} {mutant:38} {by:50} {seconds:5.0f} s  {where}".rstrip()


def numbers_rejected(name):
    """The line of the table for the theorems by computation of a crate, of which the check rejects each changed number."""
    rt = loaded()
    crate = crate_of(rt, name)
    kept = kept_work(rt, crate)
    begun = time.monotonic()
    counts = [
        worked.judged(read(f"{crate.folder}/{path}"), path,
                      lambda text, p=path: rt.checked(crate, {p: text}, ["--jobs", "1"], kept))
        for path in worked.files_of(crate.folder)
    ]
    theorems, changes = map(sum, zip(*counts))
    where = f"{changes} changes in {theorems} theorems"
    return f"{name:15} {'numbers of theorems':38} {'check':50} {time.monotonic() - begun:5.0f} s  {where}"


def still_proved(name):
    """The crate is proved over the work that its mutants left, so each of them was rejected for its edit alone."""
    rt = loaded()
    crate = crate_of(rt, name)
    room = KEPT.get(name)
    require(room, f"no mutant of crates/{name} was tried over kept work")
    require_proved(rt, crate, f"{room.name}/kept")
    KEPT.pop(name).cleanup()


def is_wanted(name, mutant, words):
    """The words of the call name this mutant: by its name, its crate, or CRATE/NAME. No words name all."""
    return not words or name in words or mutant in words or f"{name}/{mutant}" in words


def cases_of(name, setup):
    """The cases of a crate, and the names of its mutants."""
    known = set()
    by_check, with_numbers = [], False
    for edit in sorted(glob.glob(f"{MUTANTS}/{name}/*.edit")):
        mutant = os.path.basename(edit).removesuffix(".edit")
        known |= {mutant, f"{name}/{mutant}"}
        if not is_wanted(name, mutant, setup.names):
            continue
        with open(edit, encoding="utf-8") as it:
            first = it.readline().split()
        origin = f"{os.path.relpath(edit, TOP)}, line 1"
        by = " ".join(first[2:])
        chain = ""
        if first == ["rejected", "by:", "check"]:
            by_check.append(edit)
            chain = name
            judge = lambda n=name, e=edit: rejected_by_check(n, e, by_check)
        elif first[:3] == ["rejected", "by:", "test"] and len(first) == 5:
            judge = lambda n=name, e=edit, f=first: rejected_by_test(n, e, f[3], f[4])
        elif first[:3] == ["rejected", "by:", "run"] and len(first) > 4:
            case = " ".join(first[4:])
            judge = lambda n=name, e=edit, g=first[3], c=case: rejected_by_run(n, e, g, c)
        else:
            what = "BAD EDIT: line 1 is no `rejected by: check`, `test CRATE NAME` or `run GROUP CASE ..`"
            judge = lambda w=what: require(False, w)
        yield Case(f"{name} {mutant}", lambda n=name, m=mutant, b=by, j=judge: tried(n, m, b, j), origin, chain)
    if worked.files_of(f"{TOP}/crates/{name}"):
        known.add(f"{name}/numbers")
        if is_wanted(name, "numbers", setup.names):
            with_numbers = True
            yield Case(f"{name} numbers", lambda n=name: numbers_rejected(n), "tests/worked.py", name)
    if by_check or with_numbers:
        yield Case(f"{name}: proved after its mutants", lambda n=name: still_proved(n), "tests/groups/mutants.py", name)
    return known


def cases(setup):
    known = {"numbers"}
    for folder in sorted(glob.glob(f"{TOP}/crates/*/")):
        name = os.path.basename(folder.rstrip("/"))
        of_crate = yield from cases_of(name, setup)
        known |= of_crate | ({name} if of_crate else set())
    for word in setup.names:
        if word not in known:
            yield Case(word, lambda w=word: require(False, f"no mutant and no crate with mutants is called {w}"), "tests/run")
