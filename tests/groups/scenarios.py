"""Scenarios, event by event, with locks and without: what each event answers, each expectation changed in turn, and each
allocation made to fail. `step` carries them out on the library, which has neither locks nor rows; the program test_locked_steps
(crates/test_locked_steps) has both.

The files are tests/cases/scenarios/*.scenario and samples/scenarios/*.scenario, whose `expect` lines follow from
docs/SPECIFICATION.md, tests/cases/scenarios/*.findings, with scenarios that have faults and what is printed of them, and
tests/cases/scenarios/*.views, with what `step --trace --state` prints.
Scenarios that are made here are too long for a file, or too many.
"""

import os
import pty
import random
import re
import subprocess
import tempfile

from groups import random as at_random
from harness import CASES, SAMPLES, TOP, Case, Failed, Skipped, expect, files, multiple, read, require, run

FOLDER = f"{SAMPLES}/scenarios"

# What begins a line that is not answered, in the scenario that is driven through a pipe.
DECLARES = ("#", "tasks", "disk", "rec", "fault", "open", "area", "room", "expect")

# A disk with R1, an unrelated IOB with its ECB, and a program that reads R1: the seek address is that of the first track.
DISK = """disk 0 0 1 1 40
rec 0 0 0 1 - C1C2C3C4
open 0 out 18000000000000000000000000000001
"""
IOB = "4200000000001028 0000000000000000 0000103000000001 0000000000000000 0000000000000001 0000000000000000"
PROGRAM = "3100105040000005 0800103000000000 0600106000000004 0000000000000000 0000000001000000 0000000000000000 0000000000000000"
READ = f"area 0 001000 {IOB} {PROGRAM}\n"
EXCP = "excp {} 0 1 001000 0 001000 0"

# How a request is posted that read R1, that waited or came too late, and that was halted so many commands after its start.
ENDED = "7F 001048 0C00 0000 0000"
WAITED = "48 000000 0000 0000 0000"
HALTED = "48 001030 0C00 0000 0000", "48 001038 0C00 0000 0000", "48 001038 0C00 0000 0000"

# The requests of two tasks, in the order of their arrival, and how each is served.
REQUESTS = (0, 1), (1, 1), (0, 2), (1, 2)
AT_ONCE = "start 0", "run 0 16", "interrupt 0"
BY_COMMANDS = "start 0", "run 0 1", "run 0 1", "run 0 1", "interrupt 0"

# What meets them.
OTHERS = "purge 0 0 1 quiesce", "purge 0 0 1 halt", "close 0 0 1"

# How many jobs at random there are, also in the long form, and how many are one case.
JOBS = 200
JOBS_LONG = 10000
BATCH = 25

# The commands of each kind of device: all other codes are rejected, but those with low bits 0000 and 1000, which are no
# commands.
COMMANDS = {
    "disk 0 0 1 1 40\nopen 0 out 18000000000000000000000000000001": "03 04 05 06 07 0D 0E 12 1D 1E 1F 29 31",
    "tape 0 0 40\nopen 0 out": "01 02 03 04 07 0C 1F 27 2F 37 3F",
    "printer 0 0 10 2\nopen 0 out": "01 03 04 09 0B 11 13 19 1B 89 8B",
}


def scenarios():
    """The files of scenarios."""
    taught = [f"{FOLDER}/{it}" for it in sorted(os.listdir(FOLDER)) if it.endswith(".scenario")] if os.path.isdir(FOLDER) else []
    return files("scenarios", ".scenario") + taught


def expectations(text):
    """The number and the text of each line that expects something."""
    return [(at, line) for at, line in enumerate(text.split("\n"), 1) if line.startswith("expect ")]


def test_locked_steps(setup):
    """The program with locks and rows: beside the one that is tested, or as `rt ci` built it."""
    for path in f"{os.path.dirname(setup.program)}/test_locked_steps", f"{TOP}/crates/test_locked_steps/out/test_locked_steps":
        if os.access(path, os.X_OK):
            return path
    raise Skipped("test_locked_steps is not built: `rt run` in crates/test_locked_steps")


def carried_out(setup, text, *views):
    """Carries a scenario out, with locks and without: both answer the same, also of the entries and the state of each unit after
    each event, if `views` are the words for that. Of a fault the program with locks says line and name alone."""
    ran, locked = setup.run("step", *views, script=text), run([test_locked_steps(setup), *views[:1]], text)
    said = [it for it in ran.err.splitlines(True) if "; answered: " in it]
    for it in ran.err.splitlines()[len(said) :][:1]:
        line, name = re.match("<stdin>:([0-9]*):? ([A-Za-z]+): ", it).groups()
        said.append(f"excp_job: line {line or 0}: {name}\n")
    if (ran.status, ran.out, "".join(said)) != (locked.status, locked.out, locked.err):
        raise Failed("with locks it prints something else", locked, ran.text(), locked.text())
    return ran


def looks_the_same(setup, text):
    """The entries and the state of each unit are the same after each event, too."""
    carried_out(setup, text, "--trace", "--state")


def is_accepted(setup, text, place=""):
    """`check --scenario` finds no fault."""
    checked = setup.run("check", "--scenario", script=text)
    checked.file = place
    expect(checked, (0, "", ""))


def is_met(setup, text, place=""):
    """Each expectation of a scenario is met."""
    require(expectations(text), f"{place or 'the scenario'} expects nothing")
    ran = carried_out(setup, text)
    ran.file = place
    if (ran.status, ran.err) != (0, ""):
        raise Failed("an expectation is not met", ran, None, ran.err or ran.text())


def is_missed(setup, file):
    """A scenario fails at each expectation that is changed, and at no other."""
    lines = read(file).split("\n")
    for at, line in expectations("\n".join(lines)):
        ran = setup.run("step", script="\n".join([*lines[: at - 1], f"{line}?", *lines[at:]]))
        texts = f"expected: {line.removeprefix('expect ')}?; answered: {line.removeprefix('expect ')}"
        if (ran.status, ran.err) != (1, f"<stdin>:{at}: {texts}\n"):
            raise Failed(f"the changed line {at} is not what fails", ran, None, ran.text())


def is_rejected(setup, script, wanted):
    """A scenario fails, and these faults and failed expectations are printed."""
    ran = carried_out(setup, script)
    if (ran.status, ran.err) != (1, wanted):
        raise Failed("another outcome", ran, wanted, ran.err)
    faults = [it for it in wanted.splitlines(True) if "expected: " not in it]
    checked = setup.run("check", "--scenario", script=script)
    if faults and f"{checked.out.partition(chr(10))[0]}\n" != faults[0]:
        raise Failed("`check --scenario` prints another fault first", checked, faults[0], checked.out)
    require(checked.status == (1 if faults else 0), "`check --scenario` ends with another status", checked)


def shows(setup, script, wanted):
    """With --trace and --state a scenario prints this."""
    ran = setup.run("step", "--trace", "--state", script=script)
    if (ran.status, ran.out, ran.err) != (0, wanted, ""):
        raise Failed("another view", ran, wanted, ran.out)


def answers_at_once(setup, file):
    """Each event is answered before the next line is written."""
    with subprocess.Popen(setup.command("step"), stdin=subprocess.PIPE, stdout=subprocess.PIPE, text=True) as it:
        for line in read(file).splitlines():
            it.stdin.write(f"{line}\n")
            it.stdin.flush()
            words = line.split()
            if words and words[0] not in DECLARES:
                answer = it.stdout.readline()
                require(answer.startswith(f"{' '.join(words)}: "), f"{line!r} is answered by {answer!r}")
        it.stdin.close()
        require(it.stdout.read() == "", "something is printed that no event answers")
    require(it.returncode == 0, f"status {it.returncode}")


def talks_at_a_terminal(setup):
    """At a terminal a line at fault does not end the dialog, answers have words, and a request that no unit took is named."""
    excp, request = EXCP.format(0), "request {} of task 0 to unit 0"
    typed = ["tasks 1", DISK + READ + "taek 0", excp, "take 0", "take 9", "start 0", "run 0 16", "interrupt 0", excp, ""]
    due = [f"{excp}: Accepted 0 0 1  # {request.format(1)}", f"take 0: Took 0 0 1  # {request.format(1)}",
           f"start 0: Started 0 0 1  # {request.format(1)}", "run 0 16: Ran 3 pending",
           f"interrupt 0: Ended 0 0 1 7F  # {request.format(1)}: ended", f"{excp}: Accepted 0 0 2  # {request.format(2)}", ""]
    terminal, end = pty.openpty()
    with subprocess.Popen(setup.command("step"), stdin=end, stdout=subprocess.PIPE, stderr=subprocess.PIPE, text=True) as it:
        os.close(end)
        os.write(terminal, "\n".join(typed).encode() + b"\x04")
        out, err = it.communicate(timeout=60)
    os.close(terminal)
    require((it.returncode, out) == (0, "\n".join(due)), f"it prints {out!r}, with status {it.returncode}")
    faults = r"<stdin>:6: Words: [^\n]*'take'[^\n]*\n<stdin>:9: Name: [^\n]*\n"
    require(re.fullmatch(f"{faults}# {request.format(2)} was issued and never taken\n", err), f"standard error has {err!r}")


def names_what_is_left(setup):
    """At its end a scenario in a file names the requests that no unit took, on standard error alone; through a pipe none."""
    second = EXCP.replace("excp {} 0", "excp {} 1")
    issued = EXCP.format(1), EXCP.format(0), second.format(0), "take 0", EXCP.format(1), second.format(1)
    text = "\n".join(["tasks 2", f"{DISK}tape 1 0 40\nopen 1 out\n{READ}", *issued, "take 1", "take 0", "start 0", ""])
    due = "".join(f"# request {it} was issued and never taken\n" for it in ("2 of task 1 to unit 0", "1 of task 1 to unit 1"))
    piped = setup.run("step", script=text)
    require((piped.status, piped.err) == (0, "") and piped.out.endswith("start 0: Started 1 0 1\n"), "another end", piped)
    with tempfile.NamedTemporaryFile("w", suffix=".scenario") as file:
        file.write(text)
        file.flush()
        expect(setup.run("step", file.name), (0, piped.out, due))
        for form in "--json", "--html":
            ran = setup.run("step", form, file.name)
            require((ran.status, ran.err) == (0, due), f"another text with {form}", ran)
        file.write("finish\n")
        file.flush()
        ran = setup.run("step", file.name)
        require((ran.status, ran.err) == (0, ""), "a request is named that the end has taken", ran)


def runs_out_of_memory(setup, file, lacks, refusals):
    """With each allocation made to fail in turn, a scenario under locks prints all, or a part and that memory ran out."""
    setup.skip_unproved()
    if lacks:
        raise Skipped(lacks)
    words = [test_locked_steps(setup)]
    # the `expect` lines of the scenario judge this text
    plan = refusals.Plan(words, refusals.prints_a_part, file, run(words, read(file)).out)
    plan.judged(os.path.basename(words[0]), 1)


def with_full_output(setup, word):
    """A scenario, or the report of a script, whose output cannot be written."""
    with open("/dev/full", "wb") as full:
        ran = run(setup.command(word), "tasks 1\ndisk 0 0 1 1 40\n" + ("start 0\n" if word == "step" else ""), stdout=full)
        expect(ran, (1, "", "excp: output not written\n"))


# --- scenarios that are made


def disturbed(service, other, place):
    """Two tasks have two requests each: the events of their service, with a purge or a close before the one at a place."""
    events = [it for task, _ in REQUESTS for it in (EXCP.format(task), "take 0")] + [*service] * len(REQUESTS)
    arrived, served, into = min(place, 8) // 2, *divmod(max(0, place - 8), len(service))
    active = into > 0
    name = "{} 0 {}".format(*REQUESTS[served]) if active else ""
    word = ("Closing", "Closed") if other.startswith("close") else ("Active", "Quiet")
    answer = f"expect {word[0]} {name}" if active else f"expect {word[1]}"
    text = ["tasks 2", DISK + READ + "room intake 4\nroom post 4\nroom book 0 4", *events[:place], other, answer, *events[place:],
            "settle 0", "expect Settled"]
    ends = [ENDED] * served + [WAITED] * (4 - served)
    if active:
        # before the interruption the program has ended, and a halt comes too late
        ends[served] = HALTED[into - 1] if "halt" in other and into < len(service) - 1 else ENDED
    if not other.startswith("close"):
        ends[arrived:] = [ENDED] * (4 - arrived)
    # in the order of their posts: what had ended, what waited, what was active, and what came later
    waiting, came_later = range(served + active, arrived), range(arrived, 4)
    order = [*range(served), *waiting, *([served] if active else []), *came_later]
    left = sorted(((*REQUESTS[it], ends[it]) for it in order), key=lambda it: it[0])
    posts = [f"expect post {task} 0 {number} {end} -" for task, number, end in left]
    return "\n".join([*text, "finish", "expect Finished 4", *posts, ""])


def with_events(chance, lines):
    """A job of the group random as a scenario: some rooms, and events of units and tasks at random between its lines."""
    rooms = "room intake {}", "room post {}", "room book 0 {}", "room book 1 {}"
    yield from (it.format(chance.randint(1, 6)) for it in rooms if chance.random() < 0.3)
    for line in lines:
        if not line.startswith("wait "):
            yield line
        for _ in range(chance.randrange(9)):
            unit, most = chance.randrange(3), chance.choice([1, 2, 3, 64, 1000])
            of_unit = f"take {unit}", f"start {unit}", f"run {unit} {most}", f"interrupt {unit}", f"deliver {unit}"
            yield chance.choice([*of_unit, *of_unit, f"collect {chance.randrange(2)}", f"serve {unit}", f"settle {unit}"])
    yield "finish"


def at_random_with_locks(setup, seed):
    """Jobs at random, as scenarios with events at random between their lines, are answered alike with locks and without."""
    chance = random.Random(seed)
    for _ in range(BATCH):
        job = at_random.job_at_random(chance, at_random.STEPS)
        looks_the_same(setup, "\n".join([*at_random.SET_UP, *with_events(chance, job.lines), ""]))


def most_dcbs():
    """A unit opens 65,535 DCBs, and no further one."""
    return "tasks 1\ntape 0 0 4\nstart 0\n" + "open 0 in\n" * 65535 + "expect Opened 65535\nopen 0 in\nexpect TooManyDcbs\n"


def room_for(count):
    """Rows and a book take as many requests as they have room for, and no more; what was handed back or held, or is out, goes
    on once there is room."""
    rooms = f"room intake {count}\nroom post {count}\nroom book 0 {count}\n"
    issued = f"{EXCP.format(0)}\n" * count + f"expect Accepted 0 0 {count}\n{EXCP.format(0)}\nexpect Full\n"
    taken = "take 0\n" * count + f"expect Took 0 0 {count}\n"
    taken += f"{EXCP.format(0)}\nexpect Accepted 0 0 {count + 1}\ntake 0\nexpect Held\n"
    served = "start 0\nexpect Started 0 0 1\nrun 0 16\ninterrupt 0\nexpect Ended 0 0 1 7F\ntake 0\nexpect Held\ndeliver 0\n"
    purged = f"take 0\nexpect Took 0 0 {count + 1}\npurge 0 0 1 quiesce\nexpect Quiet\n"
    out = "deliver 0\n" * (count - 1) + f"expect Delivered 0 0 {count}\ndeliver 0\nexpect Full 0 0 {count + 1}\n"
    back = f"collect 0\nexpect post 0 0 1 {ENDED} -\ndeliver 0\nexpect Delivered 0 0 {count + 1}\n"
    return "".join(["tasks 1\n", DISK, READ, rooms, issued, taken, served, purged, out, back])


def every_command(unit, commands):
    """Each code that is no command of a device is rejected, and moves no byte."""
    others = [it for it in range(256) if f"{it:02X}" not in commands.split()]
    areas = [f"area {at} 001000 {IOB} {it:02X}00100000000008" for at, it in enumerate(others)]
    text = ["tasks 1", unit, *areas]
    for at, it in enumerate(others):
        end = "41 001038 0020 0000 0000" if it % 8 == 0 and it % 16 in (0, 8) else "41 001038 0E00 0008 8000"
        text += [f"excp 0 0 1 001000 {at} 001000 0", "serve 0", "collect 0", f"expect post 0 0 {at + 1} {end} -"]
    return "\n".join([*text, ""])


def has_turns(setup):
    """A program of 256 commands is run in turns of 64 commands."""
    program = "0300000040000001 " * 255 + "0300000000000001"
    ran = setup.run("report", script=f"tasks 1\n{DISK}area 0 001000 {IOB} {program}\n{EXCP.format(0)}\n")
    runs = re.findall(r" ran \d+ commands.*$", ran.out, re.M)
    require((ran.status, ran.err, runs) == (0, "", [" ran 256 commands in 4 turns"]), "other turns", ran)


def made():
    """The names of the scenarios that are made, and a call that gives their texts."""
    for name, service in (("purge_or_close_before_each_call", AT_ONCE), ("purge_or_close_between_two_commands", BY_COMMANDS)):
        for other in OTHERS:
            yield f"{name}: {other}", lambda s=service, o=other: [disturbed(s, o, at) for at in range(8 + 4 * len(s))]
    yield "most_dcbs", lambda: [most_dcbs()]
    yield "rows_and_books_with_most_room", lambda: [room_for(it) for it in (2, 16000)]
    for unit, commands in COMMANDS.items():
        yield f"every_command: {unit.split()[0]}", lambda u=unit, c=commands: [every_command(u, c)]


def are_met(setup, give):
    """The expectations of each of some scenarios are met."""
    for text in give():
        is_met(setup, text)


def cases(setup):
    from groups import refusals  # which needs the harness alone, and is imported late since it compiles a library

    lacks = refusals.compiled()
    for file in scenarios():
        place, name = os.path.relpath(file, TOP), os.path.basename(file).removesuffix(".scenario")
        yield Case(name, lambda f=file, p=place: is_met(setup, read(f), p), f"{place}, by docs/SPECIFICATION.md")
        yield Case(f"{name}: entries and states", lambda f=file: looks_the_same(setup, read(f)), f"{place}, by docs/MANUAL.md")
        yield Case(f"{name}: check", lambda f=file, p=place: is_accepted(setup, read(f), p), f"{place}, by docs/MANUAL.md")
        yield Case(f"{name}: each expectation changed", lambda f=file: is_missed(setup, f), f"{place}, by docs/MANUAL.md")
        judge = lambda f=file: runs_out_of_memory(setup, f, lacks, refusals)
        yield Case(f"{name}: each allocation of test_locked_steps", judge, f"{place}, by docs/MANUAL.md")
    origin = "tests/groups/scenarios.py, by docs/SPECIFICATION.md"
    for name, give in made():
        yield Case(name, lambda g=give: are_met(setup, g), origin)
    for seed in range((JOBS_LONG if setup.is_long else JOBS) // BATCH):
        yield Case(f"{BATCH} jobs at random: {seed}", lambda s=seed: at_random_with_locks(setup, s),
                   "the units under locks, by docs/MANUAL.md")
    yield Case("turns_of_sixty_four_commands", lambda: has_turns(setup), origin)
    for word in "step", "report":
        yield Case(f"output_is_not_written: {word}", lambda w=word: with_full_output(setup, w), "docs/MANUAL.md")
    for file in files("scenarios", ".findings"):
        for name, script, wanted, place in multiple(file):
            judge = lambda s=script, w=wanted: is_rejected(setup, s, w)
            yield Case(name, judge, f"{place}, by docs/MANUAL.md")
    for file in files("scenarios", ".views"):
        for name, script, wanted, place in multiple(file):
            yield Case(name, lambda s=script, w=wanted: shows(setup, s, w), f"{place}, by docs/MANUAL.md")
    file = f"{CASES}/scenarios/close_lets_active_retry.scenario"  # each of its events is answered by one line
    yield Case("at a terminal", lambda: talks_at_a_terminal(setup), "docs/MANUAL.md")
    yield Case("what is left", lambda: names_what_is_left(setup), "docs/MANUAL.md")
    yield Case("through a pipe", lambda: answers_at_once(setup, file), "docs/MANUAL.md")
