"""Reports as JSON (docs/REPORT.md): of every sample, every script of tests/cases that runs, every stored history, and every
scenario.

tests/reports.py judges each without the program: its form, by the example of docs/REPORT.md; the posts, which are those that are
stored; what its parts say of one another and of the script; the cause of each post, by the rules of docs/SPECIFICATION.md; and the
text report that it comes to, which is the stored one if its history is. tests/places.py judges where on its medium each command
was, in the JSON and in the text with steps. tests/scenario_reports.py judges that of a scenario by what
`step --trace` prints, too.
"""

import glob
import json
import os
import random
import re
import signal
import struct
import sys
import tempfile

import commands
import formats
import places
import reports
import scenario_reports
import states
from groups import random as at_random
from groups.samples import without_history
from groups.scenarios import AT_ONCE, BY_COMMANDS, OTHERS, disturbed, every_command, looks_the_same, scenarios
from groups.scenarios import COMMANDS as COMMANDS_OF_UNITS
from harness import SAMPLES, TOP, Case, Failed, expect, expect_text, files, multiple, read, require, run

# How many jobs and scenarios at random there are, also in the long form, and how many are one case.
JOBS = 100
JOBS_LONG = 2000
BATCH = 25

# How many commands of each unit of a text with steps are judged.
MOST_STEPS = "1000"

# The line of a place in a text with steps.
PLACE = re.compile("#           (cylinder|no record found on|item|page) ")

# How many events a scenario at random has.
EVENTS = 150

HALT = f"{SAMPLES}/scenarios/halt-an-active-request.scenario"

ORIGIN = "docs/REPORT.md, docs/SPECIFICATION.md and docs/MANUAL.md"

def printed_bytes():
    """A script that prints each byte."""
    iob = "42000000" "00001028" "0000000000000000" "00001030" "00000001" + "00" * 16
    ccws = "0900104060000080" "090010C020000080"
    area = iob + "00" * 8 + ccws + bytes(range(256)).hex().upper()
    return f"tasks 1\nprinter 0 0 10 1\nopen 0 out\narea 0 001000 {area}\nexcp 0 0 1 001000 0 001000 0\nwait 0\n"


def as_json(ran):
    """The JSON that a run printed."""
    require((ran.status, ran.err) == (0, ""), "the report fails", ran)
    try:
        return json.loads(ran.out)
    except ValueError as error:
        raise Failed(f"this is no JSON: {error}", ran, None, ran.out[:2000]) from error


def changed(line):
    """A line of a place with another place: the next number, and the other answer of a search."""
    if "equal" in line:
        yield line.replace("not equal", "equal") if "not equal" in line else line.replace("equal", "not equal")
    numbers = list(re.finditer(r"(?<= )[0-9]+(?=\b)", line))
    for it in numbers:
        yield f"{line[:it.start()]}{int(it[0]) + 1}{line[it.end():]}"


def judge_is_strict():
    """The judge of places rejects each stored place that is changed, or left out. It needs each command, so no loop is folded."""
    for file in files("histories", ".steps"):
        for name, script, wanted, _ in (it for it in multiple(file) if "... the same " not in it[2]):
            lines, requests = wanted.splitlines(), reports.requests_of(script)
            for at in (at for at, line in enumerate(lines) if PLACE.match(line)):
                for other in [[], *([it] for it in changed(lines[at]))]:
                    text = "\n".join([*lines[:at], *other, *lines[at + 1 :]])
                    try:
                        places.check(script, requests, commands.of_text(text), places.line_of)
                    except Failed:
                        continue
                    raise Failed(f"the judge accepts {other or 'no place'} of {name} in place of {lines[at]}")


def is_right(setup, script, texts):
    """The JSON of a script is right, and comes to one of some stored texts: posts, or a report, with steps or without. The commands
    of its report with steps were at the right places."""
    ran = setup.run("report", "--all-steps", "--most-steps", MOST_STEPS, script=script)
    require((ran.status, ran.err) == (0, ""), "the report fails", ran)
    places.check(script, reports.requests_of(script), commands.of_text(ran.out), places.line_of)
    ran = setup.run("report", "--json", script=script)
    found = as_json(ran)
    reports.check(found, script)
    for text in texts:
        if "\n# unit " not in text:
            actual = reports.posts_of(found)
            due = "".join(line for line in text.splitlines(keepends=True) if line.startswith(("post ", "end ")))
        else:
            actual = reports.text_of(found, "steps" if "\n#         " in text else None)
            due = text
        if reports.is_text(actual, due):
            return
    if texts:
        expect_text("another text", ran, texts[0], actual)


def agree(setup, script):
    """The JSON and the text of a script, by one schedule, say the same of each step."""
    ran = setup.run("report", "--json", "--seed", "1", script=script)
    found = as_json(ran)
    for form in "steps", "all-steps":
        text = setup.run("report", f"--{form}", "--seed", "1", script=script)
        actual = reports.text_of(found, form)
        if not reports.is_text(actual, text.out):
            expect_text("another text", ran, text.out, actual)


# Task 1 purges with halt what task 0 has issued, whose first command meets a data check. A seed decides how far that request is.
PURGED = """tasks 2
disk 0 0 1 1 40
rec 0 0 0 1 data C'ABCD'
fault 0 at 1 data check
open 0 out all
area 0
IOB:    IOB   ecb=ECB start=CP dcb=1
ECB:    ECB
CP:     NOP   CC
        RD    BUFFER,4
BUFFER: DS    4
endarea
excp 0 0 1 IOB 0 BUFFER 4
purge 1 0 1 halt
"""

# The seeds by which it ends in each way.
SEEDS = 30


def says_why_it_ended(setup):
    """The history says how a purge with halt has ended a request: before its start, in its program, or before a further start."""
    reasons = set()
    for seed in map(str, range(1, SEEDS + 1)):
        ran = setup.run("report", "--json", "--seed", seed, script=PURGED)
        text = setup.run("report", "--seed", seed, script=PURGED)
        found = as_json(ran)
        actual = reports.text_of(found, None)
        if not reports.is_text(actual, text.out):
            expect_text("another text", ran, text.out, actual)
        reasons |= {event["why"] for event in found["units"][0]["events"] if event["what"] == "posted"}
    require(reasons == {None, "purged", "halted", "not tried again"}, f"it ends by {reasons} alone")


def are_right(setup, seed):
    """The JSON of jobs at random is right, with few workers or many."""
    chance = random.Random(seed)
    for number in range(BATCH):
        lines = at_random.job_at_random(chance, at_random.STEPS).lines
        script = "\n".join([*at_random.SET_UP, *lines, ""])
        channels, handlers = [("1", "1"), ("4", "2")][number % 2]
        ran = setup.run("report", "--json", "--channels", channels, "--handlers", handlers, script=script)
        reports.check(as_json(ran), script)


def scenario_at_random(chance):
    """Two tasks and three units do something at random, and end in half of the scenarios."""
    events = []
    for _ in range(EVENTS):
        task, unit, dcb, mode = chance.randrange(2), chance.randrange(3), chance.randint(1, 2), chance.choice(["halt", "quiesce"])
        area = at_random.area_of(dcb, chance.random() < 0.4, chance.choices(at_random.KINDS, [34, 6, 3, 4])[0])
        each = {
            f"excp {task} {unit} {dcb} 001000 {area} 001060 4": 30,
            f"take {unit}": 30,
            f"start {unit}": 20,
            f"run {unit} {chance.choice([1, 2, 300, 5000])}": 30,
            f"interrupt {unit}": 20,
            f"deliver {unit}": 8,
            f"collect {task}": 8,
            f"serve {unit}": 4,
            f"settle {unit}": 1,
            f"purge {task} {unit} {dcb} {mode}": 6,
            f"purgetask {task} {chance.randrange(3) % 2} {mode}": 3,
            f"purgetaskat {task} {chance.randrange(3) % 2} {mode} {unit}": 2,
            f"close {task} {unit} {chance.randint(2, 3)}": 1,
            f"reset {task} {unit} {dcb}": 4,
            f"open {unit} out {at_random.TRACK}": 1,
        }
        events += chance.choices(list(each), list(each.values()))
    rooms = ["room intake 3", "room post 2", "room book 1 2"] if chance.random() < 0.5 else []
    return "\n".join([*at_random.SET_UP, *rooms, *events, *(["finish"] if chance.random() < 0.5 else []), ""])


def scenario_is_right(setup, script, status=0):
    """The JSON of a scenario is right, whose events do the same with locks and rows."""
    looks_the_same(setup, script)
    traced = setup.run("step", "--trace", script=script)
    require(traced.status == status, "the scenario fails", traced)
    ran = setup.run("step", "--json", script=script)
    require((ran.status, ran.err) == (status, traced.err), "another status or another error", ran)
    try:
        found = json.loads(ran.out)
    except ValueError as error:
        raise Failed(f"this is no JSON: {error}", ran, None, ran.out[:2000]) from error
    scenario_reports.check(found, script, traced.out)


def scenarios_are_right(setup, give):
    """The JSON of each of some scenarios is right."""
    for script in give():
        scenario_is_right(setup, script)


def scenarios_at_random(seed):
    """Scenarios at random."""
    chance = random.Random(seed)
    return [scenario_at_random(chance) for _ in range(BATCH)]


def ends_early(setup, script, wanted):
    """A scenario with faults or failed expectations: these are printed as ever. Its JSON is printed too, unless a line before its
    end has a fault."""
    end = next((at for at, line in enumerate(script.splitlines(), 1) if line.split() == ["finish"]), None)
    lines = wanted.splitlines()
    faults = [int(line.split(":")[1]) for line in lines if re.match(r"<stdin>:\d+: (?!expected: )", line)]
    is_ended = all("expected: " in line for line in lines) or (end is not None and faults != [] and min(faults) > end)
    if is_ended:
        scenario_is_right(setup, script, 1)
    else:
        expect(setup.run("step", "--json", script=script), (1, "", wanted))


def without_places(found, unit):
    """The steps of a unit, without their places."""
    steps = (it for event in unit["events"] for it in reports.unfolded(reports.steps_of(found, event)))
    return [{key: it for key, it in step.items() if key not in ("place", "last_place")} for step in steps]


def is_shortened(setup, script, words=("report",)):
    """With `--most-steps N`, each unit has its first N commands."""
    whole = as_json(setup.run(*words, "--json", script=script))
    for most in 1, 3:
        part = as_json(setup.run(*words, "--json", "--most-steps", str(most), script=script))
        for long, short in zip(whole["units"], part["units"]):
            steps, left = without_places(whole, long), without_places(part, short)
            require(left == steps[:most], f"unit {long['unit']} has other commands than the first {most}")
            is_cut = any("left_out" in event for event in short["events"])
            require(is_cut == (len(steps) > most), f"unit {long['unit']}: left_out is {is_cut}, of {len(steps)} commands")


def escapes(setup):
    """Names and printed bytes that JSON or a terminal could take for something else come back as they are."""
    with tempfile.TemporaryDirectory() as folder:
        name = f'{folder}/"quoted" \\back\\ \u00e9 <b>\x01.script'
        with open(name, "w", encoding="ascii") as it:
            it.write(printed_bytes())
        ran = run(setup.command("report", "--json", name))
    found = as_json(ran)
    reports.check_form(found, "run", reports.FORM)
    require(found["title"] == name, f"the title is {found['title']!r}", ran)
    printed = found["units"][0]["medium"]["printed"]
    require("".join(it["bytes"] for it in printed) == bytes(range(256)).hex().upper(), "other bytes were printed", ran)
    due = [reports.characters(line["bytes"]) for line in printed]
    require([it["text"] for it in printed] == due, "another text than that of code page 037", ran)


def large_disk(last):
    """The image of a disk with 17 tracks, of which the last has a record with this many bytes, and each other one with 63,000; and
    the rest of a script that reads the records of tracks 3 and 5."""
    image, lines = b"CKD_P370" + struct.pack("<IIB", 17, 63488, 0x90).ljust(504, b"\0"), ["disk 0 0 -"]
    for head in range(17):
        at, size = bytes([0, 0, 0, head]), last if head == 16 else 63000
        image += formats.bytes_of(formats.Track(0, [(at + b"\0", b"", bytes(8)), (at + b"\1", b"", b"A" * size)], b""), 63488, 0,
                                  head)
    lines.append("open 0 in 18000000000000000000000000100011")
    for number, head in enumerate((3, 5)):
        iob = f"4200000000001028{'00' * 8}0000103000000001{'00' * 8}000000000000{head:02X}01"
        ccws = "3100105040000005" "0800103000000000" "0600106020000004"
        lines.append(f"area {number} 001000 {iob}{'00' * 8}{ccws}{'00' * 8}000000{head:02X}01{'00' * 15}")
    return image, [*lines, *(f"excp 0 0 1 001000 {number} 001060 4" for number in range(2))]


def large_tape(last):
    """The image of a tape with 16 blocks of 65,535 bytes, and one of this many; and the rest of a script that reads the first
    two."""
    sizes = [65535] * 16 + [last]
    image = formats.image_of(formats.Tape([b"A" * it for it in sizes], [[it] for it in sizes]))
    area = f"4200000000001028{'00' * 8}0000103000000001{'00' * 24}02001040600000100200104020000010{'00' * 16}"
    return image, ["tape 0 0 -", "open 0 in", f"area 0 001000 {area}", "excp 0 0 1 001000 0 001040 16"]


def is_bounded(setup, give, rest, parts):
    """A medium with 1 MiB is whole. With one byte more it has the parts that the run touched, also by commands that are left
    out."""
    media = []
    for last, words in ((rest, ()), (rest + 1, ()), (rest + 1, ("--most-steps", "1"))):
        image, lines = give(last)
        with tempfile.NamedTemporaryFile(prefix="image-") as file:
            file.write(image)
            file.flush()
            ran = setup.run("report", "--json", "--load", f"0={file.name}", *words,
                            script="\n".join(["tasks 1", *lines, "wait 0", ""]))
        found = as_json(ran)
        require(all(post["code"] == "7F" for post in found["posts"]), "a request fails", ran)
        reports.check_form(found, "run", reports.FORM)
        reports.check_media(found)
        media.append(found["units"][0]["medium"])
    whole, part, short = media
    require(whole["whole"] and reports.size_of(whole) == reports.WHOLE_BYTES, "a medium with 1 MiB is not whole")
    require(not part["whole"] and part == short, "with some steps the medium is another one")
    numbers = [it["head"] for it in part["records"]] if "records" in part else part["numbers"]
    require(numbers == parts, f"of the medium there are {numbers}, and {parts} were touched")


def lines_have_form(setup):
    """The lines of the records of all stored scripts and scenarios are of the kinds that the document shows, and these are all of
    its kinds."""
    forms, found = reports.form_of_lines(), set()
    for most in None, 1:
        for _, script, _ in stored():
            ran = run([setup.tools, "report", "form=steps", *([f"most={most}"] if most else [])], script)
            require(ran.status == 0, "the record fails", ran)
            found |= kinds_of_lines(ran.out, forms)
        for file in scenarios():
            found |= kinds_of_lines("".join(states.record_of_scenario(read(file), most)), forms)
    due = {kind for kind in forms if kind.startswith("line ")}
    require(found == due, f"the document and the records do not both have {sorted(found ^ due)}")


def kinds_of_lines(text, forms):
    """The kinds of the lines of a record, each of which has its form."""
    lines = reports.lines_of(text)
    reports.check_form(lines, "line", forms)
    return {reports.kind_of(it, "line") for it in lines}


def writes_to_its_end(setup, word, file):
    """A writer that fails is reported."""
    with open("/dev/full", "w", encoding="ascii") as full:
        ran = run(setup.command(word, "--json"), read(file), stdout=full)
    expect(ran, (1, "", "excp: output not written\n"))


# A program in the place of excp_tools, which prints a part of its record.
CUT = """#!PYTHON
import os, signal, subprocess, sys
whole = subprocess.run(["TOOLS", *sys.argv[1:]], stdout=subprocess.PIPE).stdout
sys.stdout.buffer.write(whole[: len(whole) * 3 // 4])
sys.stdout.flush()
END
"""

# How that program ends, and the status and the text of the command then.
CUT_ENDS = {
    "print('excp: out of memory', file=sys.stderr); sys.exit(3)": (3, "excp: out of memory\n"),
    "os.kill(os.getpid(), signal.SIGKILL)": (128 + signal.SIGKILL, ""),
    "print('\\n{}')": (3,
                       "excp: error of this program: a record of the program has another form; please report it with the script\n"),
}


def is_cut_short(setup, end):
    """Of a record that is not whole, JSON and page print nothing, and text at most a part."""
    script = read(f"{SAMPLES}/how-programs-end.script")
    with tempfile.TemporaryDirectory() as folder:
        program = f"{folder}/excp_tools"
        with open(program, "w", encoding="utf-8") as it:
            it.write(CUT.replace("PYTHON", sys.executable).replace("TOOLS", setup.tools).replace("END", end))
        os.chmod(program, 0o755)
        for form in "--json", "--html", "--posts", "--steps":
            ran = run([sys.executable, f"{TOP}/tests/package.py", program, "report", form], script)
            require((ran.status, ran.err) == CUT_ENDS[end], "another end", ran)
            whole = "" if form in ("--json", "--html") else setup.run("report", form, script=script).out
            require(whole.startswith(ran.out) and len(ran.out) <= len(whole), "more than a part", ran)


def stored():
    """The names, scripts and stored texts of scripts that run."""
    for file in sorted(glob.glob(f"{SAMPLES}/*.script")):
        name = file.removesuffix(".script")
        texts = [read(it) for it in (f"{name}.posts", f"{name}.or.posts") if os.path.exists(it)]
        yield os.path.relpath(file, TOP), read(file), texts
    for file in [*files("reports", ".posts"), *files("scripts", ".posts")]:
        for name, script, wanted, place in multiple(file):
            if wanted.startswith(("post ", "end ")):
                yield f"{name}, {place}", script, wanted.split("--- or\n")
    for suffix in ".report", ".steps":
        for file in files("histories", suffix):
            for name, script, wanted, place in multiple(file):
                yield f"{name}, {place}", script, wanted.split("--- or\n")


def cases(setup):
    for name, script, texts in stored():
        yield Case(f"JSON of {name}", lambda s=script, t=texts: is_right(setup, s, t), ORIGIN)
        yield Case(f"JSON and text of {name}", lambda s=script: agree(setup, s), ORIGIN)
    yield Case("reasons of ends after a start", lambda: says_why_it_ended(setup), ORIGIN)
    for file in sorted(glob.glob(f"{SAMPLES}/*.steps")):
        script, text = read(file.removesuffix(".steps") + ".script"), read(file)
        texts = [text if "# unit " in text else without_history(text)]
        yield Case(f"JSON of {os.path.relpath(file, TOP)}", lambda s=script, t=texts: is_right(setup, s, t), ORIGIN)
        yield Case(f"some steps of {os.path.relpath(file, TOP)}", lambda s=script: is_shortened(setup, s), ORIGIN)
    yield Case("the lines of records", lambda: lines_have_form(setup), "docs/REPORT.md")
    yield Case("the judge of places rejects each changed place", judge_is_strict, "tests/places.py")
    for seed in range((JOBS_LONG if setup.is_long else JOBS) // BATCH):
        yield Case(f"JSON of {BATCH} jobs at random, {seed}", lambda s=seed: are_right(setup, s), ORIGIN)
    yield Case("hostile names and bytes", lambda: escapes(setup), f"{ORIGIN}, and Python's cp037")
    yield Case("a disk over the bound", lambda: is_bounded(setup, large_disk, reports.WHOLE_BYTES - 16 * 63000, [3, 5]), ORIGIN)
    yield Case("a tape over the bound", lambda: is_bounded(setup, large_tape, reports.WHOLE_BYTES - 16 * 65535, [1, 2]), ORIGIN)
    for end in CUT_ENDS:
        yield Case(f"a record that is cut short: {end}", lambda e=end: is_cut_short(setup, e), ORIGIN)
    for word, file in (("report", f"{SAMPLES}/read-a-tape.script"), ("step", HALT)):
        yield Case(f"a writer that fails: {word}", lambda w=word, f=file: writes_to_its_end(setup, w, f), "docs/MANUAL.md")
    yield from scenario_cases(setup)


def scenario_cases(setup):
    for file in scenarios():
        yield Case(f"JSON of {os.path.relpath(file, TOP)}", lambda f=file: scenario_is_right(setup, read(f)), ORIGIN)
    for file in files("scenarios", ".findings"):
        for name, script, wanted, place in multiple(file):
            yield Case(f"JSON of {name}, {place}", lambda s=script, w=wanted: ends_early(setup, s, w), ORIGIN)
    for service in AT_ONCE, BY_COMMANDS:
        for other in OTHERS:
            give = lambda s=service, o=other: [disturbed(s, o, at) for at in range(8 + 4 * len(s))]
            yield Case(f"JSON with {other} before each of {len(service)} calls", lambda g=give: scenarios_are_right(setup, g),
                       ORIGIN)
    for unit, commands in COMMANDS_OF_UNITS.items():
        give = lambda u=unit, c=commands: [every_command(u, c)]
        yield Case(f"JSON of every command of a {unit.split()[0]}", lambda g=give: scenarios_are_right(setup, g), ORIGIN)
    for seed in range((JOBS_LONG if setup.is_long else JOBS) // BATCH):
        give = lambda s=seed: scenarios_at_random(s)
        yield Case(f"JSON of {BATCH} scenarios at random, {seed}", lambda g=give: scenarios_are_right(setup, g), ORIGIN)
    yield Case("some steps of a scenario", lambda: is_shortened(setup, read(HALT), ("step",)), ORIGIN)
