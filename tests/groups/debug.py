"""`excp debug`: sessions on small jobs, worked by hand; the states of all stored scripts and of small jobs at random, which
tests/states.py judges by the record of the run; words at random; images; the bound on steps; large jobs; screens, under tmux; the
slider of pages, in Chromium.

A session of tests/cases/debug is a job and what is printed on standard output. Its lines that begin with `debug> ` are the
commands, and its last line has the exit status.
"""

import glob
import json
import os
import random
import re
import shlex
import shutil
import subprocess
import tempfile
import time

import browser
import states
from harness import SAMPLES, SECONDS, Case, Failed, Skipped, expect, expect_text, files, multiple, read, require
from small_jobs import small_job

ORIGIN = "docs/MANUAL.md and docs/SPECIFICATION.md"

# How many small jobs there are, also in the long form, and how many are one case.
JOBS = 100
JOBS_LONG = 1000
BATCH = 25

# How many sessions of words at random there are, also in the long form.
SESSIONS = 40
SESSIONS_LONG = 1000

# What is before each command.
PROMPT = "debug> "

# Words of which sessions at random are made, right and wrong.
WORDS = """step|s 3|back|b 2|run|run CP|run 001030|error|e|post|p|request 1|request 0.1 0|q|requests|watch area,8|watch IOB
watch 001000,4|unwatch 1|show storage|show storage area+8,16|show medium|show medium 0 0|show status|list|help|again|stp|show|step x
run NO+1|watch|set 1 tasks 1|set CP NOP|set 2 # nothing|back 1000|step 1000|request 99|show storage FFFFFF,1|watch X,Y|save|é
step 99999999""".replace("\n", "|").split("|")


def session(setup, job, commands, *options, name="job"):
    """A session on a job in a file of an empty folder."""
    with tempfile.TemporaryDirectory() as folder:
        with open(f"{folder}/{name}", "w", encoding="utf-8") as file:
            file.write(job)
        ran = setup.run("debug", *options, name, script=commands, cwd=folder)
        return ran, read(f"{folder}/{name}")


def is_as_worked(setup, job, wanted):
    """A session prints what is worked by hand."""
    commands = "".join(f"{line.removeprefix(PROMPT)}\n" for line in wanted.splitlines() if line.startswith(PROMPT))
    ran, left = session(setup, job, commands)
    require(ran.err == "", "it prints on standard error", ran)
    expect_text("another session", ran, wanted, f"{ran.out}status {ran.status}\n")
    if f"{PROMPT}save\nwrote job\n" in wanted:
        changed = re.findall(r"^line (\d+) was (.*)\n +is  (.*)$", wanted, re.M)
        lines = job.split("\n")
        for number, was, now in changed:
            require(lines[int(number) - 1] == was, f"line {number} was another one", ran)
            lines[int(number) - 1] = now
        require(left == "\n".join(lines), "the job is saved with other changes", ran)
    else:
        require(left == job, "the job is written without save", ran)


def worked():
    for file in files("debug", ".dialogs"):
        yield from multiple(file)


def judge_is_strict(setup):
    """A session with another number in any line fails."""
    for name, job, wanted, _ in list(worked())[:3]:
        for at, line in enumerate(wanted.splitlines()):
            if line.startswith(PROMPT) or not (found := re.search(r"[1-8]", line)):
                continue
            lines = wanted.splitlines(True)
            lines[at] = f"{line[:found.start()]}9{line[found.end():]}\n"
            ran = is_other(setup, job, "".join(lines))
            require(ran, f"{name}: a changed line passes: {lines[at]}")
            break


def is_other(setup, job, wanted):
    commands = "".join(f"{line.removeprefix(PROMPT)}\n" for line in wanted.splitlines() if line.startswith(PROMPT))
    ran, _ = session(setup, job, commands)
    return f"{ran.out}status {ran.status}\n" != wanted


def scripts():
    """The stored scripts that may run, with their names."""
    for file in sorted(glob.glob(f"{SAMPLES}/*.script")):
        yield os.path.basename(file), read(file)
    for folder, suffix in ("histories", ".report"), ("histories", ".steps"), ("scripts", ".posts"):
        for file in files(folder, suffix):
            for name, script, _, _ in multiple(file):
                yield f"{os.path.basename(file)} {name}", script


def stored_states(setup, first):
    """The states of every fourth stored script. Those with a fault do not run."""
    count = 0
    for _, script in list(scripts())[first::4]:
        try:
            count += states.check_states(script, states.record_of(setup, script))
        except subprocess.CalledProcessError:
            continue
    require(count > 300, f"only {count} states")
    return f"{count} states"


def random_states(first):
    count = 0
    for number in range(first, first + BATCH):
        job = small_job(number, tasks=4, units=3, requests=8, controls=3, waits=2)
        count += states.check_states(job, states.record_by_seed(job, number))
    require(count > BATCH, f"only {count} states")
    return f"{count} states"


def takes_any_words(setup, count):
    """Words at random end with status 0 or 1, and nothing on standard error."""
    chance = random.Random(1)
    jobs = [read(file) for file in sorted(glob.glob(f"{SAMPLES}/*.symbolic"))]
    for _ in range(count):
        commands = "".join(f"{chance.choice(WORDS)}\n" for _ in range(30))
        ran, _ = session(setup, chance.choice(jobs), commands)
        require(ran.status in (0, 1) and ran.err == "", "a session fails", ran)
        require(ran.out.count(PROMPT) >= 25, "a session ends early", ran)


def loads_an_image(setup):
    """A medium of an image is shown, and changes by the job."""
    with tempfile.TemporaryDirectory() as folder:
        media = "tasks 1\ntape 0 0 100\nblock 0 C1C2\nmark 0\n"
        made = setup.run("convert", "--to", "aws", "--output", f"{folder}/tape.aws", "-", script=media)
        require(made.status == 0, "no image", made)
        job = read(f"{SAMPLES}/tape.symbolic")
        job = re.sub(r"^(block|mark|rec|fault) .*\n", "", job, flags=re.M)
        job = re.sub(r"^tape 0 (\d+) \d+", r"tape 0 \1 100", job, flags=re.M)
        with open(f"{folder}/job", "w", encoding="utf-8") as file:
            file.write(job)
        ran = setup.run("debug", "--load", "0=tape.aws", "job", script="show medium\n", cwd=folder)
        due = "the tape is after 0 of 2 items\n >\n      1 2 bytes C1C2  |AB|\n      2 tape mark\n"
        require(ran.status == 0 and ran.out.endswith(f"{PROMPT}show medium\n{due}"), "the image is not shown", ran)


def long_job(requests, commands):
    """A job of some requests with the same number of no-operations each."""
    program = "CP:     NOP   CC\n" + "        NOP   CC\n" * (commands - 2) + "        NOP\n"
    head = "tasks 1\ntape 0 0 100\nopen 0 in\narea 0\nIOB:    IOB   ecb=ECB start=CP dcb=1\nECB:    ECB\n"
    return f"{head}{program}endarea\n" + "excp 0 0 1 IOB 0 IOB 0\n" * requests


def names_its_bound(setup):
    """After --most-steps N the debugger says so, and stays where it was."""
    job = long_job(3, 4)
    ran, _ = session(setup, job, "step 9\npost\nerror\nrequest 3\nback 2\n", "--most-steps", "6")
    bound = "further commands were not kept; --most-steps N keeps more"
    lines = ran.out.splitlines()
    require(ran.status == 1 and ran.err == "", "another end", ran)
    require(f"request 0.2 0: 2 of 2 commands done, {bound}" in lines, "the bound is not named", ran)
    require(lines[-1].startswith("request 0.2 0: 0 of 2 commands done, next "), "it left its place", ran)


def rejects(setup):
    """What is no job, or cannot be debugged, is said in one line or as `check` says it."""
    ran = setup.run("debug", script="step\n")
    expect(ran, (2, "", "excp: debug: name the file of a job: standard input has the commands\n"))
    ran, _ = session(setup, "tasks 1\n", "")
    require(ran.status == 1 and ran.out == "", "a job without units", ran)
    ran, _ = session(setup, "tasks 1\ntape 0 0 100\n", "")
    expect(ran, (1, "", "excp: the job has no request to debug\n"))
    ran, _ = session(setup, "tasks 1\ntap 0 0 100\n", "")
    require(ran.status == 1 and "did you mean 'tape'?" in ran.err, "a fault is not printed", ran)
    ran = setup.run("debug", "nothing")
    require(ran.status == 1 and ran.err.startswith("excp: nothing: "), "a file that is missing", ran)


def large_job(setup):
    """Going to the end of 20,000 requests and back takes no more memory than the report as JSON, and a few seconds."""
    setup.skip_unproved()
    job = long_job(20_000, 4)
    with tempfile.TemporaryDirectory() as folder:
        with open(f"{folder}/job", "w", encoding="utf-8") as file:
            file.write(job)
        peak = {}
        for words in (("report", "--json"), ("debug",)):
            script = "request 20000\npost\nback 6\nrequest 1\nerror\n" if words[0] == "debug" else ""
            peak[words[0]], text = measured(setup, [*words, "job"], script, folder)
        require("request 0.20000 0: posted" in text, f"the last request is not reached: {text[-500:]}")
        require(peak["debug"] <= 1.3 * peak["report"] + 20_000, f"KiB: {peak}")
        return f"KiB: {peak}"


def measured(setup, words, script, folder):
    """The most KiB of a run of the package and its program, and what it prints."""
    before = "import re, runpy, sys; sys.argv = sys.argv[1:]\ntry:\n runpy.run_path(sys.argv[0], run_name='__main__')\nfinally:\n"
    after = " print(re.search('VmHWM: +([0-9]+)', open('/proc/self/status').read().replace(chr(9), ' '))[1], file=sys.stderr)"
    command = setup.command(*words)
    ran = subprocess.run([command[0], "-c", before + after, *command[1:]], input=script, cwd=folder, capture_output=True, text=True,
                         timeout=120, check=False)
    return int(ran.stderr.split()[-1]), ran.stdout


def page_of(setup, script):
    """The page of a job, and the JSON of its states and of its posts."""
    ran = setup.run("report", "--html", script=script)
    require((ran.status, ran.err) == (0, ""), "no page", ran)
    found = {name: json.loads(re.search(f'id="{name}">(.*?)</script>', ran.out, re.S)[1]) for name in ("states", "rest")}
    return ran.out, found["states"], found["rest"]["posts"]


def page_has_states(setup):
    """At the last step of each request a page has the bytes that its post shows, its IOB and its ECB, in storage made of its
    states."""
    count, missing = 0, []
    for name, script in scripts():
        if ".script" not in name:
            continue
        _, found, posts = page_of(setup, script)
        if found is None:
            missing.append(name)
            continue
        shows = states.shows_of(script)
        for post in posts:
            key = f"{post['task']}-{post['unit']}-{post['request']}"
            if key not in found["requests"]:
                continue
            request = found["requests"][key]
            area = found["areas"][request["area"]]
            base, storage = int(area["base"], 16), bytearray.fromhex(area["bytes"])
            for address, digits in (it for state in request["steps"] for it in state[2]):
                at = int(address, 16) - base
                storage[at : at + len(digits) // 2] = bytes.fromhex(digits)
            address, length = shows[post["task"], post["unit"], post["request"]]
            iob = int(post["iob_at"], 16) - base
            shown = storage[address - base : address - base + length].hex().upper()
            require(shown == post["shown"] and storage[iob : iob + 40].hex().upper() == post["iob"],
                    f"{name}: {key}: {shown}, {post}")
            count += 1
    require(count > 30, f"only {count} requests")
    require(len(missing) <= 1, f"pages without states: {missing}")
    return f"{count} requests, none of {missing}"


# What the slider of a request shows at some of its steps, and what it does not.
SHOWN = {
    0: (["before the first command", "0 of 11 commands done", "> at the index point", "001068 00000000 00000000", "20 PEARS"],
        ["19 PEARS |", "attempt"]),
    3: (["3. 001040 060010684000000C read data CC", "3 of 11", "001068 F2F040D7 C5C1D9E2",
         "> 0000000002, key D4C9D3D3 C5D94040 |MILLER |"],
        ["F1F940D7 C5C1D9E2 40404040"]),
    5: (["5 of 11", "attempt 2", "> 0000000001", "001068 F2F040D7 C5C1D9E2"], []),
    11: (["11. 001058 050010740000000C write data", "data F1F940D7 C5C1D9E2 40404040 |19 PEARS |", "001028 00000000 00000000"],
         ["20 PEARS |", "7F"]),
    12: (["task 0 request 1 posted 7F", "001000 42000000 7F001028", "001008 00001060 0C000000", "001028 7F000000 00000000"], []),
}


def slider_shows_states(setup):
    """In a browser the slider of a request shows storage and medium at each step, forward and back, wide and narrow."""
    job = next(job for name, job, _, _ in worked() if name == "a_retry_and_a_write")
    with tempfile.TemporaryDirectory() as folder, browser.Browser() as it:
        with open(f"{folder}/page.html", "w", encoding="utf-8") as file:
            file.write(page_of(setup, job)[0])
        for width in 1280, 400:
            it.open(f"{folder}/page.html", "#q0-0-1", width=width)
            require(it.value("document.querySelector('.states input').max") == "12", "the slider has another end")
            for step in [*SHOWN, *reversed(SHOWN)]:
                it.value(f"(it => {{ it.value = {step}; it.dispatchEvent(new Event('input')); }})"
                         "(document.querySelector('.states input'))")
                text = " ".join(it.value("document.querySelector('.state').innerText").split())
                has, lacks = SHOWN[step]
                wrong = [one for one in has if one not in text] + [one for one in lacks if one in text]
                require(not wrong, f"step {step} at {width} pixels: {wrong} in {text}")
            it.value("[...document.querySelectorAll('.slider button')].pop().click()")
            require("1 of 11" in it.value("document.querySelector('.state').innerText"), "the button does not step")
            wide = it.value("document.querySelector('.panel').scrollWidth - document.querySelector('.panel').clientWidth")
            require(wide <= 0 and not it.said, f"the panel is {wide} pixels too wide at {width}; {it.said}")


class Terminal:
    """A terminal of tmux with a session on a job in a file of its own folder."""

    def __init__(self, setup, job, columns, lines, *options):
        self.folder = tempfile.TemporaryDirectory()
        self.socket = f"{self.folder.name}/tmux"
        with open(f"{self.folder.name}/job", "w", encoding="utf-8") as file:
            file.write(job)
        command = shlex.join([*setup.command("debug", *options), "job"]) + "; echo ended $?; sleep 60"
        self.tmux("-u", "-f", "/dev/null", "new-session", "-d", "-x", str(columns), "-y", str(lines), "-c", self.folder.name,
                  command)

    def __enter__(self):
        return self

    def __exit__(self, *_):
        self.tmux("kill-server")
        self.folder.cleanup()

    def tmux(self, *words):
        command = ["tmux", "-S", self.socket, *words]
        return subprocess.run(command, capture_output=True, text=True, timeout=SECONDS, check=False,
                              env={**os.environ, "LC_ALL": "C.UTF-8"})

    def shows(self, *texts, without=()):
        """Waits until the screen has these texts, and none of the others. Returns its lines."""
        for _ in range(200):
            text = self.tmux("capture-pane", "-p").stdout
            if all(it in text for it in texts) and not any(it in text for it in without):
                return text.splitlines()
            time.sleep(0.1)
        raise Failed(f"the screen has not {texts} without {without}:\n{text}")

    def types(self, line):
        self.tmux("send-keys", "-l", line)
        self.tmux("send-keys", "Enter")

    def press(self, *keys):
        self.tmux("send-keys", *keys)


def needs_tmux():
    if not shutil.which("tmux"):
        raise Skipped("no tmux, so no screen is looked at")


def finds_on_a_terminal(setup):
    """On a terminal a wrong search argument is found and mended: the panes have program, storage and medium, and keys go forward
    and back."""
    needs_tmux()
    job = next(job for name, job, _, _ in worked() if name == "a_wrong_search_argument")
    with Terminal(setup, job, 120, 34) as it:
        it.shows(">    9 001030 CP:     SIDE  ID,L'ID,CC", "- disk 0: cylinder 0 head 0, 3 records", " > at the index point",
                 "001040  0600104D 00000004 00000000 03000000", "request 0.1 0: 0 of 7 commands done", "debug>")
        it.press("Right")
        it.shows("request 0.1 0: 1 of 7 commands done", "record 0: not equal", "> 0000000000, data", without=["at the index point"])
        it.press("Left")
        it.shows("request 0.1 0: 0 of 7 commands done", " > at the index point")
        it.types("eror")
        it.shows("eror: no such word; did you mean 'error'?", "request 0.1 0: 0 of 7 commands done")
        it.types("error")
        it.shows("no record found on cylinder 0 head 0 after 6 records", "it searched for ID 001048 ID: 00000000 03",
                 "request 0.1 0: 7 of 7")
        it.types("set ID 0,0,2")
        it.shows("the job ran again: 1 post, none with an error", "ID:     CCHHR 0,0,2", "request 0.1 0: 0 of 4 commands done")
        it.types("run")
        it.shows("posted 7F", "request 0.1 0: posted", "*001050")
        it.types("quit")
        it.shows("the job is changed and not saved")
        it.types("save")
        it.shows("wrote job")
        it.press("F1")
        it.shows("ends the session")
        it.press("C-c")
        it.shows("ended 0")
        require("ID:     CCHHR 0,0,2 " in read(f"{it.folder.name}/job"), "the job is not saved")


def fits_each_terminal(setup):
    """A screen of few columns or lines has what fits, also after its size has changed; --lines has none."""
    needs_tmux()
    job = next(job for name, job, _, _ in worked() if name == "a_tape_forward_and_back")
    with Terminal(setup, job, 60, 24) as it:
        it.shows("CP:     RDF   BLOCK,16,SLI", "- storage", "- tape 0: the tape is after 0 of 3 items", "debug>")
        it.press("Right")
        it.shows("the tape is after 1 of 3 items", "*001038  C2D6D6D2 F1000000")
        it.tmux("resize-window", "-x", "100", "-y", "30")
        it.shows("CP:     RDF   BLOCK,16,SLI", "the tape is after 1 of 3 items", "request 0.1 0: 1 of 1 command done")
        it.tmux("resize-window", "-x", "20", "-y", "5")
        it.shows("debug>", "request 0.1 0: 1 of")
        it.types("q 3")
        it.tmux("resize-window", "-x", "80", "-y", "24")
        it.shows("request 0.3 0: 0 of 1 command done", "the tape is after 2 of 3 items")
        it.press("C-d")
        it.shows("ended 0")
    with Terminal(setup, job, 80, 24, "--lines") as it:
        it.shows("3 posts, 1 with an error", "debug>", without=["- storage"])
        it.types("error")
        it.shows("status 0D00 residual 0010, unit exception")
        it.press("C-d")
        it.shows("ended 0")


def cases(setup):
    for name, job, wanted, place in worked():
        yield Case(f"session: {name}", lambda job=job, wanted=wanted: is_as_worked(setup, job, wanted), place)
    yield Case("changed sessions fail", lambda: judge_is_strict(setup), ORIGIN)
    for first in range(4):
        yield Case(f"states of stored scripts {first}", lambda first=first: stored_states(setup, first), ORIGIN)
    for first in range(0, JOBS_LONG if setup.is_long else JOBS, BATCH):
        yield Case(f"states of jobs at random from {first}", lambda first=first: random_states(first), ORIGIN)
    count = SESSIONS_LONG if setup.is_long else SESSIONS
    for call in (page_has_states, slider_shows_states, loads_an_image, names_its_bound, rejects, large_job, finds_on_a_terminal,
                 fits_each_terminal):
        yield Case(call.__name__, lambda call=call: call(setup), ORIGIN)
    yield Case("takes_any_words", lambda: takes_any_words(setup, count), ORIGIN)
