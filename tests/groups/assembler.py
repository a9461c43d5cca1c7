"""Scripts with symbolic areas: the plain scripts that `assemble` makes of them, and every mistake that it reports.

- Without its comments, each `samples/NAME.symbolic` gives the lines of `samples/NAME.script`. With them it gives
  `samples/NAME.assembled`, if there is such a file. A run of the result prints `samples/NAME.posts`, and so does
  `report --posts` of the sample itself. Each sample has its form in symbols.
- Every word takes a job with symbols as it is, and prints its mistakes as `assemble` does.
- `tests/cases/assembler/*.assembled` has scripts and what they give; `*.findings` has scripts with mistakes; `*.checked` has
  scripts and what `check` finds in them once they are assembled.
- What is stored was written by hand.
"""

import os
import re
import tempfile

from harness import SAMPLES, Case, Failed, expect, expect_text, files, multiple, outcome, read, require

LIMIT = 1_048_576

# What `assemble` prints of a script with faults.
FINDINGS = re.compile(r"(<stdin>:[0-9]+(:[0-9]+)?: .+\n)+")


def statements(script):
    """The lines of a script that are no comments."""
    return "".join(f"{it}\n" for it in script.splitlines() if it.strip() and not it.lstrip().startswith("#"))


# An extent of a DCB for input, whose file mask nothing looks at.
INPUT_MASK = re.compile(r"(?<= )(?:18|58)(?=[0-9A-F]{30}\b)")


def plain(script):
    """The statements of a script, with one file mask in the extents of input, and the words of areas joined."""
    found = []
    for line in statements(script).splitlines():
        first, *words = line.split()
        if first == "open" and words[1] == "in":
            line = INPUT_MASK.sub("58", line)
        if first == "area":
            line = " ".join([first, *words[:2], "".join(words[2:])])
        found.append(f"{line}\n")
    return "".join(found)


# What `check` finds in a byte of an area: the place of the word that has set it, and the line of the request.
OF_WORD = re.compile(r"^<stdin>:[0-9]+:[0-9]+: (.*) \(excp in line ([0-9]+)\)$", re.MULTILINE)


def is_sample(setup, name):
    """The sample in symbols gives the plain one, line for line, and every word takes it as it is."""
    source = f"{SAMPLES}/{name}.symbolic"
    ran = setup.run("assemble", file=source)
    require((ran.status, ran.err) == (0, ""), "a fault", ran)
    require(len(ran.out.splitlines()) == len(read(source).splitlines()), "not a line for each line", ran)
    expect_text("another script", ran, plain(read(f"{SAMPLES}/{name}.script")), plain(ran.out))
    whole = f"{SAMPLES}/{name}.assembled"
    if os.path.exists(whole):
        expect_text("another text", ran, read(whole), ran.out)
    if "/" in name:
        return
    posts = [(0, read(it)) for it in (f"{SAMPLES}/{name}.posts", f"{SAMPLES}/{name}.or.posts") if os.path.exists(it)]
    expect(setup.run("run", script=ran.out), *posts)
    expect(setup.run("report", "--posts", file=source), *posts)
    checked = setup.run("check", file=source)
    checked.out = OF_WORD.sub(r"<stdin>:\2: \1", checked.out)
    expect(checked, (0, setup.run("check", script=ran.out).out))


def gives(setup, script, *way):
    require(way[1:] != ("", ""), "the case has no text that is to be printed")
    expect(setup.run("assemble", script=script), way)


def is_checked(setup, script, findings):
    status = int(any(": note: " not in line for line in findings.splitlines()))
    expect(setup.run("check", script=script), (status, findings))


def keeps_plain(setup, file):
    expect(setup.run("assemble", file=file), (0, read(file)))


# Words that take a script, the first of them a scenario.
WORDS = ["step"], ["check"], ["check", "--scenario"], ["report"], ["report", "--seed", "7"], ["report", "--json"], ["outcomes"]


def job(words, mistake=""):
    """A job in symbols for these words."""
    scenario = "serve 0\ncollect 0\nfinish\n" if words in (["step"], ["check", "--scenario"]) else ""
    return f"""tasks 1
disk 0 0 2 3 100
rec 0 0 0 1 key C'AB' fill 4 data C'THE DATA'
fault 0 at 1 data check
open 0 in all ; all six tracks
area 0
IOB: IOB ecb=ECB start=CP dcb=1 seek=0,0,1
ECB: ECB
CP: SKE KEY,L'KEY,CC
    TIC CP
    RD DATA,L'DATA
{mistake}KEY: DC C'AB' fill 4
DATA: DS 8
endarea
excp 0 0 1 IOB 0 DATA L'DATA
{scenario}"""


def of_file(setup, words, text):
    """The words carried out on a file with this text, and what they print, with `FILE` for its name."""
    with tempfile.TemporaryDirectory() as folder:
        file = f"{folder}/job"
        with open(file, "w") as opened:
            opened.write(text)
        ran = setup.run(*words, file)
        ran.out, ran.err = ran.out.replace(file, "FILE"), ran.err.replace(file, "FILE")
        return ran


def takes_symbols(setup, words):
    source = job(words)
    plain_script = setup.run("assemble", script=source).out
    due = of_file(setup, words, plain_script)
    require((due.status, due.err) == (0, ""), "the plain script does not run", due)
    expect(of_file(setup, words, source), (due.status, due.out, due.err))


def tells_mistakes(setup, words):
    """The mistake is printed with its line and its column: by `check` on standard output, by other words on the other one."""
    text = "FILE:12:14: Name: DTA: no statement of this area has this label; did you mean 'DATA'?\n"
    due = (1, text, "") if words[0] == "check" else (1, "", text)
    expect(of_file(setup, words, job(words, mistake="    WD KEY,L'DTA\n")), due)


def steps_plain_lines(setup):
    """`step` of standard input rejects the first line in symbols, and says what takes it."""
    form = "a form of jobs in symbols: 'step' takes it from a file only, as step FILE"
    expect(setup.run("step", script=job(["step"])), (1, "", f"<stdin>:3: Words: {form}\n"))
    for line in ["fault 0 at 1 equipment check", "block 0 C'A'", "open 0 in all"]:
        ran = setup.run("step", script=f"tasks 1\ntape 0 0 100\n{line}\n")
        require(ran.status == 1 and ran.err.endswith(f": {form}\n"), "another text", ran)
    area = "an area without an address is in symbols: 'endarea' ends it, and 'step' takes it from a file only, as step FILE"
    expect(setup.run("step", script="tasks 1\narea 0\nECB\nendarea\n"), (1, "", f"<stdin>:2: Words: {area}\n"))
    line = "'ECB' begins a line of a symbolic area: expected 'area A' before it, 'endarea' after it, and a file, as step FILE"
    expect(setup.run("step", script="tasks 1\narea 0 001000\nECB\nendarea\n"), (1, "", f"<stdin>:3: Words: {line}\n"))


def converts_symbols(setup):
    """A tape of one block and a mark as an AWS image: a header of 6 bytes, its length first, before each."""
    with tempfile.TemporaryDirectory() as folder:
        with open(f"{folder}/job", "w") as opened:
            opened.write("tasks 1\ntape 0 0 100\nblock 0 CA'HDR1' fill 6\nmark 0\n")
        ran = setup.run("convert", "--to", "aws", f"{folder}/job", "--output", f"{folder}/tape.aws")
        expect(ran, (0, ""))
        with open(f"{folder}/tape.aws", "rb") as opened:
            found = opened.read()
        due = bytes.fromhex("06000000A000") + b"HDR1  " + bytes.fromhex("000006004000")
        require(found == due, f"another image: {found.hex()}", ran)


def loads_sizes(setup):
    """A disk whose line leaves its sizes to an image is opened whole."""
    with tempfile.TemporaryDirectory() as folder:
        with open(f"{folder}/disk", "w") as opened:
            opened.write("tasks 1\ndisk 0 0 2 15 56818\n")
        expect(setup.run("convert", "--to", "ckd", f"{folder}/disk", "--output", f"{folder}/disk.ckd"), (0, ""))
        with open(f"{folder}/job", "w") as opened:
            opened.write("tasks 1\ndisk 0 0 - - -\nopen 0 out all\narea 0\nendarea\n")
        expect(setup.run("check", "--load", f"0={folder}/disk.ckd", f"{folder}/job"),
               (0, f"{folder}/job:4: note: no excp uses area 0\n"))


def is_at_limit(setup, script, due):
    """The status, the number of bytes and the faults of a script at a limit."""
    ran = setup.run("assemble", script=script)
    found = ran.status, len(ran.out), ran.err
    if found != due:
        texts = (outcome(it[0], f"{it[1]} bytes\n", it[2]) for it in (due, found))
        raise Failed("another outcome", ran, *texts)


def limits():
    """Scripts at the limits: the name, the script, and the status, the bytes of output and the faults of each."""
    most = "# " + "x" * (LIMIT - 3) + "\n"
    yield "a script of 1,048,576 bytes", most, (0, LIMIT, "")
    yield "a script of 1,048,576 bytes, the last line without a line feed", f"# {'x' * (LIMIT - 2)}", (0, LIMIT, "")
    yield "a script of one byte more", f"{most}\n", (1, 0, "excp: <stdin>: the script has more than 1,048,576 bytes\n")
    # each area is `area N 001000`, 1024 times a blank and 16 digits, and a line feed
    areas, size = [], 0
    while size <= LIMIT:
        areas.append(f"area {len(areas)} 001000\nDS 8192\nendarea\n")
        size += len(f"# area {len(areas) - 1} 001000\n# DS 8192\narea {len(areas) - 1} 001000\n") + 1024 * 17
    text = "the assembled script has more than 1048576 bytes with this line, and a run reads no more"
    yield "an output past the limit", "".join(areas), (1, 0, f"<stdin>:{3 * len(areas)}: Words: {text}\n")
    labels = [f"L{number}:\n" for number in range(100_000)]
    words = "IDAW " + ",".join(f"L{number}" for number in range(0, 100_000, 50))
    script = f"area 0 001000\n{''.join(labels)}{words}\nendarea\n"
    due = len(f"# area 0 001000\n# {words}\narea 0 001000\n") + 1000 * 17
    yield "many labels", script, (0, due + sum(len(f"# {label}") for label in labels), "")
    origins = "L0:\n" + "ORG L0\n" * 100_000
    due = len("# area 0 001000\n# L0:\narea 0 001000 -\n") + 100_000 * len("# ORG L0\n")
    yield "many origins", f"area 0 001000\n{origins}endarea\n", (0, due, "")
    text = "not a constant: expected X'DIGITS', C'TEXT' or CA'TEXT', with a number of repeats before it or none"
    text = f"{text}, and each apostrophe of a text twice"
    faults = "".join(f"<stdin>:{line}:20: Number: ?: {text}\n" for line in range(1, 8_001))
    yield "many lines whose faults come after long constants", "block 0 65535X'00' ?\n" * 8_000, (1, 0, faults)
    text = "this is outside of the area: an area has at most 8192 bytes, and ends at X'FFFFFF' at the latest"
    constants = "DC 8192X'00'\n" * 60_000
    yield "many constants without room", f"area 0 001000\n{constants}endarea\n", (1, 0, f"<stdin>:3: Area: {text}\n")
    yield "an area that is too long", "area 0 001000\nDS 8192\nDS 1\nendarea\n", (1, 0, f"<stdin>:3: Area: {text}\n")


def survives(setup, by):
    """A sample with each of its bytes replaced in turn gives a script, or faults."""
    sample = read(f"{SAMPLES}/read.symbolic")
    for at in range(len(sample)):
        ran = setup.run("assemble", script=sample[:at] + by + sample[at + 1 :])
        is_script = ran.status == 0 and ran.out and not ran.err
        is_rejected = ran.status == 1 and not ran.out and FINDINGS.fullmatch(ran.err)
        require(is_script or is_rejected, f"neither a script nor faults, with byte {at} replaced", ran)


def cases(setup):
    def case(name, origin, judge, *given):
        return Case(name, lambda: judge(setup, *given), origin)

    for file in sorted([*os.listdir(SAMPLES), "outcomes/a-halt.script"]):
        name, kind = os.path.splitext(file)
        if kind == ".script":
            yield case(f"{name}.symbolic", f"samples/{name}.script, .assembled and .posts", is_sample, name)
            yield case(file, f"samples/{file} itself", keeps_plain, f"{SAMPLES}/{file}")
    for words in WORDS:
        yield case(f"{' '.join(words)} takes symbols", "the same of the plain script", takes_symbols, words)
        yield case(f"{' '.join(words)} prints mistakes", "the same of `assemble`", tells_mistakes, words)
    yield case("step of standard input takes plain lines", "docs/ASSEMBLER.md", steps_plain_lines)
    yield case("convert takes symbols", "docs/ASSEMBLER.md: the bytes of an AWS tape", converts_symbols)
    yield case("extents by the size of an image", "docs/ASSEMBLER.md", loads_sizes)
    for file in files("assembler", ".findings"):
        for name, script, text, place in multiple(file):
            yield case(f"mistakes: {name}", f"{place}, by docs/MANUAL.md", gives, script, 1, "", text)
    for file in files("assembler", ".checked"):
        for name, script, findings, place in multiple(file):
            yield case(f"check: {name}", f"{place}, by docs/ASSEMBLER.md", is_checked, script, findings)
    for file in files("assembler", ".assembled"):
        for name, script, text, place in multiple(file):
            yield case(f"statements: {name}", f"{place}, by docs/MANUAL.md", gives, script, 0, text)
    for name, script, due in limits():
        yield case(name, "tests/groups/assembler.py, by docs/MANUAL.md", is_at_limit, script, due)
    for by in ["'", ";", ":", "+", "9", " ", "\n", "\0"]:
        yield case(f"each byte replaced by {by!r}", "docs/MANUAL.md: a script or faults, nothing else", survives, by)
