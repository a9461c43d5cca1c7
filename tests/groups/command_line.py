"""Words of a command line: those of the package, of excp_job, and of excp_tools.

A fault of the words is reported with status 2, before any byte of the input is read.
"""

import os
import pty
import re
import subprocess
import tempfile

from harness import CASES, SAMPLES, TOP, Case, Failed, Ran, expect, expect_text, outcome, read, require, run

STORED = f"{TOP}/crates/excp_job/stdin"
POSTS = f"{TOP}/crates/excp_job/stdout"

# Marks of colour (ECMA-48, "SGR").
RED, YELLOW, PLAIN = "\x1b[1;31m", "\x1b[1;33m", "\x1b[0m"

# How a line begins that a report may have after its posts.
REPORT_LINES = ("#", "disk ", "tape ", "printer ", "rec ", "block ", "mark ")

# Words that the program accepts, to run the stored script.
ACCEPTED = [
    ["run"],
    *(["run", "--channels", it] for it in ("1", "2", "8", "16")),
    *(["run", f"--handlers={it}"] for it in ("1", "2", "8")),
    ["run", "--handlers", "8", "--channels", "16"],
]

# Words that the program accepts, to report on the stored script.
REPORTS = [
    ["report"],
    ["report", "--channels", "1"],
    ["report", "--channels", "16"],
    ["report", "--handlers=8", "--channels", "2"],
    ["report", "--steps"],
    ["report", "--channels", "2", "--steps", "--handlers", "2"],
    ["report", "--steps", "--most-steps", "18446744073709551615"],
    ["report", "--most-steps=1", "--steps"],
    ["report", "--all-steps", "--most-steps", "1", "--ascii", "--color", "auto"],
]



def wrong(word, text):
    """The text on the options of a word of the package."""
    return f"excp: {word}: {text}; excp {word} --help lists the options"


def unknown(word, argument):
    """The text on an argument that a word of the package does not have."""
    return wrong(word, f"unrecognized arguments: {argument}")


def excluded(word, option, other):
    """The text on an option that does not go with another one."""
    return wrong(word, f"argument --{option}: not allowed with argument --{other}")


def no_number(word, option, value, least, most):
    return wrong(word, f"argument --{option}: '{value}': expected a number from {least} to {most}")


def no_unit_file(word, option, value):
    return wrong(word, f"argument --{option}: '{value}': expected U=FILE, a unit from 0 to 63 and the name of a file")


def needs(word, forms):
    return wrong(word, f"--most-steps N needs {forms}")


HIGHEST = 18_446_744_073_709_551_615

FORMS = "steps", "all-steps", "json", "html", "posts", "listing"

# Pairs of options of a word that exclude each other, in the order in which they are typed if argparse says so.
EXCLUSIVE = {
    "report": [
        *((form, other) for form in FORMS for other in FORMS),
        *(("ascii", other) for other in ("json", "html", "posts", "listing")),
        *(("seed", other) for other in ("channels", "handlers")),
        *(("listing", other) for other in ("seed", "save", "channels", "handlers")),
    ],
    "step": [("json", "trace"), ("json", "state"), ("html", "json"), ("html", "trace"), ("html", "state")],
    "outcomes": [
        *(("often", other) for other in ("most-seconds", "no-reductions", "whole", "media", "all", "outcome", "scenarios", "allow", "fix")),
        *(("outcome", other) for other in ("whole", "media", "all", "scenarios", "allow", "fix")),
    ],
}

# A value for each option that takes one.
VALUES = {"seed": ["1"], "channels": ["2"], "handlers": ["2"], "save": ["0=x"], "often": ["3"], "most-seconds": ["2"]}
VALUES |= {"outcome": ["0", "0", "1", "1"], "scenarios": ["folder"], "allow": ["7F,48"], "fix": ["fixed"]}

# The ranges of numbers.
RANGES = [
    ("report", "channels", 1, 16),
    ("report", "handlers", 1, 8),
    ("report", "seed", 0, HIGHEST),
    ("report", "most-steps", 1, HIGHEST),
    ("step", "most-steps", 1, HIGHEST),
    ("outcomes", "turn", 1, 65_535),
    *(("outcomes", option, 1, 4_294_967_295) for option in ("most-states", "most-seconds", "often")),
    ("outcomes", "seeds", 0, 4_294_967_295),
]


def exclusions():
    """Words with two options that exclude each other, in either order, and the text on them."""
    for word, pairs in EXCLUSIVE.items():
        for option, other in pairs:
            if option == other:
                continue
            typed = [f"--{option}", *VALUES.get(option, []), f"--{other}", *VALUES.get(other, [])]
            yield [word, *typed], excluded(word, other, option)


def past_ranges():
    """Words with a number that is past its range, or none."""
    for word, option, least, most in RANGES:
        for value in (str(most + 1), str(least - 1), "", "x", "1.5", " 1", "0x2", "+1", "9" * 5000, "\u0661"):
            yield [word, f"--{option}={value}"], no_number(word, option, value, least, most)


# Words that a command rejects, and the first line of its text.
REJECTED = [
    (["assemble", "read.symbolic", "other"], unknown("assemble", "other")),
    (["assemble", "--channels", "2"], unknown("assemble", "--channels")),
    (["assemble", "--steps"], unknown("assemble", "--steps")),
    (["step", "--steps"], unknown("step", "--steps")),
    *((["report", *words, "--most-steps", "2"], needs("report", "--steps, --all-steps or --json"))
      for words in ([], ["--html"], ["--posts"], ["--listing"])),
    *((["step", *words, "--most-steps", "2"], needs("step", "--json")) for words in ([], ["--html"], ["--trace"])),
    (["report", "--scenario", "x"], wrong("report", "--scenario FILE needs --seed N")),
    (["check", "--save", "0=x"], unknown("check", "--save")),
    (["outcomes", "--save", "0=x"], unknown("outcomes", "--save")),
    *(
        ([word, "--load", it], no_unit_file(word, "load", it))
        for word, it in (("report", "x"), ("step", "64=x"), ("report", "=x"), ("report", "+1=x"), ("check", "0="),
                         ("outcomes", "0"))
    ),
    (["report", "--save", "64=x"], no_unit_file("report", "save", "64=x")),
    (["check", "--load", "7=x", "--load", "7=y"], wrong("check", "--load names each unit once")),
    (["outcomes", "--load", "7=x", "--load", "07=y"], wrong("outcomes", "--load names each unit once")),
    (["report", "--save", "7=x", "--save", "7=y"], wrong("report", "--save names each unit once")),
    (["outcomes", "--outcome", "0", "0", "1"], wrong("outcomes", "argument --outcome: expected 4 arguments")),
    (["outcomes", "--allow", "7f"], wrong("outcomes", "argument --allow: '7f': expected completion codes with commas between them, such as 7F,48")),
    (["outcomes", "--outcome", "0", "0", "1", "x"], no_number("outcomes", "outcome", "x", 0, 4_294_967_295)),
    (["convert", "--to", "aws", "x"], wrong("convert", "--to FORMAT and --output OUT go together")),
    (["convert", "--output", "y", "x"], wrong("convert", "--to FORMAT and --output OUT go together")),
    (["describe"], wrong("describe", "the following arguments are required: IMAGE")),
    *((["report", "--color", it], wrong("report", f"argument --color: '{it}': expected auto, always or never"))
      for it in ("", "red")),
    (["step", "--color", "never"], unknown("step", "--color")),
    (["report", "--steps=1"], wrong("report", "argument --steps: ignored explicit argument '1'")),
    (["report", "--channels", "-1"], no_number("report", "channels", "-1", 1, 16)),
    (["report", "--channels"], wrong("report", "argument --channels: expected one argument")),
    (["report", "--chan", "1"], unknown("report", "--chan")),
    (["report", "read.script", "other"], unknown("report", "other")),
]

# Words that excp_job rejects, which has `run` alone.
REJECTED_BY_JOB = [
    *((["excp_job", it], f"error: unrecognized subcommand '{it}'") for it in ("walk", "report", "check", "step")),
    (["excp_job", "--channels", "2", "run"], "error: unexpected argument '--channels' found"),
    (["excp_job"], "error: 'excp_job' requires a subcommand but one was not provided"),
    (["run", "--steps"], "error: unexpected argument '--steps' found"),
    (["run", "--load", "0=x"], "error: unexpected argument '--load' found"),
    *(
        (["run", "--channels", it], f"error: invalid value '{it}' for '--channels <N>': {it} is not in 1..=16")
        for it in ("0", "17", "256", "4294967297")
    ),
    *(
        (["run", "--handlers", it], f"error: invalid value '{it}' for '--handlers <N>': {it} is not in 1..=8")
        for it in ("0", "9", "255")
    ),
    *(
        (["run", "--channels", it], f"error: invalid value '{it}' for '--channels <N>': invalid digit found in string")
        for it in ("x", "1.5", " 1", "0x2")
    ),
    (["run", "--channels="], "error: invalid value '' for '--channels <N>': cannot parse integer from empty string"),
    (
        ["run", "--channels", "99999999999999999999"],
        "error: invalid value '99999999999999999999' for '--channels <N>': number too large to fit in target type",
    ),
    (["run", "--handlers"], "error: a value is required for '--handlers <N>' but none was supplied"),
    (["run", "--channels", "2", "--channels", "2"], "error: the argument '--channels <N>' cannot be used multiple times"),
    (["run", "--handlers", "-1"], "error: unexpected argument '-1' found"),
    (["run", "--workers", "2"], "error: unexpected argument '--workers' found"),
    (["run", "read.script"], "error: unexpected argument 'read.script' found"),
]

# Words that excp_tools rejects, which the package alone calls.
REJECTED_BY_TOOLS = [
    [],
    ["--version"],
    ["check"],
    ["step"],
    ["report", "--steps"],
    ["report", "file"],
    ["report", "form=pdf"],
    ["report", "channels=x"],
    ["report", "load=0"],
    ["report", "load=x=3=name"],
    ["report", "save=0=3"],
    ["outcomes", "turn=x"],
    ["outcomes", "all"],
    ["report", b"load=\xff"],
]

# Words that ask for help, and texts that it has, each judged alone. Help of `run` and of the whole program goes to standard
# error with status 2.
HELP = [
    (
        [["excp_job", it] for it in ("--help", "-h", "help")],
        [
            "Runs a script of EXCP requests",
            "Usage: excp_job <COMMAND>",
            "excp T U DCB IOB A SHOW LEN        task T issues a request, shows LEN bytes of it",
        ],
    ),
    (
        [["run", "--help"], ["run", "-h"], ["excp_job", "help", "run"]],
        [
            "Reads a script from standard input and prints its posts",
            "How many channel workers serve the units, 1 to 16 [default: 1]",
            "How many handlers serve interruptions, 1 to 8 [default: 1]",
        ],
    ),
]

# Words that ask for the help of another subcommand, which goes to standard output with status 0, and texts that it has.
HELP_OF_OWN = [
    (
        [["assemble", "--help"], ["assemble", "-h"]],
        ["Prints the plain script of one with symbolic areas, or every fault of it", "Usage: excp assemble"],
    ),
    (
        [["report", "--help"], ["report", "-h"]],
        [
            "the history of each unit and what lies on its medium",
            "Every command of each history too",
            "How many channel workers serve the units, 1 to 16 [default: 1]",
        ],
    ),
    ([["step", "--help"], ["step", "-h"]], ["Carries out a scenario event by event, and prints each answer at once"]),
    ([["check", "--help"], ["check", "-h"]], ["Prints every fault of a script, and warnings, as FILE:LINE: TEXT"]),
]

# Words that take the name of a script, and a script: the file gives the same as standard input.
NAMED = [
    (["report"], f"{SAMPLES}/read.script"),
    (["report", "--channels", "2", "--handlers", "2"], f"{SAMPLES}/read.script"),
    (["assemble"], STORED),
    (["assemble"], f"{CASES}/refusals/assemble.symbolic"),
    (["check"], f"{CASES}/refusals/check.script"),
    (["step"], f"{SAMPLES}/scenarios/halt-an-active-request.scenario"),
]


def run_on_file(setup, words, file=STORED):
    """Runs the program with a file as standard input, and gives the run and what it left of its input."""
    with open(file, "rb") as it:
        command = [setup.program, *words[1:]] if words[:1] == ["excp_job"] else setup.command(*words)
        ran = run(command, file=os.path.relpath(file, TOP), stdin=it.fileno())
        os.lseek(it.fileno(), 0, os.SEEK_CUR)
        rest = b""
        while part := os.read(it.fileno(), 1 << 16):
            rest += part
    return ran, rest.decode("utf-8", "surrogateescape")


def accepts(setup, words, posts):
    ran, _ = run_on_file(setup, words)
    expect(ran, (0, posts))


def reports(setup, words):
    """The program prints the posts of the stored script, and then lines of a report."""
    ran, _ = run_on_file(setup, words)
    posts = read(POSTS)
    rest = ran.out.removeprefix(posts).splitlines()
    is_report = ran.out.startswith(posts) and rest and all(it.startswith(REPORT_LINES) for it in rest)
    if (ran.status, ran.err) != (0, "") or not is_report:
        raise Failed("not the posts of the stored script and then lines of a report", ran, outcome(0, posts), ran.text())


def rejects(setup, words, first):
    """The program prints a text with this first line on standard error, and reads nothing."""
    ran, rest = run_on_file(setup, words)
    line = ran.err.partition("\n")[0]
    if (ran.status, ran.out, line) != (2, "", first):
        raise Failed("another first line, or another outcome", ran, outcome(2, "", first), outcome(ran.status, ran.out, line))
    require(rest == read(STORED), "it read its input", ran)


def shows(setup, words, text):
    """The program prints a help that has this text on standard error, and reads nothing."""
    ran, rest = run_on_file(setup, words)
    require((ran.status, ran.out) == (2, "") and text in ran.err, f"no help with the text: {text}", ran)
    require(rest == read(STORED), "it read its input", ran)


def rejects_words(setup, words):
    """excp_tools prints one line on words that the package does not hand over, and reads nothing."""
    with open(STORED, "rb") as it:
        ran = run([setup.tools, *words], stdin=it)
        require(os.lseek(it.fileno(), 0, os.SEEK_CUR) == 0, "it read its input", ran)
    expect(ran, (2, "", "excp_tools is called by excp: type excp WORD, as in excp report FILE\n"))


def are_rejected(setup, rows):
    """The package rejects each of these words by its text."""
    for words, text in rows:
        expect(setup.run(*words), (2, "", f"{text}\n"))


def is_without(said, setup, words, **how):
    """The program ends with status 1, no output, and this text."""
    expect(run(setup.command(*words), **how), (1, "", f"excp: {said}\n"))


def without_input(setup):
    is_without("script unreadable", setup, ["assemble"], stdin=None, preexec_fn=lambda: os.close(0))


def lists_to_head():
    """`tests/run --list | head` ends without a traceback."""
    for words in "--list", "--list scripts front_door":
        ran = run(["sh", "-c", f"{TOP}/tests/run {words} | head -1"])
        require((ran.status, ran.out.count("\n"), ran.err) == (0, 1, ""), "another end", ran)


def with_full_output(setup):
    with open("/dev/full", "wb") as full, open(STORED, "rb") as script:
        ran = run(setup.command("assemble"), file=os.path.relpath(STORED, TOP), stdin=script, stdout=full)
        expect(ran, (1, "", "excp: output not written\n"))


def of_file(setup, words, script):
    """The name of a script gives the same as the script on standard input, or as `-`, but for the name in each finding."""
    due, _ = run_on_file(setup, words, script)
    require(due.out or due.err, "no output", due)
    expect(run_on_file(setup, [*words, "-"], script)[0], (due.status, due.out, due.err))
    expect(run(setup.command(*words, script)), (due.status, *(it.replace("<stdin>:", f"{script}:") for it in (due.out, due.err))))


def shows_own(setup, words, text):
    """The program prints a help that has this text on standard output, on whatever lines, and reads nothing."""
    ran, rest = run_on_file(setup, words)
    has_text = text in " ".join(ran.out.split())
    require((ran.status, ran.err) == (0, "") and has_text, f"no help with the text: {text}", ran)
    require(rest == read(STORED), "it read its input", ran)


def as_stored(setup, word):
    """The help that `./excp` prints without the program is the program's own."""
    expect(run(setup.command(word, "--help")), (0, read(f"{TOP}/python/excp/help/{word}.txt")))


def prints_version(setup, word):
    """The version of excp_job is that of crates/run_options."""
    version = re.search(r'^pub const VERSION: &str = "(.*)";$', read(f"{TOP}/crates/run_options/src/lib.rt"), re.M)[1]
    expect(run([setup.program, word]), (0, f"excp_job {version}\n"))


def of_unusable(setup, word, name, why):
    """A file that cannot be read has its own text."""
    expect(run(setup.command(word, name)), (1, "", f"excp: {name}: {why}\n"))


# Scripts that are rejected, each with a part of what `check` finds: by a line, by a medium, by extents, by a request, by what no
# line declares, and by a symbolic area.
FAULTY = [
    ("tasks 1\nopne\n", ":2: Words: no line begins with 'opne'; did you mean 'open'?\n"),
    ("tasks 1\ntape 0 0 3\nwait 0\n", ":2: Medium: 3 bytes: a tape has 4 to 16777216\n"),
    ("tasks 1\ntape 0 0 12\nopen 0 out 18\nwait 0\n", ":3: "),
    ("tasks 1\ntape 0 0 12\nopen 0 out\narea 0 001000 -\nexcp 0 0 1 001000 0 001000 0\n",
     ":5: Request: the IOB at 001000 does not lie"),
    ("tape 0 0 12\n", ": Order: no line declares the tasks: add a line 'tasks N'\n"),
    ("area 0 001000\nECB 1\nendarea\n", ":2:5: Words: 1: one operand too many\n"),
]


# What is said of a text that is given for an image.
TEXT = "this is a text, not an image; 'convert --to' makes an image of a script"


def finds_what_check_finds(setup, words):
    """A script that is rejected gets what `check` prints of it, by a name and as standard input."""
    with tempfile.TemporaryDirectory() as work:
        file = f"{work}/a bad.script"
        for script, found in FAULTY:
            with open(file, "w", encoding="utf-8") as it:
                it.write(script)
            due = run(setup.command("check", file)).out
            require(f"{file}{found}" in due, f"check does not print {found!r}: {due!r}")
            expect(run(setup.command(*words, file)), (1, "", due))
            expect(setup.run(*words, file=file), (1, "", due.replace(f"{file}:", "<stdin>:")))


def converts_what_check_takes(setup):
    """`convert --to` of a script that is rejected prints what `check` prints of it. It tries no DCB and no request."""
    with tempfile.TemporaryDirectory() as work:
        file = f"{work}/a bad.script"
        for script, found in FAULTY[:2] + FAULTY[4:]:
            with open(file, "w", encoding="utf-8") as it:
                it.write(script)
            due = run(setup.command("check", file)).out
            require(f"{file}{found}" in due, f"check does not print {found!r}: {due!r}")
            expect(run(setup.command("convert", "--to", "aws", "--output", f"{work}/tape", file)), (1, "", due))
        require(os.listdir(work) == ["a bad.script"], "a file was made")


def shows_control_characters(setup):
    """A control character in the name of a file is printed as its code, in every text with a name."""
    name, shown = "a\x1b[31m\x07\x7f\n b\x9bé", "a\\x1b[31m\\x07\\x7f\\x0a b\\x9bé"
    with tempfile.TemporaryDirectory() as work:
        for word in "check", "report", "describe", "convert", "outcomes":
            expect(run(setup.command(word, name), cwd=work), (1, "", f"excp: {shown}: there is no such file\n"))
        with open(f"{work}/{name}", "w", encoding="utf-8") as it:
            it.write("tasks 1\nopne\n")
        found = f"{shown}:2: Words: no line begins with 'opne'; did you mean 'open'?\n{shown}: Order: "
        for words, output in (["check"], "out"), (["report"], "err"), (["step"], "err"), (["check", "--scenario"], "out"):
            ran = run(setup.command(*words, name), cwd=work)
            require(ran.status == 1 and getattr(ran, output).startswith(found[: found.index("\n") + 1]), "another name", ran)
        expect(run(setup.command("describe", name), cwd=work), (1, "", f"excp: {shown}: {TEXT}\n"))
        with open(f"{work}/tape{name}", "wb"):
            pass
        ran = run(setup.command("describe", f"tape{name}"), cwd=work)
        require(ran.status == 0 and ran.out.startswith(f"tape{shown}: tape image"), "another name", ran)
        for words in ["--save", f"1={name}"], ["--load", f"1=tape{name}"]:
            ran = run(setup.command("report", *words), "tasks 1\ntape 0 0 9\nwait 0\n", cwd=work)
            require(ran.status == 1 and f"excp: {words[1].replace(name, shown)}: no line declares unit 1\n" == ran.err,
                    "another name", ran)


def not_utf8(setup, words, status, text):
    """A word for excp_job that is not UTF-8."""
    expect(run(setup.command(*words)), (status, "", f"excp_job: {text}\n"))


def takes_odd_names(setup):
    """A name that is not UTF-8 names a file as others do, and is printed with its bytes as they are."""
    with tempfile.TemporaryDirectory() as work:
        name = f"{work}/\udcff.script"
        with open(name, "w", encoding="ascii") as it:
            it.write("tasks 1\ntape 0 0 -\nopen 0 on\n")
        with open(f"{work}/\udcfe", "wb"):
            pass
        expect(run(setup.command("assemble", name)), (0, "tasks 1\ntape 0 0 -\nopen 0 on\n"))
        load = f"0={work}/\udcfe"
        expect(run(setup.command("check", "--load", load, name)), (1, f"{name}:3: Number: word 3, 'on': expected in or out\n"))
        expect(run(setup.command("check", "--load", f"{load}x", name)), (1, "", f"excp: {work}/\udcfex: there is no such file\n"))
        ran = run(setup.command("describe", f"{work}/\udcfe"))
        require((ran.status, ran.err) == (0, "") and ran.out.startswith(f"{work}/\udcfe: tape image"), "another name", ran)
        expect(run(setup.command("check", "--\udcff")),
               (2, "", "excp: check: unrecognized arguments: --\udcff; excp check --help lists the options\n"))


def without_reader(setup, words, file, status, said):
    """The output goes into a pipe that nothing reads."""
    reader, writer = os.pipe()
    os.close(reader)
    try:
        with open(file, "rb") as script:
            expect(run(setup.command(*words), stdin=script, stdout=writer), (status, "", said))
    finally:
        os.close(writer)


def on_terminal(setup, words, file, environment):
    """What the program writes to a terminal, with this environment."""
    parent, child = pty.openpty()
    with open(file, "rb") as script:
        subprocess.run(setup.command(*words), stdin=script, stdout=child, stderr=child, env=environment, check=False, timeout=60)
    os.close(child)
    text = b""
    try:
        while part := os.read(parent, 1 << 16):
            text += part
    except OSError:  # the other end is closed
        pass
    os.close(parent)
    return text.decode().replace("\r\n", "\n")


def coloured(setup, words, file, marked, **environment):
    """The program writes to a terminal with the marks of colour that are due, and else what it writes to a pipe."""
    plain = {key: value for key, value in os.environ.items() if key != "NO_COLOR"}
    text = on_terminal(setup, words, file, {**plain, **environment})
    plain = run_on_file(setup, [it for it in words if not it.startswith("--color")], file)[0]
    expect_text("another text or colour than is due", Ran(words, 0), marked(plain.out + plain.err), text)


def without_colour(text):
    return text


def by_place(text):
    """Findings in colour: the place of a fault is red, and that of a note yellow."""
    mark = lambda found: f"{YELLOW if found[2].startswith('note: ') else RED}{found[1]}{PLAIN} {found[2]}"
    return re.sub(r"(?m)^(\S+:) (.*)$", mark, text)


def by_failure(text):
    """A report in colour: posts with another code than 7F are red, and commands whose status is no normal end and no equal search,
    or that are a program check. A command ends with the line of either."""
    lines, command = [], []
    for line in text.splitlines():
        command.append(line)
        if line.startswith("#         ") and not re.match(r"#           (status|program check)|#         \.\.\.", line):
            continue
        is_post = re.match(r"post \d+ \d+ \d+ (?!7F)|# +\d+ task \d+ request \d+ posted (?!7F)", line)
        has_failed = is_post or re.match(r"#           (status (?!0C00|4C00)|program check)", line)
        lines += [f"{RED}{it}{PLAIN}" if has_failed else it for it in command]
        command = []
    return "".join(f"{line}\n" for line in lines)


def colours_a_pipe(setup, script):
    """`--color always` marks what goes to a pipe, whatever NO_COLOR says; `auto` and `never` do not."""
    words = ["report", "--steps", script]
    due = run(setup.command(*words)).out
    require(by_failure(due).count(RED) > 20, "nothing of it failed")
    for when, text in (("always", by_failure(due)), ("auto", due), ("never", due)):
        for environment in ({}, {"NO_COLOR": "1"}):
            ran = run(setup.command(*words, "--color", when), env={**os.environ, **environment})
            expect_text(f"another colour with {when}", ran, text, ran.out)


def cases(setup):
    def case(name, judge, *given, **named):
        return Case(name, lambda: judge(*given, **named),
                    "tests/groups/command_line.py, by docs/MANUAL.md, docs/help and the texts of argparse and clap")

    stored = read(POSTS)
    for words in ACCEPTED:
        yield case(" ".join(words), accepts, setup, words, stored)
    plain = "".join(f"{it.rstrip(' ')}\n" for it in read(STORED).splitlines())
    yield case("assemble a plain script", accepts, setup, ["assemble"], plain)
    none = f"{tempfile.gettempdir()}/no-such-folder/none"
    for word in ("step", "outcomes", "describe", "convert"):
        yield case(f"the stored help of {word}", as_stored, setup, word)
    for word in ("report", "check", "assemble"):
        yield case(f"{word} a file that is missing", of_unusable, setup, word, f"{none}.script", "there is no such file")
        yield case(f"{word} a file below a file", of_unusable, setup, word, f"{STORED}/none", "there is no such file")
        yield case(f"{word} a folder", of_unusable, setup, word, TOP, "it is a directory")
        script = f"{SAMPLES}/read.script" if word == "check" else STORED
        yield case(f"{word} to a reader that is gone", without_reader, setup, [word], script, 0, "")
        yield case(f"the stored help of {word}", as_stored, setup, word)
    for words in (["report"], ["report", "--steps", "--channels", "2"], ["report", "--seed", "7"], ["outcomes", "--turn", "1"]):
        yield case(f"a script that {' '.join(words)} rejects", finds_what_check_finds, setup, words)
    yield case("a script that convert rejects", converts_what_check_takes, setup)
    yield case("control characters in names", shows_control_characters, setup)
    yield case("names that are not UTF-8", takes_odd_names, setup)
    yield case("run with a word that is not UTF-8", not_utf8, setup, ["run", b"\xff"], 2, "a word of the command line is not UTF-8")
    yield case("options that exclude each other", are_rejected, setup, exclusions())
    yield case("numbers past their ranges", are_rejected, setup, past_ranges())
    for words in REJECTED_BY_TOOLS:
        yield case(f"excp_tools {words}", rejects_words, setup, words)
    yield case("run to a reader that is gone", without_reader, setup, ["run"], STORED, 1, "excp_job: output not written\n")
    yield case("check of faults to a reader that is gone", without_reader, setup, ["check"], f"{CASES}/refusals/check.script", 1,
               "")
    faults, ends = f"{CASES}/refusals/check.script", f"{SAMPLES}/how-programs-end.script"
    yield case("check in colour on a terminal", coloured, setup, ["check"], faults, by_place)
    yield case("check in colour with NO_COLOR empty", coloured, setup, ["check"], faults, by_place, NO_COLOR="")
    yield case("check without colour with NO_COLOR", coloured, setup, ["check"], faults, without_colour, NO_COLOR="1")
    symbolic = f"{CASES}/refusals/assemble.symbolic"
    yield case("assemble in colour on a terminal", coloured, setup, ["assemble"], symbolic, by_place)
    steps, never = ["report", "--steps"], ["report", "--steps", "--color=never"]
    yield case("report in colour on a terminal", coloured, setup, steps, ends, by_failure)
    yield case("posts in colour on a terminal", coloured, setup, ["report", "--posts"], ends, by_failure)
    yield case("report without colour with NO_COLOR", coloured, setup, steps, ends, without_colour, NO_COLOR="1")
    yield case("report without colour with --color never", coloured, setup, never, ends, without_colour)
    yield case("report in colour with --color always", coloured, setup, [*steps, "--color=always"], ends, by_failure, NO_COLOR="1")
    yield case("report in colour to a pipe", colours_a_pipe, setup, ends)
    yield case("run without colour on a terminal", coloured, setup, ["run"], ends, without_colour)
    for word in "describe", "convert":
        text = "-: an image is not read from standard input; name a file, as ./- if that is its name"
        yield case(f"{word} of standard input", is_without, text, setup, [word, "-"])
    yield case("tests/run to a reader that is gone", lists_to_head)
    for words in (["--version"], ["-V"]):
        yield case(words[0], prints_version, setup, words[0])
    yield case("assemble with standard input closed", without_input, setup)
    yield case("assemble to a full output", with_full_output, setup)
    for words in REPORTS:
        yield case(" ".join(words), reports, setup, words)
    for words, first in [*REJECTED, *REJECTED_BY_JOB]:
        yield case(" ".join(words) or "no words", rejects, setup, words, first)
    for rows, judge in ((HELP, shows), (HELP_OF_OWN, shows_own)):
        for asked, texts in rows:
            for words in asked:
                for text in texts:
                    yield case(f"{' '.join(words)}: {text[:40]}", judge, setup, words, text)
    for words, script in NAMED:
        yield case(f"{' '.join(words)} SCRIPT", of_file, setup, words, script)
