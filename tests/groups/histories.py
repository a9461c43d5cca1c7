"""Reports of whole scripts: histories and media, every command with `--steps`, and the rule that a program check names.

The files are in tests/cases/histories: `*.report` has reports, `*.steps` has reports with every command, and
`rules.checks` has channel programs and the rule that each breaks. If a report has no history, none is compared, because
it may be one of several. All texts follow from docs/SPECIFICATION.md and docs/MANUAL.md. With `--most-steps N`, a report
with every command has only the first N of each unit.
"""

import os
import re

from groups.samples import without_history
from groups.scripts import is_printed
from harness import CASES, Case, Failed, files, multiple, read, require

RULES = f"{CASES}/histories/rules.checks"

# A disk and a tape, each with a DCB, and an area at X'1780' with an unrelated IOB, its ECB at X'17A8' and its channel
# program at X'17B0'.
DISK_AND_TAPE = """tasks 1
disk 0 0 1 1 40
rec 0 0 0 1 - C1C2C3C4
tape 1 0 40
block 1 C1C2C3C4
open 0 out 18000000000000000000000000000001
open 1 out
area 0 001780 42000000000017A8 0000000000000000 000017B000000001 0000000000000000 0000000000000001 0000000000000000"""
CHECK = "#           program check at "

# The lines of a command: one for each CCW, and then others.
OF_COMMAND = "#         "
CCW = re.compile(OF_COMMAND + "[0-9A-F]{6}  ")
LEFT_OUT = f"{OF_COMMAND}--most-steps leaves out the commands from here\n"
FOLDED = f"{OF_COMMAND}... the same "

# A job that prints bytes which are text in ASCII, and the lines that have text.
IN_ASCII = """tasks 1
printer 0 0 9 1
tape 1 0 100
block 1 48492021C1
block 1 C1C2
open 0 out
area 0 001000 4200000000001028 0000000000000000 0000103000000001 0000000000000000 0000000000000000 0000000000000000 \
0900103800000006 7C61207E7FC10000
excp 0 0 1 001000 0 001000 0
"""
ASCII_LINES = [
    "#           6 bytes from 001038: 7C61207E 7FC1  ||a ~..|",
    "# page     1 line  1 ||a ~..",
    "# data       |HI !.|",
]


def is_reported(setup, script, wanted):
    is_printed(setup, ["report"], script, wanted, str if "# unit " in wanted else without_history)


def shortened(report, most):
    """A report with every command, of which each unit has only the first `most`."""
    lines, left, before = [], most, ""
    for line in report.splitlines(keepends=True):
        if line.startswith("# unit "):
            left = most
        begins = (CCW.match(line) or line.startswith(CHECK)) and not CCW.match(before)
        if begins and left == 0:
            lines.append(LEFT_OUT)
        if begins:
            left -= 1
        if left >= 0 or not line.startswith(OF_COMMAND):
            lines.append(line)
        before = line
    return "".join(lines)


def is_shortened(setup, script, stored, most):
    """A report with every command has only the first `most` of each unit. One that is stored with folded loops is shortened as the
    program prints it without them."""
    whole = setup.run("report", "--all-steps", script=script).out if FOLDED in stored else stored
    is_printed(setup, ["report", "--all-steps", "--most-steps", str(most)], script, shortened(whole, most))


def is_in_ascii(setup):
    """With `--ascii` bytes that a command moves, keys, blocks and lines of paper have the text that ASCII gives them."""
    ran = setup.run("report", "--steps", "--ascii", script=IN_ASCII)
    found = [line for line in ran.out.splitlines() if "|" in line]
    require((ran.status, ran.err, found) == (0, "", ASCII_LINES), "other text", ran)
    for form in "--json", "--html", "--posts", "--listing":
        ran = setup.run("report", "--ascii", form, script=IN_ASCII)
        require((ran.status, ran.out) == (2, "") and "--ascii" in ran.err, f"--ascii with {form}", ran)


def names_rule(setup, script, rule):
    """The report names this rule, and no other."""
    ran = setup.run("report", "--steps", script=script)
    found = [line.removeprefix(CHECK) for line in ran.out.splitlines() if line.startswith(CHECK)]
    if (ran.status, ran.err, found) != (0, "", [rule]):
        raise Failed("another rule, or none", ran, f"{rule}\n", "\n".join([*found, ran.err]))


def cases(setup):
    for suffix in ".report", ".steps":
        for file in files("histories", suffix):
            group = os.path.basename(file).removesuffix(suffix)
            for name, script, wanted, place in multiple(file):
                if suffix == ".report":
                    judge = lambda s=script, w=wanted: is_reported(setup, s, w)
                else:
                    judge = lambda s=script, w=wanted: is_printed(setup, ["report", "--steps"], s, w)
                yield Case(f"{group}: {name}", judge, f"{place}, by docs/SPECIFICATION.md and docs/MANUAL.md")
                if suffix == ".steps":
                    for most in 1, 3:
                        judge = lambda s=script, w=wanted, m=most: is_shortened(setup, s, w, m)
                        yield Case(f"{group}: {name}, {most} of its commands", judge, f"{place}, shortened")
    yield Case("text in ASCII", lambda: is_in_ascii(setup), "docs/MANUAL.md, and ASCII (RFC 20)")
    for number, line in enumerate(read(RULES).splitlines(), 1):
        if line.startswith("#"):
            continue
        program, _, rule = line.partition(": ")
        unit, _, program = program.partition(" ")
        script = f"{DISK_AND_TAPE} {program}\nexcp 0 {unit} 1 001780 0 001780 0\n"
        yield Case(
            f"rules: {rule}",
            lambda s=script, r=rule: names_rule(setup, s, r),
            f"tests/cases/histories/rules.checks, line {number}, by docs/SPECIFICATION.md",
        )
