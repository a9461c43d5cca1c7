"""Which fault of a script comes first: what a run is to report, by what `check` finds.

`check` prints every fault, in the order of lines. A run reports one, and looks in this order (docs/MANUAL.md, "What is told of
a script that does not run"): faults of single lines; tasks or units that no line declares, which it reports at line 0; Medium,
in the order of units; then Extent, and last Request, each in the order of lines. A fault Medium of `check` is at the line that
causes it, which may be a record, a block, a mark or a fault; a run reports the line of the unit.
"""

import re

from harness import Failed, cut, decoded, encoded

# The faults of single lines.
OF_LINES = "Words", "Number", "Order", "Name", "Kind", "Area"

# The faults of a whole script, in the order in which a run looks for them.
OF_SCRIPTS = "Medium", "Extent", "Request"

# A line of `check`: a fault or a note, with its line if it has one.
FOUND = re.compile(rf"<stdin>(?::([1-9][0-9]*))?: (note|{'|'.join([*OF_LINES, *OF_SCRIPTS])}): .+\n")

# What a run reports of a script that it rejects.
REPORTED = re.compile(r"excp_job: (line [0-9]+: [A-Z][a-z]+|script too long)\n")

# What a run says of a script that is too long, and what the words of the package do.
RUN_TOO_LONG, TOO_LONG = "excp_job: script too long\n", "excp: <stdin>: the script has more than 1,048,576 bytes\n"

UNITS = b"disk", b"tape", b"printer"

# The most lines that a failure shows of a script, and of an output.
LINES = 40


def words_of(script):
    """The words of each line, by the number of the line."""
    lines = encoded(script).split(b"\n")
    return {number: [it for it in line.split(b" ") if it] or [b""] for number, line in enumerate(lines, 1)}


def place_of(line, name, words):
    """Where a run comes to a fault of `check`, the least of these being the first one; and the line that it reports."""
    if name in OF_LINES:
        return ((0, line), line) if line else ((1, 0), 0)
    stage = 2 + OF_SCRIPTS.index(name)
    if name != "Medium":
        return (stage, line), line
    unit = int(words[line][1])
    declared = next(at for at, them in words.items() if them[0] in UNITS and them[1].isdigit() and int(them[1]) == unit)
    return (stage, unit), declared


def due(findings, script):
    """What a run is to report, by the faults that `check` found, each a line, if it has one, and a name. Nothing if it is to
    run."""
    if not findings:
        return ""
    words = words_of(script)
    places = [(*place_of(line, name, words), name) for line, name in findings]
    _, line, name = min(places)
    return f"excp_job: line {line}: {name}\n"


# The words that show that a line is in symbols, in capitals or not, from which word of the line on. So does an apostrophe there.
SIGNS = {
    b"open": (3, b"all track tracks cylinder cylinders"),
    b"rec": (5, b"key data"),
    b"block": (2, b""),
    b"fault": (2, b"at check reject required overrun"),
}

# A finding in a job with symbols.
PLACED = re.compile(rf"<stdin>(?::([0-9]+)(?::[0-9]+)?)?: (note|{'|'.join([*OF_LINES, *OF_SCRIPTS])}): .+?"
                    r"(?: \(excp in line ([0-9]+)\))?\n")


def has_symbols(script):
    """Whether a script has a symbolic form (docs/ASSEMBLER.md): then it is a job to be assembled, which no run takes."""
    for line in encoded(script).split(b"\n"):
        said = re.match(rb"(?:[^;']|'[^']*(?:'|$))*", line)[0].rstrip(b" \t").removesuffix(b"\r")
        first, *words = [it for it in re.split(rb"[ \t]", said) if it] or [b""]
        place, signs = SIGNS.get(first, (len(words) + 1, b""))
        if first == b"endarea" or any(it.lower() in signs.split() or b"'" in it for it in words[place - 1 :]):
            return True
    return False


def placed(out, script):
    """The line and the name of each finding, in order. One in an area in symbols counts at the end of the area, where the plain
    script has it, and one that names its request at that."""
    ends, began = {}, 0
    for number, words in words_of(script).items():
        first = words[0].removesuffix(b"\r")
        if first == b"area":
            began = number
        if first == b"endarea":
            ends |= dict.fromkeys(range(began, number), number)
    found = [PLACED.fullmatch(it) for it in out.splitlines(keepends=True)]
    if not all(found):
        raise Failed(f"`check` prints a line of another form: {out.splitlines()[found.index(None)]!r}")
    return sorted((int(it[3] or ends.get(int(it[1] or 0), it[1] or 0)), it[2]) for it in found)


def symbols_alike(setup, script):
    """Fails unless a run rejects a job with symbols, and `check` prints the mistakes of `assemble`, or else finds what it finds in
    the plain script."""
    ran = setup.run("run", "--channels", "1", "--handlers", "1", script=script)
    if ran.status != 1 or ran.out or not REPORTED.fullmatch(ran.err):
        raise Failed("a run takes a job with symbols", ran)
    assembled, checked = setup.run("assemble", script=script), setup.run("check", script=script)
    found = checked.out
    if assembled.status == 0:
        plain = setup.run("check", script=assembled.out)
        found, wanted = placed(found, script), (plain.status, placed(plain.out, script), plain.err)
    else:
        wanted = (1, assembled.err, "") if assembled.err != TOO_LONG else (1, "", TOO_LONG)
    if (checked.status, found, checked.err) != wanted:
        raise Failed("`check` finds something else than in the plain script", checked)
    if assembled.status == 0 and not has_symbols(assembled.out):
        require_alike(setup, assembled.out)
    return ""


def require_alike(setup, script, ran=None):
    """Fails unless `check` finds no fault in a script exactly if a run has none, and else first the one that the run reports.
    Returns the name of the run's fault, or nothing."""
    if has_symbols(script):
        return symbols_alike(setup, script)
    ran = ran or setup.run("run", "--channels", "1", "--handlers", "1", script=script)
    checked = setup.run("check", script=script)

    def fail(what):
        raise Failed(f"{what}\n{both(script, ran, checked)}", ran)

    is_rejected = bool(ran.err)
    if ran.status != int(is_rejected) or (is_rejected and (ran.out or not REPORTED.fullmatch(ran.err))):
        fail("the run ended neither with posts nor with a fault")
    if ran.err == RUN_TOO_LONG or checked.err:
        if (ran.err, checked.status, checked.out, checked.err) != (RUN_TOO_LONG, 1, "", TOO_LONG):
            fail("`check` does not reject the script as too long")
        return "too long"
    lines = checked.out.splitlines(keepends=True)
    found = [FOUND.fullmatch(it) for it in lines]
    if not all(found):
        fail(f"`check` prints a line of another form: {lines[found.index(None)]!r}")
    findings = [(int(it[1] or 0), it[2]) for it in found]
    faults = [it for it in findings if it[1] != "note"]
    if checked.status != int(bool(faults)):
        fail(f"`check` found {len(faults)} faults and ended with status {checked.status}")
    places = [line or len(encoded(script)) + 2 for line, _ in findings]
    if places != sorted(places):
        fail("`check` does not print in the order of lines")
    if ran.err != due(faults, script):
        wanted = due(faults, script).strip() or "no fault"
        fail(f"by what `check` finds, a run is to report: {wanted}")
    return ran.err.split()[-1] if is_rejected else ""


def both(script, ran, checked):
    """A script, and what `run` and `check` print of it."""
    parts = ("script", decoded(encoded(script))), ("run", ran.out + ran.err), ("check", checked.out + checked.err)
    return "\n".join(f"  --- {name}\n" + "\n".join(f"  {it}" for it in cut(text.splitlines(), LINES)) for name, text in parts)
