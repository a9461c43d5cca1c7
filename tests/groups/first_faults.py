"""`check` finds no fault in a script exactly if it runs, and else finds the fault that a run reports, as the first one. Of a job
with symbols it finds the mistakes of `assemble`, or what it finds in the plain script.

The scripts are those of samples/ and of tests/cases, and such scripts broken at random: a word dropped, replaced or swapped with
another, a digit changed, a line dropped, moved or put in twice. tests/faults.py says which fault is the first. The group hostile
asks the same of its scripts.
"""

import glob
import os
import random

from faults import OF_LINES, OF_SCRIPTS, has_symbols, require_alike
from groups.histories import DISK_AND_TAPE, RULES
from harness import CASES, SAMPLES, TOP, Case, encoded, files, multiple, read, require

# How many times so many scripts are broken at random, and in the long form.
COUNT = 8
LONG = 200
EACH = 100

# The most bytes of a script that is broken: larger ones run for long.
MOST = 6000

# How many kinds of fault may be missing among those of so many broken scripts.
FEW = 3

MANY = ".posts", ".report", ".steps", ".findings", ".assembled"


def stored():
    """The stored scripts, with the name and the origin of each."""
    for suffix in "script", "symbolic", "assembled":
        for file in sorted(glob.glob(f"{SAMPLES}/*.{suffix}")):
            yield os.path.relpath(file, TOP), read(file), os.path.relpath(file, TOP)
    for file in [f"{TOP}/crates/excp_job/stdin", f"{CASES}/refusals/check.script", f"{CASES}/refusals/assemble.symbolic"]:
        yield os.path.relpath(file, TOP), read(file), os.path.relpath(file, TOP)
    for folder in "scripts", "histories", "mistakes", "assembler":
        for suffix in MANY:
            for file in files(folder, suffix):
                for name, script, _, place in multiple(file):
                    yield f"{folder}: {name}", script.replace("\\r", "\r").replace("\\t", "\t"), place
    for number, line in enumerate(read(RULES).splitlines(), 1):
        if not line.startswith("#"):
            program, _, rule = line.partition(": ")
            unit, _, program = program.partition(" ")
            script = f"{DISK_AND_TAPE} {program}\nexcp 0 {unit} 1 001780 0 001780 0\n"
            yield f"rules: {rule}", script, f"tests/cases/histories/rules.checks, line {number}"


def words_by_place(scripts):
    """The words of scripts by the first word of their line and their place in it."""
    found = {}
    for script in scripts:
        for line in encoded(script).split(b"\n"):
            first, *others = line.split(b" ")
            for at, word in enumerate(others, 1):
                found.setdefault((first, at), []).append(word)
    return found


def broken(chance, script, words):
    """A script with one to three things changed at random. Words that are put in are those of other lines at this place."""
    lines = [line.split(b" ") for line in encoded(script).split(b"\n") if line and not line.startswith(b"#")]
    lines = lines or [[b""]]
    for _ in range(chance.choice([1, 1, 2, 3])):
        number = chance.randrange(len(lines))
        line = lines[number]
        at, other = (chance.randrange(min(1, len(line) - 1), len(line)) for _ in range(2))
        change = chance.randrange(20)
        if change == 0 and len(lines) > 1:
            del lines[number]
        elif change == 1:
            lines.insert(chance.randrange(len(lines)), lines.pop(number))
        elif change == 2:
            lines.insert(number, list(line))
        elif change == 3 and len(line) > 1:
            del line[at]
        elif change == 4:
            line[0], line[at] = line[at], line[0]
        elif change < 8:
            line[at], line[other] = line[other], line[at]
        elif change < 13:
            line[at] = chance.choice(words.get((line[0], at), [b"0"]))
        else:
            line[at] = with_digit(chance, line[at])
    return b"\n".join(b" ".join(line) for line in lines) + b"\n"


def with_digit(chance, word):
    """A word with one of its bytes changed into a digit."""
    at = chance.randrange(max(1, len(word)))
    return word[:at] + chance.choice([b"0", b"1", b"2", b"7", b"9", b"F"]) + word[at + 1 :]


def are_alike(setup, seed, scripts, words):
    """Scripts broken at random are each judged. Some run, and the others have faults of all kinds but a few."""
    chance = random.Random(seed)
    names = {require_alike(setup, broken(chance, chance.choice(scripts), words)) for _ in range(EACH)}
    lacking = {"", *OF_LINES, *OF_SCRIPTS} - names
    require(len(lacking) <= FEW, f"of {EACH} broken scripts none has one of these faults: {' '.join(sorted(lacking))}")


def cases(setup):
    origin = "docs/MANUAL.md, by the order in which a run looks for faults"
    small = []
    for name, script, place in stored():
        if len(script) <= MOST and not has_symbols(script) and script:
            small.append(script)
        yield Case(name, lambda s=script: require_alike(setup, s) and None, f"{place}, and {origin}")
    words = words_by_place(small)
    for number in range(1, (LONG if setup.is_long else COUNT) + 1):
        yield Case(f"broken at random: {number}", lambda n=number: are_alike(setup, n, small, words), origin)
