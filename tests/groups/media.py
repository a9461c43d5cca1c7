"""Media of reports, put into the next job: a report of a job that does nothing gives the same media again.

The media are those of samples/, of tests/cases/histories, and media at random.
"""

import glob
import os
import random

from harness import SAMPLES, Case, Failed, files, multiple, read

# How many media at random are tried, and in the long form.
COUNT = 100
LONG = 1000


def left(setup, script):
    """The run, and the set-up lines after the posts of a script's report."""
    ran = setup.run("report", script=script)
    lines = ran.out.split("\n")
    end = next((at for at, line in enumerate(lines) if line.startswith("end ")), None)
    if ran.status or ran.err or end is None:
        raise Failed("no report", ran, None, ran.text())
    return ran, [line for line in lines[end + 1 :] if not line.startswith("#")]


def is_given_again(setup, script, declared=None):
    """The media that a script leaves come back if they are put in. If they are declared, the script leaves just these."""
    ran, media = left(setup, script)
    if declared is not None and media != declared:
        raise Failed("media other than declared", ran, "\n".join(declared), "\n".join(media))
    if not media:
        raise Failed("no media", ran)
    ran, again = left(setup, job(media))
    if again != media:
        raise Failed("other media the second time", ran, "\n".join(media), "\n".join(again))


def job(media):
    """A job that has these media and does nothing."""
    return "\n".join(["tasks 1", *media, "wait 0", ""])


def scripts():
    """The scripts whose media are put in, with their names."""
    for file in sorted(glob.glob(f"{SAMPLES}/*.script")):
        yield os.path.basename(file), read(file)
    for suffix in ".report", ".steps":
        for file in files("histories", suffix):
            for name, script, _, _ in multiple(file):
                yield name, script


def digits(chance, count):
    return chance.randbytes(count).hex().upper() or "-"


def units_at_random(chance):
    """A disk with up to three records on each of its tracks, in the order of tracks, a tape of up to five items, and a
    printer, as a report writes them."""
    cylinders, heads = chance.randint(1, 3), chance.randint(1, 3)
    lines = [f"disk 0 0 {cylinders} {heads} {chance.randint(300, 363)}"]
    for track in range(cylinders * heads):
        for _ in range(chance.randrange(4)):
            key, data = digits(chance, chance.randrange(9)), digits(chance, chance.randrange(64))
            lines.append(f"rec 0 {track // heads} {track % heads} {chance.randint(1, 255)} {key} {data}")
    lines.append(f"tape 1 7 {chance.randint(400, 463)}")
    for _ in range(chance.randrange(6)):
        lines.append(chance.choice(["mark 1", f"block 1 {digits(chance, chance.randint(1, 64))}"]))
    lines.append(f"printer 2 5 {chance.randint(1, 64)} {chance.randint(1, 64)}")
    return [*lines, ""]


def cases(setup):
    origin = "docs/MANUAL.md: a report gives each medium as set-up lines that the next job may have"
    for name, script in scripts():
        yield Case(name, lambda s=script: is_given_again(setup, s), origin)
    chance = random.Random(3)
    for number in range(1, (LONG if setup.is_long else COUNT) + 1):
        units = units_at_random(chance)
        yield Case(f"media at random {number}", lambda u=units: is_given_again(setup, job(u), u), origin)
