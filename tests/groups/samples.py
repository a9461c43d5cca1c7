"""The jobs of samples/: their posts, reports and steps, and `check`, which finds no fault in them."""

import glob
import os
import re

from harness import SAMPLES, TOP, Case, Failed, expect, outcome, read

# A line of `check` that is a warning.
NOTE = re.compile(r"[^:]+(?::[0-9]+)?: note: .*\n")


def without_history(text):
    """The lines of a report without those of the histories."""
    return "".join(line for line in text.splitlines(keepends=True) if not line.startswith(("# unit ", "#  ")))


def is_printed(setup, words, script, stored):
    """The program prints a stored text, or the one stored beside it as NAME.or.SUFFIX. Histories count if the stored text
    has some."""
    name, suffix = os.path.splitext(stored)
    texts = [read(it) for it in (stored, f"{name}.or{suffix}") if os.path.exists(it)]
    ran = setup.run(*words, file=script)
    if "# unit " not in texts[0]:
        ran.out = without_history(ran.out)
    expect(ran, *((0, it) for it in texts))


def is_checked(setup, script):
    """`check` prints warnings only."""
    ran = setup.run("check", file=script)
    if (ran.status, ran.err) != (0, "") or NOTE.sub("", ran.out):
        raise Failed("not only notes", ran, outcome(0, "".join(NOTE.findall(ran.out))), ran.text())


def cases(setup):
    for script in sorted(glob.glob(f"{SAMPLES}/*.script")):
        name = script.removesuffix(".script")
        for words, suffix in (["run"], "posts"), (["report"], "report"), (["report", "--steps"], "steps"):
            stored = f"{name}.{suffix}"
            if suffix != "steps" or os.path.exists(stored):
                yield Case(
                    f"{' '.join(words)} {os.path.basename(script)}",
                    lambda w=words, s=script, t=stored: is_printed(setup, w, s, t),
                    f"{os.path.relpath(stored, TOP)}, by docs/SPECIFICATION.md and docs/MANUAL.md",
                )
    for script in [*sorted(glob.glob(f"{SAMPLES}/*.script")), f"{TOP}/crates/excp_job/stdin"]:
        name = os.path.relpath(script, TOP)
        yield Case(f"check {name}", lambda s=script: is_checked(setup, s), f"{name} has no fault: it runs")
