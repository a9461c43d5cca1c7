"""Whole scripts and the posts that they print, or the fault for which they are rejected, by one worker and by several.

The files are tests/cases/scripts/*.posts. If a script may end in several ways, a line `--- or` is between them. Their
texts follow from docs/SPECIFICATION.md; none was taken from the program.
"""

import os

from harness import Case, Failed, expect, files, multiple

WORKERS = [("1", "1"), ("2", "3"), ("16", "8")]


def is_printed(setup, words, script, wanted, kept=str):
    """The program prints one of the wanted texts with each number of workers. `kept` gives what counts of its output."""
    ways = wanted.split("--- or\n")
    if "" in ways:
        raise Failed("the case has no text that is to be printed")
    due = [(1, "", way) if way.startswith("excp_job: ") else (0, way) for way in ways]
    for channels, handlers in WORKERS:
        ran = setup.run(*words, "--channels", channels, "--handlers", handlers, script=script)
        ran.out = kept(ran.out)
        expect(ran, *due)


def cases(setup):
    for file in files("scripts", ".posts"):
        group = os.path.basename(file).removesuffix(".posts")
        for name, script, wanted, place in multiple(file):
            yield Case(
                f"{group}: {name}",
                lambda s=script, w=wanted: is_printed(setup, ["run"], s, w),
                f"{place}, by docs/SPECIFICATION.md",
            )
