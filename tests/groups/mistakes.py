"""Scripts with mistakes: every fault and warning that `check` prints, and that a run rejects what has a fault.

The files are tests/cases/mistakes/*.findings. `\\r`, `\\t` and `\\ufeff` in a script are a carriage return, a tab and a byte
order mark. The texts follow from docs/MANUAL.md.
"""

import os

from harness import Case, Failed, expect, files, multiple


ESCAPES = {"\\r": "\r", "\\t": "\t", "\\ufeff": "\ufeff"}


def is_found(setup, script, findings):
    """`check` prints these findings, and a run rejects the script if one of them is a fault."""
    for escape, sign in ESCAPES.items():
        script = script.replace(escape, sign)
    status = int(any(": note: " not in line for line in findings.splitlines()))
    expect(setup.run("check", script=script), (status, findings))
    ran = setup.run("run", script=script)
    if ran.status != status:
        raise Failed("another status of a run", ran, f"status {status}\n", f"status {ran.status}\n")


def cases(setup):
    for file in files("mistakes", ".findings"):
        group = os.path.basename(file).removesuffix(".findings")
        for name, script, findings, place in multiple(file):
            yield Case(
                f"{group}: {name}",
                lambda s=script, f=findings: is_found(setup, s, f),
                f"{place}, by docs/MANUAL.md",
            )
