#!/usr/bin/env python3
"""Prints what each public call that can return an error rejects, as a table of Markdown.

    tools/refusals.py            the libraries, and the crates of a run
    tools/refusals.py CRATE ..   these crates

It reads the doc comments of the calls, from a sentence on that begins with "Error". If a comment has none, the type of the error says
enough, or the call is a fault. The last line is `N passed, M failed`, and the exit status is 1 if a call failed.
"""

import re
import sys

sys.dont_write_bytecode = True

from calls import TOP, calls  # noqa: E402

LAYERS, OF_A_RUN = "bytes devices images channel unit system library".split(), "script_words job_script job_mount job_run".split()
ERROR = re.compile(r"-> (?:(?P<io>io::|Io)?Result<(?P<types>.*)>)$")

# What a call rejects whose comment has no such sentence, by the type of its error.
BY_TYPE = {"AllocError": "out of memory", "AllocFailed": "out of memory: it hands back what it got", "io": "a failed write"}
BY_TYPE |= {"FaultName": "the first fault of the line", "LineError": "the first fault of the line; out of memory"}


def libraries():
    """The crates of the libraries and of a run, in the order of crates.txt."""
    with open(f"{TOP}/crates.txt", encoding="utf-8") as it:
        parts = re.findall(r"^# (\w+)\n+((?:\w.*\n)*)", it.read(), re.M)
    named = [(layer, name) for layer, lines in parts for name in re.findall(r"^\w+", lines, re.M)]
    return [name for layer, name in named if (layer in LAYERS and name != "excp_c") or name in OF_A_RUN]


def rows(crate):
    """Each public call of a crate that can return an error: its name, and what it rejects, or nothing."""
    for call in calls(crate):
        error = ERROR.search(call.signature.replace("<(), ", "<_, ").replace(", >", ">"))
        if error:
            said = re.search(r"\bErrors?\b.*", call.comment)
            kind = "io" if error["io"] or not re.search(r"\w+Err|Refusal|FaultName|Alloc|, ", error["types"]) else error["types"]
            known = next((it for name, it in BY_TYPE.items() if re.search(rf"(?:^|, )\(?{name}\b[^,]*$", kind)), "")
            yield call.name, said[0] if said else known


def main(crates):
    found = [(crate, *row) for crate in crates or libraries() for row in rows(crate)]
    print("| Crate | Call | Rejects |\n|---|---|---|")
    print("".join(f"| {crate} | `{name}` | {text} |\n" for crate, name, text in found if text), end="")
    silent = [f"{crate}: {name}: no sentence of its comment begins with Error" for crate, name, text in found if not text]
    print("\n".join([*silent, f"{len(found) - len(silent)} passed, {len(silent)} failed"]))
    return 1 if silent or not found else 0


sys.exit(main(sys.argv[1:]))
