"""Mutants of a crate that one check tries side by side, each in the body of another function.

The proof of a function reads its own body, and of each other function only the contract. So a complaint at a place inside a
function is about the mutant of that function, whatever else is changed. A batch has at most one mutant of a function, and no two
functions of which one names the other. A mutant with a change outside a body has no place in a batch.

A batch counts for nothing if the check does not end as one that refuses proofs, if it complains at a place in none of the
functions, or if it refuses something because another thing was refused.
"""

import re
import time

from edit_form import BadEdit, applied, lines_of

# A complaint of a proof, at a place in the code.
COMPLAINT = re.compile(r"note: (?:\./)?(src/[^\s:]+):(\d+):\d+: it is not proved .*")

# What makes a batch count for nothing, wherever it is in what the check says.
DOUBT = re.compile(r"was not admitted|could not tell|\berror\[|(?m:^(?:note: )?(?:\./)?(?:src|specs)/\S+ error)")

# The most mutants that one check tries.
MOST = 8


def site_of(edit, folder):
    """The one function in whose body a mutant has all its changes, or none."""
    try:
        _, sites = applied(lines_of(edit), folder)
    except BadEdit:
        return None
    is_one = all(it and (it.path, it.first) == (sites[0].path, sites[0].first) for it in sites)
    return sites[0] if is_one else None


def parted(edits, folder):
    """The mutants that can be tried side by side, in batches of edits and their functions."""
    made = []
    for edit in edits:
        site = site_of(edit, folder)
        if not site:
            continue
        room = next((it for it in made if len(it) < MOST and all(site.is_apart(other) for other in it.values())), None)
        if room is None:
            made.append(room := {})
        room[edit] = site
    return [it for it in made if len(it) > 1]


def complaints(ran, sites):
    """The first complaint in each function, by the number of its mutant; none at all if the batch counts for nothing."""
    last = ran.stdout.rstrip("\n").rpartition("\n")[2]
    if ran.returncode != 1 or not last.startswith("logic=not-proved") or DOUBT.search(ran.stdout):
        return {}
    found = {}
    for line in ran.stdout.split("\n"):
        at = COMPLAINT.match(line)
        if at:
            number = next((it for it, site in enumerate(sites) if site.has(at[1], int(at[2]))), None)
            if number is None:
                return {}
            found.setdefault(number, at[0].removeprefix("note: "))
    return found


def rejected(rt, crate, edits, kept):
    """Of these mutants, those that are rejected side by side: for each its share of the seconds, and where."""
    result = {}
    for batch in parted(edits, crate.folder):
        try:
            texts, _ = applied([line for it in batch for line in lines_of(it)], crate.folder)
        except BadEdit:
            continue
        begun = time.monotonic()
        ran = rt.checked(crate, texts, ["--jobs", "1"], kept)
        share = (time.monotonic() - begun) / len(batch)
        found = complaints(ran, list(batch.values()))
        result |= {edit: (share, found[number]) for number, edit in enumerate(batch) if number in found}
    return result
