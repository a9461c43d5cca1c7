"""Theorems by computation with a number changed: the prover rejects each.

The theorems are in the files of proofs/ whose first line begins with `-- Worked`. A number is a numeral, `true` or `false`.
Those that a theorem has after `≡`, as what is computed, are changed one at a time, in all theorems of a file at once: the
prover reports each theorem of which a number is changed. If a theorem has none there, its other numbers are changed, and
those of the abbreviations of its file that it names, to one more and to one less; the prover rejects at least one such change.
"""

import glob
import os
import re
from dataclasses import dataclass

from harness import Failed, read, require

# A numeral, but no name of a field and no number of a universe; or a truth value.
NUMBER = re.compile(r"(?<![\w.{])(?:0x[0-9A-F]+|\d+(?:_\d+)*)(?![\w}]| = )|\b(?:true|false)\b")

# A definition: its name, and where its type begins.
HEAD = re.compile(r"(?m)^(?:pub )?(abbrev )?(?:pub )?([a-z][\w-]*) :")

# The theorems that hold whatever their numbers are, since none says what is computed.
WITHOUT = {"stray_opens": "an empty world opens with any numbers"}


@dataclass
class Stated:
    """A definition or a theorem of a file: its name, where its statement is, and whether it is an abbreviation."""

    name: str
    begin: int
    end: int
    is_abbrev: bool
    is_theorem: bool
    body: str = ""


def changed(number):
    """A number that is not this one."""
    truth = {"true": "false", "false": "true"}
    if number in truth:
        return truth[number]
    return f"0x{int(number, 16) + 1:X}" if number.startswith("0x") else str(int(number.replace("_", "")) + 1)


def lessened(number):
    """The number one less than this one; of a truth value and of 0, as `changed`."""
    if number in ("true", "false", "0"):
        return changed(number)
    return f"0x{int(number, 16) - 1:X}" if number.startswith("0x") else str(int(number.replace("_", "")) - 1)


def definitions(text):
    """What a file defines, in its order."""
    heads = list(HEAD.finditer(text))
    found = []
    for head, behind in zip(heads, [*heads[1:], None]):
        whole = text[head.start() : behind.start() if behind else len(text)]
        equation = re.search(rf"(?m)^(?:unfolding\b|{re.escape(head[2])}\b.*(?:=|$))", whole[head.end() - head.start() :])
        end = head.end() + equation.start() if equation else head.end()
        body = text[end : head.start() + len(whole)]
        is_theorem = not head[1] and bool(re.search(r"\brefl\b|\bomega\b", body))
        found.append(Stated(head[2], head.end(), end, bool(head[1]), is_theorem, body))
    return found


def computed(text, theorem):
    """Where the numbers are that a theorem says are computed."""
    places = []
    for sign in re.finditer("≡", text[theorem.begin : theorem.end]):
        begin = theorem.begin + sign.end()
        end = re.compile(r"×|→|≡").search(text, begin, theorem.end)
        places += [it.span() for it in NUMBER.finditer(text, begin, end.start() if end else theorem.end)]
    return places


def others(text, theorem, all_of_them):
    """Where the other numbers of a theorem are, and those of the abbreviations that it names, and that these name."""
    by_name = {it.name: it for it in all_of_them if not it.is_theorem}
    places = [it.span() for it in NUMBER.finditer(text, theorem.begin, theorem.end)]
    # what comes last in a statement is what is computed: its numbers are tried first
    names, seen = re.findall(r"[a-z][\w-]*", text[theorem.begin : theorem.end])[::-1], set()
    while names:
        it = by_name.get(names.pop(0))
        if it and it.name not in seen:
            seen.add(it.name)
            begin = it.end + len(it.name)
            places += [found.span() for found in NUMBER.finditer(text, begin, it.end + len(it.body))]
            names += re.findall(r"[a-z][\w-]*", it.body)
    return places


def with_changed(text, places, change=changed):
    """The text with the numbers at these places changed."""
    for begin, end in sorted(places, reverse=True):
        text = text[:begin] + change(text[begin:end]) + text[end:]
    return text


def rejected(ran, path):
    """The theorems of a file that a check reports; none if all are proved."""
    require(ran.returncode in (0, 1), f"NOT TRIED: the check of {path} with changed numbers ended with status {ran.returncode}")
    return set(re.findall(rf"(?m)^(?:\./)?{re.escape(path)}:\d+:\d+: error: `([\w-]+)`", ran.stdout))


def files_of(folder):
    """The files of a crate with theorems by computation. A Lib.antt only lists files."""
    files = sorted(glob.glob(f"{folder}/proofs/**/*.antt", recursive=True))
    files = [it for it in files if os.path.basename(it) != "Lib.antt"]
    return [os.path.relpath(it, folder) for it in files if read(it).startswith("-- Worked ")]


def judged(text, path, check):
    """Changes the numbers of the theorems of a file, and gives how many theorems and changes there were. `check` checks the
    crate with another text in place of this file."""
    found = definitions(text)
    theorems = [it for it in found if it.is_theorem and it.name not in WITHOUT]
    require(theorems, f"{path} has no theorem")
    places = {it.name: computed(text, it) for it in theorems}
    changes = 0
    for at in range(max(map(len, places.values()))):
        now = {name: its[at] for name, its in places.items() if at < len(its)}
        missed = sorted(set(now) - rejected(check(with_changed(text, now.values())), path))
        changes += len(now)
        if missed:
            shown = [f"{it}: {text[slice(*now[it])]} to {changed(text[slice(*now[it])])}" for it in missed]
            raise Failed(f"NOT REJECTED: {path}: {'; '.join(shown)}")
    for theorem in theorems:
        if not places[theorem.name]:
            changes += one_rejected(text, path, check, theorem, found)
    return len(theorems), changes


def one_rejected(text, path, check, theorem, found):
    """Changes the other numbers of a theorem one after another until it is rejected, and gives how many that took."""
    tried = 0
    for place in others(text, theorem, found):
        for change in changed, lessened:
            tried += 1
            if theorem.name in rejected(check(with_changed(text, [place], change)), path):
                return tried
    raise Failed(f"NOT REJECTED: {path}: {theorem.name}, with any of {tried} numbers changed")
