"""The edits of mutants: what each changes in the files of its crate.

An edit is lines. `fn: NAME` or `fn: TYPE::NAME` names a function of the crate. Then comes for each change a line `old: PATTERN`
and a line `new: TEXT`. The pattern is once in the bodies of the functions with this name. A blank of it is any blanks, also a
line's end. An `…` is any text of one line, and the `…` of the new text are the same texts.

In place of a function a line `file: PATH` names a file, as in the form of the kit: the old text is in it once, as it is written.
"""

import difflib
import glob
import os
import re
from dataclasses import dataclass

from harness import read

# The first line of a function, as `rt fmt` lays it out: how far it is indented, and its name. The type that it is of.
HEAD = re.compile(r"^( *)(?:pub(?:\([a-z ]+\))? )?(?:extern \S+ )?fn ([a-z]\w*)\b", re.M)
OWNER = re.compile(r"^(?:pub(?:\([a-z ]+\))? )?(?:impl|trait)\b(?:<.*?>)? ?(?:.* for )?(\w+)", re.M)

ANY = "…"


class BadEdit(Exception):
    """Why an edit cannot be applied."""


@dataclass(frozen=True)
class Site:
    """A function: its file, its name, the type that it is of, where in the file it begins, its text, and where in that the body
    begins; its first and last line."""

    path: str
    name: str
    owner: str
    start: int
    text: str
    body: int
    first: int
    last: int

    def has(self, path, line):
        return self.path == path and self.first <= line <= self.last

    def is_apart(self, other):
        """Whether this is another function, and neither names the other."""
        names = any(re.search(rf"\b{one.name}\b", two.text) for one, two in ((self, other), (other, self)))
        return not names and not self.has(other.path, other.first) and not other.has(self.path, self.first)


def functions(path, text, name=""):
    """The functions of a file that have a body, of this name or of any."""
    wanted_owner, _, wanted = name.rpartition("::")
    for head in (it for it in HEAD.finditer(text) if wanted in ("", it[2])):
        indent, start = head[1], text.rfind("\n", 0, head.start()) + 1
        end = re.compile(rf"^{indent}}}$", re.M).search(text, start)
        opens = re.compile(rf"^{indent}(?! ).*{{$", re.M).search(text, start, end.start() if end else start)
        owner = "".join([it[1] for it in OWNER.finditer(text, 0, start)][-1:]) if indent else ""
        if opens and wanted_owner in ("", owner):
            first = text.count("\n", 0, start) + 1
            whole = text[start : end.end()]
            last = first + whole.count("\n")
            yield Site(path, head[2], owner, start, whole, opens.end() - start, first, last)


def function_at(path, text, place):
    """The function in whose body a place of a file is, or none."""
    line = text.count("\n", 0, place) + 1
    found = [it for it in functions(path, text) if it.has(path, line) and line > it.first + it.text.count("\n", 0, it.body)]
    return found[-1] if found else None


def pattern_of(old):
    """The regular expression of a pattern."""
    parts = [r"\s+".join(map(re.escape, part.split(" "))) for part in old.split(ANY)]
    return re.compile("(.*?)".join(parts))


class Edit:
    """An edit that is being applied: the texts of its files so far, and the functions that it changes, none for other places."""

    def __init__(self, folder):
        self.folder, self.texts, self.sites = folder, {}, []
        self.path, self.function, self.old = "", "", None

    def text(self, path):
        return self.texts[path] if path in self.texts else read(f"{self.folder}/{path}")

    def line(self, line):
        key, _, said = line.partition(": ")
        if key in ("file", "fn"):
            self.path, self.function = (said, "") if key == "file" else ("", said)
            if self.path and not os.path.isfile(f"{self.folder}/{self.path}"):
                raise BadEdit(f"the crate has no file {self.path}")
        elif key == "old":
            self.old = said
        elif key in ("new", "new:"):
            if not self.old or not (self.path or self.function):
                raise BadEdit("a line `new:` is not after a line `file:` or `fn:` and a line `old:`")
            (self.in_function if self.function else self.in_file)(said)
            self.old = None
        elif line:
            raise BadEdit(f"a line is no `file:`, `fn:`, `old:` or `new:`: {line}")

    def in_file(self, new):
        """Changes the old text, which is in the file once."""
        text = self.text(self.path)
        found = text.count(self.old)
        if found != 1:
            raise BadEdit(f"{self.path} has the old text {found} times, not once: {self.old.strip()}{nearest(self, text)}")
        self.sites.append(function_at(self.path, text, text.find(self.old)))
        self.texts[self.path] = text.replace(self.old, new)

    def in_function(self, new):
        """Changes what has the pattern, in the body of a function of this name."""
        sites = [it for path in sources(self.folder) for it in functions(path, self.text(path), self.function)]
        pattern = pattern_of(self.old)
        places = [(site, it) for site in sites for it in pattern.finditer(site.text, site.body)]
        if len(places) != 1:
            which = f"{len(sites)} functions {self.function} of the crate"
            raise BadEdit(f"{which} have the pattern {len(places)} times, not once: {self.old}")
        site, match = places[0]
        head, *parts = new.split(ANY)
        # further ones are the last one of the pattern
        found = [*match.groups(), *match.groups()[-1:] * len(parts)]
        if parts and not found:
            raise BadEdit(f"the new text has an {ANY}, and the pattern none")
        put = head + "".join(it for pair in zip(found, parts) for it in pair)
        # each line after it keeps its number
        put += "\n" * (match[0].count("\n") - put.count("\n"))
        text = self.text(site.path)
        self.sites.append(site)
        self.texts[site.path] = text[: site.start + match.start()] + put + text[site.start + match.end() :]


def nearest(edit, text):
    """The line of a file that is most like an old text, and its function, if one is like it."""
    near = difflib.get_close_matches(edit.old.strip(), [it.strip() for it in text.split("\n")], 1)
    if not near:
        return ""
    site = function_at(edit.path, text, text.find(near[0]))
    return f"\n  nearest, {f'in {site.name}' if site else 'in no function'}: {near[0]}"


def sources(folder):
    """The files of a crate's code, by their paths in the crate."""
    return sorted(os.path.relpath(it, folder) for it in glob.glob(f"{folder}/src/**/*.rt", recursive=True))


def applied(lines, folder):
    """The texts of the files that an edit changes, by path, and the function of each change, none for a place in none. Raises
    BadEdit if it cannot be applied."""
    edit = Edit(folder)
    for line in lines:
        edit.line(line)
    if edit.old is not None or not edit.texts:
        raise BadEdit("it has no pair of a line `old:` and a line `new:`")
    return edit.texts, edit.sites


def lines_of(edit):
    """The lines of a file that say what the edit changes: none before the first `file:` or `fn:`."""
    return re.split(r"(?m)^(?=file: |fn: )", read(edit).rstrip("\n"), maxsplit=1)[-1].split("\n")


def read_edit(edit, folder):
    """What the kit's function of this name returns: the texts, or why it cannot be applied."""
    try:
        return applied(lines_of(edit), folder)[0], None
    except BadEdit as why:
        return None, str(why)
