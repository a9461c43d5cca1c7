#!/usr/bin/env python3
"""Carries out scripts through the library by its Python package, and prints what the program would print.

    tests/library/driver.py run [FILE ..]     the posts of a script, as `excp_job run`
    tests/library/driver.py load [FILE ..]    of each image a line `FILE: kept`, or its fault

Words `U=IMAGE` before the files load unit U from an image, and `IMAGE=U` saves its medium, as `--load` and `--save`. Without a
file it reads standard input. Of several files, a line `=== FILE` comes before what each prints. The files are valid:
`excp check` says so. `run` does the lines of all tasks in their order, and serves the units at each `wait` and at the end.
So it prints what the program prints if the posts of the script do not depend on how its tasks and workers race.
"""

import os
import sys

sys.path.insert(0, os.path.join(os.path.dirname(os.path.realpath(__file__)), "..", "..", "python"))

from excp import TAPE_MARK, Area, BadImage, Fault, Method, Mode, NoDcb, Record, Site

# How many requests fit into rows and books, and how many a task of a run has under way (docs/SPECIFICATION.md, 12.7).
ROOM = 36157
UNDER_WAY = 256

METHODS = {"in": Method.INPUT, "out": Method.OUTPUT}
MODES = {"halt": Mode.HALT, "quiesce": Mode.QUIESCE}

# The images that units are loaded from and saved to, by their numbers.
LOADED, SAVED = {}, {}


def content(digits):
    return b"" if digits == "-" else bytes.fromhex(digits)


class Job:
    """What the set-up lines declare, and the site that is made of it."""

    def __init__(self):
        self.tasks, self.units, self.areas, self.shown = 0, [], [], {}
        self.site = None

    def declare(self, words):
        """Adds what a line declares. Returns whether it is a set-up line."""
        word, *rest = words
        if word == "tasks":
            self.tasks = int(rest[0])
        elif word in ("disk", "tape", "printer"):
            self.units.append({"kind": word, "sizes": [None if it == "-" else int(it) for it in rest[2:]], "items": [],
                               "faults": [], "openings": []})
        elif word == "rec":
            cylinder, head, number = map(int, rest[1:4])
            self.of(rest)["items"].append(Record(cylinder, head, number, content(rest[5]), content(rest[4])))
        elif word in ("block", "mark"):
            self.of(rest)["items"].append(TAPE_MARK if word == "mark" else content(rest[1]))
        elif word == "fault":
            self.of(rest)["faults"].append(Fault(int(rest[1]), *(int(it, 16) for it in rest[2:])))
        elif word == "area":
            self.areas.append((int(rest[1], 16), b"".join(map(content, rest[2:]))))
        elif word == "open":
            self.of(rest)["openings"].append(rest[1:])
        else:
            return False
        return True

    def of(self, words):
        return self.units[int(words[0])]

    def make(self):
        """Makes the site, with the DCBs of the set-up open."""
        self.site = Site(self.tasks, ROOM)
        for number, unit in enumerate(self.units):
            made = self.mount(number, unit, {"in_flight": ROOM, "held": ROOM, "faults": unit["faults"]})
            for words in unit["openings"]:
                self.open(made, *words)

    def mount(self, number, unit, rest):
        sizes, items = unit["sizes"], unit["items"]
        if number in LOADED:
            with open(LOADED[number], "rb") as it:
                image = it.read()
            is_tape = unit["kind"] == "tape"
            return self.site.tape_from(image, length=sizes[0], **rest) if is_tape else self.site.disk_from(image, **rest)
        if unit["kind"] == "disk":
            return self.site.disk(cylinders=sizes[0], heads=sizes[1], track_bytes=sizes[2], records=items, **rest)
        if unit["kind"] == "tape":
            return self.site.tape(length=sizes[0], items=items, **rest)
        return self.site.printer(lines=sizes[0], pages=sizes[1], **rest)

    def close(self):
        """Saves the media that are wanted, and frees the site."""
        for number, name in SAVED.items():
            with open(name, "wb") as it:
                it.write(self.site.units[number].image())
        self.site.close()

    def open(self, unit, method, *extents):
        return unit.open_images(METHODS[method], [bytes.fromhex(it) for it in extents])

    def dcb(self, unit, number):
        return self.site.units[int(unit)].dcb(int(number))

    def excp(self, task, unit, dcb, iob, area, show, length):
        """Issues a request, and keeps which bytes its post shows."""
        name = self.site.issue(int(task), self.dcb(unit, dcb), Area(*self.areas[int(area)]), int(iob, 16))
        self.shown[name] = int(show, 16), int(length)
        return name

    def line(self, post):
        """The line of a post."""
        return f"{post} {post.at(*self.shown[post.name]).hex().upper() or '-'}"


# --- scripts


class Script(Job):
    """A script: the requests of each task that were not collected yet, and the posts that were."""

    def __init__(self):
        super().__init__()
        self.under_way, self.posts = [], []

    def make(self):
        super().make()
        self.under_way = [0] * self.tasks

    def command(self, words):
        word, task, *rest = words
        if word == "excp":
            if self.under_way[int(task)] >= UNDER_WAY:
                self.serve()
            self.excp(task, *rest)
            self.under_way[int(task)] += 1
        elif word == "wait":
            while self.under_way[int(task)]:
                self.serve()
        elif word == "purge":
            self.dcb(*rest[:2]).purge(MODES[rest[2]])
        elif word == "purgetask":
            self.site.purge_task(int(rest[0]), MODES[rest[1]])
        elif word == "close":
            self.dcb(*rest).close()
        else:
            self.reset(*rest)

    def reset(self, unit, dcb):
        try:
            self.dcb(unit, dcb).reset()
        except NoDcb:
            pass  # it is not open: the line is passed over

    def serve(self):
        """Serves all units, and collects what comes."""
        self.site.serve()
        for task in range(self.tasks):
            posts = self.site.posts(task)
            self.under_way[task] -= len(posts)
            self.posts += posts


def run(text, out):
    """Carries out a script."""
    job = Script()
    for _, words in numbered(text):
        if job.site is not None or not job.declare(words):
            if job.site is None:
                job.make()
            job.command(words)
    if job.site is None:
        job.make()
    while any(job.under_way):
        job.serve()
    job.posts.sort(key=lambda it: it.name)
    out.write("".join(f"{job.line(it)}\n" for it in job.posts) + f"end {len(job.posts)}\n")
    job.close()


# --- images


def load(name, out):
    """Loads an image. Whether its medium has the same image."""
    with open(name, "rb") as it:
        image = it.read()
    with Site() as site:
        try:
            unit = site.disk_from(image) if image[:4] == b"CKD_" else site.tape_from(image)
        except BadImage as error:
            out.write(f"{name}: {error}\n")
            return 0
        is_kept = unit.image() == image
    out.write(f"{name}: {'kept' if is_kept else 'another image'}\n")
    return 0 if is_kept else 1


def numbered(text):
    """The words of each line that has an effect, with its number."""
    for number, line in enumerate(text.split("\n"), 1):
        words = line.split()
        if words and not words[0].startswith("#"):
            yield number, words


def main(word, *files):
    if word == "load":
        return 1 if sum(load(it, sys.stdout) for it in files) else 0
    for file in files:
        first, equals, second = file.partition("=")
        if equals and first.isdigit():
            LOADED[int(first)] = second
        elif equals:
            SAVED[int(second)] = first
    files = [it for it in files if "=" not in it]
    for file in files or ("/dev/stdin",):
        with open(file, encoding="ascii", errors="replace") as it:
            text = it.read()
        if len(files) > 1:
            print(f"=== {file}")
        run(text, sys.stdout)
    return 0


if __name__ == "__main__":
    if len(sys.argv) < 2 or sys.argv[1] not in ("run", "load"):
        sys.exit(__doc__)
    sys.exit(main(*sys.argv[1:]))
