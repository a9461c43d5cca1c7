"""Files that words write: what they may replace, before the run and after it, and that no call changes another file or loses one.

Each word writes to each target; first plainly, then with --force. Then each write, sync and rename of each word fails in turn,
or kills it, on a file system that is full or read-only too. What a target holds is by `tests/formats.py`, or is not an image.
"""

import fcntl
import os
import shlex
import signal
import stat
import subprocess
import tempfile

import formats
from each_line import lack_memory, ran_at
from excp.files.refusals import Unwritten
from excp.files.targets import CHANGED, MOVED, OF_TWO_UNITS, TAPE, Output, Targets, UnitFile
from excp.files.targets import TAKEN as TAKEN_BY_PACKAGE
from groups.images import small_tape, small_volume, write_mark
from groups.refusals import KILLED, NO_INPUT, Plan, compiled
from harness import SECONDS, Case, Skipped, expect, require, run

ORIGIN = "docs/MANUAL.md, Files that are written"

# The file that each word writes. `outcomes` makes its name.
TARGET = "out/post-0-0-1-1.scenario"

TAKEN = "this command reads or saves it: name another file"
OWN_DISK = "disk 0 0 1 10 4082\n"
OTHER = "tape 1 0 -\n"
PRINT = "area 0 001000 4200000000001028 0000000000000000 0000103000000001 0000000000000000 0000000000000000 0000000000000000 "
PRINTER = f"printer 0 0 10 5\n{OTHER}open 0 out\n{PRINT}0900103820000001 C1\nexcp 0 0 1 001000 0 001038 1\n"
MARK = f"tape 0 0 1000\n{OTHER}open 0 out\n{write_mark()}"
EXCP = "excp 0 0 1 001000 0 001000 0\n"

# Of each word: its words, where FILE is the target and DIR its directory; its script; and what it writes.
WORDS = {
    "report, a tape": ("report --posts --load 1=other.aws --save 0=FILE", f"tasks 1\n{MARK}", "tape"),
    "report, a disk": ("report --posts --load 1=other.aws --save 0=FILE", f"tasks 1\n{OWN_DISK}{OTHER}wait 0\n", "disk"),
    "report, paper": ("report --posts --load 1=other.aws --save 0=FILE", f"tasks 1\n{PRINTER}", "paper"),
    "report, a scenario": ("report --posts --seed 1 --load 1=other.aws --scenario FILE", f"tasks 1\n{MARK}", "scenario"),
    "step": ("step --load 1=other.aws --save 0=FILE", f"tasks 1\n{OWN_DISK}{OTHER}finish\n", "disk"),
    "outcomes, a job": ("outcomes --allow 7F,48 --load 1=other.aws --fix FILE", f"tasks 1\n{MARK}purge 0 0 1 halt\n", "scenario"),
    "outcomes": ("outcomes --load 1=other.aws --scenarios DIR", f"tasks 1\n{MARK}", "scenario"),
    "convert to aws": ("convert --to aws --output FILE", "tasks 1\ntape 0 0 100\nmark 0\nwait 0\n", "tape"),
    "convert to het": ("convert --to het --output FILE", "tasks 1\ntape 0 0 100\nmark 0\nwait 0\n", "packed tape"),
    "convert to ckd": ("convert --to ckd --output FILE", f"tasks 1\n{OWN_DISK}wait 0\n", "disk"),
}

CONTENTS = {"tape": "a tape image", "packed tape": "a compressed tape image", "disk": "a disk image", "paper": "new text",
            "scenario": "new text"}

# A disk whose second track has the home address of another one.
MISPLACED = small_volume()[:636] + b"\2" + small_volume()[637:]

# What a word that writes this replaces.
BEFORE = {"tape": small_tape(), "packed tape": small_tape(), "disk": small_volume()}

# What a file may hold, and as an error has it.
HELD = {
    "a tape image": (small_tape(), "a tape image"),
    "a compressed tape": (formats.packed_tape_of([b"A" * 99], 1), "a compressed tape image"),
    "a disk image": (small_volume(), "a disk image"),
    "a script": (b"tasks 1\nwait 0\n", "text"),
    "text of many bytes": ("\u00e9".encode() * 5000, "text"),
    "data": (bytes(range(256)), "other data or a damaged image"),
    "a tape without its last byte": (small_tape()[:-1], "other data or a damaged image"),
    "a tape whose block has no end": (formats.image_of(formats.Tape([b"AB"], [[1, 1]]))[:7], "other data or a damaged image"),
    "a disk without its last byte": (small_volume()[:-1], "a damaged or compressed disk image"),
    "a disk with another home address": (MISPLACED, "a damaged or compressed disk image"),
    "a compressed disk": (b"CKD_C370" + small_volume()[8:], "a damaged or compressed disk image"),
}


def write(file, data):
    with open(file, "wb") as it:
        it.write(data)


def contents(folder):
    """What each name in a folder is: the mode, and the bytes or the file that a link names."""
    found = {}
    for at, folders, names in os.walk(folder):
        for name in [*names, *folders]:
            file = f"{at}/{name}"
            mode = os.lstat(file).st_mode
            data = os.readlink(file) if stat.S_ISLNK(mode) else None
            if stat.S_ISREG(mode):
                with open(file, "rb") as it:
                    data = it.read()
            found[os.path.relpath(file, folder)] = mode, data
    return found


def is_written(kind, data):
    """Whether a target has what a word writes."""
    if "tape" in kind:
        return formats.tape_of(data).items == [None]
    if kind == "disk":
        return len(formats.volume_of(data).tracks) == 10
    return data == b"A\n" if kind == "paper" else data.startswith(b"tasks 1\n")


class Target:
    """A word with its target in a folder. The script is `in`, and the image of unit 1 is `other.aws`."""

    def __init__(self, setup, name, folder):
        self.setup, self.folder = setup, folder
        self.words, self.script, self.kind = WORDS[name]
        self.file, self.input, self.how, self.before = TARGET, "in", {}, []
        write(f"{folder}/in", self.script.encode())
        write(f"{folder}/other.aws", small_tape())
        os.mkdir(f"{folder}/out")

    def is_converted(self):
        """Whether the word loads no image."""
        return self.words.startswith("convert")

    def path(self, name=""):
        return f"{self.folder}/{name or self.file}"

    def command(self, *more):
        return self.setup.command(*self.typed(*more))

    def typed(self, *more):
        """The words as they are typed."""
        named = self.words.replace("FILE", self.file).replace("DIR", os.path.dirname(self.file)).split()
        return [*named, *more, *([self.input] if self.input else [])]

    def run(self, *more):
        if self.before:
            return run([*self.before, *self.command(*more)], cwd=self.folder, **self.how)
        return self.setup.run(*self.typed(*more), cwd=self.folder, **self.how)

    def is_refused(self, why, *more, name=""):
        """The call fails before the run, and changes nothing."""
        before = contents(self.folder)
        ran = self.run(*more)
        expect(ran, (1, "", f"excp: {name or self.file}: {why}\n"))
        require(contents(self.folder) == before, "a file was changed", ran)

    def is_replaced(self, *more):
        """The call writes its target, and changes nothing else."""
        before = contents(self.folder)
        ran = self.run(*more)
        after = contents(self.folder)
        require((ran.status, ran.err) == (0, ""), "not written", ran)
        written = os.path.relpath(os.path.realpath(self.path()), os.path.realpath(self.folder))
        require(is_written(self.kind, after.pop(written)[1]), "another file was written", ran)
        before.pop(written, None)
        require(after == before, "another file was changed", ran)


# --- what a target may be: each of these makes it, and gives the error, if there is one, and whether --force replaces it


def is_absent(target):
    return None, True


def is_empty(target):
    write(target.path(), b"")
    return None, True


def over(text, target):
    """Why a target that holds this is not replaced, if it is not."""
    content = CONTENTS[target.kind]
    replaced = (content, "a tape image") if target.kind == "packed tape" else (content,)
    return None if text in replaced else f"it holds {text}, which {content} replaces only with --force"


def over_tape(target):
    return over("a tape image", target)


def holds(name):
    def made(target):
        data, text = HELD[name]
        write(target.path(), data)
        return over(text, target), True

    return made


def is_write_protected(target):
    write(target.path(), small_volume() if target.kind == "disk" else small_tape())
    os.chmod(target.path(), 0o444)
    return "this user may not write it: only --force replaces it", True


def is_link_to_image(target):
    write(target.path("image"), small_volume() if target.kind == "disk" else small_tape())
    os.symlink("../image", target.path())
    return (None if target.kind == "disk" else over_tape(target)), True


def is_script(target):
    os.rename(target.path("in"), target.path())
    target.input = target.file
    return TAKEN, False


def is_script_spelled_otherwise(target):
    os.rename(target.path("in"), target.path())
    target.input = f"./out/../{target.file}"
    return TAKEN, False


def is_script_on_another_path(target):
    os.rename(target.path("in"), target.path())
    target.input = f"/proc/self/cwd/{target.file}"
    return TAKEN, False


def is_link_to_script(target):
    os.symlink("../in", target.path())
    return TAKEN, False


def is_hard_link_to_script(target):
    os.link(target.path("in"), target.path())
    return TAKEN, False


def is_linked_by_script(target):
    os.rename(target.path("in"), target.path())
    os.symlink(target.file, target.path("in"))
    return TAKEN, False


def is_standard_input(target):
    os.rename(target.path("in"), target.path())
    target.input = "/dev/stdin" if target.is_converted() else ""
    target.how = {"stdin": os.open(target.path(), os.O_RDONLY)}
    return TAKEN, False


def is_standard_output(target):
    # a run that appends leaves the file as it is if it prints nothing
    target.how = {"stdout": os.open(target.path(), os.O_WRONLY | os.O_CREAT | os.O_APPEND)}
    return TAKEN, False


def is_image_of_another_unit(target):
    os.link(target.path("other.aws"), target.path())
    return (over_tape(target), True) if target.is_converted() else (TAKEN, False)


def is_link_to_image_of_another_unit(target):
    os.symlink("../other.aws", target.path())
    named = "it is named for two units" if "--save" in target.words else TAKEN
    return (over_tape(target), True) if target.is_converted() else (named, False)


def is_directory(target):
    os.mkdir(target.path())
    return "it is a directory", False


def is_pipe(target):
    os.mkfifo(target.path())
    return "it is a device or a pipe", False


def is_device(target):
    os.symlink("/dev/full", target.path())
    return "it is a device or a pipe", False


def is_dead_link(target):
    os.symlink("nowhere", target.path())
    return "it is a link to a file that is not there", False


MADE = {
    **{made.__name__.replace("_", " "): made for made in (is_absent, is_empty, is_write_protected, is_link_to_image)},
    **{f"holds {name}": holds(name) for name in HELD},
    **{
        made.__name__.replace("_", " "): made
        for made in (
            is_script,
            is_script_spelled_otherwise,
            is_script_on_another_path,
            is_link_to_script,
            is_hard_link_to_script,
            is_linked_by_script,
            is_standard_input,
            is_standard_output,
            is_image_of_another_unit,
            is_link_to_image_of_another_unit,
            is_directory,
            is_pipe,
            is_device,
            is_dead_link,
        )
    },
}


def is_judged(setup, name, made):
    """A word replaces its target or leaves it; with --force too."""
    for more in (), ("--force",):
        with tempfile.TemporaryDirectory(prefix="targets-") as folder:
            target = Target(setup, name, folder)
            why, is_lifted = MADE[made](target)
            if why and not (more and is_lifted):
                target.is_refused(why, *more)
            else:
                target.is_replaced(*more)
            for file in target.how.values():
                os.close(file)


# --- a new file that is beside the target already


def has_file_left(setup, name):
    """A new file that a killed run left is removed, and a line says so."""
    for target in targets_with(setup, name, left):
        ran = target.run()
        said = f"excp: {target.file}: {target.file}.excp-new, which a run that was killed left, was removed\n"
        require((ran.status, ran.err) == (0, said), "another end", ran)
        require(os.listdir(target.path("out")) == [os.path.basename(target.file)], "a file is left", ran)
        with open(target.path(), "rb") as it:
            require(is_written(target.kind, it.read()), "another file was written", ran)


def targets_with(setup, name, made):
    """A target, in whose directory the name of the new file has what is made."""
    with tempfile.TemporaryDirectory(prefix="targets-") as folder:
        target = Target(setup, name, folder)
        made(f"{target.path()}.excp-new")
        yield target


def left(file):
    write(file, b"left")


def is_linked(file):
    write(f"{file}.precious", b"precious")
    os.symlink(f"{file}.precious", file)


def has_two_names(file):
    write(f"{file}.precious", b"precious")
    os.link(f"{file}.precious", file)


def has_file_in_the_way(setup, name):
    """What has the name of the new file, and is none that a run left, is not removed."""
    for made in is_linked, has_two_names, os.mkdir, os.mkfifo:
        for target in targets_with(setup, name, made):
            target.is_refused(f"{target.file}.excp-new is in its way: remove it")


def is_being_written(setup, name):
    """A new file of a run that lives, which has its lock, is not removed."""
    why = f"another run is writing it: {TARGET}.excp-new is its new file"
    for target in targets_with(setup, name, left):
        with open(f"{target.path()}.excp-new", "rb") as it:
            fcntl.flock(it, fcntl.LOCK_EX)
            target.is_refused(why)
            target.is_refused(why, "--force")


# --- directories


def directory_is_missing(setup, name):
    """Of a directory that is missing, and of one that is a file, the error says so."""
    with tempfile.TemporaryDirectory(prefix="targets-") as folder:
        target = Target(setup, name, folder)
        target.file = "none/there/post-0-0-1-1.scenario"
        target.is_refused("there is no such directory", name="none/there" if name == "outcomes" else "")
        target.file = "other.aws/post-0-0-1-1.scenario"
        why = "it is not a directory" if name == "outcomes" else "there is no such directory"
        target.is_refused(why, name="other.aws" if name == "outcomes" else "")


def directory_is_not_writable(setup, name):
    """If a user may not write in the directory, the error says so before the run. Root gives up that it may."""
    as_user = ["unshare", "-U"] if os.geteuid() == 0 else []
    if as_user and run([*as_user, "true"]).status:
        raise Skipped("root may write in any directory (no unshare -U)")
    with tempfile.TemporaryDirectory(prefix="targets-") as folder:
        target = Target(setup, name, folder)
        os.chmod(target.path("out"), 0o555)
        target.before = as_user
        target.is_refused("this user has no permission to write in its directory")
        os.chmod(target.path("out"), 0o755)


def in_small_file_system(target, prepare):
    """Runs a word whose directory is a file system of 64 KiB with the target's old content, after this preparation."""
    mount = "mount -t tmpfs -o size=64k none out"
    if run(["unshare", "-rm", "sh", "-c", mount], cwd=target.folder).status:
        raise Skipped("no file system can be mounted here (unshare -rm)")
    words = " ".join(shlex.quote(it) for it in target.command())
    script = f"{mount} && cp -p old {TARGET} && {prepare} || exit 9; {words} >printed; echo $? >&2; "
    script += f"cp {TARGET} after; ls out | wc -w"
    return run(["unshare", "-rm", "sh", "-c", script], cwd=target.folder)


def full_or_read_only(setup, name):
    """On a file system that is full or read-only a word leaves its target as it was, and says so; the latter before the run."""
    for prepare, why, files in (
        ("cat /dev/zero >out/fill 2>errors; test -s out/fill", "the disk is full", 2),
        ("mount -o remount,ro out", "its file system is read-only", 1),
    ):
        with tempfile.TemporaryDirectory(prefix="targets-") as folder:
            target = Target(setup, name, folder)
            old = BEFORE.get(target.kind, b"")
            write(target.path("old"), old)
            ran = in_small_file_system(target, prepare)
            require((ran.status, ran.err) == (0, f"excp: {TARGET}: {why}\n1\n"), "another error", ran)
            require(ran.out.strip() == str(files), "a file is left", ran)
            after = contents(folder)
            require(after["after"][1] == old, "the target was changed", ran)
            require(files == 2 or not after["printed"][1], "it ran", ran)


# --- what was decided before the run is decided again after it


def started(target, *more):
    """A call whose output is not read to its end."""
    return subprocess.Popen(target.command(*more), cwd=target.folder, stdout=subprocess.PIPE, stderr=subprocess.PIPE)


def is_decided_after_the_run(setup):
    """A file that another program makes while a run prints, or while a script is read, is not lost."""
    with tempfile.TemporaryDirectory(prefix="targets-") as folder:
        target = Target(setup, "report, a tape", folder)
        # its posts do not fit in a pipe
        write(target.path("in"), (target.script + EXCP * 4000).encode())
        with started(target) as ran:
            ran.stdout.read(1)
            write(target.path(), b"notes")
            is_kept(target, ran, over("text", target))
    with tempfile.TemporaryDirectory(prefix="targets-") as folder:
        target = Target(setup, "convert to aws", folder)
        os.remove(target.path("in"))
        os.mkfifo(target.path("in"))
        with started(target) as ran:
            with open(target.path("in"), "wb") as it:
                # it has opened the script, so the first decision is made
                write(target.path(), b"notes")
                it.write(target.script.encode())
            is_kept(target, ran, over("text", target))


def is_as_it_was_read(setup):
    """The image that a unit was loaded from is not lost if another program writes it, or leads its name to another image."""
    for why in ("another program has written it since it was read: only --force replaces it",
                "its name leads to another file than before the run"):
        with tempfile.TemporaryDirectory(prefix="targets-") as folder:
            target = Target(setup, "report, a tape", folder)
            write(target.path("in"), (target.script.replace("tape 0 0 1000", "tape 0 0 -") + EXCP * 4000).encode())
            write(target.path("first"), small_tape())
            write(target.path("notes"), b"notes")
            os.symlink("../first", target.path())
            with started(target, "--load", f"0={target.file}") as ran:
                ran.stdout.read(1)
                if "leads" in why:
                    write(target.path("notes"), small_tape())
                    os.remove(target.path())
                    os.symlink("../notes", target.path())
                else:
                    write(target.path("first"), b"notes")
                _, said = ran.communicate(timeout=SECONDS)
            require((ran.returncode, said.decode()) == (1, f"excp: {target.file}: {why}\n"), f"another end: {said}")
            after = contents(folder)
            kept = (b"notes", b"notes") if "written" in why else (small_tape(), small_tape())
            require((after["first"][1], after["notes"][1]) == kept, "an image was replaced")


def is_kept(target, ran, why):
    """The call ends with an error, and the target has still what the other program wrote."""
    _, said = ran.communicate(timeout=SECONDS)
    require((ran.returncode, said.decode()) == (1, f"excp: {target.file}: {why}\n"), f"another end: {said}")
    require(os.listdir(target.path("out")) == [os.path.basename(target.file)], "a file is left")
    with open(target.path(), "rb") as it:
        require(it.read() == b"notes", "it was replaced")


# --- which ends of a run save

MARKED = f"tasks 1\ntape 0 0 1000\nopen 0 out\n{write_mark().partition('excp')[0]}"
EVENTS = f"{EXCP}take 0\nserve 0\n"


def dialog_learns_its_unit(setup):
    """What a scenario of standard input saves is known once its lines come: what a target holds is judged after the run."""
    with tempfile.TemporaryDirectory(prefix="targets-") as folder:
        file = f"{folder}/saved"
        words = setup.command("step", "--save", f"0={file}")
        of_text = "it holds text, which a tape image replaces only with --force"
        for old, why in (b"notes", of_text), (small_volume(), "it holds a disk image, which a"):
            write(file, old)
            ran = run(words, f"{MARKED}{EVENTS}finish\n")
            require(ran.status == 1 and "finish: Finished 1\n" in ran.out, "not carried out", ran)
            require(ran.err.startswith(f"excp: {file}: {why}"), "another error", ran)
            require(contents(folder)["saved"][1] == old, "the target was changed", ran)
        write(file, small_tape())
        ran = run(words, f"{MARKED}{EVENTS}finish\n")
        require((ran.status, ran.err) == (0, "") and is_written("tape", contents(folder)["saved"][1]), "not saved", ran)
        require(os.listdir(folder) == ["saved"], "a file is left", ran)


def unit_comes_after_an_event(setup):
    """A scenario declares nothing after its first event: a unit that a line declares later is not declared for a file."""
    text = "tasks 1\ndisk 0 0 1 1 40\ntake 0\ntape 1 0 1000\n"
    with tempfile.TemporaryDirectory(prefix="targets-") as folder:
        write(f"{folder}/in", text.encode())
        for word in ["in"], []:
            ran = run(setup.command("step", "--save", "1=saved", *word), text, cwd=folder)
            expect(ran, (1, "", "excp: 1=saved: no line declares unit 1\n"))
        require(os.listdir(folder) == ["in"], "a file is left")


def compressed_image_is_kept(setup):
    """A medium is saved as a plain image, which takes the place of the compressed one that it came from only with --force."""
    with tempfile.TemporaryDirectory(prefix="targets-") as folder:
        write(f"{folder}/tape", f"tasks 1\ntape 0 0 1000\nblock 0 {'C1' * 400}\n".encode())
        write(f"{folder}/in", b"tasks 1\ntape 0 0 -\n")
        expect(run(setup.command("convert", "--to", "het", "--output", "packed", "tape"), cwd=folder), (0, ""))
        before = contents(folder)
        words = setup.command("report", "--posts", "--load", "0=packed", "--save", "0=packed", "in")
        why = "it holds a compressed tape image, which a tape image replaces only with --force"
        expect(run(words, cwd=folder), (1, "", f"excp: packed: {why}\n"))
        require(contents(folder) == before, "a file was changed")
        expect(run([*words, "--force"], cwd=folder), (0, "end 0\n"))
        require(formats.tape_of(contents(folder)["packed"][1]).items == [b"\xc1" * 400], "not saved")


def unmet_expectation_saves(setup):
    """A scenario of which an expectation is not met ends with status 1, and saves; one with a fault saves nothing."""
    nothing = "expect Nothing\n"
    for end, is_saved in (f"{nothing}finish\n", True), (nothing, True), (f"{nothing}finnish\n", False), ("", True):
        with tempfile.TemporaryDirectory(prefix="targets-") as folder:
            ran = run(setup.command("step", "--save", "0=saved"), f"{MARKED}{EVENTS}{end}", cwd=folder)
            require(ran.status == (1 if end else 0), "another status", ran)
            require(os.listdir(folder) == (["saved"] if is_saved else []), "saved, or not", ran)


def output_that_fails_saves_nothing(setup):
    """A run whose output cannot be written saves nothing. If nothing reads it any more, `report` saves, and `step` ends before."""
    job = f"tasks 1\n{MARK}".replace(OTHER, "")
    for words, script, is_saved in ("report", job, True), ("step", f"{MARKED}{EVENTS}finish\n", False):
        for status, said, output in (1, "excp: output not written\n", "/dev/full"), (0, "", ""):
            reader, writer = (None, os.open(output, os.O_WRONLY)) if output else os.pipe()
            if reader is not None:
                os.close(reader)
            with tempfile.TemporaryDirectory(prefix="targets-") as folder:
                ran = run(setup.command(words, "--save", "0=saved"), script, cwd=folder, stdout=writer)
                os.close(writer)
                expect(ran, (status, "", said))
                require(os.listdir(folder) == (["saved"] if is_saved and not output else []), "saved, or not", ran)


def unread_report_saves(setup):
    """A report in each form, which nothing reads or which cannot be written, saves as one in words does; so do scenarios as
    pages."""
    job = f"tasks 1\n{MARK}".replace(OTHER, f"tape 1 0 200000\nblock 1 {'C1' * 65535}\n")
    for words, script, is_saved in (
        *((["report", *form], job, True) for form in ([], ["--steps"], ["--json"], ["--html"], ["--seed", "1"])),
        *((["step", form], f"{MARKED}{EVENTS}finish\n", False) for form in ("--json", "--html")),
    ):
        for status, said, output in (1, "excp: output not written\n", "/dev/full"), (0, "", ""):
            reader, writer = (None, os.open(output, os.O_WRONLY)) if output else os.pipe()
            if reader is not None:
                os.close(reader)
            with tempfile.TemporaryDirectory(prefix="targets-") as folder:
                ran = run(setup.command(*words, "--save", "0=saved"), script, cwd=folder, stdout=writer)
                os.close(writer)
                expect(ran, (status, "", said))
                require(os.listdir(folder) == (["saved"] if is_saved and not output else []), "saved, or not", ran)


def signal_ends_what_is_unread(setup):
    """A signal ends a report whose reader has stopped. No process and no file is left."""
    script = "\n".join(["tasks 1", "tape 0 0 400000", *5 * [f"block 0 {'C1' * 65535}"], "wait 0", ""])
    for form in [], ["--steps"], ["--json"], ["--html"]:
        for sent in signal.SIGTERM, signal.SIGINT, signal.SIGHUP:
            with tempfile.TemporaryDirectory(prefix="targets-") as folder, tempfile.TemporaryFile() as given:
                given.write(script.encode())
                given.seek(0)
                reader, writer = os.pipe()
                command = setup.command("report", *form, "--save", "0=saved")
                # these tests may run where the signal is ignored
                with subprocess.Popen(command, stdin=given, stdout=writer, stderr=subprocess.PIPE, cwd=folder,
                                      preexec_fn=lambda s=sent: signal.signal(s, signal.SIG_DFL)) as it:
                    os.close(writer)
                    os.read(reader, 1)
                    it.send_signal(sent)
                    # the program has the same standard error
                    said = it.communicate(timeout=SECONDS)[1]
                    os.close(reader)
                require((it.returncode, said) == (-sent, b""), f"status {it.returncode} after {sent.name}: {said}")
                require(os.listdir(folder) == [], f"left after {sent.name}: {os.listdir(folder)}")


# --- calls that fail, and kills


class Whole:
    """Judges a run: each file is as before, but the target may have the whole of what the word writes."""

    def __init__(self, files, target, written):
        self.files, self.target, self.written = files, target, written

    def __call__(self, ran, _text):
        files = dict(ran.files)
        left = files.pop(f"{self.target}.excp-new", None)
        is_new = files == {**self.files, self.target: self.written}
        if not is_new and files != self.files:
            return None
        if ran.status in KILLED:
            return "killed"
        of_target = ran.err.removeprefix("excp: ").removeprefix("./").startswith((f"{self.target}: ", ".: "))
        is_reported = ran.status == 1 and (of_target or ran.err == NO_INPUT)
        if is_new and (ran.status, left) == (0, None):
            return "written"
        return "not written" if is_reported and left is None and not is_new else None


def fails_in_turn(setup, name, kind):
    """Each write, sync and rename of a word fails or kills it in turn. Its target is old or new, and no other file changes."""
    lacks = compiled()
    if lacks:
        raise Skipped(lacks)
    words, script, content = WORDS[name]
    target = os.path.basename(TARGET)
    named = words.replace("FILE", target).replace("DIR", ".")
    old = BEFORE.get(content, b"old text")
    files = {"in": script.encode(), "other.aws": small_tape(), target: old}
    plan = Plan(setup.command(*named.split(), "--force", "in"), None, kind=kind, files=files)
    whole, _ = plan.run(0)
    require(whole.status == 0 and is_written(content, whole.files[target]), "not written", whole)
    plan.judge = Whole(files, target, whole.files[target])
    return plan.judged(f"{name}, {kind}", 1)


def ignored_hangup():
    """A SIGHUP that is ignored, as by nohup. While it is held back, it stays pending."""
    signal.signal(signal.SIGHUP, signal.SIG_IGN)
    signal.raise_signal(signal.SIGHUP)


# What a word of the package meets at a line, and how it may end then.
MET = {
    "out of memory": (lack_memory, 3, "excp: out of memory\n"),
    "Ctrl-C": (lambda: signal.raise_signal(signal.SIGINT), 130, ""),
    "SIGTERM": (lambda: signal.raise_signal(signal.SIGTERM), -signal.SIGTERM, ""),
    "SIGHUP": (lambda: signal.raise_signal(signal.SIGHUP), -signal.SIGHUP, ""),
    "an ignored SIGHUP": (ignored_hangup, 0, ""),
}

# The default form tries one of so many lines of the part of the package that writes files, the long form each line of all.
STEP, WRITES = 7, "files/"


def is_met_at_each_line(setup, name, met):
    """Out of memory, or a signal, at each line of a word in turn: its target is old or new, and no other file is left, but if
    memory runs out while the new one is removed."""
    act, status, said = MET[met]
    words, script, content = WORDS[name]
    target = os.path.basename(TARGET)
    named = [*words.replace("FILE", target).split(), "in"]
    files = {"in": script.encode(), target: BEFORE[content]}
    number = 1
    while True:
        with tempfile.TemporaryDirectory(prefix="targets-") as folder:
            for file, data in files.items():
                write(f"{folder}/{file}", data)
            ran, count = ran_at(number, act, "" if setup.is_long else WRITES, named, folder)
            after = {file: data for file, (_, data) in contents(folder).items()}
            if act is lack_memory:
                after.pop(f"{target}.excp-new", None)
        if status >= 0 and count < number:
            require(ran.status == 0, "ended badly", ran)
            return None
        is_new = after.keys() == files.keys() and after["in"] == files["in"] and is_written(content, after[target])
        require(after == files or is_new, f"files after line {number}: {list(after)}", ran)
        if (ran.status, ran.err) == (0, "") and status < 0:
            return None
        require((ran.status, ran.err) == (status, said), f"another end at line {number}", ran)
        require(is_new or status != 0, f"not written at line {number}", ran)
        number += 1 if setup.is_long else STEP


# --- the rules of the package for media that are loaded and saved


def unwritten(call):
    """Why a call did not write, if it did not."""
    try:
        call()
    except Unwritten as error:
        return error.sentence
    return None


def image_of_a_unit_is_kept(_setup):
    """The image that a unit was loaded from is replaced by the medium of that unit alone, and only as it was read."""
    with tempfile.TemporaryDirectory(prefix="targets-") as folder:
        image, other, link = f"{folder}/image", f"{folder}/other", f"{folder}/link"
        write(image, small_tape())
        write(other, small_tape())
        os.symlink(image, link)
        unit = UnitFile(0, image)
        require(unwritten(lambda: Targets(None, False, [unit], [UnitFile(1, link)])) == OF_TWO_UNITS, "named for two units")
        require(unwritten(lambda: Targets(None, False, [], [unit, UnitFile(1, f"{image}.excp-new")])) == OF_TWO_UNITS,
                "the new file")
        targets = Targets(None, False, [unit], [UnitFile(0, link)])
        for number, why in (0, None), (1, TAKEN_BY_PACKAGE), (None, TAKEN_BY_PACKAGE):
            require(unwritten(lambda n=number: targets.check(Output(image, TAPE, n))) == why, f"unit {number}")
        saved = Output(link, TAPE, 0)
        require(unwritten(lambda: targets.write(saved, [b"\0\0\0\0\x40\0"])) is None, "not written")
        with open(image, "rb") as it:
            require(it.read() == b"\0\0\0\0\x40\0" and os.path.islink(link), "another image")
        targets = Targets(None, False, [unit], [UnitFile(0, link)])
        write(image, b"notes")
        require(unwritten(lambda: targets.write(saved, [b""])) == CHANGED, "it was written since")
        os.remove(link)
        os.symlink(other, link)
        require(unwritten(lambda: targets.write(saved, [b""])) == MOVED, "its name leads elsewhere")
        require(sorted(os.listdir(folder)) == ["image", "link", "other"], "files are left")


def cases(setup):
    yield Case("is decided after the run", lambda: is_decided_after_the_run(setup), ORIGIN)
    yield Case("is as it was read", lambda: is_as_it_was_read(setup), ORIGIN)
    yield Case("image of a unit is kept", lambda: image_of_a_unit_is_kept(setup), ORIGIN)
    for judge in (unit_comes_after_an_event, compressed_image_is_kept, dialog_learns_its_unit, unmet_expectation_saves,
                  output_that_fails_saves_nothing, unread_report_saves, signal_ends_what_is_unread):
        yield Case(judge.__name__.replace("_", " "), lambda j=judge: j(setup), ORIGIN)
    for name in WORDS:
        for made in MADE:
            yield Case(f"{name}: {made}", lambda n=name, m=made: is_judged(setup, n, m), ORIGIN)
        for judge in (has_file_left, has_file_in_the_way, is_being_written, directory_is_missing, directory_is_not_writable,
                      full_or_read_only):
            yield Case(f"{name}: {judge.__name__.replace('_', ' ')}", lambda n=name, j=judge: j(setup, n), ORIGIN)
        for met in MET if name in ("convert to aws", "convert to ckd") else ():
            yield Case(f"{name}: {met} at each line", lambda n=name, m=met: is_met_at_each_line(setup, n, m), ORIGIN)
        for kind in "file", "kill":
            yield Case(f"{name}: each {kind}", lambda n=name, k=kind: fails_in_turn(setup, n, k), ORIGIN)
