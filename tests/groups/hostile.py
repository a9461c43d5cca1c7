"""Hostile scripts, each run to its end: what they print is what docs/SPECIFICATION.md says of them.

They are: cut samples; sizes and counts of ten digits; programs that overwrite themselves or run off; as many tasks, units,
requests, DCBs, extents and bytes as there may be, and one more; and samples with each byte replaced in turn. `check` and a
run agree on the first fault of each, but for the larger sample.
"""

import os
import re
import resource
import tempfile

from faults import require_alike
from harness import TOP, Case, expect, require, run, side_by_side

LIMIT = 1_048_576

NAMES = "Words|Number|Order|Name|Kind|Area|Medium|Extent|Request"
FAULT = re.compile(rf"excp_job: line [0-9]+: ({NAMES})\n")
POST = re.compile(r"post [0-9]+ [0-9]+ [0-9]+ (7F|41|42|48) [0-9A-F]{6} [0-9A-F]{4} [0-9A-F]{4} [0-9A-F]{4} (-|[0-9A-F]+)")


def ends(due, words=()):
    """The way in which a run with these words is to end: the posts, given in order, or the fault that is given instead."""
    if isinstance(due, str):
        return words, (1, "", f"excp_job: {due}\n")
    return words, (0, "".join(f"{line}\n" for line in [*due, f"end {len(due)}"]), "")


def ends_so(setup, script, end):
    words, way = end
    ran = setup.run("run", *words, script=script)
    expect(ran, way)
    require_alike(setup, script, ran)


def is_plain(ran):
    """Whether a run printed posts and their number, or reported the fault of a line and printed nothing."""
    if ran.status == 1:
        return ran.out == "" and FAULT.fullmatch(ran.err)
    *posts, last = ran.out.splitlines() or [""]
    return ran.status == 0 and ran.err == "" and last == f"end {len(posts)}" and all(map(POST.fullmatch, posts))


def bad_run(setup, script):
    """The run if it ended badly."""
    ran = setup.run("run", script=script)
    return None if is_plain(ran) else ran


def are_plain(setup, scripts):
    bad = [it for it in side_by_side(lambda script: bad_run(setup, script), scripts, 2) if it]
    require(not bad, f"{len(bad)} of {len(scripts)} runs ended neither with posts nor with the fault of a line", *bad[:1])


def is_judged_alike(setup, script):
    ran = setup.run("run", script=script)
    require(is_plain(ran), "a run ended neither with posts nor with the fault of a line", ran)
    require_alike(setup, script, ran)


def are_judged_alike(setup, scripts):
    side_by_side(lambda script: is_judged_alike(setup, script), scripts, 2)


def cuts(script):
    """The script cut after each of its bytes, and before the first."""
    return [script[:at] for at in range(len(script) + 1)]


def replaced(script, by):
    """The script with each of its bytes replaced in turn."""
    return [script[:at] + by + script[at + 1 :] for at in range(len(script))]


def text_of(name):
    with open(f"{TOP}/{name}", "rb") as file:
        return file.read()


# The sample: a disk with a record, and a request of search, transfer back and read data, in six lines.
SAMPLE = b"".join(line for line in text_of("samples/read.script").splitlines(True) if not line.startswith(b"#"))
STORED = text_of("crates/excp_job/stdin")
READ = "post 0 0 1 7F 001048 0C00 0000 0000 C1C2C3C4"


def sample(*changes):
    """The sample with these texts replaced, each of which is in it once."""
    script = SAMPLE.decode()
    for old, new in changes:
        assert script.count(old) == 1, old
        script = script.replace(old, new)
    return script.encode()


def area(number, dcb, base=0x1000, start=0x30, program="0300000020000001", rest=0):
    """The line of an area with an unrelated IOB at its begin, its ECB, a program at X'30', and bytes of zeros."""
    iob = f"42000000{base + 0x28:08X}{0:016X}{base + start:08X}{dcb:08X}{0:032X}"
    return f"area {number} {base:06X} {iob}{0:016X}{program}{'00' * rest}"


def lines(*parts):
    return "".join(f"{line}\n" for line in parts).encode()


TAPE = ["tasks 1", "tape 0 0 4"]
EXTENT = "18000000000000000000000000000001"
NO_OPERATION = "7F 001038 0C00 0001 0000 -"


def of_everyone(count):
    """Each task issues a request to each unit."""
    units = [f"tape {unit} {unit % 8} 4" for unit in range(count)]
    opens = [f"open {unit} in" for unit in range(count)]
    excps = [f"excp {task} {unit} 1 001000 0 001000 0" for unit in range(count) for task in range(count)]
    return lines(f"tasks {count}", *units, *opens, area(0, 1), *excps)


def as_many_as_fit(program, ended):
    """A script with as many requests of a program to one unit as it has room for, and their posts."""
    head = lines(*TAPE, "open 0 in", area(0, 1, program=program))
    excp = lines("excp 0 0 1 001000 0 001000 0")
    count = (LIMIT - len(head)) // len(excp)
    return head + count * excp, ends([f"post 0 0 {n + 1} {ended}" for n in range(count)])


def of_dcb(number, count):
    """A request of the DCB with this number, of so many that are opened."""
    return lines(*TAPE, *["open 0 in"] * count, area(0, number), f"excp 0 0 {number} 001000 0 001000 0")


def with_area(size):
    """A request on an area of this size. It shows the last byte."""
    excp = f"excp 0 0 1 001000 0 {0x1000 + size - 1:06X} 1"
    return lines(*TAPE, "open 0 in", area(0, 1, rest=size - 0x38), excp)


def with_block(size):
    """A tape that has room for a block of this size."""
    return lines("tasks 1", "tape 0 0 100000", f"block 0 {'C1' * size}")


def fills(end):
    """A script of the most bytes, with this end after a comment."""
    return b"#" * (LIMIT - len(end) - 1) + b"\n" + end


EVERYONE = [f"post {task} {unit} 1 {NO_OPERATION}" for task in range(64) for unit in range(64)]
LOOP = "03000000600000010800103000000000"
ALL = ["--channels", "16", "--handlers", "8"]
CALL = "excp 0 0 1 001000 0 001060 4"
DISK = SAMPLE.decode().splitlines()[:4]
OVERWRITES = sample(
    ("0600106000000004 0000000000000000", "0600104840000004 0000000000000001"),
    (CALL, "excp 0 0 1 001000 0 001060 0"),
)
LATE = "00" * 0x30 + "0300000060000001"
OFF_THE_AREA = lines(*DISK, area(0, 1, start=0x60, program=LATE), "excp 0 0 1 001000 0 001000 0")
OFF_THE_TOP = lines(*DISK, area(0, 1, base=0xFFFF98, start=0x60, program=LATE), "excp 0 0 1 FFFF98 0 FFFF98 0")

# The name of each run, its script, and how it ends.
ROWS = [
    ("the sample", SAMPLE, ends([READ])),
    ("the sample without its last LF", SAMPLE[:-1], ends([READ])),
    ("no byte", b"", ends("line 0: Order")),
    ("as many bytes of # as a script has", b"#" * LIMIT, ends("line 0: Order")),
    ("one byte of # more", b"#" * (LIMIT + 1), ends("script too long")),
    ("a script of the most bytes", fills(b"tasks 1\ntape 0 0 4"), ends([])),
    ("as many LF as a script has bytes", b"\n" * LIMIT, ends("line 0: Order")),
    ("a geometry of ten digits", sample(("1 1 40", "9999999999 9999999999 9999999999")), ends("line 2: Medium")),
    ("a tape of ten digits", lines("tasks 1", "tape 0 0 9999999999"), ends("line 2: Medium")),
    ("a block of 65,535 bytes", with_block(65_535), ends([])),
    ("a block of 65,536 bytes", with_block(65_536), ends("line 2: Medium")),
    ("a printer of ten digits", lines("tasks 1", "printer 0 0 9999999999 9999999999"), ends("line 2: Medium")),
    ("eleven digits", sample(("1 1 40", "1 1 00000000040")), ends("line 2: Number")),
    ("bytes of ten digits that are shown", sample((CALL, "excp 0 0 1 001000 0 001060 9999999999")), ends("line 6: Request")),
    ("an area of ten digits", sample((CALL, "excp 0 0 1 001000 9999999999 001060 4")), ends("line 6: Name")),
    ("cut after tasks", SAMPLE[: len("tasks")], ends("line 1: Words")),
    ("cut in the geometry", SAMPLE[: SAMPLE.index(b" 40\n") + len(" 4")], ends("line 2: Medium")),
    ("cut before the request", SAMPLE[: SAMPLE.index(b"excp")], ends([])),
    ("cut before its last word", SAMPLE[: -len(" 4\n")], ends("line 6: Words")),
    ("a program that overwrites its next CCW", OVERWRITES, ends(["post 0 0 1 41 001050 0E00 0001 8000 -"])),
    ("a program that runs off its area", OFF_THE_AREA, ends(["post 0 0 1 41 001070 0020 0000 0000 -"])),
    ("a program that runs off the top of storage", OFF_THE_TOP, ends(["post 0 0 1 41 000008 0020 0000 0000 -"])),
    ("64 tasks and 64 units", of_everyone(64), ends(EVERYONE)),
    ("64 tasks and 64 units, with all workers", of_everyone(64), ends(EVERYONE, ALL)),
    ("more workers than units", SAMPLE, ends([READ], ALL)),
    ("a unit on the last subclass, with all workers", sample(("disk 0 0", "disk 0 7")), ends([READ], ALL)),
    ("65 tasks", lines("tasks 65"), ends("line 1: Number")),
    ("unit 64", lines("tasks 1", "tape 64 0 4"), ends("line 2: Number")),
    ("as many requests as a script has", *as_many_as_fit("0300000020000001", NO_OPERATION)),
    ("a trace of millions of entries", *as_many_as_fit(LOOP, "41 001038 0020 0000 0000 -")),
    ("DCB 65,535", of_dcb(65_535, 65_535), ends([f"post 0 0 1 {NO_OPERATION}"])),
    ("65,536 DCBs", of_dcb(1, 65_536), ends("line 65538: Extent")),
    ("DCB 65,536", of_dcb(65_536, 1), ends("line 5: Number")),
    ("16 extents", sample((EXTENT, " ".join([EXTENT] * 16))), ends([READ])),
    ("17 extents", sample((EXTENT, " ".join([EXTENT] * 17))), ends("line 4: Extent")),
    ("a fault at an ordinal of ten digits", sample(("open", "fault 0 9999999999 0E 00 1000\nopen")), ends([READ])),
    ("a fault at ordinal 0", sample(("open", "fault 0 0 0E 00 1000\nopen")), ends("line 2: Medium")),
    ("an area of 8,192 bytes", with_area(8_192), ends([f"post 0 0 1 {NO_OPERATION[:-1]}00"])),
    ("an area of 8,193 bytes", with_area(8_193), ends("line 4: Area")),
    ("an area of none", lines(*TAPE, "open 0 in", "area 0 001000", "excp 0 0 1 001000 0 001000 0"), ends("line 5: Request")),
]

# The cases that take an unproved program about a minute each, or more, or more memory than they allow.
ONLY_PROVED = (
    "as many LF as a script has bytes",
    "as many requests as a script has",
    "a trace of millions of entries",
    "a limit of memory",
)

# Many scripts, of which each gives posts, or the fault of a line.
SWEEPS = [
    (f"{name}, {what}", scripts)
    for name, script in (("the sample", SAMPLE), ("the stored script", STORED))
    for what, scripts in (
        ("cut after every byte", cuts(script)),
        *((f"each byte by {by!r}", replaced(script, by)) for by in (b"0", b"F", b" ", b"\xff")),
    )
]


def is_read_no_further(setup):
    """Of a script that is too long one byte past the limit is read, and no more."""
    with tempfile.TemporaryFile() as file:
        file.write(b"#" * (LIMIT + 9))
        file.seek(0)
        ran = run([setup.program, "run"], stdin=file)
        expect(ran, (1, "", "excp_job: script too long\n"))
        place = os.lseek(file.fileno(), 0, os.SEEK_CUR)
    require(place == LIMIT + 1, f"{place} bytes were read, {LIMIT + 1} are wanted", ran)


def with_folder(setup):
    """A standard input that cannot be read, as a folder cannot."""
    folder = os.open(TOP, os.O_RDONLY)
    try:
        expect(run([setup.program, "run"], stdin=folder), (1, "", "excp_job: script unreadable\n"))
    finally:
        os.close(folder)


def with_limit(setup):
    """Tapes of 1 GiB in all, and a limit of half of that for the process."""
    script = lines("tasks 1", *[f"tape {unit} 0 16777216" for unit in range(64)])
    most = 512 * 2**20
    ran = run([setup.program, "run"], script, preexec_fn=lambda: resource.setrlimit(resource.RLIMIT_AS, (most, most)))
    expect(ran, (3, "", "excp_job: out of memory\n"))


def with_full_output(setup):
    with open("/dev/full", "wb") as full:
        expect(run([setup.program, "run"], SAMPLE, stdout=full), (1, "", "excp_job: output not written\n"))


def cases(setup):
    def judged(name, judge, given):
        if name in ONLY_PROVED:
            setup.skip_unproved()
        judge(setup, *given)

    def case(name, judge, *given):
        return Case(name, lambda: judged(name, judge, given), "tests/groups/hostile.py, by docs/SPECIFICATION.md")

    for name, script, end in ROWS:
        yield case(name, ends_so, script, end)
    yield case("no more than a byte past the limit is read", is_read_no_further)
    yield case("a folder as input", with_folder)
    yield case("a full output", with_full_output)
    yield case("a limit of memory", with_limit)
    for name, scripts in SWEEPS:
        yield case(name, are_judged_alike if name.startswith("the sample") else are_plain, scripts)
