"""Listings: `report --listing` prints a script with its areas in symbols, of which `assemble` makes the same script again.

- A listing of each stored script that is not rejected, and of each sample, comes back to the same areas and the same other lines.
What comes of a sample prints its posts. - So do listings of programs at random, with valid and odd IOBs, CCWs and data. -
`tests/cases/listing/*.listing` has scripts and their listings, written by hand. A job in symbols is listed as it is written. -
`tests/cases/listing/*.steps` has jobs in symbols and their reports with steps. So have the samples: but for their names they are
those of the plain scripts, and each CCW has a line of the job with its mnemonic. - A job in symbols has the names and lines of its
addresses, and the areas of its requests, as they are written in MAPPED and NAMES.
"""

import glob
import os
import random
import re

from groups import first_faults, reports
from harness import SAMPLES, Case, expect, expect_text, files, multiple, read, require

ORIGIN = "docs/ASSEMBLER.md, a listing"

# How many stored scripts are one case.
BATCH = 50

# How many scripts at random there are, and how many programs each has.
SCRIPTS = 20
PROGRAMS = 50

# The lines of units, each with codes of commands that it has.
UNITS = [
    ("disk 0 0 1 1 40", bytes.fromhex("03 04 05 06 07 0D 0E 12 1D 1E 1F 29 31 31 31")),
    ("tape 1 1 60", bytes.fromhex("01 02 02 03 04 07 0C 1F 27 2F 37 3F")),
    ("printer 2 2 3 1", bytes.fromhex("01 03 04 09 0B 11 13 19 1B 89 8B")),
]

# The flags of CCWs: most chain commands or data, and one in ten has a bit that no word names.
FLAGS = bytes.fromhex("00 20 04 40 40 40 40 40 40 60 60 48 44 44 80 80 90 84 41 02")


# A job whose labels overlap, and of addresses of its first area: the label, the operand, and the line that has set the byte.
MAPPED = """tasks 2
tape 0 0 100
open 0 in
area 0
IOB:    IOB   ecb=ECB start=CP dcb=1   ; 001000 to 001027
ECB:    ECB                            ; 001028
ALONE:
CP:     RDF   BUFFER,16                ; 001030
        NOP                            ; 001038
BUFFER: DS    16                       ; 001040
        ORG   BUFFER
FIRST:  DC    C'A;B'                   ; 001040 to 001042
END:
endarea
area 1 002000 4040
excp 0 0 1 IOB 0 BUFFER 16
excp 1 0 1 001000 1 001000 0
excp 0 0 1 001000 1 001000 0
"""
NAMES = {
    0x000FFF: (None, None, None),
    0x001000: ("IOB", "IOB", 5),
    0x001012: (None, "IOB+18", 5),
    0x00102C: ("ALONE", "ALONE", None),
    0x001030: ("CP", "CP", 8),
    0x001037: (None, "CP+7", 8),
    0x001038: (None, None, 9),
    0x001040: ("BUFFER", "BUFFER", 12),
    0x001042: (None, "BUFFER+2", 12),
    0x001043: ("END", "END", None),
    0x001044: (None, "BUFFER+4", None),
    0x001050: (None, None, None),
}


def is_mapped():
    """The map of a job has its names, lines and requests; a plain script has none."""
    from excp.symbols import Assembled, assemble
    from excp.symbols.source_map import source_map

    done = assemble(MAPPED.encode())
    found = source_map(done)
    area = found.area_of(0, 0, 1)
    for address, due in NAMES.items():
        actual = area.label(address), area.operand(address), area.line(address)
        require(actual == due, f"{address:06X} has {actual}, and not {due}")
    plain = found.area_of(1, 0, 1)
    require((plain.number, plain.opening_line, plain.label(0x2000), plain.line(0x2000)) == (1, 15, None, None), "a plain area")
    requests = [found.request(*it) for it in ((0, 0, 1), (1, 0, 1), (0, 0, 2), (0, 0, 3), (0, 0, 0), (0, 1, 1))]
    require(requests == [(16, 0), (17, 1), (18, 1), None, None, None], f"the requests are {requests}")
    require(found.statement(12) == "FIRST:  DC    C'A;B'", "a statement with its comment")
    require(source_map(Assembled(done.script)) is None, "a plain script has a map")


# What only the steps of a job in symbols have: the line and the statement of a CCW, labels, and the source of a request.
CCW = re.compile(r"(?m)^(# {9}[0-9A-F]{6}  [0-9A-F]{16}  .{28,}?) (?=[ 0-9]{5}) *(\d+) (.*)$")
LABEL = re.compile(r"(?m)^(#           .*(?:(?:from|to) [0-9A-F]{6}|, on to [0-9A-F]{6})) [A-Za-z_$#@][^ :]*(?=:|$|,)")
SOURCE = re.compile(r"(?m)^(# .* arrived for .*?), line \d+: area \d+, start \S+$")
CHECKED = re.compile(r"(?m)^(#           program check at [^:]*), line \d+(?=: )")


def names_commands(setup, file):
    """The commands of a sample in symbols have its names, and are else those of its plain script."""
    words = "report", "--steps", "--seed", "1"
    job, ran = read(file), setup.run(*words, file=file)
    require((ran.status, ran.err) == (0, ""), "the report fails", ran)
    lines = job.splitlines()
    for found in CCW.finditer(ran.out):
        said = lines[int(found[2]) - 1].split(";")[0].rstrip()
        require(said == found[3], f"line {found[2]} is {said!r}", ran)
    plain = CCW.sub(lambda it: it[1].rstrip(), ran.out)
    for pattern in LABEL, SOURCE, CHECKED:
        plain = pattern.sub(r"\1", plain)
    due = setup.run(*words, script=setup.run("assemble", script=job).out)
    expect_text("other steps than those of the plain script", ran, due.out, plain)
    require(plain != ran.out, "no names", ran)


def has_steps(setup, script, wanted):
    expect(setup.run("report", "--steps", script=script), (0, wanted))


def same(script):
    """What a script says: its lines without comments, each with one blank between words, and the bytes of an area as one word."""
    lines = []
    for words in (line.split() for line in script.split("\n")):
        if words and not words[0].startswith("#"):
            if words[0] == "area":
                words = ["area", str(int(words[1])), words[2].upper(), "".join(words[3:]).replace("-", "").upper()]
            lines.append(" ".join(words))
    return "\n".join(lines)


def comes_back(setup, script):
    """What a listing is assembled to, if the script is not rejected: the same script."""
    ran = setup.run("report", "--listing", script=script)
    if ran.status != 0:
        require((ran.status, ran.out) == (1, "") and ran.err, "neither a listing nor a fault", ran)
        return None
    if "endarea" in script:
        script = setup.run("assemble", script=script).out
    back = setup.run("assemble", script=ran.out)
    require((back.status, back.err) == (0, ""), "a listing with faults", back)
    expect_text("another script", ran, same(script), same(back.out))
    return back.out


def is_sample(setup, name):
    posts = [read(it) for it in (f"{name}.posts", f"{name}.or.posts") if os.path.exists(it)]
    back = comes_back(setup, read(f"{name}.script"))
    require(back is not None, "a sample is rejected")
    expect(setup.run("run", script=back), *((0, it) for it in posts))


def are_stored(setup, scripts, run):
    """Those of these scripts that run are listed, and others may be rejected."""
    for script in scripts:
        require(comes_back(setup, script) is not None or script not in run, "a script that runs is rejected")


def command_at_random(chance, base, size, codes):
    """A CCW with an address in the area or near it, most on a boundary."""
    near = base + chance.choice((chance.randrange(0, size, 8), chance.randrange(size), chance.randrange(-16, size + 16)))
    address = (near if chance.random() < 0.9 else chance.randrange(1 << 24)) % (1 << 24)
    if chance.random() < 0.15:
        return bytes([8]) + address.to_bytes(3, "big") + bytes(4)
    code = chance.choice(codes) if chance.random() < 0.9 else chance.choice((0x00, 0x08, 0x18, chance.randrange(256)))
    count = chance.choice((1, 1, 2, 4, 5, 8, 80, 0, chance.randrange(65536)))
    address = 0 if chance.random() < 0.05 else address
    odd = chance.randrange(256) if chance.random() < 0.03 else 0
    return bytes([code]) + address.to_bytes(3, "big") + bytes([chance.choice(FLAGS), odd]) + count.to_bytes(2, "big")


def data_at_random(chance, count):
    """Text, zeros and other bytes."""
    parts = bytearray()
    while len(parts) < count:
        some = chance.randint(1, 30)
        kind = chance.randrange(3)
        parts += bytes(some) if kind == 0 else bytes(chance.randrange(0x40 if kind == 1 else 0, 256) for _ in range(some))
    return parts[:count]


def block_at_random(chance, ecb, start):
    """An IOB with these addresses; one in six has a bit or a number that its statement cannot have."""
    image = bytearray(40)
    image[0], image[23] = chance.choice((0x40, 0x42)), chance.choice((1, 2, 255))
    image[5:8], image[17:20] = ecb.to_bytes(3, "big"), start.to_bytes(3, "big")
    image[32], image[35], image[39] = chance.choice((0, 0, 3)), chance.choice((0, 1)), chance.randrange(3)
    if chance.random() < 0.17:
        image[chance.randrange(40)] ^= chance.randrange(1, 256)
    return image


def area_at_random(chance, number):
    """An area with a program, and the line of its request. Of one in four, IOB, ECB and CCWs are anywhere."""
    unit = chance.randrange(len(UNITS))
    base, size = chance.choice((0, 0x1000, 0x17C0, 0xFFFE00)), chance.randint(100, 300)
    storage = data_at_random(chance, size)
    on = lambda boundary: chance.randrange(0, size, boundary if chance.random() < 0.9 else 1)
    iob, ecb, start = (0, 40, 48) if chance.random() < 0.75 else (on(4), on(4), on(8))
    for at in range(start, size, 8):
        storage[at : at + 8] = command_at_random(chance, base, size, UNITS[unit][1])
        if chance.random() < 0.08:
            break
    storage[ecb : ecb + 4] = bytes(4) if chance.random() < 0.9 else b"\x40\0\0\0"
    storage[iob : iob + 40] = block_at_random(chance, base + ecb, base + start)
    words = storage[:size].hex().upper()
    return f"area {number} {base:06X} {words}", f"excp 0 {unit} 1 {base + iob:06X} {number} {base:06X} 0"


def programs_at_random(setup, seed):
    chance = random.Random(f"listing {seed}")
    areas, requests = zip(*(area_at_random(chance, number) for number in range(PROGRAMS)))
    opened = "open 0 out 18000000000000000000000000000001", "open 1 out", "open 2 out"
    script = "\n".join(["tasks 1", *(it[0] for it in UNITS), *opened, *areas, *requests, ""])
    require(comes_back(setup, script) is not None, "a script at random is rejected")


def is_listed(setup, script, listing):
    ran = setup.run("report", "--listing", script=script)
    expect(ran, (0, listing))
    comes_back(setup, script)


def cases(setup):
    def case(name, judge, *given, origin=ORIGIN):
        return Case(name, lambda: judge(setup, *given), origin)

    for file in files("listing", ".listing"):
        for name, script, text, place in multiple(file):
            yield case(name, is_listed, script, text, origin=f"{place}, by docs/ASSEMBLER.md")
    for file in files("listing", ".steps"):
        for name, script, text, place in multiple(file):
            yield case(name, has_steps, script, text, origin=f"{place}, by docs/ASSEMBLER.md and docs/SPECIFICATION.md")
    for file in sorted(glob.glob(f"{SAMPLES}/*.symbolic")):
        yield case(f"names in the steps of {os.path.basename(file)}", names_commands, file)
        yield case(f"listing of {os.path.basename(file)}", are_stored, [read(file)], {read(file)})
    for file in sorted(os.listdir(SAMPLES)):
        if file.endswith(".script"):
            yield case(f"listing of {file}", is_sample, f"{SAMPLES}/{file.removesuffix('.script')}")
    scripts = [script for _, script, _ in first_faults.stored()]
    run = {script for _, script, _ in reports.stored()}
    for at in range(0, len(scripts), BATCH):
        yield case(f"listings of stored scripts, from {at}", are_stored, scripts[at : at + BATCH], run)
    yield Case("names and lines of a job in symbols", is_mapped, "docs/ASSEMBLER.md, by the comments of the job")
    for seed in range(SCRIPTS):
        yield case(f"{PROGRAMS} programs at random: {seed}", programs_at_random, seed)
