"""Images of tapes and disks: loaded, saved, described and converted, with Hercules' tools on both sides.

What an image holds, and its first fault, is by `tests/formats.py`. Volumes and tapes are made and read by Hercules' tools
(Debian's package `hercules`); without them these cases are skipped.
"""

import bz2
import fcntl
import os
import pty
import random
import re
import shlex
import shutil
import struct
import subprocess
import tempfile
import threading
import zlib

import formats
from excp.images.media import Disk
from excp.images.measured import TapeFile, measured
from excp.images.reading import Unreadable, read_image
from harness import CASES, SAMPLES, SECONDS, Case, Failed, Skipped, expect, expect_text, read, require, run

STORED = f"{CASES}/images"
ORIGIN = "tests/formats.py, by docs/FORMATS.md"
BY_HERCULES = "Hercules' tools, which made the image and read it again"

# The models that dasdinit makes whole: cylinders, heads, and bytes of a track in the profile.
MODELS = {
    "2305-1": (48, 8, 14_322),
    "2305-2": (96, 8, 14_834),
    "2311": (200, 10, 4_082),
    "2314": (200, 20, 7_666),
    "3330": (404, 19, 13_298),
    "3340": (348, 12, 8_690),
    "3350": (555, 30, 19_442),
    "3380": (885, 15, 47_602),
    "3390": (1_113, 15, 56_818),
}

# The models that a new disk may be of: those, and two more.
NEW = {model: sizes[1:] for model, sizes in MODELS.items()} | {"3375": (12, 35_826), "9345": (15, 46_578)}

# The bytes of a volume that an unproved program has no time for.
LARGE = 1 << 25

# How many files one `describe` is given.
FILES = 400


def tool(name):
    """A tool of Hercules."""
    found = shutil.which(name)
    if not found:
        raise Skipped(f"no {name}: install Hercules' tools")
    return found


def made(*words, cwd):
    """Runs a tool of Hercules, and gives what it printed."""
    ran = subprocess.run([tool(words[0]), *words[1:]], cwd=cwd, stdin=subprocess.DEVNULL, capture_output=True, check=False)
    require(ran.returncode == 0, f"{' '.join(words)}: {ran.stdout + ran.stderr}")
    return ran.stdout


def bytes_of(file):
    with open(file, "rb") as it:
        return it.read()


def in_memory(size):
    """A folder in memory, if it has room for so many bytes twice over; else none is named."""
    shared = "/dev/shm"
    return shared if os.path.isdir(shared) and shutil.disk_usage(shared).free > 4 * size else None


def write(file, data):
    with open(file, "wb") as it:
        it.write(data)
    return file


def idle(kind):
    """A job that does nothing on one unit with the size of its image."""
    return f"tasks 1\n{kind} 0 0 -\nwait 0\n"


def program(setup, folder, *words, script="", seconds=SECONDS):
    return setup.run(*words, script=script, cwd=folder, timeout=seconds)


def keeps(setup, folder, kind, name, saved="saved"):
    """An image is the same file after it was loaded and saved."""
    ran = program(setup, folder, "report", "--posts", "--load", f"0={name}", "--save", f"0={saved}", script=idle(kind))
    expect(ran, (0, "end 0\n"))
    same = subprocess.run(["cmp", name, saved], cwd=folder, capture_output=True, check=False)
    require(same.returncode == 0, f"{name} is another file after load and save: {same.stdout.decode()}", ran)


# --- media of Hercules


def is_kept_whole(setup, model):
    """A whole volume of a model is loaded, saved and described."""
    cylinders, heads, size = MODELS[model]
    if cylinders * heads * size > LARGE:
        setup.skip_unproved()
    with tempfile.TemporaryDirectory(prefix="images-", dir=in_memory(cylinders * heads * size)) as folder:
        made("dasdinit", "volume", model if "-" in model or model == "2311" else f"{model}-1", "VOL001", cwd=folder)
        keeps(setup, folder, "disk", "volume")
        os.remove(f"{folder}/saved")
        ran = program(setup, folder, "describe", "volume")
        wanted = f"{cylinders} cylinders of {heads} heads, {size} bytes a track"
        require(ran.status == 0 and wanted in ran.out and "volume VOL001" in ran.out, f"not described as {wanted}", ran)


def is_new(setup, model):
    """A disk of a model that was not loaded is saved with the header of Hercules' new disks, and Hercules reads it."""
    heads, size = NEW[model]
    with tempfile.TemporaryDirectory(prefix="images-") as folder:
        made("dasdinit", "new", model, "VOL001", "1", cwd=folder)
        script = f"tasks 1\ndisk 0 0 1 {heads} {size}\nwait 0\n"
        expect(program(setup, folder, "report", "--posts", "--save", "0=saved", script=script), (0, "end 0\n"))
        header = bytes_of(f"{folder}/new")[:512]
        require(bytes_of(f"{folder}/saved")[:512] == header, "another header")
        made("dasdls", "saved", cwd=folder)


def loaded_volume(folder):
    """A 3390 of three cylinders with a data set of blocks of 800 bytes."""
    lines = [f"LINE {number:03d} OF THE DATA SET".ljust(80).encode("cp037") for number in range(1, 41)]
    write(f"{folder}/lines", b"".join(lines))
    control = "TEST01 3390-1 3\nSYS1.TEXT SEQ lines TRK 2 0 0 PS FB 80 800\nSYSVTOC VTOC TRK 1\n"
    write(f"{folder}/control", control.encode())
    made("dasdload", "control", "old", cwd=folder)


def script_of(setup, sample, folder):
    """The plain script of a symbolic sample."""
    ran = program(setup, folder, "assemble", f"{SAMPLES}/images/{sample}")
    require(ran.status == 0, f"{sample} is not assembled", ran)
    return ran.out


def rewrites_a_block(setup):
    """A job finds a data set by its label and its VTOC, and rewrites its first block; dasdls and dasdseq read the result."""
    with tempfile.TemporaryDirectory(prefix="images-") as folder:
        loaded_volume(folder)
        script = script_of(setup, "vtoc.symbolic", folder)
        ran = program(setup, folder, "report", "--posts", "--load", "0=old", "--save", "0=new", script=script)
        label = "VOL1TEST01".encode("cp037").hex().upper()
        begins = [f"post 0 0 {number} 7F " for number in (1, 2, 3)]
        lines = ran.out.splitlines()
        require(ran.status == 0 and len(lines) == 4, "no three posts", ran)
        require(all(line.startswith(it) for line, it in zip(lines, begins)) and label in lines[0], "other posts", ran)
        first = "LINE 001 OF THE DATA SET".ljust(80).encode("cp037").hex().upper()
        require(lines[2].endswith(first), "another first block", ran)
        names = made("dasdls", "new", cwd=folder)
        require(b"SYS1.TEXT" in names and b"TEST01" in names, f"dasdls: {names}")
        made("dasdseq", "new", "SYS1.TEXT", cwd=folder)
        records = bytes_of(f"{folder}/SYS1.TEXT")
        new = [f"LINE {number:03d} WAS REWRITTEN BY A CHANNEL PROGRAM".ljust(80).encode("cp037") for number in range(1, 11)]
        old = [f"LINE {number:03d} OF THE DATA SET".ljust(80).encode("cp037") for number in range(11, 41)]
        require(b"".join(new + old) in (records, records.replace(b"\n", b"")), f"dasdseq: {records[:200]}")
        tracks_are_kept(bytes_of(f"{folder}/old"), bytes_of(f"{folder}/new"), {1})


def tracks_are_kept(old, new, written):
    """All tracks but those written are as they were, and those have no byte after their end mark."""
    before, after = formats.volume_of(old), formats.volume_of(new)
    require(before.header == after.header, "another header")
    for number, (one, other) in enumerate(zip(before.tracks, after.tracks)):
        if number in written:
            require(other.flag == 0 and not any(other.tail), f"track {number} is not canonical")
        else:
            require(one == other, f"track {number} was changed")
    require(len(before.tracks) == len(after.tracks), "another number of tracks")


def tape_with_labels():
    """A tape with IBM standard labels and one data set."""

    def text(line):
        return line.ljust(80).encode("cp037")

    first = [text("VOL1VOL001"), text("HDR1FIRST.FILE"), text("HDR2F0008000080"), None]
    return [*first, text("THE ONLY LINE"), None, text("EOF1FIRST.FILE"), text("EOF2F0008000080"), None, None]


def labelled_chunks(items):
    """The chunks of that tape: the one line is in two."""
    return [[27, 53] if number == 4 else [len(it or b"")] for number, it in enumerate(items)]


def appends_a_file(setup):
    """A job appends a data set to a labelled tape; tapemap and hetmap read the result."""
    with tempfile.TemporaryDirectory(prefix="images-") as folder:
        items = tape_with_labels()
        chunks = labelled_chunks(items)
        write(f"{folder}/old", formats.image_of(formats.Tape(items, chunks)))
        script = script_of(setup, "append.symbolic", folder)
        ran = program(setup, folder, "report", "--posts", "--load", "0=old", "--save", "0=new", script=script)
        require(ran.status == 0 and ran.out.startswith("post 0 0 1 7F "), "no post", ran)
        tape = formats.tape_of(bytes_of(f"{folder}/new"))
        require(tape.items[:9] == items[:9] and tape.chunks[:9] == chunks[:9], "the first data set was changed")
        require(len(tape.items) == 19 and tape.items[17:] == [None, None], "no second data set")
        require(all(len(it) == 1 for it in tape.chunks[9:]), "what was written is not canonical")
        for reader in "tapemap", "hetmap":
            shown = made(reader, "new", cwd=folder).decode("utf-8", "replace")
            require("SECOND.FILE" in shown or "SECOND" in shown, f"{reader}: {shown}")


def hetupd_reads(setup):
    """Hercules' hetupd makes a plain tape of a compressed one, and it is loaded; it reads what is saved."""
    with tempfile.TemporaryDirectory(prefix="images-") as folder:
        shutil.copy(f"{STORED}/w.het", f"{folder}/packed")
        made("hetupd", "-d", "packed", "plain", cwd=folder)
        ran = program(setup, folder, "report", "--posts", "--load", "0=packed", "--save", "0=unpacked", script=TAPE)
        require(ran.status == 0, "not loaded", ran)
        one, other = (formats.tape_of(bytes_of(f"{folder}/{it}")) for it in ("plain", "unpacked"))
        require(one.items == other.items, "another tape than that of hetupd")
        keeps(setup, folder, "tape", "plain")
        made("hetupd", "-d", "saved", "again", cwd=folder)
        one, other = (formats.tape_of(bytes_of(f"{folder}/{it}")) for it in ("plain", "again"))
        require(one.items == other.items, "hetupd reads another tape")


def lines_of(setup, folder, name):
    """The lines of a script that an image is converted to."""
    ran = program(setup, folder, "convert", name)
    require(ran.status == 0, f"{name} is not converted", ran)
    return ran.out


def tapes_of_hercules(setup):
    """A tape that Hercules compresses by zlib or bzip2, in chunks of any size, is described and converted as the plain one."""
    with tempfile.TemporaryDirectory(prefix="images-") as folder:
        shutil.copy(f"{STORED}/w.aws", f"{folder}/plain")
        lines = lines_of(setup, folder, "plain")
        for options in ["-z"], ["-z", "-1"], ["-z", "-9", "-c", "4096"], ["-b", "-9"], ["-b", "-c", "4096"]:
            made("hetupd", *options, "plain", "packed", cwd=folder)
            require(bytes_of(f"{folder}/packed") != bytes_of(f"{folder}/plain"), f"not compressed by {options}")
            require(lines_of(setup, folder, "packed") == lines, f"another tape by {options}")
            described = program(setup, folder, "describe", "packed").out
            said = "packed: tape image, HET\n  4 blocks, the longest of 65535 bytes; 3 tape marks\n  3 blocks compressed\n"
            require(described.startswith(said), f"described as {described}")


def het_is_read_by_hercules(setup):
    """A compressed tape that `convert` makes is that of Hercules, byte for byte, and Hercules' tools read it."""
    with tempfile.TemporaryDirectory(prefix="images-") as folder:
        write(f"{folder}/lines", lines_of(setup, STORED, "w.het").encode())
        expect(program(setup, folder, "convert", "--to", "het", "--output", "new", "lines"), (0, ""))
        require(bytes_of(f"{folder}/new") == bytes_of(f"{STORED}/w.het"), "another image than that of hetupd")
        shown = made("hetmap", "new", cwd=folder).decode("utf-8", "replace")
        require(re.search(r"Blocks +: 4\b", shown) and re.search(r"Uncompressed bytes +: 75616\b", shown), f"hetmap: {shown}")
        made("hetupd", "-d", "new", "plain", cwd=folder)
        one, other = (formats.tape_of(bytes_of(f"{folder}/{it}"), True).items for it in ("new", "plain"))
        require(one == other, "hetupd reads another tape")
        items = [it for it in one if it is not None]
        made("hetget", "-n", "new", "file", "1", "U", "65535", "65535", cwd=folder)
        require(bytes_of(f"{folder}/file") == b"".join(items[:2]), "hetget reads another file")


# How dasdinit makes a compressed volume: its options, the model, and cylinders. The last one has null tracks with records.
PACKED = [(["-z"], "3390", "40"), (["-bz2"], "3390", "3"), (["-0"], "3380", "3"), (["-z"], "2311", "200"),
          (["-z", "-linux"], "3390", "40")]


def disks_of_hercules(setup):
    """Compressed disks of Hercules have the tracks that its tools unpack, and dasdls finds the data sets that `describe` prints."""
    for options, model, cylinders in PACKED:
        with tempfile.TemporaryDirectory(prefix="images-") as folder:
            made("dasdinit", *options, "packed", model, "VOL001", cylinders, cwd=folder)
            is_unpacked(setup, folder)
    for option in "-z", "-bz2", "-0":
        with tempfile.TemporaryDirectory(prefix="images-") as folder:
            loaded_volume(folder)
            made("dasdcopy", option, "old", "packed", cwd=folder)
            names = made("dasdls", "packed", cwd=folder).decode()
            ran = program(setup, folder, "describe", "packed")
            require("SYS1.TEXT" in names and "  data set SYS1.TEXT: PS FB, " in ran.out, f"dasdls: {names}", ran)
            is_unpacked(setup, folder)


def is_unpacked(setup, folder):
    """`describe` and the readers of the package find on a compressed disk what `dasdcopy` unpacks."""
    made("dasdcopy", "-o", "ckd", "packed", "plain", cwd=folder)
    plain, packed = (program(setup, folder, "describe", it).out.partition("\n") for it in ("plain", "packed"))
    require(packed[0] == "packed: disk image, CKD_C370, compressed" and plain[2] == packed[2], f"{packed} is not {plain}")
    require(read_image(f"{folder}/plain") == read_image(f"{folder}/packed"), "another disk than that of dasdcopy")


# --- the stored samples


def sample_is_kept(setup, name, kind):
    with tempfile.TemporaryDirectory(prefix="images-") as folder:
        shutil.copy(f"{STORED}/{name}", f"{folder}/image")
        keeps(setup, folder, kind, "image")


# Images, the kinds of their media, and the formats that their lines are converted to.
CONVERTED = [
    *((name, "tape", to) for name in ("w.aws", "wnc.het", "w.het") for to in ("aws", "het")),
    ("load2311.img", "disk", "ckd"),
]


def is_converted(setup, name, to, kind):
    """An image becomes the lines of a script, and these become an image of the same medium."""
    with tempfile.TemporaryDirectory(prefix="images-") as folder:
        shutil.copy(f"{STORED}/{name}", f"{folder}/image")
        ran = program(setup, folder, "convert", "image")
        require(ran.status == 0, "not converted", ran)
        write(f"{folder}/lines", ran.out.encode())
        expect(program(setup, folder, "convert", "--to", to, "--output", "again", "lines"), (0, ""))
        if kind == "tape":
            one, other = (formats.tape_of(bytes_of(f"{folder}/{it}"), True).items for it in ("image", "again"))
        else:
            one, other = (formats.volume_of(bytes_of(f"{folder}/{it}")) for it in ("image", "again"))
            one, other = ([it.records for it in volume.tracks] for volume in (one, other))
        require(one == other, "another medium")


# --- images at fault


def fault_of(image, is_disk, unpacks):
    """The first fault of an image, or nothing. What is compressed is a fault unless it is to be unpacked."""
    try:
        (formats.volume_of if is_disk else formats.tape_of)(image, unpacks)
    except formats.Fault as fault:
        return fault
    return None


def are_judged(setup, images):
    """`describe` takes each image, or reports its first fault with its byte."""
    with tempfile.TemporaryDirectory(prefix="images-", dir=in_memory(sum(map(len, images)))) as folder:
        names = [f"{number}" for number in range(len(images))]
        for name, image in zip(names, images):
            write(f"{folder}/{name}", image)
        ran = program(setup, folder, "describe", *names, seconds=5 * SECONDS)
        said = dict(re.findall(r"(?m)^excp: (\d+): (.*)$", ran.err))
        taken = set(re.findall(r"(?m)^(\d+): (?:tape|disk) image", ran.out))
        require(ran.status in (0, 1), "the program did not end by itself", ran)
        for name, image in zip(names, images):
            is_right(name, image, said.get(name), name in taken)


def as_loaded(fault, image):
    """A fault as the library has it, which tells no trailing bytes from an image that is cut short."""
    if fault and fault.names == ("after chunks",):
        return formats.Fault(fault.offset, "header cut")
    if fault and fault.names == ("after cylinders",):
        return formats.Fault(len(image), "cut")
    return fault


def is_right(name, image, said, is_taken, of_library=False):
    """What was said of an image is right. The program knows a shadow file by its first bytes."""
    if image.startswith(b"CKD_S") and not of_library:
        require(said and said.startswith("this is a shadow file") and not is_taken, f"image {name}: {said}")
        return
    fault = fault_of(image, image[:4] == b"CKD_", not of_library)
    if of_library:
        fault = as_loaded(fault, image)
    if fault is None:
        require(is_taken and said is None, f"image {name} has no fault: {said}")
        return
    require(said and not is_taken, f"image {name} has a fault at {fault.offset}: {fault.names}")
    found = re.match(r"byte (\d+): (.*)", said)
    is_named = found and any(re.match(text_of(it, len(image) - fault.offset, of_library), found[2]) for it in fault.names)
    require(is_named and int(found[1]) == fault.offset, f"image {name}: {said}; expected {fault.names} at {fault.offset}")


def text_of(name, left, of_library):
    """What is said of a fault, as a regular expression."""
    if name in formats.FOUND and not of_library:
        return re.escape(formats.FOUND[name]).replace("@", ".+?")
    return re.escape(formats.TEXTS[name].format(n=left, s="" if left == 1 else "s"))


def cuts(image, heads):
    """An image cut after every byte of its headers and of its first and last 4 KiB, and elsewhere after every 97th."""
    size = len(image)
    places = {*range(min(4096, size)), *range(max(0, size - 4096), size), *range(0, size, 97), *heads}
    return [image[:place] for place in sorted(places)]


def changed(image, places):
    """An image with each of these bytes replaced by every value."""
    return [image[:at] + bytes([value]) + image[at + 1 :] for at in places for value in range(256) if value != image[at]]


def headers_of_tape(image):
    """The bytes of the headers of chunks."""
    at, places = 0, []
    while at < len(image):
        places += range(at, at + formats.CHUNK)
        at += formats.CHUNK + struct.unpack_from("<H", image, at)[0]
    return places


def small_volume():
    """A volume of two tracks with a flag, odd bytes in R0, a record of another track, and bytes after an end mark."""
    header = b"CKD_P370" + struct.pack("<IIB", 2, 120, 0x90).ljust(504, b"\0")
    zero = (bytes(5), b"", bytes(8))
    one = formats.Track(0, [zero, (bytes(4) + b"\1", b"KEY", b"DATA")], b"")
    other = formats.Track(0x80, [(b"\0\0\0\1\0", b"", b"ODD DATA"), (b"\0\7\0\7\7", b"", b"")], b"after the end")
    tracks = formats.bytes_of(one, 120, 0, 0) + formats.bytes_of(other, 120, 0, 1)
    return header + tracks


def volume_with(cylinders, heads, records):
    """A volume whose tracks have these records and 30 bytes in the image, the fewest."""
    header = b"CKD_P370" + struct.pack("<IIB", heads, 30, 0x90).ljust(504, b"\0")
    track = formats.Track(0, records, b"")
    return header + b"".join(formats.bytes_of(track, 30, *divmod(number, heads)) for number in range(cylinders * heads))


def small_tape():
    """A tape with a block in several chunks, one of which is empty, and marks."""
    items = [b"FIRST", None, b"IN SEVERAL CHUNKS", None, None]
    return formats.image_of(formats.Tape(items, [[5], [0], [2, 0, 15], [0], [0]]))


def parted(images, count=FILES):
    return [images[at : at + count] for at in range(0, len(images), count)]


def hostile():
    """Images at fault, and some that are not, by name."""
    tape, disk = small_tape(), small_volume()
    headers = [*range(0, 20), *range(512, 517), *range(517, 525), *range(632, 645)]
    yield "a small tape, changed", changed(tape, headers_of_tape(tape)) + [tape[:at] for at in range(len(tape))]
    yield "a small disk, changed", changed(disk, headers) + [disk[:at] for at in range(len(disk))]
    sizes = [disk[:at] + struct.pack("<I", it) + disk[at + 4 :] for at in (8, 12) for it in (0, 1, 65_536, 2**31, 2**32 - 1)]
    yield "a small disk with other sizes", sizes
    split = [image[:17] + b"\1" + image[18:] for image in (disk, *sizes)]
    yield "a small disk that is split", split
    zero = [(bytes(5), b"", bytes(8))]
    yield "tracks without a record, and too many tracks", [volume_with(1, 1, []), volume_with(32_768, 2, zero)]
    for name in "w.aws", "wnc.het":
        image = bytes_of(f"{STORED}/{name}")
        yield f"{name}, cut", cuts(image, headers_of_tape(image))
    image = bytes_of(f"{STORED}/load2311.img")
    yield "load2311.img, cut", cuts(image, [512 + number * 4096 + at for number in range(50) for at in range(13)])


TAPE, DISK = idle("tape"), idle("disk")

# The first blocks of an FBA disk of Hercules: the second one has the label.
FBA = bytes(512) + "VOL1FBA001".encode("cp037").ljust(512, b"\0")

# Files that are no image, and what is said of each.
NO_IMAGES = [
    (TAPE.encode(), "this is a text, not an image; 'convert --to' makes an image of a script"),
    ("é\r\n\tno script\n".encode(), "this is a text, not an image; 'convert --to' makes an image of a script"),
    (b"\1\2\3\4\5\6\n", "byte 0: byte 5 of a header is 06, must be 00, or the file is no image of a tape"),
    (FBA, "this is an image of an FBA disk, which has blocks without count areas; CKD disks alone are supported"),
    (b"FBA_C370" + bytes(504),
     "this is an image of an FBA disk, which has blocks without count areas; CKD disks alone are supported"),
    (b"CKD_C370" + bytes(504), "byte 8: a disk has 1 to 65,535 heads, and this one 0"),
    (b"CKD_C064" + bytes(504), "this is a compressed image of a disk (CCKD64); make a plain one, which begins with CKD_P370"),
    (b"CKD_S370" + bytes(504), "this is a shadow file of a compressed image of a disk (CCKD); make a plain image of both"),
    (b"CKD_P064" + bytes(504), "this is an image of a disk in the format CKD64; make one that begins with CKD_P370"),
    (
        b"CKD_P371" + bytes(504),
        "byte 0: the file is no image of a disk: it begins with 'CKD_P371', must begin with 'CKD_P370' or 'CKD_C370'",
    ),
]


def is_no_image(setup, data, said):
    """`describe`, `convert` and `--load` say what a file is that is no image."""
    with tempfile.TemporaryDirectory(prefix="images-") as folder:
        write(f"{folder}/it", data)
        loading = ([word, "--load", "0=it"] for word in ("check", "report", "step", "outcomes"))
        for words in ["describe", "it"], ["convert", "it"], *loading:
            expect(program(setup, folder, *words, script=TAPE), (1, "", f"excp: it: {said}\n"))


def is_unpacked_to_be_loaded(setup, name, image, saved):
    """A compressed image is loaded by each word, and saved as a plain one. No file is left, and none while it runs has a name."""
    with tempfile.TemporaryDirectory(prefix="images-") as folder:
        write(f"{folder}/it", image)
        os.mkdir(f"{folder}/temporary")
        words = setup.command("report", "--posts", "--load", "0=it", "--save", "0=saved")
        how = {"cwd": folder, "env": {**os.environ, "TMPDIR": f"{folder}/temporary"}}
        expect(run(words, idle(name), **how), (0, "end 0\n"))
        require(bytes_of(f"{folder}/saved") == saved, "another image is saved")
        scenario = idle(name).replace("wait 0", "finish")
        for word, script, save in ("outcomes", idle(name), ()), ("step", scenario, ("--save", "0=stepped")):
            ran = run(setup.command(word, "--load", "0=it", *save), script, **how)
            require((ran.status, ran.err) == (0, ""), "not loaded", ran)
        require(bytes_of(f"{folder}/stepped") == saved, "step saves another image")
        require(os.listdir(f"{folder}/temporary") == [] and len(os.listdir(folder)) == 4, "a file is left")


def unpacked():
    """Compressed images: the kind of the medium, the image, and the plain one of the same medium."""
    items = [b"FIRST" * 9, None, b"IN SEVERAL CHUNKS" * 9, None, None]
    plain = formats.image_of(formats.Tape(items, [[len(it or b"")] for it in items]))
    for method in 1, 2:
        yield "tape", formats.packed_tape_of(items, method, 16), plain
    packed = packed_volume()
    volume = formats.volume_of(packed, True)
    tracks = b"".join(formats.bytes_of(track, 120, *divmod(number, 2)) for number, track in enumerate(volume.tracks))
    yield "disk", packed, b"CKD_P370" + packed[8:512] + tracks


# Images that break a rule, and what is said of each: the finding, and then the rule.
FINDINGS = [
    (small_tape()[:3], "byte 0: the header of a chunk is cut short: 3 of 6 bytes, or the file is no image of a tape"),
    (small_tape()[:8], "byte 0: the data of a chunk is cut short: 2 of 5 bytes, or the file is no image of a tape"),
    (b"\5\0\0\0\xa0\1FIRST", "byte 0: byte 5 of a header is 01, must be 00, or the file is no image of a tape"),
    (b"\5\0\1\0\xa0\0FIRST", "byte 0: bytes 2 and 3 of a header are 1, must be 0: the bytes of the chunk before it, or the file"),
    (b"\5\0\0\0\xb0\0FIRST", "byte 0: byte 4 of a header is B0, must be 40, A0, 80, 00 or 20; of compressed data A1, 81, 01, 21, "),
    (b"\5\0\0\0\x40\0FIRST", "byte 0: a tape mark has data: 5 bytes, must have none"),
    (b"\0\0\0\0\xa0\0", "byte 0: a block is empty, must have 1 to 65,535 bytes"),
    (formats.packed_tape_of([b"A" * 65_536], 1), "byte 0: a block is too long: more than 65,535 bytes, must have 1 to 65,535"),
    (b"\5\0\0\0\xa1\0FIRST", "byte 0: the compressed data of a block is damaged: it is no data of zlib"),
    (b"\5\0\0\0\xa2\0FIRST", "byte 0: the compressed data of a block is damaged: it is no data of bzip2"),
    (small_volume()[:100], "byte 100: the header of the image is cut short: 100 of 512 bytes"),
    (small_volume()[:-1], "byte 751: the image is cut short: 0 cylinders and 1 tracks of 2, must be at least one whole cylinder"),
    (small_volume()[:17] + b"\1" + bytes(734),
     "byte 17: the image is a part of a split volume, file 1; copy the whole volume to one file"),
    (small_volume()[:513] + b"\0\1" + bytes(237),
     "byte 512: the home address names another track: cylinder 1, head 0, must be cylinder 0, head 0"),
    (small_volume()[:517] + b"\xff" * 8 + bytes(227), "byte 517: a track has no record, must have at least one: R0"),
    (small_volume()[:523] + b"\1\0" + bytes(227), "byte 517: a record goes past the end of its track: 264 bytes, 106 are left"),
]


def is_found(setup, data, said):
    """`describe` says what it found, and then the rule."""
    with tempfile.TemporaryDirectory(prefix="images-") as folder:
        write(f"{folder}/it", data)
        ran = program(setup, folder, "describe", "it")
        require((ran.status, ran.out) == (1, "") and ran.err.startswith(f"excp: it: {said}"), f"expected {said!r}", ran)


# --- images changed at random, read in this process


def packed_volume():
    """A compressed volume of four tracks: by zlib, by bzip2, as it is, and a null track."""
    zero = (bytes(5), b"", bytes(8))
    tracks = [formats.Track(0, [zero, (struct.pack(">HHB", *divmod(at, 2), 1), b"KEY", b"DATA" * 8)], b"") for at in range(4)]
    header = b"CKD_P370" + struct.pack("<IIB", 2, 120, 0x90).ljust(504, b"\0")
    return formats.packed_image_of(formats.Volume(header, 2, 120, tracks), [1, 2, 0, None])


def originals():
    """Images of each format, by name."""
    items = [b"FIRST" * 9, None, b"IN SEVERAL CHUNKS" * 9, None, None]
    return {
        "AWSTAPE": small_tape(),
        "HET by zlib": formats.packed_tape_of(items, 1, 16),
        "HET by bzip2": formats.packed_tape_of(items, 2, 30),
        "CKD_P370": small_volume(),
        "CKD_C370": packed_volume(),
    }


def parts_of(image):
    """The places that matter in an image: of a compressed disk no place in headers and tables that is not read."""
    if not image.startswith(b"CKD_C370"):
        return range(len(image))
    return [*range(18), *range(512, 524), *range(552, 557), *range(1024, 1028 + 40), *range(1028 + 2048, len(image))]


def changes(image, is_long):
    """An image cut at each length, each byte changed in turn, and further changes at random: all, or some hundreds."""
    places = parts_of(image)
    chance = random.Random(len(image))
    values = range(256) if is_long else (0, 0xFF)
    single = [image[:at] for at in places]
    single += [image[:at] + bytes([value]) + image[at + 1 :] for at in places for value in values]
    yield from single if is_long else chance.sample(single, min(len(single), 200))
    for _ in range(20_000 if is_long else 200):
        changed = bytearray(image)
        for _ in range(chance.randrange(1, 6)):
            changed[chance.choice(places)] = chance.randrange(256)
        yield bytes(changed)


def are_read(setup, image):
    """The readers of the package find in changed images what tests/formats.py finds, in the same process."""
    with tempfile.TemporaryDirectory(prefix="images-") as folder:
        file, count = f"{folder}/it", 0
        for count, changed in enumerate(changes(image, setup.is_long), 1):
            write(file, changed)
            is_read(file, changed)
        return f"{count} changed images" if setup.is_long else None


def is_read(file, image):
    """The package reads a file as tests/formats.py does, or rejects it for the same byte."""
    if image.startswith(b"CKD_S"):
        return
    is_disk = image.startswith(b"CKD_")
    try:
        found = read_image(file)
    except Unreadable as error:
        is_right("it", image, error.sentence, False) if error.sentence.startswith("byte ") else require_fault(image, is_disk)
        return
    fault = fault_of(image, is_disk, True)
    require(fault is None, f"{image.hex()} has a fault: {fault}")
    if isinstance(found, Disk):
        tracks = [it.records for it in formats.volume_of(image, True).tracks]
        require([[tuple(it) for it in track] for track in found.tracks] == tracks, f"{image.hex()}: another disk")
    else:
        require(found.items == formats.tape_of(image, True).items, f"{image.hex()}: another tape")
    has_measure(file, found)


def has_measure(file, medium):
    """What is measured of a file, none of whose bytes are kept, is right of this medium."""
    image = measured(file)
    if isinstance(medium, Disk):
        require(image.size == medium.size, "another size")
        require([image.track(number) for number in range(len(medium.tracks))] == medium.tracks, "other tracks")
    else:
        lengths = [len(item) for item in medium.items if item is not None]
        used = sum(lengths) + 4 * len(medium.items)
        require(image == TapeFile(used, min(lengths, default=None)), "another tape")


def require_fault(image, is_disk):
    """An image of which the package says what it is has a fault at its first byte."""
    fault = fault_of(image, is_disk, True)
    require(fault and fault.offset == 0, f"{image.hex()}: {fault}")


def bombs(setup):
    """What is unpacked takes no more than its bound of memory: blocks and tracks of a mebibyte that are unpacked to a gibibyte."""
    zeros = zlib.compress(bytes(1 << 20), 9)
    many = bz2.compress(bytes(1 << 28))
    header = b"CKD_P370" + struct.pack("<IIB", 1, 65_549, 0x90).ljust(504, b"\0")
    disk = formats.packed_image_of(formats.Volume(header, 1, 65_549, []), [])
    entry = struct.pack("<IHH", 3076, 5 + len(zeros), 0)
    disk = disk[:552] + b"\1" + disk[553:1028] + entry + disk[1036:3076] + b"\1" + bytes(4) + zeros
    long = "a block is too long: more than 65,535 bytes, must have 1 to 65,535"
    for image, said in [
        (struct.pack("<HHBB", len(zeros), 0, 0xA1, 0) + zeros, f"byte 0: {long}, or the file is no image of a tape"),
        (struct.pack("<HHBB", len(many), 0, 0xA2, 0) + many, f"byte 0: {long}, or the file is no image of a tape"),
        (disk, "byte 3076: a compressed track is damaged: more than 65,544 bytes when it is unpacked"),
    ]:
        with tempfile.TemporaryDirectory(prefix="images-") as folder:
            write(f"{folder}/it", image)
            words = ["bash", "-c", f"ulimit -v 200000; exec {shlex.join(setup.command('describe', 'it'))}"]
            expect(run(words, cwd=folder), (1, "", f"excp: it: {said}\n"))


def large_media_are_not_kept(setup):
    """`convert` rejects a small file that is unpacked to a large medium, without memory for it."""
    block = zlib.compress(bytes(65_535), 9)
    chunk = struct.pack("<HHBB", len(block), len(block), 0xA1, 0) + block
    tape = struct.pack("<HHBB", len(block), 0, 0xA1, 0) + block + chunk * 8_000
    with tempfile.TemporaryDirectory(prefix="images-") as folder:
        write(f"{folder}/it", tape)
        words = ["bash", "-c", f"ulimit -v 200000; exec {shlex.join(setup.command('convert', 'it'))}"]
        said = "a line of a script declares at most 16,777,216 bytes: use the image with --load"
        expect(run(words, cwd=folder), (1, "", f"excp: it: {said}\n"))


def output_may_be_standard_output(setup):
    """`--output -` sends the image to standard output, unless that is a terminal; a script may be standard input."""
    script = "tasks 1\ntape 0 0 100\nblock 0 C1C2\nmark 0\n"
    image = formats.image_of(formats.Tape([b"\xc1\xc2", None], [[2], [0]])).decode("latin-1")
    with tempfile.TemporaryDirectory(prefix="images-") as folder:
        words = setup.command("convert", "--to", "aws", "-o", "-", "-")
        ran = run(words, script, cwd=folder)
        require((ran.status, ran.err, os.listdir(folder)) == (0, "", []), "an error, or a file", ran)
        expect_text("another image", ran, image, ran.out.encode("utf-8", "surrogateescape").decode("latin-1"))
        parent, child = pty.openpty()
        ran = run(words, script, cwd=folder, stdout=child)
        os.close(child)
        os.close(parent)
        said = "excp: standard output is a terminal: send the image to a file, by > or --output\n"
        require((ran.status, ran.err, os.listdir(folder)) == (1, said, []), "no error, or a file", ran)


def has_trailing_bytes(setup):
    """Bytes after an image are called that."""
    disk, tape = small_volume(), small_tape()
    for image, rest, offset, said in [
        (disk, b"\n", len(disk), "1 trailing byte after the last cylinder, or the image is cut short"),
        (disk, bytes(100), len(disk), "100 trailing bytes after the last cylinder, or the image is cut short"),
        (tape, b"\n", len(tape), "1 trailing byte after the last chunk, or the image is cut short"),
        (tape, bytes(5), len(tape), "5 trailing bytes after the last chunk, or the image is cut short"),
        (tape, bytes(512), len(tape), "a chunk continues a block, and none is open, or trailing bytes follow the last chunk"),
    ]:
        with tempfile.TemporaryDirectory(prefix="images-") as folder:
            write(f"{folder}/it", image + rest)
            expect(program(setup, folder, "describe", "it"), (1, "", f"excp: it: byte {offset}: {said}\n"))


def empty_file_is_called_empty(setup):
    with tempfile.TemporaryDirectory(prefix="images-") as folder:
        write(f"{folder}/it", b"")
        ran = program(setup, folder, "describe", "it")
        require((ran.status, ran.err) == (0, "") and ran.out.startswith("it: tape image, AWSTAPE: the file is empty\n"),
                "not called empty", ran)
        require("line of a script: tape U ISC 4\n" in ran.out, "not the fewest bytes", ran)
        ran = program(setup, folder, "report", "--load", "0=it", script=DISK)
        expect(ran, (1, "", "<stdin>:2: Words: the image of this unit is an empty file, which is an empty tape\n"))


def other_files_are_no_images(setup):
    """A pipe with a name and a device are rejected at once. A script may come from a pipe."""
    with tempfile.TemporaryDirectory(prefix="images-") as folder:
        os.mkfifo(f"{folder}/pipe")
        for name in "pipe", "/dev/zero", "/dev/null":
            for word in "describe", "convert":
                expect(program(setup, folder, word, name, seconds=5), (1, "", f"excp: {name}: it is a device or a pipe\n"))
        expect(program(setup, folder, "describe", "."), (1, "", "excp: .: it is a directory\n"))
        writer = threading.Thread(target=lambda: write(f"{folder}/pipe", b"tasks 1\ntape 0 0 9\nblock 0 C1C2\n"))
        writer.start()
        expect(program(setup, folder, "convert", "--to", "aws", "--output", "tape", "pipe", seconds=5), (0, ""))
        writer.join()
        require(formats.tape_of(bytes_of(f"{folder}/tape")).items == [b"\xc1\xc2"], "another tape")


def one_is_no_several(setup):
    """`describe` has the word for one of each thing."""
    disk = volume_with(1, 1, [(bytes(5), b"", bytes(8))])
    for image, said in [
        (formats.image_of(formats.Tape([b"A", None], [[1], [0]])), "  1 block, the longest of 1 byte; 1 tape mark\n"),
        (small_tape(), "  2 blocks, the longest of 17 bytes; 3 tape marks\n"),
        (disk, "  1 cylinder of 1 head, 16 bytes a track\n  0 records beside R0, the longest data area of 0 bytes\n"),
        (small_volume(), "  1 cylinder of 2 heads, 106 bytes a track\n  2 records beside R0, "),
    ]:
        with tempfile.TemporaryDirectory(prefix="images-") as folder:
            write(f"{folder}/it", image)
            ran = program(setup, folder, "describe", "it")
            require(ran.status == 0 and said in ran.out, f"expected {said!r}", ran)
    ran = program(setup, STORED, "describe", "load2311.img")
    require(", 1 extent, the first of 10 tracks from 1 0\n" in ran.out, "another number of extents", ran)


def large_file_is_not_read(setup):
    """A file that is too large for lines is rejected by its size: this one has no track, which would be its fault."""
    with tempfile.TemporaryDirectory(prefix="images-") as folder:
        write(f"{folder}/it", small_volume()[:512])
        os.truncate(f"{folder}/it", 1 << 40)
        said = "a line of a script declares at most 16,777,216 bytes: use the image with --load"
        expect(program(setup, folder, "convert", "it", seconds=5), (1, "", f"excp: it: {said}\n"))


def check_wants_a_unit_for_each_image(setup):
    with tempfile.TemporaryDirectory(prefix="images-") as folder:
        small(folder)
        ran = program(setup, folder, "check", "--load", "1=tape", script="tasks 1\nprinter 0 0 1 1\nwait 0\n")
        require(ran.status == 1 and "unit 1 has an image, and no line declares it" in ran.out, "no fault", ran)


def most_tracks_are_kept(setup):
    """A volume of 65,535 tracks is kept, byte for byte."""
    with tempfile.TemporaryDirectory(prefix="images-") as folder:
        write(f"{folder}/volume", volume_with(13_107, 5, [(bytes(5), b"", bytes(8))]))
        keeps(setup, folder, "disk", "volume")


def at_random(setup, seed):
    """Tapes with chunks at random are kept, byte for byte."""
    chance = random.Random(seed)
    items, chunks = [], []
    for _ in range(chance.randrange(12)):
        if chance.random() < 0.3:
            items.append(None)
            chunks.append([0])
            continue
        lengths = [chance.choice((0, 1, 2, 80, 4096)) for _ in range(chance.randrange(1, 5))]
        lengths[-1] += 0 if sum(lengths) else 1
        items.append(chance.randbytes(sum(lengths)))
        chunks.append(lengths)
    with tempfile.TemporaryDirectory(prefix="images-") as folder:
        write(f"{folder}/image", formats.image_of(formats.Tape(items, chunks)))
        keeps(setup, folder, "tape", "image")


# --- the command line, and files that are replaced


def small(folder):
    """The small images in a folder."""
    write(f"{folder}/tape", small_tape())
    write(f"{folder}/disk", small_volume())


CONTENT = "the medium of this unit is an image: no line says what is on it\n"

# Words, a script, and what is printed on standard error with status 1.
REJECTED = [
    (["report", "--load", "0=missing"], TAPE, "excp: missing: there is no such file\n"),
    (["report", "--load", "0=."], TAPE, "excp: .: it is a directory\n"),
    (["report", "--load", "0=disk"], TAPE, "<stdin>:2: Number: the image of this unit is a disk: expected a line 'disk U ISC -'\n"),
    (["report", "--load", "0=disk"], "tasks 1\ntape 0 0 9\n",
     "<stdin>:2: Medium: the image of this unit is a disk: expected a line 'disk"),
    (["outcomes", "--load", "0=tape"], DISK,
     "<stdin>:2: Words: the image of this unit is a tape: expected a line 'tape U ISC -'\n"),
    (["step"], DISK, "<stdin>:2: Words: unit 0 has no size; name its image: --load 0=FILE\n"),
    (["step", "--load", "0=tape"], DISK, "<stdin>:2: Words: the image of this unit is a tape: expected a line 'tape U ISC -'\n"),
    (["report", "--load", "0=tape"], DISK, "<stdin>:2: Words: the image of this unit is a tape: expected a line 'tape U ISC -'\n"),
    (["report", "--load", "1=tape"], TAPE, "<stdin>:2: Number: unit 0 has no size; name its image: --load 0=FILE\n"),
    (["report", "--load", "0=tape", "--save", "1=other"], TAPE, "excp: 1=other: no line declares unit 1\n"),
    (["report", "--load", "0=tape", "--load", "1=./tape"], TAPE, "excp: ./tape: it is named for two units\n"),
    (["report", "--load", "0=tape"], "tasks 1\ntape 0 0 20\nwait 0\n",
     "<stdin>:2: Medium: the tape holds 20 bytes, but its image needs 42\n"),
    (["report", "--load", "0=tape"], "tasks 1\ntape 0 0 -\nblock 0 C1\nwait 0\n", f"<stdin>:3: Medium: {CONTENT}"),
    (["report", "--load", "0=tape"], "tasks 1\ntape 0 0 -\nmark 0\nwait 0\n", f"<stdin>:3: Medium: {CONTENT}"),
    (["report", "--load", "0=disk"], "tasks 1\ndisk 0 0 -\nrec 0 0 0 1 - C1\nwait 0\n", f"<stdin>:3: Medium: {CONTENT}"),
    (["report", "--load", "0=disk"], "tasks 1\ndisk 0 0 2 1 106\nwait 0\n",
     "<stdin>:2: Medium: the image has 1 cylinder of 2 heads, and 106 bytes a track\n"),
    (["report"], TAPE, "<stdin>:2: Number: unit 0 has no size; name its image: --load 0=FILE\n"),
    (["run"], TAPE, "excp_job: line 2: Number\n"),
    (["report", "--load", "0=tape", "--save", "0=none/there"], TAPE, "excp: none/there: there is no such directory\n"),
    (["report", "--save", "0=new", "--save", "1=./new"], TAPE, "excp: ./new: it is named for two units\n"),
    (["report", "--load", "1=new.excp-new", "--save", "0=new"], TAPE, "excp: new: it is named for two units\n"),
    (["report", "--save", "0=new", "--save", "1=new.excp-new"], TAPE, "excp: new.excp-new: it is named for two units\n"),
    (["report", "--load", "0=tape", "--save", "0=/dev/null"], TAPE, "excp: /dev/null: it is a device or a pipe\n"),
    (["convert", "missing"], "", "excp: missing: there is no such file\n"),
    (["convert", "--to", "aws", "-o", "new", "-"], "tasks 1\ntape 0 0 9\ntape 1 0 9\n",
     "excp: <stdin>: it has 2 units: a script with one"),
    (["describe", "missing", "disk"], "", "excp: missing: there is no such file\n"),
]


def is_rejected(setup, words, script, said):
    with tempfile.TemporaryDirectory(prefix="images-") as folder:
        small(folder)
        before = sorted(os.listdir(folder))
        ran = program(setup, folder, *words, script=script)
        require(ran.status == 1 and ran.err.startswith(said), f"expected {said!r}", ran)
        require(sorted(os.listdir(folder)) == before, "a file was made", ran)


# Scripts with one unit that are the same job, with the size as numbers or as the image has it.
SIZES = [
    ("tape", "tape 0 0 -"),
    ("tape", f"tape 0 0 {4 * 5 + 5 + 17}"),
    ("tape", "tape 0 0 20000000"),
    ("disk", "disk 0 0 -"),
    ("disk", "disk 0 0 - - -"),
    ("disk", "disk 0 0 1 2 106"),
]


def size_is_taken(setup, name, line):
    with tempfile.TemporaryDirectory(prefix="images-") as folder:
        small(folder)
        script = f"tasks 1\n{line}\nwait 0\n"
        words = ["report", "--posts", "--load", f"0={name}", "--save", "0=saved"]
        expect(program(setup, folder, *words, script=script), (0, "end 0\n"))
        require(bytes_of(f"{folder}/saved") == bytes_of(f"{folder}/{name}"), "another image")
        ran = program(setup, folder, "check", "--load", f"0={name}", script=script)
        require(ran.status == 0, "check finds a fault", ran)


def replaces_whole(setup):
    """A file is replaced whole through a link, and keeps its mode. One that is loaded may be saved to."""
    with tempfile.TemporaryDirectory(prefix="images-") as folder:
        small(folder)
        os.chmod(f"{folder}/tape", 0o640)
        os.symlink("tape", f"{folder}/link")
        before = os.stat(f"{folder}/tape").st_ino
        script = "tasks 1\ntape 0 0 100\nopen 0 out\n" + write_mark()
        ran = program(setup, folder, "report", "--posts", "--load", "0=tape", "--save", "0=link", script=script)
        require(ran.status == 0, "not saved", ran)
        after = os.stat(f"{folder}/tape")
        require(os.path.islink(f"{folder}/link") and after.st_ino != before, "the file was not replaced")
        require(after.st_mode & 0o777 == 0o640, "another mode")
        require(formats.tape_of(bytes_of(f"{folder}/tape")).items == [None], "another tape")
        require(sorted(os.listdir(folder)) == ["disk", "link", "tape"], f"files left: {os.listdir(folder)}")


def write_mark():
    """An area with a request that writes a tape mark at the load point, and its EXCP."""
    iob = "4200000000001028 0000000000000000 0000103000000001 0000000000000000 0000000000000000"
    return f"area 0 001000 {iob} 0000000000000000 1F00000020000001\nexcp 0 0 1 001000 0 001000 0\n"


def full_disk_loses_nothing(setup):
    """If the file gets too large for its user, the old one stays, and no other is left."""
    with tempfile.TemporaryDirectory(prefix="images-") as folder:
        shutil.copy(f"{STORED}/w.aws", f"{folder}/tape")
        words = f"ulimit -f 8; exec {shlex.join(setup.command('report', '--posts', '--load', '0=tape', '--save', '0=tape'))}"
        ran = run(["bash", "-c", words], TAPE, cwd=folder)
        require(ran.status == 1 and "excp: " in ran.err and "larger" in ran.err, "no error", ran)
        require(bytes_of(f"{folder}/tape") == bytes_of(f"{STORED}/w.aws"), "the old file was changed")
        require(os.listdir(folder) == ["tape"], f"files left: {os.listdir(folder)}")


def full_file_system_loses_nothing(setup):
    """If the file system is full, the old file stays, and no other is left."""
    with tempfile.TemporaryDirectory(prefix="images-") as folder:
        shutil.copy(f"{STORED}/w.aws", f"{folder}/tape")
        os.mkdir(f"{folder}/small")
        size = os.stat(f"{folder}/tape").st_size * 3 // 2
        mounted = f"mount -t tmpfs -o size={size} none small && cp tape small/"
        if run(["unshare", "-rm", "sh", "-c", mounted], cwd=folder).status:
            raise Skipped("no file system can be mounted here (unshare -rm)")
        saved = shlex.join(setup.command("report", "--posts", "--load", "0=small/tape", "--save", "0=small/tape"))
        after = 'echo "status $?"; cmp small/tape tape && ls small'
        ran = run(["unshare", "-rm", "sh", "-c", f"{mounted} && {{ {saved}; {after}; }}"], TAPE, cwd=folder)
        require(ran.err == "excp: small/tape: the disk is full\n", "no error", ran)
        expect_text("another file", ran, "end 0\nstatus 1\ntape\n", ran.out)


def model_is_asked_before_the_run(setup):
    """Whether a disk that was not loaded can be saved is asked before the run, in which nothing is then printed."""
    script = "tasks 1\ndisk 0 0 1 2 100\n"
    with tempfile.TemporaryDirectory(prefix="images-") as folder:
        for word, rest in ("report", "wait 0\n"), ("step", "finish\n"):
            ran = program(setup, folder, word, "--save", "0=saved", script=script + rest)
            said = "excp: saved: no model of a disk has 2 heads and 100 bytes a track; the models are 2305-1 (8, 14322)"
            require((ran.status, ran.out) == (1, "") and ran.err.startswith(said), "it ran, or no error", ran)
            ran = program(setup, folder, word, "--save", "1=saved", script=script + rest)
            expect(ran, (1, "", "excp: 1=saved: no line declares unit 1\n"))
            require(os.listdir(folder) == [], f"files left: {os.listdir(folder)}")


def progress_is_shown_on_a_terminal(setup):
    """A line on a terminal says how much of a file over 64 MiB was read or written, and then goes."""
    setup.skip_unproved()
    tape = formats.Tape([bytes(65_535)] * 1030, [[65_535]] * 1030)
    with tempfile.TemporaryDirectory(prefix="images-") as folder:
        write(f"{folder}/tape", formats.image_of(tape))
        words = setup.command("report", "--posts", "--load", "0=tape", "--save", "0=saved")
        ran = run(words, TAPE, cwd=folder)
        require((ran.status, ran.out, ran.err) == (0, "end 0\n", ""), "not saved, or progress where no terminal is", ran)
        parent, child = pty.openpty()
        ended = subprocess.run(words, input=TAPE.encode(), stdout=subprocess.PIPE, stderr=child, cwd=folder, check=False)
        os.close(child)
        said = os.read(parent, 4096).decode()
        os.close(parent)
        lines = [f"\rexcp: {name}: 64 MiB {done}\r\x1b[K" for name, done in (("tape", "read"), ("saved", "written"))]
        require((ended.returncode, ended.stdout, said) == (0, b"end 0\n", "".join(lines)), f"other lines on the terminal: {said!r}")


def failed_run_saves_nothing(setup):
    with tempfile.TemporaryDirectory(prefix="images-") as folder:
        small(folder)
        script = f"{TAPE}close 0 0 1\n"
        ran = program(setup, folder, "report", "--load", "0=tape", "--save", "0=saved", script=script)
        require(ran.status == 1 and ran.err.startswith("<stdin>:4: Name: "), "no fault", ran)
        require(not os.path.exists(f"{folder}/saved"), "it was saved")


def left_file_is_taken_over(setup):
    """A new file that a killed run left is named, and written anew. It is not if its lock is held, or if the call reads it."""
    with tempfile.TemporaryDirectory(prefix="images-") as folder:
        small(folder)
        whole, left = bytes_of(f"{folder}/tape"), f"{folder}/tape.excp-new"
        write(left, b"left")
        with open(left, "rb") as writer:
            fcntl.flock(writer, fcntl.LOCK_EX)
            ran = program(setup, folder, "report", "--load", "0=tape", "--save", "0=tape", script=TAPE)
            require(ran.status == 1 and "another run is writing it" in ran.err, "no error", ran)
            require(bytes_of(left) == b"left", "it was overwritten")
        ran = program(setup, folder, "report", "--load", "0=tape.excp-new", "--save", "0=tape", script=TAPE)
        require(ran.status == 1 and bytes_of(left) == b"left", "it was overwritten, and read", ran)
        ran = program(setup, folder, "report", "--load", "0=tape", "--save", "0=tape", script=TAPE)
        require(ran.status == 0 and "tape.excp-new, which a run that was killed left, was removed" in ran.err, "not taken over",
                ran)
        require(bytes_of(f"{folder}/tape") == whole and not os.path.exists(left), "another image, or a file is left", ran)


def prints_paper(setup):
    """What a printer printed is saved as text: the job of the manual, whose paper it shows."""
    with tempfile.TemporaryDirectory(prefix="images-") as folder:
        file = f"{SAMPLES}/print-pages.script"
        ran = program(setup, folder, "report", "--save", "0=paper", file)
        require(ran.status == 0, "not saved", ran)
        shown = re.findall(r"(?m)^# page +(\d+) line +(\d+) \|(.*)$", ran.out)
        page, line, text = 1, 1, ""
        for number, (to_page, to_line, printed) in enumerate(shown):
            to = int(to_page), int(to_line)
            text += "\r" if number and to == (page, line) else ""
            while page < to[0]:
                page, line, text = page + 1, 1, f"{text}\f"
            text += "\n" * (to[1] - line)
            page, line, text = *to, text + printed.rstrip()
        paper = read(f"{folder}/paper")
        expect_text("another paper", ran, text, paper[: len(text)])
        require(set(paper[len(text) :]) <= set("\r\n\f"), "more than motion after the last line")


def cases(setup):
    for model in MODELS:
        yield Case(f"whole volume {model}", lambda m=model: is_kept_whole(setup, m), BY_HERCULES, "volumes")
    for model in NEW:
        yield Case(f"new volume {model}", lambda m=model: is_new(setup, m), BY_HERCULES)
    for name, judge in {
        "a block of a data set is rewritten": rewrites_a_block,
        "a data set is appended to a tape": appends_a_file,
        "a compressed tape": hetupd_reads,
        "compressed tapes of Hercules": tapes_of_hercules,
        "compressed disks of Hercules": disks_of_hercules,
        "a compressed tape for Hercules": het_is_read_by_hercules,
    }.items():
        yield Case(name, lambda j=judge: j(setup), BY_HERCULES)
    for name, kind in ("w.aws", "tape"), ("wnc.het", "tape"), ("load2311.img", "disk"):
        yield Case(f"{name} is kept", lambda n=name, k=kind: sample_is_kept(setup, n, k), ORIGIN)
    for name, kind, to in CONVERTED:
        yield Case(f"{name} is converted to {to}", lambda n=name, t=to, k=kind: is_converted(setup, n, t, k), ORIGIN)
    for name in "w.het", "w.fkt":
        yield Case(f"{name} is judged", lambda n=name: are_judged(setup, [bytes_of(f"{STORED}/{n}")]), ORIGIN)
    for name, image in originals().items():
        yield Case(f"{name}, changed and read", lambda it=image: are_read(setup, it), ORIGIN)
    for name, images in hostile():
        for number, part in enumerate(parted(images), 1):
            yield Case(f"hostile: {name}, {number}", lambda p=part: are_judged(setup, p), ORIGIN)
    for seed in range(20):
        yield Case(f"tape at random {seed}", lambda s=seed: at_random(setup, s), ORIGIN)
    for number, (data, said) in enumerate(NO_IMAGES, 1):
        yield Case(f"no image {number}: {said[:40]}", lambda d=data, s=said: is_no_image(setup, d, s), "docs/FORMATS.md")
    for number, it in enumerate(unpacked(), 1):
        yield Case(f"compressed image {number} is loaded", lambda it=it: is_unpacked_to_be_loaded(setup, *it),
                   "docs/MANUAL.md, Images")
    for number, (data, said) in enumerate(FINDINGS, 1):
        yield Case(f"finding {number}: {said[:40]}", lambda d=data, s=said: is_found(setup, d, s), "docs/FORMATS.md")
    for words, script, said in REJECTED:
        name = f"rejected: {' '.join(words)} {script.splitlines()[1:2]}"
        yield Case(name, lambda w=words, s=script, t=said: is_rejected(setup, w, s, t), "docs/MANUAL.md, Images")
    for name, line in SIZES:
        yield Case(f"size: {line}", lambda n=name, it=line: size_is_taken(setup, n, it), "docs/MANUAL.md, Images")
    for judge in (
        replaces_whole,
        full_disk_loses_nothing,
        full_file_system_loses_nothing,
        failed_run_saves_nothing,
        left_file_is_taken_over,
        model_is_asked_before_the_run,
        most_tracks_are_kept,
        has_trailing_bytes,
        empty_file_is_called_empty,
        other_files_are_no_images,
        one_is_no_several,
        large_file_is_not_read,
        bombs,
        large_media_are_not_kept,
        output_may_be_standard_output,
        check_wants_a_unit_for_each_image,
        progress_is_shown_on_a_terminal,
        prints_paper,
    ):
        yield Case(judge.__name__.replace("_", " "), lambda j=judge: j(setup), "docs/MANUAL.md, Images")
