"""Images of tapes (AWSTAPE, HET) and disks (CKD_P370, CKD_C370), read byte by byte as their formats say: what lies on the medium,
or the first fault.

This is no part of the program. It is what the program is held to: docs/FORMATS.md has the rules.
"""

import bz2
import struct
import zlib
from dataclasses import dataclass, field

# The bytes of the header of a chunk, of that of a disk image, of a home address, and of a count area.
CHUNK, DISK, HOME, COUNT = 6, 512, 5, 8

# What ends the records of a track.
END = b"\xff" * 8

# The most tracks of a disk, and the most bytes of a block.
TRACKS, BLOCK = 65_535, 65_535

# What `--load` and the library say of a fault, by its name. `{n}` is how many bytes are left, and `{s}` an s unless that is 1.
TEXTS = {
    "after chunks": "{n} trailing byte{s} after the last chunk",
    "after cylinders": "{n} trailing byte{s} after the last cylinder",
    "fake": "the image is a FakeTape file",
    "header cut": "the header of a chunk is cut short",
    "data cut": "the data of a chunk is cut short",
    "compressed chunk": "the chunk is compressed; make a plain file by `hetupd -d IN OUT`",
    "flags": "byte 4 of a header is 40, A0, 80, 00 or 20",
    "spare": "byte 5 of a header is 00",
    "previous": "bytes 2 and 3 of a header are the length of the chunk before it",
    "mark with data": "a tape mark has no data",
    "mark in block": "a tape mark is inside a block",
    "block in block": "a block begins inside a block",
    "no block": "a chunk continues a block, and none is open",
    "empty": "a block is empty",
    "long": "a block is too long",
    "no end": "the image ends inside a block",
    "disk header cut": "the header of the image is cut short",
    "compressed disk": "the image is compressed; make a plain file by `dasdcopy -o ckd IN OUT`",
    "eye catcher": "the file is no image of a disk",
    "split": "the image is a part of a split volume",
    "heads": "a disk has 1 to 65,535 heads",
    "track bytes": "a track has 30 to 65,549 bytes in an image",
    "cut": "the image is cut short",
    "tracks": "the image has more than 65,535 tracks",
    "home address": "the home address names another track",
    "no record": "a track has at least one record, R0",
    "no end mark": "the records of a track end in eight bytes FF",
    "past track": "a record goes past the end of its track",
}

# What `describe` and `convert` say in its place, if that is something else: what was found, shown as `@`, and then the rule.
FOUND = {
    "header cut": "the header of a chunk is cut short: @ of 6 bytes",
    "data cut": "the data of a chunk is cut short: @ of @ bytes",
    "flags": "byte 4 of a header is @, must be 40, A0, 80, 00 or 20; of compressed data A1, 81, 01, 21, A2, 82, 02 or 22",
    "spare": "byte 5 of a header is @, must be 00",
    "previous": "bytes 2 and 3 of a header are @, must be @: the bytes of the chunk before it",
    "mark with data": "a tape mark has data: @ bytes, must have none",
    "two methods": "the chunks of a block are compressed in different ways",
    "packed data": "the compressed data of a block is damaged: ",
    "empty": "a block is empty, must have 1 to 65,535 bytes",
    "long": "a block is too long: more than 65,535 bytes, must have 1 to 65,535",
    "disk header cut": "the header of the image is cut short: @ of @ bytes",
    "eye catcher": "the file is no image of a disk: it begins with '@', must begin with 'CKD_P370' or 'CKD_C370'",
    "split": "the image is a part of a split volume, file @; copy the whole volume to one file",
    "heads": "a disk has 1 to 65,535 heads, and this one @",
    "track bytes": "a track has 30 to 65,549 bytes in an image, and this one @",
    "cut": "the image is cut short: @ cylinders and @ tracks of @, must be at least one whole cylinder",
    "home address": "the home address names another track: cylinder @, head @, must be cylinder @, head @",
    "no record": "a track has no record, must have at least one: R0",
    "no end mark": "the records of a track have no end, must end in eight bytes FF",
    "past track": "a record goes past the end of its track: @ bytes, @ are left",
    "packed header": "the header of the compressed image is damaged: ",
    "packed table": "a table of the compressed image is damaged: ",
    "packed track": "a compressed track is damaged: ",
    "shadow": "the image is a shadow file: ",
}


class Fault(Exception):
    """What is wrong with an image: the byte, and the rules that it breaks there, of which a reader reports one."""

    def __init__(self, offset, *names):
        super().__init__(offset, names)
        self.offset, self.names = offset, names


@dataclass
class Tape:
    """The blocks and the tape marks, which are `None`, and the lengths of the chunks of each."""

    items: list = field(default_factory=list)
    chunks: list = field(default_factory=list)


@dataclass
class Track:
    """The flag of the home address, the records as pairs of CCHHR, key and data, and what follows the end mark."""

    flag: int
    records: list
    tail: bytes


@dataclass
class Volume:
    """The header, heads, bytes of a track in the file, and the tracks."""

    header: bytes
    heads: int
    size: int
    tracks: list


def tape_of(image, unpacks=False):
    """The tape of an AWSTAPE image, or of a HET image if compressed blocks are to be unpacked."""
    if len(image) >= 12 and all(it in b"0123456789ABCDEF" for it in image[:12]):
        raise Fault(0, "fake")
    tape, block, lengths, previous, at, first, method = Tape(), None, [], 0, 0, 0, 0
    while at < len(image):
        if at + CHUNK > len(image):
            raise Fault(at, "after chunks" if at else "header cut")
        length, before, flags, spare = struct.unpack_from("<HHBB", image, at)
        if unpacks and flags & 3 in (1, 2) and not flags & 0x40:
            packed, flags = flags & 3, flags & ~3
        else:
            packed = 0
        faults = chunk_faults(length, before, flags, spare, previous, block is not None, unpacks)
        if block is not None and not flags & 0xC0 and packed != method:
            faults.append("two methods")
        if block is None:
            first, method = at, packed
        if at + CHUNK + length > len(image):
            faults.append("data cut")
        data = image[at + CHUNK : at + CHUNK + length]
        if not faults and flags != 0x40:
            whole = len(block or b"") + length
            faults += ["long"] if whole > BLOCK else ["empty"] if whole == 0 and flags & 0x20 and not packed else []
        if faults:
            raise Fault(at, *faults)
        if flags == 0x40:
            tape.items.append(None)
            tape.chunks.append([0])
        else:
            block, lengths = (block or b"") + data, [*lengths, length]
            if flags & 0x20:
                if packed:
                    block = unpacked(block, packed, BLOCK, first, at)
                tape.items.append(block)
                tape.chunks.append(lengths)
                block, lengths = None, []
        previous = length
        at += CHUNK + length
    if block is not None:
        raise Fault(at, "no end")
    return tape


def unpacked(data, method, most, offset, end):
    """What data is unpacked to: a block from one offset to another."""
    unpacker = zlib.decompressobj() if method == 1 else bz2.BZ2Decompressor()
    try:
        found = unpacker.decompress(data, most + 1)
    except (zlib.error, OSError, ValueError):
        raise Fault(offset, "packed data") from None
    if len(found) > most:
        raise Fault(offset, "long")
    if not unpacker.eof or unpacker.unused_data:
        raise Fault(offset, "packed data")
    if not found:
        raise Fault(end, "empty")
    return found


def chunk_faults(length, before, flags, spare, previous, is_open, unpacks):
    """The rules that the header of a chunk breaks."""
    faults = []
    if flags & 3 and not unpacks:
        faults.append("compressed chunk")
    if flags not in (0x40, 0xA0, 0x80, 0x00, 0x20):
        faults.append("flags")
    if spare:
        faults.append("spare")
    if before != previous:
        faults.append("previous")
    if flags == 0x40 and length:
        faults.append("mark with data")
    if flags == 0x40 and is_open:
        faults.append("mark in block")
    if flags in (0x80, 0xA0) and is_open:
        faults.append("block in block")
    if flags in (0x00, 0x20) and not is_open:
        faults.append("no block")
    return faults


def image_of(tape):
    """The AWSTAPE image of a tape, with its blocks in their chunks."""
    image, previous = b"", 0
    for block, lengths in zip(tape.items, tape.chunks):
        at = 0
        for number, length in enumerate(lengths):
            flags = 0x40 if block is None else (0x80 if number == 0 else 0) | (0x20 if number == len(lengths) - 1 else 0)
            image += struct.pack("<HHBB", length, previous, flags, 0) + (block or b"")[at : at + length]
            at, previous = at + length, length
    return image


def volume_of(image, unpacks=False):
    """The volume of a CKD_P370 image, or of a CKD_C370 image if compressed tracks are to be unpacked."""
    if len(image) < DISK:
        raise Fault(len(image), "disk header cut")
    is_packed = image[:8] == b"CKD_C370"
    if image[:8] != b"CKD_P370" and not (is_packed and unpacks):
        raise Fault(0, "compressed disk" if is_packed else "eye catcher")
    heads, size = struct.unpack_from("<II", image, 8)
    if not 1 <= heads <= 65_535:
        raise Fault(8, "heads")
    if not 30 <= size <= 65_549:
        raise Fault(12, "track bytes")
    if image[17]:
        raise Fault(17, "split")
    volume = Volume(image[:DISK], heads, size, [])
    if is_packed:
        volume.tracks += packed_tracks(image, heads, size)
        return volume
    at = DISK
    while at < len(image) or not volume.tracks or len(volume.tracks) % heads:
        if at + size > len(image):
            is_whole = volume.tracks and len(volume.tracks) % heads == 0
            raise Fault(at, "after cylinders") if is_whole else Fault(len(image), "cut")
        if len(volume.tracks) == TRACKS:
            raise Fault(at, "tracks")
        volume.tracks.append(track_of(image, at, size, *divmod(len(volume.tracks), heads)))
        at += size
    return volume


def track_of(image, start, size, cylinder, head):
    """The track that begins at a byte of an image."""
    if image[start + 1 : start + HOME] != struct.pack(">HH", cylinder & 0xFFFF, head):
        raise Fault(start, "home address")
    at, end, records = start + HOME, start + size - 9, []
    while image[at : at + 8] != END or at + 8 > start + size:
        if at + COUNT > end:
            raise Fault(at, "no end mark", "past track")
        key, data = struct.unpack_from(">BH", image, at + 5)
        if at + COUNT + key + data > end:
            raise Fault(at, "past track")
        whole = image[at : at + COUNT + key + data]
        records.append((whole[:5], whole[8 : 8 + key], whole[8 + key :]))
        at += len(whole)
    if not records:
        raise Fault(at, "no record")
    return Track(image[start], records, image[at + 8 : start + size])


def bytes_of(track, size, cylinder, head):
    """A track in the form of an image."""
    whole = struct.pack(">BHH", track.flag, cylinder, head)
    for name, key, data in track.records:
        whole += name + struct.pack(">BH", len(key), len(data)) + key + data
    return (whole + END + track.tail).ljust(size, b"\0")


# --- compressed disks: cckd.h of Hercules 3

# The place of the first table, and what says that a track is in the file below this one.
TABLE, BELOW = 1024, 0xFFFFFFFF


def packed_tracks(image, heads, size):
    """The tracks of a CKD_C370 image."""
    if len(image) < TABLE:
        raise Fault(len(image), "disk header cut")
    order = ">" if image[DISK + 3] & 2 else "<"
    (cylinders,) = struct.unpack_from("<I", image, DISK + 40)
    form = image[DISK + 44]
    count = cylinders * heads
    if not 1 <= count <= TRACKS:
        raise Fault(DISK + 40, "packed header")
    if form > 2:
        raise Fault(DISK + 44, "packed header")
    wanted = (count + 255) // 256
    first, second = struct.unpack_from(f"{order}II", image, DISK + 4)
    if first < wanted:
        raise Fault(DISK + 4, "packed table")
    if second != 256:
        raise Fault(DISK + 8, "packed table")
    if TABLE + 4 * wanted > len(image):
        raise Fault(TABLE, "packed table")
    return [packed_track(image, order, number, heads, size, form) for number in range(count)]


def packed_track(image, order, number, heads, size, form):
    """A track of a CKD_C370 image."""
    entry = TABLE + 4 * (number // 256)
    (table,) = struct.unpack_from(f"{order}I", image, entry)
    if table == BELOW:
        raise Fault(entry, "shadow")
    place = length = 0
    if table:
        if table + 2048 > len(image):
            raise Fault(table, "packed table")
        entry = table + 8 * (number % 256)
        place, length, _ = struct.unpack_from(f"{order}IHH", image, entry)
        if place == BELOW:
            raise Fault(entry, "shadow")
        if not place and (length == 1 or length == 2 or (length == 0 and form != 2)):
            form = length
    whole = unpacked_track(image, place, length, entry, number, heads, size) if place else null_track(number, heads, form)
    try:
        return track_of(whole.ljust(size, b"\0"), 0, size, *divmod(number, heads))
    except Fault:
        raise Fault(place or entry, "packed track") from None


def unpacked_track(image, place, length, entry, number, heads, size):
    """The bytes of a track that is in the file."""
    if not HOME <= length <= size:
        raise Fault(entry, "packed table")
    data = image[place : place + length]
    if len(data) < length:
        raise Fault(place, "packed track")
    if data[1:HOME] != struct.pack(">HH", *divmod(number, heads)):
        raise Fault(place, "home address")
    if data[0] > 2:
        raise Fault(place, "packed track")
    rest = data[HOME:]
    if data[0]:
        try:
            rest = unpacked(rest, data[0], size - HOME, 0, 0)
        except Fault as fault:
            if "empty" not in fault.names:
                raise Fault(place, "packed track") from None
            rest = b""
    return b"\0" + data[1:HOME] + rest


def null_track(number, heads, form):
    """The bytes of a track that is not in the file, by the number of its form."""
    cchh = struct.pack(">HH", *divmod(number, heads))
    records = {0: [(1, 0)], 1: [], 2: [(at, 4096) for at in range(1, 13)]}[form]
    counts = [(0, 8), *records]
    return b"\0" + cchh + b"".join(cchh + struct.pack(">BBH", at, 0, size) + bytes(size) for at, size in counts) + END


def packed_image_of(volume, methods):
    """The CKD_C370 image of a volume of at most 256 tracks, each compressed by its method: 0 for none, 1 for zlib, 2 for bzip2,
    and nothing for a null track with an end of file after R0."""
    tracks, entries = b"", b""
    begin = TABLE + 4 + 2048
    for number, (track, method) in enumerate(zip(volume.tracks, methods)):
        if method is None:
            entries += bytes(8)
            continue
        whole = bytes_of(track, 0, *divmod(number, volume.heads))
        rest = {0: bytes, 1: zlib.compress, 2: bz2.compress}[method](whole[HOME:])
        entries += struct.pack("<IHH", begin + len(tracks), HOME + len(rest), HOME + len(rest))
        tracks += bytes([method]) + whole[1:HOME] + rest
    cylinders = len(volume.tracks) // volume.heads
    header = struct.pack("<4BII", 0, 3, 1, 0, 1, 256).ljust(40, b"\0") + struct.pack("<IBB", cylinders, 0, 1)
    table = struct.pack("<I", TABLE + 4) + entries.ljust(2048, b"\0")
    return b"CKD_C370" + volume.header[8:] + header.ljust(DISK, b"\0") + table + tracks


def packed_tape_of(items, method, length=65_535):
    """The HET image of a tape, each block compressed by a method, in chunks of limited size."""
    image, previous = b"", 0
    for block in items:
        data = b"" if block is None else {1: zlib.compress, 2: bz2.compress}[method](block)
        parts = [data[at : at + length] for at in range(0, len(data), length)] or [b""]
        for number, part in enumerate(parts):
            ends = (0x80 if number == 0 else 0) | (0x20 if number == len(parts) - 1 else 0) | method
            image += struct.pack("<HHBB", len(part), previous, 0x40 if block is None else ends, 0) + part
            previous = len(part)
    return image
