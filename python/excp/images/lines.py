"""Media as the lines of a script that declare them, and such lines as media."""

from __future__ import annotations

from typing import Iterator, List

from ..script import grammar
from ..script.limits import MOST_MEDIUM_BYTES, MOST_SCRIPT_BYTES, R0_BYTES
from ..script.set_up import Unit
from .ckd import BESIDE_RECORDS, HEADER
from .media import Disk, Geometry, Medium, Record, Tape, TapeItem, mounted_r0, track_id
from .reading import Unreadable, read_image, size_of_file

# The most bytes of a plain image with a medium that lines declare: one whose tracks are the
# shortest has the most. The lines of a tape in a file with more are too long for a script.
_MOST_TRACKS = MOST_MEDIUM_BYTES // R0_BYTES
MOST_FILE_BYTES = HEADER + _MOST_TRACKS * (R0_BYTES + BESIDE_RECORDS)

_INSTEAD = "use the image with --load"
_LARGE = f"a line of a script declares at most {MOST_MEDIUM_BYTES:,} bytes: {_INSTEAD}"
_UNDECLARABLE = (
    "no line of a script says what is on a track of it, other data in R0 or a record of another "
    f"track: {_INSTEAD}"
)
_LONG = f"its lines have more than the {MOST_SCRIPT_BYTES:,} bytes of a script: {_INSTEAD}"


def lines_of_image(name: str) -> List[str]:
    """The lines of a script with one task and one unit, which has the medium of an image.

    Raises Unreadable if the image cannot be read, or no script has its medium.
    """
    if size_of_file(name) > MOST_FILE_BYTES:
        raise Unreadable(name, _LARGE)
    medium = read_image(name, MOST_MEDIUM_BYTES)
    if medium.size.bytes > MOST_MEDIUM_BYTES:
        raise Unreadable(name, _LARGE)
    if isinstance(medium, Disk) and not is_declarable(medium):
        raise Unreadable(name, _UNDECLARABLE)
    lines, length = [], 0
    for line in _script_lines(medium):
        length += len(line) + 1
        if length > MOST_SCRIPT_BYTES:
            raise Unreadable(name, _LONG)
        lines.append(line)
    return lines


def _script_lines(medium: Medium) -> Iterator[str]:
    yield "tasks 1"
    yield from _disk_lines(medium) if isinstance(medium, Disk) else _tape_lines(medium)


def _tape_lines(tape: Tape) -> Iterator[str]:
    yield f"tape 0 0 {tape.size.bytes}"
    yield f"# the tape stands here, behind 0 of {len(tape.items)} items"
    for item in tape.items:
        yield "mark 0" if item is None else f"block 0 {_digits(item)}"


def _disk_lines(disk: Disk) -> Iterator[str]:
    size = disk.size
    yield f"disk 0 0 {size.cylinders} {size.heads} {size.track_bytes}"
    for number, (_, *records) in enumerate(disk.tracks):
        cylinder, head = divmod(number, size.heads)
        for it in records:
            fields = f"{cylinder} {head} {it.id[4]} {_digits(it.key)} {_digits(it.data)}"
            yield f"rec 0 {fields}"


def _digits(data: bytes) -> str:
    """Bytes in hexadecimal; a hyphen for none."""
    return data.hex().upper() or "-"


def is_declarable(disk: Disk) -> bool:
    """Whether lines declare all that is on a disk: R0 as mounting makes it, and records of their
    own track."""
    for number, (first, *others) in enumerate(disk.tracks):
        cchh = track_id(number, disk.size.heads)
        if first != mounted_r0(cchh):
            return False
        if any(it.id[:4] != cchh or it.id[4] == 0 for it in others):
            return False
    return True


# Media that lines declare.


def tape_items(unit: Unit) -> Iterator[TapeItem]:
    """The items that the lines of a tape declare."""
    return (it.data if isinstance(it, grammar.Block) else None for it in unit.content)


def disk_of(unit: Unit) -> Disk:
    """The disk that the lines of a unit declare, which is one, and has no fault."""
    says = unit.says
    assert isinstance(says, grammar.Disk)
    size = Geometry(says.cylinders, says.heads, says.track_bytes)
    tracks = [[mounted_r0(track_id(number, size.heads))] for number in range(size.tracks)]
    for it in unit.records:
        track = tracks[it.cylinder * size.heads + it.head]
        track.append(Record(it.identifier, it.key, it.data))
    return Disk(size, tracks)
