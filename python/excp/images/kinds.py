"""What a file is by its first bytes: an image, or something else; and which bytes may be none of an
image."""

from __future__ import annotations

from typing import NamedTuple, Optional

from .aws import FIRST, HEADER as CHUNK_HEADER, MARK, PACKING_BITS, WHOLE
from .cckd import EYE_CATCHER as PACKED_DISK
from .ckd import EYE_CATCHER as PLAIN_DISK, HEADER, HEADS, SIZES
from .faults import DiskRule, ImageFault, TapeRule

# The first bytes of a file that are looked at. Those of an FBA disk have its label.
HEAD = 1024


class Kind(NamedTuple):
    """A kind of file that is no image: bytes that it has, the place of these, and what it is."""

    place: int
    begins: bytes
    what: str


_FBA = (
    "this is an image of an FBA disk, which has blocks without count areas; CKD disks alone are "
    "supported"
)
_TEXT = "this is a text, not an image; 'convert --to' makes an image of a script"

KINDS = (
    Kind(0, b"FBA_", _FBA),
    Kind(512, "VOL1".encode("cp037"), _FBA),
    Kind(
        0,
        b"CKD_C064",
        "this is a compressed image of a disk (CCKD64); make a plain one, which begins with "
        "CKD_P370",
    ),
    Kind(
        0,
        b"CKD_P064",
        "this is an image of a disk in the format CKD64; make one that begins with CKD_P370",
    ),
    Kind(
        0,
        b"CKD_S",
        "this is a shadow file of a compressed image of a disk (CCKD); make a plain image of both",
    ),
)

# The formats of disks that are read, by what begins an image.
_DISKS = {
    PLAIN_DISK: "an image of a disk (CKD_P370)",
    PACKED_DISK: "a compressed image of a disk (CKD_C370)",
}

# Rules of a header that bytes after an image may break.
_MAY_TRAIL = {TapeRule.FLAGS, TapeRule.SPARE, TapeRule.PREVIOUS, TapeRule.BLOCK_OPEN}

_CONTROLS_OF_TEXT = b"\t\n\r\f"


def image_kind(head: bytes) -> Optional[str]:
    """What a file with these first bytes is, if it is an image of a tape or a disk. No script has
    such bytes."""
    for begins, what in _DISKS.items():
        if head.startswith(begins):
            return what
    if any(head.startswith(kind.begins, kind.place) for kind in KINDS):
        return "an image of a disk"
    if len(head) < CHUNK_HEADER.size:
        return None
    length, previous, flags, spare = CHUNK_HEADER.unpack_from(head)
    # the first chunk has none before it, and begins a block or is a tape mark
    begins_block = length and flags & ~PACKING_BITS in (FIRST, WHOLE)
    if previous or spare or not (begins_block or (flags, length) == (MARK, 0)):
        return None
    return f"a{' compressed' if flags & PACKING_BITS else 'n'} image of a tape"


def is_characters(data: bytes) -> bool:
    """Whether bytes have no control characters but those of a text."""
    return all(byte >= 0x20 or byte in _CONTROLS_OF_TEXT for byte in data)


def why_no_image(fault: ImageFault, head: bytes, size: int) -> str:
    """The sentence for a file of this size and with these first bytes that breaks a rule of
    images."""
    kind = _kind_of(head) if fault.offset == 0 and fault.rule is not TapeRule.NO_FAKE_TAPE else None
    return kind or _trailing(fault, head, size) or f"{fault}{_other_cause(fault)}"


def _kind_of(head: bytes) -> Optional[str]:
    """What a file with these first bytes is, if it is known."""
    for kind in KINDS:
        if head.startswith(kind.begins, kind.place):
            return kind.what
    return _TEXT if b"\n" in head and is_characters(head) else None


def _other_cause(fault: ImageFault) -> str:
    """What else than damage may be the cause of the fault of a tape."""
    if not isinstance(fault.rule, TapeRule) or fault.rule is TapeRule.NO_FAKE_TAPE:
        return ""
    if fault.offset == 0:
        return ", or the file is no image of a tape"
    return ", or trailing bytes follow the last chunk" if fault.rule in _MAY_TRAIL else ""


def _trailing(fault: ImageFault, head: bytes, size: int) -> Optional[str]:
    """That bytes follow the image, if it seems so."""
    if fault.rule is TapeRule.WHOLE_HEADER and fault.offset > 0:
        offset, part = fault.offset, "chunk"
    elif (
        fault.rule is DiskRule.WHOLE_CYLINDERS
        and (end := _end_of_cylinders(head, size)) is not None
    ):
        offset, part = end, "cylinder"
    else:
        return None
    count = max(size - offset, 0)
    bytes_left = f"{count} trailing byte{'' if count == 1 else 's'}"
    return f"byte {offset}: {bytes_left} after the last {part}, or the image is cut short"


def _end_of_cylinders(head: bytes, size: int) -> Optional[int]:
    """The end of the whole cylinders of a disk image with this header, if fewer bytes than a track
    follow them."""
    heads, track = SIZES.unpack_from(head, HEADS)
    rest = (size - HEADER) % (heads * track)
    return size - rest if rest < track and rest < size - HEADER else None
