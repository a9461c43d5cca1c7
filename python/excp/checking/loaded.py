"""Units whose media come from images: the sizes in their lines, and why an image does not fit.

A script is read after its images, since its lines may leave their sizes to them.
"""

from __future__ import annotations

from typing import Mapping, Optional, Sequence

from ..device_commands import DISK, TAPE
from ..images.measured import DiskFile, MeasuredImage, TapeFile
from ..script import grammar
from ..script.forms import INDEX, LEFT_TO_IMAGE
from ..script.limits import MOST_IMAGE_TAPE_BYTES
from ..script.media import Reason, fault_reasons
from ..script.reading import Text, count_of
from ..script.set_up import Unit

# The images of units by their numbers.
Images = Mapping[int, MeasuredImage]
NO_IMAGES: Images = {}

_CONTENT = "the medium of this unit is an image: no line says what is on it"
_FAULTS = "the faults of this unit are none that a device meets, or out of order"


def kind_of(image: MeasuredImage) -> str:
    """The kind of device that has the medium of an image."""
    return DISK if isinstance(image, DiskFile) else TAPE


def numbers_of(image: MeasuredImage) -> Sequence[int]:
    """The numbers of the size of an image, as the line of its unit has them."""
    if isinstance(image, TapeFile):
        return (image.used,)
    size = image.size
    return size.cylinders, size.heads, size.track_bytes


def with_sizes(script: bytes, images: Images) -> bytes:
    """A script in which the lines of units have the sizes of their images in place of hyphens."""
    if not images:
        return script
    lines = script.decode("latin-1").split("\n")
    for place, line in enumerate(lines):
        words = Text(line).words
        unit = INDEX.read(words[1]) if len(words) > 3 and words[3] == LEFT_TO_IMAGE else None
        image = None if unit is None else images.get(unit)
        if image is not None and words[0] == kind_of(image):
            numbers = numbers_of(image)
            if words[3:] in ([LEFT_TO_IMAGE], [LEFT_TO_IMAGE] * len(numbers)):
                lines[place] = " ".join([*words[:3], *map(str, numbers)])
    return "\n".join(lines).encode("latin-1")


def on_missing_size(unit: int, images: Images) -> str:
    """The sentence on a hyphen for a size that no image gives."""
    image = images.get(unit)
    if image is None:
        return f"unit {unit} has no size; name its image: --load {unit}=FILE"
    if isinstance(image, TapeFile) and not image.used:
        return "the image of this unit is an empty file, which is an empty tape"
    return _expected_line(image)


def _expected_line(image: MeasuredImage) -> str:
    kind = kind_of(image)
    return f"the image of this unit is a {kind}: expected a line '{kind} U ISC -'"


def loading_faults(unit: Unit, image: MeasuredImage) -> list[Reason]:
    """Why a unit cannot be mounted with the medium of an image: all reasons in its lines, or that
    the image does not fit."""
    reasons = fault_reasons(unit.faults)
    reasons += [Reason(line.line, _CONTENT) for line in unit.content]
    if not reasons:
        first = first_misfit(unit, image)
        reasons += [] if first is None else [first]
    return reasons


def first_misfit(unit: Unit, image: MeasuredImage) -> Optional[Reason]:
    """The first reason why a unit is not mounted with the medium of an image."""
    if unit.content:
        return Reason(unit.content[0].line, _CONTENT)
    wrong = _wrong_size(unit, image)
    if wrong is None and fault_reasons(unit.faults):
        wrong = _FAULTS
    return None if wrong is None else Reason(unit.says.line, wrong)


def _wrong_size(unit: Unit, image: MeasuredImage) -> Optional[str]:
    says = unit.says
    if isinstance(image, DiskFile) and isinstance(says, grammar.Disk):
        if (says.cylinders, says.heads, says.track_bytes) == numbers_of(image):
            return None
        size = image.size
        cylinders = f"{count_of(size.cylinders, 'cylinder')} of {count_of(size.heads, 'head')}"
        return f"the image has {cylinders}, and {size.track_bytes} bytes a track"
    if isinstance(image, TapeFile) and isinstance(says, grammar.Tape):
        counted = count_of(says.size, "byte")
        if says.size > MOST_IMAGE_TAPE_BYTES:
            return f"{counted}: a tape from an image has at most {MOST_IMAGE_TAPE_BYTES}"
        if image.used > says.size:
            return f"the tape holds {counted}, but its image needs {image.used}"
        return None
    return _expected_line(image)
