"""The steps of a record: the commands of channel programs, and the names of their CCWs."""

from __future__ import annotations

from functools import lru_cache
from typing import NamedTuple, Optional, Sequence

from ..device_commands import FLAGS, command_of

# The last member of a step, if it was at a place of a medium.
_PLACE = ',"place":'

# The way of the bytes of a read backward.
BACKWARD = "down from"


class Step(NamedTuple):
    """A step as its line has it: all members but the last brace, without the place; and the place,
    which is empty if there is none."""

    text: str
    place: str


def step_of(line: str) -> Step:
    """The step of a line."""
    text, _, place = line[:-1].partition(_PLACE)
    return Step(text, place)


class CcwNames(NamedTuple):
    """What a CCW is called: its command in words, its mnemonic if it has one, and its flags."""

    words: str
    mnemonic: Optional[str]
    flags: Sequence[str]


def ccw_names(device: str, image: str, continues_data: bool) -> CcwNames:
    """The names of a CCW, by its image in hexadecimal. Only the first CCW of a data chain has a
    command."""
    code = None if continues_data else int(image[:2], 16)
    return _names(device, code, int(image[8:10], 16))


@lru_cache(maxsize=1024)
def _names(device: str, code: Optional[int], bits: int) -> CcwNames:
    flags = [name for name, flag in FLAGS.items() if bits & flag]
    if code is None:
        return CcwNames("data", None, flags)
    command = command_of(device, code)
    if command is None:
        return CcwNames("no command", None, flags)
    return CcwNames(command.words, command.mnemonic, flags)
