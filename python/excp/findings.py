"""What is found in a text, and how it is printed: `FILE:LINE:COLUMN: NAME: SENTENCE`."""

from __future__ import annotations

import unicodedata
from dataclasses import dataclass
from enum import Enum
from typing import Iterable, Iterator, Mapping, Optional

# Bold red and bold yellow, and the end of either, as terminals take them (ECMA-48, "SGR").
RED, YELLOW, PLAIN = "\x1b[1;31m", "\x1b[1;33m", "\x1b[0m"

# What a note has in place of the name of a fault.
_NOTE = "note"


class FaultName(Enum):
    """The name of a fault, as `excp_job run` reports it. A run looks for the last three when all
    lines are right."""

    WORDS = "Words"
    NUMBER = "Number"
    ORDER = "Order"
    NAME = "Name"
    KIND = "Kind"
    AREA = "Area"
    MEDIUM = "Medium"
    EXTENT = "Extent"
    REQUEST = "Request"


# What each name says of a script, in the order in which a run looks. docs/MANUAL.md has it, by
# `tools/reference.py`.
FAULTS: Mapping[FaultName, str] = {
    FaultName.WORDS: "the first word is unknown, the number of words wrong, or a byte no printable "
    "ASCII character",
    FaultName.NUMBER: "a word is not of its form, or a number outside its range",
    FaultName.ORDER: "a set-up line after a command, `tasks` twice or missing, no unit, or a "
    "number out of sequence",
    FaultName.NAME: "a unit, task, area or DCB that is not declared",
    FaultName.KIND: "`rec` for a unit that is no disk, `block` or `mark` for one that is no tape",
    FaultName.AREA: "an area that is misaligned, too long or past the top",
    FaultName.MEDIUM: "a geometry, a medium or faults that cannot be mounted",
    FaultName.EXTENT: "extents that cannot be opened, or too many DCBs",
    FaultName.REQUEST: "a request that cannot be made, or shown bytes outside of its area",
}

@dataclass(frozen=True)
class Finding:
    """A fault, which has a name, or a note, which has none.

    Lines and columns count from 1. A finding of a line as a whole has no column, one of a text as
    a whole has no line, and one of the text that is read has no file.
    """

    line: Optional[int]
    sentence: str
    name: Optional[FaultName] = None
    column: Optional[int] = None
    file: Optional[str] = None

    @property
    def is_fault(self) -> bool:
        return self.name is not None


def printable_name(name: str) -> str:
    """The name of a file, each control character as hexadecimal digits."""
    return "".join(
        f"\\x{ord(it):02x}" if unicodedata.category(it) == "Cc" else it for it in name
    )


def printed(findings: Iterable[Finding], file: str, is_coloured: bool = False) -> Iterator[str]:
    """A line for each finding. `file` is the file of those that have none of their own."""
    own = printable_name(file)
    for it in findings:
        numbers = (number for number in (it.line, it.column) if number is not None)
        named = own if it.file is None else printable_name(it.file)
        place = "".join(f"{part}:" for part in (named, *numbers))
        if is_coloured:
            place = f"{RED if it.is_fault else YELLOW}{place}{PLAIN}"
        yield f"{place} {_NOTE if it.name is None else it.name.value}: {it.sentence}\n"
