"""The result of assembling a job, and where its words are in the plain script."""

from __future__ import annotations

from dataclasses import dataclass, field
from typing import Mapping, NamedTuple, Optional, Sequence

from ..findings import Finding
from .labels import Label
from .words import Word


class AreaLayout(NamedTuple):
    """Where a job has an area: the line that opens it, its first address, its bytes, the word that
    has set each, if one has, its labels, and the address of the statement of each line. A plain
    area has only the first two."""

    line: int
    base: int
    image: bytes = b""
    setters: Sequence[Optional[Word]] = ()
    labels: Mapping[str, Label] = {}
    statements: Mapping[int, int] = {}

    def set_by(self, line: int, address: int) -> bytes:
        """The bytes from an address on that a line has set."""
        start = end = address - self.base
        while end < len(self.setters) and (setter := self.setters[end]) and setter.line == line:
            end += 1
        return self.image[start:end]


@dataclass(frozen=True)
class Assembled:
    """The result of assembling a job: a plain script, or findings.

    Line N of the script is line N of the job. The line of a symbolic area is that of its
    `endarea`: `place` and `opening_line` lead from what is found in an area to the words of the
    job. A plain script has no `job`.
    """

    script: bytes
    findings: list[Finding] = field(default_factory=list)
    areas: Sequence[AreaLayout] = ()
    job: Optional[bytes] = None

    def place(self, area: int, address: int) -> Optional[Word]:
        """The word of the job that has set a byte of an area, with its line and column; None if no
        word has."""
        if area >= len(self.areas):
            return None
        layout = self.areas[area]
        offset = address - layout.base
        return layout.setters[offset] if 0 <= offset < len(layout.setters) else None

    def opening_line(self, area: int, line: int) -> int:
        """The line that opens an area, whose plain line is `line`."""
        return self.areas[area].line if area < len(self.areas) else line
