"""How a report as text looks: the characters beside hexadecimal digits, what failed in red, whether
each round of a loop is printed, and the names of a job in symbols."""

from __future__ import annotations

import re
from dataclasses import dataclass
from typing import TYPE_CHECKING, Callable, Optional

from ..findings import PLAIN, RED
from ..images.ebcdic import seen
from .record import Members, is_error

if TYPE_CHECKING:
    # a library prints histories without it
    from ..symbols.source_map import AreaSource, SourceMap

_ASCII = bytes(byte if 0x20 <= byte < 0x7F else 0x2E for byte in range(256))

_LINE = re.compile("^.+$", re.M)
_IN_RED = f"{RED}\\g<0>{PLAIN}"


@dataclass(frozen=True)
class Look:
    """`text` gives the characters of bytes, with a dot for each that cannot be seen. `source` is
    there if the commands of a job in symbols have its names."""

    text: Callable[[bytes], str] = seen
    has_colour: bool = False
    folds_loops: bool = True
    source: Optional[SourceMap] = None

    def area(self, task: int, unit: int, request: int) -> Optional[AreaSource]:
        """The area of a request, if the job has names."""
        return None if self.source is None else self.source.area_of(task, unit, request)

    def posted(self, lines: str, post: Members) -> str:
        """The lines of a post, which are of a failure unless its program ended well."""
        return self.failed(lines) if is_error(post) else lines

    def failed(self, lines: str) -> str:
        """The lines of what failed."""
        return _LINE.sub(_IN_RED, lines) if self.has_colour else lines

    def beside(self, digits: str) -> str:
        """The characters of bytes, as they are beside their digits; nothing if they are dots
        alone."""
        text = self.text(bytes.fromhex(digits))
        return f"  |{text}|" if text.strip(".") else ""


def in_ascii(data: bytes) -> str:
    """Bytes as ASCII, with a dot for each that cannot be seen."""
    return data.translate(_ASCII).decode("ascii")
