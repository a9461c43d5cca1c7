"""Listings of jobs in symbols: each line as it is written, and beside each statement its address
and its bytes. `assemble` makes the same script of it."""

from __future__ import annotations

from typing import Iterator

from .assembled import AreaLayout, Assembled
from .listing import beside, listed_areas

# The most bytes that are all beside a statement. Of more, as many as a line has are there.
_ALL, _FIRST = 40, 8


def job_listing(assembled: Assembled) -> bytes:
    """The listing of a job that a run accepts. Its plain areas are in symbols too."""
    layouts = {line: it for it in assembled.areas for line in it.statements}
    listed = listed_areas(assembled.script)
    plain = {it.line: listed[it.line] for it in assembled.areas if it.line in listed}
    job = (assembled.job or b"").decode("utf-8", "surrogateescape")
    lines: list[str] = []
    for number, text in enumerate(job.split("\n"), 1):
        code = text.removesuffix("\r")
        if number in layouts:
            lines += _statement(layouts[number], number, code)
        else:
            lines.append(plain.get(number, code))
    return "\n".join(lines).encode("utf-8", "surrogateescape")


def _statement(layout: AreaLayout, line: int, code: str) -> Iterator[str]:
    """The line of a statement with its address and its bytes."""
    address = layout.statements[line]
    image = layout.set_by(line, address)
    return beside(code, address, image if len(image) <= _ALL else image[:_FIRST])
