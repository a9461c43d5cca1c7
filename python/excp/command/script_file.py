"""The script that most words take: its argument, and the plain script made of it."""

from __future__ import annotations

import argparse
from dataclasses import replace
from typing import Callable, Optional, Sequence

from ..checking.loaded import Images, with_sizes
from ..findings import Finding
from ..symbols import Assembled, assemble, has_symbols
from .streams import Rejected, print_findings, read_script


# The text on a file that is no text.
_NO_TEXT = "; the file has zero bytes, so it is no script, and no other fault is printed"


def add_script(parser: argparse.ArgumentParser) -> None:
    """Adds the file of a script. Without it, or with `-`, the script is standard input."""
    parser.add_argument("script", nargs="?", metavar="SCRIPT", type=_file)


def _file(word: str) -> Optional[str]:
    return None if word == "-" else word


def worth_printing(findings: Sequence[Finding], text: bytes) -> Sequence[Finding]:
    """What is printed of the findings in a text: the first fault of a line alone if it has a zero
    byte, and so is none that somebody wrote."""
    first = next((it for it in findings if it.is_fault and it.line is not None), None)
    if b"\0" not in text or first is None:
        return findings
    return [replace(first, sentence=f"{first.sentence}{_NO_TEXT}")]


def read_plain(file: Optional[str], images: Callable[[], Images], stream: int) -> Assembled:
    """The plain script of a file, assembled if it has symbols. Only then it asks for the images of
    units. Raises Ended, and Rejected after mistakes were printed on a stream."""
    text = read_script(file)
    if not has_symbols(text):
        return Assembled(text)
    # extents of a whole disk have the size of its image
    script = assemble(with_sizes(text, images()))
    if script.findings:
        print_findings(worth_printing(script.findings, text), file, stream)
        raise Rejected
    return replace(script, job=text)
