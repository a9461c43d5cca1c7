"""The one unit of a script, of which an image is made."""

from __future__ import annotations

from typing import Callable, Optional, Sequence

from ..checking import check_script, has_rejected_line
from ..checking.loaded import NO_IMAGES
from ..findings import FaultName, Finding
from ..script.grammar import Command
from ..script.reading import Text, count_of, lines_of, read_script_line
from ..script.set_up import SetUp, Unit
from .script_file import read_plain, worth_printing
from .streams import ERRORS, Rejected, name_of, of_file, print_findings


def unit_of_script(file: Optional[str], why_not: Callable[[Unit], Optional[str]]) -> Unit:
    """The one unit of a script without faults.

    `why_not` says why it is not the right one. Raises Rejected after it has printed what is found
    in the script, and Ended.
    """
    script = read_plain(file, lambda: NO_IMAGES, ERRORS)
    findings = check_script(script)
    if has_rejected_line(findings):
        _reject(script.script, findings, file)
    units = _units_of(script.script)
    has = f"it has {count_of(len(units), 'unit')}"
    why = why_not(units[0]) if len(units) == 1 else f"{has}: a script with one makes an image"
    if why is not None:
        raise of_file(name_of(file), why)
    if any(it.name is FaultName.MEDIUM for it in findings):
        _reject(script.script, findings, file)
    return units[0]


def _reject(script: bytes, findings: Sequence[Finding], file: Optional[str]) -> None:
    print_findings(worth_printing(findings, script), file, ERRORS)
    raise Rejected


def _units_of(script: bytes) -> Sequence[Unit]:
    """The units that the lines of a plain script declare, none of which is at fault."""
    set_up = SetUp()
    for number, line in enumerate(lines_of(script), 1):
        text = Text(line)
        says = read_script_line(number, text)
        if says is not None and not isinstance(says, Command):
            set_up.add(says, text)
    return set_up.units
