"""Reports the faults of a script: before a program is built to run it, and after a run that has
rejected it."""

from __future__ import annotations

import os
from typing import BinaryIO, Sequence

from ..checking import check_script
from ..checking.loaded import NO_IMAGES
from ..findings import printable_name
from ..programs.children import ended
from ..programs.telling import note
from ..symbols import Assembled, assemble, has_symbols
from .run import copy_errors, in_memory
from .script_file import worth_printing
from .streams import (
    ERRORS, REJECTED, STANDARD_INPUT, Rejected, print_findings, text_of,
)


def before_build(script: str, given: BinaryIO) -> None:
    """Raises Rejected, after it has printed the faults of a script, or Ended, if it is too long or
    an image. Else a program is worth its build."""
    text = _text_of(script, given)
    plain = assemble(text) if has_symbols(text) else Assembled(text)
    findings = plain.findings or check_script(plain, NO_IMAGES)
    if any(finding.is_fault for finding in findings):
        print_findings(worth_printing(findings, text), script, ERRORS)
        raise Rejected


def after_fault(
    command: Sequence[str], script: str, given: BinaryIO, errors: BinaryIO
) -> int:
    """Says why a program has rejected a script; or runs it once more if it has symbols. Returns the
    exit status. Raises Ended, if it is too long or an image."""
    text = _text_of(script, given)
    if has_symbols(text):
        return _run_assembled(command, script, text)
    copy_errors(errors)
    _prints_fault(Assembled(text), text, script)
    return REJECTED


def _text_of(script: str, given: BinaryIO) -> bytes:
    """The text of a script. Raises Ended if it is too long or an image."""
    return text_of(None if script == STANDARD_INPUT else script, given)


def _run_assembled(command: Sequence[str], name: str, text: bytes) -> int:
    """Runs a job in symbols. Prints its faults as `check` does, and not as the program."""
    script = assemble(text)
    if script.findings:
        print_findings(worth_printing(script.findings, text), name, ERRORS)
        return REJECTED
    if os.isatty(ERRORS):
        note(f"{printable_name(name)} has symbols: runs what assemble makes of it")
    with in_memory(script.script) as plain, in_memory() as errors:
        status = ended(command, plain, errors)
        if status != REJECTED or not _prints_fault(script, text, name):
            copy_errors(errors)
    return status


def _prints_fault(script: Assembled, text: bytes, name: str) -> bool:
    """Prints what is wrong with the script of a text, on standard error. Returns whether a fault
    is."""
    findings = check_script(script, NO_IMAGES)
    print_findings(worth_printing(findings, text), name, ERRORS)
    return any(finding.is_fault for finding in findings)
