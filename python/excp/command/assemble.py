"""`assemble`: prints the plain script of one with symbolic areas, or every mistake in it."""

from __future__ import annotations

import argparse

from ..symbols import assemble
from .script_file import add_script, worth_printing
from .streams import ERRORS, REJECTED, print_findings, read_script, write_output


def add_arguments(parser: argparse.ArgumentParser) -> None:
    add_script(parser)


def run(given: argparse.Namespace) -> int:
    text = read_script(given.script)
    assembled = assemble(text)
    if assembled.findings:
        print_findings(worth_printing(assembled.findings, text), given.script, ERRORS)
        return REJECTED
    write_output([assembled.script])
    return 0
