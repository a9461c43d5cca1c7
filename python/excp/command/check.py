"""`check`: prints every fault of a script, and warnings. Runs nothing."""

from __future__ import annotations

import argparse

from ..checking import check_scenario, check_script
from .options import unit_files
from .script_file import add_script, read_plain, worth_printing
from .streams import OUTPUT, REJECTED, ReaderGone, name_of, print_findings
from .unit_files import add_load, load_images


def add_arguments(parser: argparse.ArgumentParser) -> None:
    parser.add_argument("--scenario", action="store_true", help="reads a scenario, as step does")
    add_load(parser)
    add_script(parser)


def run(given: argparse.Namespace) -> int:
    try:
        return _checked(given)
    except ReaderGone:
        # something was found, which nobody reads
        return REJECTED


def _checked(given: argparse.Namespace) -> int:
    images = load_images(name_of(given.script), unit_files(given, "load"))
    script = read_plain(given.script, lambda: images, OUTPUT)
    if given.scenario:
        findings = check_scenario(script.script, images)
    else:
        findings = check_script(script, images)
    print_findings(worth_printing(findings, script.script), given.script, OUTPUT)
    return REJECTED if any(finding.is_fault for finding in findings) else 0
