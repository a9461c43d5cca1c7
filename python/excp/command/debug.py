"""`debug`: runs a job, and goes through the steps of its channel programs, forward and back."""

from __future__ import annotations

import argparse
import os
from dataclasses import replace
from typing import Iterator, Mapping, Optional

from ..checking import check_script
from ..checking.loaded import with_sizes
from ..debugging.dialog import converse
from ..debugging.edition import Edition
from ..debugging.job import Job
from ..debugging.places import Unknown
from ..debugging.recording import Recording, read_recording
from ..debugging.session import Session
from ..debugging.views import Views
from ..debugging.walk import Differs, Walk
from ..findings import printed
from ..images.ebcdic import seen
from ..images.media import Medium
from ..images.reading import Unreadable, read_image
from ..reporting.kept import NotKept
from ..reporting.look import Look, in_ascii
from ..reporting.record import Part, Record
from ..symbols import Assembled, assemble, has_symbols
from .forms import Form
from .options import MOST, number, unit_files
from .script_file import add_script
from .streams import (
    FAILED, INPUT, OUTPUT, REJECTED, USAGE, Ended, Rejected, error_of_program, of_file,
    write_output,
)
from .tool_run import carry_out
from .tools import Order
from .unit_files import add_load, load_images
from .whole_script import WholeScript, read_job

# The commands of each unit that are kept unless more are asked for: some 20 MB.
_MOST_STEPS = 100_000


def add_arguments(parser: argparse.ArgumentParser) -> None:
    parser.add_argument("--lines", action="store_true", help="plain lines on a terminal too")
    parser.add_argument("--ascii", action="store_true", help="text as ASCII")
    parser.add_argument("--most-steps", type=number(1, MOST), metavar="N", help="so many commands")
    parser.add_argument("--seed", type=number(0, MOST), metavar="N", help="by its schedule")
    add_load(parser)
    parser.set_defaults(force=False)
    add_script(parser)


def run(given: argparse.Namespace) -> int:
    file: Optional[str] = given.script
    if file is None:
        raise Ended("debug: name the file of a job: standard input has the commands", USAGE)
    runs = _Runs(given)
    try:
        job = read_job(file, unit_files(given, "load"))
        edition = Edition(file, job.script.job or job.script.script, runs.run)
        session = Session(edition, runs.first(job), Views(_look(given)))
        return _converse(session, given.lines)
    except NotKept as error:
        raise Ended(f"no file can be written that keeps the steps: {error}", FAILED) from None
    except Differs as error:
        raise error_of_program(str(error)) from None


def _look(given: argparse.Namespace) -> Look:
    return Look(in_ascii if given.ascii else seen, folds_loops=False)


def _converse(session: Session, wants_lines: bool) -> int:
    is_typed = os.isatty(INPUT) and os.isatty(OUTPUT)
    if is_typed and not wants_lines and _is_shown(session):
        return 0
    are_right = converse(session, _lines(), lambda text: write_output([text.encode()]), is_typed)
    return 0 if are_right or is_typed else REJECTED


def _is_shown(session: Session) -> bool:
    """Shows a session on the screen of a terminal until it is over. Returns whether it can."""
    try:
        from ..debugging.screen import NoScreen, show
    except ImportError:
        # some builds of Python have no curses
        return False
    try:
        show(session)
    except NoScreen:
        return False
    return True


def _lines() -> Iterator[str]:
    """The lines of standard input, each as it comes."""
    try:
        with open(INPUT, encoding="utf-8", errors="replace", closefd=False) as file:
            yield from iter(file.readline, "")
    except OSError:
        raise Ended("standard input cannot be read") from None


class _Runs:
    """Runs a job with the options of a command line, and reads its record."""

    def __init__(self, given: argparse.Namespace) -> None:
        self._given = given
        self._order = Order.of(given, "report", ())
        self._form = Form(Part.STEPS, self._read, given.most_steps or _MOST_STEPS)
        self._recording: Optional[Recording] = None

    def first(self, job: WholeScript) -> Walk:
        """The run of the job as its file has it. Raises Ended, and Rejected after its faults were
        printed."""
        status = self._carried_out(job)
        if status == REJECTED:
            raise Rejected
        if status != 0:
            raise Ended("the job did not run to its end", status)
        return self._walk(job.script)

    def run(self, text: bytes) -> Walk:
        """The run of another text of the job. Raises Unknown with its first fault."""
        images = load_images(self._given.script, self._order.loads)
        script = Assembled(text)
        if has_symbols(text):
            script = replace(assemble(with_sizes(text, images)), job=text)
        findings = script.findings or check_script(script, images)
        faults = [it for it in findings if it.is_fault]
        if faults:
            raise Unknown("".join(printed(faults[:1], self._given.script)).rstrip("\n"))
        if self._carried_out(WholeScript(self._given.script, script, check_script)) != 0:
            raise Unknown("the job does not run, and the job before stays")
        return self._walk(script)

    def _carried_out(self, job: WholeScript) -> int:
        self._recording = None
        if self._given.seed is None:
            return carry_out(self._order.printed_as(self._form), job)
        # no other run needs to wait for it
        from . import seeded
        from .library import use_library

        use_library(self._given.program_of)
        return seeded.carry_out(self._order, job, self._given.seed, self._form)

    def _read(self, record: Record) -> Iterator[str]:
        """Reads the record in place of printing it."""
        if record.what is not None:
            self._recording = read_recording(record)
        return iter(())

    def _walk(self, script: Assembled) -> Walk:
        """A walk through the run. Raises Unknown if it has no request."""
        if self._recording is None or not len(self._recording):
            raise Ended("the job has no request to debug")
        images = load_images(self._given.script, self._order.loads)
        plain = replace(script, script=with_sizes(script.script, images))
        return Walk(self._recording, Job(plain, self._media()))

    def _media(self) -> Mapping[int, Medium]:
        try:
            return {unit: read_image(name) for unit, name in self._order.loads.items()}
        except Unreadable as error:
            raise of_file(error.name, error.sentence) from None


