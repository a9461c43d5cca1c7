"""The form of a report that is a page: of the run, its script, and the program that ran it."""

from __future__ import annotations

import argparse
from pathlib import Path
from typing import Optional

from ..debugging.record_copy import RecordCopy
from ..programs.home import LIBRARY
from ..programs.version import build_of, library_build
from ..reporting.job_json import job_json
from ..reporting.page import About, page_report
from ..reporting.record import Part
from ..symbols import Assembled
from .forms import Form
from .options import MOST, unit_files
from .tools import title_of


def page_form(
    given: argparse.Namespace, program: str, how: str, script: Optional[Assembled] = None
) -> Form:
    """The page of a run with these options by a program or the library. `how` says what the run
    went by; a script that comes line by line is not known."""
    loads, copy = unit_files(given, "load"), RecordCopy()
    about = About(
        title_of(given.script),
        lambda: _foot(given.program_of(program), how),
        lambda: job_json(script, loads.keys()),
        lambda: [_states(copy, None if loads else script)],
    )
    return Form(Part.STEPS, lambda record: page_report(copy.of(record), about, MOST))


def _foot(program: Path, how: str) -> str:
    """Which program has run, and how. It is known once it has begun."""
    version, is_proved = library_build() if program.name == LIBRARY else build_of(program)
    return f"excp {version}, {'proved' if is_proved else 'not proved'}; run by {how}"


def _states(copy: RecordCopy, script: Optional[Assembled]) -> str:
    """The JSON of the states of requests; null of a long run, and if the script is not known."""
    if copy.lines is None or script is None:
        return "null"
    # a long page needs its memory for other things
    from ..debugging.page_states import states_json

    return states_json(copy.lines, script)
