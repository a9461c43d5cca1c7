"""`report`: runs a script, and prints its posts and what the run left behind; with `--listing` it
runs nothing, and prints the script with each area in symbols."""

from __future__ import annotations

import argparse
from typing import TYPE_CHECKING, Optional

from ..checking import check_script, has_rejected_line
from ..checking.loaded import with_sizes
from ..images.ebcdic import seen
from ..reporting.look import Look, in_ascii
from ..script.forms import listed
from .options import (
    MOST, add_workers, check_exclusions, is_given, number, unit_files, words_of,
)
from .script_file import add_script, read_plain, worth_printing
from .streams import (
    ERRORS, OUTPUT, REJECTED, name_of, print_findings, takes_colour, write_output,
)
from .unit_files import add_load, add_save, load_images

if TYPE_CHECKING:
    from ..symbols import Assembled
    from .forms import Form

_FORMS = {
    "steps": "the commands of each history too, loops folded",
    "all-steps": "every command of each history too",
    "json": "all of a report as JSON",
    "html": "all of a report as one page for a browser",
    "posts": "the posts and their count alone",
    "listing": "runs nothing: each area in symbols",
}
_WITH_MOST = ("steps", "all-steps", "json")

_COLOURS = ("auto", "always", "never")

_EXCLUSIONS = {"seed": ("channels", "handlers"), "ascii": ("json", "html", "posts", "listing")}
_OF_LISTING = {"listing": ("seed", "save", "channels", "handlers")}


def add_arguments(parser: argparse.ArgumentParser) -> None:
    add_workers(parser)
    forms = parser.add_mutually_exclusive_group()
    for name, says in _FORMS.items():
        forms.add_argument(f"--{name}", action="store_true", help=says)
    parser.add_argument("--ascii", action="store_true", help="text as ASCII")
    parser.add_argument("--color", type=_colour, metavar="WHEN", help="red: auto, always, never")
    parser.add_argument("--most-steps", type=number(1, MOST), metavar="N", help="so many commands")
    parser.add_argument("--seed", type=number(0, MOST), metavar="N", help="by its schedule")
    parser.add_argument("--scenario", metavar="FILE", help="writes the schedule as a scenario")
    add_load(parser)
    add_save(parser)
    add_script(parser)


def run(given: argparse.Namespace) -> int:
    check_exclusions(given, {**_EXCLUSIONS, **(_OF_LISTING if given.listing else {})})
    form = next((name for name in _FORMS if is_given(given, name)), None)
    if given.most_steps is not None and form not in _WITH_MOST:
        given.usage_error("--most-steps N needs --steps, --all-steps or --json")
    if given.scenario is not None and given.seed is None:
        given.usage_error("--scenario FILE needs --seed N")
    return _list(given) if given.listing else _report(given, form)


def _colour(word: str) -> str:
    if word not in _COLOURS:
        raise argparse.ArgumentTypeError(f"'{word}': expected {listed(_COLOURS)}")
    return word


def _look(given: argparse.Namespace) -> Look:
    """How the text of a report looks with these options."""
    has_colour = takes_colour(OUTPUT) if given.color in (None, "auto") else given.color == "always"
    return Look(in_ascii if given.ascii else seen, has_colour)


def _report(given: argparse.Namespace, name: Optional[str]) -> int:
    from .tools import Order
    from .whole_script import read_job

    words = words_of(channels=given.channels, handlers=given.handlers)
    order = Order.of(given, "report", words)
    job = read_job(given.script, order.loads)
    form = _form(given, name, job.script)
    if given.seed is not None:
        from . import seeded
        from .library import use_library

        use_library(given.program_of)
        return seeded.carry_out(order, job, given.seed, form)
    from .tool_run import carry_out

    return carry_out(order.printed_as(form), job)


def _form(given: argparse.Namespace, name: Optional[str], script: Assembled) -> Form:
    from .forms import json_form, text_form
    from ..programs.home import LIBRARY
    from .tools import PROGRAM, title_of

    if name == "html":
        from .page_form import page_form

        if given.seed is not None:
            return page_form(given, LIBRARY, f"seed {given.seed}", script)
        return page_form(given, PROGRAM, "threads", script)
    if name == "json":
        return json_form(title_of(given.script), given.most_steps)
    return text_form(name, given.most_steps, _look(given), script)


def _list(given: argparse.Namespace) -> int:
    from ..symbols.job_listing import job_listing
    from ..symbols.listing import listing

    images = load_images(name_of(given.script), unit_files(given, "load"))
    script = read_plain(given.script, lambda: images, ERRORS)
    findings = check_script(script, images)
    if has_rejected_line(findings):
        print_findings(worth_printing(findings, script.script), given.script, ERRORS)
        return REJECTED
    if script.job is None:
        write_output([listing(with_sizes(script.script, images))])
    else:
        write_output([job_listing(script)])
    return 0
