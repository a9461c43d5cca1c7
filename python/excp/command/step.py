"""`step`: carries out a scenario event by event, and prints each answer at once."""

from __future__ import annotations

import argparse
import os
import stat
from typing import TYPE_CHECKING, Optional

from ..programs.home import LIBRARY
from .forms import Form, json_form
from .options import MOST, check_exclusions, number
from .script_file import add_script
from .streams import INPUT, Ended, opened_script
from .tools import Order, title_of
from .unit_files import add_load, add_save

if TYPE_CHECKING:
    from ..symbols import Assembled
    from .stepped import Lines

_EXCLUSIONS = {"json": ("trace", "state"), "html": ("json", "trace", "state")}


def add_arguments(parser: argparse.ArgumentParser) -> None:
    parser.add_argument("--plain", action="store_true", help="changes nothing")
    parser.add_argument("--trace", action="store_true", help="the entries that each event adds")
    parser.add_argument("--state", action="store_true", help="the state of each unit")
    parser.add_argument("--json", action="store_true", help="at the end all as JSON")
    parser.add_argument("--html", action="store_true", help="at the end all as a page")
    parser.add_argument("--most-steps", type=number(1, MOST), metavar="N", help="so many commands")
    add_load(parser)
    add_save(parser)
    add_script(parser)


def run(given: argparse.Namespace) -> int:
    check_exclusions(given, _EXCLUSIONS)
    if given.most_steps is not None and not given.json:
        given.usage_error("--most-steps N needs --json")
    order = Order.of(given, "step", ())
    if given.script is None:
        return _step_input(given, order)
    with opened_script(given.script) as script:
        if not stat.S_ISREG(os.fstat(script.fileno()).st_mode):
            return _step_lines(given, order, script.fileno())
    from .stepped import whole_lines
    from .whole_script import read_scenario

    scenario = read_scenario(given.script, order.loads)
    lines = whole_lines(scenario.script.script)
    return _step(given, order, lines, scenario.script)


def _step_input(given: argparse.Namespace, order: Order) -> int:
    try:
        os.fstat(INPUT)
    except OSError:
        raise Ended("script unreadable") from None
    return _step_lines(given, order, INPUT)


def _step_lines(given: argparse.Namespace, order: Order, descriptor: int) -> int:
    """Carries out a scenario whose lines may come one by one, each after the answer to the one
    before."""
    from .stepped import lines_as_they_come

    return _step(given, order, lines_as_they_come(descriptor), None)


def _step(
    given: argparse.Namespace, order: Order, lines: Lines, script: Optional[Assembled]
) -> int:
    from ..stepping.scenario import Wanted
    from .library import use_library
    from .stepped import carry_out

    use_library(given.program_of)
    form = _form(given, script)
    wanted = Wanted(given.trace, given.state, form is not None, words=lines.is_typed)
    return carry_out(order, lines, wanted, form)


def _form(given: argparse.Namespace, script: Optional[Assembled]) -> Optional[Form]:
    """The form of the record, if one is asked for."""
    if given.json:
        return json_form(title_of(given.script), given.most_steps)
    if not given.html:
        return None
    # no other form needs to wait for it
    from .page_form import page_form

    return page_form(given, LIBRARY, "its events", script)
