"""`outcomes`: prints the posts that each request can have, over all orders of steps."""

from __future__ import annotations

import argparse

from .options import check_exclusions, codes, number, words_of
from .script_file import add_script
from .tools import Order, title_of
from .unit_files import add_force, add_load
from .whole_script import read_job

_MOST = 4_294_967_295

# The options that take a number, and its range.
_NUMBERS = {
    "turn": (1, 65_535),
    "most-states": (1, _MOST),
    "most-seconds": (1, _MOST),
    "seeds": (0, _MOST),
    "often": (1, _MOST),
}

_EXCLUSIONS = {
    "often": (
        "most-seconds", "no-reductions", "whole", "media", "all", "outcome", "scenarios", "allow",
        "fix", "html",
    ),
    "outcome": ("whole", "media", "all", "scenarios", "allow", "fix", "html"),
}


def add_arguments(parser: argparse.ArgumentParser) -> None:
    for name, (least, most) in _NUMBERS.items():
        parser.add_argument(f"--{name}", type=number(least, most), metavar="N")
    says = "tries orders that lose nothing too"
    parser.add_argument("--no-reductions", action="store_true", help=says)
    parser.add_argument("--whole", action="store_true", help="the whole outputs too")
    parser.add_argument("--media", action="store_true", help="the media at the end too")
    parser.add_argument("--all", action="store_true", help="every outcome with its steps")
    place = ("T", "U", "N", "K")
    parser.add_argument("--outcome", nargs=len(place), metavar=place, type=number(0, _MOST))
    parser.add_argument("--allow", type=codes, metavar="CODES", help="the codes that are no error")
    parser.add_argument("--scenarios", metavar="DIR", help="a scenario for each outcome")
    parser.add_argument("--fix", metavar="FILE", help="the job with the changes of hints")
    parser.add_argument("--html", action="store_true", help="a page of outcomes side by side")
    add_force(parser)
    add_load(parser)
    add_script(parser)


def run(given: argparse.Namespace) -> int:
    from ..outcomes.looks import Limits
    from ..outcomes.wanted import Wanted
    from .library import use_library
    from .told_outcomes import carry_out

    check_exclusions(given, _EXCLUSIONS)
    words = words_of(whole=given.whole, media=given.media, unreduced=given.no_reductions)
    order = Order.of(given, "outcomes", words)
    job = read_job(given.script, order.loads)
    use_library(given.program_of)
    wanted = Wanted(
        limits=Limits(given.turn, given.most_states, given.most_seconds),
        seeds=given.seeds,
        often=given.often,
        has_wholes=given.whole,
        has_media=given.media,
        is_reduced=not given.no_reductions,
        tells_all=given.all,
        outcome=given.outcome,
        allow=given.allow,
        fix=given.fix,
        has_page=given.html,
        title=title_of(given.script),
    )
    return carry_out(order, job, wanted)
