"""The forms of a report: what each needs of a record, and what makes it. That of a page has a
module of its own."""

from __future__ import annotations

from dataclasses import dataclass, replace
from typing import TYPE_CHECKING, Callable, Iterator, Optional, Sequence

from ..reporting.look import Look
from ..reporting.record import Part, Record
from .options import MOST, words_of

if TYPE_CHECKING:
    from ..symbols import Assembled

# The names of the forms that have each command as text. The second prints each round of a loop.
STEPS, ALL_STEPS = "steps", "all-steps"


@dataclass(frozen=True)
class Form:
    """A form: the part of a record that it needs, with at most `most` commands of each unit, and
    what makes its pieces of text."""

    part: Part
    pieces: Callable[[Record], Iterator[str]]
    most: Optional[int] = None

    @property
    def words(self) -> Sequence[str]:
        """The words that ask a program for the record."""
        return words_of(form=self.part.value, most=self.most)


def json_form(title: str, most: Optional[int]) -> Form:
    """The JSON of a report with this title and at most `most` commands of each unit."""
    from ..reporting.run_json import json_report

    # commands that it leaves out touch the media too
    return Form(Part.STEPS, lambda record: json_report(record, title, most or MOST))


def text_form(name: Optional[str], most: Optional[int], look: Look, script: Assembled) -> Form:
    """The text of an option, or without one; with at most `most` commands of each unit of a
    script."""
    # no form needs to wait for the modules of the others
    if name == "posts":
        from ..reporting.post_lines import post_lines

        return Form(Part.POSTS, lambda record: post_lines(record, look))
    from ..reporting.text import text_report

    if name not in (STEPS, ALL_STEPS):
        return Form(Part.EVENTS, lambda record: text_report(record, look))
    return Form(
        Part.STEPS,
        lambda record: text_report(record, _of_steps(look, name == STEPS, script)),
        most,
    )


def _of_steps(look: Look, folds_loops: bool, script: Assembled) -> Look:
    """How the commands of a script look."""
    from ..symbols.source_map import source_map

    return replace(look, folds_loops=folds_loops, source=source_map(script))
