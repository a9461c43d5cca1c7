"""What is asked of the program excp_tools or of the library."""

from __future__ import annotations

import argparse
from dataclasses import dataclass, replace
from pathlib import Path
from typing import Callable, Mapping, Optional, Sequence

from ..files.targets import Targets, UnitFile
from .forms import Form
from .handing import name_in_texts
from .options import unit_files
from .streams import name_of

PROGRAM = "excp_tools"


@dataclass(frozen=True)
class Order:
    """What is asked for: the words for the program but those of files, the files of units, that of
    the schedule, the folder of scenarios, and which build runs.

    `form` is how its record is printed; without one the program prints by itself.
    """

    words: Sequence[str]
    form: Optional[Form]
    program_of: Callable[[str], Path]
    loads: Mapping[int, str]
    saves: Mapping[int, str]
    force: bool
    script: Optional[str]
    schedule: Optional[str]
    folder: Optional[str]

    @classmethod
    def of(cls, given: argparse.Namespace, word: str, words: Sequence[str]) -> Order:
        """The order of a word with these options. Raises Ended."""
        return cls(
            words=[word, *words],
            form=None,
            program_of=given.program_of,
            loads=unit_files(given, "load"),
            saves=unit_files(given, "save") if "save" in given else {},
            force=given.force,
            script=given.script,
            schedule=getattr(given, "scenario", None),
            folder=getattr(given, "scenarios", None),
        )

    def printed_as(self, form: Form) -> Order:
        """The same, with a form for the record."""
        return replace(self, words=[*self.words, *form.words], form=form)

    def targets(self) -> Targets:
        """The rules for the files that are written. Raises Unwritten."""
        loads, saves = (
            [UnitFile(unit, name) for unit, name in files.items()]
            for files in (self.loads, self.saves)
        )
        return Targets(self.script, self.force, loads, saves, self.schedule)


def title_of(script: Optional[str]) -> str:
    """The name of a script's file as a report has it; None is standard input."""
    return name_in_texts(name_of(script))
