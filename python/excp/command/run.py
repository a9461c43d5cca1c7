"""`run`: runs a script by `excp_job`, whose output and errors it prints as they are.

After a fault it says what is wrong with the script. A job in symbols, which `excp_job` rejects, is
assembled and runs again.
"""

from __future__ import annotations

import os
import shutil
import stat
from dataclasses import dataclass
from typing import BinaryIO, Callable, List, Sequence

from ..programs.children import ended
from ..programs.choice import Mode, choose
from ..programs.home import Home
from ..script.limits import MOST_SCRIPT_BYTES
from .streams import (
    COMMAND, ERRORS, REJECTED, STANDARD_INPUT, USAGE, Ended, opened_script,
)


@dataclass(frozen=True)
class Run:
    """A run of a script: the build that is asked for, and words for `excp_job run`."""

    home: Home
    mode: Mode
    words: Sequence[str]

    def options(self) -> Sequence[str]:
        """The options for the program. Raises Ended."""
        return run_options(self.words)

    def command(self, before_build: Callable[[], None] = lambda: None) -> List[str]:
        """The program with its words. Builds it if need be, after this call. Raises Ended, and
        NotBuilt."""
        options = self.options()
        return [str(choose(self.home, "excp_job", self.mode, before_build)), "run", *options]


def run_options(words: Sequence[str]) -> Sequence[str]:
    """The options of a run, as `excp_job run` takes them. Raises Ended."""
    if not words:
        return []
    # most runs have none, and need not wait for the modules that read them
    from .options import add_workers
    from .parser import WordParser

    parser = WordParser(COMMAND)
    add_workers(parser)
    try:
        given = vars(parser.read(words))
    except Ended:
        _check_report(words)
        raise
    return [f"--{name}={value}" for name, value in given.items() if value is not None]


def _check_report(words: Sequence[str]) -> None:
    """Raises Ended if these are options of `report`, with a text that says so."""
    from .parser import WordParser
    from .report import add_arguments

    parser = WordParser("report")
    add_arguments(parser)
    try:
        given = parser.read(words)
    except Ended:
        return
    if given.script is None:
        of_report = f"{' '.join(words)}: report takes this, and a run does not"
        raise Ended(f"{of_report}; excp report --help lists the options", USAGE)


def run_script(run: Run, script: str) -> int:
    """Runs a script, standard input if its name is `-`. Returns the exit status. Raises Ended,
    whose cause is an error of opening the script, and NotBuilt."""
    try:
        return _run_script(run, script)
    except OSError as error:
        raise Ended(f"excp_job cannot be run: {error.strerror}") from None


def _run_script(run: Run, script: str) -> int:
    if script == "-":
        return _run_input(run)
    with opened_script(script) as given:
        run.options()
        if stat.S_ISREG(os.fstat(given.fileno()).st_mode):
            return _run_file(run, script, given)
        with _copied(given) as copy:
            return _run_file(run, script, copy)


def _run_input(run: Run) -> int:
    """Runs the script of standard input. The program says why if that cannot be read."""
    run.options()
    try:
        with opened_script(None) as given:
            copy = _copied(given)
    except OSError:
        return ended(run.command())
    with copy:
        return _run_file(run, STANDARD_INPUT, copy)


def _copied(given: BinaryIO) -> BinaryIO:
    """A file with the script of a pipe, as far as the program reads it."""
    return in_memory(given.read(MOST_SCRIPT_BYTES + 1))


def _run_file(run: Run, script: str, given: BinaryIO) -> int:
    """Runs a script of a file. What the program says is printed once it is known not to be about
    symbols."""
    command = run.command(lambda: _check(script, given))
    with in_memory() as errors:
        status = ended(command, given, errors)
        if status != REJECTED:
            copy_errors(errors)
            return status
        # most runs have no fault, and need not wait for the modules that find one
        from .faults import after_fault

        given.seek(0)
        return after_fault(command, script, given, errors)


def _check(script: str, given: BinaryIO) -> None:
    """Raises Rejected, after a fault was printed, or Ended, for a script that no program is to be
    built for."""
    from .faults import before_build

    before_build(script, given)
    given.seek(0)


def in_memory(text: bytes = b"") -> BinaryIO:
    """A new file without a name, with this text, for what a program reads or writes."""
    file = open(os.memfd_create("excp"), "w+b")
    file.write(text)
    file.seek(0)
    return file


def copy_errors(errors: BinaryIO) -> None:
    """Prints what a program has written to this file, on standard error, if that can be written."""
    errors.seek(0)
    try:
        with open(ERRORS, "wb", closefd=False) as output:
            shutil.copyfileobj(errors, output)
    except OSError:
        pass
