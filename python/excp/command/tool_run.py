"""Runs excp_tools on a script, and says what it leaves to be said. It has no command line of its
own: options, files and symbols are judged here.

The files of media are open here: the program loads an image, and fills a new file, by the number of
its descriptor. The new files take the places of their targets after a good end.
"""

from __future__ import annotations

import contextlib
import os
from enum import IntEnum
from typing import AbstractSet, Iterator, List, Optional, Tuple

from ..files.new_files import NewFiles
from ..files.refusals import Unwritten
from ..files.signals import end_if_asked, held_back
from ..files.targets import Output, Targets
from ..images.measured import measured
from ..images.reading import Unreadable
from ..images.unpacking import plain_file
from ..programs.children import ended
from .handing import handed, name_in_texts
from .printing import Printing
from .streams import (
    ERRORS, REJECTED, Ended, ReaderGone, error_of_program, name_of, of_file, print_findings,
    say_removed,
)
from .tools import PROGRAM, Order
from .unit_files import load_images
from .units import check_fit, with_content
from .whole_script import WholeScript


class Status(IntEnum):
    """How the program ends if the package has more to say, or to do."""

    # a line, a medium, a DCB or a request of the script is refused
    REFUSED = 7
    # an image cannot be loaded
    NO_IMAGE = 8
    # a unit of a file is not declared, or no model of disks is as one
    UNFIT = 9
    # nothing reads the output any more
    READER_GONE = 11


# The end after which the new files are whole.
_GOOD = 0


def carry_out(order: Order, source: WholeScript) -> int:
    """Runs the program on a script. Returns the exit status. Raises Ended, and NotBuilt."""
    try:
        with contextlib.ExitStack() as stack:
            status = _Run(order, source, stack).status()
        return said(order, source, status)
    except (Unreadable, Unwritten) as error:
        raise of_file(error.name, error.sentence) from None
    except OSError as error:
        raise Ended(f"{PROGRAM} cannot be run: {error.strerror}") from None


class _Run:
    """A run of the program: its words so far, and the numbers of the files that it is handed."""

    def __init__(self, order: Order, source: WholeScript, stack: contextlib.ExitStack) -> None:
        self._order, self._source, self._stack = order, source, stack
        self._words: List[str] = list(order.words)
        self._files: List[int] = []

    def status(self) -> int:
        """Runs the program, and returns its exit status."""
        order, targets = self._order, self._order.targets()
        for unit, name in order.loads.items():
            image = self._stack.enter_context(plain_file(name))
            self._hand(f"load={unit}", image.fileno(), name)
        self._words.insert(0, str(order.program_of(PROGRAM)))
        with held_back() as mask:
            return self._ended(targets, mask)

    def _hand(self, word: str, descriptor: int, name: str) -> None:
        """Hands an open file to the program, with its name in texts."""
        number = handed(descriptor)
        self._stack.callback(os.close, number)
        self._files.append(number)
        self._words.append(f"{word}={number}={name_in_texts(name)}")

    def _ended(self, targets: Targets, mask: AbstractSet[int]) -> int:
        """A run whose new files take their places after a good end."""
        new = NewFiles(targets)
        try:
            for word, output in self._outputs():
                replacement = new.begin(output)
                say_removed(output.name, replacement.removed)
                self._hand(word, replacement.descriptor, output.name)
            status, failure = self._ended_and_printed(mask)
            end_if_asked()
            # the media are saved although nothing reads the report
            if status == _GOOD and (failure is None or isinstance(failure, ReaderGone)):
                new.finish(self._known)
            if failure is not None and status in (_GOOD, Status.READER_GONE):
                raise failure
            return status
        finally:
            new.abandon()

    def _ended_and_printed(self, mask: AbstractSet[int]) -> Tuple[int, Optional[Exception]]:
        """The exit status of the program, and why its report is not printed, if it is not."""
        form, printing = self._order.form, None
        if form is not None:
            has_new_files = next(self._outputs(), None) is not None
            printing = Printing(form, is_awaited=has_new_files)
        with self._source.opened() as given:
            status = ended(self._words, given, files=self._files, mask=mask, reader=printing)
        return status, printing.failure if printing is not None else None

    def _outputs(self) -> Iterator[Tuple[str, Output]]:
        """The files that the program fills, each with the word that hands it over."""
        for unit, name in self._order.saves.items():
            yield f"save={unit}", self._known(Output(name, None, unit))

    def _known(self, output: Output) -> Output:
        return with_content(output, self._source.units())


def said(order: Order, source: WholeScript, status: int) -> int:
    """Says what the program has left to be said. Returns the exit status of the command."""
    if status == Status.REFUSED:
        findings = source.findings(load_images(name_of(order.script), order.loads))
        if not any(finding.is_fault for finding in findings):
            raise error_of_program("the program rejects this script, and 'check' finds no fault")
        print_findings(findings, source.file, ERRORS)
        return REJECTED
    if status == Status.NO_IMAGE:
        for name in order.loads.values():
            measured(name)
        raise error_of_program("the program loads an image not, in which 'describe' finds no fault")
    if status == Status.UNFIT:
        check_fit(source.units() or (), order.loads, order.saves)
        raise error_of_program("the program finds a file for no unit")
    if status == Status.READER_GONE:
        return 0
    return status
