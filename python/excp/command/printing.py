"""Prints a form of the record that a program writes, in a thread of its own. The main thread waits
for the program and for signals, so a signal ends a report whose reader has stopped."""

from __future__ import annotations

import io
import os
import queue
import threading
from itertools import chain
from typing import IO, Callable, Iterable, Iterator, Optional

from ..reporting.kept import NotKept
from ..reporting.record import Record
from .forms import Form
from .streams import (
    FAILED, OUT_OF_MEMORY, OUTPUT, Ended, NotWritten, error_of_program, is_open, write_output,
)

# The bytes that are read at a time if nothing uses them.
_AT_A_TIME = 1 << 16


class _CutShort(Exception):
    """The program has ended before the end of its record, and has said why."""


def print_record(form: Form, lines: Iterable[str]) -> None:
    """Prints a form of the record that has these lines. Raises ReaderGone, Ended and
    MemoryError."""
    try:
        _print(form, Record(lines), is_open(OUTPUT))
    except (NotKept, ValueError, LookupError, TypeError) as error:
        raise _as_end(error) from None


class Printing:
    """Prints a form of a record. `is_awaited` says that the program is to reach its end although
    nothing is printed any more.

    `failure` is why not all is printed: ReaderGone, Ended or MemoryError.
    """

    def __init__(self, form: Form, is_awaited: bool) -> None:
        self.is_over = False
        self.failure: Optional[Exception] = None
        self._form, self._is_awaited = form, is_awaited
        self._has_output = is_open(OUTPUT)
        self._status: queue.SimpleQueue[int] = queue.SimpleQueue()

    def begin(self, output: IO[bytes], wake: Callable[[], None]) -> None:
        """Begins to read and print. No process may be forked any more."""
        try:
            threading.Thread(target=self._run, args=(output, wake), daemon=True).start()
        except RuntimeError:
            raise Ended("no thread can be made to print the report", FAILED) from None

    def program_ended(self, status: int) -> None:
        """The program has ended, with this status, negative after a signal."""
        self._status.put(status)

    def _run(self, output: IO[bytes], wake: Callable[[], None]) -> None:
        # closes the output when it goes
        lines = io.TextIOWrapper(output, encoding="ascii", newline="\n")
        try:
            _print(self._form, Record(self._whole(lines)), self._has_output)
        except _CutShort:
            pass
        except Exception as error:
            self.failure = _as_end(error)
            while self._is_awaited and os.read(lines.fileno(), _AT_A_TIME):
                pass
        finally:
            lines.close()
            self.is_over = True
            wake()

    def _whole(self, lines: Iterable[str]) -> Iterator[str]:
        """The lines, if they are a whole record. Raises _CutShort after the last one of another."""
        yield from lines
        status = self._status.get()
        if status < 0 or status == OUT_OF_MEMORY:
            raise _CutShort


def _print(form: Form, record: Record, has_output: bool) -> None:
    """Prints a form of a record, on standard output if that is open."""
    parts = (piece.encode() for piece in form.pieces(record))
    # without a record nothing is printed, whatever the output is
    for part in parts:
        if not has_output:
            raise NotWritten
        write_output(chain([part], parts))
    if record.what is not None:
        raise ValueError("lines after the end of a record")


def _as_end(error: Exception) -> Exception:
    """Why the command ends after this error."""
    if isinstance(error, NotKept):
        return Ended(f"no file can be written that keeps parts of the report: {error}")
    if isinstance(error, (ValueError, LookupError, TypeError)):
        return error_of_program("a record of the program has another form")
    return error
