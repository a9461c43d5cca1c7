"""A copy of a record for what reads it after the run, beside what prints it."""

from __future__ import annotations

from typing import Iterator, List, Optional

from ..reporting.record import Record

# The most characters of a record that is copied.
_MOST = 1 << 19


class RecordCopy:
    """The lines of a record, once it was taken; none of a long one."""

    def __init__(self) -> None:
        self.lines: Optional[List[str]] = []
        self._length = 0

    def of(self, record: Record) -> Record:
        """The same record, whose lines are copied as they are taken."""
        return Record(self._copied(record))

    def _copied(self, record: Record) -> Iterator[str]:
        while record.what is not None:
            line = f"{record.take()}\n"
            self._length += len(line)
            if self.lines is not None and self._length <= _MOST:
                self.lines.append(line)
            else:
                self.lines = None
            yield line
