"""Large files that are read or written. On a terminal, a line on standard error says how many bytes
went by."""

from __future__ import annotations

import contextlib
import io
import sys
from typing import BinaryIO, Union, cast

from ..findings import printable_name

AT_A_TIME = 1 << 16

# How many bytes go by before the first line, and from one to the next.
STEP = 64 << 20


class CountedFile(io.FileIO):
    """A file without a buffer, which says how many bytes went by."""

    def __init__(self, file: Union[str, int], mode: str, name: str, done: str) -> None:
        super().__init__(file, mode)
        self._title, self._done = printable_name(name), done
        self._bytes = self._steps = 0
        self._is_told = sys.stderr is not None and sys.stderr.isatty()

    def readinto(self, buffer) -> int:  # type: ignore[no-untyped-def]
        return self._counted(super().readinto(buffer) or 0)

    def write(self, data) -> int:  # type: ignore[no-untyped-def]
        return self._counted(super().write(data) or 0)

    def close(self) -> None:
        if not self.closed and self._steps:
            self._steps = 0
            self._tell("\r\x1b[K")
        super().close()

    def _counted(self, count: int) -> int:
        self._bytes += count
        if self._is_told and self._bytes // STEP != self._steps:
            self._steps = self._bytes // STEP
            self._tell(f"\rexcp: {self._title}: {self._bytes >> 20} MiB {self._done}")
        return count

    @staticmethod
    def _tell(text: str) -> None:
        with contextlib.suppress(OSError, ValueError):
            print(text, end="", file=sys.stderr, flush=True)


def reader(name: str) -> BinaryIO:
    """The file of this name, to be read. Raises OSError as `open`."""
    return cast(BinaryIO, io.BufferedReader(CountedFile(name, "r", name, "read"), AT_A_TIME))


def writer(descriptor: int, name: str) -> BinaryIO:
    """A file that was opened for this name, to be written."""
    return cast(
        BinaryIO, io.BufferedWriter(CountedFile(descriptor, "w", name, "written"), AT_A_TIME)
    )
