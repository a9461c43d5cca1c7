"""Text that is kept until it is printed or read again, in a file without a name."""

from __future__ import annotations

import io
import os
import tempfile
from itertools import islice
from typing import Iterator, List

# The characters of a block that is read back.
_BLOCK = 1 << 16


class NotKept(Exception):
    """A file for text that is kept cannot be made, written or read, for this reason."""

    def __init__(self, error: OSError) -> None:
        super().__init__(error.strerror)


class KeptText:
    """A text that grows, and is read from its start or at places in it. Places are in bytes. Each
    method raises NotKept."""

    def __init__(self) -> None:
        try:
            self._file = tempfile.TemporaryFile()
        except OSError as error:
            raise NotKept(error) from None
        self._text = io.TextIOWrapper(self._file, encoding="utf-8", newline="\n")
        self.bytes = 0

    def add(self, text: str) -> int:
        """Adds to the end of the text. Returns the place where it was."""
        place = self.bytes
        try:
            self.bytes += self._file.write(text.encode())
        except OSError as error:
            raise NotKept(error) from None
        return place

    def has_at(self, start: int, part: str) -> bool:
        """Whether the text has this part at a place."""
        data = part.encode()
        try:
            self._file.seek(start)
            found = self._file.read(len(data))
            self._file.seek(0, os.SEEK_END)
        except OSError as error:
            raise NotKept(error) from None
        return found == data

    def lines_at(self, place: int, count: int) -> List[str]:
        """`count` lines from a place on, without their line feeds."""
        try:
            self._file.seek(place)
            lines = [line.decode()[:-1] for line in islice(self._file, count)]
            self._file.seek(0, os.SEEK_END)
        except OSError as error:
            raise NotKept(error) from None
        return lines

    def blocks(self) -> Iterator[str]:
        """The text in pieces."""
        try:
            self._text.seek(0)
            while block := self._text.read(_BLOCK):
                yield block
        except OSError as error:
            raise NotKept(error) from None

    def lines(self) -> Iterator[str]:
        """The lines of the text."""
        try:
            self._text.seek(0)
            yield from self._text
        except OSError as error:
            raise NotKept(error) from None
