"""Extents of a disk in symbols: `all`, `tracks N to M`, `cylinder C head H to ..`."""

from __future__ import annotations

from typing import NamedTuple, Optional

from ..device_commands import DEVICES, DISK
from ..findings import FaultName
from ..script.forms import LEFT_TO_IMAGE
from ..script.limits import MOST_TRACKS
from .mistakes import Mistake
from .numbers import number_of, value_of
from .words import Operands, Word, blank_separated

# The first words of an extent in symbols.
EXTENT_WORDS = ("all", "tracks", "cylinder")

NO_EXTENT = (
    "expected an extent: all, tracks N to M, cylinder C head H to cylinder C head H, or 32 "
    "hexadecimal digits"
)


class DeclaredUnit(NamedTuple):
    """What extents need of a unit: its number, its device, and the sizes of a disk, zeros if its
    image has them."""

    number: int
    device: str
    cylinders: int
    heads: int

    @classmethod
    def of_line(cls, line: Word) -> Optional[DeclaredUnit]:
        """The unit that a line declares: `disk U ISC CYLINDERS HEADS BYTES`, `tape U ..` or
        `printer U ..`."""
        words = [it.text for it in blank_separated(line)] + [""] * 5
        device, number = words[0], value_of(words[1], 10)
        if number is None or device not in DEVICES:
            return None
        unit = cls(number, device, value_of(words[3], 10) or 0, value_of(words[4], 10) or 0)
        is_known = device != DISK or words[3] == LEFT_TO_IMAGE or 1 <= unit.tracks <= MOST_TRACKS
        return unit if is_known else None

    @property
    def tracks(self) -> int:
        return self.cylinders * self.heads

    def extent(self, word: Word, words: Operands) -> str:
        """The digits of the first and the last track, and of their count, of an extent that begins
        with this word."""
        first, last = self._ends(word, words)
        return f"{self._digits(first)}{self._digits(last)}{last - first + 1:04X}"

    def _ends(self, word: Word, words: Operands) -> tuple[int, int]:
        if self.device != DISK:
            kinds = f"unit {self.number} is a {self.device}, and extents are of disks"
            raise Mistake(FaultName.EXTENT, kinds, word)
        if not self.tracks:
            wanted = f"expected the image of a disk, by --load {self.number}=FILE"
            raise Mistake(FaultName.NUMBER, f"unit {self.number} has no size: {wanted}", word)
        if word.text == "all":
            return 0, self.tracks - 1
        first = self._track(word, words)
        _expect(words, "to")
        if word.text == "cylinder":
            _expect(words, "cylinder")
        last = self._track(word, words)
        if first > last:
            early = f"the extent ends before it begins, at track {last}"
            wanted = f"expected track {first} or a later one"
            raise Mistake(FaultName.NUMBER, f"{early}: {wanted}", word)
        return first, last

    def _track(self, word: Word, words: Operands) -> int:
        """The number of the track `tracks N` or `cylinder C head H`, whose first word was read."""
        if word.text == "tracks":
            return _number_below(words, self.tracks, "track")
        cylinder = _number_below(words, self.cylinders, "cylinder")
        _expect(words, "head")
        return cylinder * self.heads + _number_below(words, self.heads, "head")

    def _digits(self, track: int) -> str:
        """The digits of the cylinder and the head of a track."""
        cylinder, head = divmod(track, self.heads)
        return f"{cylinder:04X}{head:04X}"


def _expect(words: Operands, wanted: str) -> None:
    word = words.take()
    if word.text != wanted:
        raise Mistake(FaultName.WORDS, NO_EXTENT, word)


def _number_below(words: Operands, limit: int, what: str) -> int:
    word = words.take()
    found = number_of(word.text)
    if found is None or found >= limit:
        wanted = f"not a {what} of this disk: expected a number from 0 to {limit - 1}"
        raise Mistake(FaultName.NUMBER, wanted, word)
    return found
