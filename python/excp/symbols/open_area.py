"""A symbolic area while it is assembled: its bytes, the word that has set each, its labels, and the
addresses of its statements."""

from __future__ import annotations

from typing import NamedTuple, Optional

from ..findings import FaultName
from ..script.limits import HIGHEST_ADDRESS, MOST_AREA_BYTES
from .assembled import AreaLayout
from .labels import Labels
from .mistakes import Located, Mistake
from .words import Word

_OUTSIDE = (
    f"this is outside of the area: an area has at most {MOST_AREA_BYTES} bytes, and ends at "
    f"X'{HIGHEST_ADDRESS:X}' at the latest"
)
_NO_TARGET = f"this address is outside of the area: expected one in its {MOST_AREA_BYTES} bytes"
_NOT_YET_DEFINED = "no earlier statement of this area has this label, and ORG needs one"


class _Reference(NamedTuple):
    """Bytes that get the value of an expression once all labels are known: three an address, one
    or two a length."""

    offset: int
    width: int
    here: int
    expression: Word


class OpenArea:
    """A symbolic area that was opened and not ended."""

    def __init__(self, number: Word, base: int) -> None:
        self.number, self.base, self.labels = number, base, Labels()
        self.image = bytearray()
        self.setters: list[Optional[Word]] = []
        # The address of the statement of each line.
        self.statements: dict[int, int] = {}
        # The name of the statement that is assembled.
        self.statement = number
        # The place of the next statement, in bytes from the base.
        self._next = 0
        # Whether a statement was too much. Further ones are checked, except for their place.
        self._is_full = False
        self._references: list[_Reference] = []

    @property
    def here(self) -> int:
        """The address of the next statement."""
        return self.base + self._next

    def leave(self, count: int) -> None:
        """Leaves out bytes. Those that no statement sets are zeros."""
        if not self._is_full:
            self._go_on(self._next + count)

    def put(self, image: bytes) -> None:
        """Puts bytes at the place of the next statement."""
        if not self._is_full:
            start, end = self._next, self._next + len(image)
            self._go_on(end)
            self.image[start:end] = image
            self.setters += [None] * (end - len(self.setters))
            self.setters[start:end] = [self.statement] * len(image)

    def refer(self, ahead: int, width: int, expression: Word) -> None:
        """Gives bytes ahead of the next statement's place the value of an expression, at the end
        of the area."""
        self._references.append(_Reference(self._next + ahead, width, self.here, expression))

    def go_to(self, expression: Word) -> None:
        """Goes on at an address whose labels are known, or after the highest byte."""
        target = self.base + len(self.image)
        if expression.text:
            target = self.labels.address(expression, self.here, _NOT_YET_DEFINED)
        if not self._is_full:
            if not 0 <= target - self.base <= MOST_AREA_BYTES:
                raise Mistake(FaultName.AREA, _NO_TARGET, expression)
            self._go_on(target - self.base)

    def _go_on(self, place: int) -> None:
        """Goes on at a place, and makes room for the bytes before it."""
        if place > MOST_AREA_BYTES or self.base + place > HIGHEST_ADDRESS + 1:
            self._is_full = True
            raise Mistake(FaultName.AREA, _OUTSIDE)
        self.image += bytes(max(0, place - len(self.image)))
        self._next = place

    def layout(self) -> AreaLayout:
        """Where the area is, once it has ended."""
        return AreaLayout(
            self.number.line,
            self.base,
            bytes(self.image),
            self.setters,
            self.labels.placed(),
            self.statements,
        )

    def end(self) -> list[Located]:
        """Sets the bytes of all references. Returns the mistakes in them."""
        mistakes = []
        for reference in self._references:
            try:
                self._set(reference)
            except Mistake as mistake:
                mistakes.append(Located(reference.expression.line, mistake))
        return mistakes

    def _set(self, reference: _Reference) -> None:
        offset, width, here, word = reference
        value = self.labels.address(word, here)
        if width < 3 and value >= 256**width:
            text = "a key has at most 255 bytes" if width == 1 else "a count is at most 65535"
            raise Mistake(FaultName.NUMBER, f"too long: {text}", word)
        # bytes that other lines have set are those of later statements
        for at, byte in enumerate(value.to_bytes(width, "big"), offset):
            setter = self.setters[at] if at < len(self.setters) else None
            if setter is not None and setter.line == word.line:
                self.image[at], self.setters[at] = byte, word
