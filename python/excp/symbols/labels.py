"""The labels of an area, and expressions: a label, a length, `*` or a number, with a distance."""

from __future__ import annotations

import re
from dataclasses import dataclass
from itertools import islice
from typing import Iterator, Mapping, Optional

from ..device_commands import FLAGS
from ..findings import FaultName
from ..script.limits import HIGHEST_ADDRESS
from ..script.suggestions import nearest
from .mistakes import Mistake
from .numbers import up_to_top
from .words import Word

# How many labels of an area an unknown one is compared with.
_COMPARED = 64

_LABEL = re.compile(r"[A-Za-z_$#@][A-Za-z0-9_$#@]{0,62}")

UNDEFINED = "no statement of this area has this label"
_NO_LABEL = "not a label: expected 1 to 63 letters, digits, _, $, # or @, and no digit first"
_NO_ADDRESS = "not an address: expected a label, * or a number, then +N, -N or nothing"
_NO_NUMBER = (
    "not a number: expected decimal digits, or hexadecimal ones as X'1F', up to X'FFFFFF'"
)
_NO_LENGTH = (
    "this label is alone on its line, and has no length: put it before the statement that it names"
)
_NO_NAME = "no label follows: expected L'LABEL, the number of bytes of its statement"
_NO_STATEMENT = "no statement follows whose address it could be: expected a label"


def is_length(word: Word) -> bool:
    """Whether an expression begins with the length of a label."""
    return word.text.startswith("L'")


@dataclass
class Label:
    """An address, and the length of the statement there. A label alone on its line has none."""

    address: int
    length: Optional[int]


class UnknownLabel(Mistake):
    """A word that is no label of its area, or is one only later."""

    def __init__(self, word: Word, text: str, meant: Optional[str], own: Labels) -> None:
        super().__init__(FaultName.NAME, text, word, meant)
        self.label, self._unknown, self._own = word, text, own

    def if_elsewhere(self, area: int, line: int) -> Mistake:
        """This mistake, once the area that this line opens is known to have the label."""
        if self.label.text in self._own:
            return self
        text = f"{self._unknown}; area {area} (line {line}) has it"
        return Mistake(FaultName.NAME, text, self.label)


class Labels:
    """The labels of an area."""

    def __init__(self) -> None:
        self._labels: dict[str, Label] = {}

    def __contains__(self, label: str) -> bool:
        return label in self._labels

    def __iter__(self) -> Iterator[str]:
        return iter(self._labels)

    def placed(self) -> Mapping[str, Label]:
        """Each label by its name, in the order in which they are defined."""
        return self._labels

    def define(self, word: Word, label: Label) -> None:
        """Defines a label. Raises Mistake if its name is wrong, or is there already."""
        if not _LABEL.fullmatch(word.text):
            raise Mistake(FaultName.NUMBER, _NO_LABEL, word)
        if word.text in FLAGS:
            another = "a flag has this name: give the label another one"
            raise Mistake(FaultName.NUMBER, another, word)
        if word.text in self._labels:
            raise Mistake(FaultName.ORDER, "this label comes twice in its area", word)
        self._labels[word.text] = label

    def find(self, word: Word, unknown: str = UNDEFINED) -> Label:
        """The label of this name. `unknown` is the text on one that is not defined."""
        if word.text in self._labels:
            return self._labels[word.text]
        # one or two characters mean no other label
        first = islice(self._labels, _COMPARED if len(word.text) > 2 else 0)
        raise UnknownLabel(word, unknown, nearest(word.text, first), self)

    def address(self, word: Word, here: Optional[int], unknown: str = UNDEFINED) -> int:
        """The value of an expression: a label, L'LABEL, `*` or a number, with +N or -N or without.
        `*` is `here`."""
        sign = re.search("[+-]", word.text)
        end = sign.start() if sign else len(word.text)
        term, offset = word.part(0, end), word.part(end + 1)
        if not term.text or (sign and not offset.text):
            raise Mistake(FaultName.NUMBER, _NO_ADDRESS, word)
        value = self._term(term, here, unknown)
        if sign:
            distance = up_to_top(offset, _NO_NUMBER)
            value += distance if sign[0] == "+" else -distance
        if not 0 <= value <= HIGHEST_ADDRESS:
            outside = "not an address of storage: expected 0 to X'FFFFFF'"
            raise Mistake(FaultName.NUMBER, outside, word)
        return value

    def _term(self, term: Word, here: Optional[int], unknown: str) -> int:
        if term.text == "*":
            if here is None:
                raise Mistake(FaultName.NUMBER, _NO_STATEMENT, term, is_address=True)
            return here
        if is_length(term):
            name = term.part(2)
            if not name.text:
                raise Mistake(FaultName.NUMBER, _NO_NAME, term)
            length = self.find(name, unknown).length
            if length is None:
                raise Mistake(FaultName.NUMBER, _NO_LENGTH, name)
            return length
        if _LABEL.fullmatch(term.text):
            return self.find(term, unknown).address
        return up_to_top(term, _NO_ADDRESS)
